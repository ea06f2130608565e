/* Preloaded: the first write to standard output takes 10 bytes, and the next one fails. */
#define _GNU_SOURCE
#include <errno.h>
#include <sys/syscall.h>
#include <unistd.h>

ssize_t write(int fd, const void *from, size_t count) {
    static int writes;
    if (fd != 1) return syscall(SYS_write, fd, from, count);
    if (writes++ == 0) return syscall(SYS_write, fd, from, count < 10 ? count : 10);
    errno = EIO;
    return -1;
}
