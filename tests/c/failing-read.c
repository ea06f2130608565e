/* Preloaded: the first read of standard input brings at most 44 bytes, an image of two processes and one word, and the next
   one fails. */
#define _GNU_SOURCE
#include <errno.h>
#include <sys/syscall.h>
#include <unistd.h>

ssize_t read(int fd, void *to, size_t count) {
    static int reads;
    if (fd != 0 || reads++ == 0) return syscall(SYS_read, fd, to, count < 44 ? count : 44);
    errno = EIO;
    return -1;
}
