/* Memory lent between guards. */
#ifndef LEND_H
#define LEND_H
#include <stdlib.h>
#include <string.h>

enum { GUARD_BYTES = 32 };

/* Lent bytes with guards on both sides, and a second copy of all that: what must be there after the call. Of 0 bytes NULL is
   lent. */
struct lent {
    size_t bytes;
    unsigned char *memory, *expected;
};

static void *lent_memory(const struct lent *l) { return l->bytes ? l->memory + GUARD_BYTES : NULL; }

/* The first `bytes` lent bytes must be these after the call. */
static void must_hold(struct lent *l, const void *content, size_t bytes) {
    if (bytes) memcpy(l->expected + GUARD_BYTES, content, bytes);
}

/* Lends memory with a content, or with a pattern where `content` is NULL; it must be the same after the call. */
static struct lent lend(const void *content, size_t bytes) {
    struct lent l = {bytes, (unsigned char *)malloc(bytes + 2 * GUARD_BYTES), (unsigned char *)malloc(bytes + 2 * GUARD_BYTES)};
    if (!l.memory || !l.expected) abort();
    for (size_t i = 0; i < bytes + 2 * GUARD_BYTES; i++) l.expected[i] = (unsigned char)(i * 7 + 3);
    if (content) must_hold(&l, content, bytes);
    memcpy(l.memory, l.expected, bytes + 2 * GUARD_BYTES);
    return l;
}

/* Whether lent bytes and guards are as they must be; ends the loan. */
static int given_back(struct lent *l) {
    int good = memcmp(l->memory, l->expected, l->bytes + 2 * GUARD_BYTES) == 0;
    free(l->memory), free(l->expected);
    return good;
}
#endif
