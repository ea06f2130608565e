/* Counts checks, names the first that fail. */
#ifndef CHECK_H
#define CHECK_H
#include <stdio.h>

static unsigned long checks, failures;

static void check(const char *what, int holds) {
    checks++;
    if (holds) return;
    failures++;
    if (failures <= 20) printf("FAILED %s\n", what);
}

static int done(const char *name) {
    printf("%s: %lu checks, %lu failed\n", name, checks, failures);
    return failures != 0;
}
#endif
