/* How much stack each function needs: it is called on a thread whose stack is filled with a pattern, and the deepest byte that
   changed is looked for. And each is called on a thread with a small stack, and answers what the main thread got. */
#define _POSIX_C_SOURCE 200809L
#include "calls.h"
#include "check.h"

#include <pthread.h>
#include <stdlib.h>

enum { STACK = 1 << 20, SMALL = 128 << 10, BELOW_START = 16 << 10, SETS = 20 };

struct job {
    calling *call;
    const struct given *given;
    struct answers *answers;
};

static void call_nothing(const struct given *g, struct answers *a) { (void)g, (void)a; }

/* The call, deeper than all that a thread does by itself as it starts and ends. */
static void *deep(void *job) {
    const struct job *j = job;
    volatile char gap[BELOW_START];
    gap[0] = 1;
    j->call(j->given, j->answers);
    return gap[0] ? NULL : job;
}

static void *plain(void *job) {
    const struct job *j = job;
    j->call(j->given, j->answers);
    return NULL;
}

static void on_thread(pthread_attr_t *attributes, void *(*body)(void *), struct job *j) {
    pthread_t thread;
    if (pthread_create(&thread, attributes, body, j)) abort();
    pthread_join(thread, NULL);
    pthread_attr_destroy(attributes);
}

/* how far below the end of the stack the deepest byte is that a call changes from `pattern` */
static size_t depth(struct job *j, unsigned char pattern) {
    static _Alignas(4096) unsigned char stack[STACK];
    pthread_attr_t attributes;
    memset(stack, pattern, STACK);
    if (pthread_attr_init(&attributes) || pthread_attr_setstack(&attributes, stack, STACK)) abort();
    on_thread(&attributes, deep, j);
    size_t kept = 0;
    while (kept < STACK && stack[kept] == pattern) kept++;
    return STACK - kept;
}

/* the bytes that a call needs more than a call of nothing, its caller in calls.h included; a byte that happens to become one
   pattern differs from the other */
static size_t needed(struct job *j) {
    struct job nothing = {call_nothing, NULL, NULL};
    static size_t least;
    if (!least) least = depth(&nothing, 0x5A);
    size_t one = depth(j, 0x5A), other = depth(j, 0xA5);
    return (one > other ? one : other) - least;
}

/* whether a thread with a small stack gets the same answers */
static int same_on_small(struct job *j, const struct answers *expected) {
    pthread_attr_t attributes;
    memset(j->answers, 0, sizeof *j->answers);
    if (pthread_attr_init(&attributes) || pthread_attr_setstacksize(&attributes, SMALL)) abort();
    on_thread(&attributes, plain, j);
    return memcmp(j->answers, expected, sizeof *expected) == 0;
}

/* One function on all that is given. The main thread goes first, so that a name that the loader has yet to find costs no stack
   later. A function that needs too much is not tried on the small stack, where it would end the program. */
static void measure(const char *name, calling *call, const struct given *given, size_t count) {
    static struct answers expected, got;
    size_t most = 0;
    for (size_t i = 0; i < count; i++) {
        struct job j = {call, &given[i], &got};
        memset(&expected, 0, sizeof expected);
        call(&given[i], &expected);
        size_t bytes = needed(&j);
        if (bytes > most) most = bytes;
        check(name, bytes < SMALL - BELOW_START && same_on_small(&j, &expected));
    }
    printf("%-16s %6zu bytes\n", name, most);
}

/* 16 processes, all at one location, and GO of the last */
static void give_location(struct given *g, uint16_t location) {
    give(g, 16, 0);
    for (int q = 0; q < 16; q++) {
        g->rows[q].location = location;
        g->rows[q].level = location == 30 ? 0 : 15;
    }
    g->word = 0x400F0000;
}

/* 16 processes, the last at 20, which has passed the others as often as can be counted, and GO of it */
static void give_full(struct given *g) {
    give_location(g, 21);
    g->rows[15].location = 20;
    for (int r = 0; r < 15; r++) g->rows[15].passes[r] = 65535;
}

/* 16 processes, where turn has one writer: the last is about to go from 23 to 24, the others are at 24 on a level; GO of it */
static void give_writers(struct given *g, uint16_t level) {
    give_location(g, 24);
    for (int q = 0; q < 15; q++) g->rows[q].level = level;
    g->rows[15].location = 23, g->rows[15].est = 0xFFFF;
    g->turn = ZAGUYPO_TURN_ONE_WRITER;
}

/* 16 processes at 20, where act is plain, and FLICKER of the last */
static void give_plain(struct given *g) {
    give_location(g, 20);
    g->word = 0x300F0001, g->act = ZAGUYPO_ACT_PLAIN;
}

/* 16 processes that use up the limit of rounds: all but the first rest with act 1, and the first waits for them */
static void give_rounds(struct given *g) {
    give(g, 16, 0);
    for (int q = 1; q < 16; q++) g->rows[q].act = 1;
    g->rows[0].location = 20;
}

/* the longest run, with room for its text and without, which is then under other settings, and short ones, a step at each
   location, the most rounds, a step beside 15 writers on another level, and bytes, tables, steps and settings that are refused */
int main(void) {
    static const uint16_t locations[] = {10, 20, 21, 22, 23, 24, 30, 40};
    static struct given given[SETS];
    give(&given[0], 16, ZAGUYPO_RUN_LIMIT);
    give(&given[13], 16, ZAGUYPO_RUN_LIMIT);
    given[13].text_len = 100, given[13].act = ZAGUYPO_ACT_PLAIN, given[13].turn = ZAGUYPO_TURN_ONE_WRITER;
    give(&given[1], 16, 100);
    give(&given[2], 2, 10);
    give(&given[3], 2, 0);
    given[4].input_len = 3;
    for (int i = 0; i < 8; i++) give_location(&given[5 + i], locations[i]);
    give_rounds(&given[14]);
    give_full(&given[15]);
    give_writers(&given[16], 15);
    give_writers(&given[17], 14);
    give_plain(&given[18]);
    give(&given[19], 16, ZAGUYPO_RUN_LIMIT);
    given[19].act = 2;
    for (int c = 0; c < CALLS; c++) measure(calls[c].name, calls[c].call, given, SETS);
    return done("stack");
}
