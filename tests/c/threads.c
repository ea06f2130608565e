/* Many threads at once, each with its own memory and its own inputs, all in the same function at the same time: every answer is
   what one thread alone got before. */
#define _POSIX_C_SOURCE 200809L
#include "calls.h"
#include "check.h"

#include <pthread.h>
#include <stdlib.h>
#include <time.h>

enum { THREADS = 16, INPUTS = 8, ROUNDS = 200, MILLISECONDS = 100 };

/* a thread's inputs, what each function must answer to each of them, and how often it did not */
struct work {
    pthread_t thread;
    struct given given[INPUTS];
    struct answers expected[CALLS][INPUTS], got;
    unsigned long wrong[CALLS];
};

static pthread_barrier_t start;

static uint32_t draw(uint32_t *seed, uint32_t below) {
    uint32_t x = *seed;
    x ^= x << 13, x ^= x >> 17, x ^= x << 5;
    *seed = x;
    return x % below;
}

/* Up to 300 words of circuits from an idle table, or the longest run; then changes to the input, to the image and to
   the rows, which some of the functions refuse. Any settings, one in eight of which there are not. */
static void give_any(struct given *g, uint32_t seed, int longest) {
    uint32_t n = 2 + draw(&seed, 15), q = draw(&seed, n);
    give(g, n, longest ? ZAGUYPO_RUN_LIMIT : draw(&seed, 300));
    g->kind = draw(&seed, 8), g->process = draw(&seed, 18), g->argument = draw(&seed, 258);
    g->word = g->kind << 28 | q << 16 | draw(&seed, 2);
    if (!longest) g->text_len = draw(&seed, 6000);
    if (draw(&seed, 2)) g->input[draw(&seed, (uint32_t)g->input_len)] ^= 1;
    if (draw(&seed, 2)) g->image[draw(&seed, (uint32_t)g->image_count)] ^= 1u << draw(&seed, 32);
    for (uint32_t r = 0, all = draw(&seed, 2); all && r < n; r++) g->rows[r].location = 20;
    if (draw(&seed, 2)) g->rows[q].location = (uint16_t)(20 + draw(&seed, 6));
    g->rows[q].level = (uint16_t)draw(&seed, n);
    g->rows[q].ahead = (uint16_t)draw(&seed, 1u << n);
    for (uint32_t r = 0; r < n; r++)
        if (r != q || draw(&seed, 4) == 0) g->rows[q].passes[r] = draw(&seed, 4) ? (uint16_t)draw(&seed, 65536) : 65535;
    g->act = draw(&seed, 8) ? draw(&seed, 2) : 2, g->turn = draw(&seed, 3);
}

/* the bytes of the answers that a function can touch: of them all, the text only where it prints */
static size_t touched(int c, const struct given *g) {
    return offsetof(struct answers, text) + (calls[c].call == call_print ? g->text_len : 0);
}

static void answer(int c, const struct given *g, struct answers *a) {
    memset(a, 0x5A, touched(c, g));
    calls[c].call(g, a);
}

/* one thread alone; the first two have a longest run among their inputs */
static struct work *prepared(uint32_t thread) {
    struct work *w = calloc(1, sizeof *w);
    if (!w) abort();
    for (uint32_t i = 0; i < INPUTS; i++) {
        give_any(&w->given[i], 1 + thread * INPUTS + i, thread < 2 && i == 0);
        for (int c = 0; c < CALLS; c++) answer(c, &w->given[i], &w->expected[c][i]);
    }
    return w;
}

static long milliseconds(void) {
    struct timespec now;
    clock_gettime(CLOCK_MONOTONIC, &now);
    return now.tv_sec * 1000 + now.tv_nsec / 1000000;
}

/* Each function for a while, and for some rounds at least: a call is far shorter than the time that a thread is given at once,
   so that a few rounds would be made with no other thread running. */
static void *one_thread(void *work) {
    struct work *w = work;
    for (int c = 0; c < CALLS; c++) {
        pthread_barrier_wait(&start);
        long end = milliseconds() + MILLISECONDS;
        for (int round = 0; round < ROUNDS || milliseconds() < end; round++) {
            const struct given *g = &w->given[round % INPUTS];
            answer(c, g, &w->got);
            w->wrong[c] += memcmp(&w->got, &w->expected[c][round % INPUTS], touched(c, g)) != 0;
        }
    }
    return NULL;
}

int main(void) {
    struct work *works[THREADS];
    for (uint32_t t = 0; t < THREADS; t++) works[t] = prepared(t);
    pthread_barrier_init(&start, NULL, THREADS);
    for (int t = 0; t < THREADS; t++)
        if (pthread_create(&works[t]->thread, NULL, one_thread, works[t])) abort();
    for (int t = 0; t < THREADS; t++) {
        pthread_join(works[t]->thread, NULL);
        for (int c = 0; c < CALLS; c++) check(calls[c].name, works[t]->wrong[c] == 0);
        free(works[t]);
    }
    return done("threads");
}
