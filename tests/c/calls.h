/* Every function of the header once, on memory of one's own: what is given, and the answers. For the hosts that make the same
   calls from several threads or stacks. */
#ifndef CALLS_H
#define CALLS_H
#include "layout.h"

#include <string.h>

/* The lengths are those of table, words, image and input; text_len bytes are lent for the text. */
struct given {
    size_t size, count, image_count, input_len, text_len;
    uint32_t word, kind, process, argument, act, turn;
    struct zaguypo_row rows[ZAGUYPO_MOST_PROCESSES];
    uint32_t words[ZAGUYPO_RUN_LIMIT], image[ZAGUYPO_IMAGE_WORDS(16)];
    uint8_t input[ZAGUYPO_INPUT_BYTES];
};

/* No byte is between the fields, so that whole answers can be compared; of struct zaguypo_ran, which ends in padding,
   the fields are kept. The text is last: only its first text_len bytes are ever written. */
struct answers {
    uint64_t run, printed;
    struct zaguypo_row fresh[16], stepped[16], run_rows[16], rounded_rows[16], read[16];
    struct zaguypo_tally tally;
    uint32_t ran_taken, ran_refusal;
    struct zaguypo_word word;
    uint32_t written[ZAGUYPO_IMAGE_WORDS(16)];
    struct zaguypo_parts parts;
    struct zaguypo_figures figures;
    struct zaguypo_rounded rounded;
    struct zaguypo_reading reading;
    struct zaguypo_stepped step;
    struct zaguypo_cell ran_cell;
    uint16_t made, wrote;
    uint8_t image[ZAGUYPO_IMAGE_BYTES(16)];
    char text[ZAGUYPO_TEXT_BYTES];
};

static void call_run(const struct given *g, struct answers *a) {
    a->run = zaguypo_run(g->input, g->input_len, a->image, sizeof a->image, g->act, g->turn);
}
static void call_print(const struct given *g, struct answers *a) {
    a->printed = zaguypo_print(g->input, g->input_len, a->text, g->text_len);
}
static void call_fresh(const struct given *g, struct answers *a) { a->made = zaguypo_fresh(a->fresh, g->size); }
static void call_step(const struct given *g, struct answers *a) {
    memcpy(a->stepped, g->rows, sizeof g->rows);
    a->step = zaguypo_step(a->stepped, g->size, g->word, g->act, g->turn);
}
static void call_run_rows(const struct given *g, struct answers *a) {
    memcpy(a->run_rows, g->rows, sizeof g->rows);
    const struct zaguypo_ran ran =
        zaguypo_run_rows(a->run_rows, g->size, g->words, g->count, &a->tally, g->act, g->turn);
    a->ran_taken = ran.taken, a->ran_refusal = ran.refusal, a->ran_cell = ran.cell;
}
static void call_census(const struct given *g, struct answers *a) { a->figures = zaguypo_census(g->rows, g->size); }
static void call_rounds(const struct given *g, struct answers *a) {
    memcpy(a->rounded_rows, g->rows, sizeof g->rows);
    a->rounded = zaguypo_rounds(a->rounded_rows, g->size);
}
static void call_read(const struct given *g, struct answers *a) {
    a->reading = zaguypo_read(g->image, g->image_count, a->read, 16);
}
static void call_write(const struct given *g, struct answers *a) {
    a->wrote = zaguypo_write(g->rows, g->size, a->written, ZAGUYPO_IMAGE_WORDS(16));
}
static void call_apart(const struct given *g, struct answers *a) { a->parts = zaguypo_apart(g->word); }
static void call_together(const struct given *g, struct answers *a) {
    a->word = zaguypo_together(g->kind, g->process, g->argument);
}

typedef void calling(const struct given *, struct answers *);
enum { CALLS = 11 };
static const struct { const char *name; calling *call; } calls[CALLS] = {
    {"zaguypo_run", call_run},           {"zaguypo_print", call_print},
    {"zaguypo_fresh", call_fresh},       {"zaguypo_step", call_step},
    {"zaguypo_run_rows", call_run_rows}, {"zaguypo_census", call_census},
    {"zaguypo_rounds", call_rounds},     {"zaguypo_read", call_read},
    {"zaguypo_write", call_write},       {"zaguypo_apart", call_apart},
    {"zaguypo_together", call_together},
};

/* ---- what is given */

/* Words that bring process p of n, the others idle, to 30 and back to 10: COME, GO, GO, a LOOK at each other, GO five times. At
   most `count` of them; answers how many. */
static size_t give_circuit(uint32_t *words, size_t count, uint32_t p, uint32_t n) {
    uint32_t all[16 + 7], length = 0;
    all[length++] = 0x20000000 | p << 16;
    while (length < 3) all[length++] = 0x40000000 | p << 16;
    for (uint32_t q = 0; q < n; q++)
        if (q != p) all[length++] = 0x50000000 | p << 16 | q;
    while (length < n + 7) all[length++] = 0x40000000 | p << 16;
    size_t taken = length < count ? length : count;
    memcpy(words, all, 4 * taken);
    return taken;
}

/* n idle processes and `count` words of circuits, by process 0, 1, .. in turn; the same as image and as input; under 0 and 0 */
static void give(struct given *g, uint32_t n, size_t count) {
    memset(g, 0, sizeof *g);
    g->size = n, g->count = count, g->text_len = ZAGUYPO_TEXT_BYTES;
    for (uint32_t q = 0; q < n; q++) g->rows[q].location = 10;
    for (size_t i = 0, p = 0; i < count; p = (p + 1) % n) i += give_circuit(g->words + i, count - i, (uint32_t)p, n);
    g->image[g->image_count++] = 0x81000000 + n;
    for (uint32_t q = 0; q < n; q++)
        for (uint32_t kind = 9; kind <= 12; kind++) g->image[g->image_count++] = kind << 28 | q << 16;
    for (uint32_t k = 1; k < n; k++) g->image[g->image_count++] = 0xD0000000 | k << 16;
    for (uint32_t q = 0; q < n; q++)
        for (uint32_t r = 0; r < n; r++) g->image[g->image_count++] = 0xE0000000 | q << 24 | r << 16;
    for (size_t i = 0; i < g->image_count + count; i++)
        for (int b = 0; b < 4; b++)
            g->input[g->input_len++] = (uint8_t)((i < g->image_count ? g->image[i] : g->words[i - g->image_count]) >> 8 * b);
    g->kind = 2, g->word = 0x20000000;
}
#endif
