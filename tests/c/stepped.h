/* Steps and runs on lent rows under settings, beside what they must answer and leave; and the cells that a word may use. */
#ifndef STEPPED_H
#define STEPPED_H
#include "zaguypo.h"
#include "check.h"
#include "lend.h"

struct settings {
    uint32_t act, turn;
};

static const struct settings ZERO = {ZAGUYPO_ACT_SAFE, ZAGUYPO_TURN_WRITE_SAFE};
static const struct zaguypo_tally NONE = {0, 0, 0};

/* the cells that a word may have used: none; act or turn of a number, read or written */
static const struct zaguypo_cell NO_CELL = {0, 0, 0};
static struct zaguypo_cell act_read(uint16_t q) { return (struct zaguypo_cell){1, 1, q}; }
static struct zaguypo_cell act_written(uint16_t q) { return (struct zaguypo_cell){2, 1, q}; }
static struct zaguypo_cell turn_read(uint16_t k) { return (struct zaguypo_cell){1, 2, k}; }
static struct zaguypo_cell turn_written(uint16_t k) { return (struct zaguypo_cell){2, 2, k}; }

static int same_cell(struct zaguypo_cell a, struct zaguypo_cell b) {
    return a.access == b.access && a.variable == b.variable && a.index == b.index;
}

/* A step on n lent rows. Here and below the pointer is NULL where the length is 0. */
static void stepped_under(struct settings s, const struct zaguypo_row *table, size_t n, uint32_t word, unsigned refusal,
                          struct zaguypo_cell cell, const struct zaguypo_row *after) {
    unsigned long before = failures;
    struct lent rows = lend(table, n * sizeof *table);
    must_hold(&rows, after, n * sizeof *after);
    struct zaguypo_stepped got = zaguypo_step(lent_memory(&rows), n, word, s.act, s.turn);
    check("step, answer", got.refusal == refusal);
    check("step, cell", same_cell(got.cell, cell));
    check("step, rows", given_back(&rows));
    if (failures > before && before < 20)
        printf("    act %x, turn %x, %zu rows, word %08x, refusal %u\n", (unsigned)s.act, (unsigned)s.turn, n, (unsigned)word,
               refusal);
}

/* A run of lent words with a lent tally, which holds other numbers before. As many words are taken as the tally must
   have; the cell is that of the last of them. */
static void ran_under(struct settings s, const struct zaguypo_row *table, size_t n, const uint32_t *words, size_t count,
                      unsigned refusal, struct zaguypo_tally tally, struct zaguypo_cell cell, const struct zaguypo_row *after) {
    unsigned long before = failures;
    struct lent rows = lend(table, n * sizeof *table), list = lend(words, 4 * count), held = lend(NULL, sizeof tally);
    must_hold(&rows, after, n * sizeof *after), must_hold(&held, &tally, sizeof tally);
    struct zaguypo_ran r =
        zaguypo_run_rows(lent_memory(&rows), n, lent_memory(&list), count, lent_memory(&held), s.act, s.turn);
    check("run, answer", r.taken == tally.words && r.refusal == refusal);
    check("run, cell", same_cell(r.cell, cell));
    check("run, rows", given_back(&rows));
    check("run, words", given_back(&list));
    check("run, tally", given_back(&held));
    if (failures > before && before < 20)
        printf("    act %x, turn %x, %zu rows, %zu words, refusal %u\n", (unsigned)s.act, (unsigned)s.turn, n, count, refusal);
}
#endif
