/* zaguypo_step and zaguypo_run_rows from C: the declarations fit the compiled functions, only the lent rows and the tally are
   written, and every length has its answer. A refused step stores nothing. Expected rows and answers are written out by hand from the manual; what each word
   does to any row is for the comparison in tests/reference. And zaguypo_rounds does what single steps do. All under 0 and 0. */
#define _DEFAULT_SOURCE
#include "calls.h"
#include "stepped.h"
#include "every/tables.h"
#include <sys/mman.h>

/* one more than a run may have: STAYs of process 0, and words of kind 0 */
static uint32_t stays[8193], zeros[8193];

/* a step and a run under 0 and 0; settings.c has the other settings */
static void stepped(const struct zaguypo_row *table, size_t n, uint32_t word, unsigned refusal,
                    struct zaguypo_cell cell, const struct zaguypo_row *after) {
    stepped_under(ZERO, table, n, word, refusal, cell, after);
}
static void ran(const struct zaguypo_row *table, size_t n, const uint32_t *words, size_t count, unsigned refusal,
                struct zaguypo_tally tally, struct zaguypo_cell cell, const struct zaguypo_row *after) {
    ran_under(ZERO, table, n, words, count, refusal, tally, cell, after);
}

/* A step on rows that cannot be written, as many as fill a page at most: a store would end this program. */
static void refused_unwritten(const struct zaguypo_row *table, size_t n, uint32_t word, struct settings m, unsigned refusal) {
    const size_t page = 4096;
    void *rows = mmap(NULL, page, PROT_READ | PROT_WRITE, MAP_PRIVATE | MAP_ANONYMOUS, -1, 0);
    if (rows == MAP_FAILED || n * sizeof *table > page) abort();
    memcpy(rows, table, n * sizeof *table);
    if (mprotect(rows, page, PROT_READ) != 0) abort();
    check("refused on rows that cannot be written", zaguypo_step(rows, n, word, m.act, m.turn).refusal == refusal);
    munmap(rows, page);
}

/* A table that is refused, also before 8 and before 12. */
static void refused_table(const struct zaguypo_row *table, size_t n, unsigned refusal) {
    stepped(table, n, 0x10000000, refusal, NO_CELL, table);
    stepped(table, n, 0, refusal, NO_CELL, table);
    refused_unwritten(table, n, 0x10000000, ZERO, refusal);
    ran(table, n, stays, 0, refusal, NONE, NO_CELL, table);
    ran(table, n, zeros, 1, refusal, NONE, NO_CELL, table);
    ran(table, n, stays, 8193, refusal, NONE, NO_CELL, table);
}

static void wrong_sizes(void) {
    static const size_t sizes[4] = {0, 1, 17, 18};
    static const struct zaguypo_row unsound[18];
    struct zaguypo_row idle[18];
    idle_rows(idle, 18);
    for (int i = 0; i < 4; i++) refused_table(idle, sizes[i], 6), refused_table(unsound, sizes[i], 6);
    struct lent rows = lend(idle, sizeof idle);
    check("none of 18 rows, answer", zaguypo_step(lent_memory(&rows), 0, 0x20000000, ZERO.act, ZERO.turn).refusal == 6);
    check("none of 18 rows, rows", given_back(&rows));
}

/* the first row or the last */
static void unsound_rows(uint32_t n) {
    struct zaguypo_row table[MOST];
    for (uint32_t q = 0; q < n; q += n - 1)
        for (int way = 0; way < SPOILS; way++)
            sound_rows(table, n), spoil(table, q, n, way), refused_table(table, n, 7);
}

/* in each row: a count over itself, and one over each number that is no process */
static void unsound_passes(uint32_t n) {
    static const uint16_t counts[3] = {1, 256, 65535};
    struct zaguypo_row table[MOST];
    for (uint32_t q = 0; q < n; q++)
        for (uint32_t r = 0; r < MOST; r++) {
            if (r != q && r < n) continue;
            sound_rows(table, n), table[q].passes[r] = counts[draw(3)];
            refused_table(table, n, 7);
        }
}

/* Process 0 is idle, the other rows are any sound ones. Refused are kinds and spare bits, 8 before 9; processes, 9 before 10
   and before 11; kinds at 10, 10 before 11; arguments: each by itself, and as the third of four words. */
static void refused_words(uint32_t n) {
    const uint32_t refused[14][2] = {
        {0x00000000, 8},  {0x70000000, 8},  {0x11000000, 8},  {0x10008000, 8},  {0x70FF0000, 8},
        {0x40FF0000, 9},  {0x20FF0007, 9},  {0x60FF0000, 9},  {0x20000000 | n << 16, 9},
        {0x40000000, 10}, {0x40000001, 10}, {0x60000001, 10}, {0x10000001, 11}, {0x200000FF, 11}};
    struct zaguypo_row table[MOST];
    sound_rows(table, n), table[0] = IDLE;
    refused_unwritten(table, n, 0x10000000, (struct settings){2, 0}, 18);
    for (int i = 0; i < 14; i++) {
        const uint32_t word = refused[i][0], refusal = refused[i][1], four[4] = {0x10000000, 0x10000000, word, 0x10000000};
        stepped(table, n, word, refusal, NO_CELL, table);
        refused_unwritten(table, n, word, ZERO, refusal);
        ran(table, n, &word, 1, refusal, NONE, NO_CELL, table);
        ran(table, n, four, 4, refusal, (struct zaguypo_tally){2, 0, 0}, NO_CELL, table);
    }
}

/* STAYs of process 0, too many of them, 12 before 8, COME of the last process; the other rows are any sound ones */
static void lists(uint32_t n) {
    const uint32_t come = 0x20000000 | (n - 1) << 16;
    struct zaguypo_row table[MOST], after[MOST];
    sound_rows(table, n), table[0] = table[n - 1] = IDLE;
    sound_passes(&table[0], 0, n), sound_passes(&table[n - 1], n - 1, n);
    memcpy(after, table, n * sizeof *table), after[n - 1].location = 20;
    ran(table, n, stays, 0, 0, NONE, NO_CELL, table);
    ran(table, n, stays, 1, 0, (struct zaguypo_tally){1, 0, 0}, NO_CELL, table);
    ran(table, n, stays, 8192, 0, (struct zaguypo_tally){8192, 0, 0}, NO_CELL, table);
    ran(table, n, stays, 8193, 12, NONE, NO_CELL, table);
    ran(table, n, zeros, 8193, 12, NONE, NO_CELL, table);
    ran(table, n, &come, 1, 0, (struct zaguypo_tally){1, 1, 0}, NO_CELL, after);
    stepped(table, n, come, 0, NO_CELL, after);
}

/* process 0 of two idle ones, and what it becomes with each word of the example */
static void example(void) {
    static const struct zaguypo_row r[8] = {{10, 0, 0, 0, 0, 0, 0, 0, {0}}, {20, 0, 0, 0, 0, 0, 0, 0, {0}},
                                            {21, 1, 0, 1, 2, 0, 0, 0, {0}}, {22, 1, 0, 1, 2, 2, 0, 0, {0}},
                                            {22, 1, 0, 1, 0, 0, 0, 0, {0}}, {23, 1, 0, 1, 0, 0, 0, 0, {0}},
                                            {21, 1, 0, 0, 0, 0, 0, 0, {0}}, {30, 1, 0, 0, 0, 0, 0, 0, {0}}};
    for (uint32_t i = 1; i <= 7; i++) {
        const struct zaguypo_row idle[2] = {IDLE, IDLE}, before[2] = {r[i - 1], IDLE}, after[2] = {r[i], IDLE};
        const struct zaguypo_cell cell = i == 2 ? act_written(0) : i == 4 ? act_read(1) : NO_CELL;
        stepped(before, 2, SEVEN[i - 1], 0, cell, after);
        ran(idle, 2, SEVEN, i, 0, (struct zaguypo_tally){i, 1, i == 7}, cell, after);
    }
}

/* cells that the example leaves 0: GO of process 1 writes its bb and ahead and the turn in row 2, GO of process 2 each ahead and
   the counts over it */
static void crowd(void) {
    static const uint32_t words[2] = {0x40010000, 0x40020000};
    static const struct zaguypo_row tables[3][3] = {
        {{22, 1, 1, 2, 6, 4, 7, 0, {0, 5, 6}}, {24, 0, 0, 2, 1, 4, 6, 2, {7, 0, 8}}, {30, 1, 1, 0, 1, 2, 7, 0, {9, 10}}},
        {{22, 1, 1, 2, 6, 4, 7, 0, {0, 5, 6}}, {21, 0, 1, 2, 5, 4, 5, 2, {7, 0, 8}}, {30, 1, 1, 0, 1, 2, 7, 1, {9, 10}}},
        {{22, 1, 1, 2, 6, 4, 3, 0, {0, 5, 0}}, {21, 0, 1, 2, 5, 4, 1, 2, {7, 0, 0}}, {40, 1, 1, 0, 1, 2, 3, 1, {9, 10}}}};
    for (int i = 0; i < 2; i++) stepped(tables[i], 3, words[i], 0, i == 0 ? turn_written(2) : NO_CELL, tables[i + 1]);
    ran(tables[0], 3, words, 1, 0, (struct zaguypo_tally){1, 0, 0}, turn_written(2), tables[1]);
    ran(tables[0], 3, words, 2, 0, (struct zaguypo_tally){2, 0, 0}, NO_CELL, tables[2]);
}

/* CANCEL of process 0: where it is at 20 its location alone changes, act 0 or 1 and every other cell kept; 11 there, 10 at each
   other location */
static void cancelled(void) {
    static const struct zaguypo_row at[9] = {{20, 0, 1, 1, 3, 2, 2, 0, {0, 7}}, {20, 1, 1, 1, 3, 2, 2, 0, {0, 7}},
                                             {10, 1, 1, 1, 3, 2, 2, 0, {0, 7}}, {21, 1, 1, 1, 3, 2, 2, 0, {0, 7}},
                                             {22, 1, 1, 1, 3, 2, 2, 0, {0, 7}}, {23, 1, 1, 1, 3, 2, 2, 0, {0, 7}},
                                             {24, 1, 1, 1, 3, 2, 2, 0, {0, 7}}, {30, 1, 1, 0, 3, 2, 2, 0, {0, 7}},
                                             {40, 1, 1, 1, 3, 2, 2, 0, {0, 7}}};
    static const struct zaguypo_row other = {21, 1, 0, 1, 1, 0, 1, 1, {65535}};
    static const uint32_t cancel = 0x60000000;
    for (int i = 0; i < 9; i++) {
        const struct zaguypo_row table[2] = {at[i], other};
        struct zaguypo_row after[2] = {at[i], other};
        if (i < 2) after[0].location = 40;
        stepped(table, 2, cancel, i < 2 ? 0 : 10, NO_CELL, after);
        stepped(table, 2, 0x60000001, i < 2 ? 11 : 10, NO_CELL, table);
        ran(table, 2, &cancel, 1, i < 2 ? 0 : 10, (struct zaguypo_tally){i < 2, 0, 0}, NO_CELL, after);
    }
}

/* Words of process 1 of three, on level 2 where that goes, with turn[2] before and after: what they use at each location, GO
   at 23 in its four cases. With an argument that is refused they use none; the run's cell is theirs also where a word of
   process 0 is refused after them. Every count of passes is kept, but GO at 30 clears those over process 1. */
static void cells(void) {
    const struct {
        struct zaguypo_row own;
        uint16_t turn;
        uint32_t word;
        struct zaguypo_cell cell;
        struct zaguypo_row after;
        uint16_t turn_after;
    } each[15] = {
        {{10, 1, 0, 2, 5, 5, 0, 0, {0}}, 0, 0x10010000, NO_CELL, {10, 1, 0, 2, 5, 5, 0, 0, {0}}, 0},
        {{20, 0, 0, 2, 5, 5, 0, 0, {0}}, 0, 0x30010001, act_written(1), {20, 1, 0, 2, 5, 5, 0, 0, {0}}, 0},
        {{20, 0, 0, 0, 0, 5, 0, 0, {0}}, 0, 0x40010000, act_written(1), {21, 1, 0, 2, 5, 5, 0, 0, {0}}, 0},
        {{21, 1, 0, 2, 5, 0, 0, 0, {0}}, 0, 0x40010000, NO_CELL, {22, 1, 0, 2, 5, 5, 0, 0, {0}}, 0},
        {{22, 1, 0, 2, 5, 5, 0, 0, {0}}, 0, 0x50010002, act_read(2), {22, 1, 0, 2, 1, 1, 0, 0, {0}}, 0},
        {{22, 1, 0, 2, 5, 0, 0, 0, {0}}, 0, 0x40010000, NO_CELL, {23, 1, 0, 2, 5, 0, 0, 0, {0}}, 0},
        {{23, 1, 1, 2, 1, 0, 0, 0, {0}}, 0, 0x40010000, NO_CELL, {21, 1, 0, 1, 1, 0, 0, 0, {0}}, 0},
        {{23, 1, 0, 2, 5, 0, 0, 0, {0}}, 0, 0x40010000, NO_CELL, {24, 1, 0, 2, 5, 0, 0, 0, {0}}, 0},
        {{23, 1, 1, 2, 5, 0, 0, 0, {0}}, 0, 0x40010000, turn_read(2), {21, 1, 0, 1, 5, 0, 0, 0, {0}}, 0},
        {{23, 1, 1, 2, 5, 0, 0, 0, {0}}, 1, 0x40010000, turn_read(2), {21, 1, 1, 2, 5, 0, 0, 0, {0}}, 1},
        {{24, 1, 0, 2, 5, 0, 0, 0, {0}}, 0, 0x30010002, turn_written(2), {24, 1, 0, 2, 5, 0, 0, 0, {0}}, 2},
        {{24, 1, 0, 2, 1, 0, 0, 0, {0}}, 0, 0x40010000, turn_written(2), {21, 1, 1, 2, 5, 0, 0, 0, {0}}, 1},
        {{30, 1, 0, 0, 5, 0, 0, 0, {0}}, 0, 0x40010000, NO_CELL, {40, 1, 0, 0, 5, 0, 0, 0, {0}}, 0},
        {{40, 1, 0, 0, 5, 0, 0, 0, {0}}, 0, 0x30010000, act_written(1), {40, 0, 0, 0, 5, 0, 0, 0, {0}}, 0},
        {{40, 1, 0, 0, 5, 0, 0, 0, {0}}, 0, 0x40010000, act_written(1), {10, 0, 0, 0, 5, 0, 0, 0, {0}}, 0}};
    for (int i = 0; i < 15; i++) {
        const struct zaguypo_row last = {10, 0, 0, 0, 0, 0, 0, each[i].turn, {0}};
        const struct zaguypo_row last_after = {10, 0, 0, 0, 0, 0, 0, each[i].turn_after, {0}};
        struct zaguypo_row table[3] = {IDLE, each[i].own, last}, after[3] = {IDLE, each[i].after, last_after};
        const uint32_t words[2] = {each[i].word, 0x30000000};
        for (int q = 0; q < 3; q++)
            for (int r = 0; r < 3; r++) {
                table[q].passes[r] = q == r ? 0 : (uint16_t)(65535 - 3 * q - r);
                after[q].passes[r] = each[i].own.location == 30 && r == 1 ? 0 : table[q].passes[r];
            }
        stepped(table, 3, words[0], 0, each[i].cell, after);
        stepped(table, 3, words[0] | 0xFF, 11, NO_CELL, table);
        ran(table, 3, words, 2, 10, (struct zaguypo_tally){1, 0, 0}, each[i].cell, after);
    }
}

/* Any table of n processes with process p at 20, none of whose counts over a process that competes is full. Answers who competes,
   as a set. */
static uint16_t at_20(struct zaguypo_row *table, uint32_t n, uint32_t p) {
    uint32_t competing = 0;
    sound_rows(table, n), table[p].location = 20;
    for (uint32_t r = 0; r < n; r++) {
        if (table[r].location < 21 || table[r].location > 30) continue;
        competing |= 1u << r;
        if (table[p].passes[r] == 65535) table[p].passes[r] = 65534;
    }
    return (uint16_t)competing;
}

/* GO at 20 of each process adds one to its counts over those that compete, and changes no other count. */
static void entries(uint32_t n) {
    struct zaguypo_row table[MOST], after[MOST];
    for (uint32_t p = 0; p < n; p++) {
        const uint16_t ahead = at_20(table, n, p), est = (uint16_t)(((1u << n) - 1) & ~(1u << p));
        memcpy(after, table, n * sizeof *table);
        after[p].location = 21, after[p].act = 1, after[p].level = (uint16_t)(n - 1);
        after[p].est = est, after[p].ahead = ahead;
        for (uint32_t r = 0; r < n; r++) after[p].passes[r] += ahead >> r & 1;
        stepped(table, n, 0x40000000 | p << 16, 0, act_written((uint16_t)p), after);
    }
}

/* One full count over a process that competes is enough for 15, and nothing changes; 11 comes before it. A run keeps the FLICKER
   before the word, and its cell. */
static void full_counts(uint32_t n) {
    struct zaguypo_row table[MOST];
    for (uint32_t p = 0; p < n; p++) {
        const uint32_t competing = at_20(table, n, p), go = 0x40000000 | p << 16, words[3] = {0x30000001 | p << 16, go, go};
        table[p].act = 1;
        for (uint32_t r = 0; r < n; r++) {
            if (!(competing >> r & 1)) continue;
            const uint16_t count = table[p].passes[r];
            table[p].passes[r] = 65535;
            stepped(table, n, go, 15, NO_CELL, table);
            stepped(table, n, go | 1, 11, NO_CELL, table);
            ran(table, n, words + 1, 1, 15, NONE, NO_CELL, table);
            ran(table, n, words, 3, 15, (struct zaguypo_tally){1, 0, 0}, act_written((uint16_t)p), table);
            table[p].passes[r] = count;
        }
    }
}

/* GO at 30 of each process clears every count over it, and takes it out of every ahead set. */
static void exits(uint32_t n) {
    struct zaguypo_row table[MOST], after[MOST];
    for (uint32_t p = 0; p < n; p++) {
        sound_rows(table, n), table[p].location = 30, table[p].level = 0;
        memcpy(after, table, n * sizeof *table), after[p].location = 40;
        for (uint32_t q = 0; q < n; q++) after[q].passes[p] = 0, after[q].ahead &= (uint16_t) ~(1u << p);
        stepped(table, n, 0x40000000 | p << 16, 0, NO_CELL, after);
    }
}

/* A lone process is at 30 after n + 5 words, and COME stops it there. The longest run: 356 circuits of 23 words, the processes
   in turn, then COME, GO, GO and a LOOK at 0 of process 4. */
static void circuits(void) {
    static struct given g;
    struct zaguypo_row after[MOST];
    idle_rows(after, MOST), after[0] = (struct zaguypo_row){30, 1, 0, 0, 0, 0, 0, 0, {0}};
    for (uint32_t n = 2; n <= 16; n++) {
        give(&g, n, n + 7), g.words[n + 5] = 0x20000000;
        ran(g.rows, n, g.words, n + 5, 0, (struct zaguypo_tally){n + 5, 1, 1}, NO_CELL, after);
        ran(g.rows, n, g.words, n + 7, 10, (struct zaguypo_tally){n + 5, 1, 1}, NO_CELL, after);
    }
    give(&g, 16, 8192);
    after[0] = IDLE, after[4] = (struct zaguypo_row){22, 1, 0, 15, 0xFFEE, 0xFFEE, 0, 0, {0}};
    ran(g.rows, 16, g.words, 8192, 0, (struct zaguypo_tally){8192, 357, 356}, act_read(0), after);
}

/* whether somebody is at one of the locations from `first` to `last` */
static int somebody(const struct zaguypo_row *rows, uint32_t n, unsigned first, unsigned last) {
    for (uint32_t q = 0; q < n; q++)
        if (rows[q].location >= first && rows[q].location <= last) return 1;
    return 0;
}

/* nobody is at 30 and somebody at 20 to 24 */
static int silent(const struct zaguypo_row *rows, uint32_t n) {
    return !somebody(rows, n, 30, 30) && somebody(rows, n, 20, 24);
}

/* the word that a round has for process p */
static uint32_t word_of_round(const struct zaguypo_row *rows, uint32_t p) {
    uint32_t q = 0;
    if (rows[p].location == 10) return 0x10000000 | p << 16;
    if (rows[p].location != 22 || rows[p].lis == 0) return 0x40000000 | p << 16;
    while (!(rows[p].lis >> q & 1)) q++;
    return 0x50000000 | p << 16 | q;
}

/* Rounds on lent rows, and the same made of steps, of which every one must be taken or meet 15. Answers the refusal. */
static unsigned rounds_and_steps(const struct zaguypo_row *table, uint32_t n) {
    struct zaguypo_row after[MOST];
    struct zaguypo_rounded by_steps = {0, 0, 0};
    memcpy(after, table, n * sizeof *table);
    while (silent(after, n) && by_steps.rounds < ZAGUYPO_ROUND_LIMIT(n) && !by_steps.refusal) {
        for (uint32_t p = 0; p < n && !by_steps.refusal; p++)
            by_steps.refusal = zaguypo_step(after, n, word_of_round(after, p), ZERO.act, ZERO.turn).refusal;
        by_steps.rounds += !by_steps.refusal;
    }
    by_steps.occupied = (uint16_t)somebody(after, n, 30, 30);
    struct lent rows = lend(table, n * sizeof *table);
    must_hold(&rows, after, n * sizeof *after);
    const struct zaguypo_rounded r = zaguypo_rounds(lent_memory(&rows), n);
    check("rounds, every step is taken or meets 15", by_steps.refusal == 0 || by_steps.refusal == 15);
    check("rounds, refusal", r.refusal == by_steps.refusal);
    check("rounds, as many as by steps", r.rounds == by_steps.rounds && r.occupied == by_steps.occupied);
    check("rounds, rows", given_back(&rows));
    return r.refusal;
}

/* a word of a round, or COME or FLICKER, which may be refused */
static uint32_t drawn_word(const struct zaguypo_row *rows, uint32_t n) {
    const uint32_t p = draw(n);
    if (draw(4)) return word_of_round(rows, p);
    return (rows[p].location == 10 ? 0x20000000 : 0x30000000 | draw(n)) | p << 16;
}

/* tables that words lead to from idle ones, with somebody at 20 to 24 and nobody at 30: rounds lead there in time */
static void rounds(uint32_t n) {
    struct zaguypo_row table[MOST];
    for (int i = 0; i < 6; i++) {
        const uint32_t least = 2 * n + draw(20 * n), most = 1000 * n;
        idle_rows(table, n);
        for (uint32_t words = 0; words < least || (words < most && !silent(table, n)); words++)
            zaguypo_step(table, n, drawn_word(table, n), ZERO.act, ZERO.turn);
        check("rounds, few passes", rounds_and_steps(table, n) == 0);
        const struct zaguypo_rounded r = zaguypo_rounds(table, n);
        check("rounds, in time", r.occupied == 1 && r.rounds > 0 && r.rounds <= ZAGUYPO_SILENCE_BOUND(n));
    }
}

/* any sound tables, where a limit that is used up is short; some of them meet 15 */
static void rounds_from_any(uint32_t n) {
    struct zaguypo_row table[MOST];
    int full = 0;
    for (int i = 0; i < 40; i++) sound_rows(table, n), full += rounds_and_steps(table, n) == 15;
    check("rounds, 15 at times", full > 0 && full < 40);
}

int main(void) {
    for (int i = 0; i < 8193; i++) stays[i] = 0x10000000;
    wrong_sizes();
    for (uint32_t n = 2; n <= 16; n++) {
        unsound_rows(n), unsound_passes(n), refused_words(n), lists(n);
        entries(n), full_counts(n), exits(n), rounds(n);
    }
    for (uint32_t n = 2; n <= 5; n++) rounds_from_any(n);
    example();
    crowd();
    cancelled();
    cells();
    circuits();
    return done("rows");
}
