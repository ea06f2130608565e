/* Steps and runs under settings from C, on rows and on bytes: where 16, 17 and 18 are met and where they are not, beside the
   other refusals, and what they leave. Expected answers are written from the manual ("Settings"); runs are also set beside
   those under 0 and 0. */
#include "calls.h"
#include "stepped.h"
#include "every/tables.h"
#include "every/images.h"

enum { MOST_WORDS = ZAGUYPO_INPUT_BYTES / 4 + 1, LIST = 48 };

static void bytes_of(uint8_t *to, const uint32_t *words, size_t length) {
    for (size_t i = 0; i < length; i++) to[i] = (uint8_t)(words[i / 4] >> 8 * (i % 4));
}

/* Calls on the first `length` bytes of words, with `bytes` lent ones. Where rows are given, n of them, their image must stand at
   the start of the lent bytes afterwards; every other byte must be as before. */
static void called_under(struct settings s, const uint32_t *words, size_t length, size_t bytes, uint64_t answer,
                         const struct zaguypo_row *after, uint32_t n) {
    static uint8_t text[4 * MOST_WORDS], filled[ZAGUYPO_IMAGE_BYTES(MOST)];
    uint32_t image[ZAGUYPO_IMAGE_WORDS(MOST)];
    unsigned long before = failures;
    bytes_of(text, words, length);
    struct lent input = lend(text, length), out = lend(NULL, bytes);
    if (after) {
        const size_t written = 4 * image_of(image, after, n);
        bytes_of(filled, image, written), must_hold(&out, filled, written);
    }
    check("bytes, answer", zaguypo_run(lent_memory(&input), length, lent_memory(&out), bytes, s.act, s.turn) == answer);
    check("bytes, image", given_back(&out));
    check("bytes, input", given_back(&input));
    if (failures > before && before < 20)
        printf("    act %x, turn %x, %zu bytes, %zu lent, answer %llu\n", (unsigned)s.act, (unsigned)s.turn, length, bytes,
               (unsigned long long)answer);
}

/* the same for an input of a table and words, with a byte more than an image needs */
static void input_under(struct settings s, const struct zaguypo_row *table, uint32_t n, const uint32_t *words, size_t count,
                        uint64_t answer, const struct zaguypo_row *after) {
    static uint32_t all[MOST_WORDS];
    const size_t first = image_of(all, table, n);
    memcpy(all + first, words, 4 * count);
    called_under(s, all, 4 * (first + count), 4 * first + 1, answer, after, n);
}

/* A run on rows and the same run on bytes. */
static void both(struct settings s, const struct zaguypo_row *table, uint32_t n, const uint32_t *words, size_t count,
                 unsigned refusal, struct zaguypo_tally tally, struct zaguypo_cell cell, const struct zaguypo_row *after) {
    ran_under(s, table, n, words, count, refusal, tally, cell, after);
    input_under(s, table, n, words, count, 256 * (uint64_t)tally.words + refusal, after);
}

/* One word that is no COME and no arrival at 30: a step, and alone in both runs. */
static void taken(struct settings s, const struct zaguypo_row *table, uint32_t n, uint32_t word, struct zaguypo_cell cell,
                  const struct zaguypo_row *after) {
    stepped_under(s, table, n, word, 0, cell, after);
    both(s, table, n, &word, 1, 0, (struct zaguypo_tally){1, 0, 0}, cell, after);
}

/* The same for a word that is refused. */
static void refused(struct settings s, const struct zaguypo_row *table, uint32_t n, uint32_t word, unsigned refusal) {
    stepped_under(s, table, n, word, refusal, NO_CELL, table);
    both(s, table, n, &word, 1, refusal, NONE, NO_CELL, table);
}

/* ---- 16 */

/* FLICKER of each process at each location, in any table: 10, then 11, then 16 where its cell is plain. One writer forbids none,
   also where another process is at 24 on the same level. */
static void flickers(struct settings s, uint32_t n, uint32_t p, uint16_t location) {
    const uint32_t flicker = 0x30000000 | p << 16, next = (p + 1) % n, values = location == 24 ? n : 2;
    const uint16_t level = (uint16_t)(1 + draw(n - 1));
    const int plain = location == 24 ? s.turn == ZAGUYPO_TURN_PLAIN : s.act == ZAGUYPO_ACT_PLAIN;
    struct zaguypo_row table[MOST], after[MOST];
    sound_rows(table, n);
    table[next].location = 24, table[next].level = level;
    table[p].location = location, table[p].level = location == 30 ? 0 : level;
    if (location != 20 && location != 24 && location != 40) {
        refused(s, table, n, flicker, 10);
        refused(s, table, n, flicker | 255, 10);
        return;
    }
    refused(s, table, n, flicker | values, 11);
    refused(s, table, n, flicker | 255, 11);
    for (uint32_t a = 0; a < values; a++) {
        memcpy(after, table, n * sizeof *table);
        if (location == 24) after[level].turn = (uint16_t)a;
        else after[p].act = (uint16_t)a;
        if (plain) refused(s, table, n, flicker | a, 16);
        else taken(s, table, n, flicker | a, location == 24 ? turn_written(level) : act_written((uint16_t)p), after);
    }
}

/* ---- 17 */

/* GO of process p leads it from 23 to 24; or it is refused, where turn has one writer and another process `writes`. */
static void pushes(struct settings s, const struct zaguypo_row *table, uint32_t n, uint32_t p, int writes) {
    const uint32_t go = 0x40000000 | p << 16;
    struct zaguypo_row after[MOST];
    memcpy(after, table, n * sizeof *table), after[p].location = 24;
    if (writes && s.turn == ZAGUYPO_TURN_ONE_WRITER) refused(s, table, n, go, 17);
    else taken(s, table, n, go, NO_CELL, after);
    refused(s, table, n, go | 1, 11);
    refused(s, table, n, 0x30000000 | p << 16, 10);
}

/* Where q alone is at 24, on the level of p, but GO leads p elsewhere: est has a member too few, or bb is 1, and turn is read. */
static void turns_back(struct settings s, struct zaguypo_row *table, uint32_t n, uint32_t p, uint32_t q, uint16_t level) {
    const uint32_t go = 0x40000000 | p << 16;
    const struct zaguypo_row own = table[p];
    struct zaguypo_row after[MOST];
    table[p].est >>= 1;
    memcpy(after, table, n * sizeof *table), after[p].location = 21, after[p].level = (uint16_t)(level - 1);
    taken(s, table, n, go, NO_CELL, after);
    table[p] = own;
    for (int mine = 0; mine < 2; mine++) {
        table[p].bb = 1, table[level].turn = (uint16_t)(mine ? p : q);
        memcpy(after, table, n * sizeof *table), after[p].location = 21;
        if (!mine) after[p].level--, after[p].bb = 0;
        taken(s, table, n, go, turn_read(level), after);
    }
    table[p].bb = 0;
}

/* Any table in which process p is about to go from 23 to 24, with as many members in est as its level; and q, alone at 24 on that
   level, then elsewhere on it, then at 24 on another one, and last there with a third process at 24 on the level of p. */
static void writers(struct settings s, uint32_t n, uint32_t p, uint32_t q) {
    const uint16_t level = (uint16_t)(1 + draw(n - 1)), other = (uint16_t)(level % (n - 1) + 1);
    struct zaguypo_row table[MOST];
    uint32_t third = 0;
    sound_rows(table, n);
    for (uint32_t r = 0; r < n; r++)
        if (table[r].location == 24) table[r].location = 23;
    table[p].location = 23, table[p].bb = 0, table[p].level = level, table[p].est = (uint16_t)((1u << level) - 1);
    table[q].location = 24, table[q].level = level;
    pushes(s, table, n, p, 1);
    turns_back(s, table, n, p, q, level);
    for (int i = 0; i < 8; i++) {
        table[q].location = LOCATIONS[i];
        if (LOCATIONS[i] != 24 && LOCATIONS[i] != 30) pushes(s, table, n, p, 0);
    }
    if (n == 2) return;
    table[q].location = 24, table[q].level = other;
    pushes(s, table, n, p, 0);
    while (third == p || third == q) third++;
    table[third].location = 24, table[third].level = level;
    pushes(s, table, n, p, 1);
}

/* ---- beside 15 and 12 */

/* Process 0 is at 20 and cannot pass process 1 once more. GO meets 15 under every setting, and is taken where it can; FLICKER
   before it is taken, or meets 16 and ends the run. */
static void full(struct settings s) {
    static const uint32_t words[2] = {0x30000001, 0x40000000};
    struct zaguypo_row table[2] = {{20, 0, 0, 0, 0, 0, 0, 0, {0, 65535}}, {21, 1, 0, 1, 1, 0, 0, 1, {0}}};
    struct zaguypo_row flickered[2] = {table[0], table[1]};
    flickered[0].act = 1;
    refused(s, table, 2, 0x40000000, 15);
    refused(s, table, 2, 0x40000001, 11);
    if (s.act == ZAGUYPO_ACT_PLAIN) both(s, table, 2, words, 2, 16, NONE, NO_CELL, table);
    else both(s, table, 2, words, 2, 15, (struct zaguypo_tally){1, 0, 0}, act_written(0), flickered);
    table[0].passes[1] = 65534;
    const struct zaguypo_row after[2] = {{21, 1, 0, 1, 2, 0, 2, 0, {0, 65535}}, table[1]};
    taken(s, table, 2, 0x40000000, act_written(0), after);
}

/* the most words, one more, and too few lent bytes */
static void limits(struct settings s) {
    static uint32_t words[14 + 8193];
    const struct zaguypo_row idle[2] = {IDLE, IDLE};
    idle_image(words, 2);
    for (int i = 0; i < 8193; i++) words[14 + i] = 0x10000000;
    both(s, idle, 2, words + 14, 8192, 0, (struct zaguypo_tally){8192, 0, 0}, NO_CELL, idle);
    ran_under(s, idle, 2, words + 14, 8193, 12, NONE, NO_CELL, idle);
    called_under(s, words, 4 * (14 + 8193), 56, 12, NULL, 0);
    called_under(s, words, 4 * (14 + 8193), 55, 12, NULL, 0);
    called_under(s, words, 4 * (14 + 8192), 55, 13, NULL, 0);
}

/* ---- runs */

/* Two idle processes. Both enter, process 0 with a FLICKER at 20, look at each other, process 0 goes to 24 and flickers there,
   process 1 goes to 24, process 0 pushes. Where act is plain the run ends at the first FLICKER; without that one, where turn is
   plain, at the second, and where it has one writer, after that. */
static void pair(struct settings s) {
    static const uint32_t words[15] = {0x20000000, 0x30000001, 0x40000000, 0x20010000, 0x40010000,
                                       0x40000000, 0x50000001, 0x40000000, 0x40010000, 0x50010000,
                                       0x40010000, 0x40000000, 0x30000001, 0x40010000, 0x40000000};
    static const struct zaguypo_row idle[2] = {{10, 0, 0, 0, 0, 0, 0, 0, {0}}, {10, 0, 0, 0, 0, 0, 0, 0, {0}}};
    static const struct zaguypo_row come[2] = {{20, 0, 0, 0, 0, 0, 0, 0, {0}}, {10, 0, 0, 0, 0, 0, 0, 0, {0}}};
    static const struct zaguypo_row after[3][2] = {
        {{21, 1, 1, 1, 2, 0, 2, 0, {0}}, {24, 1, 0, 1, 1, 0, 1, 0, {1}}},
        {{24, 1, 0, 1, 2, 0, 0, 0, {0}}, {23, 1, 0, 1, 1, 0, 1, 1, {1}}},
        {{24, 1, 0, 1, 2, 0, 0, 0, {0}}, {23, 1, 0, 1, 1, 0, 1, 0, {1}}}};
    static const unsigned refusals[3] = {0, 17, 16}, counts[3] = {15, 13, 12};
    const unsigned refusal = refusals[s.turn], count = counts[s.turn];
    const struct zaguypo_cell cell = s.turn == ZAGUYPO_TURN_PLAIN ? NO_CELL : turn_written(1);
    if (s.act == ZAGUYPO_ACT_PLAIN) both(s, idle, 2, words, 15, 16, (struct zaguypo_tally){1, 1, 0}, NO_CELL, come);
    else both(s, idle, 2, words, 15, refusal, (struct zaguypo_tally){count, 2, 0}, cell, after[s.turn]);
    uint32_t fewer[14] = {words[0]};
    memcpy(fewer + 1, words + 2, 4 * 13);
    both(s, idle, 2, fewer, 14, refusal, (struct zaguypo_tally){count - 1, 2, 0}, cell, after[s.turn]);
    both(s, idle, 2, fewer, 6, 0, (struct zaguypo_tally){6, 2, 0}, act_read(1),
         (struct zaguypo_row[2]){{22, 1, 0, 1, 2, 0, 0, 0, {0}}, {21, 1, 0, 1, 1, 0, 1, 0, {1}}});
}

/* Process 0 comes, gives up and flickers at 40. */
static void given_up(struct settings s) {
    static const uint32_t words[4] = {0x20000000, 0x60000000, 0x30000001, 0x40000000};
    const struct zaguypo_row idle[2] = {IDLE, IDLE}, at_40[2] = {{40, 0, 0, 0, 0, 0, 0, 0, {0}}, IDLE};
    if (s.act == ZAGUYPO_ACT_PLAIN) both(s, idle, 2, words, 4, 16, (struct zaguypo_tally){2, 1, 0}, NO_CELL, at_40);
    else both(s, idle, 2, words, 4, 0, (struct zaguypo_tally){4, 1, 0}, act_written(0), idle);
}

/* A run beside the one under 0 and 0 of its first words, `allowed` of them. Where these are not all, the settings refuse the
   next with `refusal`. Answers how the run must end. */
static unsigned beside_zero(struct settings s, const struct zaguypo_row *table, uint32_t n, const uint32_t *words, size_t count,
                            size_t allowed, unsigned refusal) {
    struct zaguypo_row after[MOST];
    struct zaguypo_tally tally;
    memcpy(after, table, n * sizeof *table);
    const struct zaguypo_ran ran = zaguypo_run_rows(after, n, words, allowed, &tally, ZERO.act, ZERO.turn);
    if (allowed == count) refusal = ran.refusal;
    both(s, table, n, words, count, refusal, tally, ran.cell, after);
    return refusal;
}

/* words that meet neither 16 nor 17 */
static void circuits(struct settings s) {
    static struct given g;
    for (uint32_t n = 2; n <= 16; n++) {
        give(&g, n, n == 16 ? ZAGUYPO_RUN_LIMIT : 100);
        check("circuits", beside_zero(s, g.rows, n, g.words, g.count, g.count, 0) == 0);
    }
}

/* mostly GO and LOOK */
static uint32_t drawn_word(uint32_t n) {
    const uint32_t kind = draw(4) ? 4 + draw(2) : 1 + draw(6);
    return kind << 28 | draw(n) << 16 | (kind == 3 || kind == 5 ? draw(n) : 0);
}

/* 16 or 17 where the settings forbid a word that 0 and 0 accepts, else 0 */
static unsigned forbidden(struct settings s, const struct zaguypo_row *rows, uint32_t n, uint32_t word) {
    const uint32_t kind = word >> 28, p = word >> 16 & 0xFF;
    const struct zaguypo_row *own = &rows[p];
    unsigned members = 0;
    if (kind == 3) return (own->location == 24 ? s.turn == ZAGUYPO_TURN_PLAIN : s.act == ZAGUYPO_ACT_PLAIN) ? 16 : 0;
    if (kind != 4 || own->location != 23 || own->bb != 0 || s.turn != ZAGUYPO_TURN_ONE_WRITER) return 0;
    for (uint32_t q = 0; q < n; q++) members += own->est >> q & 1;
    for (uint32_t q = 0; q < n && members >= own->level; q++)
        if (q != p && rows[q].location == 24 && rows[q].level == own->level) return 17;
    return 0;
}

/* Any table and words that it takes under 0 and 0, with one that it may refuse at the end. Answers how the run must end. */
static unsigned drawn_run(struct settings s, uint32_t n) {
    struct zaguypo_row table[MOST], rows[MOST], before[MOST];
    uint32_t words[LIST];
    const size_t most = draw(LIST);
    size_t count = 0, allowed = 0;
    unsigned refusal = 0;
    sound_rows(table, n), memcpy(rows, table, n * sizeof *table);
    while (count <= most) {
        words[count] = drawn_word(n);
        memcpy(before, rows, n * sizeof *rows);
        const int accepted = zaguypo_step(rows, n, words[count], ZERO.act, ZERO.turn).refusal == 0;
        if (!accepted && count < most) continue;
        if (accepted && !refusal) refusal = forbidden(s, before, n, words[count]);
        allowed += !refusal, count++;
    }
    return beside_zero(s, table, n, words, count, allowed, refusal);
}

/* many of them, of which some must end at 16 or 17 where the settings have that, and some elsewhere */
static void drawn_runs(struct settings s) {
    unsigned met[3] = {0};
    for (int i = 0; i < 120; i++) {
        const unsigned refusal = drawn_run(s, 2 + draw(i % 8 ? 3 : 15));
        met[refusal == 16 ? 1 : refusal == 17 ? 2 : 0]++;
    }
    check("drawn runs, neither", met[0] > 0);
    check("drawn runs, 16", (met[1] > 0) == (s.act == ZAGUYPO_ACT_PLAIN || s.turn == ZAGUYPO_TURN_PLAIN));
    check("drawn runs, 17", (met[2] > 0) == (s.turn == ZAGUYPO_TURN_ONE_WRITER));
}

/* ---- 18 */

/* Process 0 rests; 1 is at 20 and cannot pass 2 once more; 2 is about to go to 24, where 3 is on the same level. */
static const struct zaguypo_row BUSY[4] = {{10, 0, 0, 0, 0, 0, 0, 0, {0}},
                                           {20, 0, 0, 0, 0, 0, 0, 0, {0, 0, 65535}},
                                           {23, 1, 0, 2, 3, 0, 0, 0, {0}},
                                           {24, 1, 0, 2, 7, 0, 0, 0, {0}}};
/* words and what they meet there where act is plain and turn has one writer */
static const uint32_t MET[7][2] = {{0, 8},           {0x10040000, 9},  {0x40000000, 10}, {0x10000001, 11},
                                   {0x30010001, 16}, {0x40020000, 17}, {0x40010000, 15}};

/* 18 comes after 6 and 7, and before all that words meet; an accepted word, and none at all, meet it too. */
static void wrong_on_rows(struct settings s) {
    static const size_t sizes[4] = {0, 1, 17, 18};
    static const uint32_t stay = 0x10000000;
    struct zaguypo_row rows[18];
    const uint32_t n = 2 + draw(15);
    idle_rows(rows, 18);
    for (int i = 0; i < 4; i++) {
        stepped_under(s, rows, sizes[i], stay, 6, NO_CELL, rows);
        ran_under(s, rows, sizes[i], &stay, 1, 6, NONE, NO_CELL, rows);
    }
    stepped_under(s, rows, n, stay, 18, NO_CELL, rows);
    ran_under(s, rows, n, &stay, 1, 18, NONE, NO_CELL, rows);
    ran_under(s, rows, n, &stay, 0, 18, NONE, NO_CELL, rows);
    spoil(rows, draw(n), n, (int)draw(SPOILS));
    stepped_under(s, rows, n, stay, 7, NO_CELL, rows);
    ran_under(s, rows, n, &stay, 1, 7, NONE, NO_CELL, rows);
    for (int i = 0; i < 7; i++) {
        stepped_under(s, BUSY, 4, MET[i][0], 18, NO_CELL, BUSY);
        ran_under(s, BUSY, 4, MET[i], 1, 18, NONE, NO_CELL, BUSY);
        input_under(s, BUSY, 4, MET[i], 1, 18, NULL);
    }
}

/* It comes after 14 and 1 to 5, and before 13, in both forms. */
static void wrong_on_bytes(struct settings s) {
    static const uint32_t bad[6][3] = {{0, 0x82000002, 1}, {0, 0x81000003, 2}, {1, 0x98000000, 3},
                                       {1, 0x90008000, 4}, {1, 0x90003000, 5}, {13, 0xE1010001, 4}};
    uint32_t words[15] = {0};
    for (size_t length = 0; length < 4; length++) called_under(s, words, length, 56, length ? 14 : 1, NULL, 0);
    for (int i = 0; i < 6; i++) {
        idle_image(words, 2), words[bad[i][0]] = bad[i][1];
        called_under(s, words, 56, 56, bad[i][2], NULL, 0);
        called_under(s, words, 57, 56, 14, NULL, 0);
    }
    idle_image(words, 2), words[14] = 0x10000000;
    for (size_t lent = 54; lent < 58; lent++) called_under(s, words, 60, lent, 18, NULL, 0);
    called_under(s, words, 56, 56, 18, NULL, 0);
    called_under(s, words, 56, 0, 18, NULL, 0);
    idle_bare_image(words, 2), words[10] = 0x10000000;
    called_under(s, words, 44, 56, 18, NULL, 0);
    called_under(s, words, 40, 0, 18, NULL, 0);
}

static void wrong(uint32_t act, uint32_t turn) {
    const struct settings s = {act, turn};
    wrong_on_rows(s), wrong_on_bytes(s);
}

/* all that has a bit more than a setting, one of the two or both; all 32 bits count */
static void wrong_settings(void) {
    for (int bit = 0; bit < 32; bit++)
        for (uint32_t low = 0; low < 3; low++) {
            const uint32_t value = (uint32_t)1 << bit | low;
            if (value > 1) wrong(value, draw(3));
            if (value > 2) wrong(draw(2), value), wrong(value, value);
        }
    wrong(0xFFFFFFFF, 0), wrong(0, 0xFFFFFFFF), wrong(0xFFFFFFFF, 0xFFFFFFFF);
}

/* It comes before 12. */
static void wrong_and_long(uint32_t act, uint32_t turn) {
    static uint32_t words[MOST_WORDS];
    const struct settings s = {act, turn};
    const struct zaguypo_row idle[2] = {IDLE, IDLE};
    idle_image(words, 2);
    for (int i = 14; i < MOST_WORDS; i++) words[i] = 0x10000000;
    for (size_t count = 8192; count <= 8193; count++) {
        ran_under(s, idle, 2, words + 14, count, 18, NONE, NO_CELL, idle);
        for (size_t lent = 55; lent <= 56; lent++) called_under(s, words, 4 * (14 + count), lent, 18, NULL, 0);
    }
    called_under(s, words, 34112, 56, 18, NULL, 0);
    called_under(s, words, 34116, 56, 14, NULL, 0);
}

int main(void) {
    static const uint32_t sizes[4] = {2, 3, 4, 16};
    for (uint32_t six = 0; six < 6; six++) {
        const struct settings s = {six % 2, six / 2};
        for (int i = 0; i < 4; i++)
            for (uint32_t n = sizes[i], p = 0; p < n; p++) {
                for (int l = 0; l < 8; l++) flickers(s, n, p, LOCATIONS[l]);
                /* beside each other process; of sixteen, beside some */
                for (uint32_t q = 0; q < n; q++)
                    if (q != p && (n < 16 || draw(8) == 0)) writers(s, n, p, q);
            }
        full(s), limits(s), pair(s), given_up(s), circuits(s), drawn_runs(s);
    }
    for (int i = 0; i < 7; i++) refused((struct settings){1, 1}, BUSY, 4, MET[i][0], MET[i][1]);
    wrong_settings();
    wrong_and_long(2, 0), wrong_and_long(0, 3), wrong_and_long(0x10001, 1), wrong_and_long(1, 0xFFFFFFFF);
    return done("settings");
}
