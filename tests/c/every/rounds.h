/* zaguypo_rounds: refused tables, tables that ask for no round, rounds whose number and rows were found by hand, and rounds that
   15 ends. */

static void rounded(const char *what, const struct zaguypo_row *table, size_t size, struct zaguypo_rounded expected,
                    const struct zaguypo_row *after) {
    struct lent rows = lend(table, size * sizeof *table);
    must_hold(&rows, after, size * sizeof *after);
    struct zaguypo_rounded r = zaguypo_rounds((struct zaguypo_row *)lent_memory(&rows), size);
    check(what, r.refusal == expected.refusal && r.rounds == expected.rounds && r.occupied == expected.occupied);
    check(what, given_back(&rows));
}

/* no round is done */
static void not_rounded(const char *what, const struct zaguypo_row *table, size_t size, uint16_t refusal, uint16_t occupied) {
    rounded(what, table, size, (struct zaguypo_rounded){refusal, 0, occupied}, table);
}

/* idle rows, which ask for no round, and rows at 20, which do; of a wrong number, or one of them unsound */
static void rounds_refused(void) {
    struct zaguypo_row idle[MOST + 2], busy[MOST + 2];
    idle_rows(idle, MOST + 2), idle_rows(busy, MOST + 2);
    for (int q = 0; q < MOST + 2; q++) busy[q].location = 20;
    for (uint32_t n = 0; n <= MOST + 2; n++) {
        int good = n >= 2 && n <= 16;
        not_rounded("idle", idle, n, good ? 0 : 6, 0);
        if (!good) not_rounded("wrong size", busy, n, 6, 0);
        for (int way = 0; good && way < SPOILS; way++) {
            size_t q = way % 2 ? n - 1 : 0;
            const struct zaguypo_row kept = busy[q];
            spoil(busy, q, n, way);
            not_rounded("unsound", busy, n, 7, 0);
            busy[q] = kept;
        }
    }
}

/* a process at each location beside one at 30; and processes at 10 and 40 alone */
static void rounds_none(void) {
    const struct zaguypo_row away = {40, 1, 1, 1, 3, 2, 2, 0, {0}}, inside = {30, 1, 1, 0, 3, 2, 2, 0, {0}};
    for (int i = 0; i < 8; i++) {
        const uint16_t level = LOCATIONS[i] >= 22 && LOCATIONS[i] <= 24;
        const struct zaguypo_row other = {LOCATIONS[i], 0, 0, level, 1, 1, 1, 0, {0}};
        const struct zaguypo_row before[2] = {inside, other}, after[2] = {other, inside};
        not_rounded("before 30", before, 2, 0, 1);
        not_rounded("after 30", after, 2, 0, 1);
    }
    const struct zaguypo_row pairs[3][2] = {{IDLE, away}, {away, IDLE}, {away, away}};
    for (int i = 0; i < 3; i++) not_rounded("nobody at 20 to 24", pairs[i], 2, 0, 0);
}

/* A process that is at level q, with its number in turn[q] and all others in est, goes about in n + 2 words: GO, n - 1
   LOOKs, GO, GO. Where it is after so many words from 21. */
static struct zaguypo_row going_about(uint32_t q, uint32_t n, uint32_t words) {
    const uint16_t others = (uint16_t)(((1u << n) - 1) & ~(1u << q)), bare = (uint16_t)q;
    struct zaguypo_row row = {22, 1, 1, bare, others, others, others, bare, {0}};
    words %= n + 2;
    for (uint32_t looked = 1; looked < words && row.lis; looked++) row.lis &= (uint16_t)(row.lis - 1);
    if (words == 0) row.location = 21, row.lis = 0;
    if (words == n + 1) row.location = 23;
    return row;
}

/* n processes at 20, each with one count over those below it and one over those above */
static void all_at_20(struct zaguypo_row *rows, uint32_t n, uint16_t below, uint16_t above) {
    for (uint32_t q = 0; q < n; q++) {
        rows[q] = IDLE, rows[q].location = 20;
        for (uint32_t r = 0; r < n; r++)
            if (r != q) rows[q].passes[r] = r < q ? below : above;
    }
}

/* All at 20: after one round they are at 21, each with one more pass over those below it; 2n + 5 rounds later all have looked,
   pushed and looked again at level n - 1, and all but the last, whose number is in turn[n - 1], go down a level; and so on, until
   process 0 is at level 0. */
static void rounds_of_all(uint32_t n, uint16_t below, uint16_t above) {
    struct zaguypo_row table[MOST], after[MOST];
    const uint32_t phase = 2 * n + 5, all = ZAGUYPO_SILENCE_BOUND(n);
    const uint16_t others = (uint16_t)((1u << n) - 2);
    all_at_20(table, n, below, above), all_at_20(after, n, (uint16_t)(below + 1), above);
    for (uint32_t q = 0; q < n; q++) {
        struct zaguypo_row row = {30, 1, 0, 0, others, 0, others, 0, {0}};
        if (q > 0) row = going_about(q, n, 1 + (q - 1) * phase);
        memcpy(row.passes, after[q].passes, sizeof row.passes);
        after[q] = row;
    }
    rounded("all at 20", table, n, (struct zaguypo_rounded){0, (uint16_t)all, 1}, after);
}

/* All at 20, and process 1 cannot pass process 0 once more: process 0, whom nobody competes with, is at 21. */
static void rounds_broken_at_20(uint32_t n) {
    struct zaguypo_row table[MOST], after[MOST];
    const uint16_t others = (uint16_t)((1u << n) - 2);
    all_at_20(table, n, 65535, 65535), all_at_20(after, n, 65535, 65535);
    after[0].location = 21, after[0].act = 1, after[0].level = (uint16_t)(n - 1), after[0].est = others;
    rounded("15, all at 20", table, n, (struct zaguypo_rounded){15, 0, 0}, after);
}

/* two that arrive in one round; before, between and after them others have their words too */
static void rounds_to_their_end(void) {
    static const struct zaguypo_row five[5] = {{40, 1, 0, 0, 0, 0, 0, 0, {0}},
                                               {21, 1, 0, 0, 0, 0, 0, 0, {0}},
                                               {22, 1, 0, 2, 26, 24, 0, 0, {0}},
                                               {21, 1, 0, 0, 0, 0, 0, 0, {0}},
                                               {20, 0, 0, 0, 0, 0, 31, 0, {0}}};
    static const struct zaguypo_row after[5] = {{10, 0, 0, 0, 0, 0, 0, 0, {0}},
                                                {30, 1, 0, 0, 0, 0, 0, 0, {0}},
                                                {22, 1, 0, 2, 26, 16, 0, 0, {0}},
                                                {30, 1, 0, 0, 0, 0, 0, 0, {0}},
                                                {21, 1, 0, 4, 15, 0, 14, 0, {0, 1, 1, 1}}};
    rounded("two arrive", five, 5, (struct zaguypo_rounded){0, 1, 1}, after);
}

/* Process 0 waits for others that rest with act 1, which no list of words leads to: of two, four words go about; of 16, the
   14th of 18 words is the last. */
static void rounds_used_up(void) {
    static const struct zaguypo_row two[2] = {{22, 1, 1, 1, 2, 0, 0, 0, {0}}, {10, 1, 0, 0, 0, 0, 0, 0, {0}}};
    rounded("used up, two", two, 2, (struct zaguypo_rounded){0, 80, 0}, two);
    struct zaguypo_row table[MOST], after[MOST];
    for (int q = 0; q < MOST; q++) table[q] = after[q] = (struct zaguypo_row){10, 1, 0, 0, 0, 0, 0, q > 0, {0}};
    table[0].location = 20;
    after[0] = (struct zaguypo_row){22, 1, 1, 15, 0xFFFE, 0xC000, 0, 0, {0}}, after[15].turn = 0;
    rounded("used up, 16", table, 16, (struct zaguypo_rounded){0, 19456, 0}, after);
}

/* Process 0 somewhere, the next at 20, the last at 22 on level 1; over each other all counts but those of process 1 are full. */
static void before_20(struct zaguypo_row *rows, uint16_t location, uint16_t level) {
    rows[0] = (struct zaguypo_row){location, 1, 0, level, 6, 6, 0, 0, {0, 65535, 65535}};
    rows[1] = (struct zaguypo_row){20, 0, 0, 0, 0, 0, 0, 0, {0}};
    rows[2] = (struct zaguypo_row){22, 1, 0, 1, 3, 1, 0, 0, {65535, 65535}};
}

/* Process 1 cannot pass process r once more, which is 0 or 2. The word of process 0 before it, GO from a location to another, is
   kept, and process 2 after it has none. */
static void rounds_broken_by(int r, uint16_t from, uint16_t to, uint16_t level, uint16_t occupied) {
    struct zaguypo_row table[3], after[3];
    before_20(table, from, level), before_20(after, to, level);
    table[1].passes[r] = after[1].passes[r] = 65535;
    rounded("15 within a round", table, 3, (struct zaguypo_rounded){15, 0, occupied}, after);
}

/* 15 ends the first round: at its first word, within it, with somebody at 30 by then or nobody, and at its last word */
static void rounds_broken(void) {
    static const struct zaguypo_row first[2] = {{20, 0, 0, 0, 0, 0, 2, 0, {0, 65535}}, {21, 1, 0, 0, 1, 0, 0, 0, {0}}};
    rounded("15 at the first word", first, 2, (struct zaguypo_rounded){15, 0, 0}, first);
    for (int r = 0; r <= 2; r += 2) {
        rounds_broken_by(r, 21, 30, 0, 1);
        rounds_broken_by(r, 23, 24, 2, 0);
    }
    static const struct zaguypo_row last[2] = {{24, 1, 0, 1, 0, 0, 2, 0, {0}}, {20, 1, 1, 1, 1, 1, 1, 1, {65535}}};
    static const struct zaguypo_row after[2] = {{21, 1, 1, 1, 2, 0, 0, 0, {0}}, {20, 1, 1, 1, 1, 1, 1, 0, {65535}}};
    rounded("15 at the last word", last, 2, (struct zaguypo_rounded){15, 0, 0}, after);
    for (uint32_t n = 2; n <= 16; n++) rounds_broken_at_20(n);
}

/* a full count over a process that rests, and one that becomes full */
static void rounds_not_broken(void) {
    static const struct zaguypo_row alone[2] = {{20, 0, 0, 0, 0, 0, 0, 0, {0, 65535}}, {10, 0, 0, 0, 0, 0, 0, 0, {65535}}};
    static const struct zaguypo_row inside[2] = {{30, 1, 0, 0, 0, 0, 0, 0, {0, 65535}}, {10, 0, 0, 0, 0, 0, 0, 0, {65535}}};
    rounded("full over one that rests", alone, 2, (struct zaguypo_rounded){0, 6, 1}, inside);
    static const struct zaguypo_row two[2] = {{21, 1, 0, 0, 0, 0, 0, 0, {0}}, {20, 0, 0, 0, 0, 0, 0, 0, {65534}}};
    static const struct zaguypo_row full[2] = {{30, 1, 0, 0, 0, 0, 0, 0, {0}}, {21, 1, 0, 1, 1, 0, 1, 0, {65535}}};
    rounded("a count becomes full", two, 2, (struct zaguypo_rounded){0, 1, 1}, full);
}

static void rounds(void) {
    rounds_refused();
    rounds_none();
    for (uint32_t n = 2; n <= 16; n++) rounds_of_all(n, 0, 0), rounds_of_all(n, 65534, 65535);
    rounds_to_their_end();
    rounds_used_up();
    rounds_broken();
    rounds_not_broken();
}
