/* zaguypo_census: tables whose figures were counted by hand, and refused ones. */

static void counted(const char *what, const struct zaguypo_row *table, size_t size, struct zaguypo_figures expected) {
    struct lent rows = lend(table, size * sizeof *table);
    struct zaguypo_figures f = zaguypo_census((const struct zaguypo_row *)lent_memory(&rows), size);
    check(what, memcmp(&f, &expected, sizeof f) == 0);
    check(what, given_back(&rows));
}

/* 24 counts by its level alone; 20, 10 and 40 do not compete and do not wait; two at 30 are counted as they are */
static void census_small(void) {
    static const struct zaguypo_row two[2] = {{24, 1, 0, 1, 2, 0, 0, 0, {0}}, {30, 1, 0, 0, 0, 0, 1, 0, {0}}};
    counted("two", two, 2, (struct zaguypo_figures){0, 1, 1, {0, 1, 2}, {0, 1, 2}});
    static const struct zaguypo_row four[4] = {{23, 1, 0, 3, 0, 0, 0, 0, {0}},
                                               {24, 1, 0, 3, 0, 0, 0, 0, {0}},
                                               {22, 1, 0, 2, 0, 0, 3, 0, {0}},
                                               {20, 0, 0, 0, 0, 0, 0, 0, {0}}};
    counted("four", four, 4, (struct zaguypo_figures){0, 0, 3, {0, 0, 0, 1, 3}, {0, 1, 1, 2, 3}});
    static const struct zaguypo_row five[5] = {{30, 1, 0, 0, 0, 0, 0, 0, {0}},
                                               {30, 1, 0, 0, 0, 0, 1, 0, {0}},
                                               {40, 1, 0, 0, 0, 0, 0, 0, {0}},
                                               {10, 0, 0, 0, 0, 0, 0, 0, {0}},
                                               {21, 1, 0, 4, 0, 0, 3, 0, {0}}};
    counted("five", five, 5, (struct zaguypo_figures){0, 2, 1, {0, 2, 2, 2, 2, 3}, {0, 2, 2, 3, 3, 3}});
}

/* process 0 still writes act, process 1 has written it: one waits, and counted from 20 on it would be two */
static void census_at_20_and_21(void) {
    static const struct zaguypo_row rows[2] = {{20, 0, 0, 0, 0, 0, 0, 0, {0}}, {21, 1, 0, 1, 1, 0, 0, 0, {0}}};
    counted("at 20 and at 21", rows, 2, (struct zaguypo_figures){0, 0, 1, {0, 0, 1}, {0, 1, 1}});
}

/* a process at each location in turn, with a level that goes with it there, beside one at 10 */
static void census_at_each_location(void) {
    static const struct { uint16_t location, level, critical, waiting; } each[8] = {
        {10, 0, 0, 0}, {20, 0, 0, 0}, {21, 0, 0, 1}, {22, 1, 0, 1}, {23, 1, 0, 1}, {24, 1, 0, 1}, {30, 0, 1, 0}, {40, 0, 0, 0}};
    for (int i = 0; i < 8; i++) {
        const struct zaguypo_row rows[2] = {{each[i].location, 0, 0, each[i].level, 0, 0, 0, 0, {0}}, IDLE};
        const struct zaguypo_figures f = zaguypo_census(rows, 2);
        check("at a location", f.refusal == 0 && f.critical == each[i].critical && f.waiting == each[i].waiting);
        check("who competes waits or is at 30", f.below[2] == f.waiting + f.critical);
    }
}

/* 16 processes at 21, at the highest level: ahead empty, then full; the counts of passes change no figure */
static void census_of_16(void) {
    struct zaguypo_row rows[MOST];
    struct zaguypo_figures f = {0, 0, 16, {0}, {0}};
    f.below[16] = 16;
    for (int k = 1; k <= 16; k++) f.held[k] = 16;
    for (int q = 0; q < MOST; q++) rows[q] = (struct zaguypo_row){21, 1, 0, 15, 0, 0, 0, 0, {0}};
    counted("ahead empty", rows, 16, f);
    for (uint32_t q = 0; q < MOST; q++) sound_passes(&rows[q], q, MOST);
    counted("ahead empty, any counts", rows, 16, f);
    for (int k = 1; k < 16; k++) f.held[k] = 0;
    for (int q = 0; q < MOST; q++) rows[q].ahead = 0xFFFF;
    counted("ahead full", rows, 16, f);
}

static void census(void) {
    struct zaguypo_row rows[MOST + 2];
    idle_rows(rows, MOST + 2);
    for (uint32_t n = 0; n <= MOST + 2; n++) {
        int good = n >= 2 && n <= 16;
        counted("idle", rows, n, (struct zaguypo_figures){good ? 0 : 6, 0, 0, {0}, {0}});
        for (int way = 0; good && way < SPOILS; way++) {
            size_t q = way % 2 ? n - 1 : 0;
            spoil(rows, q, n, way);
            counted("unsound", rows, n, (struct zaguypo_figures){7, 0, 0, {0}, {0}});
            rows[q] = IDLE;
        }
    }
    census_small();
    census_at_20_and_21();
    census_at_each_location();
    census_of_16();
}
