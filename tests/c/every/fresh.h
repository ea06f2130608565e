/* zaguypo_fresh: every number of rows from 0 to 20, and one that is 2 in its lower 16 bits. */

static void fresh_of(size_t size) {
    struct lent rows = lend(NULL, size * sizeof(struct zaguypo_row));
    int good = size >= 2 && size <= 16;
    struct zaguypo_row table[MOST];
    idle_rows(table, MOST);
    if (good) must_hold(&rows, table, size * sizeof *table);
    uint16_t answer = zaguypo_fresh((struct zaguypo_row *)lent_memory(&rows), size);
    check("fresh, answer", answer == (good ? 0 : 6));
    check("fresh, rows", given_back(&rows));
}

static void fresh(void) {
    for (size_t size = 0; size <= 20; size++) fresh_of(size);
    fresh_of(0x10002);
}
