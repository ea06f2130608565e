/* zaguypo_write: 6, 7, then 13, lent words kept; into exactly enough words and more; reading gives the rows back. */

/* Writes a table into `count` words; they must become the image, or stay where there is none. */
static void writes(const char *what, const struct zaguypo_row *table, size_t size, size_t count, unsigned refusal,
                   const uint32_t *image) {
    struct lent rows = lend(table, size * sizeof *table), words = lend(NULL, 4 * count);
    if (image) must_hold(&words, image, 4 * ZAGUYPO_IMAGE_WORDS(size));
    uint16_t answer =
        zaguypo_write((const struct zaguypo_row *)lent_memory(&rows), size, (uint32_t *)lent_memory(&words), count);
    check(what, answer == refusal);
    check(what, given_back(&words));
    check(what, given_back(&rows));
}

/* 6 and 7 stand whatever is lent, also where that is too few words. */
static void write_refused(const char *what, const struct zaguypo_row *table, size_t size, unsigned refusal) {
    writes(what, table, size, 0, refusal, NULL);
    writes(what, table, size, 9, refusal, NULL);
    writes(what, table, size, 400, refusal, NULL);
}

static void write_whole(const char *what, const struct zaguypo_row *table, size_t n, const uint32_t *image) {
    size_t count = ZAGUYPO_IMAGE_WORDS(n);
    writes(what, table, n, 0, 13, NULL);
    writes(what, table, n, 1, 13, NULL);
    writes(what, table, n, BARE_WORDS(n), 13, NULL);
    writes(what, table, n, count - 1, 13, NULL);
    writes(what, table, n, count, 0, image);
    writes(what, table, n, count + 1, 0, image);
    writes(what, table, n, count + 20, 0, image);
}

static void write_unsound(uint32_t n) {
    struct zaguypo_row rows[MOST];
    idle_rows(rows, MOST);
    for (int way = 0; way < SPOILS; way++)
        for (size_t q = 0; q < n; q += n - 1) {
            spoil(rows, q, n, way);
            write_refused("unsound", rows, n, 7);
            rows[q] = IDLE;
        }
}

/* what was written, read again */
static void written_and_read(const struct zaguypo_row *table, size_t n) {
    uint32_t words[ZAGUYPO_IMAGE_WORDS(16)] = {0};
    struct zaguypo_row rows[MOST] = {{0}};
    check("written", zaguypo_write(table, n, words, ZAGUYPO_IMAGE_WORDS(16)) == 0);
    check("read again", zaguypo_read(words, ZAGUYPO_IMAGE_WORDS(n), rows, MOST).size == n);
    check("the same rows", memcmp(rows, table, n * sizeof *rows) == 0);
}

static void write_images(void) {
    static const size_t sizes[] = {0, 1, 17, 18};
    uint32_t words[ZAGUYPO_IMAGE_WORDS(16)];
    struct zaguypo_row rows[MOST + 2];
    idle_rows(rows, MOST + 2);
    for (int i = 0; i < 4; i++) write_refused("a wrong size", rows, sizes[i], 6);
    write_whole("three by hand", THREE, 3, THREE_IMAGE);
    for (uint32_t n = 2; n <= 16; n++) {
        write_unsound(n);
        for (int round = 0; round < 20; round++) {
            sound_rows(rows, n);
            image_of(words, rows, n);
            write_whole("any table", rows, n, words);
            written_and_read(rows, n);
        }
    }
}
