/* zaguypo_read: every refusal with its place in both forms, lent rows kept; whole images into as many rows, more and fewer. */

/* Reads words into `size` rows: the first, as many as the expected answer says, must become the table, the others stay. */
static void reads(const char *what, const uint32_t *words, size_t count, size_t size, struct zaguypo_reading expected,
                  const struct zaguypo_row *table) {
    struct lent image = lend(words, 4 * count), rows = lend(NULL, size * sizeof *table);
    must_hold(&rows, table, expected.size * sizeof *table);
    struct zaguypo_reading r =
        zaguypo_read((const uint32_t *)lent_memory(&image), count, (struct zaguypo_row *)lent_memory(&rows), size);
    check(what, r.refusal == expected.refusal && r.place == expected.place && r.size == expected.size);
    check(what, given_back(&rows));
    check(what, given_back(&image));
}

/* refused, whether enough rows are lent or none */
static void read_refused(const char *what, const uint32_t *words, size_t count, unsigned refusal, size_t place) {
    struct zaguypo_reading expected = {(uint16_t)refusal, (uint16_t)place, 0};
    reads(what, words, count, MOST, expected, NULL);
    reads(what, words, count, 0, expected, NULL);
}

static void read_headers(void) {
    static const uint32_t wrong[] = {0,          2,          0x10000002, 0x70000002, 0x01000002, 0x71000002, 0x80000000,
                                     0x80000001, 0x80000011, 0x80000012, 0x80000102, 0x80010002, 0x81000000, 0x81000001,
                                     0x81000011, 0x81000012, 0x81000102, 0x81010002, 0x82000002, 0x83000002, 0x84000002,
                                     0x88000002, 0x90000002, 0x91000002, 0xC0000002, 0xC1000002, 0xE1000002, 0xFFFFFFFF};
    uint32_t words[ZAGUYPO_IMAGE_WORDS(16)] = {0};
    read_refused("no words", words, 0, 1, 0);
    for (size_t i = 0; i < sizeof wrong / sizeof *wrong; i++) {
        idle_image(words, 2);
        words[0] = wrong[i];
        read_refused("no header", words, 14, 1, 0);
        read_refused("no header, bare", words, 10, 1, 0);
        read_refused("no header, alone", words, 1, 1, 0);
    }
}

/* other numbers of words than the `count` that the header asks for; 2 comes before 3 */
static void read_cut(uint32_t *words, size_t count) {
    words[count] = words[count + 1] = 0x10000000;
    read_refused("a header alone", words, 1, 2, 1);
    read_refused("a word short", words, count - 1, 2, count - 1);
    read_refused("a word more", words, count + 1, 2, count);
    read_refused("two words more", words, count + 2, 2, count);
    words[1] = 0;
    read_refused("2 before 3", words, count - 1, 2, count - 1);
}

/* in both forms; and each header with the number of words of the other */
static void read_2(uint32_t n) {
    uint32_t words[ZAGUYPO_IMAGE_WORDS(16) + 2] = {0};
    read_cut(words, idle_image(words, n));
    read_cut(words, idle_bare_image(words, n));
    size_t count = idle_image(words, n);
    read_refused("no counts", words, BARE_WORDS(n), 2, BARE_WORDS(n));
    words[0] = 0x80000000 + n;
    read_refused("counts after a bare image", words, count, 2, BARE_WORDS(n));
}

/* the image of n idle processes with one word changed; the bare one too, where it has that place */
static void read_changed(const char *what, uint32_t n, size_t place, uint32_t word, unsigned refusal) {
    uint32_t words[ZAGUYPO_IMAGE_WORDS(16)];
    size_t count = idle_image(words, n);
    words[place] = word;
    read_refused(what, words, count, refusal, place);
    if (place >= BARE_WORDS(n)) return;
    count = idle_bare_image(words, n);
    words[place] = word;
    read_refused(what, words, count, refusal, place);
}

/* At every place: a wrong kind, a wrong number, each spare bit; with the argument far out of range, which comes after. */
static void read_3(uint32_t n) {
    static const uint32_t spares[5] = {0x0F000C00, 0x0F000000, 0x0F000000, 0x0F000000, 0x0F00FF00};
    uint32_t words[ZAGUYPO_IMAGE_WORDS(16)];
    idle_image(words, n);
    for (size_t place = 1; place < BARE_WORDS(n); place++) {
        uint32_t word = words[place], spare = spares[(word >> 28) - 9];
        read_changed("next kind", n, place, word + 0x10000000, 3);
        read_changed("kind 1", n, place, (word & 0x0FFFFFFF) | 0x10000000, 3);
        read_changed("another number", n, place, word ^ 0x00010000, 3);
        read_changed("a far number", n, place, word | 0x00800000, 3);
        for (uint32_t bit = 1; bit < 0x10000000; bit <<= 1)
            if (spare & bit) read_changed("a spare bit", n, place, word | bit, 3);
        read_changed("3 before 4", n, place, word | 0x010000FF, 3);
    }
}

/* At every place of a count: a wrong kind, each bit of q, of r and of the spare ones; on the diagonal with a count, which comes
   after. */
static void read_3_of_counts(uint32_t n) {
    uint32_t words[ZAGUYPO_IMAGE_WORDS(16)];
    size_t count = idle_image(words, n);
    for (size_t place = BARE_WORDS(n); place < count; place++) {
        uint32_t word = words[place];
        read_changed("kind D for E", n, place, word - 0x10000000, 3);
        read_changed("kind F for E", n, place, word + 0x10000000, 3);
        for (uint32_t bit = 0x00010000; bit < 0x10000000; bit <<= 1) {
            read_changed("q, r or a spare bit", n, place, word ^ bit, 3);
            read_changed("3 before 4, a count", n, place, (word ^ bit) | 0xFFFF, 3);
        }
    }
}

/* Location codes over 7, levels, sets and turns out of range; at a location that asks for a level as well. */
static void read_4(uint32_t n) {
    size_t turns = 1 + 4 * (size_t)n;
    for (uint32_t q = 0; q < n; q += n - 1) {
        uint32_t row = 1 + 4 * q, number = q << 16;
        for (uint32_t code = 8; code < 16; code++) read_changed("a location code", n, row, 0x90000000 | number | code << 12, 4);
        for (uint32_t code = 0; code < 8; code++) {
            read_changed("level n", n, row, 0x90000000 | number | code << 12 | n, 4);
            read_changed("level 255", n, row, 0x900000FF | number | code << 12, 4);
        }
        for (uint32_t set = 1; set <= 3 && n < 16; set++) {
            read_changed("member n", n, row + set, (0x90000000 + (set << 28)) | number | 1u << n, 4);
            read_changed("member 15", n, row + set, (0x90000000 + (set << 28)) | number | 0x8000, 4);
        }
    }
    for (uint32_t k = 1; k < n; k++) {
        read_changed("turn n", n, turns + k - 1, 0xD0000000 | k << 16 | n, 4);
        read_changed("turn 255", n, turns + k - 1, 0xD00000FF | k << 16, 4);
    }
}

/* a count of each process over itself; and the order of words: 4 of a turn comes before 4 of a count, and that before 3 of the
   next */
static void read_4_of_counts(uint32_t n) {
    static const uint32_t counts[5] = {1, 255, 256, 0x8000, 0xFFFF};
    for (uint32_t q = 0; q < n; q++)
        for (int i = 0; i < 5; i++)
            read_changed("on the diagonal", n, BARE_WORDS(n) + n * q + q, 0xE0000000 | q << 24 | q << 16 | counts[i], 4);
    uint32_t words[ZAGUYPO_IMAGE_WORDS(16)];
    size_t count = idle_image(words, n), first = BARE_WORDS(n);
    words[first] = 0xE0000001, words[first + 1] = 0;
    read_refused("4, then 3", words, count, 4, first);
    words[first - 1] |= 0xFF;
    read_refused("4 of a turn first", words, count, 4, first - 1);
}

/* level 0 at 22, 23 and 24, a level at 30; and the order of words: 5 of one comes before 3 of the next */
static void read_5(uint32_t n) {
    for (uint32_t q = 0; q < n; q += n - 1) {
        uint32_t row = 1 + 4 * q, word = 0x90000000 | q << 16;
        for (uint32_t code = 3; code <= 5; code++) read_changed("level 0", n, row, word | code << 12, 5);
        for (uint32_t level = 1; level < n; level++) read_changed("a level at 30", n, row, word | 0x6300 | level, 5);
    }
    uint32_t words[ZAGUYPO_IMAGE_WORDS(16)];
    size_t count = idle_image(words, n);
    words[1] = 0x90004000, words[2] = 0;
    read_refused("5, then 3", words, count, 5, 1);
    words[1] = 0x90000000;
    read_refused("3", words, count, 3, 2);
}

/* an image into fewer rows, exactly as many, and more */
static void read_whole(const char *what, const uint32_t *words, size_t count, const struct zaguypo_row *table, uint16_t n) {
    struct zaguypo_reading good = {0, 0, n}, few = {13, 0, 0};
    reads(what, words, count, 0, few, NULL);
    reads(what, words, count, 1, few, NULL);
    reads(what, words, count, n - 1u, few, NULL);
    reads(what, words, count, n, good, table);
    reads(what, words, count, n + 1u, good, table);
    reads(what, words, count, n + 20u, good, table);
}

/* any table in both forms; of the bare one every count is 0 */
static void read_any(uint32_t n) {
    uint32_t words[ZAGUYPO_IMAGE_WORDS(16)];
    struct zaguypo_row rows[MOST];
    sound_rows(rows, n);
    read_whole("any table", words, image_of(words, rows, n), rows, (uint16_t)n);
    for (uint32_t q = 0; q < n; q++) memset(rows[q].passes, 0, sizeof rows[q].passes);
    read_whole("any table, bare", words, bare_image_of(words, rows, n), rows, (uint16_t)n);
}

static void read_images(void) {
    read_headers();
    read_whole("three by hand", THREE_IMAGE, 24, THREE, 3);
    for (uint32_t n = 2; n <= 16; n++) {
        read_2(n), read_3(n), read_3_of_counts(n), read_4(n), read_4_of_counts(n), read_5(n);
        for (int round = 0; round < 20; round++) read_any(n);
    }
}
