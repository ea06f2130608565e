/* Images for reading and writing: one written by hand, and those of any table, in the form that is written and in the bare one,
   of 5N words. */

#define BARE_WORDS(n) (5 * (size_t)(n))

/* three processes, every cell and every count with something in it that may have */
static const struct zaguypo_row THREE[3] = {{22, 1, 1, 2, 6, 4, 3, 0, {0, 1, 65535}},
                                            {24, 0, 1, 1, 5, 0, 1, 2, {256, 0, 2}},
                                            {30, 1, 0, 0, 1, 2, 7, 1, {4660, 9, 0}}};
static const uint32_t THREE_IMAGE[24] = {0x81000003, 0x90003302, 0xA0000006, 0xB0000004, 0xC0000003, 0x90015101,
                                         0xA0010005, 0xB0010000, 0xC0010001, 0x90026200, 0xA0020001, 0xB0020002,
                                         0xC0020007, 0xD0010002, 0xD0020001, 0xE0000000, 0xE0010001, 0xE002FFFF,
                                         0xE1000100, 0xE1010000, 0xE1020002, 0xE2001234, 0xE2010009, 0xE2020000};

static uint32_t code_of(uint16_t location) {
    uint32_t code = 0;
    while (LOCATIONS[code] != location) code++;
    return code;
}

/* the bare image of a sound table, from the manual, "Images"; answers its number of words */
static size_t bare_image_of(uint32_t *words, const struct zaguypo_row *rows, uint32_t n) {
    size_t count = 0;
    words[count++] = 0x80000000 + n;
    for (uint32_t q = 0; q < n; q++) {
        const struct zaguypo_row *r = &rows[q];
        uint32_t flags = (uint32_t)r->act << 9 | (uint32_t)r->bb << 8;
        words[count++] = 0x90000000 | q << 16 | code_of(r->location) << 12 | flags | r->level;
        words[count++] = 0xA0000000 | q << 16 | r->est;
        words[count++] = 0xB0000000 | q << 16 | r->lis;
        words[count++] = 0xC0000000 | q << 16 | r->ahead;
    }
    for (uint32_t k = 1; k < n; k++) words[count++] = 0xD0000000 | k << 16 | rows[k].turn;
    return count;
}

/* the image of a sound table as it is written */
static size_t image_of(uint32_t *words, const struct zaguypo_row *rows, uint32_t n) {
    size_t count = bare_image_of(words, rows, n);
    words[0] = 0x81000000 + n;
    for (uint32_t q = 0; q < n; q++)
        for (uint32_t r = 0; r < n; r++) words[count++] = 0xE0000000 | q << 24 | r << 16 | rows[q].passes[r];
    return count;
}

/* the image of n idle processes, and the bare one */
static size_t idle_image(uint32_t *words, uint32_t n) {
    struct zaguypo_row rows[MOST];
    idle_rows(rows, MOST);
    return image_of(words, rows, n);
}
static size_t idle_bare_image(uint32_t *words, uint32_t n) {
    struct zaguypo_row rows[MOST];
    idle_rows(rows, MOST);
    return bare_image_of(words, rows, n);
}
