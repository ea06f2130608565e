/* zaguypo_run from C under 0 and 0: every refusal that there is then, both forms of images, the lengths of lent memory, guard
   bytes around it. Expected answers are written out by hand from the manual ("The call on bytes"). */
#include "layout.h"
#include "check.h"

#include <stdlib.h>
#include <string.h>

enum { GUARD = 32, MOST_WORDS = 8600 };

/* the fresh image of two processes; as it is written, and bare */
static const uint32_t FRESH[14] = {0x81000002, 0x90000000, 0xA0000000, 0xB0000000, 0xC0000000, 0x90010000, 0xA0010000,
                                   0xB0010000, 0xC0010000, 0xD0010000, 0xE0000000, 0xE0010000, 0xE1000000, 0xE1010000};
static const uint32_t BARE[10] = {0x80000002, 0x90000000, 0xA0000000, 0xB0000000, 0xC0000000,
                                  0x90010000, 0xA0010000, 0xB0010000, 0xC0010000, 0xD0010000};
static const uint32_t SEVEN[7] = {0x20000000, 0x40000000, 0x40000000, 0x50000001, 0x40000000, 0x40000000, 0x40000000};

static uint32_t words[MOST_WORDS];
static size_t count;

static void put(uint32_t word) { words[count++] = word; }
static void put_all(const uint32_t *from, size_t n) {
    for (size_t i = 0; i < n; i++) put(from[i]);
}
static void start(void) {
    count = 0;
    put_all(FRESH, 14);
}
static void start_bare(void) {
    count = 0;
    put_all(BARE, 10);
}
/* a fresh image of n processes, bare and as it is written */
static void start_bare_of(uint32_t n) {
    count = 0;
    put(0x80000000 + n);
    for (uint32_t q = 0; q < n; q++)
        for (uint32_t kind = 9; kind <= 12; kind++) put(kind << 28 | q << 16);
    for (uint32_t k = 1; k < n; k++) put(0xD0000000 | k << 16);
}
static void start_of(uint32_t n) {
    start_bare_of(n);
    words[0] = 0x81000000 + n;
    for (uint32_t q = 0; q < n; q++)
        for (uint32_t r = 0; r < n; r++) put(0xE0000000 | q << 24 | r << 16);
}

static void bytes_of(uint8_t *to, const uint32_t *from, size_t n) {
    for (size_t i = 0; i < 4 * n; i++) to[i] = (uint8_t)(from[i / 4] >> 8 * (i % 4));
}

/* Calls on `length` bytes of the words and `lent` lent bytes, each in memory of its own between guard bytes. Where `image` is
   given its n words must stand at the start of the lent bytes afterwards; every other byte must be as before. */
static void called(const char *what, size_t length, size_t lent, uint64_t expected, const uint32_t *image, size_t n) {
    uint8_t *in = malloc(length + 2 * GUARD), *out = malloc(lent + 2 * GUARD), *same = malloc(lent + 2 * GUARD);
    uint8_t *text = malloc(4 * MOST_WORDS);
    bytes_of(text, words, MOST_WORDS);
    memset(in, 0xA5, length + 2 * GUARD);
    memcpy(in + GUARD, text, length);
    for (size_t i = 0; i < lent + 2 * GUARD; i++) out[i] = same[i] = (uint8_t)(i * 7 + 3);
    if (image) bytes_of(same + GUARD, image, n);
    uint64_t got = zaguypo_run(in + GUARD, length, out + GUARD, lent, ZAGUYPO_ACT_SAFE, ZAGUYPO_TURN_WRITE_SAFE);
    check(what, got == expected);
    if (got != expected) printf("    got %llu, expected %llu\n", (unsigned long long)got, (unsigned long long)expected);
    check(what, memcmp(out, same, lent + 2 * GUARD) == 0);
    check(what, memcmp(in + GUARD, text, length) == 0);
    free(in), free(out), free(same), free(text);
}

/* all the words that were put; the lent bytes stay */
static void refused(const char *what, unsigned refusal) { called(what, 4 * count, 1344, refusal, NULL, 0); }

/* the words of an image with one of them changed; of the bare one too, where it has that place */
static void bad_word(const char *what, size_t place, uint32_t word, unsigned refusal) {
    start();
    words[place] = word;
    refused(what, refusal);
    start_bare();
    words[place] = word;
    if (place < 10) refused(what, refusal);
}

/* a word that meets a refusal after two STAYs: the image of the table is written all the same */
static void stopped(const char *what, uint32_t word, unsigned refusal) {
    start();
    put(0x10000000), put(0x10010000), put(word), put(0x10000000);
    called(what, 4 * count, 56, 256 * 2 + refusal, FRESH, 14);
}

static void images(void) {
    count = 0;
    refused("no bytes", 1);
    for (size_t length = 1; length < 4; length++) called("1 to 3 bytes", length, 1344, 14, NULL, 0);
    for (uint32_t header = 0; header < 40; header++) {
        count = 0;
        put(0x80000000 + header);
        refused("a bare header alone", header < 2 || header > 16 ? 1 : 2);
        words[0] |= 0x01000000;
        refused("a header alone", header < 2 || header > 16 ? 1 : 2);
    }
    start_bare(), count = 9;
    refused("a cut bare image", 2);
    start(), count = 13;
    refused("a cut image", 2);
    start(), count = 10;
    refused("an image without its counts", 2);
    bad_word("no header", 0, 0x82000002, 1);
    bad_word("no header, no kind", 0, 0x01000002, 1);
    bad_word("spare bit 27", 1, 0x98000000, 3);
    bad_word("spare bit 10", 1, 0x90000400, 3);
    bad_word("number of another process", 6, 0xA0000000, 3);
    bad_word("turn word for 0", 9, 0xD0000000, 3);
    bad_word("spare bit 8 of a turn word", 9, 0xD0010100, 3);
    bad_word("location code 8", 1, 0x90008000, 4);
    bad_word("level 2 of 2", 1, 0x90006002, 4);
    bad_word("a set with bit 2 of 2", 2, 0xA0000004, 4);
    bad_word("turn 2 of 2", 9, 0xD0010002, 4);
    bad_word("level 0 at 22", 1, 0x90003000, 5);
    bad_word("level 1 at 30", 1, 0x90006001, 5);
    bad_word("kind D for E", 11, 0xD0010000, 3);
    bad_word("kind F for E", 11, 0xF0010000, 3);
    bad_word("count of another q", 11, 0xE1010000, 3);
    bad_word("count over another r", 11, 0xE0000000, 3);
    for (uint32_t bit = 20; bit < 24; bit++) bad_word("spare bit of a count", 11, 0xE0010000 | 1u << bit, 3);
    bad_word("a count of 0 over itself", 10, 0xE0000001, 4);
    bad_word("a count of 1 over itself", 13, 0xE101FFFF, 4);
}

/* The event words that were put, after either image of two fresh processes: the last image is the same. */
static void after_either(const char *what, size_t lent, uint64_t expected, const uint32_t *image) {
    called(what, 4 * count, lent, expected, image, image ? 14 : 0);
    memmove(words + 10, words + 14, 4 * (count - 14));
    memcpy(words, BARE, sizeof BARE), count -= 4;
    called(what, 4 * count, lent, expected, image, image ? 14 : 0);
}

static void runs(void) {
    uint32_t after[14];
    start(), after_either("no event words", 56, 0, FRESH);
    memcpy(after, FRESH, sizeof after);
    after[1] = 0x90006200;
    for (size_t lent = 0; lent < 60; lent++) {
        start(), put_all(SEVEN, 7);
        after_either("the example", lent, lent < 56 ? 13 : 256 * 7, lent < 56 ? NULL : after);
    }
    start(), put_all(SEVEN, 7);
    called("a byte more", 4 * count + 1, 56, 14, NULL, 0);
    after[1] = 0x90007200;
    start(), put(0x20000000), put(0x30000001), put(0x60000000);
    called("a CANCEL with act 1", 4 * count, 56, 256 * 3, after, 14);
    stopped("kind 0", 0x00000000, 8);
    stopped("kind 7", 0x70000000, 8);
    stopped("kind E", 0xE0000000, 8);
    stopped("spare bit 24", 0x11000000, 8);
    stopped("process 2 of 2", 0x10020000, 9);
    stopped("GO at 10", 0x40000000, 10);
    stopped("CANCEL at 10", 0x60000000, 10);
    stopped("COME with an argument", 0x20000001, 11);
}

/* Process 1 is at 21 and process 0 at 20, which has passed it as often as can be counted; a FLICKER before it is kept. */
static void full(void) {
    uint32_t after[14];
    start();
    words[1] |= 0x1000, words[5] |= 0x2201, words[11] |= 0xFFFF;
    memcpy(after, words, sizeof after), after[1] |= 0x0200;
    put(0x30000001), put(0x40000000), put(0x30000000);
    called("15", 4 * count, 56, 256 + 15, after, 14);
    called("13 before 15", 4 * count, 55, 13, NULL, 0);
    words[15] = 0x40000001;
    called("11 before 15", 4 * count, 56, 256 + 11, after, 14);
    words[11]--, words[15] = 0x40000000;
    after[1] = 0x90002201, after[2] = 0xA0000002, after[4] = 0xC0000002;
    called("the last pass that is counted", 4 * count - 4, 56, 256 * 2, after, 14);
}

/* Process 0 comes, enters, looks, pushes, looks again, and while process 1 leaves its own number in turn[1] goes down to level 0,
   to 30 and back to 10. */
static void put_passes(unsigned passes) {
    static const uint32_t pass[15] = {0x20000000, 0x40000000, 0x40000000, 0x50000001, 0x40000000,
                                      0x40000000, 0x40000000, 0x40000000, 0x50000001, 0x40000000,
                                      0x30010001, 0x40000000, 0x40000000, 0x40000000, 0x40000000};
    for (unsigned i = 0; i < passes; i++) put_all(pass, 15);
}

/* Rounds from the table of an image of two processes: the first word meets 15. */
static void broken_rounds(const uint32_t *image) {
    struct zaguypo_row rows[2];
    uint32_t left[14];
    check("the image is read", zaguypo_read(image, 14, rows, 2).refusal == 0);
    const struct zaguypo_rounded answer = zaguypo_rounds(rows, 2);
    check("rounds meet 15", answer.refusal == 15 && answer.rounds == 0 && answer.occupied == 0);
    check("no row changes", zaguypo_write(rows, 2, left, 14) == 0 && memcmp(left, image, sizeof left) == 0);
}

/* The cycle of section 4.1 of the paper, as often as can be counted. Process 1 sees act 1 of process 0, which then gives up, and
   comes to 24, where it stays; process 0 passes it again and again. Each run goes on from the image that the one before left.
   Last, process 0 shows act 1 at 20 and process 1 waits for it, which rounds do not end (broken-rounds_end_nothing). */
static void passed(void) {
    static const uint32_t to_24[10] = {0x20000000, 0x30000001, 0x20010000, 0x40010000, 0x40010000,
                                       0x50010000, 0x40010000, 0x40010000, 0x60000000, 0x40000000};
    uint32_t after[14] = {0x81000002, 0x90000000, 0xA0000002, 0xB0000000, 0xC0000002, 0x90015201, 0xA0010001,
                          0xB0010000, 0xC0010000, 0xD0010001, 0xE0000000, 0xE0010221, 0xE1000000, 0xE1010000};
    start(), put_all(to_24, 10), put_passes(545);
    called("545 passes", 4 * count, 56, 256 * 8185, after, 14);
    for (int i = 0; i < 119; i++) {
        count = 0, put_all(after, 14), put_passes(546);
        after[11] += 546;
        called("546 passes more", 4 * count, 56, 256 * 8190, after, 14);
    }
    count = 0, put_all(after, 14), put_passes(17);
    after[1] = 0x90001000, after[11] = 0xE001FFFF;
    called("65,535 passes", 4 * count, 56, 256 * (16 * 15 + 1) + 15, after, 14);
    count = 0, put_all(after, 14), put(0x30000001), put(0x40010000);
    after[1] = 0x90001200, after[5] = 0x90012301;
    called("process 1 waits for process 0", 4 * count, 56, 256 * 2, after, 14);
    broken_rounds(after);
}

static void limits(void) {
    for (uint32_t n = 2; n <= 16; n++) {
        uint32_t image[ZAGUYPO_IMAGE_WORDS(16)];
        const size_t bytes = ZAGUYPO_IMAGE_BYTES((size_t)n);
        start_of(n);
        memcpy(image, words, bytes);
        for (unsigned i = 0; i < 8192; i++) put(0x10000000);
        called("8,192 STAYs", 4 * count, bytes, 256 * 8192, image, bytes / 4);
        called("8,192 STAYs, too few lent", 4 * count, bytes - 1, 13, NULL, 0);
        put(0x10000000);
        called("8,193 STAYs", 4 * count, bytes, n == 16 ? 14 : 12, NULL, 0);
        called("8,193 STAYs, too few lent", 4 * count, bytes - 1, n == 16 ? 14 : 12, NULL, 0);
        start_bare_of(n);
        for (unsigned i = 0; i < 8192; i++) put(0x10000000);
        called("8,192 STAYs, bare", 4 * count, bytes, 256 * 8192, image, bytes / 4);
        put(0x10000000);
        called("8,193 STAYs, bare", 4 * count, bytes, 12, NULL, 0);
    }
    start_of(2);
    while (count < 34112 / 4) put(0x10000000);
    called("34,112 bytes", 34112, 56, 12, NULL, 0);
    put(0x10000000);
    called("34,116 bytes", 34116, 56, 14, NULL, 0);
}

static void nothing_lent(void) {
    uint8_t image[56] = {0}, out[56];
    bytes_of(image, FRESH, 14);
    check("null input", zaguypo_run(NULL, 0, out, 56, ZAGUYPO_ACT_SAFE, ZAGUYPO_TURN_WRITE_SAFE) == 1);
    check("null input and nothing lent", zaguypo_run(NULL, 0, NULL, 0, ZAGUYPO_ACT_SAFE, ZAGUYPO_TURN_WRITE_SAFE) == 1);
    check("null lent", zaguypo_run(image, 56, NULL, 0, ZAGUYPO_ACT_SAFE, ZAGUYPO_TURN_WRITE_SAFE) == 13);
}

int main(void) {
    images();
    runs();
    full();
    passed();
    limits();
    nothing_lent();
    return done("call");
}
