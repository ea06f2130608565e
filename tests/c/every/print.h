/* zaguypo_print: texts written out from the manual, "The printed text", each into exactly enough bytes, one more, one fewer and
   none. */

enum { LONG_TEXT = 190000 };

static uint8_t print_input[ZAGUYPO_INPUT_BYTES + 8];
static size_t print_length;

static void print_start(void) { print_length = 0; }
static void print_word(uint32_t word) {
    for (int i = 0; i < 4; i++) print_input[print_length++] = (uint8_t)(word >> 8 * i);
}
static void print_words(const uint32_t *words, size_t count) {
    for (size_t i = 0; i < count; i++) print_word(words[i]);
}
/* an input that starts with the image of n idle processes */
static void print_idle(uint32_t n) {
    uint32_t words[ZAGUYPO_IMAGE_WORDS(16)];
    print_start();
    print_words(words, idle_image(words, n));
}

/* the same with the bare image */
static void print_bare_idle(uint32_t n) {
    uint32_t words[ZAGUYPO_IMAGE_WORDS(16)];
    print_start();
    print_words(words, idle_bare_image(words, n));
}

/* The text fills the first of the lent bytes, or none of them changes; its length is the answer either way. */
static void prints_into(const char *what, const char *text, size_t length, size_t bytes) {
    struct lent input = lend(print_input, print_length), lent = lend(NULL, bytes);
    if (bytes >= length) must_hold(&lent, text, length);
    size_t answer =
        zaguypo_print((const uint8_t *)lent_memory(&input), print_length, (char *)lent_memory(&lent), bytes);
    check(what, answer == length);
    check(what, given_back(&lent));
    check(what, given_back(&input));
}

static void prints(const char *what, const char *text) {
    size_t length = strlen(text);
    prints_into(what, text, length, 0);
    prints_into(what, text, length, 1);
    prints_into(what, text, length, length - 1);
    prints_into(what, text, length, length);
    prints_into(what, text, length, length + 1);
    prints_into(what, text, length, length + 100);
}

/* after either image of two idle processes */
static void print_example(void (*idle)(uint32_t)) {
    idle(2);
    prints("no words", "posts 2\ndone 0\n");
    print_words(SEVEN, 7);
    prints("the example",
           "posts 2\n"
           "0 0 10 20 0 -\n"
           "1 0 20 21 0 wa0\n"
           "2 0 21 22 0 -\n"
           "3 0 22 22 0 ra1\n"
           "4 0 22 23 0 -\n"
           "5 0 23 21 0 -\n"
           "6 0 21 30 1 -\n"
           "done 7\n");
    for (int more = 0; more < 3; more++) {
        print_length++;
        prints("bytes past the last word", "input 14\n");
    }
}

/* process 0 gives up at 20, flickers at 40 and rests */
static void print_cancel(void) {
    static const uint32_t five[5] = {0x20000000, 0x30000001, 0x60000000, 0x30000000, 0x40000000};
    print_idle(2), print_words(five, 5);
    prints("a CANCEL",
           "posts 2\n"
           "0 0 10 20 0 -\n"
           "1 0 20 20 0 wa0\n"
           "2 0 20 40 0 -\n"
           "3 0 40 40 0 wa0\n"
           "4 0 40 10 0 wa0\n"
           "done 5\n");
}

/* Two processes see each other, come to 24 and push; after one more pass each compares turn[1]. */
static void print_cells(void) {
    static const uint32_t words[23] = {
        0x20000000, 0x20010000, 0x40000000, 0x40010000, 0x40000000, 0x50000001, 0x40000000, 0x40000000,
        0x40010000, 0x50010000, 0x40010000, 0x40010000, 0x30000001, 0x40000000, 0x40010000, 0x40000000,
        0x50000001, 0x40000000, 0x40000000, 0x40010000, 0x50010000, 0x40010000, 0x40010000};
    print_idle(2), print_words(words, 23);
    prints("every sort of cell",
           "posts 2\n"
           "0 0 10 20 0 -\n"
           "1 1 10 20 0 -\n"
           "2 0 20 21 0 wa0\n"
           "3 1 20 21 0 wa1\n"
           "4 0 21 22 0 -\n"
           "5 0 22 22 0 ra1\n"
           "6 0 22 23 0 -\n"
           "7 0 23 24 0 -\n"
           "8 1 21 22 0 -\n"
           "9 1 22 22 0 ra0\n"
           "10 1 22 23 0 -\n"
           "11 1 23 24 0 -\n"
           "12 0 24 24 0 wt1\n"
           "13 0 24 21 0 wt1\n"
           "14 1 24 21 0 wt1\n"
           "15 0 21 22 0 -\n"
           "16 0 22 22 0 ra1\n"
           "17 0 22 23 0 -\n"
           "18 0 23 21 0 rt1\n"
           "19 1 21 22 0 -\n"
           "20 1 22 22 0 ra0\n"
           "21 1 22 23 0 -\n"
           "22 1 23 21 0 rt1\n"
           "done 23\n");
}

/* Processes 0 and 1 are at 30, process 2 at 21 on level 0: 0 departs, 2 arrives beside 1, 0 goes on to 22, 1 departs; a
   CANCEL at 22 is refused. */
static void print_two_at_30(void) {
    static const uint32_t nine[9] = {0x40000000, 0x40020000, 0x40000000, 0x20000000, 0x40000000,
                                     0x40000000, 0x40010000, 0x60000000, 0x40020000};
    uint32_t words[ZAGUYPO_IMAGE_WORDS(3)];
    idle_image(words, 3);
    words[1] |= 0x6200, words[5] |= 0x6200, words[9] |= 0x2200;
    print_start(), print_words(words, 24), print_words(nine, 9);
    prints("two at 30",
           "posts 3\n"
           "0 0 30 40 1 -\n"
           "1 2 21 30 2 -\n"
           "2 0 40 10 2 wa0\n"
           "3 0 10 20 2 -\n"
           "4 0 20 21 2 wa0\n"
           "5 0 21 22 2 -\n"
           "6 1 30 40 1 -\n"
           "stop 7 10\n");
}

/* sixteen at 30 depart one after the other: 15 to 0 are left */
static void print_departures(void) {
    char text[400];
    uint32_t words[ZAGUYPO_IMAGE_WORDS(16)];
    idle_image(words, 16);
    for (int q = 0; q < 16; q++) words[1 + 4 * q] |= 0x6200;
    print_start(), print_words(words, ZAGUYPO_IMAGE_WORDS(16));
    char *at = text + sprintf(text, "posts 16\n");
    for (unsigned q = 0; q < 16; q++) {
        print_word(0x40000000 + 0x10000 * q);
        at += sprintf(at, "%u %u 30 40 %u -\n", q, q, 15 - q);
    }
    sprintf(at, "done 16\n");
    prints("sixteen depart", text);
}

/* the image of two idle processes with one word changed */
static void print_changed(const char *what, size_t place, uint32_t word, const char *text) {
    uint32_t words[14];
    idle_image(words, 2);
    words[place] = word;
    print_start(), print_words(words, 14), prints(what, text);
}

static void print_bad_images(void) {
    print_start(), prints("no bytes", "image 0 1\n");
    print_length = 3, prints("3 bytes", "input 14\n");
    print_start(), print_word(0x80000010), prints("a bare header alone", "image 1 2\n");
    print_start(), print_word(0x81000010), prints("a header alone", "image 1 2\n");
    print_bare_idle(2), print_length -= 4, prints("a cut bare image of 2", "image 9 2\n");
    print_bare_idle(16), print_length -= 4, prints("a cut bare image of 16", "image 79 2\n");
    print_idle(2), print_length -= 4, prints("a cut image of 2", "image 13 2\n");
    print_idle(16), print_length -= 4, prints("a cut image of 16", "image 335 2\n");
    print_changed("header of 1", 0, 0x80000001, "image 0 1\n");
    print_changed("header of 17", 0, 0x80000011, "image 0 1\n");
    print_changed("header of 1, with counts", 0, 0x81000001, "image 0 1\n");
    print_changed("header of 17, with counts", 0, 0x81000011, "image 0 1\n");
    print_changed("no header", 0, 0x82000002, "image 0 1\n");
    print_changed("number of another process", 6, 0xA0000000, "image 6 3\n");
    print_changed("turn 2 of 2", 9, 0xD0010002, "image 9 4\n");
    print_changed("level 0 at 22", 1, 0x90003000, "image 1 5\n");
    print_changed("kind D for E", 12, 0xD1000000, "image 12 3\n");
    print_changed("count of another q", 12, 0xE0000000, "image 12 3\n");
    print_changed("count over another r", 12, 0xE1010000, "image 12 3\n");
    print_changed("spare bit 20 of a count", 12, 0xE1100000, "image 12 3\n");
    print_changed("0 over itself", 10, 0xE0000001, "image 10 4\n");
    print_changed("1 over itself", 13, 0xE101FFFF, "image 13 4\n");
}

/* a word that stops a run after two others */
static void print_stop(const char *what, uint32_t word, const char *last) {
    char text[64] = "posts 3\n0 2 10 10 0 -\n1 0 10 20 0 -\n";
    print_idle(3);
    print_word(0x10020000), print_word(0x20000000), print_word(word), print_word(0x10010000);
    prints(what, strcat(text, last));
}

static void print_stops(void) {
    print_stop("kind 0", 0x00000000, "stop 2 8\n");
    print_stop("kind 7", 0x70000000, "stop 2 8\n");
    print_stop("spare bit 8", 0x10010100, "stop 2 8\n");
    print_stop("process 3 of 3", 0x10030000, "stop 2 9\n");
    print_stop("COME at 20", 0x20000000, "stop 2 10\n");
    print_stop("COME with an argument", 0x20010001, "stop 2 11\n");
    print_stop("CANCEL with an argument", 0x60000001, "stop 2 11\n");
    print_stop("CANCEL at 10", 0x60010000, "stop 2 10\n");
}

/* Process 0, which has passed process 1 as often as can be counted, comes and cannot enter; an argument is refused before that.
   After a bare header the same counts are words that no kind allows. */
static void print_full(void) {
    uint32_t words[14];
    idle_image(words, 2);
    words[5] |= 0x2201, words[11] |= 0xFFFF;
    print_start(), print_words(words, 14), print_word(0x20000000), print_word(0x40000000), print_word(0x10000000);
    prints("15", "posts 2\n0 0 10 20 0 -\nstop 1 15\n");
    print_start(), print_words(words, 14), print_word(0x20000000), print_word(0x40000001);
    prints("11 before 15", "posts 2\n0 0 10 20 0 -\nstop 1 11\n");
    words[11]--;
    print_start(), print_words(words, 14), print_word(0x20000000), print_word(0x40000000);
    prints("the last pass that is counted", "posts 2\n0 0 10 20 0 -\n1 0 20 21 0 wa0\ndone 2\n");
    words[0] = 0x80000002;
    print_start(), print_words(words, 14);
    prints("counts after a bare image", "posts 2\nstop 0 8\n");
}

/* Two processes and STAYs: 8,192 are taken, more are not, and past 34,112 bytes there is no input. */
static void print_limits(void) {
    static char text[LONG_TEXT];
    char *at = text + sprintf(text, "posts 2\n");
    print_idle(2);
    for (unsigned i = 0; i < 8192; i++) {
        print_word(0x10010000);
        at += sprintf(at, "%u 1 10 10 0 -\n", i);
    }
    sprintf(at, "done 8192\n");
    prints("8,192 words", text);
    print_word(0x10010000), prints("8,193 words", "posts 2\nstop 0 12\n");
    while (print_length < ZAGUYPO_INPUT_BYTES) print_word(0x10010000);
    prints("34,112 bytes", "posts 2\nstop 0 12\n");
    print_word(0x10010000), prints("34,116 bytes", "input 14\n");
}

/* The longest text of all, 179,133 bytes: 15 processes are at 30, and the last of 16 flickers turn[15] for the longest
   run. */
static void print_longest(void) {
    static char text[LONG_TEXT];
    uint32_t words[ZAGUYPO_IMAGE_WORDS(16)];
    idle_image(words, 16);
    for (int q = 0; q < 15; q++) words[1 + 4 * q] |= 0x6200;
    words[1 + 4 * 15] |= 0x520F;
    print_start(), print_words(words, ZAGUYPO_IMAGE_WORDS(16));
    char *at = text + sprintf(text, "posts 16\n");
    for (unsigned i = 0; i < 8192; i++) {
        print_word(0x300F0000 + i % 16);
        at += sprintf(at, "%u 15 24 24 15 wt15\n", i);
    }
    sprintf(at, "done 8192\n");
    check("the longest input", print_length == ZAGUYPO_INPUT_BYTES);
    check("room for every text", strlen(text) <= ZAGUYPO_TEXT_BYTES);
    prints("the longest text", text);
}

static void print(void) {
    print_example(print_idle), print_example(print_bare_idle);
    print_cancel();
    print_cells();
    print_two_at_30();
    print_departures();
    print_bad_images();
    print_stops();
    print_full();
    print_limits();
    print_longest();
}
