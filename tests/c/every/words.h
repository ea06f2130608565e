/* zaguypo_apart and zaguypo_together. */

/* What taking apart must answer; written from the parts that the word was made of. */
static void taken_apart(uint32_t kind, uint32_t process, uint32_t spare, uint32_t argument) {
    struct zaguypo_parts p = zaguypo_apart(kind << 28 | process << 16 | spare | argument);
    int bad_kind = kind < 1 || kind > 6 || spare != 0, bad_process = process > 15;
    if (bad_kind || bad_process) {
        check("apart, refused", p.refusal == (bad_kind ? 8 : 9));
        check("apart, refused: no parts", p.kind == 0 && p.process == 0 && p.argument == 0);
        return;
    }
    check("apart", p.refusal == 0 && p.kind == kind && p.process == process && p.argument == argument);
}

/* every kind, processes about the bound, each spare bit (27-24, 15-8) alone, none and all of them */
static void words_apart(void) {
    static const uint32_t processes[] = {0, 1, 15, 16, 255}, arguments[] = {0, 1, 254, 255};
    uint32_t spares[14] = {0, 0x0F00FF00};
    for (int bit = 0; bit < 4; bit++) spares[2 + bit] = 0x01000000u << bit;
    for (int bit = 0; bit < 8; bit++) spares[6 + bit] = 0x00000100u << bit;
    for (uint32_t kind = 0; kind < 16; kind++)
        for (int p = 0; p < 5; p++)
            for (int s = 0; s < 14; s++)
                for (int a = 0; a < 4; a++) taken_apart(kind, processes[p], spares[s], arguments[a]);
}

static unsigned together_refusal(uint32_t kind, uint32_t process, uint32_t argument) {
    if (kind < 1 || kind > 6) return 8;
    if (process > 15) return 9;
    return argument > 255 ? 11 : 0;
}

/* The numbers past 255 have bits that must not be cut off: with the low bits alone most would be good. */
static void words_together(void) {
    static const uint32_t kinds[] = {0,  1,  2,  3,  4,  5,  6,  7,     8,       9,          10,
                                     11, 12, 13, 14, 15, 16, 17, 0x101, 0x10001, 0x80000001, 0xFFFFFFFF};
    static const uint32_t processes[] = {0, 1, 15, 16, 255, 256, 0x10001, 0x80000001, 0xFFFFFFFF};
    static const uint32_t arguments[] = {0, 1, 255, 256, 0x10001, 0x80000001, 0xFFFFFFFF};
    for (size_t k = 0; k < sizeof kinds / sizeof *kinds; k++)
        for (size_t p = 0; p < sizeof processes / sizeof *processes; p++)
            for (size_t a = 0; a < sizeof arguments / sizeof *arguments; a++) {
                struct zaguypo_word w = zaguypo_together(kinds[k], processes[p], arguments[a]);
                unsigned refusal = together_refusal(kinds[k], processes[p], arguments[a]);
                uint32_t word = refusal ? 0 : kinds[k] << 28 | processes[p] << 16 | arguments[a];
                check("together, refusal", w.refusal == refusal);
                check("together, word", w.word == word);
            }
}

/* Each undoes the other, for every word that has parts. */
static void words_there_and_back(void) {
    for (uint32_t kind = 1; kind <= 6; kind++)
        for (uint32_t process = 0; process < 16; process++)
            for (uint32_t argument = 0; argument < 256; argument++) {
                struct zaguypo_parts p = zaguypo_apart(zaguypo_together(kind, process, argument).word);
                check("apart undoes together", p.kind == kind && p.process == process && p.argument == argument);
                uint32_t word = kind << 28 | process << 16 | argument;
                p = zaguypo_apart(word);
                check("together undoes apart", zaguypo_together(p.kind, p.process, p.argument).word == word);
            }
}

static void words(void) {
    words_apart();
    words_together();
    words_there_and_back();
}
