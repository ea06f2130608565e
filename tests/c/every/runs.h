/* zaguypo_run, of which call.c and settings.c say more: the example and a stop under each of the settings, 18, and lent arrays
   of no elements. */

/* two idle processes after the example */
static const struct zaguypo_row ARRIVED[2] = {{30, 1, 0, 0, 0, 0, 0, 0, {0}}, {10, 0, 0, 0, 0, 0, 0, 0, {0}}};

static void run_on_bytes(uint32_t act, uint32_t turn) {
    const int wrong = act > 1 || turn > 2;
    uint32_t words[22], after[14];
    uint8_t bytes[88], image[56];
    idle_image(words, 2), image_of(after, ARRIVED, 2);
    memcpy(words + 14, SEVEN, sizeof SEVEN);
    words[21] = 0x40020000;
    for (int i = 0; i < 88; i++) bytes[i] = (uint8_t)(words[i / 4] >> 8 * (i % 4));
    for (int i = 0; i < 56; i++) image[i] = (uint8_t)(after[i / 4] >> 8 * (i % 4));
    for (int stops = 0; stops < 2; stops++) {
        struct lent input = lend(bytes, stops ? 88 : 84), out = lend(NULL, 57);
        if (!wrong) must_hold(&out, image, 56);
        uint64_t answer =
            zaguypo_run((const uint8_t *)lent_memory(&input), input.bytes, (uint8_t *)lent_memory(&out), 57, act, turn);
        check("run", answer == (wrong ? 18 : stops ? 7 * 256 + 9 : 7 * 256));
        check("run, image", given_back(&out));
        check("run, input", given_back(&input));
    }
}

static void runs(void) {
    for (uint32_t act = 0; act <= 2; act++)
        for (uint32_t turn = 0; turn <= 3; turn++) run_on_bytes(act, turn);
    check("no input to run", zaguypo_run(NULL, 0, NULL, 0, ZAGUYPO_ACT_SAFE, ZAGUYPO_TURN_WRITE_SAFE) == 1);
}
