/* The table after the run of standard input, an image and then event words, under 0 and 0. */
#include "zaguypo.h"

#include <stdio.h>

/* Puts it into 16 rows. Answers its number of processes; 0 where the image or a word was refused. */
static size_t last_table(struct zaguypo_row *rows) {
    static uint8_t input[ZAGUYPO_INPUT_BYTES];
    static uint32_t words[ZAGUYPO_INPUT_BYTES / 4];
    struct zaguypo_tally tally;
    size_t length = fread(input, 1, sizeof input, stdin);
    for (size_t i = 0; i < length; i++) words[i / 4] |= (uint32_t)input[i] << 8 * (i % 4);

    size_t number = input[0], first = input[3] == 0x80 ? 5 * number : ZAGUYPO_IMAGE_WORDS(number);
    size_t size = first <= length / 4 ? zaguypo_read(words, first, rows, 16).size : 0;
    if (size == 0) return 0;
    struct zaguypo_ran ran = zaguypo_run_rows(rows, size, words + first, length / 4 - first, &tally, ZAGUYPO_ACT_SAFE,
                                              ZAGUYPO_TURN_WRITE_SAFE);
    return ran.refusal ? 0 : size;
}
