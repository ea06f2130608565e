/* Rounds from the table after the run of standard input: the answer, and the image of what is left. */
#include "last.h"

int main(void) {
    struct zaguypo_row rows[ZAGUYPO_MOST_PROCESSES];
    uint32_t image[ZAGUYPO_IMAGE_WORDS(ZAGUYPO_MOST_PROCESSES)];
    size_t size = last_table(rows);
    struct zaguypo_rounded answer = zaguypo_rounds(rows, size);
    if (zaguypo_write(rows, size, image, ZAGUYPO_IMAGE_WORDS(size))) return 1;
    printf("refusal %u rounds %u occupied %u", answer.refusal, answer.rounds, answer.occupied);
    for (size_t i = 0; i < ZAGUYPO_IMAGE_WORDS(size); i++) printf(" %08X", (unsigned)image[i]);
    printf("\n");
    return 0;
}
