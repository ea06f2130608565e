/* The words taken and the refusal of the run of standard input under each of the six settings: act 0 with turn 0, 1 and 2, then
   act 1. */
#include "zaguypo.h"

#include <stdio.h>

int main(void) {
    static uint8_t input[ZAGUYPO_INPUT_BYTES], image[ZAGUYPO_IMAGE_BYTES(16)];
    size_t length = fread(input, 1, sizeof input, stdin);
    for (uint32_t setting = 0; setting < 6; setting++) {
        uint64_t answer = zaguypo_run(input, length, image, sizeof image, setting / 3, setting % 3);
        printf("%s%u %u", setting ? ", " : "", (unsigned)(answer / 256), (unsigned)(answer % 256));
    }
    printf("\n");
    return 0;
}
