#include "zaguypo.h"
#include <stdio.h>

int main(void) {
    /* a fresh table of two processes, then COME and GO of process 0 */
    const uint32_t words[16] = {0x81000002, 0x90000000, 0xA0000000, 0xB0000000, 0xC0000000, 0x90010000, 0xA0010000, 0xB0010000,
                                0xC0010000, 0xD0010000, 0xE0000000, 0xE0010000, 0xE1000000, 0xE1010000, 0x20000000, 0x40000000};
    uint8_t input[64], image[ZAGUYPO_IMAGE_BYTES(2)];
    for (int i = 0; i < 64; i++) input[i] = (uint8_t)(words[i / 4] >> 8 * (i % 4));
    uint64_t answer = zaguypo_run(input, sizeof input, image, sizeof image, ZAGUYPO_ACT_SAFE, ZAGUYPO_TURN_WRITE_SAFE);
    printf("taken %llu, refusal %llu, process 0: %02x%02x\n", (unsigned long long)(answer / 256),
           (unsigned long long)(answer % 256), image[5], image[4]);
    return 0;
}
