/* The image that zaguypo_run leaves for the bytes of standard input under 0 and 0, in hexadecimal. */
#include "zaguypo.h"

#include <stdio.h>

int main(void) {
    static uint8_t input[ZAGUYPO_INPUT_BYTES], image[ZAGUYPO_IMAGE_BYTES(16)];
    size_t length = fread(input, 1, sizeof input, stdin);
    if (zaguypo_run(input, length, image, sizeof image, ZAGUYPO_ACT_SAFE, ZAGUYPO_TURN_WRITE_SAFE) % 256) return 1;
    for (size_t i = 0; i < ZAGUYPO_IMAGE_BYTES((size_t)input[0]); i += 4)
        printf("%s%02X%02X%02X%02X", i ? " " : "", image[i + 3], image[i + 2], image[i + 1], image[i]);
    printf("\n");
    return 0;
}
