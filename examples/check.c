/*
 * Judges the image in a file with the proved checker and prints the nine fields of its verdict.
 *
 *     (cd crates/hidokpalu && rt lib)
 *     cc -std=c11 -Wall -Wextra -Iinclude examples/check.c crates/hidokpalu/out/libhidokpalu.a -o target/check
 *     target/check FILE
 *
 * The status is 0 for an accepted image, 1 for any other, 2 if there is no image to judge.
 */
#include <stdio.h>

#include "hidokpalu.h"

/* One byte more than an image may have, to see that one is too long. */
static uint8_t image[HIDOKPALU_IMAGE_BYTES + 1];

static unsigned number(const uint8_t *record, int offset)
{
    return record[offset] + 256u * record[offset + 1];
}

int main(int argc, char **argv)
{
    if (argc != 2) {
        fprintf(stderr, "usage: check FILE\n");
        return 2;
    }
    FILE *file = fopen(argv[1], "rb");
    if (file == NULL) {
        perror(argv[1]);
        return 2;
    }
    size_t length = fread(image, 1, sizeof image, file);
    if (ferror(file)) {
        perror(argv[1]);
        return 2;
    }
    fclose(file);

    uint8_t record[HIDOKPALU_RECORD_BYTES] = {0};
    uint16_t code = check_image(image, length, record, sizeof record);
    for (int offset = HIDOKPALU_AT_CODE; offset < HIDOKPALU_AT_COUNT; offset += 2) {
        printf("%u ", number(record, offset));
    }
    printf("%u\n", number(record, HIDOKPALU_AT_COUNT));
    if (fflush(stdout) != 0) {
        perror("standard output");
        return 2;
    }
    return code == HIDOKPALU_ACCEPTED ? 0 : 1;
}
