/* Writes a path of two points to a plate file, reads it back, and reads it with a damaged byte. */
#include <inttypes.h>
#include <stdio.h>

#include "twillharbor.h"

/* The path points. A block takes 31, so their file is one block. */
enum { PATH = 2, BYTES = TWILLHARBOR_BLOCK_BYTES * (PATH / TWILLHARBOR_BLOCK_POINTS + 1) };

static void read_back(const uint8_t *file, size_t bytes) {
    double path[2 * PATH];
    struct twillharbor_read_file_result read =
        twillharbor_read_file(file, bytes, path, 2 * PATH);
    if (read.number != 0) {
        printf("refusal %" PRIu32 " at place %" PRIu32 "\n", read.number, read.place);
        return;
    }
    printf("path");
    for (uint32_t i = 0; i < 2 * read.points; i += 2)
        printf(" (%g,%g)", path[i], path[i + 1]);
    printf("\n");
}

int main(void) {
    const double path[2 * PATH] = {0.1, -0.0, 4, 1};
    uint8_t file[BYTES];
    struct twillharbor_write_file_result written =
        twillharbor_write_file(path, 2 * PATH, file, BYTES);
    if (written.number != 0)
        return 1;
    printf("%" PRIu32 " bytes\n", written.bytes);
    read_back(file, written.bytes);
    file[9] ^= 1;
    read_back(file, written.bytes);
    return 0;
}
