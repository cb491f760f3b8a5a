/* Checks a path that was bought elsewhere against the contours that it is to draw: as it came, with
 * a cut left out, and with one of its points moved. */
#include <inttypes.h>
#include <stdio.h>

#include "twillharbor.h"

/* The plate's points and contours, and the path points. */
enum { POINTS = 4, CONTOURS = 2, PATH = 4 };

/* (0,0)(4,0) | (4,1)(8,1). */
static const double points[2 * POINTS] = {0, 0, 4, 0, 4, 1, 8, 1};
static const uint32_t lengths[CONTOURS] = {2, 2};
static const uint32_t marks[2 * PATH] = {TWILLHARBOR_START, 0, TWILLHARBOR_CUT, 0,
                                         TWILLHARBOR_JUMP,  2, TWILLHARBOR_CUT, 2};

/* Checks the first path points. */
static void check(const double *path, size_t count) {
    uint32_t work[POINTS + CONTOURS];
    struct twillharbor_check_path_result checked = twillharbor_check_path(
        points, 2 * POINTS, lengths, CONTOURS, path, 2 * count, marks, 2 * count, work,
        POINTS + CONTOURS);
    if (checked.number == 0)
        printf("accepted\n");
    else if (checked.number == TWILLHARBOR_PATH_DOES_NOT_DRAW && checked.place == count)
        printf("refusal 12: something is left out after %zu path points\n", count);
    else
        printf("refusal %" PRIu32 " at place %" PRIu64 "\n", checked.number, checked.place);
}

int main(void) {
    double path[2 * PATH] = {0, 0, 4, 0, 4, 1, 8, 1};

    check(path, PATH);
    check(path, PATH - 1);
    path[4] = 5;
    check(path, PATH);
    return 0;
}
