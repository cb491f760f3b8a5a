/* Gets the picture back from an old path with marks: as it came, with a jump that is called a touch,
 * and with a vertex that none of its points lands on. */
#include <inttypes.h>
#include <stdio.h>

#include "twillharbor.h"

/* The path points. They draw at most as many points, and as many contours. */
enum { PATH = 5 };

/* To the middle of a line, to its end, back, and to its beginning. */
static const double path[2 * PATH] = {4, 0, 4, 1, 8, 1, 4, 1, 0, 1};

/* Prints the contours. */
static void recover(const uint32_t *marks) {
    double points[2 * PATH];
    uint32_t lengths[PATH], work[4 * PATH], first = 0, contour, i;
    struct twillharbor_contours_result recovered = twillharbor_contours(
        path, 2 * PATH, marks, 2 * PATH, points, 2 * PATH, lengths, PATH, work, 4 * PATH);
    if (recovered.number == TWILLHARBOR_MARKS_INCONSISTENT)
        printf("refusal 10: path point %" PRIu64 " breaks a rule\n", recovered.place);
    else if (recovered.number == TWILLHARBOR_VERTEX_MISSING)
        printf("refusal 11: vertex %" PRIu64 " is missing\n", recovered.place);
    else if (recovered.number != 0)
        printf("refusal %" PRIu32 " at place %" PRIu64 "\n", recovered.number, recovered.place);
    for (contour = 0; contour < recovered.contours; contour++) {
        printf("contour %" PRIu32 ":", contour);
        for (i = first; i < first + lengths[contour]; i++)
            printf(" (%g,%g)", points[2 * i], points[2 * i + 1]);
        printf("\n");
        first += lengths[contour];
    }
}

int main(void) {
    uint32_t marks[2 * PATH] = {TWILLHARBOR_START,     0, TWILLHARBOR_JUMP, 2, TWILLHARBOR_CUT, 2,
                                TWILLHARBOR_BACK_STEP, 1, TWILLHARBOR_CUT,  1};

    recover(marks);
    marks[2] = TWILLHARBOR_TOUCH;
    recover(marks);
    marks[2] = TWILLHARBOR_JUMP;
    marks[1] = 5;
    recover(marks);
    return 0;
}
