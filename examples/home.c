/* Two contours, (0,0)(4,0) | (5,3)(9,3): prints their order for a carriage that is parked at
 * (-5,3), then at (12,0.5), whose nearest end is the second contour's last, then off the plate. */
#include <inttypes.h>
#include <stdio.h>

#include "twillharbor.h"

enum { CONTOURS = 2, POINTS = 4 };

static void print_order(double home_x, double home_y) {
    const double points[2 * POINTS] = {0, 0, 4, 0, 5, 3, 9, 3};
    const uint32_t lengths[CONTOURS] = {2, 2}, layers[CONTOURS] = {0, 0};
    uint32_t order[2 * CONTOURS], work[CONTOURS], i;

    struct twillharbor_order_result ordered =
        twillharbor_order_home(points, 2 * POINTS, lengths, CONTOURS, layers, CONTOURS, home_x,
                               home_y, order, 2 * CONTOURS, work, CONTOURS);
    if (ordered.number == TWILLHARBOR_OFF_THE_PLATE) {
        /* The contours are on the plate, so the place is the parked point's. */
        printf("refusal 4 at place %" PRIu32 ": %s\n", ordered.place,
               ordered.place == 0 ? "home_x" : "home_y");
        return;
    }
    if (ordered.number != 0) {
        printf("refusal %" PRIu32 " at place %" PRIu32 "\n", ordered.number, ordered.place);
        return;
    }
    printf("from (%g,%g)", home_x, home_y);
    for (i = 0; i < ordered.entries; i++)
        printf(" %" PRIu32 "%s", order[2 * i], order[2 * i + 1] ? " reversed" : "");
    printf("\n");
}

int main(void) {
    print_order(-5, 3);
    print_order(12, 0.5);
    print_order(12, 1000001);
    return 0;
}
