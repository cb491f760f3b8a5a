/* Joins document 01's plate D, turned about, by straight lines: prints the contour that
 * comes first, the order and the path. */
#include <inttypes.h>
#include <stdio.h>

#include "twillharbor.h"

static int refused(uint32_t number, uint32_t place) {
    printf("refusal %" PRIu32 " at place %" PRIu32 "\n", number, place);
    return 1;
}

int main(void) {
    /* (8,1)(4,1) | none | (0,0)(4,0), 8 by 2, Outside: contour 1 is skipped. */
    const double points[8] = {8, 1, 4, 1, 0, 0, 4, 0};
    const uint32_t lengths[3] = {2, 0, 2};
    const uint32_t layers[3] = {0, 0, 0};
    uint32_t order[6], work[3];
    double path[8];
    uint32_t i;

    struct twillharbor_start_result start =
        twillharbor_start(points, 8, lengths, 3, layers, 3, 8, 2, false);
    if (start.number != 0)
        return refused(start.number, start.place);
    printf("start %" PRIu32 " %" PRIu32 "\n", start.contour, start.reversed);

    struct twillharbor_order_result ordered =
        twillharbor_order(points, 8, lengths, 3, layers, 3, 8, 2, false, order, 6, work, 3);
    if (ordered.number != 0)
        return refused(ordered.number, ordered.place);
    printf("order");
    for (i = 0; i < ordered.entries; i++)
        printf(" %" PRIu32 " %" PRIu32, order[2 * i], order[2 * i + 1]);

    struct twillharbor_straight_result joined =
        twillharbor_straight(points, 8, lengths, 3, layers, 3, 8, 2, false, path, 8, work, 3);
    if (joined.number != 0)
        return refused(joined.number, joined.place);
    printf("\npath");
    for (i = 0; i < joined.points; i++)
        printf(" (%g,%g)", path[2 * i], path[2 * i + 1]);
    printf("\n");
    return 0;
}
