/* Three contours in a row, (0,0) | (1,0) | (2,0): prints their order in one layer, then with the
 * middle one in layer 1, as frosted work that waits for deep work, then with a bad layer. */
#include <inttypes.h>
#include <stdio.h>

#include "twillharbor.h"

enum { CONTOURS = 3 };

static void print_order(const char *name, const uint32_t layers[CONTOURS]) {
    const double points[2 * CONTOURS] = {0, 0, 1, 0, 2, 0};
    const uint32_t lengths[CONTOURS] = {1, 1, 1};
    uint32_t order[2 * CONTOURS], work[CONTOURS], i;

    struct twillharbor_order_result ordered =
        twillharbor_order(points, 2 * CONTOURS, lengths, CONTOURS, layers, CONTOURS, 0, 0, true,
                          order, 2 * CONTOURS, work, CONTOURS);
    if (ordered.number != 0) {
        printf("refusal %" PRIu32 " at place %" PRIu32 "\n", ordered.number, ordered.place);
        return;
    }
    printf("%s", name);
    for (i = 0; i < ordered.entries; i++)
        printf(" %" PRIu32, order[2 * i]);
    printf("\n");
}

int main(void) {
    const uint32_t one[CONTOURS] = {0, 0, 0}, two[CONTOURS] = {0, 1, 0}, bad[CONTOURS] = {0, 16, 0};
    print_order("in one layer", one);
    print_order("in layers 0, 1 and 0", two);
    print_order("with layer 16", bad);
    return 0;
}
