/* Prints the squared and the plain distance of (0,0) and (3,4): 25 and 5. */
#include <inttypes.h>
#include <stdio.h>

#include "twillharbor.h"

int main(void) {
    struct twillharbor_distance_result apart = twillharbor_distance(0, 0, 3, 4);
    if (apart.number != 0) {
        printf("refusal %" PRIu32 " at place %" PRIu32 "\n", apart.number, apart.place);
        return 1;
    }
    printf("%g %g\n", apart.squared, apart.plain);
    return 0;
}
