/* Joins a line, a line that begins where the first does, and a point to a path that goes back
 * over its own grooves: prints each path point with its mark, how many cuts, back-steps, jumps
 * and touches there are, and how long these are. */
#include <inttypes.h>
#include <stdio.h>

#include "twillharbor.h"

/* The plate's points and contours, and path points that there is room for. */
enum { POINTS = 6, CONTOURS = 3, ROOM = 8 };

int main(void) {
    /* (0,0)(4,0)(8,0) | (-0,0)(0,4) | (0,5), 0 by 0, Inside. */
    const double points[2 * POINTS] = {0, 0, 4, 0, 8, 0, -0.0, 0, 0, 4, 0, 5};
    const uint32_t lengths[CONTOURS] = {3, 2, 1};
    const uint32_t layers[CONTOURS] = {0, 0, 0};
    double path[2 * ROOM], distances[CONTOURS];
    uint32_t marks[2 * ROOM], i;
    static uint32_t work[ROOM + 4 * POINTS + 8 * CONTOURS + 16384];

    struct twillharbor_retrace_result joined = twillharbor_retrace(
        points, 2 * POINTS, lengths, CONTOURS, layers, CONTOURS, 0, 0, true, path, 2 * ROOM,
        marks, 2 * ROOM, work, sizeof work / sizeof work[0], distances, CONTOURS);
    if (joined.number != 0) {
        printf("refusal %" PRIu32 " at place %" PRIu32 "\n", joined.number, joined.place);
        return 1;
    }
    for (i = 0; i < joined.points; i++) {
        printf("(%g,%g) ", path[2 * i], path[2 * i + 1]);
        switch (marks[2 * i]) {
        case TWILLHARBOR_START:
            printf("start on vertex");
            break;
        case TWILLHARBOR_CUT:
            printf("cut of segment");
            break;
        case TWILLHARBOR_BACK_STEP:
            printf("back to path point");
            break;
        case TWILLHARBOR_JUMP:
            printf("jump to vertex");
            break;
        case TWILLHARBOR_TOUCH:
            printf("touch of vertex");
            break;
        }
        printf(" %" PRIu32 "\n", marks[2 * i + 1]);
    }
    printf("cuts %" PRIu32 ", back-steps %" PRIu32 ", jumps %" PRIu32 ", touches %" PRIu32 "\n",
           joined.cuts, joined.back_steps, joined.jumps, joined.touches);
    printf("in 1,024ths: cuts %" PRIu64 ", back-steps %" PRIu64 ", jumps %" PRIu64 "\n",
           joined.cut_length, joined.back_step_length, joined.jump_length);
    return 0;
}
