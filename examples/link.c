#include <stdio.h>
#include "twillharbor.h"

int main(void) {
    const double points[] = {4, 0, 0, 1, 4, 1, 8, 1}; /* (4,0) | (0,1)(4,1)(8,1) */
    const uint32_t lengths[] = {1, 3}, layers[] = {0, 0};
    const char *const kinds[] = {"start", "cut", "back-step", "jump", "touch"};
    static double path[2 * 16], distances[2]; /* room for 16 path points */
    static uint32_t marks[2 * 16], work[16 + 4 * 4 + 8 * 2 + 16384];
    struct twillharbor_retrace_result joined = twillharbor_retrace(points, 8, lengths, 2, layers, 2,
        8, 0, true, path, 32, marks, 32, work, sizeof work / sizeof *work, distances, 2);
    for (uint32_t i = 0; i < 2 * joined.points; i += 2)
        printf("(%g,%g) %s %u\n", path[i], path[i + 1], kinds[marks[i]], (unsigned)marks[i + 1]);
    return (int)joined.number; /* 0, or the number of a refusal */
}
