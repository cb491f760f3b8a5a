/*
 * The C interface of Twillharbor: target/staticlib/libtwillharbor.a, which
 * `./staticlib` writes. It allocates nothing and keeps nothing between calls.
 * Of the C library it needs memmove and memset.
 *
 * Floating point. A call computes in the floating-point environment of the thread that
 * makes it, and its answers hold for IEEE 754's default environment alone: rounding to
 * nearest, ties to even, and subnormal numbers kept, as results and as operands. On x86-64
 * that is MXCSR with round-to-nearest, and flush-to-zero and denormals-are-zero clear;
 * some compilers' -ffast-math sets the latter two for the whole program. With them set,
 * twillharbor_distance(0, 0, 0x1p-537, 0) gives 0 in place of 0x1p-1074.
 *
 * Results. Every call returns a struct by value. Its `number` is 0 for a result,
 * otherwise the number of a refusal; then `place` is the refusal's place and every
 * other field is 0.
 *
 * M is the number of contours, P that of their points, C how many path points or order
 * entries the output slices hold.
 *
 *   No. Word                Condition
 *   1   too many contours   M above 4,096
 *   2   too many points     the lengths sum to more than 65,536; the calls of plate files:
 *                           the path has more than 1,048,576 points
 *   3   miscounted          point slice length is not twice that sum; the check call and the
 *                           contours call: path slice length is odd, or marks slice is not
 *                           as long; the writer of plate files: path slice length is odd
 *   13  bad layer           layer slice length is not M, or a layer is above 15
 *   4   off the plate       a coordinate is NaN, infinite or of magnitude above 1,000,000
 *                           (the distance call: 2,147,483,648): of the parked point or,
 *                           after that, of the points; the contours call and the writer of
 *                           plate files: of the path
 *   5   work short          u32 work below C + 4P + 8M + 16,384 or f64 work below M
 *                           (retrace); u32 work below M (order, straight), below P + M
 *                           (check), below four for each path point (contours)
 *   6   full                the result has more than C points or order entries; the contours
 *                           call and the calls of plate files: it has no room in the slices
 *                           lent for it
 *   7   blank               the start call only: no contour holds a point
 *   8   block damaged       the reader of plate files only: a check, number, zero byte,
 *                           unused place or count is wrong, or a coordinate off the plate
 *   9   file ends early,    the reader of plate files only: fewer bytes are left than a
 *       or goes on after    block has, or a block with fewer than 31 points does not end
 *       its closing block   the file
 *   10  marks inconsistent  the contours call only: a path point breaks a rule of marks
 *   11  vertex missing      the contours call only: a vertex below the highest landed on is
 *                           not landed on
 *   12  path does not       the check call only: a path point breaks a rule, or a segment
 *       draw the plate      is not cut, or a contour not entered
 *
 * They are tested from the top of this table to its end, 13 between 3 and 4, and the check
 * call's 3 of path and marks after 4; the first that holds wins. The contours call tests 6 after
 * all else. So does the reader of plate files, which tests 8, 2 and 9 block by block. The place
 * is, for 13, M where the slice's length is wrong, else the number of the first contour whose
 * layer is above 15; for 4 zero (home_x) or one (home_y) where the parked point is off the plate,
 * else the first such coordinate's place in the slice; for 5 zero (u32) or one (f64, u32 being
 * enough); for 6 C, but 0 for the contours call and the calls of plate files; for 8 the block; for
 * 9 the file's length where it ends early, else the byte at which its closing block ends; for 10
 * the first path point that breaks a rule; for 11 the lowest vertex that is missing; for 12 the
 * first path point that breaks a rule, or else the number of path points; otherwise 0. A call says
 * which of these it can give.
 *
 * Slices. A slice is two arguments: the pointer to its first element, then the number
 * of its elements, a size_t. The pointer is aligned for its elements and not NULL, also
 * where that number is 0. A slice that the call writes overlaps no other slice of the
 * call. A truth value is a bool.
 */
#ifndef TWILLHARBOR_H
#define TWILLHARBOR_H

#include <stdbool.h>
#include <stddef.h>
#include <stdint.h>

#ifdef __cplusplus
extern "C" {
#endif

enum twillharbor_refusal {
    TWILLHARBOR_TOO_MANY_CONTOURS = 1,
    TWILLHARBOR_TOO_MANY_POINTS = 2,
    TWILLHARBOR_MISCOUNTED = 3,
    TWILLHARBOR_OFF_THE_PLATE = 4,
    TWILLHARBOR_WORK_SHORT = 5,
    TWILLHARBOR_FULL = 6,
    TWILLHARBOR_BLANK = 7,
    TWILLHARBOR_BLOCK_DAMAGED = 8,
    TWILLHARBOR_WRONG_END = 9,
    TWILLHARBOR_MARKS_INCONSISTENT = 10,
    TWILLHARBOR_VERTEX_MISSING = 11,
    TWILLHARBOR_PATH_DOES_NOT_DRAW = 12,
    TWILLHARBOR_BAD_LAYER = 13
};

struct twillharbor_distance_result {
    uint32_t number, place;
    double squared, plain;
};

/*
 * The squared and the plain distance of the points (ax, ay) and (bx, by).
 *
 * Round to nearest, ties to even. dx and dy are the rounded differences; the sum
 * dx * dx + dy * dy is rounded once after dy * dy was rounded. The plain distance is the
 * correctly rounded square root of that squared distance.
 *
 * Refusal 4 where a coordinate is NaN, infinite or of magnitude above 2,147,483,648: its
 * place is 0 for ax, 1 for ay, 2 for bx, 3 for by, and the first of these counts.
 */
struct twillharbor_distance_result twillharbor_distance(double ax, double ay, double bx, double by);

/*
 * The calls from here to the check call take a plate:
 *
 * points    each point's horizontal, then its vertical coordinate, each contour's points
 *           following the last's
 * lengths   the M contours' numbers of points; zero is allowed and such a contour is
 *           skipped. A contour number is its place here, skipped ones counted
 * layers    the M contours' layers, each 0 to 15, those of skipped contours too; zeros
 *           where the plate has no layers
 * width, height   twice the centre
 * inside    the start strategy: Inside where true, Outside where false
 *
 * The start, order, straight and retrace calls have a form whose name ends in _home. It takes,
 * in place of width, height and inside:
 *
 * home_x, home_y   the parked point; the start strategy is Home
 *
 * All that is said of a call holds of its _home form. The parked point counts as it is, -0 and
 * subnormal numbers too, and may be far from every contour.
 *
 * Each call chooses one contour after the other, and chooses a contour only if none that
 * waits has a lower layer. A contour waits that holds a point and was not chosen before: a
 * skipped one never waits, whatever its layer. So a layer is drawn whole before the next, and
 * along a path the layers of the cuts never fall. Where all layers are equal, which of them
 * they are makes no difference.
 *
 * They only read points, lengths and layers. Squared distances are those of the distance
 * call. Refusals 1 to 3, 13 and 4, in this order, test points, lengths and layers, before all
 * else. In the _home forms 4 tests the parked point first, home_x before home_y, then the
 * points. Place 0 or 1 may be either's: it is the parked point's exactly if that is off the
 * plate. Refusals 1 to 5, 7 and 13 alter no slice.
 */

struct twillharbor_start_result {
    uint32_t number, place, contour, reversed;
};

/*
 * Which contour comes first, and its sense: `contour` is its number, `reversed` 1 if it is
 * reversed, else 0.
 *
 * Of the contours of the lowest layer that waits, in order, first point before last: Outside
 * takes a strictly larger squared distance to the centre, Inside a strictly smaller one, Home a
 * strictly smaller one to the parked point. A winning last point reverses the contour.
 *
 * Refusals 1 to 3, 13 and 4, then 7 where no contour holds a point.
 */
struct twillharbor_start_result twillharbor_start(
    const double *points, size_t points_length,
    const uint32_t *lengths, size_t lengths_length,
    const uint32_t *layers, size_t layers_length,
    uint32_t width, uint32_t height, bool inside);

/* The start call with the strategy Home. */
struct twillharbor_start_result twillharbor_start_home(
    const double *points, size_t points_length,
    const uint32_t *lengths, size_t lengths_length,
    const uint32_t *layers, size_t layers_length,
    double home_x, double home_y);

struct twillharbor_order_result {
    uint32_t number, place, entries;
};

/*
 * The contours that hold a point, in the order in which straight joins them. The first is
 * the start call's. Then, of the lowest layer that waits, from the last end, the strictly
 * least squared distance wins; forward where forward <= reverse; the lower contour on ties.
 *
 * order   holds afterwards two numbers an entry: the contour number, then 1 if it is
 *         reversed, else 0. C is half its length, rounded down
 * work    at least M numbers
 *
 * `entries` is the number of entries; beyond them the order slice is unaltered. Refusals 1
 * to 3, 13, 4 and 5, then 6 where there are more than C entries: the first C of them are then
 * written and nothing after them is altered. After a result or a 6 the work slice has free
 * content.
 */
struct twillharbor_order_result twillharbor_order(
    const double *points, size_t points_length,
    const uint32_t *lengths, size_t lengths_length,
    const uint32_t *layers, size_t layers_length,
    uint32_t width, uint32_t height, bool inside,
    uint32_t *order, size_t order_length,
    uint32_t *work, size_t work_length);

/* The order call with the strategy Home. */
struct twillharbor_order_result twillharbor_order_home(
    const double *points, size_t points_length,
    const uint32_t *lengths, size_t lengths_length,
    const uint32_t *layers, size_t layers_length,
    double home_x, double home_y,
    uint32_t *order, size_t order_length,
    uint32_t *work, size_t work_length);

struct twillharbor_straight_result {
    uint32_t number, place, points;
};

/*
 * The ordered contours' points, one contour after the other, each in its sense.
 *
 * path    holds afterwards each path point's horizontal, then its vertical coordinate, bit
 *         for bit those of the point. C is the lesser of half its length, rounded down,
 *         and 1,048,576
 * work    at least M numbers
 *
 * `points` is the number of path points; beyond them the path slice is unaltered. Refusals
 * 1 to 3, 13, 4 and 5, then 6 where there are more than C path points: the first C of them are
 * then written and nothing after them is altered. After a result or a 6 the work slice has
 * free content.
 */
struct twillharbor_straight_result twillharbor_straight(
    const double *points, size_t points_length,
    const uint32_t *lengths, size_t lengths_length,
    const uint32_t *layers, size_t layers_length,
    uint32_t width, uint32_t height, bool inside,
    double *path, size_t path_length,
    uint32_t *work, size_t work_length);

/* The straight call with the strategy Home. */
struct twillharbor_straight_result twillharbor_straight_home(
    const double *points, size_t points_length,
    const uint32_t *lengths, size_t lengths_length,
    const uint32_t *layers, size_t layers_length,
    double home_x, double home_y,
    double *path, size_t path_length,
    uint32_t *work, size_t work_length);

/* The kinds of a mark. */
enum twillharbor_mark {
    TWILLHARBOR_START = 0,
    TWILLHARBOR_CUT = 1,
    TWILLHARBOR_BACK_STEP = 2,
    TWILLHARBOR_JUMP = 3,
    TWILLHARBOR_TOUCH = 4
};

struct twillharbor_retrace_result {
    uint32_t number, place, points, cuts, back_steps, jumps, touches;
    uint64_t cut_length, back_step_length, jump_length;
};

/*
 * The contours that hold a point, joined to one path that goes back over its own grooves to
 * where the next contour is near. It begins with the start call's contour, in its sense. As
 * long as contours wait, of those of the lowest layer that waits the one whose cached distance
 * is least comes next, the lowest on ties: the path walks back to the place that the search of
 * the grid finds for the contour's cached entry, goes over to that entry and draws the contour
 * from there. From the first point it goes forward, from the last backward; from another it goes
 * up to the last, back, and then down to the first. Grid, search, samples and caches are
 * document 01's.
 *
 * path    holds afterwards each path point's horizontal, then its vertical coordinate, bit
 *         for bit those of a point
 * marks   holds afterwards two numbers a path point, its kind and its reference. A vertex
 *         number is a point's place among the points, from 0; a path point's place is
 *         counted from 0 too
 *           0 start      the first path point, and no other: the vertex number landed on
 *           1 cut        from the path point before to this one, along a segment of a
 *                        contour: the lower vertex number of the segment
 *           2 back-step  k: from path point k + 1's coordinates to path point k's, both of
 *                        them earlier path points
 *           3 jump       the vertex number landed on, of a contour not entered before; the
 *                        path point before differs from this one
 *           4 touch      the same, but that the two path points are equal
 *         C is the least of half the path slice's length, half the marks slice's length,
 *         both rounded down, and 1,048,576
 * work    at least C + 4P + 8M + 16,384 numbers
 * distances   at least M numbers
 *
 * `points` is the number of path points; beyond them path and marks slices are unaltered.
 * `cuts`, `back_steps`, `jumps` and `touches` are the numbers of marks of these kinds. Each
 * segment of each contour is cut once, and each contour that holds a point, but the first, is
 * jumped to or touched once: jumps and touches together are one less than the contours that
 * hold a point. Where none does all counts and lengths are 0.
 *
 * `cut_length`, `back_step_length` and `jump_length` are lengths in 1,024ths. The length of a pair
 * of points is its plain distance, as the distance call gives it, times 1,024, rounded down to a
 * whole number; it is below 2^32. These are added up over the pairs of neighbouring path points:
 * those of the cuts, of the back-steps, and of the jumps and touches together, to which a touch
 * adds 0. A sum is below 2^52. `cut_length` is the plate's length: added up contour by contour over
 * the segments in `points`, it is the same number.
 *
 * A touch is a jump between numerically equal points, so it scratches nothing. Equal means both
 * coordinates: 0 and -0 are equal, and (0,0) and (1e-200,0) are not, though their squared
 * distance is 0. Equal points that a cut or a back-step joins are a cut or a back-step.
 *
 * No path point before a jump's or touch's landing is nearer to it than the path point just
 * before it, but for less than a thousand-millionth part: of their squared distances to the
 * landing, f and d, d * 1,073,741,824 <= f * 1,073,741,825 holds as whole numbers. So it does in
 * the beginning that a 6 leaves.
 *
 * Refusals 1 to 3, 13, 4 and 5; the place of 5 is 0 where the work slice is short, and 1 where
 * the distances slice alone is. Then 6 where there are more than C path points, of which there
 * may be far more than points: the first C are then written with their marks, and nothing after
 * them is altered. After a result or a 6 the work and distances slices have free content.
 */
struct twillharbor_retrace_result twillharbor_retrace(
    const double *points, size_t points_length,
    const uint32_t *lengths, size_t lengths_length,
    const uint32_t *layers, size_t layers_length,
    uint32_t width, uint32_t height, bool inside,
    double *path, size_t path_length,
    uint32_t *marks, size_t marks_length,
    uint32_t *work, size_t work_length,
    double *distances, size_t distances_length);

/* The retrace call with the strategy Home. */
struct twillharbor_retrace_result twillharbor_retrace_home(
    const double *points, size_t points_length,
    const uint32_t *lengths, size_t lengths_length,
    const uint32_t *layers, size_t layers_length,
    double home_x, double home_y,
    double *path, size_t path_length,
    uint32_t *marks, size_t marks_length,
    uint32_t *work, size_t work_length,
    double *distances, size_t distances_length);

struct twillharbor_check_path_result {
    uint32_t number;
    uint64_t place;
};

/*
 * Whether a path with marks, from wherever it comes, draws the plate: `number` is 0 if it does.
 * Each path that the retrace call finishes does. The plate has no layers here, no size and no
 * strategy, and a landing may be far from the path.
 *
 * path    each path point's horizontal, then its vertical coordinate
 * marks   two numbers a path point, its kind and its reference, as retrace writes them
 * work    at least P + M numbers
 *
 * Coordinates are compared by their bits. The rules:
 *
 *   - The first mark, and no other, is a start.
 *   - A start, a jump and a touch name a vertex of a contour not entered before, which they
 *     enter, and have its coordinates. As numbers the path point before a jump differs from
 *     the jump's own, and the one before a touch is equal: there 0 and -0 are equal.
 *   - A cut r and the path point before it have the coordinates of vertices r and r + 1, in
 *     either order, which are of one contour; that contour was entered before, and this
 *     segment not cut before.
 *   - A back-step k and the path point before it have the coordinates of path points k and
 *     k + 1, both of them earlier than the back-step's own.
 *   - In the end each segment is cut, and each contour that holds a point is entered.
 *
 * So it is points that decide, not vertex numbers: a cut may leave a point of another contour
 * that has the bits of its segment's end. Where no contour holds a point, the empty path alone
 * draws the plate.
 *
 * Refusals 1 to 4 of the plate, then 3 where the path slice's length is odd or the marks slice
 * is not as long, then 5. Then 12: its place is the first path point that breaks a rule, or the
 * number of path points where none does and something is uncut or not entered. A NaN in the
 * path breaks a rule at its path point. The call only reads path and marks. After 0 and 12 the
 * work slice has free content; the other refusals alter nothing.
 */
struct twillharbor_check_path_result twillharbor_check_path(
    const double *points, size_t points_length,
    const uint32_t *lengths, size_t lengths_length,
    const double *path, size_t path_length,
    const uint32_t *marks, size_t marks_length,
    uint32_t *work, size_t work_length);

struct twillharbor_contours_result {
    uint32_t number;
    uint64_t place;
    uint32_t points, contours;
};

/*
 * The contours that a path with marks draws, from wherever it comes. Of each path that the retrace
 * call finishes they are the plate's contours that hold a point, in their order, bit for bit.
 *
 * path      each path point's horizontal, then its vertical coordinate
 * marks     two numbers a path point, its kind and its reference, as retrace writes them
 * points    holds afterwards each point's horizontal, then its vertical coordinate, each contour's
 *           points following the last's
 * lengths   holds afterwards the contours' numbers of points, of which none is 0
 * work      at least four numbers for each path point
 *
 * `points` and `contours` are how many there are; beyond them points and lengths slices are
 * unaltered. There are at most as many of each as there are path points, and at most 65,536.
 *
 * A path point has a vertex by its mark: that of a start, a jump and a touch is the one named; that
 * of a cut r is the one of r and r + 1 that the path point before it has not; and that of a
 * back-step k is path point k's. All but back-steps land on their vertex. The rules of marks:
 *
 *   - Kinds are 0 to 4, and no vertex is above 65,535.
 *   - The first mark, and no other, is a start.
 *   - A start, a jump, a touch and a cut land on a vertex not landed on before.
 *   - The path point before a jump differs as numbers from the jump's own, and the one before a
 *     touch is equal: there 0 and -0 are equal.
 *   - The path point before a cut r has vertex r or r + 1.
 *   - The path point before a back-step k has the vertex of path point k + 1, and both path points
 *     k and k + 1 are earlier than the back-step's own, which has the bits of path point k.
 *
 * Vertex v of the picture has the coordinates of the path point that lands on it, and v and v + 1
 * are of one contour exactly if segment v is cut. A path of no points gives no contours.
 *
 * Refusals 3 where the path slice's length is odd or the marks slice is not as long, 4, and 5. Then
 * 10: its place is the first path point that breaks a rule. Then 11 where a vertex below the
 * highest landed on is not landed on: its place is the lowest such vertex. Then 6 with place 0
 * where the points slice has not two numbers for each point, or the lengths slice not one for each
 * contour. The call only reads path and marks, and no refusal alters points or lengths. After a
 * result, 6, 10 and 11 the work slice has free content; the other refusals alter nothing.
 */
struct twillharbor_contours_result twillharbor_contours(
    const double *path, size_t path_length,
    const uint32_t *marks, size_t marks_length,
    double *points, size_t points_length,
    uint32_t *lengths, size_t lengths_length,
    uint32_t *work, size_t work_length);

/*
 * The calls below write and read a plate file, which holds a path without its marks. It is blocks
 * of 512 bytes, all numbers little-endian:
 *
 *   bytes 0 to 3       the block's number, from 0
 *         4 and 5      its count of points, 0 to 31
 *         6 and 7      zero
 *         8 to 503     31 places of 16 bytes: a point's horizontal, then its vertical coordinate,
 *                      each the bits of its double; places that no point takes are zero
 *         504 to 507   the first check: the sum of the block's first 126 numbers of 32 bits,
 *                      modulo 2^32
 *         508 to 511   the second check: that sum after each of them, added up, modulo 2^32
 *
 * A block with fewer than 31 points closes the file; where the number of points is a multiple of
 * 31, 0 too, that block holds none. So a file of n points has 512 * (n / 31 + 1) bytes, and one of
 * b bytes holds at most b / 512 * 31 points, quotients rounded down.
 *
 * A path has one file, and what is written is read back bit for bit. No refusal of these calls
 * alters a slice.
 */
enum { TWILLHARBOR_BLOCK_BYTES = 512, TWILLHARBOR_BLOCK_POINTS = 31 };

struct twillharbor_write_file_result {
    uint32_t number, place, bytes;
};

/*
 * Writes the file of a path.
 *
 * path    each path point's horizontal, then its vertical coordinate
 * file    holds afterwards the file's bytes
 *
 * `bytes` is how many these are; beyond them the file slice is unaltered. The call only reads the
 * path. Refusals 2 where half the path slice's length, rounded down, is above 1,048,576, 3 where
 * that length is odd, 4, and 6 with place 0 where the file slice is shorter than the file.
 */
struct twillharbor_write_file_result twillharbor_write_file(
    const double *path, size_t path_length,
    uint8_t *file, size_t file_length);

struct twillharbor_read_file_result {
    uint32_t number, place, points;
};

/*
 * Reads a file, of which every byte counts: what the write call wrote, and nothing after it.
 *
 * file    the file's bytes
 * path    holds afterwards each path point's horizontal, then its vertical coordinate
 *
 * `points` is the number of path points; beyond them the path slice is unaltered. The call only
 * reads the file. Refusals, for each block i from 0 on: 9 with the file's length as its place
 * where fewer than 512 bytes are left; 8 with place i where the block is damaged; 2 where the
 * points up to this block's last are more than 1,048,576; and, if the block has fewer than 31
 * points, 9 with place 512 * (i + 1) where bytes follow it. After all blocks 6 with place 0 where
 * the path slice has no room for the points.
 *
 * A block is damaged where its number is not i, its count is above 31, byte 6 or 7 is not zero, a
 * place that no point takes is not zero (-0 is not), a check is not that of its content, or a
 * coordinate is NaN, infinite or of magnitude above 1,000,000.
 */
struct twillharbor_read_file_result twillharbor_read_file(
    const uint8_t *file, size_t file_length,
    double *path, size_t path_length);

#ifdef __cplusplus
}
#endif

#endif
