/* Circle layouts for pigment cards, proved. For x86-64 System V.
 *
 * A call gives the full answer or one numbered refusal, whatever it is handed. After a refusal all that was lent is as it was, to the byte, and what an answer
 * does not use is 0. No call allocates, keeps a pointer, prints or ends the program, and the library has no state, so calls may run in parallel. Of the C library
 * it needs memcpy, memmove and memset.
 *
 * A run of records or numbers is a pointer and how many lie there. A pointer is never NULL, not even to an empty run. What a call rewrites may overlap nothing
 * else that it is lent. A struct that comes back has padding bytes, which are not set: compare its fields, not its bytes.
 *
 * A circle has the number of its ink, any of 0 to 65,535, and keeps it. Two circles of one run may not have the same (14): a caller that has no use for inks
 * gives 0, 1, 2 and so on. Calls on two circles, or on one, do not look at inks.
 *
 * A caller that was written for circles without inks is compiled anew, since a circle has 32 bytes and not 24; gives each circle its ink, since the second one
 * left at 0 is refused; hands the ink to rundhefja_circle_from_params; and has circle fields of 26 bytes in its card files, since those of 24 are refused (10).
 *
 * A caller of the rundhefja_card_text that returned a size_t is compiled anew; takes the length out of the struct that comes back now; and, where it lends fewer
 * than RUNDHEFJA_MAX_TEXT bytes, looks at the refusal: a text that does not fit gives 15 and the length 0, where as much as fits was written before.
 *
 * A caller of the rundhefja_layout, rundhefja_pack or rundhefja_columns that took no proportion is compiled anew, and gives RUNDHEFJA_PROPORTION as the last
 * value to get what it got before.
 *
 * What is proved holds in IEEE 754's default state, round to nearest and with subnormals, in which a program starts unless it is linked with -ffast-math or the
 * like. In another, last bits change, and a side or a factor just below 0 passes for 0. rundhefja_floats_ok tells.
 *
 * refusal: 0 none; 1 more than 64 circles or rectangles; 2 more than 2,048 regions, or an input of more than 65,536 bytes; 3 a coordinate that is not finite
 * or above 2^20 in size; 4 a radius that is not finite or outside 2^-20 to 2^20; 5 masks that do not rise strictly; 6 a factor that is not finite or outside
 * 0 to 1; 7 a side that is not finite or outside 0 to 2^23; 8 a padding that is not finite or outside 0 to 2^26; 9 a tag unknown or out of place; 10 a
 * field's length wrong for its tag; 11 a file that ends inside a field; 12 the root of NaN or of a number below 0; 13 masks and areas of unequal number;
 * 14 two circles of one run, or of one file, that have the same ink; 15 a lent list that is too short for what is to be written; 16 a proportion that is not
 * finite or outside 1/4 to 4; 17 a price outside 1 to 100; 18 more than 1,024 touch points; 19 fewer answers than touch points.
 * The lowest that applies comes back, but 13 before 2; a file and a field are checked front to back, and a file's values after that. */
#ifndef RUNDHEFJA_H
#define RUNDHEFJA_H

#include <stdbool.h>
#include <stddef.h>
#include <stdint.h>

#ifdef __cplusplus
extern "C" {
#endif

#define RUNDHEFJA_MAX_CIRCLES 64 /* and rectangles */
#define RUNDHEFJA_MAX_REGIONS 2048
#define RUNDHEFJA_MAX_INPUT 65536
#define RUNDHEFJA_MAX_TEXT 4096
#define RUNDHEFJA_MAX_FILE 40779 /* a card's longest: 64 circles and 2,048 regions */
#define RUNDHEFJA_MAX_PRICE 100  /* in cents; the least is 1 */
#define RUNDHEFJA_MAX_POINTS 1024

/* A grid's proportion is about its columns to its rows, any from 1/4, for narrow stock, to 4, the ends inside. This is the one that program card keeps. */
#define RUNDHEFJA_PROPORTION 1.618

/* The most stack that a call uses, in bytes: rundhefja_card_text, and any other. */
#define RUNDHEFJA_STACK_CARD_TEXT 106496
#define RUNDHEFJA_STACK 49152

/* ---- records */

typedef struct {
    double x, y;
} rundhefja_point;

typedef struct {
    rundhefja_point center;
    double radius;
    uint16_t ink; /* its number in the recipe book; 6 bytes of padding follow */
} rundhefja_circle;

typedef struct {
    rundhefja_point center;
    double width, height;
} rundhefja_rectangle;

typedef struct {
    double x_min, x_max, y_min, y_max;
} rundhefja_bounds;

typedef struct {
    rundhefja_point bottom_left, top_right;
} rundhefja_corners;

/* ---- answers */

typedef struct {
    uint8_t refusal;
    double value;
} rundhefja_length;

typedef struct {
    uint8_t refusal;
    bool value;
} rundhefja_test;

typedef struct {
    uint8_t refusal;
    size_t value;
} rundhefja_count;

/* count: how many clusters. numbers: the cluster of each circle; clusters are numbered from 0, by smallest member. */
typedef struct {
    uint8_t refusal;
    size_t count;
    uint8_t numbers[RUNDHEFJA_MAX_CIRCLES];
} rundhefja_clusters_result;

/* rectangles: where each stands in the grid, in the order given. */
typedef struct {
    uint8_t refusal;
    rundhefja_rectangle rectangles[RUNDHEFJA_MAX_CIRCLES];
} rundhefja_pack_result;

/* container: where it now stands; as given after a refusal. */
typedef struct {
    uint8_t refusal;
    rundhefja_rectangle container;
} rundhefja_container_result;

/* count and numbers: the clusters, as above. moved: bit i stands for circle i, which was moved off its parent's centre. padding: the room between clusters. */
typedef struct {
    uint8_t refusal;
    size_t count;
    uint8_t numbers[RUNDHEFJA_MAX_CIRCLES];
    uint64_t moved;
    double padding;
} rundhefja_layout_result;

/* amount: what the card stock of a layout costs, in cents. */
typedef struct {
    uint8_t refusal;
    uint64_t amount;
} rundhefja_charge;

/* tag 1: factor; tag 2: circle; tag 3: mask and area. The body is body_length bytes of the file, from body_start on. */
typedef struct {
    uint8_t refusal;
    uint8_t tag;
    double factor;
    rundhefja_circle circle;
    uint64_t mask;
    double area;
    size_t body_start, body_length;
} rundhefja_field_result;

/* length: how many bytes were written, from the start of the lent list on; what lies behind them stays. 0 where it is refused. */
typedef struct {
    uint8_t refusal;
    size_t length;
} rundhefja_written;

/* empty: the boxes share nothing. */
typedef struct {
    bool empty;
    rundhefja_bounds bounds;
} rundhefja_overlap;

/* ---- the whole layout
 *
 * Moves children off their parents' centres, turns and mirrors each cluster, packs the clusters in a grid and centres the whole. Rewrites the circles' centres;
 * radii, inks and the order stay. Region j has the circles of the bits of masks[j], bit i for circle i, and the area areas[j]; masks rise strictly. factor says
 * how much room lies between clusters, proportion how their grid is cut. Refuses 1, 13, 2, 3, 4, 5, 6, 14, 16.
 *
 * Proved of each answer, to 1/65,536: circles of different clusters are the padding apart on one axis at least; circles of one cluster that were not moved keep
 * their distance; a moved circle does not reach past its parent; two circles have one number exactly if a chain of regions joins them.
 *
 * And so that every card hangs alike, to 1/65,536 too: the box of all circles has its middle at the origin; in each cluster of two circles or more the first
 * centre is not right of the middle of the range of the cluster's centres, nor above it, where y is larger. The second is level with the first, to 1/2,048.
 * First and second are the members of lowest number. */
rundhefja_layout_result rundhefja_layout(rundhefja_circle *circles, size_t circles_len, double factor, const uint64_t *masks, size_t masks_len,
                                         const double *areas, size_t areas_len, double proportion);

/* What the card stock of a layout costs: the layout is made of a copy, so the circles are only read. The width and the height of the box that holds all finished
 * circles, as the calls on boxes below give them, are each raised to whole millimetres; each hundred square millimetres that is started costs so many cents, 1 to
 * RUNDHEFJA_MAX_PRICE. No circles cost 0. The amount is exact, and below 2^59. Refuses 1, 13, 2, 3, 4, 5, 6, 14, 16, 17. */
rundhefja_charge rundhefja_card_stock(const rundhefja_circle *circles, size_t circles_len, double factor, const uint64_t *masks, size_t masks_len,
                                      const double *areas, size_t areas_len, double proportion, uint64_t cents);

/* Moves the container to the origin, the circles along, and the circles to its middle, unless they reach past its edge. Rewrites the circles' centres. Refuses
 * 1, 3, 4, 7, 14. */
rundhefja_container_result rundhefja_container(rundhefja_circle *circles, size_t circles_len, rundhefja_rectangle container);

/* ---- its parts */

/* Circles belong together if their edges cross or one lies inside the other, and by chains of these. Refuses 1, 3, 4, 14. */
rundhefja_clusters_result rundhefja_clusters(const rundhefja_circle *circles, size_t circles_len);

/* Circles 0 to n - 1 belong together if they share a region whose area is finite and not at most the tolerance, which may be any number, and by chains of these.
 * Regions as above. Refuses 1, 13, 2, 5. */
rundhefja_clusters_result rundhefja_area_clusters(size_t n, const uint64_t *masks, size_t masks_len, const double *areas, size_t areas_len, double tolerance);

/* Rectangles in a grid, the largest first; their centres are not looked at. Refuses 1, 7, 8, 16. */
rundhefja_pack_result rundhefja_pack(const rundhefja_rectangle *rectangles, size_t rectangles_len, double padding, double proportion);

/* How many columns the grid of k rectangles has: root(k) times root(proportion), raised to a whole number; 64 have 4 at 1/4, 11 at 1.618 and 16 at 4. A few
 * may have more columns than there are rectangles. Refuses 1, 16. */
rundhefja_count rundhefja_columns(size_t k, double proportion);

/* The double nearest the exact root; -0 and infinity give themselves. Refuses 12. */
rundhefja_length rundhefja_root(double x);

/* The distance of two points, the double nearest the exact root of the exact sum of the squares of the two rounded differences, as IEEE 754's hypot has it
 * (refuses 3); of two circles, 0 if they touch or overlap (refuses 3, 4). */
rundhefja_length rundhefja_point_distance(rundhefja_point p, rundhefja_point q);
rundhefja_length rundhefja_distance(rundhefja_circle a, rundhefja_circle b);

/* Is b inside a, whose edge it may touch? Is p inside c or on its edge? Do the edges cross, of which a touch is no crossing? Each refuses 3, 4. */
rundhefja_test rundhefja_contains(rundhefja_circle a, rundhefja_circle b);
rundhefja_test rundhefja_contains_point(rundhefja_circle c, rundhefja_point p);
rundhefja_test rundhefja_intersects(rundhefja_circle a, rundhefja_circle b);

/* ---- touch points */

/* Writes for each point the circles that it lies in or on the edge of: bit j of answers[i] is set exactly if rundhefja_contains_point says yes of circle j and
 * point i. A batch answers as its points do one by one. Answers behind the points' stay. A point obeys the range of coordinates, every one of them, so also where
 * there are too many. The circles obey theirs, as in any call: a finished layout may lie beyond 2^20, and is then refused (3). Returns the refusal's number or 0,
 * and after a refusal no answer is written. Refuses 1, 3, 4, 14, 18, 19. */
uint8_t rundhefja_touch_points(const rundhefja_circle *circles, size_t circles_len, const rundhefja_point *points, size_t points_len, uint64_t *answers,
                               size_t answers_len);

/* ---- the card file */

/* The field that starts at a place of a file. Refuses 11, 9, 10. */
rundhefja_field_result rundhefja_field(const uint8_t *file, size_t file_len, size_t at);

/* Writes a card's file: 11 bytes, and 29 for each circle and 19 for each region. Saved, it has to be exactly the length bytes, since one more would be taken
 * for the start of a field. Circles, factor and masks are as for rundhefja_layout. patterns[j] has the bits of area j, as memcpy takes them from a double: the
 * file keeps a NaN's digits, and a double that is handed over may lose them. Refuses 1, 13 (masks and patterns), 2, 3, 4, 5, 6, 14, 15.
 *
 * Proved of each answer: the bytes read back to the same circles, regions and factor, to the bit. A card that was read is written as the file it came from.
 *
 * Save what a layout is made from, not what it gives: finished circles may lie beyond 2^20, and are then refused (3). */
rundhefja_written rundhefja_write_card(const rundhefja_circle *circles, size_t circles_len, double factor, const uint64_t *masks, size_t masks_len,
                                       const uint64_t *patterns, size_t patterns_len, uint8_t *out, size_t out_len);

/* Writes the text that program card prints for a file: a line for the card, and for each circle its number, its cluster, the bits of x, y and radius, and its
 * ink. A file that is refused has the text "refused K\n", K one of 1 to 6, 9, 10, 11, 14. RUNDHEFJA_MAX_TEXT bytes have room for any. Refuses 15. */
rundhefja_written rundhefja_card_text(const uint8_t *input, size_t input_len, uint8_t *text, size_t text_len);

/* ---- boxes and records: these take every double and refuse none */

double rundhefja_bounds_width(rundhefja_bounds b);
double rundhefja_bounds_height(rundhefja_bounds b);
double rundhefja_bounds_area(rundhefja_bounds b);
rundhefja_corners rundhefja_bounds_to_points(rundhefja_bounds b);

/* The smallest box that holds both; what both share, which is nothing where they only touch. */
rundhefja_bounds rundhefja_bounds_union(rundhefja_bounds a, rundhefja_bounds b);
rundhefja_overlap rundhefja_bounds_intersection(rundhefja_bounds a, rundhefja_bounds b);

rundhefja_bounds rundhefja_circle_bounds(rundhefja_circle c);
rundhefja_bounds rundhefja_rectangle_bounds(rundhefja_rectangle r);

/* The circle of these numbers. A radius below the smallest normal double, 2^-1022, is raised to it; a NaN stays. */
rundhefja_circle rundhefja_circle_from_params(double x, double y, double radius, uint16_t ink);

/* ---- the caller's floating-point state */

/* Is it as the proofs want it: round to nearest, subnormals kept where they are read and where they are written? Each thread has its own state, so each asks
 * once. Right also in a file that is compiled with -ffast-math. */
static inline bool rundhefja_floats_ok(void) {
    /* volatile: else the compiler works all this out by itself, in the default state. */
    volatile double one = 1.0, little = 1e-20, half = 0.5, many = 4503599627370496.0 /* 2^52 */;
    volatile double least = 4.9406564584124654e-324, normal = 2.2250738585072014e-308; /* the smallest double, 2^-1074, and the smallest normal one, 2^-1022 */
    volatile double above = one + little, below = one - little, read = least * many, written = normal * half;
    return above == one && below == one && read == normal && written != 0.0;
}

#ifdef __cplusplus
}
#endif

#endif
