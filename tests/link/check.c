/* Checks rundhefja.h against the library: every struct by size and offsets, and every declaration by answers that are known. */
#include <stdio.h>
#include <string.h>

#include "rundhefja.h"

static int wrong = 0;

static void check(int holds, const char *what) {
    if (!holds) {
        printf("wrong: %s\n", what);
        wrong = 1;
    }
}

static uint64_t bits(double x) {
    uint64_t b;
    memcpy(&b, &x, sizeof b);
    return b;
}

static double of(uint64_t b) {
    double x;
    memcpy(&x, &b, sizeof x);
    return x;
}

/* A NaN with digits of its own, which an assignment might not keep. */
#define PAYLOAD 0x7ff4000000012345u

static rundhefja_point point(double x, double y) {
    rundhefja_point p;
    p.x = x;
    p.y = y;
    return p;
}

static rundhefja_circle circle(double x, double y, double radius, uint16_t ink) {
    rundhefja_circle c;
    c.center = point(x, y);
    c.radius = radius;
    c.ink = ink;
    return c;
}

static rundhefja_rectangle rectangle(double x, double y, double width, double height) {
    rundhefja_rectangle r;
    r.center = point(x, y);
    r.width = width;
    r.height = height;
    return r;
}

static rundhefja_bounds bounds(double x_min, double x_max, double y_min, double y_max) {
    rundhefja_bounds b;
    b.x_min = x_min;
    b.x_max = x_max;
    b.y_min = y_min;
    b.y_max = y_max;
    return b;
}

static int is_circle(rundhefja_circle c, double x, double y, double radius, uint16_t ink) {
    return c.center.x == x && c.center.y == y && c.radius == radius && c.ink == ink;
}

static int is_bounds(rundhefja_bounds b, double x_min, double x_max, double y_min, double y_max) {
    return b.x_min == x_min && b.x_max == x_max && b.y_min == y_min && b.y_max == y_max;
}

/* +0, and not -0 */
static int is_zero(double x) { return bits(x) == 0; }

static int all_zero(const uint8_t *numbers, size_t from) {
    size_t i;
    for (i = from; i < RUNDHEFJA_MAX_CIRCLES; i++) {
        if (numbers[i] != 0) return 0;
    }
    return 1;
}

/* ---- structs: what the library's own have */

#define SIZE(type, size) check(sizeof(type) == (size), "the size of " #type)
#define PLACE(type, field, place) check(offsetof(type, field) == (place), "the place of " #field " in " #type)

static void structs(void) {
    SIZE(rundhefja_point, 16);
    PLACE(rundhefja_point, x, 0);
    PLACE(rundhefja_point, y, 8);
    SIZE(rundhefja_circle, 32);
    PLACE(rundhefja_circle, center, 0);
    PLACE(rundhefja_circle, radius, 16);
    PLACE(rundhefja_circle, ink, 24);
    SIZE(rundhefja_rectangle, 32);
    PLACE(rundhefja_rectangle, center, 0);
    PLACE(rundhefja_rectangle, width, 16);
    PLACE(rundhefja_rectangle, height, 24);
    SIZE(rundhefja_bounds, 32);
    PLACE(rundhefja_bounds, x_min, 0);
    PLACE(rundhefja_bounds, x_max, 8);
    PLACE(rundhefja_bounds, y_min, 16);
    PLACE(rundhefja_bounds, y_max, 24);
    SIZE(rundhefja_corners, 32);
    PLACE(rundhefja_corners, bottom_left, 0);
    PLACE(rundhefja_corners, top_right, 16);
    SIZE(rundhefja_length, 16);
    PLACE(rundhefja_length, refusal, 0);
    PLACE(rundhefja_length, value, 8);
    SIZE(rundhefja_test, 2);
    PLACE(rundhefja_test, refusal, 0);
    PLACE(rundhefja_test, value, 1);
    SIZE(rundhefja_count, 16);
    PLACE(rundhefja_count, refusal, 0);
    PLACE(rundhefja_count, value, 8);
    SIZE(rundhefja_clusters_result, 80);
    PLACE(rundhefja_clusters_result, refusal, 0);
    PLACE(rundhefja_clusters_result, count, 8);
    PLACE(rundhefja_clusters_result, numbers, 16);
    SIZE(rundhefja_pack_result, 2056);
    PLACE(rundhefja_pack_result, refusal, 0);
    PLACE(rundhefja_pack_result, rectangles, 8);
    SIZE(rundhefja_container_result, 40);
    PLACE(rundhefja_container_result, refusal, 0);
    PLACE(rundhefja_container_result, container, 8);
    SIZE(rundhefja_layout_result, 96);
    PLACE(rundhefja_layout_result, refusal, 0);
    PLACE(rundhefja_layout_result, count, 8);
    PLACE(rundhefja_layout_result, numbers, 16);
    PLACE(rundhefja_layout_result, moved, 80);
    PLACE(rundhefja_layout_result, padding, 88);
    SIZE(rundhefja_charge, 16);
    PLACE(rundhefja_charge, refusal, 0);
    PLACE(rundhefja_charge, amount, 8);
    SIZE(rundhefja_field_result, 80);
    PLACE(rundhefja_field_result, refusal, 0);
    PLACE(rundhefja_field_result, tag, 1);
    PLACE(rundhefja_field_result, factor, 8);
    PLACE(rundhefja_field_result, circle, 16);
    PLACE(rundhefja_field_result, mask, 48);
    PLACE(rundhefja_field_result, area, 56);
    PLACE(rundhefja_field_result, body_start, 64);
    PLACE(rundhefja_field_result, body_length, 72);
    SIZE(rundhefja_written, 16);
    PLACE(rundhefja_written, refusal, 0);
    PLACE(rundhefja_written, length, 8);
    SIZE(rundhefja_overlap, 40);
    PLACE(rundhefja_overlap, empty, 0);
    PLACE(rundhefja_overlap, bounds, 8);
}

/* ---- calls */

static void root(void) {
    rundhefja_length r = rundhefja_root(2);
    check(r.refusal == 0 && bits(r.value) == 0x3ff6a09e667f3bcdu, "the root of 2");
    r = rundhefja_root(-1);
    check(r.refusal == 12 && is_zero(r.value), "the root of -1");
    check(rundhefja_root(of(PAYLOAD)).refusal == 12, "the root of a NaN");
    check(bits(rundhefja_root(-0.0).value) == bits(-0.0), "the root of -0");
}

static void distances(void) {
    rundhefja_length r = rundhefja_point_distance(point(1, 2), point(4, 6));
    check(r.refusal == 0 && r.value == 5, "the distance of two points");
    r = rundhefja_point_distance(point(1, 2), point(1, 2097152));
    check(r.refusal == 3 && is_zero(r.value), "the distance to a point out of range");
    r = rundhefja_distance(circle(0, 0, 1, 7), circle(6, 8, 2, 8));
    check(r.refusal == 0 && r.value == 7, "the distance of two circles");
    r = rundhefja_distance(circle(0, 0, 1, 7), circle(1, 1, 2, 7));
    check(r.refusal == 0 && is_zero(r.value), "the distance of two circles that overlap");
    check(rundhefja_distance(circle(0, 0, 1, 7), circle(6, 8, 0, 7)).refusal == 4, "the distance to a circle of radius 0");
    check(rundhefja_distance(circle(of(PAYLOAD), 0, 0, 7), circle(6, 8, 1, 7)).refusal == 3, "3 before 4");
}

static void tests(void) {
    rundhefja_test r = rundhefja_contains(circle(0, 0, 5, 7), circle(3, 0, 2, 7));
    check(r.refusal == 0 && r.value, "a circle inside, touching the edge");
    r = rundhefja_contains(circle(3, 0, 2, 7), circle(0, 0, 5, 7));
    check(r.refusal == 0 && !r.value, "a circle that is not inside");
    r = rundhefja_contains(circle(0, 0, 5, 7), circle(3, 0, -2, 7));
    check(r.refusal == 4 && !r.value, "a circle of radius -2");
    r = rundhefja_contains_point(circle(0, 0, 5, 7), point(3, 4));
    check(r.refusal == 0 && r.value, "a point on the edge");
    r = rundhefja_contains_point(circle(0, 0, 5, 7), point(4, 4));
    check(r.refusal == 0 && !r.value, "a point outside");
    check(rundhefja_contains_point(circle(0, 0, 5, 7), point(4, of(PAYLOAD))).refusal == 3, "a point at a NaN");
    r = rundhefja_intersects(circle(0, 0, 2, 7), circle(3, 0, 2, 7));
    check(r.refusal == 0 && r.value, "edges that cross");
    r = rundhefja_intersects(circle(0, 0, 2, 7), circle(4, 0, 2, 7));
    check(r.refusal == 0 && !r.value, "edges that touch");
    check(rundhefja_intersects(circle(0, 0, 2, 7), circle(4, 0, of(PAYLOAD), 7)).refusal == 4, "a radius that is a NaN");
}

/* ---- the proportion */

/* The doubles next to a positive one. */
static double above(double x) { return of(bits(x) + 1); }
static double below(double x) { return of(bits(x) - 1); }

/* Ten that are refused; `bad` is one of them, by its number. */
enum { BAD = 10 };

static double bad(int i) {
    switch (i) {
    case 0: return below(0.25);
    case 1: return above(4);
    case 2: return of(PAYLOAD);
    case 3: return of(0xfff8000000000000u);
    case 4: return of(0x7ff0000000000000u);
    case 5: return of(0xfff0000000000000u);
    case 6: return 0;
    case 7: return -0.0;
    case 8: return -RUNDHEFJA_PROPORTION;
    default: return of(1); /* the smallest double */
    }
}

static int columns_are(size_t k, double proportion, size_t columns) {
    rundhefja_count r = rundhefja_columns(k, proportion);
    return r.refusal == 0 && r.value == columns;
}

static int columns_refused(size_t k, double proportion, uint8_t refusal) {
    rundhefja_count r = rundhefja_columns(k, proportion);
    return r.refusal == refusal && r.value == 0;
}

static void columns(void) {
    int i;
    check(columns_are(64, RUNDHEFJA_PROPORTION, 11), "the columns of 64 rectangles");
    check(columns_are(0, RUNDHEFJA_PROPORTION, 0) && columns_are(0, 0.25, 0) && columns_are(0, 4, 0), "the columns of none");
    check(columns_refused(65, RUNDHEFJA_PROPORTION, 1) && columns_refused(SIZE_MAX, 1, 1), "the columns of 65");
    check(columns_are(64, 0.25, 4) && columns_are(64, 4, 16), "the columns of 64 at both ends");
    check(columns_are(64, above(0.25), 4) && columns_are(64, above(above(0.25)), 5) && columns_are(64, below(4), 16), "the columns of 64 next to the ends");
    /* the product of the two rounded roots: the root of the product would give 1, 2 and 2 */
    check(columns_are(2, 0.5, 2) && columns_are(2, 2, 3) && columns_are(8, 0.5, 3), "the columns where a rounding decides");
    check(columns_are(1, 1, 1) && columns_are(1, above(1), 1) && columns_are(1, above(above(1)), 2) && columns_are(1, 2, 2), "the columns of 1");
    check(columns_are(2, below(0.5), 1) && columns_are(3, 0.3333333333333335, 1) && columns_are(4, above(0.25), 1), "one column");
    check(columns_are(1, 4, 2) && columns_are(2, 4, 3) && columns_are(3, 4, 4) && columns_are(4, 4, 4), "more columns than there are rectangles");
    for (i = 0; i < BAD; i++) {
        check(columns_refused(64, bad(i), 16) && columns_refused(1, bad(i), 16) && columns_refused(0, bad(i), 16), "columns at a proportion out of range");
        check(columns_refused(65, bad(i), 1), "16 after 1, of columns");
    }
}

static void clusters(void) {
    rundhefja_circle circles[65];
    rundhefja_clusters_result r;
    int i;
    for (i = 0; i < 65; i++) circles[i] = circle(10 * i, 0, 1, i);
    circles[0].radius = 10;
    r = rundhefja_clusters(circles, 4);
    check(r.refusal == 0 && r.count == 3 && r.numbers[0] == 0 && r.numbers[1] == 0 && r.numbers[2] == 1 && r.numbers[3] == 2 && all_zero(r.numbers, 4), "plain clusters");
    r = rundhefja_clusters(circles, 0);
    check(r.refusal == 0 && r.count == 0, "no circles");
    r = rundhefja_clusters(circles, 65);
    check(r.refusal == 1 && r.count == 0 && all_zero(r.numbers, 0), "65 circles to cluster");
    circles[3].radius = of(PAYLOAD);
    check(rundhefja_clusters(circles, 4).refusal == 4, "a radius that is a NaN, to cluster");
    circles[2].center.x = 2097152;
    check(rundhefja_clusters(circles, 4).refusal == 3, "a coordinate out of range, to cluster");
}

static void area_clusters(void) {
    static uint64_t masks[2049] = {3, 6, 6};
    static double areas[2049] = {1, 1, 9};
    rundhefja_clusters_result r = rundhefja_area_clusters(4, masks, 2, areas, 2, 1e-10);
    check(r.refusal == 0 && r.count == 2 && r.numbers[0] == 0 && r.numbers[1] == 0 && r.numbers[2] == 0 && r.numbers[3] == 1 && all_zero(r.numbers, 4), "clusters by areas");
    r = rundhefja_area_clusters(4, masks, 2, areas, 2, 1);
    check(r.refusal == 0 && r.count == 4 && r.numbers[2] == 2 && r.numbers[3] == 3, "areas at the tolerance");
    r = rundhefja_area_clusters(65, masks, 2, areas, 2, 0);
    check(r.refusal == 1 && r.count == 0 && all_zero(r.numbers, 0), "65 circles");
    check(rundhefja_area_clusters(4, masks, 2, areas, 3, 0).refusal == 13, "masks and areas of unequal number");
    check(rundhefja_area_clusters(4, masks, 2049, areas, 2048, 0).refusal == 13, "13 before 2");
    check(rundhefja_area_clusters(4, masks, 2049, areas, 2049, 0).refusal == 2, "2,049 regions");
    check(rundhefja_area_clusters(4, masks, 3, areas, 3, 0).refusal == 5, "masks that do not rise");
}

static int pack_refused(const rundhefja_rectangle *boxes, size_t n, double padding, double proportion, uint8_t refusal) {
    rundhefja_pack_result r = rundhefja_pack(boxes, n, padding, proportion);
    size_t i;
    for (i = 0; i < RUNDHEFJA_MAX_CIRCLES; i++) {
        const rundhefja_rectangle b = r.rectangles[i];
        if (!is_zero(b.center.x) || !is_zero(b.center.y) || !is_zero(b.width) || !is_zero(b.height)) return 0;
    }
    return r.refusal == refusal;
}

static void pack(void) {
    rundhefja_rectangle boxes[65];
    rundhefja_pack_result r;
    int i;
    for (i = 0; i < 65; i++) boxes[i] = rectangle(of(PAYLOAD), 9, 1, 1);
    boxes[0] = rectangle(9, 9, 4, 2);
    boxes[1] = rectangle(9, of(PAYLOAD), 2, 2);
    r = rundhefja_pack(boxes, 2, 1, RUNDHEFJA_PROPORTION);
    check(r.refusal == 0 && r.rectangles[0].center.x == 2.5 && r.rectangles[0].center.y == 1.5 && r.rectangles[0].width == 4 && r.rectangles[0].height == 2, "the first of two boxes");
    check(r.rectangles[1].center.x == 6.5 && r.rectangles[1].center.y == 1.5 && r.rectangles[1].width == 2 && is_zero(r.rectangles[2].width), "the second");
    r = rundhefja_pack(boxes, 2, 1, 0.25);
    check(r.refusal == 0 && r.rectangles[0].center.x == 2.5 && r.rectangles[0].center.y == 1.5, "the first of two boxes, at 1/4");
    check(r.rectangles[1].center.x == 2.5 && r.rectangles[1].center.y == 4.5, "the second below it");
    r = rundhefja_pack(boxes, 2, 1, 4);
    check(r.refusal == 0 && r.rectangles[1].center.x == 6.5 && r.rectangles[1].center.y == 1.5, "the second beside it, at 4");
    check(pack_refused(boxes, 2, -1, RUNDHEFJA_PROPORTION, 8), "a padding below 0");
    check(pack_refused(boxes, 65, 1, RUNDHEFJA_PROPORTION, 1), "65 boxes");
    check(rundhefja_pack(boxes, 64, 1, RUNDHEFJA_PROPORTION).refusal == 0, "64 boxes");
    check(rundhefja_pack(boxes, 64, 1, 0.25).refusal == 0 && rundhefja_pack(boxes, 64, 1, 4).refusal == 0, "64 boxes at both ends");
    check(rundhefja_pack(boxes, 0, 1, 0.25).refusal == 0 && rundhefja_pack(boxes, 0, 1, 4).refusal == 0, "no boxes at both ends");
    for (i = 0; i < BAD; i++) {
        check(pack_refused(boxes, 64, 1, bad(i), 16) && pack_refused(boxes, 1, 0, bad(i), 16) && pack_refused(boxes, 0, 0, bad(i), 16), "16, of a packing");
        check(pack_refused(boxes, 64, of(PAYLOAD), bad(i), 8) && pack_refused(boxes, 0, -1, bad(i), 8), "16 after 8");
        check(pack_refused(boxes, 65, 1, bad(i), 1), "16 after 1, of a packing");
    }
    boxes[63].height = -1;
    check(pack_refused(boxes, 64, 1, RUNDHEFJA_PROPORTION, 7) && pack_refused(boxes, 64, 1, 5, 7) && pack_refused(boxes, 64, -1, 5, 7), "a side below 0");
}

/* The ends of the ranges of sides and padding, at both ends of the proportion. */
static void pack_ends(void) {
    static const double ends[] = {0.25, 4};
    size_t i;
    for (i = 0; i < 2; i++) {
        rundhefja_rectangle box = rectangle(0, 0, 8388608, 0);
        rundhefja_pack_result r = rundhefja_pack(&box, 1, 67108864, ends[i]);
        check(r.refusal == 0 && r.rectangles[0].center.x == 37748736 && r.rectangles[0].center.y == 33554432, "the largest side and padding");
        check(pack_refused(&box, 1, above(67108864), ends[i], 8), "a padding above 2^26");
        box.height = above(8388608);
        check(pack_refused(&box, 1, 1, ends[i], 7), "a side above 2^23");
    }
}

static void container(void) {
    rundhefja_circle circles[65], was[65];
    rundhefja_container_result r;
    int i;
    for (i = 0; i < 65; i++) circles[i] = circle(6, 8, 1, 500 + i);
    r = rundhefja_container(circles, 1, rectangle(5, 7, 10, 12));
    check(r.refusal == 0 && r.container.center.x == 0 && r.container.center.y == 0 && r.container.width == 10 && r.container.height == 12, "the container");
    check(is_circle(circles[0], 0, 0, 1, 500) && is_circle(circles[1], 6, 8, 1, 501), "its circle, and no other");
    circles[2].radius = of(PAYLOAD);
    circles[3].center.y = of(PAYLOAD + 1);
    memcpy(was, circles, sizeof was);
    r = rundhefja_container(circles, 2, rectangle(5, 7, -10, 12));
    check(r.refusal == 7 && r.container.center.x == 5 && r.container.center.y == 7 && r.container.width == -10 && r.container.height == 12, "a side below 0: the container as given");
    check(rundhefja_container(circles, 2, rectangle(5, 2097152, 10, 12)).refusal == 3, "a container out of range");
    check(rundhefja_container(circles, 3, rectangle(5, 7, 10, 12)).refusal == 4, "a radius that is a NaN, in a container");
    check(rundhefja_container(circles, 4, rectangle(5, 7, 10, 12)).refusal == 3, "a centre that is a NaN, in a container");
    check(rundhefja_container(circles, 65, rectangle(5, 7, 10, 12)).refusal == 1, "65 circles in a container");
    check(memcmp(was, circles, sizeof was) == 0, "circles to the byte after a refused container call");
}

static void layout(void) {
    static uint64_t masks[2049] = {1, 2, 3};
    static double areas[2049] = {1, 1, 1};
    rundhefja_circle circles[65], was[65];
    rundhefja_layout_result r;
    int i;
    for (i = 0; i < 65; i++) circles[i] = circle(0, 0, 2, 1 + i);
    circles[1].center.y = 3;
    r = rundhefja_layout(circles, 2, 0.5, masks, 3, areas, 3, RUNDHEFJA_PROPORTION);
    check(r.refusal == 0 && r.count == 1 && r.moved == 0 && is_zero(r.padding) && all_zero(r.numbers, 0), "one cluster");
    check(is_circle(circles[0], -1.5, 0, 2, 1) && is_circle(circles[1], 1.5, 0, 2, 2) && is_circle(circles[2], 0, 0, 2, 3), "its circles, and no other");
    {
        const uint64_t shared[2] = {1, 3};
        const double two[2] = {10, 3};
        circles[0] = circle(0, 0, 4, 65535);
        circles[1] = circle(0, 0, 1, 0);
        r = rundhefja_layout(circles, 2, 0, shared, 2, two, 2, RUNDHEFJA_PROPORTION);
        check(r.refusal == 0 && r.moved == 2 && circles[0].ink == 65535 && circles[1].ink == 0, "a child that is moved, with its ink");
        check(circles[1].center.x - circles[0].center.x > 1.5 - 1e-12 && circles[1].center.x - circles[0].center.x < 1.5 + 1e-12 && circles[1].center.y == circles[0].center.y, "half-way to its parent's edge");
    }
    circles[0] = circle(0, 0, 1, 1);
    circles[1] = circle(10, 0, 1, 2);
    r = rundhefja_layout(circles, 2, 1, masks, 0, areas, 0, RUNDHEFJA_PROPORTION);
    check(r.refusal == 0 && r.count == 2 && r.numbers[0] == 0 && r.numbers[1] == 1 && all_zero(r.numbers, 2) && bits(r.padding) == 0x4006a09e667f3bcdu, "two clusters, the root of 8 between them");
    check(rundhefja_layout(circles, 0, 1, masks, 0, areas, 0, RUNDHEFJA_PROPORTION).refusal == 0, "no circles to lay out");
    circles[2].radius = of(PAYLOAD);
    circles[3].center.x = of(PAYLOAD + 1);
    circles[4] = circle(2097152, 0, 1, 5);
    memcpy(was, circles, sizeof was);
    r = rundhefja_layout(circles, 3, 0.5, masks, 3, areas, 3, RUNDHEFJA_PROPORTION);
    check(r.refusal == 4 && r.count == 0 && r.moved == 0 && is_zero(r.padding) && all_zero(r.numbers, 0), "a radius that is a NaN, to lay out");
    check(rundhefja_layout(circles, 4, 0.5, masks, 3, areas, 3, RUNDHEFJA_PROPORTION).refusal == 3, "a centre that is a NaN, to lay out");
    check(rundhefja_layout(circles + 4, 1, 0.5, masks, 3, areas, 3, RUNDHEFJA_PROPORTION).refusal == 3, "a coordinate out of range, to lay out");
    check(rundhefja_layout(circles, 2, 1.5, masks, 3, areas, 3, RUNDHEFJA_PROPORTION).refusal == 6, "a factor out of range");
    check(rundhefja_layout(circles, 2, 0.5, masks, 3, areas, 2, RUNDHEFJA_PROPORTION).refusal == 13, "masks and areas of unequal number, to lay out");
    check(rundhefja_layout(circles, 2, 0.5, masks, 4, areas, 4, RUNDHEFJA_PROPORTION).refusal == 5, "masks that do not rise, to lay out");
    check(rundhefja_layout(circles, 2, 0.5, masks, 2049, areas, 2049, RUNDHEFJA_PROPORTION).refusal == 2, "2,049 regions to lay out");
    check(rundhefja_layout(circles, 65, 0.5, masks, 3, areas, 3, RUNDHEFJA_PROPORTION).refusal == 1, "65 circles to lay out");
    check(memcmp(was, circles, sizeof was) == 0, "circles to the byte after a refused layout");
}

/* ---- inks */

static rundhefja_circle row[65], row_was[65];

/* 65 circles side by side. Inks 1 to 62 differ in their upper byte alone; the first is 0, and the last of 64 is 65,535. */
static void set_row(void) {
    int i;
    for (i = 0; i < 65; i++) row[i] = circle(10 * i, 0, 1, 256 * i + 7);
    row[0].ink = 0;
    row[63].ink = 65535;
}

/* Whether the row has its radii and inks in order, and after a refusal is as it was, to the byte. */
static int row_kept(uint8_t refusal) {
    int i;
    for (i = 0; i < 65; i++) {
        if (row[i].ink != row_was[i].ink || row[i].radius != row_was[i].radius) return 0;
    }
    return refusal == 0 || memcmp(row_was, row, sizeof row) == 0;
}

static int clusters_give(size_t n, uint8_t refusal) {
    rundhefja_clusters_result r;
    memcpy(row_was, row, sizeof row);
    r = rundhefja_clusters(row, n);
    return r.refusal == refusal && r.count == (refusal == 0 ? n : 0) && (refusal == 0 || all_zero(r.numbers, 0)) && row_kept(14);
}

static int container_gives(size_t n, rundhefja_rectangle given, uint8_t refusal) {
    rundhefja_container_result r;
    memcpy(row_was, row, sizeof row);
    r = rundhefja_container(row, n, given);
    if (r.refusal != refusal || r.container.width != given.width || r.container.height != given.height || !row_kept(refusal)) return 0;
    return refusal == 0 || (r.container.center.x == given.center.x && r.container.center.y == given.center.y);
}

/* Each region is circle 0 alone, so that two of them are one too many. */
static int layout_gives_at(double proportion, size_t n, double factor, size_t regions, size_t areas_len, uint8_t refusal) {
    static uint64_t masks[2049];
    static double areas[2049];
    rundhefja_layout_result r;
    size_t i;
    for (i = 0; i < 2049; i++) {
        masks[i] = 1;
        areas[i] = 1;
    }
    memcpy(row_was, row, sizeof row);
    r = rundhefja_layout(row, n, factor, masks, regions, areas, areas_len, proportion);
    if (r.refusal != refusal || !row_kept(refusal)) return 0;
    return refusal == 0 ? r.count == n : r.count == 0 && r.moved == 0 && is_zero(r.padding) && all_zero(r.numbers, 0);
}

static int layout_gives(size_t n, double factor, size_t regions, size_t areas_len, uint8_t refusal) {
    return layout_gives_at(RUNDHEFJA_PROPORTION, n, factor, regions, areas_len, refusal);
}

/* 2,049 masks that rise, and 2,048 of them that do not. */
static uint64_t rising[2049], level[2048];

static void set_masks(void) {
    size_t i;
    for (i = 0; i < 2049; i++) rising[i] = i + 1;
    for (i = 0; i < 2048; i++) level[i] = 1;
}

/* What is lent to be written to, and what stands there before. */
#define UNWRITTEN 0xa5
static uint8_t out[RUNDHEFJA_MAX_FILE + 1];

/* Whether all from a place on is as it was lent. */
static int unwritten(size_t from) {
    for (; from < sizeof out; from++) {
        if (out[from] != UNWRITTEN) return 0;
    }
    return 1;
}

static int write_gives(size_t n, double factor, const uint64_t *masks, size_t regions, size_t patterns_len, size_t room, uint8_t refusal) {
    static const uint64_t patterns[2049];
    rundhefja_written w;
    memset(out, UNWRITTEN, sizeof out);
    memcpy(row_was, row, sizeof row);
    w = rundhefja_write_card(row, n, factor, masks, regions, patterns, patterns_len, out, room);
    return w.refusal == refusal && w.length == (refusal == 0 ? 11 + 29 * n + 19 * regions : 0) && unwritten(w.length) && row_kept(14);
}

/* Whether the first n circles of the row cost something, or nothing where there are none, or are refused so. They are only read. */
static int charge_gives(uint64_t cents, double proportion, size_t n, double factor, const uint64_t *masks, size_t regions, size_t areas_len, uint8_t refusal) {
    static const double areas[2049];
    rundhefja_charge c;
    memcpy(row_was, row, sizeof row);
    c = rundhefja_card_stock(row, n, factor, masks, regions, areas, areas_len, proportion, cents);
    return c.refusal == refusal && (c.amount > 0) == (refusal == 0 && n > 0) && row_kept(14);
}

/* Whether each call on a run answers so of the first n circles of the row. */
static int calls_give(size_t n, uint8_t refusal) {
    return clusters_give(n, refusal) && container_gives(n, rectangle(5, 7, 9000, 9000), refusal) && layout_gives(n, 0.5, 1, 1, refusal)
           && write_gives(n, 0.5, rising, 1, 1, sizeof out, refusal) && charge_gives(1, RUNDHEFJA_PROPORTION, n, 0.5, rising, 1, 1, refusal);
}

static void inks(void) {
    set_row();
    check(calls_give(64, 0), "64 inks, no two alike");
    set_row();
    row[63].ink = row[0].ink;
    check(calls_give(64, 14), "the last ink as the first");
    check(calls_give(63, 0), "inks alike, one of them past the run");
    check(calls_give(1, 0) && calls_give(0, 0), "one circle, and none");
    check(calls_give(65, 1), "14 after 1");
    set_row();
    row[31].ink = row[30].ink;
    check(calls_give(64, 14) && calls_give(32, 14) && calls_give(31, 0), "neighbours of one ink");
    set_row();
    row[1].ink = 65535;
    check(calls_give(64, 14), "ink 65,535 twice");
    set_row();
    row[1].ink = 0;
    check(calls_give(2, 14), "ink 0 twice");
    row[1].ink = 256;
    check(calls_give(2, 0), "inks of one lower byte");
    row[1].ink = 1;
    check(calls_give(2, 0), "inks of one upper byte");

    set_row();
    row[2].ink = row[1].ink;
    check(container_gives(3, rectangle(5, 7, -1, 9000), 7), "14 after 7");
    check(container_gives(3, rectangle(2097152, 7, 9000, 9000), 3), "14 after 3, of a container");
    check(layout_gives(3, 1.5, 1, 1, 6), "14 after 6");
    check(layout_gives(3, 0.5, 2, 2, 5), "14 after 5");
    check(layout_gives(3, 0.5, 1, 2, 13), "14 after 13");
    check(layout_gives(3, 0.5, 2049, 2049, 2), "14 after 2");
    row[0].radius = 0;
    check(calls_give(3, 4), "14 after 4");
    row[1].center.x = of(PAYLOAD);
    check(calls_give(3, 3), "14 after 3");
}

/* ---- layouts at a proportion */

/* Two circles of radius 1, each a cluster, laid out with no room between them: whether the first stands there, and the second opposite. */
static int two_stand(double proportion, double x, double y) {
    static const uint64_t mask = 0;
    static const double area = 0;
    rundhefja_circle two[2];
    rundhefja_layout_result r;
    two[0] = circle(0, 0, 1, 1);
    two[1] = circle(10, 0, 1, 2);
    r = rundhefja_layout(two, 2, 0, &mask, 0, &area, 0, proportion);
    return r.refusal == 0 && r.count == 2 && is_circle(two[0], x, y, 1, 1) && is_circle(two[1], -x, -y, 1, 2);
}

/* Whether the first n circles of the row, which are alike, stand in so many columns and rows after a layout with no room between them. */
static int row_stands(double proportion, size_t n, size_t across, size_t up) {
    size_t i, k, xs = 0, ys = 0;
    set_row();
    if (!layout_gives_at(proportion, n, 0, 1, 1, 0)) return 0;
    for (i = 0; i < n; i++) {
        int new_x = 1, new_y = 1;
        for (k = 0; k < i; k++) {
            if (row[k].center.x == row[i].center.x) new_x = 0;
            if (row[k].center.y == row[i].center.y) new_y = 0;
        }
        xs += new_x;
        ys += new_y;
    }
    return xs == across && ys == up;
}

static void proportions(void) {
    int i;
    check(two_stand(0.25, 0, -1), "two circles at 1/4, one over the other");
    check(two_stand(below(0.5), 0, -1) && two_stand(0.5, -1, 0), "two circles next to 1/2, and at it");
    check(two_stand(RUNDHEFJA_PROPORTION, -1, 0) && two_stand(4, -1, 0), "two circles side by side");
    check(row_stands(0.25, 64, 4, 16) && row_stands(1, 64, 8, 8) && row_stands(RUNDHEFJA_PROPORTION, 64, 11, 6) && row_stands(4, 64, 16, 4), "64 in a grid");
    check(row_stands(0.25, 3, 1, 3) && row_stands(4, 3, 3, 1) && row_stands(0.25, 1, 1, 1) && row_stands(4, 1, 1, 1), "three in a line, and one");
    check(layout_gives_at(0.25, 0, 1, 0, 0, 0) && layout_gives_at(4, 0, 1, 0, 0, 0), "no circles at both ends");
    for (i = 0; i < BAD; i++) {
        set_row();
        check(layout_gives_at(bad(i), 64, 0.5, 1, 1, 16) && layout_gives_at(bad(i), 1, 0.5, 1, 1, 16), "16, of a layout");
        check(layout_gives_at(bad(i), 0, 0, 0, 0, 16), "16, of no circles");
        row[2].ink = row[1].ink;
        check(layout_gives_at(bad(i), 2, 0.5, 1, 1, 16) && layout_gives_at(bad(i), 3, 0.5, 1, 1, 14), "16 after 14");
        check(layout_gives_at(bad(i), 3, 1.5, 1, 1, 6) && layout_gives_at(bad(i), 0, -1, 0, 0, 6), "16 after 6");
        check(layout_gives_at(bad(i), 3, 1.5, 2, 2, 5), "16 after 5");
        row[0].radius = 0;
        check(layout_gives_at(bad(i), 3, 1.5, 2, 2, 4), "16 after 4");
        row[1].center.y = of(PAYLOAD);
        check(layout_gives_at(bad(i), 3, 1.5, 2, 2, 3), "16 after 3");
        check(layout_gives_at(bad(i), 3, 1.5, 2049, 2049, 2) && layout_gives_at(bad(i), 3, 1.5, 2049, 2048, 13), "16 after 2 and 13");
        check(layout_gives_at(bad(i), 65, 1.5, 2049, 2048, 1), "16 after 1, of a layout");
    }
}

/* ---- charges */

/* Whether n circles cost so much at a price, with no room between clusters; circles 0 and 1 are in one cluster if there is a region. */
static int cost(const rundhefja_circle *circles, size_t n, size_t regions, uint64_t cents, uint64_t amount) {
    static const uint64_t mask = 3;
    static const double area = 1;
    const rundhefja_charge c = rundhefja_card_stock(circles, n, 0, &mask, regions, &area, regions, RUNDHEFJA_PROPORTION, cents);
    return c.refusal == 0 && c.amount == amount;
}

static int one_costs(double x, double y, double radius, uint64_t cents, uint64_t amount) {
    const rundhefja_circle one = circle(x, y, radius, 7);
    return cost(&one, 1, 0, cents, amount);
}

/* The same of two circles side by side. */
static int two_cost(double apart, double radius, size_t regions, uint64_t cents, uint64_t amount) {
    rundhefja_circle two[2];
    two[0] = circle(0, 0, radius, 1);
    two[1] = circle(apart, 0, radius, 2);
    return cost(two, 2, regions, cents, amount);
}

/* 64 clusters of one circle, as far apart as they may be. */
static int most_cost(double radius, double proportion, uint64_t amount) {
    static const uint64_t mask = 0;
    static const double area = 0;
    rundhefja_circle most[64];
    rundhefja_charge c;
    int i;
    for (i = 0; i < 64; i++) most[i] = circle(i % 2 == 0 ? 1048576 : -1048576, 1048576, radius, i);
    c = rundhefja_card_stock(most, 64, 1, &mask, 0, &area, 0, proportion, RUNDHEFJA_MAX_PRICE);
    return c.refusal == 0 && c.amount == amount;
}

static void charges(void) {
    enum { BAD_PRICES = 5 }; /* two of them would be taken if they were cut to a shorter number */
    static const uint64_t bad_prices[BAD_PRICES] = {0, RUNDHEFJA_MAX_PRICE + 1, 257, UINT64_C(0x100000001), UINT64_MAX};
    const double p = RUNDHEFJA_PROPORTION;
    rundhefja_circle two[2];
    int i;
    check(cost(row, 0, 0, 1, 0) && cost(row, 0, 0, RUNDHEFJA_MAX_PRICE, 0), "no circles cost 0");
    check(one_costs(3, 4, 5, 7, 7) && one_costs(3, 4, 5, 1, 1) && one_costs(3, 4, 5, RUNDHEFJA_MAX_PRICE, 100), "10 by 10 millimetres");
    check(one_costs(0, 0, above(5), 7, 14) && one_costs(0, 0, below(5), 7, 7), "a hair more, and a hair less");
    check(one_costs(0, 0, 7.03125, 1, 3), "each side is raised, and not the area");
    check(one_costs(0, 0, 9.5367431640625e-7, 9, 9), "the smallest circle");
    check(two_cost(99, 0.5, 1, 100, 100) && two_cost(100, 0.5, 1, 100, 200) && two_cost(above(99), 0.5, 1, 100, 200), "100 and 101 square millimetres");
    two[0] = circle(0, 0, 10, 1);
    two[1] = circle(0, 70, 10.000000000000007, 2);
    check(cost(two, 2, 1, 1, 19), "a width that is rounded to 90; exactly it is a hair more");
    check(two_cost(1000, 1, 0, 100, 100), "the finished card, and not the one handed in");
    /* the second sheet has whole hundreds, above 2^53 */
    check(most_cost(1048576, 0.25, UINT64_C(16747761114284100)) && most_cost(1048575, 4, UINT64_C(16747729170480000)), "64 of the largest circles");
    for (i = 0; i < BAD_PRICES; i++) {
        const uint64_t cents = bad_prices[i];
        set_row();
        check(charge_gives(cents, p, 64, 0.5, rising, 1, 1, 17) && charge_gives(cents, p, 0, 0, rising, 0, 0, 17), "17, of a charge");
        check(charge_gives(cents, bad(i), 2, 0.5, rising, 1, 1, 16) && charge_gives(cents, bad(i), 0, 0, rising, 0, 0, 16), "17 after 16");
        row[2].ink = row[1].ink;
        check(charge_gives(cents, bad(i), 3, 0.5, rising, 1, 1, 14) && charge_gives(cents, p, 3, 0.5, rising, 1, 1, 14), "17 after 14");
        check(charge_gives(cents, bad(i), 3, 1.5, rising, 1, 1, 6) && charge_gives(cents, p, 0, -1, rising, 0, 0, 6), "17 after 6");
        check(charge_gives(cents, bad(i), 3, 1.5, level, 2, 2, 5), "17 after 5");
        row[0].radius = 0;
        check(charge_gives(cents, bad(i), 3, 1.5, level, 2, 2, 4), "17 after 4");
        row[1].center.y = of(PAYLOAD);
        check(charge_gives(cents, bad(i), 3, 1.5, level, 2, 2, 3), "17 after 3");
        check(charge_gives(cents, bad(i), 3, 1.5, rising, 2049, 2049, 2) && charge_gives(cents, p, 3, 1.5, rising, 2049, 2048, 13), "17 after 2 and 13");
        check(charge_gives(cents, bad(i), 65, 1.5, rising, 2049, 2048, 1), "17 after 1");
    }
    set_row();
    check(charge_gives(1, p, 64, 0.5, rising, 2048, 2048, 0), "a charge with 2,048 regions");
    for (i = 0; i < BAD; i++) check(charge_gives(1, bad(i), 64, 0.5, rising, 1, 1, 16), "16, of a charge");
}

/* ---- touch points */

#define TOUCHES (RUNDHEFJA_MAX_POINTS + 1)
#define FILL UINT64_C(0xa5a5a5a5a5a5a5a5)

static rundhefja_point touch[TOUCHES];
static uint64_t answers[TOUCHES + 1];

/* Whether m points over n circles, with so many answers, give this number; after a refusal no answer is written, and after none those behind the points stay. */
static int touch_gives(const rundhefja_circle *circles, size_t n, size_t m, size_t room, uint8_t refusal) {
    size_t i;
    int kept = 1;
    for (i = 0; i <= TOUCHES; i++) answers[i] = FILL;
    if (rundhefja_touch_points(circles, n, touch, m, answers, room) != refusal) return 0;
    for (i = refusal == 0 ? m : 0; i <= TOUCHES; i++) kept = kept && answers[i] == FILL;
    return kept;
}

/* Whether each answer has the circles for which the point by itself is inside. */
static int as_singly(const rundhefja_circle *circles, size_t n, size_t m) {
    size_t i, j;
    for (i = 0; i < m; i++) {
        uint64_t mask = 0;
        for (j = 0; j < n; j++) {
            const rundhefja_test t = rundhefja_contains_point(circles[j], touch[i]);
            if (t.refusal != 0) return 0;
            if (t.value) mask |= UINT64_C(1) << j;
        }
        if (answers[i] != mask) return 0;
    }
    return 1;
}

static void touches(void) {
    rundhefja_circle some[65];
    size_t i;
    for (i = 0; i < 65; i++) some[i] = circle(10 * (double)(i % 8), 10 * (double)(i / 8), i % 3 == 0 ? 14 : 5, (uint16_t)(1000 - i));
    some[0] = circle(0, 0, 5, 7);
    some[1] = circle(3, 0, 1, 8);
    some[2] = circle(100, 0, 1, 9);
    touch[0] = point(3, 4);
    touch[1] = point(3, 0);
    touch[2] = point(100, 1);
    touch[3] = point(0, above(5));
    check(touch_gives(some, 3, 4, 6, 0) && answers[0] == 1 && answers[1] == 3 && answers[2] == 4 && answers[3] == 0, "the circles under four points");
    check(touch_gives(some, 0, 4, 4, 0) && answers[0] == 0 && answers[3] == 0, "touch points over no circles");
    check(touch_gives(some, 3, 0, 0, 0) && touch_gives(some, 3, 0, 5, 0), "no touch points");
    for (i = 0; i < TOUCHES; i++) touch[i] = point((double)(i % 40) * 2.5 - 10, (double)(i / 40) * 3.5 - 10);
    check(touch_gives(some, 64, 1024, 1024, 0) && as_singly(some, 64, 1024), "1,024 points over 64 circles, as each by itself");
    check(touch_gives(some, 64, 1024, 1023, 19) && touch_gives(some, 0, 1, 0, 19), "19, of an answer list");
    check(touch_gives(some, 64, 1025, 1025, 18) && touch_gives(some, 64, 1025, 0, 18) && touch_gives(some, 0, 1025, 1024, 18), "18, and before 19");
    some[63].ink = some[62].ink;
    check(touch_gives(some, 64, 1025, 0, 14) && touch_gives(some, 64, 4, 3, 14) && touch_gives(some, 63, 4, 4, 0), "18 and 19 after 14");
    some[5].radius = 0;
    check(touch_gives(some, 64, 1025, 0, 4) && touch_gives(some, 5, 4, 4, 0), "18 and 19 after 4");
    touch[1024].y = above(1048576);
    check(touch_gives(some, 64, 1025, 0, 3) && touch_gives(some, 0, 1025, 1025, 3) && touch_gives(some, 5, 1024, 1024, 0), "3, of a point past the 1,024th");
    touch[1024].y = 0;
    touch[1023].x = of(PAYLOAD);
    check(touch_gives(some, 5, 1024, 1024, 3) && touch_gives(some, 5, 1023, 1023, 0), "3, of the last point, and no answer is written");
    check(touch_gives(some, 65, 1025, 0, 1), "1, of touch points");
    touch[1023].x = 0;
    some[4].center.x = -above(1048576);
    check(touch_gives(some, 5, 4, 4, 3) && touch_gives(some, 4, 4, 4, 0), "3, of a circle under touch points");
}

/* two circles and no region; see samples/ */
static size_t sample(const char *name, uint8_t *input, size_t room) {
    size_t n;
    FILE *f = fopen(name, "rb");
    check(f != NULL, "the sample card");
    if (f == NULL) return 0;
    n = fread(input, 1, room, f);
    fclose(f);
    return n;
}

static int nothing_read(rundhefja_field_result r, uint8_t refusal) {
    return r.refusal == refusal && r.tag == 0 && is_zero(r.factor) && is_zero(r.circle.center.x) && is_zero(r.circle.center.y) && is_zero(r.circle.radius) && r.circle.ink == 0
           && r.mask == 0 && is_zero(r.area) && r.body_start == 0 && r.body_length == 0;
}

static void field(void) {
    /* a region's field of mask 5 and area 2, behind two other bytes */
    static const uint8_t region[21] = {7, 7, 3, 16, 0, 5, 0, 0, 0, 0, 0, 0, 0, 0, 0, 0, 0, 0, 0, 0, 0x40};
    static const uint8_t factor[11] = {1, 8, 0, 0, 0, 0, 0, 0, 0, 0xe0, 0x3f};
    /* the circle (1, 2, 3) of ink 513 */
    static const uint8_t placed[29] = {2, 26, 0, 0, 0, 0, 0, 0, 0, 0xf0, 0x3f, 0, 0, 0, 0, 0, 0, 0, 0x40, 0, 0, 0, 0, 0, 0, 0x08, 0x40, 1, 2};
    rundhefja_field_result r = rundhefja_field(region, 21, 2);
    check(r.refusal == 0 && r.tag == 3 && r.mask == 5 && r.area == 2 && r.body_start == 5 && r.body_length == 16, "a region's field");
    check(is_zero(r.factor) && is_zero(r.circle.radius) && r.circle.ink == 0, "what a region's field does not have");
    r = rundhefja_field(factor, 11, 0);
    check(r.refusal == 0 && r.tag == 1 && r.factor == 0.5 && r.body_start == 3 && r.body_length == 8 && r.mask == 0 && is_zero(r.area), "a factor's field");
    r = rundhefja_field(placed, 29, 0);
    check(r.refusal == 0 && r.tag == 2 && is_circle(r.circle, 1, 2, 3, 513) && r.body_start == 3 && r.body_length == 26 && is_zero(r.factor), "a circle's field");
    check(nothing_read(rundhefja_field(placed, 28, 0), 11), "an ink that is cut");
    check(nothing_read(rundhefja_field(region, 20, 2), 11), "a field that is cut");
    check(nothing_read(rundhefja_field(region, 21, 19), 11), "a head that is cut");
    check(nothing_read(rundhefja_field(region, 21, SIZE_MAX), 11), "a place past the end");
    check(nothing_read(rundhefja_field(region, 21, 0), 9), "an unknown tag");
    check(nothing_read(rundhefja_field(placed + 1, 28, 27), 11) && nothing_read(rundhefja_field(factor, 10, 0), 11), "cut in head and body");
    {
        uint8_t wrong_length[11];
        memcpy(wrong_length, factor, 11);
        wrong_length[2] = 1;
        check(nothing_read(rundhefja_field(wrong_length, 11, 0), 10), "a wrong length");
    }
    {
        /* of the length that it had before there were inks */
        uint8_t without_ink[27];
        memcpy(without_ink, placed, 27);
        without_ink[1] = 24;
        check(nothing_read(rundhefja_field(without_ink, 27, 0), 10), "a circle's field without an ink");
    }
}

/* Whether these are the eight bytes of a number, the lowest first. */
static int is_number(const uint8_t *bytes, uint64_t n) {
    uint64_t b;
    memcpy(&b, bytes, sizeof b);
    return b == n;
}

static void write_card(const char *name) {
    static const uint64_t mask = 5, pattern = PAYLOAD;
    rundhefja_circle two[2];
    rundhefja_field_result f;
    rundhefja_written w;
    uint8_t input[100];
    size_t n = sample(name, input, sizeof input);

    two[0] = circle(0, 0, 1, 1);
    two[1] = circle(10, 0, 1, 2);
    memset(out, UNWRITTEN, sizeof out);
    w = rundhefja_write_card(two, 2, 0, &mask, 0, &pattern, 0, out, n);
    check(w.refusal == 0 && w.length == n && memcmp(out, input, n) == 0 && unwritten(n), "the sample card, written");
    memset(out, UNWRITTEN, sizeof out);
    w = rundhefja_write_card(two, 2, 0, &mask, 0, &pattern, 0, out, n - 1);
    check(w.refusal == 15 && w.length == 0 && unwritten(0), "the sample card, and a list that lacks a byte");

    two[0] = circle(-0.0, 3, 5, 65535);
    memset(out, UNWRITTEN, sizeof out);
    w = rundhefja_write_card(two, 1, -0.0, &mask, 1, &pattern, 1, out, sizeof out);
    check(w.refusal == 0 && w.length == 59 && unwritten(59), "a card of a circle and a region");
    check(out[0] == 1 && out[1] == 8 && out[2] == 0 && is_number(out + 3, bits(-0.0)), "a factor of -0, written");
    check(out[11] == 2 && out[12] == 26 && out[13] == 0 && is_number(out + 14, bits(-0.0)) && out[38] == 255 && out[39] == 255, "a circle, written");
    check(out[40] == 3 && out[41] == 16 && out[42] == 0 && is_number(out + 43, 5) && is_number(out + 51, PAYLOAD), "an area that is a NaN, written");
    f = rundhefja_field(out, w.length, 11);
    check(f.refusal == 0 && is_circle(f.circle, 0, 3, 5, 65535) && bits(f.circle.center.x) == bits(-0.0), "a circle, written and read");

    set_row();
    check(write_gives(0, 0.5, rising, 0, 0, 11, 0) && write_gives(0, 0.5, rising, 0, 0, 10, 15) && write_gives(0, 0.5, rising, 0, 0, 0, 15), "the shortest file");
    check(write_gives(64, 0.5, rising, 2048, 2048, RUNDHEFJA_MAX_FILE, 0), "the longest file");
    check(write_gives(64, 0.5, rising, 2048, 2048, RUNDHEFJA_MAX_FILE - 1, 15), "the longest file, and a list that lacks a byte");
    row[2].ink = row[1].ink;
    check(write_gives(3, 0.5, rising, 1, 1, 0, 14), "15 after 14");
    check(write_gives(3, 1.5, rising, 1, 1, 0, 6), "15 after 6");
    check(write_gives(3, 1.5, level, 2, 2, 0, 5), "15 after 5");
    row[0].radius = 0;
    check(write_gives(3, 1.5, level, 2, 2, 0, 4), "15 after 4");
    row[1].center.y = 1048577;
    check(write_gives(3, 1.5, level, 2, 2, 0, 3), "15 after 3");
    check(write_gives(3, 0.5, rising, 2049, 2049, 0, 2), "15 after 2");
    check(write_gives(3, 0.5, rising, 2049, 2048, 0, 13) && write_gives(3, 0.5, rising, 0, 1, 0, 13), "15 after 13");
    check(write_gives(65, 0.5, rising, 2049, 2048, 0, 1), "15 after 1");
}

/* Whether an input has this text, which is written to a list of so much room or, where it does not fit, not at all. */
static int text_gives(const uint8_t *input, size_t n, size_t room, const char *expected) {
    const size_t length = strlen(expected);
    rundhefja_written w;
    memset(out, UNWRITTEN, sizeof out);
    w = rundhefja_card_text(input, n, out, room);
    if (room < length) return w.refusal == 15 && w.length == 0 && unwritten(0);
    return w.refusal == 0 && w.length == length && memcmp(out, expected, length) == 0 && unwritten(length);
}

static void card_text(const char *name) {
    static const char expected[] =
        "circles 2 clusters 2 moved 0000000000000000 padding 0000000000000000\n"
        "0 0 bff0000000000000 0000000000000000 3ff0000000000000 1\n"
        "1 1 3ff0000000000000 0000000000000000 3ff0000000000000 2\n";
    static uint8_t long_input[RUNDHEFJA_MAX_INPUT + 1];
    uint8_t input[100];
    size_t n = sample(name, input, sizeof input), length = sizeof expected - 1;
    check(text_gives(input, n, RUNDHEFJA_MAX_TEXT, expected), "the text of the sample card");
    check(text_gives(input, n, length, expected), "a text that just fits");
    check(text_gives(input, n, length - 1, expected) && text_gives(input, n, 0, expected), "a text that does not fit");
    check(text_gives(input, n - 1, RUNDHEFJA_MAX_TEXT, "refused 11\n"), "a card that is cut");
    if (n == 69) input[67] = 1;
    check(text_gives(input, n, RUNDHEFJA_MAX_TEXT, "refused 14\n"), "a card with one ink twice");
    check(text_gives(input, 0, 10, "refused 9\n") && text_gives(input, 0, 9, "refused 9\n"), "an empty card");
    check(text_gives(long_input, sizeof long_input, RUNDHEFJA_MAX_TEXT, "refused 2\n"), "an input that is too long");
}

static void boxes(void) {
    const rundhefja_bounds a = bounds(0, 4, 1, 3), b = bounds(2, 6, 2, 8), far = bounds(4, 5, 1, 3);
    rundhefja_corners c = rundhefja_bounds_to_points(a);
    rundhefja_overlap o = rundhefja_bounds_intersection(a, b);
    check(rundhefja_bounds_width(a) == 4, "a width");
    check(rundhefja_bounds_height(a) == 2, "a height");
    check(rundhefja_bounds_area(b) == 24, "an area");
    check(c.bottom_left.x == 0 && c.bottom_left.y == 1 && c.top_right.x == 4 && c.top_right.y == 3, "corners");
    check(is_bounds(rundhefja_bounds_union(a, b), 0, 6, 1, 8), "a union");
    check(!o.empty && is_bounds(o.bounds, 2, 4, 2, 3), "an intersection");
    o = rundhefja_bounds_intersection(a, far);
    check(o.empty && is_zero(o.bounds.x_min) && is_zero(o.bounds.x_max) && is_zero(o.bounds.y_min) && is_zero(o.bounds.y_max), "boxes that touch");
    check(is_bounds(rundhefja_circle_bounds(circle(1, 2, 3, 7)), -2, 4, -1, 5), "a circle's box");
    check(is_bounds(rundhefja_rectangle_bounds(rectangle(1, 2, 4, 6)), -1, 3, -1, 5), "a rectangle's box");
    check(is_circle(rundhefja_circle_from_params(1, 2, 3, 65535), 1, 2, 3, 65535), "a circle of these numbers");
    check(is_circle(rundhefja_circle_from_params(1, 2, -3, 256), 1, 2, of(0x0010000000000000u), 256), "a radius that is lifted");
}

int main(int argc, char **argv) {
    set_masks();
    structs();
    root();
    distances();
    tests();
    columns();
    clusters();
    area_clusters();
    pack();
    pack_ends();
    container();
    layout();
    inks();
    proportions();
    charges();
    touches();
    field();
    write_card(argc > 1 ? argv[1] : "samples/two.card");
    card_text(argc > 1 ? argv[1] : "samples/two.card");
    boxes();
    return wrong;
}
