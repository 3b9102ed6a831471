/* Answers the records of tests/oracle through the C interface and prints for each kind how many agree, as program `replay` does for the calls by value; of how
 * many circles that were lent to be rewritten the ink is as it was; and how many of the card files that are read are written again, byte for byte. Fails where
 * one differs or is malformed.
 *
 * A record is a kind byte, a two-byte length and a body: the input, then the answer; all numbers little-endian; a circle is x, y, radius and ink, 26 bytes.
 * What is lent lies between guards. Besides the answers this holds what no contract sees: a guard, what a call only reads, and all that was lent to a call that
 * refuses are as they were, to the byte. A call that moves circles leaves each its radius and its ink, to the byte as well. */
#include <inttypes.h>
#include <stdio.h>
#include <string.h>

#include "rundhefja.h"

#define SIGN UINT64_C(0x8000000000000000)
#define INFINITE UINT64_C(0x7ff0000000000000)
#define NOT_A_NUMBER UINT64_C(0x7ff8000000000000)

/* ---- a body, read from its start */

typedef struct {
    const uint8_t *bytes;
    size_t length, at;
} record;

/* A number of so many bytes. What lies past the end counts as 0; such a body has not `ended`. */
static uint64_t take(record *r, size_t size) {
    uint64_t n = 0;
    size_t i;
    for (i = 0; i < size; i++, r->at++) {
        if (r->at < r->length) n |= (uint64_t)r->bytes[r->at] << (8 * i);
    }
    return n;
}

static size_t left(const record *r) { return r->at < r->length ? r->length - r->at : 0; }

static int ended(const record *r) { return r->at == r->length; }

static double take_double(record *r) {
    uint64_t b = take(r, 8);
    double x;
    memcpy(&x, &b, sizeof x);
    return x;
}

static rundhefja_point take_point(record *r) {
    rundhefja_point p;
    p.x = take_double(r);
    p.y = take_double(r);
    return p;
}

static rundhefja_circle take_circle(record *r) {
    rundhefja_circle c;
    c.center = take_point(r);
    c.radius = take_double(r);
    c.ink = take(r, 2);
    return c;
}

static rundhefja_rectangle take_rectangle(record *r) {
    rundhefja_rectangle b;
    b.center = take_point(r);
    b.width = take_double(r);
    b.height = take_double(r);
    return b;
}

static rundhefja_bounds take_bounds(record *r) {
    rundhefja_bounds b;
    b.x_min = take_double(r);
    b.x_max = take_double(r);
    b.y_min = take_double(r);
    b.y_max = take_double(r);
    return b;
}

/* ---- answers held to the body's */

/* As the records have it: either zero as 0, every NaN as one. */
static uint64_t bits(double x) {
    uint64_t b;
    memcpy(&b, &x, sizeof b);
    return x == 0 ? 0 : x != x ? NOT_A_NUMBER : b;
}

static int is_byte(record *r, size_t n) { return take(r, 1) == n; }

static int is_ink(record *r, size_t n) { return take(r, 2) == n; }

static int is_word(record *r, uint64_t n) { return take(r, 8) == n; }

static int is_double(record *r, double x) { return is_word(r, bits(x)); }

static int is_circle(record *r, rundhefja_circle c) {
    return is_double(r, c.center.x) && is_double(r, c.center.y) && is_double(r, c.radius) && is_ink(r, c.ink);
}

static int is_rectangle(record *r, rundhefja_rectangle b) {
    return is_double(r, b.center.x) && is_double(r, b.center.y) && is_double(r, b.width) && is_double(r, b.height);
}

static int is_bounds(record *r, rundhefja_bounds b) { return is_double(r, b.x_min) && is_double(r, b.x_max) && is_double(r, b.y_min) && is_double(r, b.y_max); }

static int is_grouping(record *r, uint8_t refusal, size_t count, const uint8_t *numbers) {
    size_t i;
    if (!is_byte(r, refusal) || !is_byte(r, count)) return 0;
    for (i = 0; i < RUNDHEFJA_MAX_CIRCLES; i++) {
        if (!is_byte(r, numbers[i])) return 0;
    }
    return 1;
}

/* ---- runs that are lent */

/* A guard has room for three circles or rectangles, and is NaNs and inks of 65,535. */
enum { GUARD = 96, ROOM = 65536, CIRCLE_BYTES = 26 };

typedef struct {
    union {
        uint8_t bytes[GUARD + ROOM + GUARD];
        uint64_t aligned;
    } now;
    uint8_t was[GUARD + ROOM + GUARD];
    size_t size;
} lent;

static lent circles, rectangles, masks, areas, patterns, points, answers, file, text, output;

static void *run(lent *l) { return l->now.bytes + GUARD; }

static void lend(lent *l, const void *from, size_t size) {
    memset(l->now.bytes, 0xff, GUARD + size + GUARD);
    memcpy(run(l), from, size);
    memcpy(l->was, l->now.bytes, GUARD + size + GUARD);
    l->size = size;
}

/* A NaN is lent as a signalling one with digits of its own: no answer looks at them, and only a run that is left alone keeps them. */
static void mark(uint8_t *bytes, uint64_t digits) {
    uint64_t b;
    memcpy(&b, bytes, sizeof b);
    if ((b & ~SIGN) > INFINITE) b = (b & SIGN) + INFINITE + digits + 1;
    memcpy(bytes, &b, sizeof b);
}

/* As `lend`, for doubles. */
static void lend_doubles(lent *l, const void *from, size_t size) {
    static uint8_t marked[ROOM];
    size_t i;
    memcpy(marked, from, size);
    for (i = 0; i + sizeof(double) <= size; i += sizeof(double)) mark(marked + i, i);
    lend(l, marked, size);
}

/* As `lend`, for circles of 26 bytes each: x, y, radius, ink. The rest of each record is its place. */
static void lend_circles(lent *l, const void *from, size_t size) {
    static uint8_t records[ROOM];
    const uint8_t *bytes = from;
    const size_t n = size / CIRCLE_BYTES;
    size_t i, k;
    for (i = 0; i < n; i++) {
        uint8_t *record = records + i * sizeof(rundhefja_circle);
        memset(record, (int)i, sizeof(rundhefja_circle));
        memcpy(record, bytes + i * CIRCLE_BYTES, CIRCLE_BYTES);
        for (k = 0; k < 3; k++) mark(record + k * sizeof(double), 4 * i + k);
    }
    lend(l, records, n * sizeof(rundhefja_circle));
}

/* What a body has next. 0 where it has less. */
static int lend_next(void (*how)(lent *, const void *, size_t), lent *l, record *r, size_t size) {
    if (left(r) < size) return 0;
    how(l, r->bytes + r->at, size);
    r->at += size;
    return 1;
}

/* Whether all but the first so many bytes of a run is as it was, and both guards. */
static int kept(const lent *l, size_t rewritten) {
    const size_t rest = GUARD + rewritten;
    return memcmp(l->now.bytes, l->was, GUARD) == 0 && memcmp(l->now.bytes + rest, l->was + rest, l->size - rewritten + GUARD) == 0;
}

/* How many circles were lent to be rewritten, and how many of them have the radius and the ink that they were lent with. */
static unsigned long inks_lent, inks_back;

static int inks_kept(void) {
    const size_t from = offsetof(rundhefja_circle, radius), to = offsetof(rundhefja_circle, ink) + sizeof(uint16_t);
    const size_t n = circles.size / sizeof(rundhefja_circle);
    size_t i, back = 0;
    for (i = 0; i < n; i++) {
        const size_t at = GUARD + i * sizeof(rundhefja_circle) + from;
        back += memcmp(circles.now.bytes + at, circles.was + at, to - from) == 0;
    }
    inks_lent += n;
    inks_back += back;
    return back == n;
}

static rundhefja_circle circle_at(size_t i) {
    rundhefja_circle c;
    memcpy(&c, circles.now.bytes + GUARD + i * sizeof c, sizeof c);
    return c;
}

/* ---- circles and boxes by value */

/* Two points; the refusal, the distance. */
static int distance(record *r) {
    rundhefja_point p = take_point(r), q = take_point(r);
    rundhefja_length d = rundhefja_point_distance(p, q);
    return is_byte(r, d.refusal) && is_double(r, d.value) && ended(r);
}

/* Two circles; the refusal, the distance, whether the first contains the second, whether they intersect. */
static int two_circles(record *r) {
    rundhefja_circle a = take_circle(r), b = take_circle(r);
    rundhefja_length d = rundhefja_distance(a, b);
    rundhefja_test c = rundhefja_contains(a, b), i = rundhefja_intersects(a, b);
    if (c.refusal != d.refusal || i.refusal != d.refusal) return 0;
    return is_byte(r, d.refusal) && is_double(r, d.value) && is_byte(r, c.value) && is_byte(r, i.value) && ended(r);
}

/* A circle, a point; the refusal, whether the circle contains the point. */
static int circle_and_point(record *r) {
    rundhefja_circle c = take_circle(r);
    rundhefja_test t = rundhefja_contains_point(c, take_point(r));
    return is_byte(r, t.refusal) && is_byte(r, t.value) && ended(r);
}

/* Two boxes, a radius and an ink; the union, whether and what they share, width, height and area, the lifted radius and the ink, the boxes of the circle and of
 * the rectangle. */
static int boxes(record *r) {
    rundhefja_bounds a = take_bounds(r), b = take_bounds(r);
    double radius = take_double(r);
    uint16_t ink = take(r, 2);
    rundhefja_overlap o = rundhefja_bounds_intersection(a, b);
    rundhefja_circle c, lifted = rundhefja_circle_from_params(a.x_min, a.x_max, radius, ink);
    rundhefja_rectangle d;
    c.center.x = a.x_min;
    c.center.y = a.x_max;
    c.radius = radius;
    c.ink = ink;
    d.center.x = b.x_min;
    d.center.y = b.x_max;
    d.width = b.y_min;
    d.height = b.y_max;
    if (bits(lifted.center.x) != bits(a.x_min) || bits(lifted.center.y) != bits(a.x_max)) return 0;
    return is_bounds(r, rundhefja_bounds_union(a, b)) && is_byte(r, !o.empty) && is_bounds(r, o.bounds) && is_double(r, rundhefja_bounds_width(a))
           && is_double(r, rundhefja_bounds_height(a)) && is_double(r, rundhefja_bounds_area(a)) && is_double(r, lifted.radius) && is_ink(r, lifted.ink)
           && is_bounds(r, rundhefja_circle_bounds(c)) && is_bounds(r, rundhefja_rectangle_bounds(d)) && ended(r);
}

/* How many rectangles, the proportion; the refusal, the columns. */
static int columns(record *r) {
    size_t k = take(r, 1);
    rundhefja_count c = rundhefja_columns(k, take_double(r));
    return is_byte(r, c.refusal) && is_byte(r, c.value) && ended(r);
}

/* ---- runs */

/* How many circles, the circles; the clusters. */
static int clusters(record *r) {
    size_t n = take(r, 1);
    rundhefja_clusters_result c;
    if (!lend_next(lend_circles, &circles, r, n * CIRCLE_BYTES)) return 0;
    c = rundhefja_clusters(run(&circles), n);
    return is_grouping(r, c.refusal, c.count, c.numbers) && ended(r) && kept(&circles, 0);
}

/* How many circles, masks and areas; the tolerance, the masks, the areas; the clusters. */
static int area_clusters(record *r) {
    size_t n = take(r, 1), m = take(r, 2), a = take(r, 2);
    double tolerance = take_double(r);
    rundhefja_clusters_result c;
    if (!lend_next(lend, &masks, r, m * sizeof(uint64_t)) || !lend_next(lend_doubles, &areas, r, a * sizeof(double))) return 0;
    c = rundhefja_area_clusters(n, run(&masks), m, run(&areas), a, tolerance);
    return is_grouping(r, c.refusal, c.count, c.numbers) && ended(r) && kept(&masks, 0) && kept(&areas, 0);
}

static int is_blank(rundhefja_rectangle b) { return bits(b.center.x) == 0 && bits(b.center.y) == 0 && bits(b.width) == 0 && bits(b.height) == 0; }

/* How many rectangles, the padding, the proportion, the rectangles; the refusal, and where there is none the rectangles placed. What the answer does not use
 * is 0. */
static int pack(record *r) {
    size_t n = take(r, 1), i;
    double padding = take_double(r), proportion = take_double(r);
    rundhefja_pack_result p;
    if (!lend_next(lend_doubles, &rectangles, r, n * sizeof(rundhefja_rectangle))) return 0;
    p = rundhefja_pack(run(&rectangles), n, padding, proportion);
    if (!is_byte(r, p.refusal)) return 0;
    for (i = 0; i < RUNDHEFJA_MAX_CIRCLES; i++) {
        if (p.refusal == 0 && i < n ? !is_rectangle(r, p.rectangles[i]) : !is_blank(p.rectangles[i])) return 0;
    }
    return ended(r) && kept(&rectangles, 0);
}

/* How many circles, the container, the circles; the refusal, the container and, where they fit a layout, the circles. */
static int container(record *r) {
    size_t n = take(r, 1), i;
    rundhefja_rectangle given = take_rectangle(r);
    rundhefja_container_result c;
    if (!lend_next(lend_circles, &circles, r, n * CIRCLE_BYTES)) return 0;
    c = rundhefja_container(run(&circles), n, given);
    if (!is_byte(r, c.refusal) || !is_rectangle(r, c.container)) return 0;
    for (i = 0; n <= RUNDHEFJA_MAX_CIRCLES && i < n; i++) {
        if (!is_circle(r, circle_at(i))) return 0;
    }
    return ended(r) && kept(&circles, c.refusal == 0 ? circles.size : 0) && inks_kept();
}

/* Lays out the lent circles with the lent regions. 0 where a byte was not kept, or an answer has what it does not use. */
static int lay_out(double factor, double proportion, rundhefja_layout_result *l) {
    const size_t n = circles.size / sizeof(rundhefja_circle);
    size_t i;
    *l = rundhefja_layout(run(&circles), n, factor, run(&masks), masks.size / sizeof(uint64_t), run(&areas), areas.size / sizeof(double), proportion);
    if (!kept(&circles, l->refusal == 0 ? circles.size : 0) || !inks_kept() || !kept(&masks, 0) || !kept(&areas, 0)) return 0;
    if (l->refusal != 0 && (l->count != 0 || l->moved != 0 || bits(l->padding) != 0)) return 0;
    for (i = l->refusal == 0 ? n : 0; i < RUNDHEFJA_MAX_CIRCLES; i++) {
        if (l->numbers[i] != 0) return 0;
    }
    return 1;
}

/* How many circles, masks and areas; the proportion, the factor, the circles, the masks, the areas. Lends these. 0 where a body has less. */
static int lend_layout(record *r, double *factor, double *proportion) {
    size_t n = take(r, 1), m = take(r, 2), a = take(r, 2);
    *proportion = take_double(r);
    *factor = take_double(r);
    return lend_next(lend_circles, &circles, r, n * CIRCLE_BYTES) && lend_next(lend, &masks, r, m * sizeof(uint64_t))
           && lend_next(lend_doubles, &areas, r, a * sizeof(double));
}

/* A layout's input; the refusal, the clusters, the mask of the moved circles, the padding and, where they fit a layout, the circles. */
static int layout(record *r) {
    size_t n, i;
    double factor, proportion;
    rundhefja_layout_result l;
    if (!lend_layout(r, &factor, &proportion) || !lay_out(factor, proportion, &l)) return 0;
    n = circles.size / sizeof(rundhefja_circle);
    if (!is_grouping(r, l.refusal, l.count, l.numbers) || !is_word(r, l.moved) || !is_double(r, l.padding)) return 0;
    for (i = 0; n <= RUNDHEFJA_MAX_CIRCLES && i < n; i++) {
        if (!is_circle(r, circle_at(i))) return 0;
    }
    return ended(r);
}

/* A layout's input, the price; the refusal, the amount. What is lent is only read. */
static int charge(record *r) {
    double factor, proportion;
    rundhefja_charge c;
    if (!lend_layout(r, &factor, &proportion)) return 0;
    c = rundhefja_card_stock(run(&circles), circles.size / sizeof(rundhefja_circle), factor, run(&masks), masks.size / sizeof(uint64_t), run(&areas),
                             areas.size / sizeof(double), proportion, take(r, 8));
    return is_byte(r, c.refusal) && is_word(r, c.amount) && ended(r) && kept(&circles, 0) && kept(&masks, 0) && kept(&areas, 0);
}

/* The refusal of the batch that is lent. */
static uint8_t touch(void) {
    return rundhefja_touch_points(run(&circles), circles.size / sizeof(rundhefja_circle), run(&points), points.size / sizeof(rundhefja_point), run(&answers),
                                  answers.size / sizeof(uint64_t));
}

/* Whether too many points that are lent are refused with 3 once the last of them is out of range: no call by value has that one. */
static int last_point_seen(void) {
    static uint8_t bytes[ROOM];
    memcpy(bytes, run(&points), points.size);
    memset(bytes + points.size - sizeof(double), 0xff, sizeof(double));
    lend(&points, bytes, points.size);
    return touch() == 3 && kept(&points, 0) && kept(&answers, 0);
}

/* How many circles, points and answers; the circles, the points, the word that each answer is before the call; the refusal, the answers. */
static int touches(record *r) {
    static uint64_t filled[ROOM / sizeof(uint64_t)];
    size_t n = take(r, 1), m = take(r, 2), k = take(r, 2), i;
    uint64_t mask;
    uint8_t refusal;
    if (!lend_next(lend_circles, &circles, r, n * CIRCLE_BYTES) || !lend_next(lend_doubles, &points, r, m * sizeof(rundhefja_point))) return 0;
    mask = take(r, 8);
    if (left(r) != 1 + k * sizeof mask) return 0;
    for (i = 0; i < k; i++) filled[i] = mask;
    lend(&answers, filled, k * sizeof mask);
    refusal = touch();
    if (!is_byte(r, refusal)) return 0;
    for (i = 0; i < k; i++) {
        memcpy(&mask, answers.now.bytes + GUARD + i * sizeof mask, sizeof mask);
        if (!is_word(r, mask)) return 0;
    }
    return ended(r) && kept(&circles, 0) && kept(&points, 0) && kept(&answers, refusal == 0 ? m * sizeof mask : 0) && (refusal != 18 || last_point_seen());
}

/* ---- the card file */

/* The length of the file, the place, the file; the field, and its body's place and length. */
static int field(record *r) {
    size_t length = take(r, 2), at = take(r, 8);
    rundhefja_field_result f;
    if (!lend_next(lend, &file, r, length)) return 0;
    f = rundhefja_field(run(&file), length, at);
    return is_byte(r, f.refusal) && is_byte(r, f.tag) && is_double(r, f.factor) && is_circle(r, f.circle) && is_word(r, f.mask) && is_double(r, f.area)
           && is_word(r, f.body_start) && is_word(r, f.body_length) && ended(r) && kept(&file, 0);
}

/* A card's parts, with room for one circle and one region too many. */
typedef struct {
    double factor;
    size_t circles, regions;
    uint8_t circle[RUNDHEFJA_MAX_CIRCLES + 1][CIRCLE_BYTES]; /* the front of a rundhefja_circle */
    uint64_t mask[RUNDHEFJA_MAX_REGIONS + 1], pattern[RUNDHEFJA_MAX_REGIONS + 1]; /* an area's bits, as they are in the file */
    double area[RUNDHEFJA_MAX_REGIONS + 1];
} parts;

/* Takes the lent file apart, field by field: 0 or the refusal. A field knows no order and no count, so these are seen to here. The first circle or region too
 * many ends the card; it is counted, for the layout to refuse. */
static uint8_t take_apart(parts *p) {
    const uint8_t *bytes = run(&file);
    size_t at = 0;
    uint8_t last = 0;
    int full = 0;
    memset(p, 0, sizeof *p);
    if (file.size == 0) return 9;
    while (at < file.size && !full) {
        rundhefja_field_result f = rundhefja_field(bytes, file.size, at);
        uint8_t tag = bytes[at];
        if (file.size - at < 3) return f.refusal;
        if ((tag == 1 && last != 0) || (tag == 2 && last != 1 && last != 2) || (tag == 3 && last == 0)) return 9;
        full = (tag == 2 && p->circles == RUNDHEFJA_MAX_CIRCLES) || (tag == 3 && p->regions == RUNDHEFJA_MAX_REGIONS);
        if (f.refusal != 0 && !full) return f.refusal;
        if (tag == 1) p->factor = f.factor;
        if (tag == 2) memcpy(p->circle[p->circles++], &f.circle, CIRCLE_BYTES);
        if (tag == 3) {
            record pattern = {bytes, file.size, f.body_start + 8};
            p->mask[p->regions] = f.mask;
            p->pattern[p->regions] = take(&pattern, 8);
            p->area[p->regions++] = f.area;
        }
        last = tag;
        at += 3 + f.body_length;
    }
    return 0;
}

/* Writes what program `card` has to print for a file that was refused so, or else for its parts, laid out where they are lent. Gives how long it is; 0 where a
 * byte was not kept, or an answer has what it does not use. */
static size_t text_of_parts(const parts *p, uint8_t refusal, char *out) {
    size_t i, n = 0;
    rundhefja_layout_result l;
    if (refusal == 0) {
        lend_circles(&circles, p->circle, p->circles * CIRCLE_BYTES);
        lend(&masks, p->mask, p->regions * sizeof *p->mask);
        lend_doubles(&areas, p->area, p->regions * sizeof *p->area);
        if (!lay_out(p->factor, RUNDHEFJA_PROPORTION, &l)) return 0;
        refusal = l.refusal;
    }
    if (refusal != 0) return sprintf(out, "refused %u\n", refusal);
    n += sprintf(out, "circles %zu clusters %zu moved %016" PRIx64 " padding %016" PRIx64 "\n", p->circles, l.count, l.moved, bits(l.padding));
    for (i = 0; i < p->circles; i++) {
        rundhefja_circle c = circle_at(i);
        n += sprintf(out + n, "%zu %u %016" PRIx64 " %016" PRIx64, i, l.numbers[i], bits(c.center.x), bits(c.center.y));
        n += sprintf(out + n, " %016" PRIx64 " %u\n", bits(c.radius), c.ink);
    }
    return n;
}

/* Whether a call wrote these bytes to a list and nothing behind them, or, where the list is too short, gave 15 and wrote nothing. */
static int is_written(rundhefja_written w, const lent *l, const void *bytes, size_t length) {
    if (l->size < length) return w.refusal == 15 && w.length == 0 && kept(l, 0);
    return w.refusal == 0 && w.length == length && memcmp(l->now.bytes + GUARD, bytes, length) == 0 && kept(l, length);
}

/* The text of the lent file, in a list of that much room. */
static int is_text(const void *bytes, size_t length, size_t room) {
    static const uint8_t blank[RUNDHEFJA_MAX_TEXT];
    rundhefja_written w;
    lend(&text, blank, room);
    w = rundhefja_card_text(run(&file), file.size, run(&text), text.size);
    return is_written(w, &text, bytes, length) && kept(&file, 0);
}

/* How many card files were read, and how many of them were written again. */
static unsigned long files_read, files_back;

/* Writes the lent file again from its parts: to a list that just fits, to one with a byte to spare, and to one that lacks a byte. What is lent to be written has
 * none of the file's bytes at its place, so that each byte that is written is seen. */
static int written_again(const parts *p) {
    static uint8_t other[ROOM];
    const uint8_t *bytes = run(&file);
    const size_t rooms[] = {file.size, file.size + 1, file.size - 1};
    size_t i;
    int same = 1;
    for (i = 0; i < file.size; i++) other[i] = ~bytes[i];
    lend_circles(&circles, p->circle, p->circles * CIRCLE_BYTES);
    lend(&masks, p->mask, p->regions * sizeof *p->mask);
    lend(&patterns, p->pattern, p->regions * sizeof *p->pattern);
    for (i = 0; i < sizeof rooms / sizeof *rooms; i++) {
        rundhefja_written w;
        lend(&output, other, rooms[i]);
        w = rundhefja_write_card(run(&circles), p->circles, p->factor, run(&masks), p->regions, run(&patterns), p->regions, run(&output), output.size);
        same &= is_written(w, &output, bytes, file.size) && kept(&circles, 0) && kept(&masks, 0) && kept(&patterns, 0);
    }
    files_read++;
    files_back += same;
    return same;
}

/* Whether the writer refuses the parts with this number, whatever room it has, and writes nothing. */
static int writer_refuses(const parts *p, unsigned number) {
    static const uint8_t blank[RUNDHEFJA_MAX_FILE];
    const size_t rooms[] = {0, sizeof blank};
    size_t i;
    lend_circles(&circles, p->circle, p->circles * CIRCLE_BYTES);
    lend(&masks, p->mask, p->regions * sizeof *p->mask);
    lend(&patterns, p->pattern, p->regions * sizeof *p->pattern);
    for (i = 0; i < sizeof rooms / sizeof *rooms; i++) {
        rundhefja_written w;
        lend(&output, blank, rooms[i]);
        w = rundhefja_write_card(run(&circles), p->circles, p->factor, run(&masks), p->regions, run(&patterns), p->regions, run(&output), output.size);
        if (w.refusal != number || w.length != 0 || !kept(&output, 0) || !kept(&circles, 0) || !kept(&masks, 0) || !kept(&patterns, 0)) return 0;
    }
    return 1;
}

/* Lends the file anew, with every area a signalling NaN that has digits of its own. Each region has 19 bytes at the file's end, the area the last 8 of them. */
static void lend_with_nans(size_t regions) {
    static uint8_t bytes[ROOM];
    const size_t size = file.size;
    size_t i;
    memcpy(bytes, run(&file), size);
    for (i = 0; i < regions; i++) {
        const uint64_t nan = (i % 2 == 0 ? SIGN : 0) + INFINITE + i + 1;
        memcpy(bytes + size - 19 * i - sizeof nan, &nan, sizeof nan);
    }
    lend(&file, bytes, size);
}

/* The length of the file, the file; the text. It is held twice: to the text that the library gives, and to that of the parts. A file that is read is written
 * again from its parts, and so is one with other areas; values that are refused in a file, the writer refuses with the same number. */
static int card(record *r) {
    static char by_parts[2 * RUNDHEFJA_MAX_TEXT];
    static parts p;
    size_t length = take(r, 2);
    const void *expected;
    uint8_t in_fields;
    unsigned number;
    if (!lend_next(lend, &file, r, length)) return 0;
    length = left(r);
    expected = r->bytes + r->at;
    if (length == 0 || length > RUNDHEFJA_MAX_TEXT || !is_text(expected, length, RUNDHEFJA_MAX_TEXT) || !is_text(expected, length, length - 1)) return 0;
    in_fields = take_apart(&p);
    if (text_of_parts(&p, in_fields, by_parts) != length || memcmp(by_parts, expected, length) != 0 || !kept(&file, 0)) return 0;
    if (sscanf(by_parts, "refused %u", &number) == 1) return in_fields != 0 || writer_refuses(&p, number);
    if (!written_again(&p)) return 0;
    lend_with_nans(p.regions);
    return take_apart(&p) == 0 && written_again(&p);
}

/* ---- the list */

static const struct {
    const char *name;
    int (*agrees)(record *);
} kinds[] = {
    {"malformed", NULL},
    {"distance", distance},
    {"two circles", two_circles},
    {"circle and point", circle_and_point},
    {"clusters of circles", clusters},
    {"clusters by areas", area_clusters},
    {"boxes and lift", boxes},
    {"columns", columns},
    {"packing", pack},
    {"container", container},
    {"whole cards", card},
    {"whole layouts", layout},
    {"charges", charge},
    {"hypot", NULL},
    {"fields", field},
    {"touches", touches},
};

/* The hypot of any two numbers is no call of the interface: records of it are left out. */
enum { KINDS = sizeof kinds / sizeof *kinds, LEFT_OUT = 13 };

static unsigned long seen[KINDS], agreed[KINDS];

static int print(size_t kind) {
    printf("%s %lu of %lu\n", kinds[kind].name, agreed[kind], seen[kind]);
    return agreed[kind] != seen[kind];
}

/* A record of no known kind, or one that is cut, is malformed: kind 0. */
int main(void) {
    static uint8_t body[ROOM];
    uint8_t head[3];
    size_t got, kind;
    int wrong = 0;
    while ((got = fread(head, 1, sizeof head, stdin)) > 0) {
        record r = {body, 0, 0};
        r.length = head[1] + 256 * (size_t)head[2];
        kind = got == sizeof head && fread(body, 1, r.length, stdin) == r.length && head[0] < KINDS ? head[0] : 0;
        if (kind == LEFT_OUT) continue;
        seen[kind]++;
        agreed[kind] += kind > 0 && kinds[kind].agrees(&r);
    }
    for (kind = 1; kind < KINDS; kind++) {
        if (kind != LEFT_OUT) wrong |= print(kind);
    }
    wrong |= print(0);
    printf("inks %lu of %lu\n", inks_back, inks_lent);
    printf("written %lu of %lu\n", files_back, files_read);
    return wrong | (inks_back != inks_lent) | (files_back != files_read);
}
