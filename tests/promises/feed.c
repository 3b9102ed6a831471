/* Lays out each card that comes on standard input, and writes the answer before it reads the next. tests/promises/check judges the answers.
 *
 * A card is a head, so many circles, so many masks and so many areas; an answer is a record and the circles. All are as they lie in memory, which on x86-64 is
 * little-endian: a circle is three doubles and eight bytes that start with its ink. */
#include <stdio.h>
#include <string.h>

#include "rundhefja.h"

typedef struct {
    uint64_t circles, regions;
    double factor, proportion;
} card;

typedef struct {
    uint64_t refusal, count, moved;
    double padding;
    uint8_t numbers[RUNDHEFJA_MAX_CIRCLES];
} answer;

static int take(void *to, size_t size, size_t many) { return fread(to, size, many, stdin) == many; }

static int give(const void *from, size_t size, size_t many) { return fwrite(from, size, many, stdout) == many; }

int main(void) {
    static rundhefja_circle circles[RUNDHEFJA_MAX_CIRCLES];
    static uint64_t masks[RUNDHEFJA_MAX_REGIONS];
    static double areas[RUNDHEFJA_MAX_REGIONS];
    card c;
    if (!rundhefja_floats_ok()) return 1;
    while (take(&c, sizeof c, 1)) {
        rundhefja_layout_result l;
        answer a;
        if (c.circles > RUNDHEFJA_MAX_CIRCLES || c.regions > RUNDHEFJA_MAX_REGIONS) return 1;
        if (!take(circles, sizeof *circles, c.circles) || !take(masks, sizeof *masks, c.regions) || !take(areas, sizeof *areas, c.regions)) return 1;
        l = rundhefja_layout(circles, c.circles, c.factor, masks, c.regions, areas, c.regions, c.proportion);
        a.refusal = l.refusal;
        a.count = l.count;
        a.moved = l.moved;
        a.padding = l.padding;
        memcpy(a.numbers, l.numbers, sizeof a.numbers);
        if (!give(&a, sizeof a, 1) || !give(circles, sizeof *circles, c.circles) || fflush(stdout) != 0) return 1;
    }
    return !feof(stdin);
}
