/* Saves a card of four inks to a file, and lays it out from the file, as the next morning's program does. Prints what card.c prints. Usage: save [FILE] */
#include <stdio.h>
#include <string.h>

#include "rundhefja.h"

typedef struct {
    double factor;
    size_t circles, regions;
    rundhefja_circle circle[RUNDHEFJA_MAX_CIRCLES];
    uint64_t mask[RUNDHEFJA_MAX_REGIONS];
    double area[RUNDHEFJA_MAX_REGIONS];
} card;

/* ---- in the evening */

static void four_inks(card *c) {
    /* centre and radius in millimetres, and the ink's number in the recipe book */
    static const rundhefja_circle circles[] = {{{0, 0}, 20, 4107}, {{2, 1}, 5, 4112}, {{60, 10}, 15, 2215}, {{75, 30}, 12, 2230}};
    /* ocean alone, ocean and teal, rust alone, sand alone, rust and sand */
    static const uint64_t masks[] = {1, 3, 4, 8, 12};
    static const double areas[] = {1178, 78, 640, 390, 60};
    c->factor = 0.1;
    c->circles = sizeof circles / sizeof *circles;
    c->regions = sizeof masks / sizeof *masks;
    memcpy(c->circle, circles, sizeof circles);
    memcpy(c->mask, masks, sizeof masks);
    memcpy(c->area, areas, sizeof areas);
}

/* Saves the card as a layout takes it; a finished one may have circles where no file may have them. */
static int save(const card *c, const char *name) {
    static uint8_t bytes[RUNDHEFJA_MAX_FILE];
    static uint64_t patterns[RUNDHEFJA_MAX_REGIONS];
    rundhefja_written w;
    FILE *f;
    int saved;
    memcpy(patterns, c->area, c->regions * sizeof *patterns);
    w = rundhefja_write_card(c->circle, c->circles, c->factor, c->mask, c->regions, patterns, c->regions, bytes, sizeof bytes);
    if (w.refusal != 0) {
        fprintf(stderr, "the card cannot be saved: refused %d\n", w.refusal);
        return 0;
    }
    f = fopen(name, "wb");
    saved = f != NULL && fwrite(bytes, 1, w.length, f) == w.length;
    if (f != NULL && fclose(f) != 0) saved = 0;
    if (!saved) perror(name);
    return saved;
}

/* ---- the next morning */

/* Puts a field into the card: 0, or a refusal. A field knows no order and no count, so these are looked at here: the factor once and first, then circles, then
 * regions. The values are for the layout to refuse. */
static int take_field(card *c, int first, rundhefja_field_result f) {
    if (f.refusal != 0) return f.refusal;
    if (first != (f.tag == 1) || (f.tag == 2 && c->regions > 0)) return 9;
    if (f.tag == 1) c->factor = f.factor;
    if (f.tag == 2) {
        if (c->circles == RUNDHEFJA_MAX_CIRCLES) return 1;
        c->circle[c->circles++] = f.circle;
    }
    if (f.tag == 3) {
        if (c->regions == RUNDHEFJA_MAX_REGIONS) return 2;
        c->mask[c->regions] = f.mask;
        c->area[c->regions++] = f.area;
    }
    return 0;
}

static int read_bytes(const char *name, uint8_t *bytes, size_t room, size_t *length) {
    FILE *f = fopen(name, "rb");
    int read;
    *length = f != NULL ? fread(bytes, 1, room, f) : 0;
    read = f != NULL && !ferror(f);
    if (!read) perror(name);
    if (f != NULL) fclose(f);
    return read;
}

static int load(card *c, const char *name) {
    static uint8_t bytes[RUNDHEFJA_MAX_FILE + 1]; /* one more, so that a file that is too long is seen */
    size_t length, at = 0;
    int refusal;
    if (!read_bytes(name, bytes, sizeof bytes, &length)) return 0;
    if (length > RUNDHEFJA_MAX_FILE) {
        fprintf(stderr, "%s is longer than a card's file can be\n", name);
        return 0;
    }
    c->circles = 0;
    c->regions = 0;
    do {
        const rundhefja_field_result f = rundhefja_field(bytes, length, at);
        refusal = take_field(c, at == 0, f);
        if (refusal != 0) {
            fprintf(stderr, "%s cannot be read: refused %d at byte %lu\n", name, refusal, (unsigned long)at);
            return 0;
        }
        at = f.body_start + f.body_length;
    } while (at < length);
    return 1;
}

static const char *name_of(int ink) {
    switch (ink) {
    case 4107: return "ocean";
    case 4112: return "teal";
    case 2215: return "rust";
    case 2230: return "sand";
    default: return "?";
    }
}

/* Which inks lie under two touches of the finished card. */
static int touched(const card *c) {
    static const rundhefja_point touches[] = {{-20, 0}, {25, 2}};
    uint64_t under[2];
    size_t i, j;
    const uint8_t refusal = rundhefja_touch_points(c->circle, c->circles, touches, 2, under, 2);
    if (refusal != 0) {
        fprintf(stderr, "the card cannot be touched: refused %d\n", refusal);
        return 0;
    }
    for (i = 0; i < 2; i++) {
        printf("under %g %g:", touches[i].x, touches[i].y);
        for (j = 0; j < c->circles; j++) {
            if (under[i] >> j & 1) printf(" %s", name_of(c->circle[j].ink));
        }
        printf("\n");
    }
    return 1;
}

static int show(card *c) {
    /* of the circles as they were saved, at 3 cents for each hundred square millimetres that is started */
    const rundhefja_charge stock = rundhefja_card_stock(c->circle, c->circles, c->factor, c->mask, c->regions, c->area, c->regions, RUNDHEFJA_PROPORTION, 3);
    const rundhefja_layout_result r = rundhefja_layout(c->circle, c->circles, c->factor, c->mask, c->regions, c->area, c->regions, RUNDHEFJA_PROPORTION);
    size_t i;
    if (r.refusal != 0) {
        fprintf(stderr, "the card cannot be laid out: refused %d\n", r.refusal);
        return 0;
    }
    printf("%d groups, %.3f mm apart\n", (int)r.count, r.padding);
    for (i = 0; i < c->circles; i++) {
        const rundhefja_circle k = c->circle[i];
        printf("ink %d, %-5s group %d at %8.3f %8.3f radius %g%s\n", k.ink, name_of(k.ink), r.numbers[i], k.center.x, k.center.y, k.radius,
               r.moved >> i & 1 ? ", moved off its parent's centre" : "");
    }
    printf("card stock %lu cents\n", (unsigned long)stock.amount);
    return touched(c);
}

int main(int argc, char **argv) {
    static card evening, morning;
    const char *name = argc > 1 ? argv[1] : "inks.card";
    four_inks(&evening);
    return save(&evening, name) && load(&morning, name) && show(&morning) ? 0 : 1;
}
