/* Measures the stack of the calls that need most, each at its largest, and fails where one uses more than rundhefja.h says. A thread makes each call on a painted
 * stack: where the paint is whole, nothing was touched. A thread that calls nothing tells what the thread itself takes. */
#define _POSIX_C_SOURCE 200809L
#include <pthread.h>
#include <stdio.h>
#include <stdlib.h>
#include <string.h>

#include "rundhefja.h"

#define STACK ((size_t)1 << 20)
#define PAINT 0xa5
#define PROPORTION 4 /* most columns, which are counted and not looked up */

static rundhefja_circle circles[RUNDHEFJA_MAX_CIRCLES];
static uint64_t masks[RUNDHEFJA_MAX_REGIONS], patterns[RUNDHEFJA_MAX_REGIONS];
static double areas[RUNDHEFJA_MAX_REGIONS];
static uint8_t card[RUNDHEFJA_MAX_INPUT], text[RUNDHEFJA_MAX_TEXT], written[RUNDHEFJA_MAX_FILE];
static rundhefja_rectangle boxes[RUNDHEFJA_MAX_CIRCLES];
static rundhefja_point points[RUNDHEFJA_MAX_POINTS];
static uint64_t answers[RUNDHEFJA_MAX_POINTS];
static size_t card_length;
static int refusal;

/* ---- the largest inputs: every circle has a region of its own, and shares others */

static void fill(void) {
    size_t i;
    for (i = 0; i < RUNDHEFJA_MAX_CIRCLES; i++) {
        circles[i].center.x = 7.0 * (i % 8);
        circles[i].center.y = 7.0 * (i / 8);
        circles[i].radius = 3.0 + i % 3;
        circles[i].ink = 65535 - i;
        boxes[i].width = 1.0 + i % 5;
        boxes[i].height = 1.0 + i % 7;
    }
    for (i = 0; i < RUNDHEFJA_MAX_POINTS; i++) {
        points[i].x = 2.0 * (i % 32);
        points[i].y = 2.0 * (i / 32);
    }
    for (i = 0; i < RUNDHEFJA_MAX_REGIONS; i++) {
        masks[i] = i * UINT64_C(0x1f0000001f0003) + 1;
        areas[i] = 1;
    }
    memcpy(patterns, areas, sizeof patterns);
}

static void put(const void *bytes, size_t n) {
    memcpy(card + card_length, bytes, n);
    card_length += n;
}

static void put_head(uint8_t tag, uint8_t length) {
    uint8_t head[3] = {0, 0, 0};
    head[0] = tag;
    head[1] = length;
    put(head, 3);
}

static void fill_card(void) {
    const double factor = 0.5;
    size_t i;
    card_length = 0;
    put_head(1, 8);
    put(&factor, 8);
    for (i = 0; i < RUNDHEFJA_MAX_CIRCLES; i++) {
        put_head(2, 26);
        put(&circles[i], 26);
    }
    for (i = 0; i < RUNDHEFJA_MAX_REGIONS; i++) {
        put_head(3, 16);
        put(&masks[i], 8);
        put(&areas[i], 8);
    }
}

/* ---- the calls */

static void *nothing(void *unused) { return unused; }

static void *layout(void *unused) {
    refusal = rundhefja_layout(circles, RUNDHEFJA_MAX_CIRCLES, 0.5, masks, RUNDHEFJA_MAX_REGIONS, areas, RUNDHEFJA_MAX_REGIONS, PROPORTION).refusal;
    return unused;
}

/* Every circle in a cluster of its own, so that the grid is as full as it can be. */
static void *apart(void *unused) {
    refusal = rundhefja_layout(circles, RUNDHEFJA_MAX_CIRCLES, 0.5, masks, 0, areas, 0, PROPORTION).refusal;
    return unused;
}

static void *card_stock(void *unused) {
    refusal = rundhefja_card_stock(circles, RUNDHEFJA_MAX_CIRCLES, 0.5, masks, RUNDHEFJA_MAX_REGIONS, areas, RUNDHEFJA_MAX_REGIONS, PROPORTION, 1).refusal;
    return unused;
}

static void *card_stock_apart(void *unused) {
    refusal = rundhefja_card_stock(circles, RUNDHEFJA_MAX_CIRCLES, 0.5, masks, 0, areas, 0, PROPORTION, 1).refusal;
    return unused;
}

static void *container(void *unused) {
    const rundhefja_rectangle r = {{1, 1}, 100, 100};
    refusal = rundhefja_container(circles, RUNDHEFJA_MAX_CIRCLES, r).refusal;
    return unused;
}

static void *clusters(void *unused) {
    refusal = rundhefja_clusters(circles, RUNDHEFJA_MAX_CIRCLES).refusal;
    return unused;
}

static void *area_clusters(void *unused) {
    refusal = rundhefja_area_clusters(RUNDHEFJA_MAX_CIRCLES, masks, RUNDHEFJA_MAX_REGIONS, areas, RUNDHEFJA_MAX_REGIONS, 0).refusal;
    return unused;
}

static void *pack(void *unused) {
    refusal = rundhefja_pack(boxes, RUNDHEFJA_MAX_CIRCLES, 1, PROPORTION).refusal;
    return unused;
}

static void *touch_points(void *unused) {
    refusal = rundhefja_touch_points(circles, RUNDHEFJA_MAX_CIRCLES, points, RUNDHEFJA_MAX_POINTS, answers, RUNDHEFJA_MAX_POINTS);
    return unused;
}

static void *write_card(void *unused) {
    const rundhefja_written w =
        rundhefja_write_card(circles, RUNDHEFJA_MAX_CIRCLES, 0.5, masks, RUNDHEFJA_MAX_REGIONS, patterns, RUNDHEFJA_MAX_REGIONS, written, sizeof written);
    refusal = w.refusal != 0 || w.length != card_length || memcmp(written, card, card_length) != 0;
    return unused;
}

static void *card_text(void *unused) {
    const rundhefja_written w = rundhefja_card_text(card, card_length, text, sizeof text);
    refusal = w.refusal != 0 || w.length < 100; /* "refused K" is shorter */
    return unused;
}

/* More regions than a card may have. */
static void *long_text(void *unused) {
    const rundhefja_written w = rundhefja_card_text(card, sizeof card, text, sizeof text);
    refusal = w.refusal != 0 || w.length >= 100;
    return unused;
}

/* ---- measuring */

static size_t used(void *(*call)(void *)) {
    unsigned char *stack;
    void *block;
    pthread_attr_t attributes;
    pthread_t thread;
    size_t untouched = 0;
    if (posix_memalign(&block, 4096, STACK) != 0) exit(2);
    stack = block;
    memset(stack, PAINT, STACK);
    if (pthread_attr_init(&attributes) != 0 || pthread_attr_setstack(&attributes, stack, STACK) != 0) exit(2);
    if (pthread_create(&thread, &attributes, call, NULL) != 0 || pthread_join(thread, NULL) != 0) exit(2);
    while (untouched < STACK && stack[untouched] == PAINT) untouched++;
    free(block);
    return STACK - untouched;
}

static const struct {
    const char *name;
    void *(*call)(void *);
    size_t limit;
} calls[] = {
    {"a layout of 64 circles and 2,048 regions", layout, RUNDHEFJA_STACK},
    {"a layout of 64 clusters", apart, RUNDHEFJA_STACK},
    {"the charge for 64 circles and 2,048 regions", card_stock, RUNDHEFJA_STACK},
    {"the charge for 64 clusters", card_stock_apart, RUNDHEFJA_STACK},
    {"a container of 64 circles", container, RUNDHEFJA_STACK},
    {"clusters of 64 circles", clusters, RUNDHEFJA_STACK},
    {"clusters by 2,048 regions", area_clusters, RUNDHEFJA_STACK},
    {"packing of 64 rectangles", pack, RUNDHEFJA_STACK},
    {"1,024 touch points over 64 circles", touch_points, RUNDHEFJA_STACK},
    {"the file of a card of 64 circles and 2,048 regions", write_card, RUNDHEFJA_STACK},
    {"the text of a card of 64 circles and 2,048 regions", card_text, RUNDHEFJA_STACK_CARD_TEXT},
    {"the text of an input of 65,536 bytes", long_text, RUNDHEFJA_STACK_CARD_TEXT},
};

int main(void) {
    size_t i, thread = used(nothing);
    int wrong = 0;
    for (i = 0; i < sizeof calls / sizeof *calls; i++) {
        size_t bytes;
        fill();
        fill_card();
        bytes = used(calls[i].call) - thread;
        printf("stack: %-50s %6lu bytes of %lu\n", calls[i].name, (unsigned long)bytes, (unsigned long)calls[i].limit);
        if (refusal != 0) printf("wrong: the call was answered otherwise\n");
        if (bytes > calls[i].limit) printf("wrong: more than the header says\n");
        wrong |= refusal != 0 || bytes > calls[i].limit;
    }
    return wrong;
}
