/* Lays out a card of four inks and prints where each circle goes, with the ink's number in the recipe book, what the card stock costs, and which inks lie under
 * two touches of the card. */
#include <stdio.h>

#include "rundhefja.h"

#define INKS 4
#define CENTS 3 /* for each hundred square millimetres of stock that is started */

int main(void) {
    static const char *names[INKS] = {"ocean", "teal", "rust", "sand"};
    /* centre and radius in millimetres, and the ink's number */
    rundhefja_circle inks[INKS] = {{{0, 0}, 20, 4107}, {{2, 1}, 5, 4112}, {{60, 10}, 15, 2215}, {{75, 30}, 12, 2230}};
    /* ocean alone, ocean and teal, rust alone, sand alone, rust and sand */
    const uint64_t masks[] = {1, 3, 4, 8, 12};
    const double areas[] = {1178, 78, 640, 390, 60};
    /* where the panel was touched, and what lies there */
    const rundhefja_point touches[] = {{-20, 0}, {25, 2}};
    uint64_t under[2];
    int i;

    /* the charge reads the circles as they are handed in, so it comes before the layout, which rewrites them */
    rundhefja_charge stock = rundhefja_card_stock(inks, INKS, 0.1, masks, 5, areas, 5, RUNDHEFJA_PROPORTION, CENTS);
    rundhefja_layout_result r = rundhefja_layout(inks, INKS, 0.1, masks, 5, areas, 5, RUNDHEFJA_PROPORTION);
    if (stock.refusal != 0) { /* all that a layout is refused for, and a bad price */
        printf("refused %d\n", stock.refusal);
        return 1;
    }
    printf("%d groups, %.3f mm apart\n", (int)r.count, r.padding);
    for (i = 0; i < INKS; i++) {
        printf("ink %d, %-5s group %d at %8.3f %8.3f radius %g%s\n", inks[i].ink, names[i], r.numbers[i], inks[i].center.x, inks[i].center.y, inks[i].radius,
               r.moved >> i & 1 ? ", moved off its parent's centre" : "");
    }
    printf("card stock %lu cents\n", (unsigned long)stock.amount);

    /* a card this small stays in the range of a touch */
    if (rundhefja_touch_points(inks, INKS, touches, 2, under, 2) != 0) return 1;
    for (i = 0; i < 2; i++) {
        int j;
        printf("under %g %g:", touches[i].x, touches[i].y);
        for (j = 0; j < INKS; j++) {
            if (under[i] >> j & 1) printf(" %s", names[j]);
        }
        printf("\n");
    }
    return 0;
}
