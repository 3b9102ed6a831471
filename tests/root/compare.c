// Compares the root with the machine's, bit by bit, and times both.
//   compare COUNT        COUNT random patterns of each kind, and the edges
//   compare list COUNT   writes the list that the program root_replay reads: some edges, then random patterns, COUNT lines in all
#include <inttypes.h>
#include <stdint.h>
#include <stdio.h>
#include <stdlib.h>
#include <string.h>
#include <time.h>

#include "rundhefja.h"

enum { REFUSED = 12 };

#define SIGN UINT64_C(0x8000000000000000)
#define INFINITE UINT64_C(0x7ff0000000000000)
#define DIGITS UINT64_C(0x000fffffffffffff)
#define ONE UINT64_C(0x3ff0000000000000)

static double of(uint64_t b) { double x; memcpy(&x, &b, 8); return x; }
static uint64_t bits(double x) { uint64_t b; memcpy(&b, &x, 8); return b; }

// The machine's instruction itself, so that no library stands between.
static inline double machine_root(double x) { double r; __asm__ volatile("sqrtsd %1, %0" : "=x"(r) : "x"(x)); return r; }

// The same numbers on every run.
static uint64_t state = UINT64_C(0x9e3779b97f4a7c15);
static uint64_t random_bits(void) {
    state ^= state << 13;
    state ^= state >> 7;
    state ^= state << 17;
    return state * UINT64_C(0x2545f4914f6cdd1d);
}

static int is_refused(double x) { return x != x || x < 0.0; }

static uint64_t agreed, differing;

static void compare(uint64_t b) {
    double x = of(b);
    rundhefja_length root = rundhefja_root(x);
    uint64_t got = bits(root.value);
    uint8_t want_refusal = is_refused(x) ? REFUSED : 0;
    uint64_t want = is_refused(x) ? 0 : bits(machine_root(x));
    if (root.refusal == want_refusal && got == want) {
        agreed++;
        return;
    }
    differing++;
    if (differing <= 10)
        printf("differs at %016" PRIx64 ": %u %016" PRIx64 ", the machine %u %016" PRIx64 "\n", b, root.refusal, got, want_refusal, want);
}

static void around(void (*use)(uint64_t), uint64_t b) { use(b - 1); use(b); use(b + 1); }

// The root's own rounding boundaries: the f64 next to the square of an odd number of 54 digits, which is half-way between two of 53; then times a power of 4.
static uint64_t half_way(void) {
    uint64_t q = (UINT64_C(1) << 53) | (random_bits() >> 11) | 1;
    uint64_t b = bits((double)((long double)q * (long double)q));
    uint64_t field = 1 + ((b >> 52) - 1 + 2 * (random_bits() % 1023)) % 2046;
    return (b & DIGITS) | (field << 52);
}

// Every sign and exponent, so every power of two and of four with its neighbours, with no digits, all, one, and runs of ones from either end.
static void compare_edges(void) {
    for (uint64_t field = 0; field < 4096; field++)
        for (int j = 0; j <= 52; j++) {
            uint64_t run = (UINT64_C(1) << j) - 1;
            uint64_t base = field << 52;
            around(compare, base | run);
            around(compare, base | (DIGITS ^ run));
            if (j < 52) around(compare, base | (UINT64_C(1) << j));
        }
    // From both ends of the subnormals, from the largest, and about 1, 2 and 4.
    for (uint64_t k = 0; k < 100000; k++) {
        compare(k);
        compare(DIGITS - k);
        compare(INFINITE - k);
        compare(INFINITE + k);
        compare(SIGN + k);
        compare(SIGN - k);
        compare((SIGN | INFINITE) + k);
        compare((SIGN | INFINITE) - k);
        compare(ONE + k);
        compare(ONE - k);
        compare(bits(2.0) - k);
        compare(bits(4.0) - k);
    }
    // Whole squares, where the root is exact.
    for (uint64_t k = 1; k < 500000; k++) around(compare, bits((double)k * (double)k));
}

static void compare_random(long count) {
    for (long k = 0; k < count; k++) compare(random_bits());
    for (long k = 0; k < count; k++) compare(random_bits() % INFINITE);
    for (long k = 0; k < count / 10; k++) compare((random_bits() & DIGITS) >> random_bits() % 52);
    for (long k = 0; k < count / 10; k++) around(compare, half_way());
}

// ---- the list: pattern and answer, 16 hexadecimal digits each. A refusal stands as a NaN's pattern with its number in the digits.
static long written;
static void write_line(uint64_t b) {
    double x = of(b);
    uint64_t answer = is_refused(x) ? UINT64_C(0x7ff8000000000000) + REFUSED : bits(machine_root(x));
    printf("%016" PRIx64 " %016" PRIx64 "\n", b, answer);
    written++;
}

static void write_list(long count) {
    uint64_t fixed[] = {0, SIGN, 1, 2, 3, 4, DIGITS, DIGITS + 1, DIGITS + 2, INFINITE - 1, INFINITE, INFINITE + 1, SIGN - 1, SIGN + 1, SIGN | ONE, SIGN | INFINITE, UINT64_MAX,
                        UINT64_C(0x7ff8000000000000), ONE - 1, ONE, ONE + 1, bits(2.0), bits(3.0), bits(4.0) - 1, bits(4.0), bits(4.0) + 1, bits(1e300), bits(1e-300)};
    for (size_t i = 0; i < sizeof fixed / sizeof *fixed; i++) write_line(fixed[i]);
    for (int j = 3; j < 52; j++) write_line(UINT64_C(1) << j);
    for (uint64_t field = 5; field < 2047; field += 31) { write_line(field << 52); write_line((field << 52) | DIGITS); }
    while (written < count) {
        write_line(half_way());
        if (written < count) write_line(random_bits() % INFINITE);
        if (written < count) write_line((random_bits() & DIGITS) >> random_bits() % 40);
    }
}

// ---- the time of one call, over numbers that come in no order
static double now(void) { struct timespec t; clock_gettime(CLOCK_MONOTONIC, &t); return t.tv_sec * 1e9 + t.tv_nsec; }

enum { NUMBERS = 4096, TURNS = 20, ROUNDS = 100 };
static double numbers[NUMBERS];
static volatile double sink;

static double time_ours(void) {
    double sum = 0, start = now();
    for (int r = 0; r < TURNS; r++) for (int i = 0; i < NUMBERS; i++) sum += rundhefja_root(numbers[i]).value;
    sink = sum;
    return (now() - start) / TURNS / NUMBERS;
}

static double time_machine(void) {
    double sum = 0, start = now();
    for (int r = 0; r < TURNS; r++) for (int i = 0; i < NUMBERS; i++) sum += machine_root(numbers[i]);
    sink = sum;
    return (now() - start) / TURNS / NUMBERS;
}

// The fastest of many rounds of each, in turn: what else the machine does can only add to a round.
static void print_times(const char *name) {
    double ours = time_ours(), machine = time_machine();
    for (int r = 1; r < ROUNDS; r++) {
        double a = time_ours(), b = time_machine();
        if (a < ours) ours = a;
        if (b < machine) machine = b;
    }
    printf("root of %-12s %5.1f ns a call, the machine's %5.1f ns, ratio %.1f\n", name, ours, machine, ours / machine);
}

int main(int argc, char **argv) {
    if (argc > 2 && !strcmp(argv[1], "list")) {
        write_list(atol(argv[2]));
        return 0;
    }
    long count = argc > 1 ? atol(argv[1]) : 10000000;
    compare_edges();
    compare_random(count);
    printf("root: %" PRIu64 " of %" PRIu64 " patterns agree with the machine\n", agreed, agreed + differing);
    for (int i = 0; i < NUMBERS; i++) numbers[i] = of(ONE + (random_bits() >> 11));
    print_times("1 to 4");
    for (int i = 0; i < NUMBERS; i++) numbers[i] = of(random_bits() % INFINITE);
    print_times("any positive");
    for (int i = 0; i < NUMBERS; i++) numbers[i] = of(random_bits() & DIGITS);
    print_times("a subnormal");
    return differing != 0;
}
