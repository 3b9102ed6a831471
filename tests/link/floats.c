/* Runs rundhefja_floats_ok in the state that the program starts in, which the argument says, yes or no, and in each other state. C99 and C++. */
#include <fenv.h>
#include <stdio.h>
#include <string.h>
#include <xmmintrin.h>

#include "rundhefja.h"

/* The bits of the control register that make 0 of subnormals: those that are read, and those that come out. */
#define READ_AS_0 0x0040u
#define WRITTEN_AS_0 0x8000u

static int wrong = 0;

static void check(bool said, bool due, const char *what) {
    if (said != due) {
        printf("wrong: %s: the floats are said to be %s\n", what, said ? "right" : "not right");
        wrong = 1;
    }
}

int main(int count, char **words) {
    const struct {
        int mode;
        const char *name;
    } modes[] = {{FE_UPWARD, "upward"}, {FE_DOWNWARD, "downward"}, {FE_TOWARDZERO, "towards 0"}};
    size_t i;
    check(rundhefja_floats_ok(), count > 1 && strcmp(words[1], "yes") == 0, "at the start");
    _mm_setcsr(_mm_getcsr() & ~(READ_AS_0 | WRITTEN_AS_0));
    for (i = 0; i < sizeof modes / sizeof *modes; i++) {
        fesetround(modes[i].mode);
        check(rundhefja_floats_ok(), false, modes[i].name);
        fesetround(FE_TONEAREST);
        check(rundhefja_floats_ok(), true, "to nearest");
    }
    _mm_setcsr(_mm_getcsr() | READ_AS_0);
    check(rundhefja_floats_ok(), false, "subnormals read as 0");
    _mm_setcsr((_mm_getcsr() & ~READ_AS_0) | WRITTEN_AS_0);
    check(rundhefja_floats_ok(), false, "subnormals written as 0");
    return wrong;
}
