/* What exp and ln of libprobe.a answer, by the bits: a NaN is 7FF8000000000000, whatever NaN was given and wherever it came
 * from. Nothing reads the answer before this program does. */
#include <inttypes.h>
#include <stdio.h>
#include <string.h>

#ifdef __cplusplus
extern "C" {
#endif
double brothanchor_probe_exp(double x);
double brothanchor_probe_ln(double v);
#ifdef __cplusplus
}
#endif

enum { EXP, LN, FUNCTIONS };
static const char *const names[FUNCTIONS] = {"exp", "ln"};
static double (*const functions[FUNCTIONS])(double) = {brothanchor_probe_exp, brothanchor_probe_ln};

static const uint64_t the_nan = UINT64_C(0x7ff8000000000000);
static const uint64_t sign = UINT64_C(0x8000000000000000);
static unsigned long looked_at, wrong;

/* One argument by its bits, and the bits that the answer has to have. */
static void look(int function, uint64_t argument, uint64_t wanted) {
    double x, y;
    uint64_t answer;
    memcpy(&x, &argument, sizeof x);
    y = functions[function](x);
    memcpy(&answer, &y, sizeof answer);
    looked_at++;
    if (answer != wanted && wrong++ < 10) {
        printf("%s of %016" PRIx64 " is %016" PRIx64 " and not %016" PRIx64 "\n", names[function], argument, answer, wanted);
    }
}

/* A NaN with this payload, of both signs, quiet and signalling, given to both functions. */
static void look_at_nan(uint64_t payload) {
    uint64_t quiet = the_nan | (payload & UINT64_C(0x0007ffffffffffff));
    uint64_t signalling = (quiet & ~UINT64_C(0x0008000000000000)) | 1;
    int function;
    for (function = 0; function < FUNCTIONS; function++) {
        look(function, quiet, the_nan);
        look(function, quiet | sign, the_nan);
        look(function, signalling, the_nan);
        look(function, signalling | sign, the_nan);
    }
}

int main(void) {
    uint64_t infinity = UINT64_C(0x7ff0000000000000), one = UINT64_C(0x3ff0000000000000), word = 1;
    int i;
    /* numbers, so that it is these functions that are looked at */
    look(EXP, 0, one);
    look(EXP, sign, one);
    look(EXP, one, UINT64_C(0x4005bf0a8b14576a));
    look(EXP, infinity, infinity);
    look(EXP, infinity | sign, 0);
    /* -708, -720, -745 and the next below it: subnormal answers are not made zero */
    look(EXP, UINT64_C(0xc086200000000000), UINT64_C(0x0017c8ab2288c9ac));
    look(EXP, UINT64_C(0xc086800000000000), UINT64_C(0x993b4dc95));
    look(EXP, UINT64_C(0xc087480000000000), 1);
    look(EXP, UINT64_C(0xc087480000000001), 0);
    look(LN, one, 0);
    look(LN, UINT64_C(0x4000000000000000), UINT64_C(0x3fe62e42fefa39ef));
    look(LN, infinity, infinity);
    /* NaNs that come of numbers */
    look(LN, 0, the_nan);
    look(LN, sign, the_nan);
    look(LN, one | sign, the_nan);
    look(LN, 1 | sign, the_nan);
    look(LN, infinity | sign, the_nan);
    /* NaNs that are given: each bit of a payload, all of them, none, and some thousands by chance */
    look_at_nan(0);
    look_at_nan(~UINT64_C(0));
    for (i = 0; i < 51; i++) look_at_nan(UINT64_C(1) << i);
    for (i = 0; i < 4000; i++) {
        word = word * UINT64_C(6364136223846793005) + UINT64_C(1442695040888963407);
        look_at_nan(word >> 13);
    }
    printf("%lu answers, %lu of them with other bits\n", looked_at, wrong);
    return wrong != 0;
}
