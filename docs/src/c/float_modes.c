/* float_modes JOB: what vintuqay_default_floats says in each floating-point mode, and which calls on JOB, a
 * chain, leave other bits there than in the default mode. Ends with status 1 where a mode is told wrongly,
 * or where no call leaves other bits in a mode that is told. */
#include "vintuqay.h"
#include <fenv.h>
#include <stdio.h>
#include <xmmintrin.h>

enum { FTZ = 0x8000, DAZ = 0x0040 }; /* of MXCSR */

static const struct mode {
    const char *name;
    int rounding;
    unsigned flush;
} modes[] = {
    {"to nearest", FE_TONEAREST, 0}, /* the default */
    {"upward", FE_UPWARD, 0},
    {"downward", FE_DOWNWARD, 0},
    {"toward zero", FE_TOWARDZERO, 0},
    {"FTZ", FE_TONEAREST, FTZ},
    {"DAZ", FE_TONEAREST, DAZ},
    {"FTZ and DAZ", FE_TONEAREST, FTZ | DAZ},
};
enum { MODES = sizeof modes / sizeof modes[0] };

/* What one call left; a struct without gaps, so that its bytes can be compared. */
enum { ROOT, SET_VALVE, RUN_ON, CALLS };
static const char *const call_names[CALLS] = {"root", "set_valve", "run_on"};
struct rows {
    uint64_t answer;
    double h[VINTUQAY_SECTIONS], q[VINTUQAY_SECTIONS], high[VINTUQAY_SECTIONS], low[VINTUQAY_SECTIONS];
    double v[VINTUQAY_NODES], inflow[VINTUQAY_NODES];
    double spare[VINTUQAY_SPARE_PER_PIPE * VINTUQAY_PIPES], number;
};
static struct rows left[MODES][CALLS];

static uint8_t job[VINTUQAY_JOB_BYTES];
static size_t used;

static void set_mode(const struct mode *mode) {
    fesetround(mode->rounding);
    _mm_setcsr((_mm_getcsr() & ~(unsigned)(FTZ | DAZ)) | mode->flush);
}

static uint64_t set_valve(struct rows *r, double discharge) {
    return vintuqay_set_valve(job, used, 60, discharge, r->h, VINTUQAY_SECTIONS, r->q, VINTUQAY_SECTIONS, &r->number);
}

/* Roots of 2 and of a subnormal; the valve set for 40 l/s, for the least normal discharge and for a subnormal
 * one; the run of the job, all its steps. */
static void make_calls(struct rows *r) {
    uint32_t steps = vintuqay_steps(vintuqay_read(job, used));
    r[ROOT].h[0] = vintuqay_root(2);
    r[ROOT].h[1] = vintuqay_root(vintuqay_double_of(3));
    r[SET_VALVE].answer = set_valve(&r[SET_VALVE], 0.04);
    r[SET_VALVE].high[0] = r[SET_VALVE].number;
    r[SET_VALVE].answer |= set_valve(&r[SET_VALVE], vintuqay_double_of(UINT64_C(1) << 52)) << 8;
    r[SET_VALVE].high[1] = r[SET_VALVE].number;
    r[SET_VALVE].answer |= set_valve(&r[SET_VALVE], vintuqay_double_of(UINT64_C(1) << 40)) << 16;
    r = &r[RUN_ON];
    vintuqay_start(job, used, r->h, VINTUQAY_SECTIONS, r->q, VINTUQAY_SECTIONS, r->high, VINTUQAY_SECTIONS, r->low,
                   VINTUQAY_SECTIONS, r->v, VINTUQAY_NODES, r->inflow, VINTUQAY_NODES, r->spare,
                   sizeof r->spare / sizeof r->spare[0]);
    r->answer = vintuqay_run_on(job, used, 0, steps, r->h, VINTUQAY_SECTIONS, r->q, VINTUQAY_SECTIONS, r->high,
                                VINTUQAY_SECTIONS, r->low, VINTUQAY_SECTIONS, r->v, VINTUQAY_NODES, r->inflow,
                                VINTUQAY_NODES, r->spare, sizeof r->spare / sizeof r->spare[0]);
}

int main(int count, char **words) {
    int wrong = 0;
    FILE *file = count == 2 ? fopen(words[1], "rb") : NULL;
    if (file == NULL) {
        fputs("float_modes: name a job that can be read\n", stderr);
        return 1;
    }
    used = fread(job, 1, sizeof job, file);
    fclose(file);
    for (int m = 0; m < MODES; m++) {
        set_mode(&modes[m]);
        int said = vintuqay_default_floats();
        make_calls(left[m]);
        set_mode(&modes[0]);
        printf("%s: %d, other bits by", modes[m].name, said);
        int others = 0;
        for (int call = 0; call < CALLS; call++) {
            if (memcmp(&left[m][call], &left[0][call], sizeof(struct rows)) != 0) {
                printf(" %s", call_names[call]);
                others++;
            }
        }
        printf(others == 0 ? " no call\n" : "\n");
        wrong += said != (m == 0) || (others == 0) != (m == 0);
    }
    return wrong == 0 ? 0 : 1;
}
