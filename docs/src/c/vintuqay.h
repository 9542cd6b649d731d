/* Vintuqay for programs in C: the proved calls of the static library that `rt lib` in crates/c_interface
 * writes to crates/c_interface/out/libc_interface.a (x86-64 Linux).
 *
 * A slice is a pointer and a count of its elements; `job` is only read. An empty slice may have any
 * pointer. Nothing is kept after a call returns.
 *
 * What a caller owes, and no call asks:
 * - Slices lent to one call do not overlap. The place for a coefficient lies in none of them and is not
 *   null.
 * - Floating-point arithmetic (SSE on x86-64) is in the default mode: rounded to nearest, subnormal
 *   numbers kept. In another mode the calls give other bits and tell nothing. gcc and clang set such a
 *   mode for a whole program where it, or a shared library that it loads, is linked with -ffast-math:
 *   what is less than 2^-1022 in size then counts as zero. vintuqay_default_floats() tells the mode of
 *   the thread that asks.
 * - Floating-point exceptions are not trapped. The calls raise their flags; a trap would end the program.
 * - The thread that calls has VINTUQAY_STACK_BYTES of stack left. No call takes other memory. Measured, in
 *   KB: vintuqay_run_on 3.1, vintuqay_start 1.0, vintuqay_set_valve 0.4, vintuqay_read 0.3, vintuqay_root
 *   0.1, vintuqay_line 0.1; some 3 more for the first of vintuqay_run_on and vintuqay_start where memcpy
 *   or memset is looked up late. The program surgelist runs within 100.
 *
 * Calls on different slices may run in several threads at the same time: no call writes anything but
 * the slices lent to it, *coefficient and its own stack. They may lend the same `job`.
 */
#ifndef VINTUQAY_H
#define VINTUQAY_H

#include <stddef.h>
#include <stdint.h>
#include <string.h>

/* The version of these calls: the first number changes where a program would have to, the second where
 * something is added or heads come out otherwise. Since 1.1 a valve (kind 2) is an outlet into open air
 * at head b: it lets water out, and nothing back where the head of the main falls below b (B - T*b not
 * above zero; docs/MANUAL.md, 6). Since 1.2 the root is the double nearest the exact root; before, it
 * was cut down. Since 1.3 a job may have six pairs, table 6 with a 16-bit schedule count per node
 * (docs/MANUAL.md, 3); jobs of five pairs read as they did. Since 1.4 vintuqay_set_valve. Since 1.5
 * vintuqay_default_floats and VINTUQAY_STACK_BYTES. 2.0: vintuqay_start and vintuqay_run_on are lent a
 * speed and an inflow per node as well, before the spare, and a job may have seven pairs, table 7 with the
 * pumps whose power fails (docs/MANUAL.md, 3 and 6). A program written for 1.x lends two slices more and is
 * otherwise as it was; it keeps the two between calls, as it keeps heads and flows. */
#define VINTUQAY_VERSION_MAJOR 2
#define VINTUQAY_VERSION_MINOR 0

#ifdef __cplusplus
extern "C" {
#endif

/* Limits and lengths. */
enum {
    VINTUQAY_JOB_BYTES = 32768,  /* the longest job */
    VINTUQAY_PIPES = 32,         /* the most pipes of a job */
    VINTUQAY_NODES = 32,         /* the most nodes of a job */
    VINTUQAY_SECTIONS = 512,     /* the most sections of a job */
    VINTUQAY_STEPS = 1000000,    /* the most steps of a run */
    VINTUQAY_SPARE_PER_PIPE = 4, /* the values of the spare that a pipe takes */
    VINTUQAY_LINE_BYTES = 72,    /* the bytes that a listing's line asks for, and those of the longest line */
    VINTUQAY_STACK_BYTES = 8192  /* more than the stack that any call was measured to take: docs/MANUAL.md, 10 */
};

/* The number of an answer: done, the question that got a no, a stop, or none. Neither a stop nor none is
 * a refusal. */
enum vintuqay_answer {
    VINTUQAY_DONE = 0,

    /* questions to every call that takes a job, in the order in which they are asked */
    VINTUQAY_JOB_LENGTH = 1,      /* has the job 46 to 32,768 bytes? */
    VINTUQAY_PAIR_COUNT = 2,      /* are there five to seven pairs, all inside the job? */
    VINTUQAY_TABLES = 3,          /* does each table follow the last, the first the pairs, and the last end the job? */
    VINTUQAY_LISTING_STEPS = 4,   /* are the steps for the listing at most 1,000,000? */
    VINTUQAY_PIPE_TABLE = 5,      /* is table 1 whole, 1 to 32 pipes? */
    VINTUQAY_NODE_TABLE = 6,      /* is table 2 whole, 2 to 32 nodes? */
    VINTUQAY_PIPE = 7,            /* has each pipe two different nodes, both present, and 1 to 511 reaches? */
    VINTUQAY_SECTION_COUNT = 8,   /* are there at most 512 sections? */
    VINTUQAY_PIPE_CONSTANT = 9,   /* is each S finite and above zero? */
    VINTUQAY_NODE_KIND = 10,      /* is each kind 0 to 3 and, with table 6 empty, each node's byte at least 1? */
    VINTUQAY_COUNT_TABLE = 50,    /* is table 6 empty, or two bytes per node, no count 0, each node's byte 0? */
    VINTUQAY_TRIP_TABLE = 53,     /* is table 7 whole records, each of another pump, constants finite, none below 0? */
    VINTUQAY_NODE_FIGURES = 11,   /* are a, b, c finite and in range, zero bits where the kind names none? */
    VINTUQAY_NODE_END = 12,       /* has each node a pipe end? */
    VINTUQAY_FRICTION_TABLE = 13, /* has table 3 the right length, each R finite and not below zero? */
    VINTUQAY_INITIAL_TABLE = 14,  /* has table 4 the right length, all finite, no head below its floor? */
    VINTUQAY_SCHEDULE_TABLE = 15, /* has table 5 the right length, all finite and in its kind's range? */

    /* questions to the start and the run-on */
    VINTUQAY_SLICE_LENGTH = 20, /* is each slice as long as the start and the run-on say below? */
    VINTUQAY_STEP_LIMIT = 21,   /* is m at most 1,000,000 and N at most 1,000,000 - m? */
    VINTUQAY_STATE = 22,        /* are all slices but the spare finite, no head below its floor? */

    /* questions whose no vintuqay_root shows by a NaN, and vintuqay_line by 0 */
    VINTUQAY_ROOT_ARGUMENT = 23, /* is the argument finite and not below zero? */
    VINTUQAY_LINE_ROOM = 24,     /* is the section below 512 and the slice at least 72 bytes long? */

    /* questions to vintuqay_set_valve */
    VINTUQAY_CHAIN = 51,      /* is the layout a chain, and are the level and the discharge finite? */
    VINTUQAY_ROW_LENGTH = 52, /* do both rows hold the section count? */

    /* stops */
    VINTUQAY_NOT_FINITE = 40, /* a head, a flow, a speed or an inflow is not finite */
    VINTUQAY_PARTED = 41,     /* a head is below its floor */

    /* of vintuqay_set_valve: every question has a yes, and there is no coefficient */
    VINTUQAY_NONE = 255
};

/* An answer is one number. Its parts:
 *   number   one of enum vintuqay_answer: 0, or that of the question that got a no, or of the stop;
 *            of vintuqay_set_valve also VINTUQAY_NONE.
 *   section  of a stop; of vintuqay_read, the section count.
 *   steps    the steps done in all; of vintuqay_read, the steps for the listing.
 * A no gives the number alone, and then nothing has been written.
 */
static inline unsigned vintuqay_number(uint64_t answer) { return (unsigned)(answer & 0xff); }
static inline unsigned vintuqay_section(uint64_t answer) { return (unsigned)(answer >> 8 & 0xfff); }
static inline uint32_t vintuqay_steps(uint64_t answer) { return (uint32_t)(answer >> 20); }

static inline double vintuqay_double_of(uint64_t bits) {
    double x;
    memcpy(&x, &bits, sizeof x);
    return x;
}

static inline uint64_t vintuqay_bits_of(double x) {
    uint64_t bits;
    memcpy(&bits, &x, sizeof bits);
    return bits;
}

/* Whether the thread that asks has floating-point arithmetic in the default mode, which the calls need:
 * 1 where it has; 0 where results are rounded upward, downward or toward zero, where subnormal results
 * become zero (FTZ), where subnormal operands count as zero (DAZ), and where the caller is compiled for
 * arithmetic of more than 64 bits (x87), by which this test could not see the mode of the calls.
 * Operands and results are volatile and bits are compared, so that no compiler works it out beforehand.
 */
static inline int vintuqay_default_floats(void) {
    volatile double x, y, z;
    x = 1;
    y = vintuqay_double_of(UINT64_C(0x3ca0000000000000)); /* half of the last place of 1: a tie */
    z = x + y;
    if (vintuqay_bits_of(z) != UINT64_C(0x3ff0000000000000)) /* rounded upward */
        return 0;
    y = vintuqay_double_of(UINT64_C(0x3ca0010000000000)); /* 1/4096 more than half of it */
    z = x + y;
    if (vintuqay_bits_of(z) != UINT64_C(0x3ff0000000000001)) /* downward, toward zero, or rounded twice */
        return 0;
    x = vintuqay_double_of(UINT64_C(0x0010000000000000)); /* the least normal number */
    y = 0.5;
    z = x * y;
    if (vintuqay_bits_of(z) != UINT64_C(0x0008000000000000)) /* a subnormal result became zero */
        return 0;
    x = vintuqay_double_of(UINT64_C(1)); /* the least subnormal number */
    y = vintuqay_double_of(UINT64_C(0x4630000000000000)); /* 2^100 */
    z = x * y;
    return vintuqay_bits_of(z) == UINT64_C(0x0310000000000000); /* else a subnormal operand counted as zero */
}

/* The double nearest the exact root, ties to the even last bit, as IEEE 754 has its square root;
 * subnormal arguments are included. +0 for either zero, where IEEE 754 has -0 for -0. A NaN where the
 * argument is not finite or is below zero (question 23).
 */
double vintuqay_root(double x);

/* Puts questions 1 to 15 to a job, and 50 and then 53 after 10; the first no decides. Where all have a yes, the
 * answer carries the section count and the steps for the listing.
 */
uint64_t vintuqay_read(const uint8_t *job, size_t job_length);

/* The start: questions 1 to 15 with 50 and 53, then 20 (do heads, flows, highest and lowest hold the section
 * count, speeds and inflows the node count, and does spare hold four values per pipe?). Writes the initial
 * heads and flows, and both envelopes as the initial heads, up to the section count; up to the node count
 * the first scheduled speed of each pump with an inflow of +0, and +0 twice at other nodes; and +0 in the
 * first four values per pipe of spare. Entries past these are untouched. What spare holds before a call has
 * no effect. A caller that doesn't count the nodes lends VINTUQAY_NODES of each.
 */
uint64_t vintuqay_start(
    const uint8_t *job, size_t job_length,
    double *heads, size_t heads_length,
    double *flows, size_t flows_length,
    double *highest, size_t highest_length,
    double *lowest, size_t lowest_length,
    double *speeds, size_t speeds_length,
    double *inflows, size_t inflows_length,
    double *spare, size_t spare_length);

/* The run-on: takes the number `done` of steps done (m) and a count (N), and does that many steps,
 * fewer only where one stops the run. Questions 1 to 15 with 50 and 53, then 20 as for the start, 21 (is m
 * at most 1,000,000 and N at most 1,000,000 - m?) and 22 (are heads, flows and envelopes finite up to the
 * section count, no head below its floor, speeds and inflows finite up to the node count?). A stopped step
 * changes no state or envelope, and no speed or inflow. A finished step raises the maximum where the head is
 * greater and lowers the minimum where it is less, and writes each pump's speed and inflow of that step,
 * +0 twice at other nodes. From a pump's trip step on its speed is worked out from what speeds and inflows
 * hold (docs/MANUAL.md, 6); a speed or an inflow that is not finite stops as 40 at the node's lowest section.
 * After an unrefused call, one that stopped or had no steps to do included, the first four values per pipe of
 * spare are +0. Entries past these, past the node count in speeds and inflows, and past the section count in
 * the other slices, are untouched.
 */
uint64_t vintuqay_run_on(
    const uint8_t *job, size_t job_length, uint64_t done, uint64_t count,
    double *heads, size_t heads_length,
    double *flows, size_t flows_length,
    double *highest, size_t highest_length,
    double *lowest, size_t lowest_length,
    double *speeds, size_t speeds_length,
    double *inflows, size_t inflows_length,
    double *spare, size_t spare_length);

/* Sets the valve of a chain for a discharge: pipe i runs from node i to node i + 1, node 0 is a
 * reservoir, the last node a valve, and every other node a junction whose scheduled values are all
 * zero, of either sign. Questions 1 to 15 with 50 and 53, then 51, then 52. Takes the head `level` at section
 * 0, and from section to section along a reach H - ((R*Q)*|Q|)/S with Q = `discharge`; across a node
 * the head stays. The coefficient is Q / root(H - b), with the last head H and the valve's b.
 * The answer's number is
 *   0                where there is one: *coefficient is it, heads holds the head of each section and
 *                    flows the discharge, up to the section count; entries past it are untouched;
 *   VINTUQAY_NONE    where the discharge is not above zero, a head is below its floor, H is not above
 *                    b, or any head, H - b or the coefficient is not finite;
 *   51, 52, or that of another question that got a no.
 * With any answer but 0 heads, flows and *coefficient keep what they held. The level and the discharge
 * are the caller's: beyond questions 1 to 15 the job's schedules, its initial heads and flows and the
 * valve's own coefficient have no part in it, but for the zeros of the junctions. `coefficient` points
 * to a double, is not null, and lies in no slice lent to the call.
 */
uint64_t vintuqay_set_valve(
    const uint8_t *job, size_t job_length, double level, double discharge,
    double *heads, size_t heads_length,
    double *flows, size_t flows_length,
    double *coefficient);

/* The line of a section, at the front of `out`: number in decimal, head, flow, maximum, minimum, each
 * as 16 lower-case hexadecimal digits, highest first, one space between two fields, and a newline.
 * Returns how many bytes it takes, at most VINTUQAY_LINE_BYTES; bytes after them keep what they held.
 * Returns 0, with nothing written, where the section is not below VINTUQAY_SECTIONS or `out` has fewer
 * than VINTUQAY_LINE_BYTES bytes (question 24).
 * Every NaN is printed as 7ff8000000000000.
 */
size_t vintuqay_line(size_t section, double head, double flow, double highest, double lowest,
                     uint8_t *out, size_t out_length);

#ifdef __cplusplus
}
#endif

#endif
