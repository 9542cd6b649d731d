/* Starts job Q of document 01, runs it on to step 5 one step a call, and prints its heads after each
 * step, then the listing's line of each section: once with five pairs, once with six and a table of
 * schedule counts. Then come calls that are refused, the valve set for a discharge, and a pump whose power
 * fails. Before all that it asks for the floating-point mode that the calls need. */
#include "vintuqay.h"
#include <stdio.h>
#include <string.h>

enum { SECTIONS = 3, PIPES = 1, SPARE = VINTUQAY_SPARE_PER_PIPE * PIPES };
enum { NODES = 2, JOB = 256 }; /* more bytes than either job has */

static uint8_t job[JOB];
static size_t used;
static double h[SECTIONS], q[SECTIONS], high[SECTIONS], low[SECTIONS], speeds[NODES], inflows[NODES], spare[SPARE];

/* Little-endian, `width` bytes of n. */
static void put(uint64_t n, int width) {
    for (int i = 0; i < width; i++)
        job[used++] = (uint8_t)(n >> 8 * i);
}

static void put_double(double x) {
    uint64_t bits;
    memcpy(&bits, &x, sizeof bits);
    put(bits, 8);
}

/* The count is the byte of the record, 0 where table 6 counts. */
static void put_node(int kind, int count, double a, double b) {
    put((uint64_t)kind, 1);
    put((uint64_t)count, 1);
    put_double(a);
    put_double(b);
    put_double(0);
}

/* The count of pairs, the steps for the listing and the pairs, each table where the last ended. */
static void put_pairs(int pairs, const uint32_t *lengths) {
    uint32_t offset = 6 + 8 * (uint32_t)pairs;
    put((uint64_t)pairs, 2);
    put(1, 4);
    for (int table = 0; table < pairs; table++) {
        put(offset, 4);
        put(lengths[table], 4);
        offset += lengths[table];
    }
}

/* One pipe of two reaches, S = 1, R = 0; node 0 a reservoir at 10; node 1 a valve, a = 2, b = 6, shut.
 * Heads 10, flows 4, floors 0. With six pairs the schedules are counted in table 6. */
static void put_job_q(int pairs) {
    static const uint32_t lengths[6] = {PIPES * 12, NODES * 26, 2 * 8, SECTIONS * 24, 2 * 8, NODES * 2};
    int count = pairs == 6 ? 0 : 1;
    used = 0;
    put_pairs(pairs, lengths);
    put(0, 1);
    put(1, 1);
    put(2, 2);
    put_double(1);
    put_node(1, count, 0, 0);
    put_node(2, count, 2, 6);
    put_double(0);
    put_double(0);
    for (int section = 0; section < SECTIONS; section++) {
        put_double(10);
        put_double(4);
        put_double(0);
    }
    put_double(10);
    put_double(0);
    for (int node = 0; pairs == 6 && node < NODES; node++)
        put(1, 2);
}

/* Node 0 a pump, a = 16, b = c = 0, at full speed; node 1 a reservoir at 10; one reach between them, S = 1,
 * R = 0, at rest at 10. Seven pairs: table 6 is empty, and by table 7 the pump's power is off from step 3 on,
 * with G = 1/16, t0 = 1, t1 = 1/2. */
static void put_lift(void) {
    static const uint32_t lengths[7] = {PIPES * 12, NODES * 26, 8, 2 * 24, NODES * 8, 0, 30};
    used = 0;
    put_pairs(7, lengths);
    put(0, 1);
    put(1, 1);
    put(1, 2);
    put_double(1);
    put_node(3, 1, 16, 0);
    put_node(1, 1, 0, 0);
    put_double(0);
    for (int section = 0; section < 2; section++) {
        put_double(10);
        put_double(0);
        put_double(-100);
    }
    put_double(1);
    put_double(10);
    put(0, 2);
    put(3, 4);
    put_double(0.0625);
    put_double(1);
    put_double(0.5);
}

/* What the number of an answer says, of those that these jobs meet. */
static const char *said(uint64_t answer) {
    switch (vintuqay_number(answer)) {
    case VINTUQAY_DONE:
        return "done";
    case VINTUQAY_PAIR_COUNT:
        return "another number of pairs";
    case VINTUQAY_COUNT_TABLE:
        return "table 6, or a byte that it replaces, is not right";
    case VINTUQAY_TRIP_TABLE:
        return "table 7 is not right";
    case VINTUQAY_SLICE_LENGTH:
        return "a slice is too short";
    case VINTUQAY_STEP_LIMIT:
        return "too many steps";
    case VINTUQAY_CHAIN:
        return "no chain, or a number that is not finite";
    case VINTUQAY_ROW_LENGTH:
        return "a row is too short";
    case VINTUQAY_NONE:
        return "no coefficient";
    default:
        return "something else";
    }
}

static void print_rows(void) {
    printf("heads");
    for (int section = 0; section < SECTIONS; section++)
        printf(" %g", h[section]);
    printf(", flows");
    for (int section = 0; section < SECTIONS; section++)
        printf(" %g", q[section]);
    printf("\n");
}

static uint64_t start(void) {
    return vintuqay_start(job, used, h, SECTIONS, q, SECTIONS, high, SECTIONS, low, SECTIONS, speeds, NODES, inflows,
                          NODES, spare, SPARE);
}

/* With so many flows, inflows and values of the spare lent. */
static uint64_t run_on(uint64_t done, uint64_t count, size_t flows, size_t inflow_count, size_t values) {
    return vintuqay_run_on(job, used, done, count, h, SECTIONS, q, flows, high, SECTIONS, low, SECTIONS, speeds, NODES,
                           inflows, inflow_count, spare, values);
}

/* From the start to step 5, one step a call. */
static void run_job(void) {
    uint64_t answer = vintuqay_read(job, used);
    printf("%u bytes, %u pairs: %s, %u sections, %u steps\n", (unsigned)used, job[0], said(answer),
           vintuqay_section(answer), (unsigned)vintuqay_steps(answer));
    answer = start();
    while (vintuqay_number(answer) == VINTUQAY_DONE) {
        printf("step %u: ", (unsigned)vintuqay_steps(answer));
        print_rows();
        if (vintuqay_steps(answer) == 5)
            break;
        answer = run_on(vintuqay_steps(answer), 1, SECTIONS, NODES, SPARE);
    }
    for (size_t section = 0; section < SECTIONS; section++) {
        uint8_t line[VINTUQAY_LINE_BYTES];
        size_t length = vintuqay_line(section, h[section], q[section], high[section], low[section],
                                      line, sizeof line);
        fwrite(line, 1, length, stdout);
    }
}

/* The pump before and after its power fails, one step a call. */
static void run_lift(void) {
    uint64_t answer = start();
    while (vintuqay_number(answer) == VINTUQAY_DONE && vintuqay_steps(answer) < 5) {
        answer = run_on(vintuqay_steps(answer), 1, SECTIONS, NODES, SPARE);
        printf("step %u: speed %g, inflow %g, head %g\n", (unsigned)vintuqay_steps(answer), speeds[0], inflows[0],
               h[0]);
    }
}

/* A byte of the job made another, read, and put back. */
static void read_with(const char *what, size_t at, uint8_t byte) {
    uint8_t old = job[at];
    job[at] = byte;
    uint64_t answer = vintuqay_read(job, used);
    printf("%s: %u, %s\n", what, vintuqay_number(answer), said(answer));
    job[at] = old;
}

/* The valve of job Q set for a discharge, with that many flows lent; a is -1 before. */
static void set_valve(double level, double discharge, size_t flows) {
    double a = -1;
    uint64_t answer = vintuqay_set_valve(job, used, level, discharge, h, SECTIONS, q, flows, &a);
    printf("level %g, discharge %g: %u, %s, a = %g, ", level, discharge, vintuqay_number(answer),
           said(answer), a);
    print_rows();
}

int main(void) {
    if (!vintuqay_default_floats()) {
        fputs("job_q: floating-point arithmetic is not in the default mode, which the calls need\n", stderr);
        return 1;
    }
    puts("floating-point arithmetic is in the default mode");
    put_job_q(5);
    run_job();
    put_job_q(6);
    run_job();
    read_with("eight pairs", 0, 8);
    read_with("a node's byte left at 1", 6 + 6 * 8 + PIPES * 12 + 1, 1);
    read_with("a count of 0", used - 2, 0);
    uint64_t answer = run_on(5, 1, SECTIONS - 1, NODES, SPARE);
    printf("flows too short: %u, %s\n", vintuqay_number(answer), said(answer));
    answer = run_on(5, 1, SECTIONS, NODES - 1, SPARE);
    printf("inflows too short: %u, %s\n", vintuqay_number(answer), said(answer));
    answer = run_on(5, 1, SECTIONS, NODES, SPARE - 1);
    printf("a spare of %d: %u, %s\n", SPARE - 1, vintuqay_number(answer), said(answer));
    answer = run_on(5, VINTUQAY_STEPS, SECTIONS, NODES, SPARE);
    printf("%d steps more: %u, %s\n", VINTUQAY_STEPS, vintuqay_number(answer), said(answer));
    printf("roots: %g %a\n", vintuqay_root(144), vintuqay_root(2));
    set_valve(10, 4, SECTIONS);
    set_valve(15, 6, SECTIONS);
    set_valve(6, 4, SECTIONS);
    set_valve(10, 1.0 / 0.0, SECTIONS);
    set_valve(10, 4, SECTIONS - 1);
    put_lift();
    run_lift();
    read_with("a record of the reservoir", used - 30, 1);
    read_with("t0 below zero", used - 9, 0xbf);
    return 0;
}
