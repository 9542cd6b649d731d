/* stack_and_threads JOB..: the stack that each call takes, measured on every job named, against
 * VINTUQAY_STACK_BYTES; then two threads make all calls on all jobs at the same time, in opposite order, with
 * VINTUQAY_STACK_BYTES of stack beside what a thread needs for itself. Ends with status 1 where a call takes
 * more, or a thread leaves other bytes than the calls made one after the other. */
#define _XOPEN_SOURCE 700 /* contexts, and threads with a stack of a given size */
#include "vintuqay.h"
#include <pthread.h>
#include <stdio.h>
#include <ucontext.h>
#include <unistd.h>

enum { SECTIONS = VINTUQAY_SECTIONS, NODES = VINTUQAY_NODES, SPARE = VINTUQAY_SPARE_PER_PIPE * VINTUQAY_PIPES };
enum { JOBS = 64, ROUNDS = 200, MARK = 0xa5 };

static uint8_t jobs[JOBS][VINTUQAY_JOB_BYTES];
static size_t lengths[JOBS];
static int job_count;

/* What all calls on one job leave. */
struct left {
    double h[SECTIONS], q[SECTIONS], high[SECTIONS], low[SECTIONS], v[NODES], inflow[NODES], spare[SPARE];
    double set_h[SECTIONS], set_q[SECTIONS], coefficient, roots[SECTIONS];
    uint64_t read, started, ran, set;
    uint8_t text[SECTIONS][VINTUQAY_LINE_BYTES];
};

static void call_root(int j, struct left *l) {
    (void)j;
    for (int s = 0; s < SECTIONS; s++)
        l->roots[s] = vintuqay_root(vintuqay_double_of((uint64_t)s << 53 | (uint64_t)s)); /* also below zero */
}

static void call_read(int j, struct left *l) { l->read = vintuqay_read(jobs[j], lengths[j]); }

static void call_start(int j, struct left *l) {
    l->started = vintuqay_start(jobs[j], lengths[j], l->h, SECTIONS, l->q, SECTIONS, l->high, SECTIONS, l->low,
                                SECTIONS, l->v, NODES, l->inflow, NODES, l->spare, SPARE);
}

static void call_run_on(int j, struct left *l) {
    l->ran = vintuqay_run_on(jobs[j], lengths[j], 0, vintuqay_steps(l->read), l->h, SECTIONS, l->q, SECTIONS, l->high,
                             SECTIONS, l->low, SECTIONS, l->v, NODES, l->inflow, NODES, l->spare, SPARE);
}

static void call_set_valve(int j, struct left *l) {
    l->set = vintuqay_set_valve(jobs[j], lengths[j], 60, 0.04, l->set_h, SECTIONS, l->set_q, SECTIONS, &l->coefficient);
}

static void call_line(int j, struct left *l) {
    (void)j;
    for (size_t s = 0; s < SECTIONS; s++)
        vintuqay_line(s, l->h[s], l->q[s], l->high[s], l->low[s], l->text[s], VINTUQAY_LINE_BYTES);
}

/* In an order in which each finds what it needs. */
static const struct call {
    const char *name;
    void (*make)(int job, struct left *left);
} calls[] = {{"vintuqay_read", call_read},       {"vintuqay_start", call_start},
             {"vintuqay_run_on", call_run_on},   {"vintuqay_set_valve", call_set_valve},
             {"vintuqay_line", call_line},       {"vintuqay_root", call_root}};
enum { CALLS = sizeof calls / sizeof calls[0] };

/* The stack that a call takes: it is made on one of its own, full of marks, and the deepest lost mark is looked
 * for. The frame of the function that makes it, with the arguments on the stack, is in it. */
static volatile unsigned char stack[16 * VINTUQAY_STACK_BYTES]; /* volatile: no memset sets the marks, see below */
static ucontext_t here, there;
static const struct call *measured;
static int measured_job;
static struct left measured_left;

static void make_measured(void) { measured->make(measured_job, &measured_left); }

static size_t stack_of(const struct call *call, int job) {
    for (size_t i = 0; i < sizeof stack; i++)
        stack[i] = MARK;
    measured = call;
    measured_job = job;
    getcontext(&there);
    there.uc_stack.ss_sp = (void *)stack;
    there.uc_stack.ss_size = sizeof stack;
    there.uc_link = &here;
    makecontext(&there, make_measured, 0);
    swapcontext(&here, &there);
    size_t kept = 0;
    while (kept < sizeof stack && stack[kept] == MARK)
        kept++;
    return sizeof stack - kept;
}

/* All jobs twice: where the program is linked so that names are looked up at their first use, the dynamic linker
 * looks memcpy and memset up on the same stack the first time. */
static int measure(void) {
    static size_t most[2][CALLS];
    int wrong = 0;
    for (int turn = 0; turn < 2; turn++) {
        for (int job = 0; job < job_count; job++) {
            for (int c = 0; c < CALLS; c++) {
                size_t taken = stack_of(&calls[c], job);
                most[turn][c] = taken > most[turn][c] ? taken : most[turn][c];
            }
        }
    }
    for (int c = 0; c < CALLS; c++) {
        printf("%s: %zu bytes of stack, %zu where names have been looked up\n", calls[c].name, most[0][c], most[1][c]);
        wrong += most[0][c] > VINTUQAY_STACK_BYTES || most[1][c] > VINTUQAY_STACK_BYTES;
    }
    return wrong;
}

/* What the calls leave one after the other; what those of a thread leave, and how often that is something else. */
static struct left alone[JOBS];
static struct thread {
    int number, others;
    struct left left;
} threads[2] = {{.number = 0}, {.number = 1}};
static pthread_barrier_t both;

static void make_all(int job, struct left *left) {
    for (int c = 0; c < CALLS; c++)
        calls[c].make(job, left);
}

static void *run_thread(void *own) {
    struct thread *thread = own;
    pthread_barrier_wait(&both);
    for (int i = 0; i < job_count * ROUNDS; i++) {
        int job = thread->number == 0 ? i % job_count : job_count - 1 - i % job_count;
        memset(&thread->left, 0, sizeof thread->left);
        make_all(job, &thread->left);
        thread->others += memcmp(&thread->left, &alone[job], sizeof alone[job]) != 0;
    }
    return NULL;
}

static int run_threads(void) {
    pthread_t ids[2];
    pthread_attr_t small;
    int wrong = 0;
    for (int job = 0; job < job_count; job++)
        make_all(job, &alone[job]);
    pthread_attr_init(&small);
    wrong += pthread_attr_setstacksize(&small, (size_t)sysconf(_SC_THREAD_STACK_MIN) + VINTUQAY_STACK_BYTES) != 0;
    pthread_barrier_init(&both, NULL, 2);
    for (int t = 0; t < 2; t++)
        wrong += pthread_create(&ids[t], &small, run_thread, &threads[t]) != 0;
    for (int t = 0; wrong == 0 && t < 2; t++)
        pthread_join(ids[t], NULL);
    printf("two threads, %d jobs each, %d times: %d and %d times other bytes than one after the other\n", job_count,
           ROUNDS, threads[0].others, threads[1].others);
    return wrong + threads[0].others + threads[1].others;
}

int main(int count, char **words) {
    for (job_count = 0; job_count < count - 1 && job_count < JOBS; job_count++) {
        FILE *file = fopen(words[job_count + 1], "rb");
        if (file == NULL)
            return 1;
        lengths[job_count] = fread(jobs[job_count], 1, VINTUQAY_JOB_BYTES, file);
        fclose(file);
    }
    return job_count > 1 && measure() == 0 && run_threads() == 0 ? 0 : 1;
}
