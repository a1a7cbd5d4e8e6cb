/* Measures loading and runs on a batch of jobs: a row of them on standard input, each after its u32 length, little-endian.
 * Prints how many jobs there were, how many were refused, and the dequeues of all runs; with the argument `times`, also
 * the nanoseconds that loading and runs took in all, and with `stack` the deepest stack of a load and of a run: each is
 * made on a painted stack of its own. `measured` is what callgrind counts:
 *   valgrind --tool=callgrind --collect-atstart=no --toggle-collect=measured target/firmware/measure < BATCH
 */
#define _XOPEN_SOURCE 600
#include "pezhkadu.h"
#include <stdio.h>
#include <string.h>
#include <time.h>
#include <ucontext.h>

static struct pezhkadu_stage stage;
static uint8_t job[32769];

struct totals {
    uint64_t jobs, refused, dequeues, load_ns, run_ns;
};

static uint64_t now(void)
{
    struct timespec t;
    clock_gettime(CLOCK_MONOTONIC, &t);
    return (uint64_t)t.tv_sec * UINT64_C(1000000000) + (uint64_t)t.tv_nsec;
}

__attribute__((noinline)) static uint64_t load(size_t length)
{
    return pezhkadu_load(job, length, stage.header, PEZHKADU_HEADER, stage.records, PEZHKADU_RECORDS,
                         PEZHKADU_JOB(&stage), PEZHKADU_STATE(&stage));
}

__attribute__((noinline)) static uint64_t run(uint64_t *answer)
{
    return pezhkadu_run(stage.records, PEZHKADU_RECORDS, stage.header[PEZHKADU_HEADER_BUDGET], PEZHKADU_JOB(&stage),
                        PEZHKADU_STATE(&stage), answer, PEZHKADU_ANSWER);
}

/* Loads and runs the job of this length. It has external linkage, and is not cloned, so that it keeps its name. */
void measured(size_t length, struct totals *t);

__attribute__((noinline, noclone)) void measured(size_t length, struct totals *t)
{
    uint64_t answer[PEZHKADU_ANSWER] = {0, 0};
    uint64_t start = now();
    uint64_t refused = load(length);
    uint64_t middle = now();
    t->load_ns += middle - start;
    if (refused != 0) {
        t->refused++;
        return;
    }
    refused = run(answer);
    t->run_ns += now() - middle;
    if (refused != 0)
        t->refused++;
    t->dequeues += answer[1];
}

/* A stack of its own, and what is to be done on it. */
#define STACK (1 << 18)
#define PAINT 0xA5
static uint8_t painted[STACK];
static ucontext_t caller, callee;
static size_t job_length;
static uint64_t run_answer[PEZHKADU_ANSWER];

static void load_alone(void)
{
    load(job_length);
}

static void run_alone(void)
{
    run(run_answer);
}

/* How many bytes of stack the step took: the painted bytes that it changed, up to the deepest one. */
static size_t deepest(void (*step)(void))
{
    size_t untouched = 0;
    memset(painted, PAINT, sizeof painted);
    getcontext(&callee);
    callee.uc_stack.ss_sp = painted;
    callee.uc_stack.ss_size = sizeof painted;
    callee.uc_link = &caller;
    makecontext(&callee, step, 0);
    swapcontext(&caller, &callee);
    while (untouched < sizeof painted && painted[untouched] == PAINT)
        untouched++;
    return sizeof painted - untouched;
}

static void keep_greater(size_t *most, size_t now)
{
    if (now > *most)
        *most = now;
}

int main(int argc, char **argv)
{
    struct totals t = {0, 0, 0, 0, 0};
    size_t load_stack = 0, run_stack = 0;
    int times = argc > 1 && strcmp(argv[1], "times") == 0;
    int stack = argc > 1 && strcmp(argv[1], "stack") == 0;
    uint8_t prefix[4];
    while (fread(prefix, 1, 4, stdin) == 4) {
        uint32_t length = (uint32_t)prefix[0] | (uint32_t)prefix[1] << 8 | (uint32_t)prefix[2] << 16 | (uint32_t)prefix[3] << 24;
        if (length > sizeof job || fread(job, 1, length, stdin) != length) {
            fprintf(stderr, "measure: bad batch\n");
            return 1;
        }
        memset(&stage, 0, sizeof stage);
        if (stack) {
            job_length = length;
            keep_greater(&load_stack, deepest(load_alone));
            keep_greater(&run_stack, deepest(run_alone));
            memset(&stage, 0, sizeof stage);
        }
        measured(length, &t);
        t.jobs++;
    }
    printf("jobs %llu refused %llu dequeues %llu\n", (unsigned long long)t.jobs, (unsigned long long)t.refused,
           (unsigned long long)t.dequeues);
    if (times)
        printf("load %llu ns run %llu ns\n", (unsigned long long)t.load_ns, (unsigned long long)t.run_ns);
    if (stack)
        printf("load %zu bytes run %zu bytes of stack\n", load_stack, run_stack);
    return 0;
}
