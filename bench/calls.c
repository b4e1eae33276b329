/* bench/calls prints with it what a call of the library takes from C: calls SEED. */
#include "flowshop.h"
#include <stdio.h>
#include <stdlib.h>
#include <time.h>

enum { JOBS = 10, MACHINES = 5, ALL = JOBS * MACHINES, ROOM = 1 << 20, BATCHES = 300, CALLS = 100 };

static uint32_t times[ALL];
static uint8_t text[ROOM];
static const flowshop_shop shop = {JOBS, MACHINES, times, ALL};

static void done(flowshop_outcome outcome) {
    if (outcome.status == FLOWSHOP_DONE) return;
    fprintf(stderr, "refused: %s at %zu\n", flowshop_status_name(outcome.status), outcome.place);
    exit(1);
}

static double now(void) {
    struct timespec at;
    clock_gettime(CLOCK_MONOTONIC, &at);
    return 1e6 * (double)at.tv_sec + 1e-3 * (double)at.tv_nsec;
}

static uint16_t sequence[JOBS];
static flowshop_bounds bounds = {sequence, JOBS, 0, 0};
static flowshop_text certificate = {text, ROOM, 0};

static uint32_t check(void) { return flowshop_check(&shop, text, certificate.length, &bounds).status; }

static uint32_t check_nothing(void) { return flowshop_check(&shop, text, 0, &bounds).status; }

static uint32_t makespan(void) {
    uint64_t value;
    return flowshop_makespan(&shop, sequence, JOBS, &value).status;
}

/* Prints the microseconds of a call, those of the fastest of many batches of calls. */
static void measure(const char *name, uint32_t (*call)(void), uint32_t wanted) {
    double least = 1e300;
    for (int batch = 0; batch < BATCHES; batch++) {
        const double begun = now();
        for (int repeat = 0; repeat < CALLS; repeat++)
            if (call() != wanted) exit(1);
        const double took = (now() - begun) / CALLS;
        if (took < least) least = took;
    }
    printf("%s %.3f\n", name, least);
}

int main(int count, char **words) {
    const flowshop_plan plan = {0, 1000000, 1};
    uint16_t start[JOBS];
    flowshop_reached begun = {start, JOBS, 0, 0};
    if (count != 2) return 2;
    done(flowshop_generate(JOBS, MACHINES, (uint32_t)strtoul(words[1], NULL, 10), times, ALL));
    done(flowshop_neh(&shop, &begun));
    done(flowshop_solve(&shop, start, JOBS, &plan, &bounds, &certificate));
    printf("bytes %zu\n", certificate.length);
    measure("check", check, FLOWSHOP_DONE);
    measure("check_nothing", check_nothing, FLOWSHOP_HEADER);
    measure("makespan", makespan, FLOWSHOP_DONE);
}
