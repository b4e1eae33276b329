/* The library from C: its version, the names of its outcomes, and all its calls by eight threads at once, each on data
 * of its own. tests/calls.py has what each call gives and refuses, and tests/edges.c the slices that are too short. */
#include "flowshop.h"

#include <pthread.h>
#include <stdio.h>
#include <string.h>

static int passed, failed;

static void is(const char *what, uint64_t got, uint64_t wanted) {
    if (got == wanted) {
        passed++;
        return;
    }
    printf("not as it should be: %s: %llu for %llu\n", what, (unsigned long long)got, (unsigned long long)wanted);
    failed++;
}

static void names(void) {
    is("a name", strcmp(flowshop_status_name(FLOWSHOP_OVER_BUDGET), "OVER_BUDGET") == 0, 1);
    is("the last of a certificate", strcmp(flowshop_status_name(69), "MOST") == 0, 1);
    is("the first", strcmp(flowshop_status_name(0), "DONE") == 0, 1);
    is("the last", strcmp(flowshop_status_name(77), "INDEX") == 0, 1);
    is("no name", strcmp(flowshop_status_name(5), "?") == 0, 1);
}

/* Many calls at once, each on data of its own. */
static void *many(void *from) {
    size_t wrong = 0;
    for (uint32_t seed = 0; seed < 500; seed++) {
        uint32_t times[12];
        wrong += flowshop_generate(4, 3, 1 + seed * 8 + (uint32_t)(size_t)from, times, 12).status;
        uint16_t start[4], best[4], found[4], rest[40];
        uint64_t begins[12], ends[12];
        uint8_t bytes[8192], directions[1000];
        const flowshop_shop shop = {4, 3, times, 12};
        const flowshop_plan plan = {1, 900, 2};
        const flowshop_effort own = {4, 4, seed + 1, 1}, little = {2, 2, seed + 1, 1};
        const flowshop_node root = flowshop_root();
        flowshop_reached first = {start, 4, 0, 0}, better = {found, 4, 0, 0};
        flowshop_bounds least = {best, 4, 0, 0}, proved = {found, 4, 0, 0};
        flowshop_spans spans = {begins, 12, ends, 12};
        flowshop_text text = {bytes, sizeof bytes, 0};
        flowshop_part part = {found, 4, directions, sizeof directions, rest, 40, 7, 7, 7, 7};
        const flowshop_beam_options beam = {0, 4, 10000};
        const flowshop_rounds_options rounds = {4, seed + 1, 10000};
        uint64_t value = 0;
        wrong += flowshop_neh(&shop, &first).status;
        wrong += flowshop_makespan(&shop, start, 4, &value).status + (value != first.makespan);
        wrong += flowshop_makespans(&shop, start, 4, begins, 12).status + (begins[0] != value);
        wrong += flowshop_beam(&shop, start, 4, &beam, &better).status + (better.makespan > value);
        wrong += flowshop_rounds(&shop, start, 4, &rounds, &better).status + (better.makespan > value);
        wrong += flowshop_solve(&shop, start, 4, &plan, &least, &text).status;
        wrong += flowshop_check(&shop, bytes, text.length, &proved).status;
        wrong += proved.lower != least.upper || proved.upper != least.upper || least.upper > first.makespan;
        wrong += memcmp(found, best, sizeof best) != 0;
        wrong += flowshop_timetable(&shop, start, 4, &spans).status;
        wrong += ends[11] != first.makespan;
        wrong += flowshop_picture(&shop, start, 4, 0, &text).status;
        wrong += flowshop_improve(&shop, start, 4, &own, &better).status;
        wrong += better.makespan < least.upper || better.makespan > first.makespan;
        wrong += flowshop_prove(&shop, &root, least.upper, &part).status;
        wrong += part.found != FLOWSHOP_PROVED;
        const uint64_t count = part.directions_length;
        flowshop_part counted = {found, 4, NULL, 7, rest, 40, 7, 7, 7, 7};
        wrong += flowshop_tally(&shop, &root, least.upper, count, &counted).status;
        wrong += counted.found != FLOWSHOP_PROVED || counted.directions_length != count;
        if (count) wrong += flowshop_tally(&shop, &root, least.upper, count - 1, &counted).status;
        wrong += count && (counted.found != FLOWSHOP_OVER || counted.directions_length != count - 1);
        wrong += flowshop_run_counted(&shop, best, 4, least.upper, count, &text).status;
        wrong += flowshop_check_within(&shop, bytes, text.length, count, &proved).status;
        wrong += proved.lower != least.upper || proved.upper != least.upper;
        wrong += flowshop_certify(&shop, start, 4, &little, 1000, &proved, &text).status;
        wrong += proved.lower != least.upper || proved.upper != least.upper;
        wrong += flowshop_check(&shop, bytes, text.length, &least).status;
        wrong += proved.lower != least.lower || memcmp(found, best, sizeof best) != 0;
    }
    return (void *)wrong;
}

static void at_once(void) {
    pthread_t threads[8];
    for (size_t i = 0; i < 8; i++) pthread_create(&threads[i], NULL, many, (void *)i);
    for (size_t i = 0; i < 8; i++) {
        void *wrong;
        pthread_join(threads[i], &wrong);
        is("calls at once", (size_t)wrong, 0);
    }
}

int main(void) {
    is("the version", flowshop_version(), FLOWSHOP_LIBRARY_VERSION);
    names();
    at_once();
    printf("calls from C: %d as they should be, %d not\n", passed, failed);
    return failed != 0;
}
