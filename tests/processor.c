/* Makes each call of the library once, with what it takes, and prints its name, its outcome, and whether it wrote
 * anything. */
#include "flowshop.h"

#include <stdio.h>
#include <string.h>

static const uint32_t TIMES[9] = {4, 0, 0, 0, 8, 2, 4, 0, 1};
static const uint16_t START[3] = {2, 1, 3};
static const flowshop_shop SHOP = {3, 3, TIMES, 9};
static const flowshop_effort EFFORT = {16, 10, 1, 1};
static const flowshop_plan PLAN = {0, 1000, 1};
static const flowshop_beam_options BEAM = {0, 16, 1000000};
static const flowshop_rounds_options ROUNDS = {10, 1, 1000000};
static const flowshop_task TASK = {FLOWSHOP_TASK_SEARCH, 0, 12, 1, {0, 0, 0}, {0, 0, 0}};
static const flowshop_answer ANSWER = {FLOWSHOP_OVER, 0, 0, 0};
static const flowshop_searched SEARCHED = {1, 1, 0};
static const char BLOCK[] = "one\n2 2 5 9 8\ntimes\n1 14\n75 46\n";
static const char CERTIFICATE[] = "flowshop two-ended 1\n3 3\n12 12\n3 1 2\n-+\nend\n";
static const char COUNTED[] = "flowshop counted 1\n3 3\n12 12\n3 1 2\n2\nend\n";

/* Lists and texts that calls write to, and records of them. */
struct rooms {
    flowshop_limit_numbers limits;
    uint64_t makespan, starts[9], ends[9];
    uint32_t times[9];
    uint16_t sequence[3], rest[28];
    uint8_t bytes[9000];
    flowshop_benchmark block;
    flowshop_spans spans;
    flowshop_text text;
    flowshop_reached reached;
    flowshop_bounds bounds;
    flowshop_part part;
    flowshop_run_state run;
    flowshop_task task;
    flowshop_place places[2];
    flowshop_search_state search;
    uint64_t place;
    uint32_t better;
};
static struct rooms rooms, before;
static flowshop_run_state run; /* one that has begun */
static flowshop_search_state search; /* the same, with its places */
static flowshop_place places[2];

/* All rooms as they are before a call. */
static void begin(void) {
    memset(&rooms, 7, sizeof rooms);
    rooms.block.times = rooms.times;
    rooms.spans.starts = rooms.starts;
    rooms.spans.ends = rooms.ends;
    rooms.block.times_count = rooms.spans.starts_count = rooms.spans.ends_count = 9;
    rooms.text.bytes = rooms.part.directions = rooms.bytes;
    rooms.text.bytes_count = rooms.part.directions_count = sizeof rooms.bytes;
    rooms.reached.sequence = rooms.bounds.sequence = rooms.part.sequence = rooms.sequence;
    rooms.reached.sequence_count = rooms.bounds.sequence_count = rooms.part.sequence_count = 3;
    rooms.part.rest = rooms.rest;
    rooms.part.rest_count = 28;
    rooms.run = run;
    rooms.search = search;
    memcpy(rooms.places, places, sizeof places);
    memcpy(&before, &rooms, sizeof rooms);
}

static void made(const char *name, flowshop_outcome outcome) {
    const char *rest = memcmp(&before, &rooms, sizeof rooms) == 0 ? "kept" : "written";
    printf("%s %s %llu %s\n", name, flowshop_status_name(outcome.status), (unsigned long long)outcome.place, rest);
}

#define MAKE(name, ...) (begin(), made(#name, flowshop_##name(__VA_ARGS__)))

int main(void) {
    const flowshop_node root = flowshop_root();
    const uint8_t *block = (const uint8_t *)BLOCK, *certificate = (const uint8_t *)CERTIFICATE;
    const uint8_t *counted = (const uint8_t *)COUNTED;
    if (flowshop_version() != FLOWSHOP_LIBRARY_VERSION) return 1;
    /* The first one tests the processor. It takes arguments in all places in which they are handed over. */
    MAKE(certify, &SHOP, START, 3, &EFFORT, 1000, &rooms.bounds, &rooms.text);
    MAKE(limits, &rooms.limits);
    MAKE(generate, 3, 3, 1, rooms.times, 9);
    MAKE(block, block, sizeof BLOCK - 1, 1, &rooms.block);
    MAKE(makespan, &SHOP, START, 3, &rooms.makespan);
    MAKE(makespans, &SHOP, START, 3, rooms.starts, 9);
    MAKE(timetable, &SHOP, START, 3, &rooms.spans);
    MAKE(picture, &SHOP, START, 3, 0, &rooms.text);
    MAKE(neh, &SHOP, &rooms.reached);
    MAKE(improve, &SHOP, START, 3, &EFFORT, &rooms.reached);
    MAKE(check, &SHOP, certificate, sizeof CERTIFICATE - 1, &rooms.bounds);
    MAKE(check_within, &SHOP, counted, sizeof COUNTED - 1, 2, &rooms.bounds);
    MAKE(solve, &SHOP, START, 3, &PLAN, &rooms.bounds, &rooms.text);
    MAKE(prove, &SHOP, &root, 12, &rooms.part);
    MAKE(tally, &SHOP, &root, 12, 2, &rooms.part);
    MAKE(run, &SHOP, START, 3, 1000, 0, &rooms.run);
    run = rooms.run;
    MAKE(run_next, &rooms.run, &EFFORT, &rooms.task);
    MAKE(run_put, &rooms.run, &TASK, &ANSWER, &rooms.better);
    MAKE(run_text, &SHOP, START, 3, 10, certificate, 0, &rooms.text);
    MAKE(run_counted, &SHOP, START, 3, 10, 0, &rooms.text);
    MAKE(search, 9, rooms.places, 2, &rooms.search);
    search = rooms.search;
    memcpy(places, rooms.places, sizeof places);
    MAKE(search_give, &rooms.search, rooms.places, 2, &rooms.place);
    places[0].state = FLOWSHOP_GIVEN;
    MAKE(search_put, &rooms.search, rooms.places, 2, 0, &SEARCHED, &rooms.place);
    MAKE(search_found, &rooms.search, &rooms.better, &rooms.place);
    MAKE(beam, &SHOP, START, 3, &BEAM, &rooms.reached);
    MAKE(rounds, &SHOP, START, 3, &ROUNDS, &rooms.reached);
    return 0;
}
