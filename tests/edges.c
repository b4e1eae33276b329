/* Calls of the library at the edges of memory. Each slice and each record that a call is lent ends where a page begins
 * that may not be read, or begins where such a page ends; what a call only reads may not be written; the memory that it
 * asks for ends where such a page begins. Lengths are exact, and also one too short. Then each request of a call for
 * memory is refused in turn, alone and with all behind it: the outcome is FLOWSHOP_MEMORY with all as it was, or what
 * it is otherwise, and the call holds no memory when it ends.
 * It is linked with the archive and --wrap=malloc,--wrap=realloc,--wrap=free. Pages have 4096 bytes. */
#define _DEFAULT_SOURCE
#include "flowshop.h"

#include <signal.h>
#include <stdio.h>
#include <stdlib.h>
#include <string.h>
#include <sys/mman.h>
#include <unistd.h>

enum { MOST_JOBS = 800, MOST_TIMES = 20800, MOST_TEXT = 200000 };

static int passed, failed;
/* What is being called, for the line of a fault. */
static const char *called = "nothing", *how = "";
static uint32_t of_jobs;

static void is(const char *what, uint64_t got, uint64_t wanted) {
    *(got == wanted ? &passed : &failed) += 1;
    if (got == wanted) return;
    printf("not as it should be: %s of flowshop_%s %s, %u jobs: %llu for %llu\n", what, called, how, of_jobs,
           (unsigned long long)got, (unsigned long long)wanted);
}

static void stopped(int number) {
    printf("not as it should be: signal %d in flowshop_%s %s, %u jobs\n", number, called, how, of_jobs);
    fflush(stdout);
    _exit(1);
}

/* --- Memory that calls ask for --- */

void *__real_malloc(size_t bytes);
void *__real_realloc(void *memory, size_t bytes);
void __real_free(void *memory);
void *__wrap_malloc(size_t bytes);
void *__wrap_realloc(void *memory, size_t bytes);
void __wrap_free(void *memory);

/* Whether a call runs; how often it asked; which requests are refused; and how many blocks it holds. */
static int is_called;
static size_t asked, first_refused = SIZE_MAX, last_refused = SIZE_MAX;
static long held;

static int is_refused(void) { return is_called && ++asked >= first_refused && asked <= last_refused; }

/* What stands in the page before a block: how many bytes all its pages have, and how many it has itself. */
struct pages {
    size_t count, bytes;
};
enum { PAGE = 4096, ALIGNED = 16 };

/* A block that ends where a page begins that may not be read, or less than its alignment before. */
static void *fenced(size_t bytes) {
    const size_t used = (bytes + ALIGNED - 1) / ALIGNED * ALIGNED, inner = (used + PAGE - 1) / PAGE * PAGE;
    uint8_t *pages = mmap(NULL, inner + 2 * PAGE, PROT_READ | PROT_WRITE, MAP_PRIVATE | MAP_ANONYMOUS, -1, 0);
    if (pages == MAP_FAILED) return NULL;
    *(struct pages *)pages = (struct pages){inner + 2 * PAGE, bytes};
    mprotect(pages, PAGE, PROT_READ);
    mprotect(pages + PAGE + inner, PAGE, PROT_NONE);
    return pages + PAGE + inner - used;
}

/* The page before a block, which is not empty. */
static struct pages *pages_of(void *memory) {
    return (struct pages *)((uint8_t *)memory - (uintptr_t)memory % PAGE - PAGE);
}

void *__wrap_malloc(size_t bytes) {
    void *memory = is_refused() ? NULL : is_called ? fenced(bytes + !bytes) : __real_malloc(bytes);
    held += is_called && memory;
    return memory;
}

void *__wrap_realloc(void *old, size_t bytes) {
    if (!is_called) return __real_realloc(old, bytes);
    void *memory = is_refused() ? NULL : fenced(bytes + !bytes);
    held += memory && !old;
    if (memory && old) {
        const size_t before = pages_of(old)->bytes;
        memcpy(memory, old, before < bytes ? before : bytes);
        munmap(pages_of(old), pages_of(old)->count);
    }
    return memory;
}

void __wrap_free(void *memory) {
    held -= is_called && memory;
    if (is_called && memory) munmap(pages_of(memory), pages_of(memory)->count);
    if (!is_called) __real_free(memory);
}

/* --- The shops --- */

/* A shop of a seed, a start, texts of it, and the makespan that the certificate has. */
static struct {
    flowshop_shop shop;
    uint32_t times[MOST_TIMES];
    uint16_t start[MOST_JOBS];
    uint8_t benchmark[MOST_TEXT], certificate[MOST_TEXT], counted[MOST_TEXT];
    size_t benchmark_count, certificate_count, counted_count;
    uint64_t upper;
} of;

static const flowshop_effort EFFORT = {8, 3, 5, 1}, LITTLE = {1, 1, 5, 0};
static const flowshop_plan PLAN = {1, 500, 2};
static const flowshop_beam_options BEAM = {0, 8, 100000};
static const flowshop_rounds_options ROUNDS = {3, 5, 100000};
enum { DIRECTIONS_MOST = 20, SMALL = 20 };

static void prepare(uint32_t jobs, uint32_t machines) {
    const size_t count = (size_t)jobs * machines;
    uint16_t sequence[MOST_JOBS];
    flowshop_bounds bounds = {sequence, jobs, 0, 0};
    flowshop_text text = {of.certificate, MOST_TEXT, 0};
    called = "generate", how = "in ordinary memory", of_jobs = jobs;
    is("status", flowshop_generate(jobs, machines, jobs, of.times, count).status, FLOWSHOP_DONE);
    of.shop = (flowshop_shop){jobs, machines, of.times, count};
    for (uint32_t i = 0; i < jobs; i++) of.start[i] = (uint16_t)(jobs - i);
    char *words = (char *)of.benchmark;
    size_t at = (size_t)sprintf(words, "shop\n%u %u 7 8 9\ntimes\n", jobs, machines);
    for (size_t i = 0; i < count; i++) at += (size_t)sprintf(words + at, "%u\n", of.times[i]);
    of.benchmark_count = at;
    called = "certify";
    is("status", flowshop_certify(&of.shop, of.start, jobs, &LITTLE, DIRECTIONS_MOST, &bounds, &text).status, 0);
    of.certificate_count = text.length;
    of.upper = bounds.upper;
    /* The count is how many bytes line 5 has. */
    size_t begin = 0, end = 0;
    for (int line = 0; line < 5; line++) {
        begin = end;
        while (of.certificate[end++] != '\n') continue;
    }
    flowshop_text counted = {of.counted, MOST_TEXT, 0};
    called = "run_counted";
    is("status", flowshop_run_counted(&of.shop, sequence, jobs, bounds.lower, end - begin - 1, &counted).status, 0);
    of.counted_count = counted.length;
}

/* --- What is lent --- */

/* The slices, by their lengths; the calls read the first two. */
enum length { SHOP_TIMES, START, TIMES, STARTS, ENDS, SEQUENCE, TEXT, DIRECTIONS, REST, LENGTHS };
static const size_t WIDTHS[LENGTHS] = {4, 2, 4, 8, 8, 2, 1, 1, 2};

static struct {
    void *slices[LENGTHS];
    size_t lengths[LENGTHS];
    const flowshop_shop *shop;
    const uint8_t *benchmark, *certificate, *counted;
    const flowshop_effort *effort;
    const flowshop_plan *plan;
    const flowshop_beam_options *beam;
    const flowshop_rounds_options *rounds;
    const flowshop_node *root, *node;
    flowshop_benchmark *block;
    flowshop_spans *spans;
    flowshop_reached *reached;
    flowshop_bounds *bounds;
    flowshop_text *text;
    flowshop_part *part;
    flowshop_run_state *run;
    uint64_t *makespan;
} lent;

static struct {
    uint8_t *pages;
    size_t count;
} maps[64];
static size_t maps_count;
/* Whether the page that may not be read stands behind what is lent, or before it. */
static int is_behind;

/* Memory of so many bytes at the edge: what stands there, or sevens, which a call may change. */
static void *lend(const void *from, size_t bytes) {
    const size_t inner = (bytes + PAGE - 1) / PAGE * PAGE;
    uint8_t *pages = mmap(NULL, inner + 2 * PAGE, PROT_READ | PROT_WRITE, MAP_PRIVATE | MAP_ANONYMOUS, -1, 0);
    if (pages == MAP_FAILED || maps_count == sizeof maps / sizeof *maps) {
        printf("no memory for the test\n");
        exit(2);
    }
    maps[maps_count].pages = pages;
    maps[maps_count++].count = inner + 2 * PAGE;
    uint8_t *at = pages + PAGE + (is_behind ? inner - bytes : 0);
    if (from && bytes) memcpy(at, from, bytes);
    if (!from) memset(at, 7, bytes);
    mprotect(pages, PAGE, PROT_NONE);
    mprotect(pages + PAGE + inner, PAGE, PROT_NONE);
    if (from && inner) mprotect(pages + PAGE, inner, PROT_READ);
    return at;
}

static void give_back(void) {
    for (; maps_count; maps_count--) munmap(maps[maps_count - 1].pages, maps[maps_count - 1].count);
}

/* Lends a record that a call writes: its slices, and sevens for its numbers. */
#define RECORD(NAME, ...)                                                                                              \
    (lent.NAME = lend(NULL, sizeof *lent.NAME), *lent.NAME = (__typeof__(*lent.NAME)){__VA_ARGS__})

/* Lends all that any call reads or writes, with these lengths. */
static void lend_all(const size_t *lengths) {
    const void *given[LENGTHS] = {of.times, of.start};
    give_back();
    for (int i = 0; i < LENGTHS; i++) lent.slices[i] = lend(given[i], lengths[i] * WIDTHS[i]);
    memcpy(lent.lengths, lengths, sizeof lent.lengths);
    void **slices = lent.slices;
    const flowshop_shop shop = {of.shop.jobs, of.shop.machines, slices[SHOP_TIMES], lengths[SHOP_TIMES]};
    const uint16_t *first = lend(of.start, 2), *last = lend(of.start + of.shop.jobs - 1, 2), *none = lend(of.start, 0);
    const flowshop_node root = {none, 0, none, 0}, node = {first, 1, last, of.shop.jobs > 1};
    lent.shop = lend(&shop, sizeof shop);
    lent.root = lend(&root, sizeof root);
    lent.node = lend(&node, sizeof node);
    lent.benchmark = lend(of.benchmark, of.benchmark_count);
    lent.certificate = lend(of.certificate, of.certificate_count);
    lent.counted = lend(of.counted, of.counted_count);
    lent.effort = lend(of.shop.jobs > SMALL ? &LITTLE : &EFFORT, sizeof EFFORT);
    lent.plan = lend(&PLAN, sizeof PLAN);
    lent.beam = lend(&BEAM, sizeof BEAM);
    lent.rounds = lend(&ROUNDS, sizeof ROUNDS);
    lent.makespan = lend(NULL, sizeof *lent.makespan);
    *lent.makespan = 7;
    lent.run = lend(NULL, sizeof *lent.run);
    RECORD(block, 7, 7, slices[TIMES], lengths[TIMES], 7, 7, 7);
    RECORD(spans, slices[STARTS], lengths[STARTS], slices[ENDS], lengths[ENDS]);
    RECORD(reached, slices[SEQUENCE], lengths[SEQUENCE], 7, 7);
    RECORD(bounds, slices[SEQUENCE], lengths[SEQUENCE], 7, 7);
    RECORD(text, slices[TEXT], lengths[TEXT], 7);
    RECORD(part, slices[SEQUENCE], lengths[SEQUENCE], slices[DIRECTIONS], lengths[DIRECTIONS], slices[REST],
           lengths[REST], 7, 7, 7, 7);
}

/* The slices of records: the record, the slice, and its length. */
#define SLICES(IS)                                                                                                     \
    IS(block, times, TIMES) IS(spans, starts, STARTS) IS(spans, ends, ENDS) IS(reached, sequence, SEQUENCE)            \
    IS(bounds, sequence, SEQUENCE) IS(text, bytes, TEXT) IS(part, sequence, SEQUENCE)                                  \
    IS(part, directions, DIRECTIONS) IS(part, rest, REST)

/* Whether each record has the slices that it was lent with. */
static int has_slices(void) {
#define IS_LENT(RECORD, SLICE, LENGTH)                                                                                 \
    &&lent.RECORD->SLICE == lent.slices[LENGTH] && lent.RECORD->SLICE##_count == lent.lengths[LENGTH]
    return 1 SLICES(IS_LENT);
}

/* The sum of all that a call may have written, and what it is where nothing is. */
static uint64_t untouched;
static uint64_t written(void) {
    const uint64_t numbers[] = {
        lent.block->jobs,       lent.block->machines, lent.block->seed,   lent.block->upper,  lent.block->lower,
        lent.reached->makespan, lent.reached->whole,  lent.bounds->lower, lent.bounds->upper, lent.text->length,
        lent.part->found,       lent.part->makespan,  *lent.makespan,     lent.part->directions_length,
        lent.part->rest_length};
    uint64_t sum = 1469598103934665603u;
    for (size_t i = 0; i < sizeof numbers / sizeof *numbers; i++) sum = (sum ^ numbers[i]) * 1099511628211u;
    for (size_t at = 0; at < sizeof *lent.run; at++) sum = (sum ^ ((uint8_t *)lent.run)[at]) * 1099511628211u;
    for (int i = TIMES; i < LENGTHS; i++)
        for (size_t at = 0; at < lent.lengths[i] * WIDTHS[i]; at++)
            sum = (sum ^ ((uint8_t *)lent.slices[i])[at]) * 1099511628211u;
    return sum;
}

/* Whether all is as it was lent. */
static int is_untouched(void) { return written() == untouched; }

/* --- The calls --- */

#define ON_SHOP lent.shop, lent.slices[START], lent.lengths[START]
#define CALL(NAME, ...)                                                                                                \
    static flowshop_outcome NAME(void) { return __VA_ARGS__; }
CALL(generate, flowshop_generate(of.shop.jobs, of.shop.machines, 5, lent.slices[TIMES], lent.lengths[TIMES]))
CALL(block, flowshop_block(lent.benchmark, of.benchmark_count, 1, lent.block))
CALL(makespan, flowshop_makespan(ON_SHOP, lent.makespan))
CALL(makespans, flowshop_makespans(ON_SHOP, lent.slices[STARTS], lent.lengths[STARTS]))
CALL(timetable, flowshop_timetable(ON_SHOP, lent.spans))
CALL(picture, flowshop_picture(ON_SHOP, of.upper, lent.text))
CALL(neh, flowshop_neh(lent.shop, lent.reached))
CALL(improve, flowshop_improve(ON_SHOP, lent.effort, lent.reached))
CALL(check, flowshop_check(lent.shop, lent.certificate, of.certificate_count, lent.bounds))
CALL(check_counted, flowshop_check(lent.shop, lent.counted, of.counted_count, lent.bounds))
CALL(check_within, flowshop_check_within(lent.shop, lent.counted, of.counted_count, DIRECTIONS_MOST, lent.bounds))
CALL(solve, flowshop_solve(ON_SHOP, lent.plan, lent.bounds, lent.text))
CALL(certify, flowshop_certify(ON_SHOP, lent.effort, DIRECTIONS_MOST, lent.bounds, lent.text))
CALL(run, flowshop_run(ON_SHOP, DIRECTIONS_MOST, 1, lent.run))
CALL(run_text, flowshop_run_text(ON_SHOP, 5, lent.certificate, of.certificate_count, lent.text))
CALL(run_counted, flowshop_run_counted(ON_SHOP, 5, 7, lent.text))
CALL(prove, flowshop_prove(lent.shop, lent.root, of.upper, lent.part))
CALL(prove_node, flowshop_prove(lent.shop, lent.node, of.upper + 1, lent.part))
CALL(tally, flowshop_tally(lent.shop, lent.root, of.upper, DIRECTIONS_MOST, lent.part))
CALL(tally_node, flowshop_tally(lent.shop, lent.node, of.upper + 1, DIRECTIONS_MOST, lent.part))
CALL(beam, flowshop_beam(ON_SHOP, lent.beam, lent.reached))
CALL(rounds, flowshop_rounds(ON_SHOP, lent.rounds, lent.reached))

#define BIT(LENGTH) (1u << (LENGTH))
#define READ (BIT(SHOP_TIMES) | BIT(START))
/* Each call, and the lengths that it refuses where they are one too short. */
static const struct call {
    const char *name;
    flowshop_outcome (*make)(void);
    unsigned lengths;
} CALLS[] = {
    {"generate", generate, BIT(TIMES)}, {"block", block, BIT(TIMES)}, {"makespan", makespan, READ},
    {"makespans", makespans, BIT(SHOP_TIMES) | BIT(STARTS)},
    {"timetable", timetable, READ | BIT(STARTS) | BIT(ENDS)}, {"picture", picture, READ | BIT(TEXT)},
    {"neh", neh, BIT(SHOP_TIMES) | BIT(SEQUENCE)}, {"improve", improve, READ | BIT(SEQUENCE)},
    {"check", check, BIT(SHOP_TIMES) | BIT(SEQUENCE)}, {"check", check_counted, BIT(SHOP_TIMES) | BIT(SEQUENCE)},
    {"check_within", check_within, BIT(SHOP_TIMES) | BIT(SEQUENCE)},
    {"solve", solve, READ | BIT(SEQUENCE) | BIT(TEXT)},
    {"certify", certify, READ | BIT(SEQUENCE) | BIT(TEXT)}, {"run", run, READ},
    {"run_text", run_text, READ | BIT(TEXT)}, {"run_counted", run_counted, READ | BIT(TEXT)},
    {"prove", prove, BIT(SHOP_TIMES) | BIT(SEQUENCE) | BIT(REST)},
    {"prove of a node", prove_node, BIT(SHOP_TIMES) | BIT(SEQUENCE) | BIT(REST)},
    {"tally", tally, BIT(SHOP_TIMES) | BIT(SEQUENCE) | BIT(REST)},
    {"tally of a node", tally_node, BIT(SHOP_TIMES) | BIT(SEQUENCE) | BIT(REST)},
    {"beam", beam, READ | BIT(SEQUENCE)}, {"rounds", rounds, READ | BIT(SEQUENCE)}};
enum { CALLS_COUNT = sizeof CALLS / sizeof *CALLS };

/* Makes a call with these lengths. */
static flowshop_outcome made(const struct call *call, const size_t *lengths) {
    called = call->name;
    lend_all(lengths);
    untouched = written();
    asked = 0, held = 0, is_called = 1;
    const flowshop_outcome outcome = call->make();
    is_called = 0;
    is("the slices", (uint64_t)has_slices(), 1);
    is("blocks that are held", (uint64_t)held, 0);
    return outcome;
}

/* The exact lengths of a call. */
static void lengths_of(const struct call *call, size_t *lengths) {
    const size_t jobs = of.shop.jobs, count = jobs * of.shop.machines;
    const size_t exact[LENGTHS] = {count, jobs, count, count, count, jobs, 0, 2, 0};
    memcpy(lengths, exact, sizeof exact);
    if (call->make == makespans) lengths[STARTS] = 1;
    how = "asked for its room";
    const flowshop_outcome outcome = made(call, lengths);
    if (outcome.status == FLOWSHOP_ROOM) lengths[call->lengths & BIT(TEXT) ? TEXT : REST] = outcome.place;
}

/* A call with each length one too short, and none: what is wrong, and all as it was. */
static void too_short(const struct call *call, const size_t *exact) {
    for (int i = 0; i < LENGTHS; i++) {
        const uint32_t wanted = i == SHOP_TIMES ? FLOWSHOP_COUNT : i == START ? FLOWSHOP_LENGTH : FLOWSHOP_ROOM;
        for (int is_none = 0; is_none < 2 && call->lengths & BIT(i) && exact[i]; is_none++) {
            size_t lengths[LENGTHS];
            memcpy(lengths, exact, sizeof lengths);
            lengths[i] = is_none ? 0 : exact[i] - 1;
            how = is_none ? "with a length of none" : "with a length one too short";
            const flowshop_outcome outcome = made(call, lengths);
            is("status", outcome.status, wanted);
            is("place", outcome.place, wanted == FLOWSHOP_ROOM ? exact[i] : 0);
            is("whether all is as it was", (uint64_t)is_untouched(), 1);
        }
    }
}

/* A certificate that is cut off at the edge, after every so many bytes: the same as where more bytes stand behind. */
static void check_cut(const uint8_t *text, size_t length, size_t step) {
    static uint16_t sequence[MOST_JOBS];
    flowshop_bounds bounds = {sequence, of.shop.jobs, 0, 0};
    called = "check";
    for (size_t count = 0; count < length; count += step) {
        const flowshop_outcome wanted = flowshop_check(&of.shop, text, count, &bounds);
        const flowshop_outcome outcome = flowshop_check(&of.shop, lend(text, count), count, &bounds);
        is("status", outcome.status, wanted.status);
        is("place", outcome.place, wanted.place);
        is("whether it is refused", outcome.status >= FLOWSHOP_HEADER, 1);
        give_back();
    }
}

/* A text that is cut off at the edge, after every so many bytes: the same as where more bytes stand behind it. */
static void cut_off(size_t step) {
    static uint32_t times[MOST_TIMES];
    flowshop_benchmark block = {0, 0, times, MOST_TIMES, 0, 0, 0};
    how = "of a text that is cut off";
    for (size_t count = 0; count < of.benchmark_count; count += step) {
        called = "block";
        const flowshop_outcome wanted = flowshop_block(of.benchmark, count, 1, &block);
        const flowshop_outcome outcome = flowshop_block(lend(of.benchmark, count), count, 1, &block);
        is("status", outcome.status, wanted.status);
        is("place", outcome.place, wanted.place);
        give_back();
    }
    check_cut(of.certificate, of.certificate_count, step);
    check_cut(of.counted, of.counted_count, step);
}

/* Each request for memory refused in turn, alone or with all behind it; how many calls were refused for it. */
static size_t refusals(const struct call *call, const size_t *exact, flowshop_outcome right, uint64_t sum, int all) {
    size_t refused = 0;
    how = all ? "with no memory from some request on" : "with a request for memory refused";
    for (size_t number = 1;; number++) {
        first_refused = number;
        last_refused = all ? SIZE_MAX - 1 : number;
        const flowshop_outcome outcome = made(call, exact);
        first_refused = last_refused = SIZE_MAX;
        if (outcome.status == FLOWSHOP_MEMORY) {
            refused++;
            is("place", outcome.place, 0);
            is("whether all is as it was", (uint64_t)is_untouched(), 1);
            is("whether a request was refused", asked >= number, 1);
        } else {
            is("status", outcome.status, right.status);
            is("what is written", written(), sum);
        }
        if (asked < number) return refused;
    }
}

/* All calls of a shop. Of the greatest one no certificate of trees is asked for, and no memory is refused. */
static size_t try_shop(uint32_t jobs, uint32_t machines) {
    size_t refused = 0;
    prepare(jobs, machines);
    for (int i = 0; i < CALLS_COUNT; i++) {
        const struct call *call = &CALLS[i];
        if (jobs > SMALL && call->make == solve) continue;
        size_t exact[LENGTHS], requests = 0, ended = 0;
        uint64_t sums[2];
        flowshop_outcome outcome = {0, 0};
        for (is_behind = 0; is_behind < 2; is_behind++) {
            lengths_of(call, exact);
            how = is_behind ? "with pages behind" : "with pages before";
            outcome = made(call, exact);
            is("status", outcome.status, FLOWSHOP_DONE);
            is("whether all is as it was", (uint64_t)is_untouched(), 0);
            sums[is_behind] = written();
            requests = asked;
            too_short(call, exact);
        }
        is("what is written with pages behind and before", sums[1], sums[0]);
        if (jobs > SMALL) continue;
        for (int all = 0; all < 2; all++) ended += refusals(call, exact, outcome, sums[1], all);
        is("whether memory ran out", ended > 0, requests > 0);
        refused += ended;
    }
    for (is_behind = 0; is_behind < 2; is_behind++) cut_off(jobs > SMALL ? 997 : 1);
    return refused;
}

int main(void) {
    signal(SIGSEGV, stopped);
    signal(SIGBUS, stopped);
    size_t refused = try_shop(1, 1);
    refused += try_shop(3, 3);
    refused += try_shop(9, 5);
    refused += try_shop(MOST_JOBS, FLOWSHOP_MAX_MACHINES);
    printf("calls at edges: %zu without memory; %d as they should be, %d not\n", refused, passed, failed);
    return failed != 0;
}
