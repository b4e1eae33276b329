/* Finds the least makespan of a block of a benchmark text, or bounds of it: published [FILE [INDEX [DIRECTIONS]]]
 * It writes the text that proves them to published.certificate, and a picture of the sequence to published.svg.
 * DIRECTIONS is the most that the text has. */
#include "flowshop.h"
#include <inttypes.h>
#include <stdbool.h>
#include <stdio.h>
#include <stdlib.h>

/* The bytes that are enough for each file that is read, for a text beside its directions, and for every picture. */
enum { MOST_TIMES = FLOWSHOP_MAX_JOBS * FLOWSHOP_MAX_MACHINES, MOST_TEXT = 1 << 24 };

static void need(bool holds, const char *what) {
    if (holds) return;
    fprintf(stderr, "not done: %s\n", what);
    exit(1);
}

static void done(flowshop_outcome outcome) {
    if (outcome.status == FLOWSHOP_DONE) return;
    fprintf(stderr, "refused: %s at %zu\n", flowshop_status_name(outcome.status), outcome.place);
    exit(1);
}

static void save(const char *name, const flowshop_text *text) {
    FILE *file = fopen(name, "wb");
    need(file && fwrite(text->bytes, 1, text->length, file) == text->length && fclose(file) == 0, name);
}

int main(int count, char **words) {
    static uint32_t times[MOST_TIMES];
    static uint16_t start[FLOWSHOP_MAX_JOBS], best[FLOWSHOP_MAX_JOBS];
    const char *name = count > 1 ? words[1] : "examples/taillard_20_5.txt";
    const uint32_t index = count > 2 ? (uint32_t)strtoul(words[2], NULL, 10) : 1;
    const uint32_t directions = count > 3 ? (uint32_t)strtoul(words[3], NULL, 10) : 100000000;
    const size_t room = (size_t)MOST_TEXT + directions;
    flowshop_text text = {(uint8_t *)malloc(room), room, 0};
    need(text.bytes, "no memory");
    FILE *file = fopen(name, "rb");
    need(file, name);
    text.length = fread(text.bytes, 1, room, file);
    need(feof(file) && fclose(file) == 0, name);
    flowshop_benchmark block = {0, 0, times, MOST_TIMES, 0, 0, 0};
    done(flowshop_block(text.bytes, text.length, index, &block));
    const flowshop_shop shop = {block.jobs, block.machines, times, (size_t)block.jobs * block.machines};
    flowshop_reached begun = {start, shop.jobs, 0, 0};
    done(flowshop_neh(&shop, &begun));
    const flowshop_effort effort = {4096, 10000, 1, 8500}; /* the program's own width, rounds, seed and work */
    flowshop_bounds bounds = {best, shop.jobs, 0, 0};
    done(flowshop_certify(&shop, start, shop.jobs, &effort, directions, &bounds, &text));
    done(flowshop_check(&shop, text.bytes, text.length, &bounds));
    save("published.certificate", &text);
    done(flowshop_picture(&shop, best, shop.jobs, bounds.lower, &text));
    save("published.svg", &text);
    free(text.bytes);
    printf("least makespan %" PRIu64, bounds.lower);
    if (bounds.lower < bounds.upper) printf(" to %" PRIu64, bounds.upper);
    for (uint32_t i = 0; i < shop.jobs; i++) printf("%s %d", i == 0 ? ":" : "", best[i]);
    puts("");
    return 0;
}
