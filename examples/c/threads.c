/* Certifies a block of a benchmark text by several threads, and writes the certificate to standard output:
 * threads FILE INDEX THREADS [WIDTH ROUNDS SEED WORK DIRECTIONS]
 * The text is that of one call of flowshop_certify, however many threads there are. */
#include "flowshop.h"
#include <pthread.h>
#include <stdio.h>
#include <stdlib.h>
#include <string.h>

enum { MOST_JOBS = 800, MOST_TIMES = 26 * MOST_JOBS, MOST_TEXT = 16777216, PIECE = 50000 };

/* A place of a search: its part, as flowshop_prove writes one, and the directions that were written there. */
struct place {
    uint16_t *part;
    uint8_t *directions;
};

/* What the threads share. */
static pthread_mutex_t lock = PTHREAD_MUTEX_INITIALIZER;
static pthread_cond_t changed = PTHREAD_COND_INITIALIZER;
static flowshop_shop shop;
static uint64_t number;
static flowshop_search_state search;
static flowshop_place *places;
static struct place *kept;
static size_t room;
static uint16_t found_sequence[MOST_JOBS];
static uint64_t found_makespan;

static void done(flowshop_outcome outcome) {
    if (outcome.status == FLOWSHOP_DONE) return;
    fprintf(stderr, "refused: %s at %zu\n", flowshop_status_name(outcome.status), outcome.place);
    exit(1);
}

static void *given(void *memory) {
    if (memory == NULL) {
        fputs("memory ran out\n", stderr);
        exit(1);
    }
    return memory;
}

static size_t length_of(const uint16_t *part) { return 4u + part[0] + part[1] + part[2]; }

static void *copy_of(const void *bytes, size_t count) { return memcpy(given(malloc(count + 1)), bytes, count); }

static void make_room(size_t count) {
    if (count > room) room = 2 * count;
    places = (flowshop_place *)given(realloc(places, room * sizeof *places));
    kept = (struct place *)given(realloc(kept, room * sizeof *kept));
}

/* The node of a part, or of one child of it. Its lists are written to `lists`. */
static flowshop_node node_of(const uint16_t *part, size_t child, uint16_t *lists) {
    const uint16_t *jobs = part + 4 + part[0] + part[1];
    flowshop_node node = {lists, part[0], lists + part[0] + 1, part[1]};
    uint16_t *last = lists + part[0] + 1;
    memcpy(lists, part + 4, part[0] * sizeof *part);
    if (part[3] == 1) lists[node.first_count++] = jobs[child];
    if (part[3] == 2) last[0] = jobs[child], node.last_count++;
    memcpy(last + (part[3] == 2), part + 4 + part[0], part[1] * sizeof *part);
    return node;
}

/* What became of a place: directions, and the parts that are left, one behind the other. */
struct answer {
    flowshop_searched searched;
    uint8_t directions[PIECE];
    uint16_t left[(MOST_JOBS + 4) * (MOST_JOBS + 1)], sequence[MOST_JOBS];
    uint64_t makespan;
};

/* Searches a part, until it ends or so many directions are written. */
static void search_part(const uint16_t *part, size_t most, struct answer *answer) {
    uint16_t lists[MOST_JOBS + 2];
    const size_t children = part[3] == 0 ? 1 : part[2];
    memset(&answer->searched, 0, sizeof answer->searched);
    for (size_t child = 0; child < children; child++) {
        const flowshop_node node = node_of(part, child, lists);
        flowshop_part found = {answer->sequence, MOST_JOBS, answer->directions + answer->searched.written,
                               most - answer->searched.written, answer->left, sizeof answer->left / sizeof *part,
                               0, 0, 0, 0};
        done(flowshop_prove(&shop, &node, number, &found));
        answer->searched.written += found.directions_length;
        answer->makespan = found.makespan;
        answer->searched.reached = found.found == FLOWSHOP_BELOW;
        if (found.found == FLOWSHOP_BELOW) return;
        if (found.found == FLOWSHOP_OVER) {
            uint16_t *end = answer->left + found.rest_length;
            for (uint16_t *at = answer->left; at < end; at += length_of(at)) answer->searched.left++;
            if (child + 1 == children) return;
            /* The other children. */
            memcpy(end, part, (4u + part[0] + part[1]) * sizeof *part);
            end[2] = (uint16_t)(children - child - 1);
            memcpy(end + 4 + part[0] + part[1], part + length_of(part) - end[2], end[2] * sizeof *part);
            answer->searched.left++;
            return;
        }
    }
}

/* Puts what became of a place. */
static void put(uint64_t place, const struct answer *answer) {
    const uint16_t *part = answer->left;
    uint64_t first;
    make_room(search.places + answer->searched.left);
    done(flowshop_search_put(&search, places, room, place, &answer->searched, &first));
    if (first == 0) return;
    kept[place].directions = (uint8_t *)copy_of(answer->directions, answer->searched.written);
    for (uint64_t each = first - 1; each < search.places; each++, part += length_of(part)) {
        kept[each].part = (uint16_t *)copy_of(part, length_of(part) * sizeof *part);
        kept[each].directions = NULL;
    }
    if (answer->searched.reached) {
        memcpy(found_sequence, answer->sequence, sizeof found_sequence);
        found_makespan = answer->makespan;
    }
}

static void *work(void *nothing) {
    struct answer *answer = (struct answer *)given(malloc(sizeof *answer));
    uint32_t found;
    uint64_t place;
    pthread_mutex_lock(&lock);
    while (done(flowshop_search_found(&search, &found, &place)), found == 0) {
        done(flowshop_search_give(&search, places, room, &place));
        if (place == 0) {
            pthread_cond_wait(&changed, &lock);
            continue;
        }
        const uint16_t *part = kept[place - 1].part;
        const uint64_t left = search.budget - search.settled;
        pthread_mutex_unlock(&lock);
        search_part(part, left < PIECE ? (size_t)left + 1 : (size_t)PIECE, answer);
        pthread_mutex_lock(&lock);
        put(place - 1, answer);
        pthread_cond_broadcast(&changed);
    }
    pthread_mutex_unlock(&lock);
    free(answer);
    return nothing;
}

/* Searches below a number by so many threads. What is found; the directions of a proof are written. */
static flowshop_answer search_below(const flowshop_task *task, int count, uint8_t *directions) {
    static const uint16_t root[4] = {0, 0, 0, 0};
    pthread_t threads[64];
    flowshop_answer answer = {0, 0, 0, 0};
    uint64_t place;
    number = task->number;
    make_room(1);
    kept[0].part = (uint16_t *)copy_of(root, sizeof root);
    kept[0].directions = NULL;
    done(flowshop_search(task->budget, places, room, &search));
    for (int thread = 1; thread < count; thread++) {
        if (pthread_create(&threads[thread], NULL, work, NULL) != 0) exit(1);
    }
    work(NULL);
    for (int thread = 1; thread < count; thread++) pthread_join(threads[thread], NULL);
    done(flowshop_search_found(&search, &answer.found, &place));
    answer.makespan = answer.found == FLOWSHOP_BELOW ? found_makespan : 0;
    answer.directions = answer.found == FLOWSHOP_OVER ? 0 : search.written;
    for (uint64_t at = 1; answer.found == FLOWSHOP_PROVED && at > 0; at = places[at - 1].next) {
        memcpy(directions, kept[at - 1].directions, places[at - 1].written);
        directions += places[at - 1].written;
    }
    for (uint64_t each = 0; each < search.places; each++) {
        free(kept[each].part);
        free(kept[each].directions);
    }
    return answer;
}

/* Makes a run, and keeps its best sequence and its directions. Gives how many of these there are. */
static size_t certify(flowshop_run_state *run, const flowshop_effort *effort, uint16_t kept_sequences[3][MOST_JOBS],
                      int threads, uint8_t *directions, uint8_t *found) {
    size_t length = 0;
    flowshop_task task;
    while (done(flowshop_run_next(run, effort, &task)), task.kind != FLOWSHOP_TASK_END) {
        flowshop_answer answer = {FLOWSHOP_REACHED, 0, 0, 0};
        flowshop_reached reached = {found_sequence, MOST_JOBS, 0, 0};
        uint32_t better;
        if (task.kind == FLOWSHOP_TASK_SEARCH) {
            answer = search_below(&task, threads, found);
        } else {
            const uint16_t *from = kept_sequences[task.origin];
            done(task.kind == FLOWSHOP_TASK_BEAM ? flowshop_beam(&shop, from, shop.jobs, &task.beam, &reached)
                                                 : flowshop_rounds(&shop, from, shop.jobs, &task.rounds, &reached));
            answer.makespan = reached.makespan;
            answer.whole = reached.whole;
        }
        done(flowshop_run_put(run, &task, &answer, &better));
        if (better) {
            memcpy(kept_sequences[2], kept_sequences[1], sizeof kept_sequences[2]);
            memcpy(kept_sequences[1], found_sequence, sizeof kept_sequences[1]);
        }
        if (answer.found == FLOWSHOP_PROVED) memcpy(directions, found, length = answer.directions);
    }
    return length;
}

/* Reads a block of a file, as the shop, and its starting sequence. */
static void read_shop(const char *name, uint32_t index, uint32_t *times, flowshop_reached *start) {
    flowshop_benchmark block = {0, 0, times, MOST_TIMES, 0, 0, 0};
    uint8_t *text = (uint8_t *)given(malloc(MOST_TEXT));
    FILE *file = fopen(name, "rb");
    if (file == NULL) {
        perror(name);
        exit(1);
    }
    const size_t length = fread(text, 1, MOST_TEXT, file);
    if (ferror(file)) {
        perror(name);
        exit(1);
    }
    done(flowshop_block(text, length, index, &block));
    fclose(file);
    free(text);
    shop.jobs = block.jobs;
    shop.machines = block.machines;
    shop.times = times;
    shop.times_count = (size_t)block.jobs * block.machines;
    done(flowshop_neh(&shop, start));
}

int main(int count, char **words) {
    static uint32_t times[MOST_TIMES];
    static uint16_t sequences[3][MOST_JOBS]; /* the start, the best one, and the one that was the best before it */
    uint32_t numbers[9] = {0, 0, 0, 1, 4096, 10000, 1, 8500, 100000000};
    flowshop_reached start = {sequences[0], MOST_JOBS, 0, 0};
    flowshop_run_state run;
    for (int word = 2; word < count && word < 9; word++) numbers[word] = (uint32_t)strtoul(words[word], NULL, 10);
    if ((count != 4 && count != 9) || numbers[3] < 1 || numbers[3] > 64) {
        fputs("usage: threads FILE INDEX THREADS [WIDTH ROUNDS SEED WORK DIRECTIONS], with 1 to 64 threads\n", stderr);
        return 2;
    }
    const flowshop_effort effort = {numbers[4], numbers[5], numbers[6], numbers[7]};
    const uint32_t most = numbers[8];
    read_shop(words[1], numbers[2], times, &start);
    memcpy(sequences[1], sequences[0], sizeof sequences[0]);
    memcpy(sequences[2], sequences[0], sizeof sequences[0]);
    done(flowshop_run(&shop, sequences[0], shop.jobs, most, 0, &run));
    uint8_t *directions = (uint8_t *)given(malloc(most)), *found = (uint8_t *)given(malloc(most));
    const size_t length = certify(&run, &effort, sequences, (int)numbers[3], directions, found);
    flowshop_text text = {(uint8_t *)given(malloc(length + 4000)), length + 4000, 0};
    done(flowshop_run_text(&shop, sequences[1], shop.jobs, run.lower, directions, length, &text));
    if (fwrite(text.bytes, 1, text.length, stdout) != text.length || fclose(stdout) != 0) return 1;
    free(text.bytes);
    free(found);
    free(directions);
    free(places);
    free(kept);
    return 0;
}
