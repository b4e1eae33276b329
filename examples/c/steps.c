/* Finds bounds of the least makespan of a published shop task by task, and says after each what is known:
 * steps [TASKS [count]]
 * After so many tasks, or an interrupt (Ctrl-C), it stops. It writes the text that proves the bounds to
 * steps.certificate: with `count` one that has the number of its directions alone, and needs no memory for signs. */
#include "flowshop.h"
#include <inttypes.h>
#include <signal.h>
#include <stdio.h>
#include <stdlib.h>
#include <string.h>

enum { JOBS = 20, MACHINES = 20, SEED = 479340445, MOST = 10000000 };

static volatile sig_atomic_t stopped;

static void stop(int number) {
    (void)number;
    stopped = 1;
}

static void done(flowshop_outcome outcome) {
    if (outcome.status == FLOWSHOP_DONE) return;
    fprintf(stderr, "refused: %s at %zu\n", flowshop_status_name(outcome.status), outcome.place);
    exit(1);
}

/* Searches below the number of a task. The directions are counted, or written to the room of the part. */
static flowshop_answer search_below(const flowshop_shop *shop, const flowshop_task *task, int counts,
                                    flowshop_part part) {
    const flowshop_node root = flowshop_root();
    done(counts ? flowshop_tally(shop, &root, task->number, task->budget, &part)
                : flowshop_prove(shop, &root, task->number, &part));
    const flowshop_answer answer = {part.found, 0, part.makespan, part.directions_length};
    return answer;
}

int main(int count, char **words) {
    static uint32_t times[JOBS * MACHINES];
    static uint8_t found[MOST], directions[MOST], bytes[MOST + 3300];
    static uint16_t rest[JOBS * (JOBS + 4)], kept[3][JOBS], sequence[JOBS]; /* the start, the best, the one before it */
    const long most = count > 1 ? strtol(words[1], NULL, 10) : 1000000;
    const int counts = count > 2 && strcmp(words[2], "count") == 0;
    const flowshop_shop shop = {JOBS, MACHINES, times, JOBS * MACHINES};
    const flowshop_effort effort = {1024, 1000, 1, 1000};
    size_t length = 0;
    flowshop_reached reached = {kept[0], JOBS, 0, 0};
    flowshop_run_state run;
    flowshop_task task;
    signal(SIGINT, stop);
    done(flowshop_generate(JOBS, MACHINES, SEED, times, JOBS * MACHINES));
    done(flowshop_neh(&shop, &reached));
    memcpy(kept[1], kept[0], sizeof kept[0]);
    memcpy(kept[2], kept[0], sizeof kept[0]);
    done(flowshop_run(&shop, kept[0], JOBS, MOST, 1, &run));
    reached.sequence = sequence;
    for (long tasks = 0; tasks < most && !stopped; tasks++) {
        flowshop_answer answer = {FLOWSHOP_REACHED, 0, 0, 0};
        uint32_t better;
        done(flowshop_run_next(&run, &effort, &task));
        if (task.kind == FLOWSHOP_TASK_END) break;
        if (task.kind == FLOWSHOP_TASK_SEARCH) {
            const flowshop_part part = {
                sequence, JOBS, counts ? NULL : found, task.budget, rest, sizeof rest / sizeof *rest, 0, 0, 0, 0};
            answer = search_below(&shop, &task, counts, part);
        } else {
            if (task.kind == FLOWSHOP_TASK_BEAM) {
                done(flowshop_beam(&shop, kept[task.origin], JOBS, &task.beam, &reached));
            } else {
                done(flowshop_rounds(&shop, kept[task.origin], JOBS, &task.rounds, &reached));
            }
            answer.whole = reached.whole;
            answer.makespan = reached.makespan;
        }
        done(flowshop_run_put(&run, &task, &answer, &better));
        if (better) {
            memcpy(kept[2], kept[1], sizeof kept[1]);
            memcpy(kept[1], sequence, sizeof kept[1]);
        } else if (answer.found == FLOWSHOP_PROVED) {
            length = answer.directions;
            if (!counts) memcpy(directions, found, length);
        }
        printf("step %" PRIu32 ": least makespan %" PRIu64 " to %" PRIu64 "\n", run.step, run.lower, run.upper);
        fflush(stdout);
    }
    flowshop_text text = {bytes, sizeof bytes, 0};
    done(counts ? flowshop_run_counted(&shop, kept[1], JOBS, run.lower, length, &text)
                : flowshop_run_text(&shop, kept[1], JOBS, run.lower, directions, length, &text));
    FILE *file = fopen("steps.certificate", "wb");
    if (file && fwrite(bytes, 1, text.length, file) == text.length && fclose(file) == 0) return 0;
    fprintf(stderr, "not done: steps.certificate\n");
    return 1;
}
