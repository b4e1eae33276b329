/* Finds the least makespan of a small shop, and checks its certificate. */
#include "flowshop.h"
#include <stdio.h>

int main(void) {
    const uint32_t times[9] = {4, 0, 0, 0, 8, 2, 4, 0, 1}; /* three machines, each with the times of three jobs */
    const flowshop_shop shop = {3, 3, times, 9};
    const flowshop_effort effort = {16, 100, 1, 1};
    uint16_t start[3], best[3];
    uint8_t bytes[1000 + 3300];
    flowshop_reached begun = {start, 3, 0, 0};
    flowshop_bounds bounds = {best, 3, 0, 0};
    flowshop_text text = {bytes, sizeof bytes, 0};
    flowshop_outcome outcome = flowshop_neh(&shop, &begun);
    if (!outcome.status) outcome = flowshop_certify(&shop, start, 3, &effort, 1000, &bounds, &text);
    if (!outcome.status) outcome = flowshop_check(&shop, bytes, text.length, &bounds);
    if (outcome.status) return printf("%s at %zu\n", flowshop_status_name(outcome.status), outcome.place), 1;
    if (bounds.lower == bounds.upper) printf("least makespan");
    else printf("at least %llu; found", (unsigned long long)bounds.lower);
    printf(" %llu: %d %d %d\n", (unsigned long long)bounds.upper, best[0], best[1], best[2]);
    return 0;
}
