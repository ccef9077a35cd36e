/* An example host that says who pushed a task: what its bound is made of.

   pushed FILE TASK    prints the bound by its two equations, then a line for each other transaction that has rivals of the task;
                       or `no bound`, or `refused N P`. The budget is the listing program's. */

#include <inttypes.h>
#include <stdio.h>
#include <stdlib.h>

#include "sumpcandle.h"

/* One byte more than the longest image is enough to be refused as the whole file would be. */
enum { ROOM = SUMPCANDLE_LONGEST + 1 };

/* What each other transaction imposes until the completion; together with `parts` it makes up the completion. */
static void print_others(const uint8_t *image, size_t length, uint32_t task, uint32_t completion) {
    for (uint32_t i = 0;; i++) {
        uint64_t charge[SUMPCANDLE_CHARGE_CELLS];
        uint64_t answer = sumpcandle_charge(image, length, task, i, 0, completion, charge);
        if (answer == SUMPCANDLE_NO_TRANSACTION) {
            return;
        }
        if (answer == SUMPCANDLE_GIVEN) {
            printf("transaction %" PRIu32 ": %" PRIu64 ", by candidate %" PRIu64 " in mode %" PRIu64 "\n", i,
                   charge[SUMPCANDLE_CHARGE_TICKS], charge[SUMPCANDLE_CHARGE_CANDIDATE], charge[SUMPCANDLE_CHARGE_MODE]);
        }
    }
}

int main(int count, char **arguments) {
    static uint8_t image[ROOM];
    if (count != 3) {
        fputs("usage: pushed FILE TASK\n", stderr);
        return 3;
    }
    uint32_t task = (uint32_t)strtoul(arguments[2], NULL, 10);
    FILE *file = fopen(arguments[1], "rb");
    if (file == NULL) {
        perror(arguments[1]);
        return 3;
    }
    size_t length = fread(image, 1, ROOM, file);
    if (ferror(file)) {
        perror(arguments[1]);
        return 3;
    }
    fclose(file);

    int64_t parts[SUMPCANDLE_PARTS_CELLS];
    uint64_t answer = sumpcandle_parts(image, length, task, SUMPCANDLE_BUDGET, parts);
    if (sumpcandle_number(answer) != 0) {
        printf("refused %" PRIu32 " %" PRIu32 "\n", sumpcandle_number(answer), sumpcandle_value(answer));
        return 2;
    }
    if (answer == SUMPCANDLE_NO_BOUND) {
        puts("no bound");
        return 1;
    }
    int64_t completion = parts[SUMPCANDLE_PARTS_COMPLETION], arrival = parts[SUMPCANDLE_PARTS_ARRIVAL];
    int64_t offset = parts[SUMPCANDLE_PARTS_OFFSET], blocking = parts[SUMPCANDLE_PARTS_BLOCKING];
    int64_t jobs = parts[SUMPCANDLE_PARTS_JOBS], rivals = parts[SUMPCANDLE_PARTS_RIVALS];
    printf("bound %" PRId64 ": completion %" PRId64 " - arrival %" PRId64 " + offset %" PRId64 "\n", completion - arrival + offset,
           completion, arrival, offset);
    printf("completion %" PRId64 ": blocking %" PRId64 " + own jobs %" PRId64 " + own rivals %" PRId64 " + others %" PRId64 "\n",
           completion, blocking, jobs, rivals, completion - blocking - jobs - rivals);
    print_others(image, length, task, (uint32_t)completion);
    return 0;
}
