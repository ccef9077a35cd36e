/* What the C programs share: the decoded table, and the answer to it. stream.c reads the stream of cases and prints the
   lines; plain.c and fast.c each define `analyse`. */

#ifndef BENCH_STREAM_H
#define BENCH_STREAM_H

#include <stdint.h>

#include "limits.h"

enum { HORIZON = 16777215 };

enum { BOUNDED = 0, LATE = 20, OVERLOAD = 21, PAST_HORIZON = 22, BUDGET_SPENT = 23 };

/* Tasks are numbered from 0 in image order; transaction v has the tasks first[v] .. first[v + 1] - 1. */
struct table {
    int64_t frame;
    int transactions;
    int tasks;
    int64_t period[TRANSACTIONS];
    int modes[TRANSACTIONS];
    int first[TRANSACTIONS + 1];
    int transaction_of[TASKS];
    int64_t offset[TASKS];
    int64_t jitter[TASKS];
    int64_t blocking[TASKS];
    int64_t deadline[TASKS];
    int priority[TASKS];
    int64_t time[TASKS][MODES];
};

/* The last three say where the bound comes from, and are 0 without one. */
struct cells {
    uint32_t code;
    uint32_t bound;
    uint32_t evaluations;
    uint32_t mode;
    uint32_t candidate; /* its number in the whole table */
    uint32_t job;       /* its number minus that of the candidate's first */
};

/* The greatest response of a walk so far, and the first in it that gives that: later ones count only if they are
   greater. Every walk has a response of at least 1. */
struct greatest {
    int64_t response;
    uint32_t mode, candidate, job;
};

static inline struct cells cells_of(uint32_t code, uint32_t evaluations, const struct greatest *greatest) {
    struct cells cells = {code, 0, evaluations, 0, 0, 0};
    if (code == BOUNDED || code == LATE) {
        cells.bound = (uint32_t)greatest->response;
        cells.mode = greatest->mode;
        cells.candidate = greatest->candidate;
        cells.job = greatest->job;
    }
    return cells;
}

/* The cells of the first so many tasks. */
void analyse(const struct table *table, int tasks, uint32_t budget, struct cells *cells);

#endif
