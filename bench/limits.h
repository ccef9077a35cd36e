/* The limits of a table, and the deadlines that it may have, for every C program of the bench: those of the sumpcandle.h that it is
   compiled with. That is the present one, and beside the archive of an earlier commit that commit's own. */

#ifndef BENCH_LIMITS_H
#define BENCH_LIMITS_H

#include "sumpcandle.h"

enum {
    TRANSACTIONS = SUMPCANDLE_TRANSACTIONS,
    TASKS = SUMPCANDLE_TASKS,
    TASKS_IN_TRANSACTION = 16,
    MODES = SUMPCANDLE_MODES
};

/* Whether a deadline is below the offset plus the greatest time of the task: refusal 14. An archive of before document 02's fifth
   request has no such rule, and is compiled for with ANY_DEADLINE. */
static inline int is_short(int64_t deadline, int64_t offset, int64_t longest) {
#ifdef ANY_DEADLINE
    (void)deadline, (void)offset, (void)longest;
    return 0;
#else
    return deadline < offset + longest;
#endif
}

#endif
