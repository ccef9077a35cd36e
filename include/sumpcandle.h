/* Sumpcandle for a host in C. Nine calls: sumpcandle_response answers for one task of a bit-packed task table, the image,
   with its worst-case response bound; sumpcandle_cells for every task, with who gave its bound; sumpcandle_parts, sumpcandle_part and
   sumpcandle_charge say who pushed the task: what its bound is made of, and who charged it; sumpcandle_plain gives its response by the
   plain jitter analysis, and sumpcandle_approximate a line above what it requests; sumpcandle_read gives the table of an image as a row
   of numbers, the cells; sumpcandle_write makes the image of a table in cells.

   For each of them the caller owes: the pointers are never NULL, also where `length` is 0, and point to as much memory as
   the call names; image, cells and buffer of one call do not overlap; during the call nobody else writes them, nor reads what
   the call writes. Any bytes and any numbers are allowed.

   A call keeps nothing between calls and has no globals, so threads may call at the same time. It always returns. */

#ifndef SUMPCANDLE_H
#define SUMPCANDLE_H

#include <stddef.h>
#include <stdint.h>

#ifdef __cplusplus
extern "C" {
#endif

/* The answer for the task of that number (from 0, in image order) within at most `budget` evaluations.

   Upper 32 bits: a code or a refusal, one of those below. Lower 32 bits: with SUMPCANDLE_IN_TIME and SUMPCANDLE_LATE
   the bound in ticks, from the task's event to its finish; with a refusal of the image its place, a bit position; else
   0.

   `image` points to `length` bytes. The time of a call grows at most with the evaluations of its answer, which are at most
   `budget`, and with what one of them costs: a host that must not wait gives a smaller budget than SUMPCANDLE_BUDGET. */
uint64_t sumpcandle_response(const uint8_t *image, size_t length, uint32_t task, uint32_t budget);

/* The answers for every task, into cells: SUMPCANDLE_RESULT_CELLS for each task, in the order of their numbers, from task k's first at
   k * SUMPCANDLE_RESULT_CELLS. The budget holds for each task afresh.

   Upper 32 bits: 0, or a refusal, 1 to 12 or 14. Lower 32 bits: with a refusal of the image its place, a bit position; else 0. With 0 every
   task of the table has its cells, and the cells behind them stay as they were. With a refusal every cell stays as it was.

   `image` points to `length` bytes, `cells` to `count` cells, at an address that is a multiple of 4. SUMPCANDLE_TASKS *
   SUMPCANDLE_RESULT_CELLS of them are enough for any table. */
uint64_t sumpcandle_cells(const uint8_t *image, size_t length, uint32_t budget, uint32_t *cells, size_t count);

/* Who pushed a task: what the bound that sumpcandle_response gives is made of, into cells.

   Upper 32 bits: 0, or a refusal, 1 to 11, 13 or 14. Lower 32 bits: with 0 a case, SUMPCANDLE_GIVEN or SUMPCANDLE_NO_BOUND; with a
   refusal of the image its place, a bit position; else 0. With SUMPCANDLE_GIVEN, so where the answer is 0, every one of the
   SUMPCANDLE_PARTS_CELLS cells is written. Else every cell stays as it was.

   The parts are given where sumpcandle_response gives a bound for that budget, and

       bound = completion - arrival + offset
       completion = blocking + own jobs + own rivals + the greatest charge of each other transaction, imposed until the completion

   A caller who wants all of them asks sumpcandle_parts once, and for each other transaction sumpcandle_charge, with `whole` 0
   and the completion for `t`.

   `image` points to `length` bytes, `cells` to SUMPCANDLE_PARTS_CELLS cells, at an address that is a multiple of 8. The time of a
   call is about that of sumpcandle_response. */
uint64_t sumpcandle_parts(const uint8_t *image, size_t length, uint32_t task, uint32_t budget, int64_t *cells);

/* The part of one other transaction in that bound: the charge, the mode and the candidate that sumpcandle_charge gives at the
   completion, into cells. Transactions are numbered from 0, in image order.

   Upper 32 bits: 0, or a refusal, 1 to 11, 13 or 14. Lower 32 bits: with 0 a case, one of those below; with a refusal of the image
   its place, a bit position; else 0. With SUMPCANDLE_GIVEN, so where the answer is 0, every one of the SUMPCANDLE_CHARGE_CELLS
   cells is written. Else every cell stays as it was. A task without a bound has SUMPCANDLE_NO_BOUND for every transaction.

   `image` points to `length` bytes, `cells` to SUMPCANDLE_CHARGE_CELLS cells, at an address that is a multiple of 8. Each call
   walks through the task's candidates anew, and takes about the time of sumpcandle_response. */
uint64_t sumpcandle_part(const uint8_t *image, size_t length, uint32_t task, uint32_t budget, uint32_t transaction,
                         uint64_t *cells);

/* The greatest charge of one other transaction against a task until `t` ticks after the critical instant, with the mode and the
   candidate that give it, into cells. With `whole` 0 it is the imposed charge, of which completions are made; else the released
   one, where a job is charged whole from its release on, of which busy lengths are made.

   Where several give the greatest charge, the least mode counts, and in it the first candidate in image order. Where there are
   rivals one is named, also if it charges 0, as with `t` 0.

   The answer and the cells are as those of sumpcandle_part, but SUMPCANDLE_NO_BOUND is never given: the task need not have a
   bound, and no evaluation is made. */
uint64_t sumpcandle_charge(const uint8_t *image, size_t length, uint32_t task, uint32_t transaction, uint32_t whole, uint32_t t,
                           uint64_t *cells);

/* The response of a task by the plain jitter analysis, for a table with one task and one mode in each transaction: completion + jitter,
   where the completion is the least t from 1 to 16,777,215 with

       t = B + C + the sum over every other task of at least its priority of ceil((t + J) / T) * C

   Upper 32 bits: 0, or a refusal: of the image, 1 to 11 or 14; then 13; then SUMPCANDLE_NOT_SINGLE; then SUMPCANDLE_NO_COMPLETION. Lower 32
   bits: with 0 the response in ticks, from a job's arrival to its finish; with a refusal of the image its place, a bit position; else 0.
   The response may pass 16,777,215; it is at most 33,554,430.

   Offsets play no part in it. Where it is at most the task's period, the bound of sumpcandle_response is this response plus the offset, if
   the budget lasts; two evaluations for each tick of the period do, so SUMPCANDLE_BUDGET does. Where it is above, it is that of the first
   job alone, and others may be queued behind: the bound may be greater, or there may be none, and only a bound holds for every job. A bound
   is never below response + offset, and with SUMPCANDLE_NO_COMPLETION there is none.

   `image` points to `length` bytes. There is no budget: the completion is searched for from 1 upwards, by steps that look at every
   transaction, until it is found or 16,777,215 is passed. A step goes at least a tick further, and mostly much further; the
   worst tables that were made have nearly a million of them for one task, which is not proved to be the most. */
uint64_t sumpcandle_plain(const uint8_t *image, size_t length, uint32_t task);

/* The linear approximation of what a task of such a table requests by t, which is ceil((t + J) / T) * C, into a cell. It is exact up to
   t = (k - 1) * T - J, and C + (t + J) * C / T beyond. So that it is a whole number it is given in T-ths of a tick: divided by the
   task's period T it is in ticks, never below what is requested, never more than C above, and never above 1 + 1 / k times it.

   Upper 32 bits: 0, or a refusal: of the image, 1 to 11 or 14; then 13; then SUMPCANDLE_NOT_SINGLE; then SUMPCANDLE_OUT_OF_RANGE. Lower 32
   bits: with a refusal of the image its place, a bit position; else 0. With 0 the cell is written. With a refusal it stays as it was.

   `k` is at least 1, `t` from 0 to 16,777,215. `image` points to `length` bytes, `cell` to one cell, at an address that is a multiple of
   8. No search is made. */
uint64_t sumpcandle_approximate(const uint8_t *image, size_t length, uint32_t task, uint32_t k, uint32_t t, uint64_t *cell);

/* The table of an image, into cells.

   Upper 32 bits: 0, or a refusal, 1 to 11 or 14. Lower 32 bits: the place of the refusal, a bit position; else 0. With 0 every one
   of the SUMPCANDLE_TABLE_CELLS cells is written, those that the table does not use with 0. With a refusal every cell stays as
   it was.

   `image` points to `length` bytes, `cells` to SUMPCANDLE_TABLE_CELLS cells, at an address that is a multiple of 4. */
uint64_t sumpcandle_read(const uint8_t *image, size_t length, uint32_t *cells);

/* The image of the table in the cells, into a buffer.

   Upper 32 bits: 0, or a refusal, 2 to 9, 14, 29 or 30. Lower 32 bits: the length of the image in bytes; with a refusal its place,
   the bit position that the field would have had, and 0 with 30. With 0 the bytes of the buffer beyond the image stay as they
   were. With a refusal every byte of the buffer stays as it was.

   The first fault in the order of the image counts. Of one field, 29 comes before its other rule; of a task, 29 of any time
   comes before 9, and 9 before 14. 30 comes after all others.

   What was written is accepted by sumpcandle_read, which gives the same table; what was read is written as the same bytes.

   `cells` points to SUMPCANDLE_TABLE_CELLS cells, at an address that is a multiple of 4, `buffer` to `length` bytes.
   SUMPCANDLE_LONGEST of them are enough for any table. */
uint64_t sumpcandle_write(const uint32_t *cells, uint8_t *buffer, size_t length);

/* The longest image, in bytes. */
#define SUMPCANDLE_LONGEST 5033

/* The budget of the programs, the listing among them: a host that asks with it gets their answers. Any other is allowed. A greater
   one alters no answer of sumpcandle_response and no task's cells of sumpcandle_cells unless the code was SUMPCANDLE_BUDGET_SPENT: then
   there may be another code, or the same after more evaluations. What sumpcandle_parts and sumpcandle_part have given stays. */
#define SUMPCANDLE_BUDGET 100000000

/* Bytes of stack to leave for a call, beside what a thread needs of its own. Not proved: bench/stack.c measured 44,552 over the
   samples, and the gate fails where it measures more than this. */
#define SUMPCANDLE_STACK 49152

/* The cells of a task of sumpcandle_cells. */
#define SUMPCANDLE_RESULT_CELLS 6
enum {
    SUMPCANDLE_RESULT_CODE = 0,        /* SUMPCANDLE_IN_TIME, or 20 to 23 */
    SUMPCANDLE_RESULT_BOUND = 1,       /* in ticks; this and those below but the evaluations are 0 without a bound */
    SUMPCANDLE_RESULT_EVALUATIONS = 2, /* that were made */
    SUMPCANDLE_RESULT_MODE = 3,        /* the first mode, candidate and job that give the bound: the mode, from 0 */
    SUMPCANDLE_RESULT_CANDIDATE = 4,   /* the number of the task that sets the critical instant */
    SUMPCANDLE_RESULT_JOB = 5          /* which of the queued jobs, from 0 */
};

/* The cells of sumpcandle_parts, in ticks. The critical instant is 0: a job that was held back to it arrived before, and its
   arrival is negative. */
#define SUMPCANDLE_PARTS_CELLS 6
enum {
    SUMPCANDLE_PARTS_COMPLETION = 0, /* of the job that gives the bound */
    SUMPCANDLE_PARTS_ARRIVAL = 1,    /* of that job */
    SUMPCANDLE_PARTS_OFFSET = 2,     /* of the task: that much before the arrival was the event */
    SUMPCANDLE_PARTS_BLOCKING = 3,   /* of the task */
    SUMPCANDLE_PARTS_JOBS = 4,       /* charged by the task's own jobs, up to the one that gives the bound */
    SUMPCANDLE_PARTS_RIVALS = 5      /* charged by its rivals in its own transaction until the completion */
};

/* The cells of sumpcandle_part and sumpcandle_charge. */
#define SUMPCANDLE_CHARGE_CELLS 3
enum {
    SUMPCANDLE_CHARGE_TICKS = 0,    /* may need more than 32 bits, but not up to a completion */
    SUMPCANDLE_CHARGE_MODE = 1,     /* from 0 */
    SUMPCANDLE_CHARGE_CANDIDATE = 2 /* the number of the task that sets the critical instant, as for sumpcandle_response */
};

/* Cases: the lower half of an answer of sumpcandle_parts, sumpcandle_part or sumpcandle_charge whose upper half is 0. */
enum {
    SUMPCANDLE_GIVEN = 0,          /* the cells are written */
    SUMPCANDLE_NO_BOUND = 1,       /* the task has no bound: sumpcandle_response says why */
    SUMPCANDLE_OWN = 2,            /* it is the task's own transaction, whose part sumpcandle_parts tells */
    SUMPCANDLE_NO_TRANSACTION = 3, /* there is no transaction of that number */
    SUMPCANDLE_NO_RIVALS = 4       /* none of its tasks is a rival: it charges 0, and names none */
};

/* The cells of a table: those of the header, then those of each transaction, then those of each task, in image order. There
   is room for SUMPCANDLE_TRANSACTIONS transactions and SUMPCANDLE_TASKS tasks, each with a time for SUMPCANDLE_MODES modes.
   Ticks are at most 16,777,215, but for a deadline's.

   The counts say which of them the table has: the transactions from number 0 on, and the tasks from number 0 on, first those
   of transaction 0, then those of transaction 1, and so on. They leave no gap: to add a task in between, move those behind it.

   Three cells follow from others: SUMPCANDLE_TASKS_IN_ALL_CELL, SUMPCANDLE_FIRST_TASK_CELL and SUMPCANDLE_OWNER_CELL.
   sumpcandle_read fills them. sumpcandle_write does not look at them, nor at spare cells, times beyond the mode count,
   transactions and tasks beyond the counts. Leave 0 in spare cells: a later version may use them.

   A new version may raise SUMPCANDLE_TRANSACTIONS and SUMPCANDLE_TASKS, and with them SUMPCANDLE_TASKS_START,
   SUMPCANDLE_TABLE_CELLS, SUMPCANDLE_LONGEST and SUMPCANDLE_STACK. How many cells a group has and the place of each field in its
   group stay. So a host that uses these names needs only to be compiled again. But that it must be, with the header of its archive:
   sumpcandle_read writes as many cells as the archive has. A host with small stacks must look at SUMPCANDLE_STACK, and one that
   keeps tables must keep images, not cells. */
#define SUMPCANDLE_TRANSACTIONS 63
#define SUMPCANDLE_TASKS 128
#define SUMPCANDLE_MODES 8

/* How many cells each group has; where the transactions and the tasks start; and all of them. */
#define SUMPCANDLE_HEADER_CELLS 5
#define SUMPCANDLE_TRANSACTION_CELLS 5
#define SUMPCANDLE_TASK_CELLS 14
#define SUMPCANDLE_TRANSACTIONS_START SUMPCANDLE_HEADER_CELLS
#define SUMPCANDLE_TASKS_START (SUMPCANDLE_TRANSACTIONS_START + SUMPCANDLE_TRANSACTIONS * SUMPCANDLE_TRANSACTION_CELLS)
#define SUMPCANDLE_TABLE_CELLS (SUMPCANDLE_TASKS_START + SUMPCANDLE_TASKS * SUMPCANDLE_TASK_CELLS)

/* The header. The fifth cell is spare. */
enum {
    SUMPCANDLE_EDITION_CELL = 0,
    SUMPCANDLE_FRAME_CELL = 1, /* the major frame */
    SUMPCANDLE_TRANSACTION_COUNT_CELL = 2,
    SUMPCANDLE_TASKS_IN_ALL_CELL = 3
};

/* A transaction, from sumpcandle_transaction_cell on. The fifth cell is spare. */
enum {
    SUMPCANDLE_PERIOD_CELL = 0,
    SUMPCANDLE_MODE_COUNT_CELL = 1,
    SUMPCANDLE_FIRST_TASK_CELL = 2, /* the number of its first task */
    SUMPCANDLE_TASK_COUNT_CELL = 3
};

/* A task, from sumpcandle_task_cell on. */
enum {
    SUMPCANDLE_OFFSET_CELL = 0,
    SUMPCANDLE_JITTER_CELL = 1,
    SUMPCANDLE_BLOCKING_CELL = 2,
    SUMPCANDLE_DEADLINE_CELL = 3, /* at most 67,108,863; at least the offset plus the greatest time */
    SUMPCANDLE_PRIORITY_CELL = 4, /* at most 255; a greater one is more urgent */
    SUMPCANDLE_OWNER_CELL = 5,    /* the number of its transaction */
    SUMPCANDLE_TIMES_CELL = 6     /* the execution time in mode 0; behind it those in the other modes */
};

/* The first cell of a transaction and of a task, by its number, from 0 in image order. So the deadline of task 2 is
   cells[sumpcandle_task_cell(2) + SUMPCANDLE_DEADLINE_CELL]. */
static inline size_t sumpcandle_transaction_cell(uint32_t transaction) {
    return SUMPCANDLE_TRANSACTIONS_START + (size_t)transaction * SUMPCANDLE_TRANSACTION_CELLS;
}

static inline size_t sumpcandle_task_cell(uint32_t task) {
    return SUMPCANDLE_TASKS_START + (size_t)task * SUMPCANDLE_TASK_CELLS;
}

/* Codes: the image is good and has that task. With a bound, every job of the task has finished when that many ticks have
   passed since its event, in every legal run. That a run is late is never said: a bound may be above what any run
   shows. */
enum {
    SUMPCANDLE_IN_TIME = 0,       /* bounded, and the bound keeps the deadline: every job does */
    SUMPCANDLE_LATE = 20,         /* bounded, and the bound is above the deadline: not shown to keep it */
    SUMPCANDLE_OVERLOAD = 21,     /* no bound: the task and its rivals may demand more than the major frame */
    SUMPCANDLE_PAST_HORIZON = 22, /* no bound: no busy time up to 16,777,215 ticks was found to end */
    SUMPCANDLE_BUDGET_SPENT = 23  /* not decided: one more evaluation was due */
};

/* Refusals: the first fault of the image, or of the table to be written; or no such task; or that the plain analysis has no answer. 2 to 9
   and 14 are the same in an image and in a table, at the same place. 14 is looked for behind a task's last time, and its place is that of
   the task's deadline: so it comes behind any other fault of that task, and before any of a later one. */
enum {
    SUMPCANDLE_CUT = 1,               /* the image ends inside a field */
    SUMPCANDLE_EDITION = 2,           /* edition is not 1 */
    SUMPCANDLE_FRAME = 3,             /* major frame 0 */
    SUMPCANDLE_TRANSACTION_COUNT = 4, /* transaction count outside 1 to 63, so 0: no more fits the field */
    SUMPCANDLE_PERIOD = 5,            /* period 0 or no divisor of the major frame */
    SUMPCANDLE_MODE_COUNT = 6,        /* mode count outside 1 to 8 */
    SUMPCANDLE_TASK_COUNT = 7,        /* task count outside 1 to 16, or more than 128 tasks in all */
    SUMPCANDLE_DEADLINE = 8,          /* deadline 0 */
    SUMPCANDLE_NO_TIME = 9,           /* a task with time 0 in every mode */
    SUMPCANDLE_PADDING = 10,          /* a padding bit is 1 */
    SUMPCANDLE_BYTES_FOLLOW = 11,     /* bytes follow the table */
    SUMPCANDLE_NO_ROOM = 12,          /* the image is good, and there are fewer cells than its tasks need */
    SUMPCANDLE_NO_TASK = 13,          /* the image is good and has no task of that number */
    SUMPCANDLE_DEADLINE_SHORT = 14,   /* a deadline below the task's offset plus its greatest time: nobody could keep it */
    SUMPCANDLE_TOO_LARGE = 29,        /* a number of the table is too large for its field */
    SUMPCANDLE_BUFFER_SHORT = 30,     /* the table is good, and its image is longer than the buffer */
    SUMPCANDLE_NOT_SINGLE = 31,       /* the image is good and has that task, but some transaction has several tasks or modes */
    SUMPCANDLE_NO_COMPLETION = 32,    /* of such a table: the task has no plain completion up to 16,777,215 */
    SUMPCANDLE_OUT_OF_RANGE = 33      /* of such a table: k is 0, or t above 16,777,215 */
};

/* The upper half of an answer: a code or a refusal, or 0. */
static inline uint32_t sumpcandle_number(uint64_t answer) { return (uint32_t)(answer >> 32); }

/* The lower half of an answer: a bound, a response, a length, a case or a place. */
static inline uint32_t sumpcandle_value(uint64_t answer) { return (uint32_t)answer; }

/* Whether an answer of sumpcandle_response has a code, and not a refusal: 0 or 20 to 23. */
static inline int sumpcandle_is_code(uint64_t answer) {
    uint32_t number = sumpcandle_number(answer);
    return number == SUMPCANDLE_IN_TIME || (SUMPCANDLE_LATE <= number && number <= SUMPCANDLE_BUDGET_SPENT);
}

#ifdef __cplusplus
}
#endif

#endif
