/* How long sumpcandle_plain takes for every task of some tables, beside the iteration of source document 003 in optimised C, in
   one process. Both get the image and the number of a task, and read the image themselves, in every call.

   jitter [ROUNDS]    prints a line for each table: its tasks, how many evaluations the iteration makes for all of them, the
                      microseconds a task of each side by the best of the rounds (5), our time by C's, and the longest call of
                      each. Status 1 if the sides answer otherwise

   The iteration starts at B plus the C of the task and its rivals, and goes on to the workload, until that is t itself or above
   the horizon. The rivals are packed, and an evaluation has one division for each of them. It does not look at their load. */

#define _POSIX_C_SOURCE 200809L

#include <stdio.h>
#include <stdlib.h>
#include <time.h>

#include "decode.h"
#include "limits.h"
#include "stream.h"

uint64_t sumpcandle_plain(const uint8_t *image, size_t length, uint32_t task);

enum { NO_TASK = 13, NOT_SINGLE = 31, NO_COMPLETION = 32 };

/* C's side ----------------------------------------------------------------------------------------------------------------- */

/* The task's rivals. With t up to the horizon a numerator is below 2^26, so that 32 bits are enough for the division. */
struct rivals {
    int count;
    uint32_t ahead[TRANSACTIONS]; /* jitter + period - 1 */
    uint32_t period[TRANSACTIONS];
    uint32_t time[TRANSACTIONS];
};

static struct rivals pack(const struct table *table, int u) {
    struct rivals rivals;
    rivals.count = 0;
    for (int i = 0; i < table->tasks; i++) {
        if (i == u || table->priority[i] < table->priority[u]) continue;
        uint32_t period = (uint32_t)table->period[i];
        rivals.ahead[rivals.count] = (uint32_t)table->jitter[i] + period - 1;
        rivals.period[rivals.count] = period;
        rivals.time[rivals.count] = (uint32_t)table->time[i][0];
        rivals.count++;
    }
    return rivals;
}

static uint64_t workload(const struct rivals *rivals, uint64_t own, uint32_t t) {
    uint64_t all = own;
    for (int i = 0; i < rivals->count; i++) {
        all += (uint64_t)((t + rivals->ahead[i]) / rivals->period[i]) * rivals->time[i];
    }
    return all;
}

/* The completion, or 0 where there is none up to the horizon. */
static uint64_t completion(const struct rivals *rivals, uint64_t own, uint64_t *evaluations) {
    uint64_t t = own;
    for (int i = 0; i < rivals->count; i++) {
        t += rivals->time[i];
    }
    while (t <= HORIZON) {
        uint64_t value = workload(rivals, own, (uint32_t)t);
        ++*evaluations;
        if (value == t) return t;
        t = value;
    }
    return 0;
}

static int is_single(const struct table *table) {
    for (int v = 0; v < table->transactions; v++) {
        if (table->modes[v] != 1 || table->first[v + 1] - table->first[v] != 1) return 0;
    }
    return 1;
}

/* What sumpcandle_plain answers; the evaluations are added to those before. */
static uint64_t iterated(const uint8_t *image, size_t length, uint32_t task, uint64_t *evaluations) {
    struct table table;
    struct bits bits = {image, length, 0, 0};
    int refusal = read_table(&bits, whole_field, &table);
    if (refusal != 0) return (uint64_t)refusal << 32 | bits.start;
    if (task >= (uint32_t)table.tasks) return (uint64_t)NO_TASK << 32;
    if (!is_single(&table)) return (uint64_t)NOT_SINGLE << 32;
    struct rivals rivals = pack(&table, (int)task);
    uint64_t t = completion(&rivals, (uint64_t)(table.blocking[task] + table.time[task][0]), evaluations);
    return t == 0 ? (uint64_t)NO_COMPLETION << 32 : t + (uint64_t)table.jitter[task];
}

/* The tables --------------------------------------------------------------------------------------------------------------- */

struct given {
    const char *name;
    void (*make)(struct given *given);
    uint32_t tasks;
    uint32_t cells[SUMPCANDLE_TABLE_CELLS];
    uint8_t image[SUMPCANDLE_LONGEST];
    size_t length;
};

/* One more task, in a transaction of its own. Offset and deadline play no part: they are the least that is let in. */
static void add(struct given *given, uint32_t period, uint32_t jitter, uint32_t blocking, uint32_t priority, uint32_t time) {
    uint32_t i = given->tasks++;
    uint32_t *transaction = &given->cells[sumpcandle_transaction_cell(i)], *task = &given->cells[sumpcandle_task_cell(i)];
    transaction[SUMPCANDLE_PERIOD_CELL] = period;
    transaction[SUMPCANDLE_MODE_COUNT_CELL] = 1;
    transaction[SUMPCANDLE_TASK_COUNT_CELL] = 1;
    task[SUMPCANDLE_JITTER_CELL] = jitter;
    task[SUMPCANDLE_BLOCKING_CELL] = blocking;
    task[SUMPCANDLE_DEADLINE_CELL] = time;
    task[SUMPCANDLE_PRIORITY_CELL] = priority;
    task[SUMPCANDLE_TIMES_CELL] = time;
}

static void frame(struct given *given, uint32_t ticks) { given->cells[SUMPCANDLE_FRAME_CELL] = ticks; }

/* So many tasks, about eight tenths full, more urgent with a shorter period. Of four tasks one has no jitter, and the others
   have one, two and three steps of it. */
static void usual(struct given *given, uint32_t count, uint32_t step) {
    static const uint32_t periods[] = {1000, 2000, 4000, 5000, 8000, 10000, 20000, 40000};
    frame(given, 40000);
    for (uint32_t i = 0; i < count; i++) {
        uint32_t period = periods[i * 8 / count];
        add(given, period, i % 4 * step, 20, 200 - i, period * 8 / 10 / count + i % 3);
    }
}

static void usual_31(struct given *given) { usual(given, 31, 50); }

static void usual_63(struct given *given) { usual(given, 63, 50); }

static void jittered(struct given *given) { usual(given, 63, 1000000); }

/* So many tasks of one tick in a period, of one priority, each ready a tick before the one listed before it; and one more, of
   priority 1. */
static void in_turn(struct given *given, uint32_t count, uint32_t period, uint32_t priority) {
    frame(given, period);
    for (uint32_t i = 0; i < count; i++) {
        add(given, period, i, 0, priority, 1);
    }
    add(given, period, 0, 0, 1, 1);
}

static void full(struct given *given) { in_turn(given, 62, 62, 2); }

static void over(struct given *given) { in_turn(given, 62, 60, 1); }

/* A task that is ready at every tick takes them all: one behind it walks to the horizon tick by tick. */
static void each_tick(struct given *given) { in_turn(given, 1, 1, 2); }

/* The last task completes at the horizon. Every period divides it and there is no jitter, so that the workload there is what the
   loads say, which is t; and before it, it is not below that, which is above t. */
static void at_horizon(struct given *given) {
    uint32_t left = HORIZON;
    frame(given, HORIZON);
    for (uint32_t period = 124; given->tasks < 62; period++) {
        if (HORIZON % period != 0) continue;
        add(given, period, 0, 0, 2, period / 124);
        left -= HORIZON / period * (period / 124);
    }
    add(given, HORIZON, 0, left - 1, 1, 1);
}

/* Tasks of one tick, no two of them ready at one tick. The first take all ticks of a period but one. Of the ticks left, two more
   take all but every third, as many times as `thirds` says, and then one more all but every second, as many times as `halves`
   says. In the end one tick in a long time is left: a task behind them comes a tick nearer to its completion in that time. */
static void nested(struct given *given, uint32_t period, uint32_t thirds, uint32_t halves) {
    for (uint32_t i = 1; i < period; i++) {
        add(given, period, i, 0, 2, 1);
    }
    for (uint32_t step = 0; step < thirds + halves; step++) {
        uint32_t parts = step < thirds ? 3 : 2;
        for (uint32_t i = 1; i < parts; i++) {
            add(given, period * parts, period * i, 0, 2, 1);
        }
        period *= parts;
    }
    frame(given, HORIZON / period * period);
    add(given, period, 0, 0, 1, 1);
}

static void nested_4(struct given *given) { nested(given, 4, 1, 16); }

static void nested_15(struct given *given) { nested(given, 15, 2, 12); }

static void nested_46(struct given *given) { nested(given, 46, 1, 11); }

static struct given tables[] = {
    {.name = "usual-31", .make = usual_31},   {.name = "usual-63", .make = usual_63},
    {.name = "jittered", .make = jittered},   {.name = "horizon", .make = at_horizon},
    {.name = "over", .make = over},           {.name = "full", .make = full},
    {.name = "each-tick", .make = each_tick}, {.name = "nested-4", .make = nested_4},
    {.name = "nested-15", .make = nested_15}, {.name = "nested-46", .make = nested_46},
};

#define END (tables + sizeof tables / sizeof *tables)

/* The clock ---------------------------------------------------------------------------------------------------------------- */

/* The sides, ours first. */
enum { OURS, C, SIDES };

static uint64_t evaluated;

static uint64_t asked(const struct given *given, uint32_t task, int side) {
    if (side == OURS) return sumpcandle_plain(given->image, given->length, task);
    return iterated(given->image, given->length, task, &evaluated);
}

/* Microseconds of a call, of so many together. */
static double taken(const struct given *given, uint32_t task, int side, long calls) {
    struct timespec from, to;
    clock_gettime(CLOCK_MONOTONIC, &from);
    for (long i = 0; i < calls; i++) {
        asked(given, task, side);
    }
    clock_gettime(CLOCK_MONOTONIC, &to);
    return (1e6 * (double)(to.tv_sec - from.tv_sec) + 1e-3 * (double)(to.tv_nsec - from.tv_nsec)) / (double)calls;
}

/* The best round of each side. A round takes the sides in turn, so that they share what else the machine does. Short calls are
   timed together, about a millisecond of them; a side that takes a second or more is not called again. */
struct best {
    double of[SIDES];
};

static struct best timed(const struct given *given, uint32_t task, long rounds) {
    const double together = 1e3, is_long = 1e6;
    struct best best;
    long calls[SIDES];
    for (int side = 0; side < SIDES; side++) {
        best.of[side] = taken(given, task, side, 1);
        calls[side] = (long)(together / best.of[side]) + 1;
    }
    for (long round = 1; round < rounds; round++) {
        for (int side = 0; side < SIDES; side++) {
            if (best.of[side] >= is_long) continue;
            double now = taken(given, task, side, calls[side]);
            if (now < best.of[side]) best.of[side] = now;
        }
    }
    return best;
}

/* Each side answers alike for every task, and for one that there is not. Counts the evaluations. */
static int answers_otherwise(const struct given *given) {
    evaluated = 0;
    for (uint32_t task = 0; task <= given->tasks; task++) {
        uint64_t ours = asked(given, task, OURS), c = asked(given, task, C);
        if (ours == c) continue;
        printf("the sides differ on %s, task %u: %llu %llu and %llu %llu\n", given->name, (unsigned)task,
               (unsigned long long)(ours >> 32), (unsigned long long)(uint32_t)ours, (unsigned long long)(c >> 32),
               (unsigned long long)(uint32_t)c);
        return 1;
    }
    return 0;
}

static void print_line(const struct given *given, uint64_t evaluations, long rounds) {
    double all[SIDES] = {0}, longest[SIDES] = {0};
    for (uint32_t task = 0; task < given->tasks; task++) {
        struct best best = timed(given, task, rounds);
        for (int side = 0; side < SIDES; side++) {
            all[side] += best.of[side];
            if (longest[side] < best.of[side]) longest[side] = best.of[side];
        }
    }
    printf("%-11s%6u%12llu%12.1f%12.1f%9.2f%14.1f%14.1f\n", given->name, (unsigned)given->tasks,
           (unsigned long long)evaluations, all[OURS] / given->tasks, all[C] / given->tasks, all[OURS] / all[C],
           longest[OURS], longest[C]);
    fflush(stdout);
}

static int is_made(struct given *given) {
    given->make(given);
    given->cells[SUMPCANDLE_EDITION_CELL] = 1;
    given->cells[SUMPCANDLE_TRANSACTION_COUNT_CELL] = given->tasks;
    uint64_t answer = sumpcandle_write(given->cells, given->image, sizeof given->image);
    given->length = (size_t)answer;
    if (sumpcandle_number(answer) == 0) return 1;
    printf("%s is refused: %u %u\n", given->name, (unsigned)sumpcandle_number(answer), (unsigned)sumpcandle_value(answer));
    return 0;
}

int main(int count, char **arguments) {
    long rounds = count == 2 ? strtol(arguments[1], NULL, 10) : 5;
    if (count > 2 || rounds < 1) {
        fputs("usage: jitter [ROUNDS]\n", stderr);
        return 3;
    }
    printf("%-11s%6s%12s%12s%12s%9s%14s%14s\n", "table", "tasks", "evaluations", "ours", "C", "ours/C", "longest ours",
           "longest C");
    for (struct given *given = tables; given < END; given++) {
        if (!is_made(given) || answers_otherwise(given)) return 1;
        print_line(given, evaluated, rounds);
    }
    return 0;
}
