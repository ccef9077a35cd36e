/* How long a call of sumpcandle_read, sumpcandle_write and sumpcandle_cells takes, beside C with the same checks and answers
   (rows.c, cells.c), in one process.

   images [ROUNDS]    prints a line for each call and table: the best of the rounds (20) of each side in nanoseconds, and our
                      time by C's. Status 1 if the sides answer otherwise

   It is compiled with the header of the archive. Tables above the limits of that header are left out, and named first. */

#define _POSIX_C_SOURCE 200809L

#include <stdio.h>
#include <stdlib.h>
#include <string.h>
#include <time.h>

#include "cells.h"
#include "limits.h"
#include "rows.h"

/* The sides, ours first. Behind those that read and those that fill the cells of every task stands the clearing that ours does. */
enum { READERS = 3, WRITERS = 2, FILLERS = 3, SIDES = 4 };

typedef uint64_t reader(const uint8_t *image, size_t length, uint32_t *cells);
typedef uint64_t writer(const uint32_t *cells, uint8_t *buffer, size_t length);
typedef uint64_t filler(const uint8_t *image, size_t length, uint32_t budget, uint32_t *cells, size_t count);

static reader *const readers[READERS] = {sumpcandle_read, plain_read, whole_read};
static writer *const writers[WRITERS] = {sumpcandle_write, plain_write};
static filler *const fillers[FILLERS] = {sumpcandle_cells, fast_cells, whole_cells};

/* What each side makes of a table. The mark is there before, to tell what a refusal leaves. */
enum { BUDGET = 1000000, RESULTS = SUMPCANDLE_TASKS * SUMPCANDLE_RESULT_CELLS, MARK = 0xA5 };

static uint32_t back[READERS][SUMPCANDLE_TABLE_CELLS];
static uint8_t written[WRITERS][SUMPCANDLE_LONGEST];
static uint32_t results[FILLERS][RESULTS];

/* The cells that sumpcandle_cells works in, the table's row first, which are cleared for each call: Work::CELLS of
   crates/answers/src/layout.rt, summand by summand. Up to request 4 the row stood apart once more (ROW_APART). */
enum {
    CANDIDATES = TASKS * TASKS_IN_TRANSACTION,
    SETTINGS = TASKS * MODES,
    MODE_WEIGHTS = TRANSACTIONS * MODES,
    WORK_CELLS = SUMPCANDLE_TABLE_CELLS + 2 * CANDIDATES + SETTINGS + MODE_WEIGHTS + 2 * SETTINGS + (SETTINGS + 1) +
                 (TRANSACTIONS + 1)
};

/* A table. It is left out where it has more transactions or tasks than the header allows. */
struct table {
    const char *name;
    uint32_t transactions, tasks, modes;
    void (*make)(struct table *table); /* its cells; NULL where the image is that of the table before and a byte more */
    long calls;                        /* of reading and of writing that are timed together */
    long fills;                        /* of filling the cells of every task; 0 where that is not timed */
    uint32_t cells[SUMPCANDLE_TABLE_CELLS];
    uint8_t image[SUMPCANDLE_LONGEST + 1];
    size_t length;
    uint64_t answer; /* to reading the image */
};

/* The cells of a header, of a transaction and of a task, which has the one time in each mode of the table. */
static void header(struct table *table, uint32_t frame) {
    table->cells[SUMPCANDLE_EDITION_CELL] = 1;
    table->cells[SUMPCANDLE_FRAME_CELL] = frame;
    table->cells[SUMPCANDLE_TRANSACTION_COUNT_CELL] = table->transactions;
    table->cells[SUMPCANDLE_TASKS_IN_ALL_CELL] = table->tasks;
}

static void head(struct table *table, uint32_t v, uint32_t period, uint32_t first, uint32_t tasks) {
    uint32_t *cells = &table->cells[sumpcandle_transaction_cell(v)];
    cells[SUMPCANDLE_PERIOD_CELL] = period;
    cells[SUMPCANDLE_MODE_COUNT_CELL] = table->modes;
    cells[SUMPCANDLE_FIRST_TASK_CELL] = first;
    cells[SUMPCANDLE_TASK_COUNT_CELL] = tasks;
}

static void task(struct table *table, uint32_t k, uint32_t v, uint32_t offset, uint32_t deadline, uint32_t priority,
                 uint32_t time) {
    uint32_t *cells = &table->cells[sumpcandle_task_cell(k)];
    cells[SUMPCANDLE_OFFSET_CELL] = offset;
    cells[SUMPCANDLE_DEADLINE_CELL] = deadline;
    cells[SUMPCANDLE_PRIORITY_CELL] = priority;
    cells[SUMPCANDLE_OWNER_CELL] = v;
    for (uint32_t mode = 0; mode < table->modes; mode++) {
        cells[SUMPCANDLE_TIMES_CELL + mode] = time;
    }
}

/* Sample S of document 01. */
static void sample(struct table *table) {
    header(table, 20);
    head(table, 0, 20, 0, 2);
    head(table, 1, 20, 2, 1);
    task(table, 0, 0, 0, 10, 9, 2);
    task(table, 1, 0, 4, 10, 8, 3);
    task(table, 2, 1, 0, 4, 1, 2);
}

/* Transactions of 3 tasks. */
static void middle(struct table *table) {
    header(table, 40000);
    for (uint32_t v = 0; v < table->transactions; v++) {
        head(table, v, 20000, 3 * v, 3);
        for (uint32_t k = 3 * v; k < 3 * v + 3; k++) {
            task(table, k, v, 500 * k, 20000, 200 - k, 100 + k);
        }
    }
}

/* Transactions of as many tasks each, but for the last ones, which share what is left over. */
static void wide(struct table *table) {
    uint32_t k = 0;
    header(table, 40000);
    for (uint32_t v = 0; v < table->transactions; v++) {
        uint32_t period = v % 2 == 0 ? 20000 : 40000, count = (table->tasks + v) / table->transactions;
        head(table, v, period, k, count);
        task(table, k++, v, 17 * v, period, 255 - v, 300 + v);
        for (uint32_t i = 1; i < count; i++) {
            task(table, k++, v, 9000 * i + v, period, 100 + v, 200 + v);
        }
    }
}

/* An image and a byte 00 more, for which it is refused when all before it was read. */
static void refuse(struct table *table, const struct table *good) {
    memcpy(table->image, good->image, good->length);
    table->length = good->length + 1;
    table->answer = (uint64_t)SUMPCANDLE_BYTES_FOLLOW << 32 | 8 * good->length;
}

static int differs(const struct table *table, const char *what) {
    printf("the sides differ on %s: %s\n", table->name, what);
    return 1;
}

/* Each side writes the table alike, which gives it its image, and refuses a buffer too short. */
static int writes_otherwise(struct table *table) {
    for (int i = 0; i < WRITERS; i++) {
        uint64_t answer = writers[i](table->cells, written[i], SUMPCANDLE_LONGEST);
        if (answer == 0 || answer > SUMPCANDLE_LONGEST) return differs(table, "a good table is refused");
        if (i == 0) table->length = (size_t)answer;
        if (answer != table->length) return differs(table, "the length of the image");
        if (writers[i](table->cells, written[i], table->length - 1) != (uint64_t)SUMPCANDLE_BUFFER_SHORT << 32)
            return differs(table, "a buffer too short");
        if (memcmp(written[i], written[0], sizeof written[i]) != 0) return differs(table, "the image");
    }
    memcpy(table->image, written[0], table->length);
    return 0;
}

/* Each side gives one answer for so many bytes of the image, and the same cells behind it. */
static int reads_otherwise(const struct table *table, size_t length, uint64_t *answer) {
    for (int i = 0; i < READERS; i++) {
        memset(back[i], MARK, sizeof back[i]);
        uint64_t given = readers[i](table->image, length, back[i]);
        if (i == 0) *answer = given;
        if (given != *answer || memcmp(back[i], back[0], sizeof back[i]) != 0) return differs(table, "reading");
    }
    return 0;
}

/* The same of the image cut anywhere, and with any of its first bits turned, which in S are all: other refusals, at other
   places. */
static int refuses_otherwise(struct table *table) {
    enum { TURNED = 500 };
    uint64_t answer;
    for (size_t length = 0; length < table->length; length++) {
        if (reads_otherwise(table, length, &answer)) return 1;
    }
    for (size_t bit = 0; bit < TURNED && bit < 8 * table->length; bit++) {
        table->image[bit / 8] ^= 1 << bit % 8;
        if (reads_otherwise(table, table->length, &answer)) return 1;
        table->image[bit / 8] ^= 1 << bit % 8;
    }
    return 0;
}

/* Each side reads the image alike, and as it should. */
static int is_read_otherwise(struct table *table) {
    uint64_t answer;
    if (refuses_otherwise(table) || reads_otherwise(table, table->length, &answer)) return 1;
    if (answer != table->answer) return differs(table, "what reading should answer");
    if (answer == 0 && memcmp(back[0], table->cells, sizeof table->cells) != 0) return differs(table, "the cells");
    return 0;
}

/* Each side gives every task the same cells, leaves those behind them and refuses too few. */
static int fills_otherwise(const struct table *table) {
    for (int i = 0; i < FILLERS; i++) {
        memset(results[i], MARK, sizeof results[i]);
        if (fillers[i](table->image, table->length, BUDGET, results[i], 1) != (uint64_t)SUMPCANDLE_NO_ROOM << 32)
            return differs(table, "too few cells");
        if (fillers[i](table->image, table->length, BUDGET, results[i], RESULTS) != 0)
            return differs(table, "a good table gets no answers");
        if (memcmp(results[i], results[0], sizeof results[i]) != 0) return differs(table, "the answers");
    }
    return 0;
}

/* By memset, as in the archive. The compiler may not know that nobody reads what was cleared. */
static void clear(uint32_t *cells, size_t count) {
    memset(cells, 0, count * sizeof *cells);
    __asm__ volatile("" : : "r"(cells) : "memory");
}

static uint32_t row[SUMPCANDLE_TABLE_CELLS], work[WORK_CELLS];

/* A refused image has nothing cleared. */
static void read_often(const struct table *table, int side) {
    for (long i = 0; i < table->calls; i++) {
        if (side < READERS) {
            readers[side](table->image, table->length, back[side]);
        } else if (table->answer == 0) {
            clear(row, SUMPCANDLE_TABLE_CELLS);
        }
    }
}

static void write_often(const struct table *table, int side) {
    for (long i = 0; i < table->calls; i++) {
        writers[side](table->cells, written[side], table->length);
    }
}

static void fill_often(const struct table *table, int side) {
    for (long i = 0; i < table->fills; i++) {
        if (side < FILLERS) {
            fillers[side](table->image, table->length, BUDGET, results[side], RESULTS);
        } else {
#ifdef ROW_APART
            clear(row, SUMPCANDLE_TABLE_CELLS);
#endif
            clear(work, WORK_CELLS);
        }
    }
}

/* Nanoseconds for all of the calls. */
static double taken(void (*often)(const struct table *, int), const struct table *table, int side) {
    struct timespec from, to;
    clock_gettime(CLOCK_MONOTONIC, &from);
    often(table, side);
    clock_gettime(CLOCK_MONOTONIC, &to);
    return 1e9 * (double)(to.tv_sec - from.tv_sec) + (double)(to.tv_nsec - from.tv_nsec);
}

/* The best round of each side, in nanoseconds a call. A round takes the sides in turn, so that they share what else the machine
   does. */
struct best {
    double of[SIDES];
};

static struct best timed(void (*often)(const struct table *, int), const struct table *table, long calls, int sides,
                         long rounds) {
    struct best best = {{0}};
    for (long round = 0; round < rounds; round++) {
        for (int side = 0; side < sides; side++) {
            double now = taken(often, table, side) / (double)calls;
            if (round == 0 || now < best.of[side]) best.of[side] = now;
        }
    }
    return best;
}

/* The lines: the call, the table, the length of its image and our time come first in each. */

static void start_line(const char *call, const struct table *table, double ours) {
    printf("%-6s%-9s%6zu%11.0f", call, table->name, table->length, ours);
}

static void print_read(const struct table *table, long rounds) {
    struct best best = timed(read_often, table, table->calls, READERS + 1, rounds);
    start_line("read", table, best.of[0]);
    printf("%11.0f%12.2f%11.0f%12.2f%11.0f\n", best.of[1], best.of[0] / best.of[1], best.of[2], best.of[0] / best.of[2],
           best.of[READERS]);
}

static void print_write(const struct table *table, long rounds) {
    struct best best = timed(write_often, table, table->calls, WRITERS, rounds);
    start_line("write", table, best.of[0]);
    printf("%11.0f%12.2f\n", best.of[1], best.of[0] / best.of[1]);
}

static void print_cells(const struct table *table, long rounds) {
    struct best best = timed(fill_often, table, table->fills, FILLERS + 1, rounds);
    double rest = best.of[0] - best.of[FILLERS];
    start_line("cells", table, best.of[0]);
    printf("%11.0f%12.0f%11.0f%12.2f%11.0f%12.2f\n", best.of[FILLERS], rest, best.of[1], rest / best.of[1], best.of[2],
           rest / best.of[2]);
}

static void start_lines(const char *columns) { printf("%-6s%-9s%6s%11s%s\n", "call", "table", "bytes", "ours", columns); }

/* Their sizes are not the header's limits: a table is the same beside every archive. */
static struct table tables[] = {
    {.name = "longest", .transactions = 63, .tasks = 128, .modes = 8, .make = wide, .calls = 100},
    {.name = "too-long", .transactions = 63, .tasks = 128, .modes = 8, .calls = 100},
    {.name = "32x2x8", .transactions = 32, .tasks = 64, .modes = 8, .make = wide, .calls = 200},
    {.name = "refused", .transactions = 32, .tasks = 64, .modes = 8, .calls = 200},
    {.name = "32x2x1", .transactions = 32, .tasks = 64, .modes = 1, .make = wide, .calls = 200, .fills = 20},
    {.name = "middle", .transactions = 10, .tasks = 30, .modes = 1, .make = middle, .calls = 500, .fills = 100},
    {.name = "s", .transactions = 2, .tasks = 3, .modes = 1, .make = sample, .calls = 1000, .fills = 1000},
};

#define END (tables + sizeof tables / sizeof *tables)

static int is_left_out(const struct table *table) {
    return table->transactions > TRANSACTIONS || table->tasks > TASKS;
}

static void print_left_out(void) {
    int any = 0;
    for (const struct table *table = tables; table < END; table++) {
        if (!is_left_out(table)) continue;
        if (!any) printf("left out, above %d transactions or %d tasks:", TRANSACTIONS, TASKS);
        printf(" %s", table->name);
        any = 1;
    }
    if (any) puts("");
}

/* Makes the tables, and tries each side on all of them. */
static int is_otherwise(void) {
    for (struct table *table = tables; table < END; table++) {
        if (is_left_out(table)) continue;
        if (table->make == NULL) {
            refuse(table, table - 1);
        } else {
            table->make(table);
            if (writes_otherwise(table) || fills_otherwise(table)) return 1;
        }
        if (is_read_otherwise(table)) return 1;
    }
    return 0;
}

int main(int count, char **arguments) {
    long rounds = count == 2 ? strtol(arguments[1], NULL, 10) : 20;
    if (count > 2 || rounds < 1) {
        fputs("usage: images [ROUNDS]\n", stderr);
        return 3;
    }
    if (is_otherwise()) return 1;
    print_left_out();
    start_lines("      plain  ours/plain      whole  ours/whole   clearing");
    for (const struct table *table = tables; table < END; table++) {
        if (!is_left_out(table)) print_read(table, rounds);
    }
    for (const struct table *table = tables; table < END; table++) {
        if (!is_left_out(table) && table->make != NULL) print_write(table, rounds);
    }
    start_lines("   clearing        rest       fast   rest/fast      whole  rest/whole");
    for (const struct table *table = tables; table < END; table++) {
        if (!is_left_out(table) && table->fills > 0) print_cells(table, rounds);
    }
    return 0;
}
