/* Tries what the header says of who pushed a task: on every task of the images and on one that is not there; sumpcandle_charge on
   every transaction, sumpcandle_part, which walks anew each time, on the first two, the task's own and some that are not there.

   parts FILE...    prints a line for each sentence that does not hold of a task and a transaction, and how many bounds were tried;
                    status 1 where one does not hold. The budget is enough for every bound of the samples but the one that takes long. */

#include <inttypes.h>
#include <stdio.h>
#include <string.h>

#include "sumpcandle.h"

/* One byte more than the longest image is enough to be refused as the whole file would be. */
enum { BUDGET = 20000, ROOM = SUMPCANDLE_LONGEST + 1, BEHIND = 4, PATTERN = 0xA5 };

/* Cells that a call is lent, with some behind them that it must leave. */
struct parts { int64_t cells[SUMPCANDLE_PARTS_CELLS + BEHIND]; };
struct charge { uint64_t cells[SUMPCANDLE_CHARGE_CELLS + BEHIND]; };

static const char *name;
static uint8_t image[ROOM];
static size_t length;
/* all 0 where the image is refused */
static uint32_t table[SUMPCANDLE_TABLE_CELLS];
static unsigned bounds, wrong;

static void holds(int is_so, const char *what, uint32_t task, uint32_t transaction) {
    if (!is_so) {
        printf("%s: task %" PRIu32 ", transaction %" PRIu32 ": %s\n", name, task, transaction, what);
        wrong++;
    }
}

static uint32_t of_task(uint32_t task, size_t cell) { return table[sumpcandle_task_cell(task) + cell]; }

static uint32_t of_transaction(uint32_t transaction, size_t cell) {
    return table[sumpcandle_transaction_cell(transaction) + cell];
}

/* Whether the cells from the one of number `from` on hold the pattern still. */
static int is_left(const void *cells, size_t from, size_t count) {
    const uint8_t *bytes = cells;
    for (size_t i = 8 * from; i < 8 * count; i++) {
        if (bytes[i] != PATTERN) {
            return 0;
        }
    }
    return 1;
}

static uint64_t ask_parts(uint32_t task, struct parts *to) {
    memset(to, PATTERN, sizeof *to);
    uint64_t answer = sumpcandle_parts(image, length, task, BUDGET, to->cells);
    holds(is_left(to->cells, answer == SUMPCANDLE_GIVEN ? SUMPCANDLE_PARTS_CELLS : 0, SUMPCANDLE_PARTS_CELLS + BEHIND),
          "sumpcandle_parts leaves every cell but those that it gives", task, 0);
    return answer;
}

static uint64_t ask_part(uint32_t task, uint32_t transaction, struct charge *to) {
    memset(to, PATTERN, sizeof *to);
    uint64_t answer = sumpcandle_part(image, length, task, BUDGET, transaction, to->cells);
    holds(is_left(to->cells, answer == SUMPCANDLE_GIVEN ? SUMPCANDLE_CHARGE_CELLS : 0, SUMPCANDLE_CHARGE_CELLS + BEHIND),
          "sumpcandle_part leaves every cell but those that it gives", task, transaction);
    return answer;
}

static uint64_t ask_charge(uint32_t task, uint32_t transaction, uint32_t whole, uint32_t t, struct charge *to) {
    memset(to, PATTERN, sizeof *to);
    uint64_t answer = sumpcandle_charge(image, length, task, transaction, whole, t, to->cells);
    holds(is_left(to->cells, answer == SUMPCANDLE_GIVEN ? SUMPCANDLE_CHARGE_CELLS : 0, SUMPCANDLE_CHARGE_CELLS + BEHIND),
          "sumpcandle_charge leaves every cell but those that it gives", task, transaction);
    return answer;
}

static int is_rival(uint32_t task, uint32_t other) {
    return of_task(other, SUMPCANDLE_PRIORITY_CELL) >= of_task(task, SUMPCANDLE_PRIORITY_CELL);
}

/* The case of a charge, by the table. */
static uint64_t case_of(uint32_t task, uint32_t transaction) {
    if (transaction >= table[SUMPCANDLE_TRANSACTION_COUNT_CELL]) {
        return SUMPCANDLE_NO_TRANSACTION;
    }
    if (transaction == of_task(task, SUMPCANDLE_OWNER_CELL)) {
        return SUMPCANDLE_OWN;
    }
    uint32_t first = of_transaction(transaction, SUMPCANDLE_FIRST_TASK_CELL);
    for (uint32_t i = 0; i < of_transaction(transaction, SUMPCANDLE_TASK_COUNT_CELL); i++) {
        if (is_rival(task, first + i)) {
            return SUMPCANDLE_GIVEN;
        }
    }
    return SUMPCANDLE_NO_RIVALS;
}

/* What sumpcandle_charge gives until t, imposed; the cells come back. */
static uint64_t try_charge(uint32_t task, uint32_t transaction, uint32_t t, struct charge *imposed) {
    uint64_t answer = ask_charge(task, transaction, 0, t, imposed);
    holds(answer == case_of(task, transaction), "sumpcandle_charge has the case of the table", task, transaction);
    if (answer == SUMPCANDLE_GIVEN) {
        uint64_t mode = imposed->cells[SUMPCANDLE_CHARGE_MODE], candidate = imposed->cells[SUMPCANDLE_CHARGE_CANDIDATE];
        holds(mode < of_transaction(transaction, SUMPCANDLE_MODE_COUNT_CELL) && candidate < table[SUMPCANDLE_TASKS_IN_ALL_CELL] &&
                  of_task(candidate, SUMPCANDLE_OWNER_CELL) == transaction && is_rival(task, candidate) &&
                  of_task(candidate, SUMPCANDLE_TIMES_CELL + mode) > 0,
              "the candidate is a rival of that transaction, and runs in the mode", task, transaction);
    }
    return answer;
}

static void try_released(uint32_t task, uint32_t transaction, uint32_t t) {
    struct charge imposed, released, other;
    uint64_t answer = try_charge(task, transaction, t, &imposed);
    holds(ask_charge(task, transaction, 1, t, &released) == answer, "released and imposed have one case", task, transaction);
    holds(ask_charge(task, transaction, UINT32_C(1) << 31, t, &other) == answer && !memcmp(&released, &other, sizeof other),
          "any `whole` but 0 is as 1", task, transaction);
    holds(answer != SUMPCANDLE_GIVEN || imposed.cells[SUMPCANDLE_CHARGE_TICKS] <= released.cells[SUMPCANDLE_CHARGE_TICKS],
          "no more is imposed than released", task, transaction);
}

/* What one transaction has in the bound of a task. */
static void try_part(uint32_t task, uint32_t transaction, int is_bounded, uint32_t completion) {
    struct charge part, charge;
    uint64_t answer = ask_part(task, transaction, &part), charged = try_charge(task, transaction, completion, &charge);
    if (is_bounded) {
        holds(answer == charged && !memcmp(&part, &charge, sizeof part), "the part is the charge at the completion", task,
              transaction);
    } else {
        holds(answer == SUMPCANDLE_NO_BOUND, "without a bound there is no part", task, transaction);
    }
}

static void try_task(uint32_t task, uint64_t response) {
    struct parts parts;
    uint64_t answer = ask_parts(task, &parts);
    int is_bounded = sumpcandle_number(response) == SUMPCANDLE_IN_TIME || sumpcandle_number(response) == SUMPCANDLE_LATE;
    const int64_t *cells = parts.cells;
    int64_t completion = is_bounded ? cells[SUMPCANDLE_PARTS_COMPLETION] : 1000, others = 0;
    holds(answer == (is_bounded ? SUMPCANDLE_GIVEN : SUMPCANDLE_NO_BOUND), "the parts are given with a bound", task, 0);
    for (uint32_t i = 0; i < table[SUMPCANDLE_TRANSACTION_COUNT_CELL]; i++) {
        struct charge charge;
        if (try_charge(task, i, (uint32_t)completion, &charge) == SUMPCANDLE_GIVEN) {
            others += (int64_t)charge.cells[SUMPCANDLE_CHARGE_TICKS];
        }
    }
    for (uint32_t i = 0; i < 2; i++) {
        try_part(task, i, is_bounded, (uint32_t)completion);
        try_released(task, i, 0);
        try_released(task, i, (uint32_t)completion);
        try_released(task, i, UINT32_MAX);
    }
    try_part(task, of_task(task, SUMPCANDLE_OWNER_CELL), is_bounded, (uint32_t)completion);
    try_part(task, table[SUMPCANDLE_TRANSACTION_COUNT_CELL], is_bounded, (uint32_t)completion);
    try_part(task, UINT32_MAX, is_bounded, (uint32_t)completion);
    if (is_bounded) {
        bounds++;
        holds(sumpcandle_value(response) == completion - cells[SUMPCANDLE_PARTS_ARRIVAL] + cells[SUMPCANDLE_PARTS_OFFSET],
              "bound = completion - arrival + offset", task, 0);
        holds(completion ==
                  cells[SUMPCANDLE_PARTS_BLOCKING] + cells[SUMPCANDLE_PARTS_JOBS] + cells[SUMPCANDLE_PARTS_RIVALS] + others,
              "the parts add up to the completion", task, 0);
        holds(cells[SUMPCANDLE_PARTS_OFFSET] == of_task(task, SUMPCANDLE_OFFSET_CELL) &&
                  cells[SUMPCANDLE_PARTS_BLOCKING] == of_task(task, SUMPCANDLE_BLOCKING_CELL),
              "offset and blocking are the task's", task, 0);
    }
}

/* A refused image, or a task that is not there: each call has the same number and place. */
static void try_refused(uint32_t task, uint64_t response) {
    struct parts parts;
    struct charge charge;
    holds(ask_parts(task, &parts) == response, "sumpcandle_parts refuses as sumpcandle_response does", task, 0);
    for (uint32_t i = 0; i < 2; i++) {
        holds(ask_part(task, i, &charge) == response, "sumpcandle_part refuses as sumpcandle_response does", task, i);
        holds(ask_charge(task, i, 0, 1, &charge) == response, "sumpcandle_charge refuses as sumpcandle_response does", task, i);
    }
}

/* The cells of all tasks: exactly enough, and one too few. */
static void try_cells(uint32_t tasks) {
    static uint32_t cells[SUMPCANDLE_TASKS * SUMPCANDLE_RESULT_CELLS + 2 * BEHIND];
    size_t enough = (size_t)tasks * SUMPCANDLE_RESULT_CELLS;
    memset(cells, PATTERN, sizeof cells);
    uint64_t answer = sumpcandle_cells(image, length, BUDGET, cells, enough);
    uint64_t first = sumpcandle_response(image, length, 0, BUDGET);
    holds(answer == (tasks > 0 ? 0 : first), "sumpcandle_cells refuses as sumpcandle_response does", 0, 0);
    for (uint32_t task = 0; task < tasks; task++) {
        const uint32_t *of = cells + (size_t)task * SUMPCANDLE_RESULT_CELLS;
        uint64_t response = sumpcandle_response(image, length, task, BUDGET);
        holds(of[SUMPCANDLE_RESULT_CODE] == sumpcandle_number(response) && of[SUMPCANDLE_RESULT_BOUND] == sumpcandle_value(response),
              "the cells have code and bound of sumpcandle_response", task, 0);
        holds(of[SUMPCANDLE_RESULT_BOUND] > 0 || (of[SUMPCANDLE_RESULT_MODE] == 0 && of[SUMPCANDLE_RESULT_CANDIDATE] == 0 &&
                                                  of[SUMPCANDLE_RESULT_JOB] == 0),
              "without a bound nobody is named", task, 0);
        holds(of[SUMPCANDLE_RESULT_BOUND] == 0 ||
                  (of[SUMPCANDLE_RESULT_CANDIDATE] < tasks &&
                   of_task(of[SUMPCANDLE_RESULT_CANDIDATE], SUMPCANDLE_OWNER_CELL) == of_task(task, SUMPCANDLE_OWNER_CELL) &&
                   of_task(task, SUMPCANDLE_TIMES_CELL + of[SUMPCANDLE_RESULT_MODE]) > 0),
              "the candidate is of the task's transaction, and the task runs in the mode", task, 0);
    }
    holds(is_left(cells, (enough + 1) / 2, sizeof cells / 8), "the cells behind are left", 0, 0);
    if (tasks > 0) {
        memset(cells, PATTERN, sizeof cells);
        answer = sumpcandle_cells(image, length, BUDGET, cells, enough - 1);
        holds(answer == (uint64_t)SUMPCANDLE_NO_ROOM << 32 && is_left(cells, 0, sizeof cells / 8),
              "with a cell too few it is 12, and every cell is left", 0, 0);
    }
}

int main(int count, char **arguments) {
    for (int i = 1; i < count; i++) {
        name = arguments[i];
        FILE *file = fopen(name, "rb");
        if (file == NULL) {
            perror(name);
            return 3;
        }
        length = fread(image, 1, ROOM, file);
        fclose(file);
        memset(table, 0, sizeof table);
        sumpcandle_read(image, length, table);
        uint32_t tasks = table[SUMPCANDLE_TASKS_IN_ALL_CELL];
        for (uint32_t task = 0; task < tasks; task++) {
            try_task(task, sumpcandle_response(image, length, task, BUDGET));
        }
        try_cells(tasks);
        try_refused(tasks, sumpcandle_response(image, length, tasks, BUDGET));
        try_refused(UINT32_MAX, sumpcandle_response(image, length, UINT32_MAX, BUDGET));
    }
    printf("who pushed a task: %u bounds tried, %u sentences do not hold\n", bounds, wrong);
    return wrong > 0;
}
