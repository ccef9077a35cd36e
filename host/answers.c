/* Answers a stream of cases by the C functions, so that the second program can compare them: second/README.md describes the stream. Each
   case is a budget with an image, asked for the cells of its tasks or also for what their bounds are made of; or a t with a task, a
   transaction and an image, asked for a charge; or a t with a task, a k and an image, asked for the plain response and the approximation. */

#include <inttypes.h>
#include <stdio.h>

#include "sumpcandle.h"

enum { CELLS, PARTS, CHARGE, PLAIN };
/* bytes between a case's head and its image */
static const size_t between[] = {[CHARGE] = 3, [PLAIN] = 5};
enum { ROOM = 1 << 14, LENGTH = ROOM - 1 };

static uint8_t image[ROOM];
static size_t length;
static uint32_t table[SUMPCANDLE_TABLE_CELLS];
static uint32_t results[SUMPCANDLE_TASKS * SUMPCANDLE_RESULT_CELLS];

static int take(uint8_t *bytes, size_t count) { return fread(bytes, 1, count, stdin) == count; }

static uint32_t number_of(const uint8_t *bytes, size_t count) {
    uint32_t number = 0;
    for (size_t i = 0; i < count; i++) {
        number = number << 8 | bytes[i];
    }
    return number;
}

/* Whether an answer is no refusal; one is printed. */
static int is_given(uint64_t answer) {
    if (sumpcandle_number(answer) == 0) {
        return 1;
    }
    printf("refused %" PRIu32 " %" PRIu32 "\n", sumpcandle_number(answer), sumpcandle_value(answer));
    return 0;
}

/* An answer on one transaction, behind the words that it follows. */
static void print_charge(uint64_t answer, const uint64_t *charge) {
    if (answer == SUMPCANDLE_GIVEN) {
        printf(" %" PRIu64 " %" PRIu64 " %" PRIu64 "\n", charge[SUMPCANDLE_CHARGE_TICKS], charge[SUMPCANDLE_CHARGE_MODE],
               charge[SUMPCANDLE_CHARGE_CANDIDATE]);
    } else {
        puts(answer == SUMPCANDLE_OWN ? " own" : answer == SUMPCANDLE_NO_RIVALS ? " none" : " missing");
    }
}

static int print_cells(uint32_t budget) {
    if (!is_given(sumpcandle_cells(image, length, budget, results, sizeof results / sizeof *results))) {
        return 0;
    }
    sumpcandle_read(image, length, table);
    fputs("accepted", stdout);
    for (uint32_t i = 0; i < SUMPCANDLE_RESULT_CELLS * table[SUMPCANDLE_TASKS_IN_ALL_CELL]; i++) {
        printf(" %" PRIu32, results[i]);
    }
    puts("");
    return 1;
}

static void print_parts(uint32_t budget) {
    for (uint32_t task = 0; task < table[SUMPCANDLE_TASKS_IN_ALL_CELL]; task++) {
        int64_t parts[SUMPCANDLE_PARTS_CELLS];
        if (sumpcandle_parts(image, length, task, budget, parts) != SUMPCANDLE_GIVEN) {
            printf("parts %" PRIu32 " none\n", task);
            continue;
        }
        printf("parts %" PRIu32, task);
        for (size_t i = 0; i < SUMPCANDLE_PARTS_CELLS; i++) {
            printf(" %" PRId64, parts[i]);
        }
        puts("");
        for (uint32_t i = 0; i < table[SUMPCANDLE_TRANSACTION_COUNT_CELL]; i++) {
            uint64_t charge[SUMPCANDLE_CHARGE_CELLS];
            uint32_t completion = (uint32_t)parts[SUMPCANDLE_PARTS_COMPLETION];
            printf("part %" PRIu32 " %" PRIu32, task, i);
            print_charge(sumpcandle_charge(image, length, task, i, 0, completion, charge), charge);
        }
    }
}

static void print_plain(uint32_t task, uint32_t k, uint32_t t) {
    uint64_t answer = sumpcandle_plain(image, length, task);
    if (is_given(answer)) {
        printf("plain %" PRIu32 "\n", sumpcandle_value(answer));
    }
    /* above any approximation; a refusal leaves the cell, and no answer writes behind it */
    const uint64_t untouched = UINT64_MAX;
    uint64_t cells[2] = {untouched, untouched};
    answer = sumpcandle_approximate(image, length, task, k, t, cells);
    if (is_given(answer)) {
        printf("approximate %" PRIu64 "\n", cells[0]);
    }
    if ((answer != 0) != (cells[0] == untouched) || cells[1] != untouched) {
        puts("the answer and the cell are not as the header says");
    }
}

int main(void) {
    uint8_t head[6], asked[5] = {0};
    while (take(head, sizeof head)) {
        uint32_t number = number_of(head, 4), kind = head[4] >> 6;
        length = number_of(head + 4, 2) & LENGTH;
        if (!take(asked, between[kind]) || !take(image, length)) {
            break;
        }
        if (kind == PLAIN) {
            print_plain(asked[0], number_of(asked + 1, 4), number);
        } else if (kind == CHARGE) {
            uint64_t charge[SUMPCANDLE_CHARGE_CELLS];
            uint64_t answer = sumpcandle_charge(image, length, asked[0], asked[1], asked[2], number, charge);
            if (is_given(answer)) {
                fputs("charge", stdout);
                print_charge(answer, charge);
            }
        } else if (print_cells(number) && kind == PARTS) {
            print_parts(number);
        }
        fflush(stdout);
    }
    return 0;
}
