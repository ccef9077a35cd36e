/* An example host for the plain jitter analysis, for a table with one task and one mode in each transaction.

   plain-host FILE              prints a line `code bound number response` for each task: its bound, and beside it 0 and its plain
                                response, or 32 and 0; or `refused N P`. The budget is the listing program's.
   plain-host FILE TASK K AT    prints the approximation of what the task requests by AT, in T-ths of a tick, T being its period, and
                                in ticks; or `refused N P` */

#include <inttypes.h>
#include <stdio.h>
#include <stdlib.h>

#include "sumpcandle.h"

/* One byte more than the longest image is enough to be refused as the whole file would be. */
enum { ROOM = SUMPCANDLE_LONGEST + 1 };

static uint8_t image[ROOM];
static size_t length;

static int refused(uint64_t answer) {
    printf("refused %" PRIu32 " %" PRIu32 "\n", sumpcandle_number(answer), sumpcandle_value(answer));
    return 2;
}

static int responses(void) {
    for (uint32_t task = 0;; task++) {
        uint64_t plain = sumpcandle_plain(image, length, task);
        uint32_t number = sumpcandle_number(plain);
        if (number == SUMPCANDLE_NO_TASK) {
            return 0;
        }
        if (number != 0 && number != SUMPCANDLE_NO_COMPLETION) {
            return refused(plain);
        }
        uint64_t answer = sumpcandle_response(image, length, task, SUMPCANDLE_BUDGET);
        printf("%" PRIu32 " %" PRIu32 " %" PRIu32 " %" PRIu32 "\n", sumpcandle_number(answer), sumpcandle_value(answer), number,
               sumpcandle_value(plain));
    }
}

static int approximation(uint32_t task, uint32_t k, uint32_t t) {
    static uint32_t cells[SUMPCANDLE_TABLE_CELLS];
    uint64_t cell;
    uint64_t answer = sumpcandle_approximate(image, length, task, k, t, &cell);
    if (sumpcandle_number(answer) != 0) {
        return refused(answer);
    }
    /* with one task in each transaction both have the same number */
    sumpcandle_read(image, length, cells);
    uint32_t period = cells[sumpcandle_transaction_cell(task) + SUMPCANDLE_PERIOD_CELL];
    printf("%" PRIu64 "/%" PRIu32 ", %.3f ticks\n", cell, period, (double)cell / period);
    return 0;
}

static uint32_t number_in(const char *text) { return (uint32_t)strtoul(text, NULL, 10); }

int main(int count, char **arguments) {
    if (count != 2 && count != 5) {
        fputs("usage: plain-host FILE [TASK K AT]\n", stderr);
        return 3;
    }
    FILE *file = fopen(arguments[1], "rb");
    if (file == NULL) {
        perror(arguments[1]);
        return 3;
    }
    length = fread(image, 1, ROOM, file);
    if (ferror(file)) {
        perror(arguments[1]);
        return 3;
    }
    fclose(file);
    return count == 2 ? responses() : approximation(number_in(arguments[2]), number_in(arguments[3]), number_in(arguments[4]));
}
