/* Reads a stream of cases, all for cells, from standard input and prints a line for each, as the second program's
   `answer` does. Linked with one of plain.c and fast.c.

   NAME [TASKS]    answers only for the first so many tasks of a table */

#include "stream.h"

#include <stdio.h>
#include <stdlib.h>

#include "decode.h"

/* Whole bytes from standard input; what is there at the end of input. */
static size_t take(uint8_t *bytes, size_t length) { return fread(bytes, 1, length, stdin); }

int main(int count, char **arguments) {
    int most = count > 1 ? atoi(arguments[1]) : TASKS;
    static uint8_t image[65536];
    static struct table table;
    static struct cells cells[TASKS];
    uint8_t head[6];
    size_t got;
    while ((got = take(head, 6)) == 6) {
        uint32_t budget =
            (uint32_t)head[0] << 24 | (uint32_t)head[1] << 16 | (uint32_t)head[2] << 8 | (uint32_t)head[3];
        struct bits bits = {image, (size_t)head[4] << 8 | head[5], 0, 0};
        if (take(image, bits.length) != bits.length) {
            got = 1;
            break;
        }
        int refusal = read_table(&bits, plain_field, &table);
        if (refusal != 0) {
            printf("refused %d %u\n", refusal, (unsigned)bits.start);
            continue;
        }
        int tasks = table.tasks < most ? table.tasks : most;
        analyse(&table, tasks, budget, cells);
        fputs("accepted", stdout);
        for (int j = 0; j < tasks; j++) {
            const struct cells *each = &cells[j];
            printf(" %u %u %u %u %u %u", (unsigned)each->code, (unsigned)each->bound, (unsigned)each->evaluations,
                   (unsigned)each->mode, (unsigned)each->candidate, (unsigned)each->job);
        }
        putchar('\n');
    }
    if (got != 0) {
        fputs("the stream ends inside a case\n", stderr);
        return 2;
    }
    return 0;
}
