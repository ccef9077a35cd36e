/* An example host: asks for the tasks of one image, one after the other, until there is none of that number.

   host FILE    prints a line `code bound` for each task, or `refused N P`. The budget is the listing program's. */

#include <stdio.h>

#include "sumpcandle.h"

/* One byte more than the longest image is enough to be refused as the whole file would be. */
enum { ROOM = SUMPCANDLE_LONGEST + 1 };

int main(int count, char **arguments) {
    static uint8_t image[ROOM];
    if (count != 2) {
        fputs("usage: host FILE\n", stderr);
        return 3;
    }
    FILE *file = fopen(arguments[1], "rb");
    if (file == NULL) {
        perror(arguments[1]);
        return 3;
    }
    size_t length = fread(image, 1, ROOM, file);
    if (ferror(file)) {
        perror(arguments[1]);
        return 3;
    }
    fclose(file);

    for (uint32_t task = 0;; task++) {
        uint64_t answer = sumpcandle_response(image, length, task, SUMPCANDLE_BUDGET);
        uint32_t number = sumpcandle_number(answer);
        if (number == SUMPCANDLE_NO_TASK) {
            return 0;
        }
        if (!sumpcandle_is_code(answer)) {
            printf("refused %u %u\n", (unsigned)number, (unsigned)sumpcandle_value(answer));
            return 2;
        }
        printf("%u %u\n", (unsigned)number, (unsigned)sumpcandle_value(answer));
    }
}
