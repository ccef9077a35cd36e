/* An example of an editor's host: reads a table, changes the deadline of one task and writes the table.

   edit FILE TASK DEADLINE [OUT]    prints a line `code bound` for each task, and after an empty line the same of the changed
                                    table, whose image goes to OUT; or `refused N P`, and then OUT is not touched. OUT may be
                                    FILE. The budget is the listing program's. */

#include <ctype.h>
#include <stdio.h>
#include <stdlib.h>

#include "sumpcandle.h"

/* One byte more than the longest image is enough to be refused as the whole file would be. */
enum { ROOM = SUMPCANDLE_LONGEST + 1 };

enum { REFUSED = 2, TROUBLE = 3 };

static void print_bounds(const uint8_t *image, size_t length, uint32_t tasks) {
    for (uint32_t task = 0; task < tasks; task++) {
        uint64_t answer = sumpcandle_response(image, length, task, SUMPCANDLE_BUDGET);
        printf("%u %u\n", (unsigned)sumpcandle_number(answer), (unsigned)sumpcandle_value(answer));
    }
}

static int refused(uint64_t answer) {
    printf("refused %u %u\n", (unsigned)sumpcandle_number(answer), (unsigned)sumpcandle_value(answer));
    return REFUSED;
}

static int trouble(const char *name) {
    perror(name);
    return TROUBLE;
}

/* Whether the text is a decimal number of 32 bits, which is then *value. */
static int is_number(const char *text, uint32_t *value) {
    char *end;
    unsigned long long number = strtoull(text, &end, 10);
    *value = (uint32_t)number;
    return isdigit((unsigned char)text[0]) && *end == '\0' && number <= UINT32_MAX;
}

static int load(const char *name, uint8_t *image, size_t *length) {
    FILE *file = fopen(name, "rb");
    if (file == NULL) {
        return 0;
    }
    *length = fread(image, 1, ROOM, file);
    int is_read = !ferror(file);
    fclose(file);
    return is_read;
}

static int save(const char *name, const uint8_t *image, size_t length) {
    FILE *file = fopen(name, "wb");
    if (file == NULL) {
        return 0;
    }
    int is_written = fwrite(image, 1, length, file) == length;
    return fclose(file) == 0 && is_written;
}

int main(int count, char **arguments) {
    static uint8_t image[ROOM];
    static uint32_t cells[SUMPCANDLE_TABLE_CELLS];
    size_t length;
    uint32_t task, deadline;
    if (count < 4 || count > 5 || !is_number(arguments[2], &task) || !is_number(arguments[3], &deadline)) {
        fputs("usage: edit FILE TASK DEADLINE [OUT]\n", stderr);
        return TROUBLE;
    }
    if (!load(arguments[1], image, &length)) {
        return trouble(arguments[1]);
    }

    uint64_t read = sumpcandle_read(image, length, cells);
    if (sumpcandle_number(read) != 0) {
        return refused(read);
    }
    uint32_t tasks = cells[SUMPCANDLE_TASKS_IN_ALL_CELL];
    if (task >= tasks) {
        fprintf(stderr, "edit: the table has tasks 0 to %u\n", (unsigned)tasks - 1);
        return TROUBLE;
    }
    print_bounds(image, length, tasks);

    cells[sumpcandle_task_cell(task) + SUMPCANDLE_DEADLINE_CELL] = deadline;
    uint64_t written = sumpcandle_write(cells, image, sizeof image);
    if (sumpcandle_number(written) != 0) {
        return refused(written);
    }
    length = sumpcandle_value(written);
    if (count == 5 && !save(arguments[4], image, length)) {
        return trouble(arguments[4]);
    }
    putchar('\n');
    print_bounds(image, length, tasks);
    return 0;
}
