/* The image is read straight into the table that fast.c analyses: no row is cleared, filled or copied. Linked with fast.c. */

#include "cells.h"

#include <string.h>

#include "decode.h"
#include "stream.h"

enum { NO_ROOM = 12, CELLS_OF_TASK = sizeof(struct cells) / sizeof(uint32_t) };

INLINED uint64_t fill(taking *field, const uint8_t *image, size_t length, uint32_t budget, uint32_t *cells,
                      size_t count) {
    static struct table table;
    static struct cells answers[TASKS];
    struct bits bits = {image, length, 0, 0};
    int refusal = read_table(&bits, field, &table);
    if (refusal != 0) return (uint64_t)refusal << 32 | bits.start;
    if (count / CELLS_OF_TASK < (size_t)table.tasks) return (uint64_t)NO_ROOM << 32;
    analyse(&table, table.tasks, budget, answers);
    memcpy(cells, answers, (size_t)table.tasks * sizeof *answers);
    return 0;
}

uint64_t fast_cells(const uint8_t *image, size_t length, uint32_t budget, uint32_t *cells, size_t count) {
    return fill(plain_field, image, length, budget, cells, count);
}

uint64_t whole_cells(const uint8_t *image, size_t length, uint32_t budget, uint32_t *cells, size_t count) {
    return fill(whole_field, image, length, budget, cells, count);
}
