/* The cells of every task of an image in optimised C: what sumpcandle_cells of include/sumpcandle.h promises, with the same
   checks and answers, but for one caller at a time. */

#ifndef BENCH_CELLS_H
#define BENCH_CELLS_H

#include <stddef.h>
#include <stdint.h>

/* As `fast` of bench/run: fields are taken in the straightforward way. */
uint64_t fast_cells(const uint8_t *image, size_t length, uint32_t budget, uint32_t *cells, size_t count);

/* Fields are taken by whole bytes. */
uint64_t whole_cells(const uint8_t *image, size_t length, uint32_t budget, uint32_t *cells, size_t count);

#endif
