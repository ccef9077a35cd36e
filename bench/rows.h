/* Reading an image into a row of cells, and writing the image of such a row, in C: what sumpcandle_read and sumpcandle_write of
   include/sumpcandle.h promise, with the same checks and answers. */

#ifndef BENCH_ROWS_H
#define BENCH_ROWS_H

#include <stddef.h>
#include <stdint.h>

/* Straightforward. */
uint64_t plain_read(const uint8_t *image, size_t length, uint32_t *cells);

/* The same by whole bytes, a load of eight for each field. */
uint64_t whole_read(const uint8_t *image, size_t length, uint32_t *cells);

/* Straightforward. */
uint64_t plain_write(const uint32_t *cells, uint8_t *buffer, size_t length);

#endif
