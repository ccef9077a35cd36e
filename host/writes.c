/* Writes tables and reads them back, for a comparison: reads rows from standard input and prints a line for each, as the
   second program's `write` does.

   A row is the length of the buffer to lend (4 bytes) and its cells (4 bytes each), most significant byte first. A line
   is the number and the value of sumpcandle_write and the buffer in hexadecimal; then the number and the place of
   sumpcandle_read for what was written, or for the whole buffer if nothing was, and the cells that it was lent. Buffer
   and cells hold a pattern before the calls, and so does what is behind them, which is printed too. */

#include <inttypes.h>
#include <stdio.h>

#include "sumpcandle.h"

/* A buffer may be longer than any image. */
enum { ROOM = 2 * SUMPCANDLE_LONGEST, BEHIND = 16 };

/* The next number; 0 at the end of input. */
static int next(uint32_t *number) {
    uint8_t bytes[4];
    if (fread(bytes, 1, 4, stdin) != 4) {
        return 0;
    }
    *number = (uint32_t)bytes[0] << 24 | (uint32_t)bytes[1] << 16 | (uint32_t)bytes[2] << 8 | bytes[3];
    return 1;
}

static uint32_t pattern(uint32_t at) { return 37 * at + 11; }

static int trouble(const char *what) {
    fprintf(stderr, "writes: %s\n", what);
    return 3;
}

int main(void) {
    static uint32_t cells[SUMPCANDLE_TABLE_CELLS], back[SUMPCANDLE_TABLE_CELLS + BEHIND];
    static uint8_t buffer[ROOM + BEHIND];
    uint32_t length;
    while (next(&length)) {
        for (size_t i = 0; i < SUMPCANDLE_TABLE_CELLS; i++) {
            if (!next(&cells[i])) {
                return trouble("the stream ends inside a row");
            }
        }
        if (length > ROOM) {
            return trouble("a buffer longer than there is room for");
        }
        for (uint32_t i = 0; i < length + BEHIND; i++) {
            buffer[i] = (uint8_t)pattern(i);
        }
        for (uint32_t i = 0; i < SUMPCANDLE_TABLE_CELLS + BEHIND; i++) {
            back[i] = pattern(i);
        }

        uint64_t written = sumpcandle_write(cells, buffer, length);
        uint32_t number = sumpcandle_number(written), value = sumpcandle_value(written);
        /* a length that cannot be is for the comparison to find */
        uint64_t read = sumpcandle_read(buffer, number == 0 && value <= length ? value : length, back);

        printf("%" PRIu32 " %" PRIu32 " ", number, value);
        for (size_t i = 0; i < length + BEHIND; i++) {
            printf("%02x", buffer[i]);
        }
        printf(" %" PRIu32 " %" PRIu32, sumpcandle_number(read), sumpcandle_value(read));
        for (size_t i = 0; i < SUMPCANDLE_TABLE_CELLS + BEHIND; i++) {
            printf(" %" PRIu32, back[i]);
        }
        putchar('\n');
    }
    return ferror(stdin) || fflush(stdout) ? trouble("something could not be read or written") : 0;
}
