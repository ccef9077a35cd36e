/* Reading and writing in C: one walk over the fields, into a row or an image of its own, which is handed over at the end, so
   that a refusal leaves what the caller lent. The reading walk serves both ways to take a field. */

#include "rows.h"

#include <string.h>

#include "bits.h"
#include "limits.h"

/* The row: the cells of the header, those of each transaction, those of each task. */
enum {
    HEADER = SUMPCANDLE_HEADER_CELLS,
    HEAD = SUMPCANDLE_TRANSACTION_CELLS,
    BODY = SUMPCANDLE_TASK_CELLS,
    BODIES = SUMPCANDLE_TASKS_START,
    CELLS = SUMPCANDLE_TABLE_CELLS
};
enum { EDITION, FRAME, COUNT, IN_ALL };
enum { PERIOD, MODE_COUNT, FIRST, TASK_COUNT };
enum { OFFSET, JITTER, BLOCKING, DEADLINE, PRIORITY, OWNER, TIMES };

enum { TOO_LARGE = 29, TOO_SHORT = 30 };

static uint64_t answer(uint32_t number, size_t value) { return (uint64_t)number << 32 | value; }

static uint32_t greater(uint32_t x, uint32_t y) { return x < y ? y : x; }

/* Reading: a field into its cell. Returns the number of the refusal, or 0; bits->start is then the place. */

INLINED int take(struct bits *bits, taking *field, uint32_t *cell, unsigned width) {
    int64_t value = field(bits, width);
    *cell = (uint32_t)value;
    return value < 0;
}

INLINED int read_task(struct bits *bits, taking *field, uint32_t *body, uint32_t modes) {
    if (take(bits, field, &body[OFFSET], 24) || take(bits, field, &body[JITTER], 24)) return 1;
    if (take(bits, field, &body[BLOCKING], 24)) return 1;
    size_t deadline = bits->at;
    if (take(bits, field, &body[DEADLINE], 26)) return 1;
    if (body[DEADLINE] == 0) return 8;
    if (take(bits, field, &body[PRIORITY], 8)) return 1;
    size_t first_time = bits->at;
    uint32_t longest = 0;
    for (uint32_t mode = 0; mode < modes; mode++) {
        if (take(bits, field, &body[TIMES + mode], 24)) return 1;
        longest = greater(longest, body[TIMES + mode]);
    }
    if (longest == 0) {
        bits->start = first_time;
        return 9;
    }
    if (is_short(body[DEADLINE], body[OFFSET], longest)) {
        bits->start = deadline;
        return 14;
    }
    return 0;
}

INLINED int read_row(struct bits *bits, taking *field, uint32_t *row) {
    if (take(bits, field, &row[EDITION], 4)) return 1;
    if (row[EDITION] != 1) return 2;
    if (take(bits, field, &row[FRAME], 24)) return 1;
    if (row[FRAME] == 0) return 3;
    if (take(bits, field, &row[COUNT], 6)) return 1;
    if (row[COUNT] < 1 || row[COUNT] > TRANSACTIONS) return 4;
    uint32_t tasks = 0;
    for (uint32_t v = 0; v < row[COUNT]; v++) {
        uint32_t *head = &row[HEADER + v * HEAD];
        if (take(bits, field, &head[PERIOD], 24)) return 1;
        if (head[PERIOD] == 0 || row[FRAME] % head[PERIOD] != 0) return 5;
        if (take(bits, field, &head[MODE_COUNT], 4)) return 1;
        if (head[MODE_COUNT] < 1 || head[MODE_COUNT] > MODES) return 6;
        if (take(bits, field, &head[TASK_COUNT], 5)) return 1;
        uint32_t count = head[TASK_COUNT];
        if (count < 1 || count > TASKS_IN_TRANSACTION || tasks + count > TASKS) return 7;
        head[FIRST] = tasks;
        for (uint32_t end = tasks + count; tasks < end; tasks++) {
            uint32_t *body = &row[BODIES + tasks * BODY];
            int refusal = read_task(bits, field, body, head[MODE_COUNT]);
            if (refusal != 0) return refusal;
            body[OWNER] = v;
        }
    }
    row[IN_ALL] = tasks;

    unsigned padding = (8 - bits->at % 8) % 8;
    if (padding > 0 && field(bits, padding) != 0) return 10;
    bits->start = bits->at;
    return bits->at < 8 * bits->length ? 11 : 0;
}

INLINED uint64_t read_by(taking *field, const uint8_t *image, size_t length, uint32_t *cells) {
    uint32_t row[CELLS] = {0};
    struct bits bits = {image, length, 0, 0};
    int refusal = read_row(&bits, field, row);
    if (refusal != 0) return answer((uint32_t)refusal, bits.start);
    memcpy(cells, row, sizeof row);
    return 0;
}

uint64_t plain_read(const uint8_t *image, size_t length, uint32_t *cells) {
    return read_by(plain_field, image, length, cells);
}

uint64_t whole_read(const uint8_t *image, size_t length, uint32_t *cells) {
    return read_by(whole_field, image, length, cells);
}

/* Writing: the bytes so far, and the bits of the next one, which are the lowest of `held`. */
struct image {
    uint8_t bytes[SUMPCANDLE_LONGEST];
    size_t length;
    uint64_t held;
    unsigned count;
};

static size_t place(const struct image *image) { return 8 * image->length + image->count; }

/* A field's number. Returns TOO_LARGE if it does not fit, or 0. */
static uint32_t put(struct image *image, uint32_t value, unsigned width) {
    if (value >> width != 0) return TOO_LARGE;
    image->held = image->held << width | value;
    image->count += width;
    while (image->count >= 8) {
        image->count -= 8;
        image->bytes[image->length++] = (uint8_t)(image->held >> image->count);
    }
    return 0;
}

/* The same of a field with a rule, and the number of its refusal where the rule is broken. */
static uint32_t put_ruled(struct image *image, uint32_t value, unsigned width, int is_good, uint32_t number) {
    if (value >> width != 0) return TOO_LARGE;
    return is_good ? put(image, value, width) : number;
}

/* One task. Returns the number of the refusal, or 0; *at is then the place. */
static uint32_t write_task(struct image *image, const uint32_t *body, uint32_t modes, size_t *at) {
    uint32_t refusal, longest = 0;
    for (int i = OFFSET; i <= BLOCKING; i++) {
        *at = place(image);
        if ((refusal = put(image, body[i], 24)) != 0) return refusal;
    }
    size_t deadline = *at = place(image);
    if ((refusal = put_ruled(image, body[DEADLINE], 26, body[DEADLINE] != 0, 8)) != 0) return refusal;
    *at = place(image);
    if ((refusal = put(image, body[PRIORITY], 8)) != 0) return refusal;
    size_t first_time = place(image);
    for (uint32_t mode = 0; mode < modes; mode++) {
        *at = place(image);
        if ((refusal = put(image, body[TIMES + mode], 24)) != 0) return refusal;
        longest = greater(longest, body[TIMES + mode]);
    }
    *at = longest == 0 ? first_time : deadline;
    if (longest == 0) return 9;
    return is_short(body[DEADLINE], body[OFFSET], longest) ? 14 : 0;
}

static uint32_t write_row(struct image *image, const uint32_t *cells, size_t *at) {
    uint32_t refusal, edition = cells[EDITION], frame = cells[FRAME], transactions = cells[COUNT], tasks = 0;
    *at = 0;
    if ((refusal = put_ruled(image, edition, 4, edition == 1, 2)) != 0) return refusal;
    *at = place(image);
    if ((refusal = put_ruled(image, frame, 24, frame != 0, 3)) != 0) return refusal;
    *at = place(image);
    int in_range = 1 <= transactions && transactions <= TRANSACTIONS;
    if ((refusal = put_ruled(image, transactions, 6, in_range, 4)) != 0) return refusal;
    for (uint32_t v = 0; v < transactions; v++) {
        const uint32_t *head = &cells[HEADER + v * HEAD];
        uint32_t period = head[PERIOD], modes = head[MODE_COUNT], count = head[TASK_COUNT];
        *at = place(image);
        if ((refusal = put_ruled(image, period, 24, period != 0 && frame % period == 0, 5)) != 0) return refusal;
        *at = place(image);
        if ((refusal = put_ruled(image, modes, 4, 1 <= modes && modes <= MODES, 6)) != 0) return refusal;
        *at = place(image);
        in_range = 1 <= count && count <= TASKS_IN_TRANSACTION && tasks + count <= TASKS;
        if ((refusal = put_ruled(image, count, 5, in_range, 7)) != 0) return refusal;
        for (uint32_t end = tasks + count; tasks < end; tasks++) {
            if ((refusal = write_task(image, &cells[BODIES + tasks * BODY], modes, at)) != 0) return refusal;
        }
    }
    return put(image, 0, (8 - image->count) % 8);
}

uint64_t plain_write(const uint32_t *cells, uint8_t *buffer, size_t length) {
    struct image image;
    size_t at;
    image.length = 0, image.held = 0, image.count = 0;
    uint32_t refusal = write_row(&image, cells, &at);
    if (refusal != 0) return answer(refusal, at);
    if (length < image.length) return answer(TOO_SHORT, 0);
    memcpy(buffer, image.bytes, image.length);
    return answer(0, image.length);
}
