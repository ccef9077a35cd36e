/* Fields of an image, most significant bit first: the two ways in which the C programs take them. */

#ifndef BENCH_BITS_H
#define BENCH_BITS_H

#include <stddef.h>
#include <stdint.h>
#include <string.h>

struct bits {
    const uint8_t *image;
    size_t length;
    size_t at;    /* the next bit */
    size_t start; /* the first bit of the field that was read last */
};

/* One of these ways. A walk over the fields is handed it by name and is INLINED, so that it is compiled for each of them as if
   it named that one itself. */
typedef int64_t taking(struct bits *bits, unsigned width);

#define INLINED static inline __attribute__((always_inline))

/* Straightforward, byte by byte: a field of that width; -1 if the image ends inside it. */
static inline int64_t plain_field(struct bits *bits, unsigned width) {
    bits->start = bits->at;
    if (bits->at + width > 8 * bits->length) {
        return -1;
    }
    int64_t value = 0;
    for (unsigned left = width; left > 0;) {
        unsigned in_byte = 8 - bits->at % 8;
        unsigned take = left < in_byte ? left : in_byte;
        unsigned byte = bits->image[bits->at / 8] & ((1u << in_byte) - 1);
        value = (value << take) | (byte >> (in_byte - take));
        bits->at += take;
        left -= take;
    }
    return value;
}

/* The eight bytes from that one on; those beyond the image count as 0. */
INLINED uint64_t eight_bytes(const struct bits *bits, size_t from) {
    uint64_t value = 0;
    if (from + 8 <= bits->length) {
        memcpy(&value, &bits->image[from], 8);
        return __builtin_bswap64(value);
    }
    for (size_t i = from; i < from + 8; i++) {
        value = value << 8 | (i < bits->length ? bits->image[i] : 0);
    }
    return value;
}

/* The same by whole bytes: wherever a field of at most 57 bits starts in its first byte, the eight from there on have all of
   it. */
INLINED int64_t whole_field(struct bits *bits, unsigned width) {
    bits->start = bits->at;
    if (bits->at + width > 8 * bits->length) {
        return -1;
    }
    uint64_t value = eight_bytes(bits, bits->at / 8) << bits->at % 8 >> (64 - width);
    bits->at += width;
    return (int64_t)value;
}

#endif
