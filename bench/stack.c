/* How many bytes of stack one call of a function of sumpcandle.h takes: they are called on a stack of a known pattern, and so
   is a function that does nothing; the difference of what the two leave changed is printed.

   stack FILE...    asks for every task of each image, who pushed it, its plain response and the approximation, reads the image into
                    cells and writes these, and prints the greatest; status 1 where it is above SUMPCANDLE_STACK */

#define _POSIX_C_SOURCE 200809L

#include <pthread.h>
#include <stdio.h>
#include <stdlib.h>
#include <string.h>

#include "sumpcandle.h"

/* One byte more than the longest image is enough to be refused as the whole file would be. */
enum { SIZE = 1 << 20, ROOM = SUMPCANDLE_LONGEST + 1, BUDGET = 2000, PATTERN = 0xA5 };

static uint8_t image[ROOM], written[SUMPCANDLE_LONGEST];
static uint32_t cells[SUMPCANDLE_TABLE_CELLS];
static int64_t parts[SUMPCANDLE_PARTS_CELLS];
static uint64_t charge[SUMPCANDLE_CHARGE_CELLS];
static uint64_t approximation;
static size_t length;

static void *nothing(void *task) { return task; }

static void *asks(void *task) {
    for (uint32_t k = 0; sumpcandle_number(sumpcandle_response(image, length, k, BUDGET)) != SUMPCANDLE_NO_TASK; k++) {
        if (!sumpcandle_is_code(sumpcandle_response(image, length, k, BUDGET))) {
            break;
        }
        sumpcandle_parts(image, length, k, BUDGET, parts);
        sumpcandle_plain(image, length, k);
        sumpcandle_approximate(image, length, k, 1, BUDGET, &approximation);
        /* one of the two transactions is not the task's own */
        for (uint32_t i = 0; i < 2; i++) {
            sumpcandle_part(image, length, k, BUDGET, i, charge);
            sumpcandle_charge(image, length, k, i, 1, BUDGET, charge);
        }
    }
    static uint32_t results[SUMPCANDLE_TASKS * SUMPCANDLE_RESULT_CELLS];
    sumpcandle_cells(image, length, BUDGET, results, sizeof results / sizeof *results);
    sumpcandle_read(image, length, cells);
    sumpcandle_write(cells, written, SUMPCANDLE_LONGEST);
    return task;
}

static size_t used(uint8_t *stack, void *(*called)(void *)) {
    pthread_attr_t attributes;
    pthread_t thread;
    memset(stack, PATTERN, SIZE);
    if (pthread_attr_init(&attributes) || pthread_attr_setstack(&attributes, stack, SIZE) ||
        pthread_create(&thread, &attributes, called, NULL) || pthread_join(thread, NULL)) {
        fputs("stack: no thread\n", stderr);
        exit(3);
    }
    size_t free_bytes = 0;
    while (free_bytes < SIZE && stack[free_bytes] == PATTERN) {
        free_bytes++;
    }
    return SIZE - free_bytes;
}

int main(int count, char **arguments) {
    uint8_t *stack = aligned_alloc(4096, SIZE);
    size_t most = 0;
    if (stack == NULL || count < 2) {
        fputs("usage: stack FILE...\n", stderr);
        return 3;
    }
    size_t before = used(stack, nothing);
    for (int i = 1; i < count; i++) {
        FILE *file = fopen(arguments[i], "rb");
        if (file == NULL) {
            perror(arguments[i]);
            return 3;
        }
        length = fread(image, 1, ROOM, file);
        fclose(file);
        size_t now = used(stack, asks);
        most = now > most ? now : most;
    }
    printf("a call takes %zu bytes of stack\n", most - before);
    return most - before > SUMPCANDLE_STACK;
}
