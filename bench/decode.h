/* Reading an image into the decoded table of stream.h: the checks of documents 01 and 02, and either way of bits.h to take a field. */

#ifndef BENCH_DECODE_H
#define BENCH_DECODE_H

#include "bits.h"
#include "stream.h"

/* One task. Returns the number of the refusal, or 0; bits->start is then the place. */
INLINED int read_task(struct bits *bits, taking *field, struct table *table, int j, int modes) {
    int64_t priority;
    if ((table->offset[j] = field(bits, 24)) < 0) return 1;
    if ((table->jitter[j] = field(bits, 24)) < 0) return 1;
    if ((table->blocking[j] = field(bits, 24)) < 0) return 1;
    size_t deadline = bits->at;
    if ((table->deadline[j] = field(bits, 26)) < 0) return 1;
    if (table->deadline[j] == 0) return 8;
    if ((priority = field(bits, 8)) < 0) return 1;
    table->priority[j] = (int)priority;
    size_t first_time = bits->at;
    int64_t longest = 0;
    for (int mode = 0; mode < modes; mode++) {
        int64_t time = field(bits, 24);
        if (time < 0) return 1;
        table->time[j][mode] = time;
        if (longest < time) longest = time;
    }
    if (longest == 0) {
        bits->start = first_time;
        return 9;
    }
    if (is_short(table->deadline[j], table->offset[j], longest)) {
        bits->start = deadline;
        return 14;
    }
    return 0;
}

/* The same of all of it. */
INLINED int read_table(struct bits *bits, taking *field, struct table *table) {
    int64_t edition, transactions;
    if ((edition = field(bits, 4)) < 0) return 1;
    if (edition != 1) return 2;
    if ((table->frame = field(bits, 24)) < 0) return 1;
    if (table->frame == 0) return 3;
    if ((transactions = field(bits, 6)) < 0) return 1;
    if (transactions < 1 || transactions > TRANSACTIONS) return 4;
    table->transactions = (int)transactions;
    table->tasks = 0;
    for (int v = 0; v < table->transactions; v++) {
        int64_t period, modes, count;
        if ((period = field(bits, 24)) < 0) return 1;
        if (period == 0 || table->frame % period != 0) return 5;
        if ((modes = field(bits, 4)) < 0) return 1;
        if (modes < 1 || modes > MODES) return 6;
        if ((count = field(bits, 5)) < 0) return 1;
        if (count < 1 || count > TASKS_IN_TRANSACTION || table->tasks + count > TASKS) return 7;
        table->period[v] = period;
        table->modes[v] = (int)modes;
        table->first[v] = table->tasks;
        for (int64_t i = 0; i < count; i++) {
            int j = table->tasks;
            int refusal = read_task(bits, field, table, j, (int)modes);
            if (refusal != 0) return refusal;
            table->transaction_of[j] = v;
            table->tasks++;
        }
    }
    table->first[table->transactions] = table->tasks;

    unsigned padding = (8 - bits->at % 8) % 8;
    if (padding > 0 && field(bits, padding) != 0) return 10;
    bits->start = bits->at;
    if (bits->at < 8 * bits->length) return 11;
    return 0;
}

#endif
