/* The analysis in straightforward C: phase, held-back jobs and charge worked out each time they are needed. */

#include "stream.h"

/* floor(x / y) and x mod y for y > 0. */
static int64_t floor_div(int64_t x, int64_t y) { return x / y - (x % y < 0); }
static int64_t ceil_div(int64_t x, int64_t y) { return -floor_div(-x, y); }
static int64_t modulo(int64_t x, int64_t y) { return x % y + (x % y < 0 ? y : 0); }

/* One task's walk: the task a, the mode and candidate of the present chains, and what the walk has so far. */
struct walk {
    const struct table *table;
    int a, mode, candidate;
    uint32_t budget, evaluations;
    struct greatest greatest;
};

static int64_t phase(const struct table *table, int j, int c) {
    return modulo(table->offset[j] - (table->offset[c] + table->jitter[c]), table->period[table->transaction_of[j]]);
}

static int is_rival(const struct table *table, int a, int j, int mode) {
    return j != a && table->priority[j] >= table->priority[a] && table->time[j][mode] > 0;
}

static int64_t charge(const struct table *table, int j, int c, int mode, int64_t t, int released) {
    int64_t period = table->period[table->transaction_of[j]];
    int64_t time = table->time[j][mode];
    int64_t f = phase(table, j, c);
    int64_t held = (table->jitter[j] + f) / period * time;
    int64_t s = t - f;
    if (s <= 0) return held;
    if (released) return held + (s + period - 1) / period * time;
    int64_t rest = s % period;
    return held + s / period * time + (rest < time ? rest : time);
}

static int64_t transaction_charge(const struct walk *walk, int v, int c, int mode, int64_t t, int released) {
    const struct table *table = walk->table;
    int64_t sum = 0;
    for (int j = table->first[v]; j < table->first[v + 1]; j++) {
        if (is_rival(table, walk->a, j, mode)) {
            sum += charge(table, j, c, mode, t, released);
        }
    }
    return sum;
}

static int64_t greatest_charge(const struct walk *walk, int v, int64_t t, int released) {
    const struct table *table = walk->table;
    int64_t greatest = 0;
    for (int mode = 0; mode < table->modes[v]; mode++) {
        for (int c = table->first[v]; c < table->first[v + 1]; c++) {
            if (is_rival(table, walk->a, c, mode)) {
                int64_t sum = transaction_charge(walk, v, c, mode, t, released);
                if (sum > greatest) greatest = sum;
            }
        }
    }
    return greatest;
}

static int64_t charges(const struct walk *walk, int64_t t, int released) {
    int u = walk->table->transaction_of[walk->a];
    int64_t sum = transaction_charge(walk, u, walk->candidate, walk->mode, t, released);
    for (int v = 0; v < walk->table->transactions; v++) {
        if (v != u) sum += greatest_charge(walk, v, t, released);
    }
    return sum;
}

/* The chain for L. Returns a code; *length is L if it is BOUNDED. */
static uint32_t busy_length(struct walk *walk, int64_t f, int64_t first_job, int64_t *length) {
    const struct table *table = walk->table;
    int a = walk->a;
    int64_t period = table->period[table->transaction_of[a]];
    for (int64_t t = 1;;) {
        if (walk->evaluations == walk->budget) return BUDGET_SPENT;
        walk->evaluations++;
        int64_t jobs = ceil_div(t - f, period) - first_job + 1;
        int64_t value = table->blocking[a] + jobs * table->time[a][walk->mode] + charges(walk, t, 1);
        if (value > HORIZON) return PAST_HORIZON;
        if (value == t) {
            *length = t;
            return BOUNDED;
        }
        t = value;
    }
}

/* The chain for a job with that much work of a's own, blocking included. */
static uint32_t completion(struct walk *walk, int64_t own, int64_t *end) {
    for (int64_t t = own;;) {
        if (walk->evaluations == walk->budget) return BUDGET_SPENT;
        walk->evaluations++;
        int64_t value = own + charges(walk, t, 0);
        if (value == t) {
            *end = t;
            return BOUNDED;
        }
        t = value;
    }
}

static uint32_t walk_candidate(struct walk *walk) {
    const struct table *table = walk->table;
    int a = walk->a;
    int64_t period = table->period[table->transaction_of[a]];
    int64_t f = phase(table, a, walk->candidate);
    int64_t first_job = 1 - (table->jitter[a] + f) / period;
    int64_t length;
    uint32_t code = busy_length(walk, f, first_job, &length);
    if (code != BOUNDED) return code;
    int64_t last_job = ceil_div(length - f, period);
    for (int64_t job = first_job; job <= last_job; job++) {
        int64_t end;
        int64_t own = table->blocking[a] + (job - first_job + 1) * table->time[a][walk->mode];
        code = completion(walk, own, &end);
        if (code != BOUNDED) return code;
        int64_t response = end - (f + (job - 1) * period) + table->offset[a];
        if (response > walk->greatest.response) {
            uint32_t mode = (uint32_t)walk->mode, candidate = (uint32_t)walk->candidate;
            walk->greatest = (struct greatest){response, mode, candidate, (uint32_t)(job - first_job)};
        }
    }
    return BOUNDED;
}

static int is_overloaded(const struct table *table, int a) {
    int64_t demand = 0;
    for (int v = 0; v < table->transactions; v++) {
        int64_t greatest = 0;
        for (int mode = 0; mode < table->modes[v]; mode++) {
            if (v == table->transaction_of[a] && table->time[a][mode] == 0) continue;
            int64_t sum = 0;
            for (int j = table->first[v]; j < table->first[v + 1]; j++) {
                if (j == a || is_rival(table, a, j, mode)) sum += table->time[j][mode];
            }
            if (sum > greatest) greatest = sum;
        }
        demand += table->frame / table->period[v] * greatest;
    }
    return demand > table->frame;
}

static uint32_t walk_task(struct walk *walk) {
    const struct table *table = walk->table;
    int u = table->transaction_of[walk->a];
    for (walk->mode = 0; walk->mode < table->modes[u]; walk->mode++) {
        if (table->time[walk->a][walk->mode] == 0) continue;
        for (int c = table->first[u]; c < table->first[u + 1]; c++) {
            if (c != walk->a && !is_rival(table, walk->a, c, walk->mode)) continue;
            walk->candidate = c;
            uint32_t code = walk_candidate(walk);
            if (code != BOUNDED) return code;
        }
    }
    return walk->greatest.response > table->deadline[walk->a] ? LATE : BOUNDED;
}

void analyse(const struct table *table, int tasks, uint32_t budget, struct cells *cells) {
    for (int a = 0; a < tasks; a++) {
        struct walk walk = {table, a, 0, 0, budget, 0, {0, 0, 0, 0}};
        uint32_t code = is_overloaded(table, a) ? OVERLOAD : walk_task(&walk);
        cells[a] = cells_of(code, walk.evaluations, &walk.greatest);
    }
}
