/* The analysis in optimised C, of which every number is still the straightforward one's.

   - Phases and held-back counts are tabulated once for a table: they depend on neither a nor the mode.
   - Once for a task a, the rivals of each (transaction, mode) are packed side by side with the phases that each
     candidate gives them, and what does not depend on t is summed.
   - One division for each transaction and evaluation: t = q·T + r. With a phase f in 0..T-1,
     ceil((t - f)/T) = q + (r > f), and the imposed charge is q·C + part(r - f).
   - No candidate, mode or step of a chain is left out.

   A task that is not overloaded has C at most T for each rival, and every value of its walk is below 2^26, so that
   32 bits are enough. */

#include "stream.h"

/* [candidate][task within the transaction] */
static int32_t phases[TASKS][TASKS_IN_TRANSACTION];
static int32_t held[TASKS][TASKS_IN_TRANSACTION];

/* The rivals of a in one (transaction, mode): their times, their sum, and for each of them as candidate the charge of
   the held-back jobs and the phases. */
struct rivals {
    int count;
    int32_t sum;
    int32_t time[TASKS_IN_TRANSACTION];
    int32_t base[TASKS_IN_TRANSACTION];
    int32_t phase[TASKS_IN_TRANSACTION][TASKS_IN_TRANSACTION];
};

static struct rivals others[TRANSACTIONS][MODES];

/* One task's walk. `own` has the rivals in u with one row, that of the present candidate. */
struct walk {
    const struct table *table;
    int a, u, mode;
    int32_t period, time, phase, held, blocking;
    struct rivals own;
    int active[TRANSACTIONS]; /* the other transactions that have a rival */
    int active_count;
    uint32_t budget, evaluations;
    struct greatest greatest;
};

static void tabulate(const struct table *table) {
    for (int c = 0; c < table->tasks; c++) {
        int v = table->transaction_of[c];
        for (int j = table->first[v]; j < table->first[v + 1]; j++) {
            int64_t period = table->period[v];
            int64_t phase = (table->offset[j] - (table->offset[c] + table->jitter[c])) % period;
            if (phase < 0) phase += period;
            phases[c][j - table->first[v]] = (int32_t)phase;
            held[c][j - table->first[v]] = (int32_t)((table->jitter[j] + phase) / period);
        }
    }
}

static int is_rival(const struct table *table, int a, int j, int mode) {
    return j != a && table->priority[j] >= table->priority[a] && table->time[j][mode] > 0;
}

/* The numbers of the rivals in a (transaction, mode) within the transaction; their times go to `rivals`. */
static void list_rivals(const struct table *table, int a, int v, int mode, struct rivals *rivals, int *numbers) {
    rivals->count = 0;
    rivals->sum = 0;
    for (int j = table->first[v]; j < table->first[v + 1]; j++) {
        if (is_rival(table, a, j, mode)) {
            numbers[rivals->count] = j - table->first[v];
            rivals->time[rivals->count] = (int32_t)table->time[j][mode];
            rivals->sum += (int32_t)table->time[j][mode];
            rivals->count++;
        }
    }
}

static void fill_row(struct rivals *rivals, const int *numbers, int row, int c) {
    int32_t base = 0;
    for (int i = 0; i < rivals->count; i++) {
        rivals->phase[row][i] = phases[c][numbers[i]];
        base += held[c][numbers[i]] * rivals->time[i];
    }
    rivals->base[row] = base;
}

static void pack_others(struct walk *walk) {
    const struct table *table = walk->table;
    int numbers[TASKS_IN_TRANSACTION];
    walk->active_count = 0;
    for (int v = 0; v < table->transactions; v++) {
        if (v == walk->u) continue;
        int any = 0;
        for (int mode = 0; mode < table->modes[v]; mode++) {
            struct rivals *rivals = &others[v][mode];
            list_rivals(table, walk->a, v, mode, rivals, numbers);
            for (int row = 0; row < rivals->count; row++) {
                fill_row(rivals, numbers, row, table->first[v] + numbers[row]);
            }
            any |= rivals->count;
        }
        if (any) walk->active[walk->active_count++] = v;
    }
}

/* What the later jobs of a row charge at t = q·T + r. */
static inline int32_t released_row(const struct rivals *rivals, int row, int32_t q, int32_t r) {
    int32_t sum = rivals->base[row] + q * rivals->sum;
    for (int i = 0; i < rivals->count; i++) {
        sum += r > rivals->phase[row][i] ? rivals->time[i] : 0;
    }
    return sum;
}

static inline int32_t imposed_row(const struct rivals *rivals, int row, int32_t period, int32_t q, int32_t r) {
    int32_t sum = rivals->base[row];
    if (q == 0) {
        for (int i = 0; i < rivals->count; i++) {
            int32_t s = r - rivals->phase[row][i];
            int32_t part = s < rivals->time[i] ? s : rivals->time[i];
            sum += part > 0 ? part : 0;
        }
        return sum;
    }
    /* Where r is below the phase, the last of the q jobs is the one that may be charged in part. */
    sum += (q - 1) * rivals->sum;
    for (int i = 0; i < rivals->count; i++) {
        int32_t s = r - rivals->phase[row][i];
        int32_t whole = s < 0 ? 0 : rivals->time[i];
        int32_t rest = s < 0 ? s + period : s;
        sum += whole + (rest < rivals->time[i] ? rest : rivals->time[i]);
    }
    return sum;
}

static int32_t released_others(const struct walk *walk, int32_t t) {
    int32_t sum = 0;
    for (int k = 0; k < walk->active_count; k++) {
        int v = walk->active[k];
        int32_t period = (int32_t)walk->table->period[v];
        int32_t q = (int32_t)((uint32_t)t / (uint32_t)period), r = t - q * period, greatest = 0;
        for (int mode = 0; mode < walk->table->modes[v]; mode++) {
            const struct rivals *rivals = &others[v][mode];
            for (int row = 0; row < rivals->count; row++) {
                int32_t charge = released_row(rivals, row, q, r);
                greatest = charge > greatest ? charge : greatest;
            }
        }
        sum += greatest;
    }
    return sum;
}

static int32_t imposed_others(const struct walk *walk, int32_t t) {
    int32_t sum = 0;
    for (int k = 0; k < walk->active_count; k++) {
        int v = walk->active[k];
        int32_t period = (int32_t)walk->table->period[v];
        int32_t q = (int32_t)((uint32_t)t / (uint32_t)period), r = t - q * period, greatest = 0;
        for (int mode = 0; mode < walk->table->modes[v]; mode++) {
            const struct rivals *rivals = &others[v][mode];
            for (int row = 0; row < rivals->count; row++) {
                int32_t charge = imposed_row(rivals, row, period, q, r);
                greatest = charge > greatest ? charge : greatest;
            }
        }
        sum += greatest;
    }
    return sum;
}

/* The chain for L; *jobs becomes the number of a's jobs in it. */
static uint32_t busy_length(struct walk *walk, int32_t *jobs) {
    for (int32_t t = 1;;) {
        if (walk->evaluations == walk->budget) return BUDGET_SPENT;
        walk->evaluations++;
        int32_t q = (int32_t)((uint32_t)t / (uint32_t)walk->period), r = t - q * walk->period;
        *jobs = walk->held + q + (r > walk->phase);
        int32_t own = walk->blocking + *jobs * walk->time;
        int32_t value = own + released_row(&walk->own, 0, q, r) + released_others(walk, t);
        if (value > HORIZON) return PAST_HORIZON;
        if (value == t) return BOUNDED;
        t = value;
    }
}

static uint32_t completion(struct walk *walk, int32_t own, int32_t *end) {
    for (int32_t t = own;;) {
        if (walk->evaluations == walk->budget) return BUDGET_SPENT;
        walk->evaluations++;
        int32_t q = (int32_t)((uint32_t)t / (uint32_t)walk->period), r = t - q * walk->period;
        int32_t value = own + imposed_row(&walk->own, 0, walk->period, q, r) + imposed_others(walk, t);
        if (value == t) {
            *end = t;
            return BOUNDED;
        }
        t = value;
    }
}

static uint32_t walk_candidate(struct walk *walk, int c, const int *numbers) {
    int a_in_u = walk->a - walk->table->first[walk->u];
    int32_t jobs;
    walk->phase = phases[c][a_in_u];
    walk->held = held[c][a_in_u];
    fill_row(&walk->own, numbers, 0, c);
    uint32_t code = busy_length(walk, &jobs);
    if (code != BOUNDED) return code;
    for (int32_t k = 1; k <= jobs; k++) {
        int32_t end;
        code = completion(walk, walk->blocking + k * walk->time, &end);
        if (code != BOUNDED) return code;
        int64_t arrival = walk->phase + ((int64_t)k - walk->held - 1) * walk->period;
        int64_t response = end - arrival + walk->table->offset[walk->a];
        if (response > walk->greatest.response) {
            walk->greatest = (struct greatest){response, (uint32_t)walk->mode, (uint32_t)c, (uint32_t)(k - 1)};
        }
    }
    return BOUNDED;
}

static uint32_t walk_task(struct walk *walk) {
    const struct table *table = walk->table;
    int a = walk->a, u = walk->u;
    int numbers[TASKS_IN_TRANSACTION];
    pack_others(walk);
    for (walk->mode = 0; walk->mode < table->modes[u]; walk->mode++) {
        if (table->time[a][walk->mode] == 0) continue;
        walk->time = (int32_t)table->time[a][walk->mode];
        list_rivals(table, a, u, walk->mode, &walk->own, numbers);
        for (int c = table->first[u]; c < table->first[u + 1]; c++) {
            if (c != a && !is_rival(table, a, c, walk->mode)) continue;
            uint32_t code = walk_candidate(walk, c, numbers);
            if (code != BOUNDED) return code;
        }
    }
    return walk->greatest.response > table->deadline[a] ? LATE : BOUNDED;
}

static int is_overloaded(const struct table *table, int a) {
    int64_t demand = 0;
    for (int v = 0; v < table->transactions; v++) {
        int64_t greatest = 0;
        for (int mode = 0; mode < table->modes[v]; mode++) {
            if (v == table->transaction_of[a] && table->time[a][mode] == 0) continue;
            int64_t sum = 0;
            for (int j = table->first[v]; j < table->first[v + 1]; j++) {
                if (j == a || is_rival(table, a, j, mode)) sum += table->time[j][mode];
            }
            greatest = sum > greatest ? sum : greatest;
        }
        demand += table->frame / table->period[v] * greatest;
    }
    return demand > table->frame;
}

void analyse(const struct table *table, int tasks, uint32_t budget, struct cells *cells) {
    static struct walk walk;
    tabulate(table);
    for (int a = 0; a < tasks; a++) {
        walk.table = table;
        walk.a = a;
        walk.u = table->transaction_of[a];
        walk.period = (int32_t)table->period[walk.u];
        walk.blocking = (int32_t)table->blocking[a];
        walk.budget = budget;
        walk.evaluations = 0;
        walk.greatest.response = 0;
        uint32_t code = is_overloaded(table, a) ? OVERLOAD : walk_task(&walk);
        cells[a] = cells_of(code, walk.evaluations, &walk.greatest);
    }
}
