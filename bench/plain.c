/* The same jobs in plain C, written for speed. Reading and writing look at each record once and compare records two by two, as
 * the proved code does. The analysis has the savings that the proved code has: the chain; phases backwards from where the
 * windows settle, each search from where the last one ended; the jump over phases where the old part does not grow; one
 * evaluation against the worst so far; forwards only for the first late phase; the tasks above gathered once a row, and no
 * search for a completed task with none above it. It divides as C divides, in 32 bits, which is enough for every number here.
 *
 * With -DCOUNT it counts how often a demand is worked out, which is as often as in the proved code. Without, the counter stays
 * 0 and costs nothing. */
#include "plain.h"

unsigned long plain_evaluations = 0;
#ifdef COUNT
#define COUNTED plain_evaluations++
#else
#define COUNTED ((void)0)
#endif

enum { completed = VISNUMAR_KIND_COMPLETED, aborted = VISNUMAR_KIND_ABORTED, entering = VISNUMAR_KIND_NEW };

struct task {
    uint32_t kind, rank, period, deadline, execution, offset;
};

struct table {
    uint32_t count;
    struct task tasks[most];
};

/* A task above: old ones have 1 for aborted as their last number, new ones their offset. */
struct term {
    uint32_t period, execution, last;
};

static uint32_t half(const uint8_t *at) {
    return (uint32_t)at[0] | (uint32_t)at[1] << 8;
}

static uint32_t word(const uint8_t *at) {
    return half(at) | half(at + 2) << 16;
}

static struct visnumar_answer say(uint32_t code, uint32_t side, uint32_t record, uint32_t detail) {
    struct visnumar_answer answer = {code, side, record, detail};
    return answer;
}

/* The blocks. */

static inline const uint8_t *record_of(const uint8_t *block, uint32_t k) {
    return block + head_len + record_len * k;
}

static inline uint32_t sum(const uint8_t *block) {
    uint32_t check = 0;
    for (uint32_t k = 0; k < check_at; k += 4) check += word(block + k);
    return check;
}

/* Codes 1 to 4. The side is 2 where the wanted one is bad. */
static inline struct visnumar_answer judge_head(const uint8_t *block, size_t len, uint32_t side) {
    if (len != block_len) return say(1, side, 0, 0);
    if (sum(block) != word(block + check_at)) return say(2, side, 0, 0);
    if (block[0] != mark_first || block[1] != mark_second) return say(3, side, 0, 0);
    if (side > 1 || block[2] != side || block[3] > most || half(block + 6) != 0) return say(4, side, 0, 0);
    return say(0, 2, 0, 0);
}

/* The rules of a task. */
static inline int keeps(uint32_t side, uint32_t kind, uint32_t period, uint32_t deadline, uint32_t execution, uint32_t offset) {
    return (side == 0 ? kind < entering : kind == entering) && period >= 1 && execution >= 1 && execution <= deadline
        && deadline <= period && (side == 1 || offset == 0);
}

static inline int right(const uint8_t *record, uint32_t side) {
    return keeps(side, record[at_kind], half(record + at_period), half(record + at_deadline), half(record + at_execution),
                 half(record + at_offset)) && word(record + at_zeros) == 0;
}

/* The first record that bears a number or priority of an earlier one; 0 where there is none. */
static inline uint32_t doubled(const uint8_t *block, uint32_t n) {
    for (uint32_t k = 1; k < n; k++) {
        uint32_t number = half(record_of(block, k) + at_number);
        uint32_t priority = record_of(block, k)[at_priority];
        for (uint32_t j = 0; j < k; j++) {
            const uint8_t *earlier = record_of(block, j);
            if (half(earlier + at_number) == number || earlier[at_priority] == priority) return k;
        }
    }
    return 0;
}

/* Codes 6 and 7. */
static inline struct visnumar_answer judge_rest(const uint8_t *block, uint32_t side) {
    uint32_t n = block[3], k = doubled(block, n), room = 0;
    if (k != 0) return say(6, side, k, 0);
    for (uint32_t at = head_len + record_len * n; at < check_at; at += 4) room |= word(block + at);
    if (room != 0) return say(7, side, 0, 0);
    return say(0, 2, 0, 0);
}

struct visnumar_answer plain_read(const uint8_t *block, size_t len, uint32_t side, uint32_t *list, size_t list_len) {
    if (side > 1) side = 2;
    struct visnumar_answer answer = judge_head(block, len, side);
    if (answer.code != 0) return answer;
    uint32_t n = block[3];
    for (uint32_t k = 0; k < n; k++) {
        if (!right(record_of(block, k), side)) return say(5, side, k, 0);
    }
    answer = judge_rest(block, side);
    if (answer.code != 0) return answer;
    if (list_len < task_numbers * n) return say(8, 2, 0, 0);
    for (uint32_t k = 0; k < n; k++) {
        const uint8_t *record = record_of(block, k);
        uint32_t *entry = list + task_numbers * k;
        entry[VISNUMAR_KIND] = record[at_kind];
        entry[VISNUMAR_PRIORITY] = record[at_priority];
        entry[VISNUMAR_NUMBER] = half(record + at_number);
        entry[VISNUMAR_PERIOD] = half(record + at_period);
        entry[VISNUMAR_DEADLINE] = half(record + at_deadline);
        entry[VISNUMAR_EXECUTION] = half(record + at_execution);
        entry[VISNUMAR_OFFSET] = half(record + at_offset);
    }
    return say(0, side, n, half(block + 4));
}

static inline void put_half(uint8_t *at, uint32_t value) {
    at[0] = (uint8_t)value;
    at[1] = (uint8_t)(value >> 8);
}

struct visnumar_answer plain_write(uint32_t side, uint16_t mode, const uint32_t *list, size_t list_len, uint8_t *block, size_t len) {
    if (side > 1) side = 2;
    if (len != block_len) return say(1, side, 0, 0);
    if (list_len % task_numbers != 0) return say(11, 2, 0, 0);
    if (side > 1 || list_len / task_numbers > most) return say(4, side, 0, 0);
    uint8_t made[block_len] = {mark_first, mark_second, (uint8_t)side, (uint8_t)(list_len / task_numbers)};
    put_half(made + 4, mode);
    for (uint32_t k = 0; k < made[3]; k++) {
        const uint32_t *x = list + task_numbers * k;
        uint8_t *record = made + head_len + record_len * k;
        /* Where the rules hold, C and D are at most T, and fit where T does. */
        if (x[VISNUMAR_PRIORITY] > 255 || (x[VISNUMAR_NUMBER] | x[VISNUMAR_PERIOD] | x[VISNUMAR_OFFSET]) > 65535
            || !keeps(side, x[VISNUMAR_KIND], x[VISNUMAR_PERIOD], x[VISNUMAR_DEADLINE], x[VISNUMAR_EXECUTION], x[VISNUMAR_OFFSET])) {
            return say(5, side, k, 0);
        }
        record[at_kind] = (uint8_t)x[VISNUMAR_KIND];
        record[at_priority] = (uint8_t)x[VISNUMAR_PRIORITY];
        put_half(record + at_number, x[VISNUMAR_NUMBER]);
        put_half(record + at_period, x[VISNUMAR_PERIOD]);
        put_half(record + at_deadline, x[VISNUMAR_DEADLINE]);
        put_half(record + at_execution, x[VISNUMAR_EXECUTION]);
        put_half(record + at_offset, x[VISNUMAR_OFFSET]);
    }
    uint32_t k = doubled(made, made[3]);
    if (k != 0) return say(6, side, k, 0);
    uint32_t check = sum(made);
    put_half(made + check_at, check);
    put_half(made + check_at + 2, check >> 16);
    for (uint32_t at = 0; at < block_len; at++) block[at] = made[at];
    return say(0, 2, 0, 0);
}

/* The analysis. */

/* Codes 1 to 7, and the table where none is given. */
static struct visnumar_answer load(const uint8_t *block, size_t len, uint32_t side, struct table *table) {
    struct visnumar_answer answer = judge_head(block, len, side);
    if (answer.code != 0) return answer;
    table->count = block[3];
    for (uint32_t k = 0; k < table->count; k++) {
        const uint8_t *record = record_of(block, k);
        struct task *x = &table->tasks[k];
        if (!right(record, side)) return say(5, side, k, 0);
        x->kind = record[at_kind];
        x->rank = 2 * (uint32_t)record[at_priority] + side;
        x->period = half(record + at_period);
        x->deadline = half(record + at_deadline);
        x->execution = half(record + at_execution);
        x->offset = half(record + at_offset);
    }
    return judge_rest(block, side);
}

/* The demand at t, the request coming at x. */
static inline uint32_t demand(const struct term *olds, uint32_t n, const struct term *news, uint32_t k, uint32_t c, uint32_t x,
                              uint32_t t) {
    COUNTED;
    uint32_t sum = c;
    uint32_t m = t < x ? t : x;
    for (uint32_t j = 0; j < n; j++) {
        uint32_t p = olds[j].period, e = olds[j].execution;
        if (olds[j].last == 0) {
            sum += (m + p - 1) / p * e;
        } else {
            uint32_t q = m / p, rest = m - q * p;
            sum += q * e + (rest < e ? rest : e);
        }
    }
    if (t > x) {
        uint32_t u = t - x;
        for (uint32_t j = 0; j < k; j++) {
            if (u > news[j].last) sum += (u - news[j].last + news[j].period - 1) / news[j].period * news[j].execution;
        }
    }
    return sum;
}

/* The least closing t up to the limit, from a start below which none closes; 0 where there is none. */
static inline uint32_t search(const struct term *olds, uint32_t n, const struct term *news, uint32_t k, uint32_t c, uint32_t x,
                              uint32_t start, uint32_t limit) {
    uint32_t t = start;
    for (;;) {
        uint32_t d = demand(olds, n, news, k, c, x, t);
        if (d == t) return t;
        if (d > limit) return 0;
        t = d;
    }
}

/* The terms of the tasks above a rank. */
static uint32_t gather(struct term *terms, const struct table *table, uint32_t rank, int old) {
    uint32_t count = 0;
    for (uint32_t j = 0; j < table->count; j++) {
        const struct task *x = &table->tasks[j];
        if (x->rank < rank) {
            struct term y = {x->period, x->execution, old ? x->kind : x->offset};
            terms[count++] = y;
        }
    }
    return count;
}

/* The next phase after x at which an old term grows, or limit + 1. */
static inline uint32_t next_phase(const struct term *olds, uint32_t n, uint32_t x, uint32_t limit) {
    uint32_t next = limit + 1;
    for (uint32_t j = 0; j < n; j++) {
        uint32_t p = olds[j].period, rest = x % p;
        if (rest < (olds[j].last == 0 ? 1 : olds[j].execution)) return x + 1 < next ? x + 1 : next;
        uint32_t at = x - rest + p + 1;
        if (at < next) next = at;
    }
    return next;
}

/* The same forwards: it finds the first late phase. */
static void forwards(const struct term *olds, uint32_t n, const struct term *news, uint32_t k, uint32_t c, uint32_t limit,
                        uint32_t *worst, uint32_t *phase) {
    uint32_t best = 0, at = 0, start = c, last = 0, reach = 0, base = 0;
    for (uint32_t x = 1; x <= limit; x = next_phase(olds, n, x, limit)) {
        uint32_t shut = best;
        if (best == 0 || demand(olds, n, news, k, c, x, best) > best) {
            uint32_t here = demand(olds, n, news, k, c, x, x), from = start;
            if (last < reach && x <= base && base + x <= here + last) {
                uint32_t far = reach + (x - last) < limit ? reach + (x - last) : limit;
                if (far > from) from = far;
            }
            shut = search(olds, n, news, k, c, x, from, limit);
            if (shut == 0) {
                *worst = 0;
                *phase = x;
                return;
            }
            if (shut > best) {
                best = shut;
                at = x;
            }
            uint32_t low = shut < x + 1 ? shut : x + 1;
            if (low > start) start = low;
            last = x;
            reach = shut;
            base = here;
        }
        if (shut <= x) break;
    }
    *worst = best;
    *phase = at;
}

/* The last phase up to x at which an old term grows, or 1. */
static inline uint32_t last_phase(const struct term *olds, uint32_t n, uint32_t x) {
    uint32_t last = 1;
    for (uint32_t j = 0; j < n; j++) {
        uint32_t rest = (x - 1) % olds[j].period, grows = olds[j].last == 0 ? 1 : olds[j].execution;
        if (rest < grows) return x;
        uint32_t at = x - 1 - rest + grows;
        if (at > last) last = at;
    }
    return last;
}

/* The worst window over all phases with its smallest phase; 0 and the first late phase where there is one. Goes backwards from
 * the phase at which the windows settle; only where some phase is late, forwards. Also the window at the last phase, which is
 * the steady one. */
static void over_phases(const struct term *olds, uint32_t n, const struct term *news, uint32_t k, uint32_t c, uint32_t limit,
                        uint32_t *worst, uint32_t *phase, uint32_t *steady) {
    if (n + k == 0) {
        *worst = *steady = c;
        *phase = 1;
        return;
    }
    uint32_t settled = search(olds, n, news, k, c, limit, c, limit);
    *steady = settled;
    uint32_t first = settled == 0 ? 0 : search(olds, n, news, k, c, 1, c, limit);
    if (first == 0) {
        forwards(olds, n, news, k, c, limit, worst, phase);
        return;
    }
    uint32_t best = first, at = 1, bar = first, last = settled, reach = settled, base = settled, x = settled;
    if (settled > first) {
        best = settled;
        at = settled;
        bar = settled - 1;
    }
    while (x > 1) {
        x = last_phase(olds, n, x - 1);
        if (x == 1) break;
        if (demand(olds, n, news, k, c, x, bar) <= bar) continue;
        uint32_t here = demand(olds, n, news, k, c, x, x);
        if (here + (last - x) <= base) continue;
        uint32_t t = search(olds, n, news, k, c, x, reach - (last - x), limit);
        if (t == 0) {
            forwards(olds, n, news, k, c, limit, worst, phase);
            return;
        }
        if (t > bar) {
            best = t;
            at = x;
            bar = t - 1;
        }
        last = x;
        reach = t;
        base = here;
    }
    *worst = best;
    *phase = at;
}

struct visnumar_answer plain_analyse(const uint8_t *old_block, size_t old_len, const uint8_t *new_block, size_t new_len,
                                     uint32_t *report, size_t report_len) {
    struct table old, new;
    struct visnumar_answer answer = load(old_block, old_len, 0, &old);
    if (answer.code != 0) return answer;
    answer = load(new_block, new_len, 1, &new);
    if (answer.code != 0) return answer;
    uint32_t n = old.count, k = new.count;
    if (report_len < row_numbers * (n + k)) return say(8, 2, 0, 0);

    uint32_t rows[report_room];
    struct term before[most], after[most];
    for (uint32_t i = 0; i < n; i++) {
        const struct task *own = &old.tasks[i];
        uint32_t c = own->execution, d = own->deadline, *row = rows + row_numbers * i;
        uint32_t a = gather(before, &old, own->rank, 1);
        if (own->kind == completed) {
            uint32_t b = gather(after, &new, own->rank, 0);
            over_phases(before, a, after, b, c, d, &row[0], &row[1], &row[2]);
            if (row[0] == 0) return say(9, 0, i, row[1]);
        } else {
            for (uint32_t j = 0; j < a; j++) before[j].last = 0;
            uint32_t steady = search(before, a, after, 0, c, d, c, d);
            if (steady == 0) return say(9, 0, i, 0);
            row[0] = steady;
            row[1] = 0;
            row[2] = steady;
        }
    }
    for (uint32_t i = 0; i < k; i++) {
        const struct task *own = &new.tasks[i];
        uint32_t c = own->execution, d = own->deadline, y = own->offset, *row = rows + row_numbers * (n + i);
        uint32_t b = gather(after, &new, own->rank, 0);
        for (uint32_t j = 0; j < b; j++) {
            before[j] = after[j];
            before[j].last = 0;
        }
        uint32_t steady = search(before, b, after, 0, c, d, c, d);
        if (steady == 0) return say(10, 1, i, 0);
        for (uint32_t j = 0; j < n; j++) {
            if (old.tasks[j].kind == completed && old.tasks[j].rank < own->rank) c += old.tasks[j].execution;
        }
        uint32_t w = c > y + d ? 0 : search(before, 0, after, b, c, 0, c, y + d);
        if (w == 0) return say(10, 1, i, 1);
        row[0] = w > y && w - y > steady ? w - y : steady;
        row[1] = w;
        row[2] = steady;
    }
    for (uint32_t j = 0; j < row_numbers * (n + k); j++) report[j] = rows[j];
    return say(0, 2, 0, 0);
}
