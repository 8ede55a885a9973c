/* Times the proved library beside the plain version on the same pairs or blocks, in turn, and compares what they answer and fill.
 *
 *   bench            a line for each workload: its name, pairs (or blocks), and the best nanoseconds for one of plain C and of
 *                    the proved code
 *   bench count      a line for each workload: its name, pairs, and the demands that plain C works out for a pair, mean and most
 *                    (needs the build of plain.c that counts)
 *
 * A difference between the two ends it with status 1. */
#include "plain.h"
#include <stdio.h>

struct timespec {
    long seconds, nanoseconds;
};
int clock_gettime(int clock, struct timespec *now);
int snprintf(char *to, size_t size, const char *format, ...);
void pad(void);

enum { rounds = 40, pairs_most = 200, blocks = 100, enough = 600000000 };

struct pair {
    uint8_t old[block_len], new[block_len];
};

struct task {
    uint32_t kind, priority, number, period, deadline, execution, offset;
};

static struct pair pairs[pairs_most];
static int count;
static int counting;

/* Random numbers: splitmix64, from a seed that stands with each workload. */
static unsigned long state;

static unsigned long draw(void) {
    unsigned long z = state += 0x9E3779B97F4A7C15u;
    z = (z ^ z >> 30) * 0xBF58476D1CE4E5B9u;
    z = (z ^ z >> 27) * 0x94D049BB133111EBu;
    return z ^ z >> 31;
}

static uint32_t below(uint32_t n) {
    return (uint32_t)(draw() % n);
}

static int fail(const char *words, const char *name) {
    fprintf(stderr, "bench: %s: %s\n", name, words);
    return 1;
}

/* Writes one side; 0 where the writer refuses. */
static int put(uint8_t *block, uint32_t side, const struct task *tasks, uint32_t n) {
    uint32_t list[list_room] = {0};
    for (uint32_t j = 0; j < n; j++) {
        const struct task *x = &tasks[j];
        uint32_t *entry = list + task_numbers * j;
        entry[VISNUMAR_KIND] = x->kind;
        entry[VISNUMAR_PRIORITY] = x->priority;
        entry[VISNUMAR_NUMBER] = x->number;
        entry[VISNUMAR_PERIOD] = x->period;
        entry[VISNUMAR_DEADLINE] = x->deadline;
        entry[VISNUMAR_EXECUTION] = x->execution;
        entry[VISNUMAR_OFFSET] = x->offset;
    }
    return visnumar_write(side, (uint16_t)(side + 1), list, task_numbers * n, block, block_len).code == 0;
}

static int add(const struct task *olds, uint32_t n, const struct task *news, uint32_t k) {
    struct pair *p = &pairs[count];
    if (count == pairs_most || !put(p->old, 0, olds, n) || !put(p->new, 1, news, k)) return 0;
    count++;
    return 1;
}

static struct task task(uint32_t kind, uint32_t priority, uint32_t number, uint32_t period, uint32_t deadline, uint32_t execution,
                        uint32_t offset) {
    struct task x = {kind, priority, number, period, deadline, execution, offset};
    return x;
}

/* One side at random: periods up to a bound, spread over its powers of two; a load in thousandths, spread over the tasks. */
static void side_of(struct task *tasks, uint32_t n, uint32_t kind, uint32_t load, uint32_t longest) {
    uint32_t weights[most], sum = 0;
    for (uint32_t j = 0; j < n; j++) sum += weights[j] = 1 + below(1000);
    for (uint32_t j = 0; j < n; j++) {
        uint32_t period = longest >> below(6);
        period = period - below(period / 2 + 1);
        uint32_t execution = (uint32_t)((unsigned long)period * load * weights[j] / sum / 1000);
        if (execution == 0) execution = 1;
        if (execution > period) execution = period;
        uint32_t deadline = period - below((period - execution) / 4 + 1);
        uint32_t offset = kind == VISNUMAR_KIND_NEW && below(2) ? below(period) : 0;
        tasks[j] = task(kind, 0, j + 1, period, deadline, execution, offset);
    }
}

/* Priorities over both sides by deadline. */
static void rank_all(struct task *olds, uint32_t n, struct task *news, uint32_t k) {
    for (uint32_t i = 0; i < n + k; i++) {
        struct task *x = i < n ? &olds[i] : &news[i - n];
        uint32_t priority = 0;
        for (uint32_t j = 0; j < n + k; j++) {
            const struct task *y = j < n ? &olds[j] : &news[j - n];
            if (y->deadline < x->deadline || (y->deadline == x->deadline && j < i)) priority++;
        }
        x->priority = priority;
    }
}

/* Random pairs that are accepted, or late, until there are `wanted` of them. */
static void random_pairs(int wanted, uint32_t n, uint32_t k, uint32_t aborted, int late, uint32_t longest) {
    struct task olds[most], news[most];
    uint32_t report[report_room];
    while (count < wanted) {
        uint32_t load = late ? 600 + below(350) : 300 + below(400);
        side_of(olds, n, VISNUMAR_KIND_COMPLETED, load, longest);
        side_of(news, k, VISNUMAR_KIND_NEW, load, longest);
        for (uint32_t j = 0; j < aborted; j++) olds[j * n / aborted].kind = VISNUMAR_KIND_ABORTED;
        rank_all(olds, n, news, k);
        if (!add(olds, n, news, k)) continue;
        const struct pair *p = &pairs[count - 1];
        uint32_t code = plain_analyse(p->old, block_len, p->new, block_len, report, report_room).code;
        if (late ? code != VISNUMAR_OLD_LATE && code != VISNUMAR_NEW_LATE : code != VISNUMAR_DONE) count--;
    }
}

/* The hostile pairs, by number. */
static int hostile(int which) {
    struct task olds[most], news[most];
    uint32_t n = 30, k = 0;
    for (uint32_t j = 0; j < most; j++) {
        olds[j] = task(VISNUMAR_KIND_COMPLETED, 100 + j, j, 65535, 65535, 1, 0);
        news[j] = task(VISNUMAR_KIND_NEW, j, j, 65535, 65535, 1, 0);
    }
    switch (which) {
    case 1: /* an aborted task of 65,506 ticks above 29 completed ones of one tick */
        olds[0] = task(VISNUMAR_KIND_ABORTED, 0, 0, 65535, 65535, 65506, 0);
        break;
    case 2: { /* aborted tasks of several periods above 25 completed ones, with new ones above all */
        static const uint32_t periods[5] = {7, 31, 127, 1021, 16381};
        for (uint32_t j = 0; j < 5; j++) olds[j] = task(VISNUMAR_KIND_ABORTED, j, j, periods[j], periods[j], periods[j] / 6, 0);
        for (uint32_t j = 5; j < n; j++) olds[j].execution = 300;
        for (k = 0; k < 30; k++) news[k] = task(VISNUMAR_KIND_NEW, k, k, 2000 + 97 * k, 2000 + 97 * k, 9, 50 * k);
        break;
    }
    case 3: /* 29 tasks of one tick above one of D - 29 ticks */
        olds[29] = task(VISNUMAR_KIND_COMPLETED, 200, 29, 65535, 65535, 65535 - 29, 0);
        break;
    case 4: /* 29 tasks of one tick under one of D - 29 ticks */
        olds[0] = task(VISNUMAR_KIND_COMPLETED, 0, 0, 65535, 65535, 65535 - 29, 0);
        break;
    case 5: /* a quick completed task above, long completed ones under it, a release of a new one at each of 30 ticks */
        olds[0] = task(VISNUMAR_KIND_COMPLETED, 0, 0, 2, 2, 1, 0);
        olds[1].execution = 30000;
        for (k = 0; k < 30; k++) news[k].offset = k;
        break;
    case 6: /* new tasks of periods 2, 4, 8 .. 4096 above: a long chain after each phase of an aborted one */
        olds[0] = task(VISNUMAR_KIND_ABORTED, 50, 0, 65535, 65535, 16384, 0);
        n = 17;
        for (k = 0; k < 12; k++) news[k] = task(VISNUMAR_KIND_NEW, k, k, 2u << k, 2u << k, 1, 0);
        for (; k < 17; k++) news[k] = task(VISNUMAR_KIND_NEW, 200 + k, k, 65535, 65535, 1, 0);
        break;
    case 7: /* an aborted task that leaves every fourth tick free, a long completed one, new ones of periods 2 and 4 */
        olds[0] = task(VISNUMAR_KIND_ABORTED, 0, 0, 4, 4, 3, 0);
        olds[1].execution = 16000;
        for (k = 0; k < 2; k++) news[k] = task(VISNUMAR_KIND_NEW, k, k, 2u << k, 2u << k, 1, 0);
        break;
    default:
        return 0;
    }
    return add(olds, n, news, k);
}

static int load(const char *name, uint8_t *block) {
    FILE *file = fopen(name, "rb");
    if (file == NULL) return 0;
    size_t got = fread(block, 1, block_len, file);
    fclose(file);
    return got == block_len;
}

/* The nanoseconds that this process has run: what runs beside it does not count. */
static long now(void) {
    struct timespec t;
    clock_gettime(2, &t);
    return t.seconds * 1000000000 + t.nanoseconds;
}

typedef struct visnumar_answer analysis(const uint8_t *, size_t, const uint8_t *, size_t, uint32_t *, size_t);
typedef struct visnumar_answer reader(const uint8_t *, size_t, uint32_t, uint32_t *, size_t);
typedef struct visnumar_answer writer(uint32_t, uint16_t, const uint32_t *, size_t, uint8_t *, size_t);

static long time_analysis(analysis *f, long turns) {
    uint32_t report[report_room] = {0};
    long start = now();
    for (long turn = 0; turn < turns; turn++) {
        for (int j = 0; j < count; j++) f(pairs[j].old, block_len, pairs[j].new, block_len, report, report_room);
    }
    return now() - start;
}

/* The blocks of the pairs, old and new by turns, and their lists. */
static uint32_t lists[blocks][list_room];

static const uint8_t *block(int j) {
    return j % 2 == 0 ? pairs[j / 2].old : pairs[j / 2].new;
}

static long time_reader(reader *f, long turns) {
    uint32_t list[list_room] = {0};
    long start = now();
    for (long turn = 0; turn < turns; turn++) {
        for (int j = 0; j < blocks; j++) f(block(j), block_len, j % 2, list, list_room);
    }
    return now() - start;
}

static long time_writer(writer *f, long turns) {
    uint8_t made[block_len] = {0};
    long start = now();
    for (long turn = 0; turn < turns; turn++) {
        for (int j = 0; j < blocks; j++) f(j % 2, (uint16_t)(j % 2 + 1), lists[j], list_room, made, block_len);
    }
    return now() - start;
}

/* Some turns of one side. */
typedef long timing(long turns);

static long plain_analyses(long turns) { return time_analysis(plain_analyse, turns); }
static long proved_analyses(long turns) { return time_analysis(visnumar_analyse, turns); }
static long plain_reads(long turns) { return time_reader(plain_read, turns); }
static long proved_reads(long turns) { return time_reader(visnumar_read, turns); }
static long plain_writes(long turns) { return time_writer(plain_write, turns); }
static long proved_writes(long turns) { return time_writer(visnumar_write, turns); }

/* Times both sides in turn; a turn is `items` of what is timed. */
static void measure(const char *name, int items, timing *plain_turns, timing *proved_turns) {
    long turns = 1 + 1000000 / (1 + plain_turns(1)); /* a millisecond or more: short, so that some rounds run undisturbed */
    long plain = 0, proved = 0;
    long start = now();
    for (int round = 0; round < rounds && (round < 2 || now() - start < enough); round++) {
        long p = plain_turns(turns), q = proved_turns(turns);
        if (round == 0 || p < plain) plain = p;
        if (round == 0 || q < proved) proved = q;
    }
    long each = turns * items;
    printf("%s\t%d\t%ld.%ld\t%ld.%ld\n", name, items, plain / each, plain * 10 / each % 10, proved / each, proved * 10 / each % 10);
    fflush(stdout);
}

static int same(struct visnumar_answer a, struct visnumar_answer b) {
    return a.code == b.code && a.side == b.side && a.record == b.record && a.detail == b.detail;
}

/* Compares the two on every pair, then times them. The pairs are dropped. */
static int work(const char *name) {
    if (count == 0) return fail("no pair could be made", name);
    unsigned long sum = 0, largest = 0;
    for (int j = 0; j < count; j++) {
        uint32_t one[report_room], two[report_room];
        for (int i = 0; i < report_room; i++) one[i] = two[i] = 7;
        plain_evaluations = 0;
        struct visnumar_answer a = plain_analyse(pairs[j].old, block_len, pairs[j].new, block_len, one, report_room);
        sum += plain_evaluations;
        if (plain_evaluations > largest) largest = plain_evaluations;
        struct visnumar_answer b = visnumar_analyse(pairs[j].old, block_len, pairs[j].new, block_len, two, report_room);
        if (!same(a, b)) return fail("answers differ", name);
        for (int i = 0; i < report_room; i++) {
            if (one[i] != two[i]) return fail("reports differ", name);
        }
    }
    if (counting) {
        printf("%s\t%d\t%lu\t%lu\n", name, count, sum / (unsigned long)count, largest);
        fflush(stdout);
    } else {
        measure(name, count, plain_analyses, proved_analyses);
    }
    count = 0;
    return 0;
}

/* Reads a block both ways; 0 where answers or lists differ. */
static int same_reading(const uint8_t *from, uint32_t side, uint32_t *list) {
    uint32_t other[list_room];
    for (int i = 0; i < list_room; i++) list[i] = other[i] = 7;
    if (!same(plain_read(from, block_len, side, other, list_room), visnumar_read(from, block_len, side, list, list_room))) return 0;
    for (int i = 0; i < list_room; i++) {
        if (list[i] != other[i]) return 0;
    }
    return 1;
}

/* Gives a block the check that its other bytes ask for. */
static void mend(uint8_t *from) {
    uint32_t check = 0;
    for (int i = 0; i < check_at; i++) check += (uint32_t)from[i] << 8 * (i % 4);
    for (int i = 0; i < 4; i++) from[check_at + i] = (uint8_t)(check >> 8 * i);
}

/* Writes a list both ways; 0 where answers or blocks differ. */
static int same_writing(uint32_t side, const uint32_t *list) {
    uint8_t one[block_len], other[block_len];
    for (int i = 0; i < block_len; i++) one[i] = other[i] = 7;
    if (!same(plain_write(side, 1, list, list_room, one, block_len), visnumar_write(side, 1, list, list_room, other, block_len))) return 0;
    for (int i = 0; i < block_len; i++) {
        if (one[i] != other[i]) return 0;
    }
    return 1;
}

/* Compares reading and writing on every block and list, and on some that are damaged, then times both. The pairs are dropped. */
static int read_and_write(const char *reads, const char *writes) {
    uint32_t list[list_room];
    if (2 * count != blocks) return fail("not as many blocks", reads);
    for (int j = 0; j < blocks; j++) {
        uint8_t damaged[block_len];
        if (!same_reading(block(j), j % 2, lists[j])) return fail("readings differ", reads);
        for (int i = 0; i < block_len; i++) damaged[i] = block(j)[i];
        for (int i = 0; i < block_len; i++) {
            damaged[i] ^= 1;
            if (j % 4 > 0 && i < check_at) mend(damaged);
            if (!same_reading(damaged, j % 2, list)) return fail("readings of a damaged block differ", reads);
            damaged[i] ^= 1;
            mend(damaged);
        }
        for (int i = 0; i < list_room; i++) list[i] = lists[j][i];
        for (int i = 0; i < list_room; i++) {
            list[i] += j % 3 == 0 ? 65536 : 1;
            if (!same_writing(j % 2, list)) return fail("writings of a damaged list differ", writes);
            list[i] = lists[j][i];
        }
        if (!same_writing(j % 2, list)) return fail("writings differ", writes);
    }
    measure(reads, blocks, plain_reads, proved_reads);
    measure(writes, blocks, plain_writes, proved_writes);
    count = 0;
    return 0;
}

static int random_work(const char *name, unsigned long seed, int wanted, uint32_t n, uint32_t k, uint32_t aborted, int late,
                       uint32_t longest) {
    state = seed;
    random_pairs(wanted, n, k, aborted, late, longest);
    return work(name);
}

int main(int words, char **word) {
    (void)word;
    counting = words > 1;
    pad();
    if (!load("examples/avionics-old.blk", pairs[0].old) || !load("examples/avionics-new.blk", pairs[0].new)) {
        return fail("can't be read", "examples/avionics");
    }
    count = 1;
    int bad = work("avionics, 17 + 17");
    bad |= random_work("random 30 + 30, accepted, seed 1", 1, 200, 30, 30, 0, 0, 65535);
    bad |= random_work("random 30 + 30, a fifth aborted, seed 2", 2, 200, 30, 30, 6, 0, 65535);
    bad |= random_work("random 30 + 30, late, seed 3", 3, 200, 30, 30, 0, 1, 65535);
    bad |= random_work("random 17 + 17, accepted, seed 4", 4, 200, 17, 17, 0, 0, 65535);
    static const char *const hostiles[] = {"hostile 1: aborted 65,506 ticks on top", "hostile 2: aborted of five periods on top",
                                           "hostile 3: one tick above D - 29", "hostile 4: one tick under D - 29",
                                           "hostile 5: T = 2 on top, new tick by tick", "hostile 6: new T = 2, 4, 8 .. on top",
                                           "hostile 7: three of four ticks aborted"};
    for (int which = 1; which <= 7; which++) {
        if (hostile(which)) bad |= work(hostiles[which - 1]);
        else bad |= fail("no such pair", hostiles[which - 1]);
    }
    static const char *const tiny[] = {"tiny 0 + 0", "tiny 1 + 1, seed 11", "tiny 2 + 2, seed 12", "tiny 3 + 3, seed 13",
                                       "tiny 4 + 4, seed 14", "tiny 5 + 5, seed 15"};
    for (uint32_t n = 0; n <= 5; n++) bad |= random_work(tiny[n], 10 + n, n == 0 ? 1 : 50, n, n, 0, 0, 1000);
    if (!counting) {
        state = 5;
        random_pairs(blocks / 2, most, most, 6, 0, 65535);
        bad |= read_and_write("read a block of 30 tasks, seed 5", "write a block of 30 tasks, seed 5");
    }
    if (counting) {
        static const uint32_t sizes[] = {5, 10, 15, 20, 25, 30}, limits[] = {1000, 4000, 16000, 65535};
        char name[64];
        for (int j = 0; j < 6; j++) {
            snprintf(name, sizeof name, "%u + %u, a fifth aborted, T up to 65535, seed 20", sizes[j], sizes[j]);
            bad |= random_work(name, 20, 100, sizes[j], sizes[j], sizes[j] / 5, 0, 65535);
        }
        for (int j = 0; j < 4; j++) {
            snprintf(name, sizeof name, "30 + 30, a fifth aborted, T up to %u, seed 21", limits[j]);
            bad |= random_work(name, 21, 100, 30, 30, 6, 0, limits[j]);
        }
    }
    return bad;
}
