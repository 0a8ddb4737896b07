/* What crates/vms_bench and crates/vms_call_bench do on shared words, in C11 with sequentially consistent atomics:
 * bench/words.py measures all of them.
 *
 *     words pages|events|locals|adds|folds|watermarks|snapshots4|snapshots64|snapshots128 CALLS THREADS near|apart
 *
 * Each of THREADS threads makes CALLS calls on a CPU of its own, and then the plain numbers are written, which are the
 * same whatever the schedule. The CPUs are 0, 1, 2 and 3 (near), or 0, 16, 32 and 48 (apart). There are one zone, one
 * node and 64 CPUs with eight items a place, but for snapshots4 and snapshots128: 4 CPUs, and 128 with sixteen items a
 * place. On 4 CPUs apart works one thread.
 *
 * All that is of a CPU stands in a row of lines of its own, and the shared part and the lock of a percpu counter stand
 * side by side on a line of their own. Compiled with -DFLAT the words stand one after another by kind: then those of
 * neighbouring CPUs share lines.
 *
 * pages, adds: a change adds DELTA to a counter of the zone. It loads the threshold of the zone, loads the CPU's word
 * of eight differentials, exchanges that word, and where the differential passed the threshold it adds it to the
 * global value of the counter and to the system-wide value of the item. 19 changes stay within the threshold and the
 * 20th passes it.
 * events: a change adds 1 to the CPU's word of an event.
 * locals: a change adds AMOUNT to the CPU's local part of a percpu counter, or takes it away again, in turn. It loads
 * the local part, and adds to it where the sum stays below the batch, which it always does; else it would move the
 * local part to the shared part under the counter's lock.
 * folds: a call makes such a change, and then the owner folds the CPU. For each place, the fold takes the group of
 * eight differentials and adds each that isn't 0 to the global value of its counter; of the zone it loads the
 * threshold first, and acknowledges it then. At last the sums of the items that aren't 0 go to the system-wide values.
 * Each fold finds the one change.
 * watermarks: a call tests whether the zone has more free pages than its watermark `low` and its reserve ask for. It
 * loads the drift mark, the free pages, and the mark once more. The free pages are above the mark.
 * snapshots4, snapshots64, snapshots128: the same where the free pages are above the watermark and below the mark, so
 * that the test loads them once more and adds what each CPU hides: it loads the CPU's state, and if it is online its
 * group.
 *
 * Compiled with -DVOLUMES it also keeps what each CPU has changed and counted so far, in absolute sum, and looks at
 * each change whether that may grow, as the proved programs do. Compiled with -DFUNCTIONS a change, a fold and a test
 * of a watermark are functions that are called, as they are in the kernel and in the proved programs.
 */
#include <pthread.h>
#include <stdatomic.h>
#include <stdbool.h>
#include <stdint.h>
#include <stdio.h>
#include <stdlib.h>
#include <string.h>

enum {
    CPUS = 64,
    CPUS_APART = 16,
    LINE = 8, /* words in a line of the cache */
    MOST_THREADS = 4,
    ITEMS = 8, /* of a place, where there are at most 64 CPUs */
    ZONES = 1,
    PLACES = 2,
    THRESHOLD = 98,
    MARK = 50000,
    PLENTY = 100000, /* free pages above the mark */
    FEW = 40000,     /* free pages between the watermarks and the mark */
    DELTA = 5,
    EVENTS = 8,
    EVENT = 4,
    COUNTERS = 8,
    BATCH = 65536,
    AMOUNT = 3
};

#ifdef FUNCTIONS
#define CALLED static __attribute__((noinline))
#else
#define CALLED static inline
#endif

enum zone_kind { DMA, DMA32, NORMAL, MOVABLE };
enum watermark { MIN, LOW, HIGH };

/* A zone: its node and kind, and its size and watermarks in pages. */
struct zone {
    uint32_t node;
    enum zone_kind kind;
    uint64_t managed, min, low, high;
};

struct header {
    size_t count;
    struct zone zones[16];
};

/* Where words of a kind begin, and how far on those of the next CPU stand, or those of the next counter. */
struct grid {
    size_t start, each;
};

/* Where the words of each kind stand. */
struct blocks {
    size_t systems, marks, end;
    struct grid groups, thresholds, states, acknowledgements;
    uint32_t cpus, items;
};

/* What tests answered: how many said yes, how many rested on a snapshot, and the free pages that the last one rested
 * on. */
struct tally {
    uint64_t yes, snapshots, free;
};

/* What a thread works on: the words, where they stand, the header, the batches of the percpu counters, its CPU, the
 * counter that it changes, the zone that it tests, how many calls it makes, its volumes, and what its tests answered.
 * The counter's number is that of the threads, and the zone's number stands in memory: no compiler can know them. */
struct work {
    _Atomic uint64_t *words;
    struct blocks blocks;
    const struct header *header;
    const uint32_t *batches;
    uint32_t cpu, counter, zone;
    uint64_t changes;
    uint64_t *volumes;
    struct tally tally;
};

/* Adds the size of a change to what the CPU has changed of a number, or ends the program: it may be 2^48 at most. */
static inline void grow(struct work *w, uint32_t number, uint64_t size)
{
#ifdef VOLUMES
    if (w->volumes[number] > (UINT64_C(1) << 48) - size)
        exit(3);
    w->volumes[number] += size;
#else
    (void)w, (void)number, (void)size;
#endif
}

/* So many words, or as many as fill whole lines where each CPU has lines of its own. */
static size_t in_lines(size_t words)
{
#ifdef FLAT
    return words;
#else
    return (words + LINE - 1) / LINE * LINE;
#endif
}

/* The words of each CPU, which follow those of no CPU: by kind, or by CPU. */
static struct grid next_kind(size_t *at, size_t *in_row, size_t count, uint32_t cpus, size_t width)
{
#ifdef FLAT
    (void)in_row, (void)width;
    struct grid grid = {*at, count};
    *at += cpus * count;
#else
    (void)cpus;
    struct grid grid = {*at + *in_row, width};
    *in_row += count;
#endif
    return grid;
}

static struct blocks page_blocks(uint32_t cpus)
{
    uint32_t items = cpus > 64 ? 2 * ITEMS : ITEMS;
    size_t groups = items * PLACES / 8, width = in_lines(groups + PLACES + ZONES + 1), in_row = 0;
    struct blocks b = {.systems = items * PLACES, .cpus = cpus, .items = items};
    b.marks = b.systems + 2 * items;
    b.end = in_lines(b.marks + ZONES);
    b.groups = next_kind(&b.end, &in_row, groups, cpus, width);
    b.thresholds = next_kind(&b.end, &in_row, PLACES, cpus, width);
    b.acknowledgements = next_kind(&b.end, &in_row, ZONES, cpus, width);
    b.states = next_kind(&b.end, &in_row, 1, cpus, width);
#ifndef FLAT
    b.end += cpus * width;
#endif
    return b;
}

/* The word of a thing of a CPU. */
static inline _Atomic uint64_t *in(const struct work *w, struct grid grid, uint32_t cpu, size_t thing)
{
    return &w->words[grid.start + cpu * grid.each + thing];
}

/* The differential of a counter in the word of its group: byte i is the one of the group's counter i. */
static inline int64_t differential(uint64_t group, uint32_t counter)
{
    return (int8_t)(group >> 8 * (counter % 8));
}

static inline uint64_t with_differential(uint64_t group, uint32_t counter, int64_t differential)
{
    unsigned at = 8 * (counter % 8);
    return (group & ~(UINT64_C(0xff) << at)) | (uint64_t)(uint8_t)differential << at;
}

/* A change of mod_zone_page_state without an overstep. The exchange is made once more where another thread took the
 * group meanwhile: its differentials are 0 then. */
CALLED void change(struct work *w, uint32_t counter, int64_t delta)
{
    _Atomic uint64_t *words = w->words;
    uint32_t place = counter / ITEMS, item = counter % ITEMS;
    uint64_t t = atomic_load(in(w, w->blocks.thresholds, w->cpu, place)) & UINT32_MAX;
    _Atomic uint64_t *group = in(w, w->blocks.groups, w->cpu, counter / 8);
    uint64_t found = atomic_load(group);
    int64_t carried;
    for (;;) {
        int64_t sum = differential(found, counter) + delta;
        bool passes = (uint64_t)(sum < 0 ? -sum : sum) > t;
        carried = passes ? sum : 0;
        if (atomic_compare_exchange_strong(group, &found, with_differential(found, counter, sum - carried)))
            break;
    }
    grow(w, counter, (uint64_t)(delta < 0 ? -delta : delta));
    if (carried != 0) {
        atomic_fetch_add(&words[counter], (uint64_t)carried);
        atomic_fetch_add(&words[w->blocks.systems + item], (uint64_t)carried);
    }
}

static void *change_pages(void *arg)
{
    struct work *w = arg;
    for (uint64_t n = 0; n < w->changes; n++)
        change(w, w->counter, DELTA);
    return NULL;
}

/* The fold of a CPU by its owner: refresh_cpu_vm_stats, with an acknowledgement of the zone's threshold. Each place
 * has one group. */
CALLED void fold(const struct work *w)
{
    _Atomic uint64_t *words = w->words;
    const struct blocks *b = &w->blocks;
    int64_t sums[2 * ITEMS] = {0};
    for (uint32_t place = 0; place < PLACES; place++) {
        bool is_zone = place < ZONES;
        uint64_t number =
            is_zone ? atomic_load(in(w, b->thresholds, w->cpu, place)) >> 32 : 0;
        uint64_t taken = atomic_exchange(in(w, b->groups, w->cpu, place), 0);
        for (uint32_t item = 0; item < ITEMS; item++) {
            int64_t amount = differential(taken, item);
            if (amount != 0) {
                atomic_fetch_add(&words[place * ITEMS + item], (uint64_t)amount);
                sums[(is_zone ? 0 : ITEMS) + item] += amount;
            }
        }
        if (is_zone)
            atomic_exchange(in(w, b->acknowledgements, w->cpu, place), number + 1);
    }
    for (uint32_t item = 0; item < 2 * ITEMS; item++)
        if (sums[item] != 0)
            atomic_fetch_add(&words[b->systems + item], (uint64_t)sums[item]);
}

static void *fold_pages(void *arg)
{
    struct work *w = arg;
    for (uint64_t n = 0; n < w->changes; n++) {
        change(w, w->counter, DELTA);
        fold(w);
    }
    return NULL;
}

/* What a test of a watermark answers: the free pages that it rests on, whether they are enough, and whether no
 * snapshot was made. */
struct verdict {
    uint64_t free;
    bool yes, fast;
};

/* The pages that a zone keeps back from a request which might use the zones of its node up to a zone index: those above it
 * by sysctl_lowmem_reserve_ratio, which is 256, 256 and 32, so that no division is wanted. */
static uint64_t reserve(const struct header *header, uint32_t zone, uint32_t highest)
{
    static const unsigned shifts[] = {8, 8, 5};
    const struct zone *own = &header->zones[zone];
    uint64_t pages = 0;
    if (own->kind == MOVABLE)
        return 0;
    for (size_t n = 0; n < header->count; n++) {
        const struct zone *other = &header->zones[n];
        if (other->node == own->node && other->kind > own->kind && other->kind <= highest)
            pages += other->managed;
    }
    return pages >> shifts[own->kind];
}

static uint64_t limit(const struct header *header, uint32_t zone, enum watermark mark, uint32_t highest)
{
    const struct zone *own = &header->zones[zone];
    uint64_t pages = mark == MIN ? own->min : mark == LOW ? own->low : own->high;
    return pages + reserve(header, zone, highest);
}

static inline uint64_t clamped(int64_t pages)
{
    return pages < 0 ? 0 : (uint64_t)pages;
}

/* The value of a counter with what the CPUs hide that are online: zone_page_state_snapshot. */
static uint64_t snapshot(const struct work *w, uint32_t counter)
{
    _Atomic uint64_t *words = w->words;
    const struct blocks *b = &w->blocks;
    int64_t sum = (int64_t)atomic_load(&words[counter]);
    for (uint32_t cpu = 0; cpu < b->cpus; cpu++)
        if (atomic_load(in(w, b->states, cpu, 0)) == 0) /* online */
            sum += differential(atomic_load(in(w, b->groups, cpu, counter / 8)), counter);
    return clamped(sum);
}

/* zone_watermark_ok_safe at order 0. The lower 43 bits of a mark's word are the mark, the upper ones how often it was
 * set. */
CALLED struct verdict watermark_ok(const struct work *w, uint32_t zone, enum watermark mark, uint32_t highest)
{
    uint64_t pages = limit(w->header, zone, mark, highest);
    uint32_t counter = zone * w->blocks.items;
    uint64_t first = atomic_load(&w->words[w->blocks.marks + zone]);
    uint64_t value = clamped((int64_t)atomic_load(&w->words[counter]));
    uint64_t second = atomic_load(&w->words[w->blocks.marks + zone]);
    uint64_t drift = first & ((UINT64_C(1) << 43) - 1);
    bool fast = first == second && (drift == 0 || value >= drift);
    uint64_t free = fast ? value : snapshot(w, counter);
    return (struct verdict){.free = free, .yes = free > pages, .fast = fast};
}

static void *test_watermark(void *arg)
{
    struct work *w = arg;
    struct tally tally = {0};
    for (uint64_t n = 0; n < w->changes; n++) {
        struct verdict verdict = watermark_ok(w, w->zone, LOW, NORMAL);
        tally.yes += verdict.yes;
        tally.snapshots += !verdict.fast;
        tally.free = verdict.free;
    }
    w->tally = tally;
    return NULL;
}

/* How many words stand from those of a CPU's events to those of the next one's. */
static inline _Atomic uint64_t *event_word(_Atomic uint64_t *words, uint32_t cpu)
{
    return &words[cpu * in_lines(EVENTS) + EVENT];
}

static void *count_events(void *arg)
{
    struct work *w = arg;
    for (uint64_t n = 0; n < w->changes; n++) {
        atomic_fetch_add(event_word(w->words, w->cpu), 1);
        grow(w, EVENT, 1);
    }
    return NULL;
}

/* Where the words of the percpu counters stand: the shared parts and the locks, each pair on a line of its own, and
 * then the local parts, those of each CPU on lines of their own. With -DFLAT first all shared parts, and then all
 * locks. */
#ifdef FLAT
enum { PAIR = 1, LOCK_AFTER = COUNTERS, LOCALS_AT = 2 * COUNTERS };
#else
enum { PAIR = LINE, LOCK_AFTER = 1, LOCALS_AT = PAIR * COUNTERS };
#endif

static inline _Atomic uint64_t *shared_part(const struct work *w, uint32_t counter)
{
    return &w->words[counter * PAIR];
}

static inline _Atomic uint64_t *local_part(const struct work *w, uint32_t cpu, uint32_t counter)
{
    return &w->words[LOCALS_AT + cpu * in_lines(COUNTERS) + counter];
}

/* Moves the local part of the CPU to the shared part together with an amount, under the counter's lock. */
static void move_local(struct work *w, uint32_t counter, int64_t amount)
{
    _Atomic uint64_t *lock = shared_part(w, counter) + LOCK_AFTER;
    for (uint64_t found = 0; !atomic_compare_exchange_strong(lock, &found, 1); found = 0)
        ;
    uint64_t local = atomic_exchange(local_part(w, w->cpu, counter), 0);
    atomic_fetch_add(shared_part(w, counter), local + (uint64_t)amount);
    atomic_exchange(lock, 0);
}

/* percpu_counter_add_batch. */
static inline void add_local(struct work *w, uint32_t counter, int64_t amount)
{
    _Atomic uint64_t *local = local_part(w, w->cpu, counter);
    int64_t sum = (int64_t)atomic_load(local) + amount;
    if ((uint64_t)(sum < 0 ? -sum : sum) < w->batches[counter])
        atomic_fetch_add(local, (uint64_t)amount);
    else
        move_local(w, counter, amount);
    grow(w, counter, (uint64_t)(amount < 0 ? -amount : amount));
}

static void *add_locals(void *arg)
{
    struct work *w = arg;
    int64_t amount = AMOUNT;
    for (uint64_t n = 0; n < w->changes; n++) {
        add_local(w, w->counter, amount);
        amount = -amount;
    }
    return NULL;
}

static void run_all(struct work *each, int threads, void *(*body)(void *))
{
    pthread_t started[MOST_THREADS];
    for (int n = 1; n < threads; n++)
        if (pthread_create(&started[n], NULL, body, &each[n]) != 0) {
            fputs("words: no thread can be started\n", stderr);
            exit(2);
        }
    body(&each[0]);
    for (int n = 1; n < threads; n++)
        pthread_join(started[n], NULL);
}

/* What a kind has threads do, on how many CPUs, and what the page counters are first. */
struct kind {
    const char *name;
    void *(*body)(void *);
    uint32_t cpus;
    int64_t value;
};

static const struct kind kinds[] = {
    {"pages", change_pages, CPUS, 0},
    {"events", count_events, CPUS, 0},
    {"locals", add_locals, CPUS, 0},
    {"adds", change_pages, CPUS, 0},
    {"folds", fold_pages, CPUS, 0},
    {"watermarks", test_watermark, CPUS, PLENTY},
    {"snapshots4", test_watermark, 4, FEW},
    {"snapshots64", test_watermark, 64, FEW},
    {"snapshots128", test_watermark, 128, FEW},
};

static const struct kind *kind_of(const char *name)
{
    for (size_t n = 0; n < sizeof kinds / sizeof *kinds; n++)
        if (strcmp(kinds[n].name, name) == 0)
            return &kinds[n];
    return NULL;
}

static void *zeros(size_t count, size_t size)
{
    void *found = calloc(count, size);
    if (found == NULL) {
        fputs("words: want of memory\n", stderr);
        exit(2);
    }
    return found;
}

/* Words that begin a line. */
static _Atomic uint64_t *lines_of_zeros(size_t count)
{
    size_t bytes = (count + LINE - 1) / LINE * LINE * sizeof(uint64_t);
    _Atomic uint64_t *words = aligned_alloc(LINE * sizeof(uint64_t), bytes);
    if (words == NULL) {
        fputs("words: want of memory\n", stderr);
        exit(2);
    }
    for (size_t n = 0; n < count; n++)
        atomic_store(&words[n], 0);
    return words;
}

/* Writes what the words of a kind's program are once every thread has ended. */
static void write_numbers(const struct kind *kind, const struct work *each, int threads)
{
    _Atomic uint64_t *words = each[0].words;
    uint32_t counter = each[0].counter;
    if (kind->body == count_events) {
        uint64_t total = 0;
        for (int cpu = 0; cpu < CPUS; cpu++)
            total += atomic_load(event_word(words, (uint32_t)cpu));
        printf("counted %llu\n", (unsigned long long)total);
    } else if (kind->body == add_locals) {
        int64_t sum = (int64_t)atomic_load(shared_part(&each[0], counter));
        for (uint32_t cpu = 0; cpu < CPUS; cpu++)
            sum += (int64_t)atomic_load(local_part(&each[0], cpu, counter));
        printf("sum %lld\n", (long long)sum);
    } else if (kind->body == test_watermark) {
        struct tally all = {0};
        for (int n = 0; n < threads; n++) {
            all.yes += each[n].tally.yes;
            all.snapshots += each[n].tally.snapshots;
            all.free = each[n].tally.free;
        }
        printf("yes %llu, by snapshots %llu, free pages %llu\n", (unsigned long long)all.yes,
               (unsigned long long)all.snapshots, (unsigned long long)all.free);
    } else {
        printf("value %lld, system-wide %lld\n", (long long)atomic_load(&words[counter]),
               (long long)atomic_load(&words[each[0].blocks.systems + counter]));
    }
}

int main(int argc, char **argv)
{
    char *end = NULL;
    const struct kind *kind = argc == 5 ? kind_of(argv[1]) : NULL;
    uint64_t changes = argc == 5 ? strtoull(argv[2], &end, 10) : 0;
    int threads = argc == 5 && *end == '\0' ? atoi(argv[3]) : 0;
    bool near = argc == 5 && strcmp(argv[4], "near") == 0;
    if (kind == NULL || threads < 1 || threads > MOST_THREADS || changes == 0 ||
        (!near && strcmp(argv[4], "apart") != 0)) {
        fputs("usage: words KIND CALLS THREADS near|apart, where KIND is one of\n", stderr);
        for (size_t n = 0; n < sizeof kinds / sizeof *kinds; n++)
            fprintf(stderr, "    %s\n", kinds[n].name);
        return 2;
    }
    uint32_t apart = near ? 1 : CPUS_APART;
    if (apart * (uint32_t)(threads - 1) >= kind->cpus) {
        fputs("words: too few CPUs for so many threads\n", stderr);
        return 2;
    }
    struct blocks blocks = page_blocks(kind->cpus);
    size_t locals_end = LOCALS_AT + CPUS * in_lines(COUNTERS); /* more than there are words of events */
    size_t end_of_words = locals_end > blocks.end ? locals_end : blocks.end;
    _Atomic uint64_t *words = lines_of_zeros(end_of_words);
    struct header *header = zeros(1, sizeof *header);
    header->count = ZONES;
    header->zones[0] = (struct zone){0, NORMAL, 1 << 20, 10000, 20000, 30000};
    uint32_t batches[COUNTERS];
    for (int n = 0; n < COUNTERS; n++)
        batches[n] = BATCH;
    struct work each[MOST_THREADS];
    for (int n = 0; n < threads; n++)
        each[n] = (struct work){words,
                                blocks,
                                header,
                                batches,
                                apart * (uint32_t)n,
                                (uint32_t)threads,
                                0,
                                changes,
                                zeros(ITEMS * PLACES, sizeof(uint64_t)),
                                {0}};
    if (kind->body != count_events && kind->body != add_locals) {
        for (size_t n = 0; n < blocks.marks; n++)
            atomic_store(&words[n], (uint64_t)kind->value);
        for (size_t n = 0; n < ZONES; n++)
            atomic_store(&words[blocks.marks + n], MARK);
        for (uint32_t cpu = 0; cpu < kind->cpus; cpu++)
            for (size_t place = 0; place < PLACES; place++)
                atomic_store(in(&each[0], blocks.thresholds, cpu, place), THRESHOLD);
    }
    run_all(each, threads, kind->body);
    write_numbers(kind, each, threads);
    return 0;
}
