/* What bench/words.c does, by calls of crates/vozhkell_c: `bench/words.py --door` measures them beside each other.
 *
 *     door events|locals|adds|folds|watermarks|snapshots64 CALLS THREADS near|apart
 *
 * The machine has a zone, a node and 64 CPUs, as that of bench/words.c, eight items a place, eight percpu counters and
 * the threshold of 98 pages. Its watermarks are 15,000, 20,000 and 35,000 pages, which give the zone the drift mark of
 * 41,272: the free pages are above the mark or between it and `low`, as they are in bench/words.c. What is written is
 * the same.
 */
#include <inttypes.h>
#include <pthread.h>
#include <stdio.h>
#include <stdlib.h>
#include <string.h>

#include "vozhkell.h"

enum {
    CPUS = 64,
    CPUS_APART = 16,
    MOST_THREADS = 4,
    PLENTY = 100000, /* free pages above the mark */
    FEW = 40000,     /* free pages between `low` and the mark */
    DELTA = 5,
    EVENT = 4,
    AMOUNT = 3,
    NORMAL = 2 /* the zone index of zone Normal */
};

/* What tests answered: how many said yes, how many rested on a snapshot, and the free pages that the last one rested
 * on. */
struct tally {
    uint64_t yes, snapshots, free;
};

/* What a thread works on: the handle of its CPU, the counter that it changes, how many calls it makes, and what its
 * tests answered. */
struct work {
    vozhkell_handle handle;
    uint32_t cpu, counter;
    uint64_t calls;
    struct tally tally;
};

/* Ends the program where a call is refused that can't be. */
static void must(int status)
{
    if (status != VOZHKELL_OK) {
        fprintf(stderr, "door: a call answered %d\n", status);
        exit(2);
    }
}

static void *count_events(void *arg)
{
    struct work *w = arg;
    for (uint64_t n = 0; n < w->calls; n++)
        must(vozhkell_count_event(&w->handle, EVENT, 1));
    return NULL;
}

static void *add_locals(void *arg)
{
    struct work *w = arg;
    int64_t amount = AMOUNT;
    for (uint64_t n = 0; n < w->calls; n++) {
        must(vozhkell_try_percpu_add(&w->handle, w->counter, amount));
        amount = -amount;
    }
    return NULL;
}

static void *change_pages(void *arg)
{
    struct work *w = arg;
    for (uint64_t n = 0; n < w->calls; n++)
        must(vozhkell_add(&w->handle, w->counter, DELTA));
    return NULL;
}

static void *fold_pages(void *arg)
{
    struct work *w = arg;
    for (uint64_t n = 0; n < w->calls; n++) {
        must(vozhkell_add(&w->handle, w->counter, DELTA));
        must(vozhkell_fold(&w->handle, w->cpu));
    }
    return NULL;
}

static void *test_watermark(void *arg)
{
    struct work *w = arg;
    struct tally tally = {0};
    for (uint64_t n = 0; n < w->calls; n++) {
        vozhkell_answer answer;
        must(vozhkell_watermark_ok(&w->handle, 0, VOZHKELL_LOW, NORMAL, &answer));
        tally.yes += answer.yes;
        tally.snapshots += !answer.fast;
        tally.free = answer.free;
    }
    w->tally = tally;
    return NULL;
}

/* What a kind has threads do, and how many free pages there are. */
struct kind {
    const char *name;
    void *(*body)(void *);
    int free;
};

static const struct kind kinds[] = {
    {"events", count_events, 0},
    {"locals", add_locals, 0},
    {"adds", change_pages, 0},
    {"folds", fold_pages, 0},
    {"watermarks", test_watermark, PLENTY},
    {"snapshots64", test_watermark, FEW},
};

static const struct kind *kind_of(const char *name)
{
    for (size_t n = 0; n < sizeof kinds / sizeof *kinds; n++)
        if (strcmp(kinds[n].name, name) == 0)
            return &kinds[n];
    return NULL;
}

static void open_machine(vozhkell *counters, int free_pages)
{
    char text[512];
    uint32_t line;
    int length = snprintf(text, sizeof text,
                          "vmtrace 1\ncpus %d\nzone 0 Normal 1048576 15000 20000 35000\n"
                          "base 0 Normal nr_free_pages %d\n"
                          "counter c0 65536\ncounter c1 65536\ncounter c2 65536\ncounter c3 65536\n"
                          "counter c4 65536\ncounter c5 65536\ncounter c6 65536\ncounter c7 65536\ngo\n",
                          CPUS, free_pages);
    must(vozhkell_open(counters, text, (size_t)length, &line));
}

static void run_all(struct work *each, int threads, void *(*body)(void *))
{
    pthread_t started[MOST_THREADS];
    for (int n = 1; n < threads; n++)
        if (pthread_create(&started[n], NULL, body, &each[n]) != 0) {
            fputs("door: no thread can be started\n", stderr);
            exit(2);
        }
    body(&each[0]);
    for (int n = 1; n < threads; n++)
        pthread_join(started[n], NULL);
}

/* Writes what the counters are once every thread has ended. */
static void write_numbers(const struct kind *kind, struct work *each, int threads)
{
    vozhkell_handle *handle = &each[0].handle;
    uint32_t counter = each[0].counter;
    if (kind->body == count_events) {
        uint64_t total;
        must(vozhkell_events(handle, EVENT, &total));
        printf("counted %" PRIu64 "\n", total);
    } else if (kind->body == add_locals) {
        int64_t sum;
        must(vozhkell_try_percpu_sum(handle, counter, &sum));
        printf("sum %" PRId64 "\n", sum);
    } else if (kind->body == test_watermark) {
        struct tally all = {0};
        for (int n = 0; n < threads; n++) {
            all.yes += each[n].tally.yes;
            all.snapshots += each[n].tally.snapshots;
            all.free = each[n].tally.free;
        }
        printf("yes %" PRIu64 ", by snapshots %" PRIu64 ", free pages %" PRIu64 "\n", all.yes, all.snapshots, all.free);
    } else {
        uint64_t value, system_wide;
        must(vozhkell_value(handle, counter, &value));
        must(vozhkell_system_value(handle, counter, &system_wide));
        printf("value %" PRIu64 ", system-wide %" PRIu64 "\n", value, system_wide);
    }
}

int main(int argc, char **argv)
{
    char *end = NULL;
    const struct kind *kind = argc == 5 ? kind_of(argv[1]) : NULL;
    uint64_t calls = argc == 5 ? strtoull(argv[2], &end, 10) : 0;
    int threads = argc == 5 && *end == '\0' ? atoi(argv[3]) : 0;
    bool near = argc == 5 && strcmp(argv[4], "near") == 0;
    if (kind == NULL || threads < 1 || threads > MOST_THREADS || calls == 0 ||
        (!near && strcmp(argv[4], "apart") != 0)) {
        fputs("usage: door KIND CALLS THREADS near|apart, where KIND is one of\n", stderr);
        for (size_t n = 0; n < sizeof kinds / sizeof *kinds; n++)
            fprintf(stderr, "    %s\n", kinds[n].name);
        return 2;
    }
    vozhkell counters = VOZHKELL_NONE;
    struct work each[MOST_THREADS];
    open_machine(&counters, kind->free);
    for (int n = 0; n < threads; n++) {
        uint32_t cpu = (uint32_t)n * (near ? 1 : CPUS_APART);
        each[n] = (struct work){.cpu = cpu, .counter = (uint32_t)threads, .calls = calls};
        must(vozhkell_begin(&counters, cpu, &each[n].handle));
    }
    run_all(each, threads, kind->body);
    write_numbers(kind, each, threads);
    for (int n = 0; n < threads; n++)
        must(vozhkell_end(&counters, &each[n].handle));
    must(vozhkell_close(&counters));
    return 0;
}
