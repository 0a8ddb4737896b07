/* A pool of pages that four threads share, each as a CPU, with the counters of crates/vozhkell_c beside it.
 *
 * An allocator that many CPUs use must know how many pages are free, to refuse what would use up its reserve and to
 * reclaim pages in time. A number that all of them change at each page would be fought over. These counters keep a
 * small number for each CPU, and its share moves on only past a threshold: here 6 pages, so that a plain read of the
 * free pages is off by 24 at most.
 *
 * Build, as C or as C++, where a release of Vozhkell is installed:
 *   cc pool.c $(pkg-config --cflags --libs vozhkell) -o pool
 * Without one: cd crates/vozhkell_c && rt lib, and then, at the top of the repository (KIT is the Rattle kit's folder):
 *   cc -std=c11 -D_POSIX_C_SOURCE=200809L -pthread -I crates/vozhkell_c examples/c/pool.c \
 *      crates/vozhkell_c/out/libvozhkell_c.a KIT/c/liblibc_c.a -o pool
 * Status 0: the counters and the pool have the same number of free pages at the end. */
#include <pthread.h>
#include <stdio.h>
#include <stdlib.h>
#ifdef __cplusplus
#include <atomic>
using std::atomic_bool;
#else
#include <stdatomic.h>
#endif

#include "vozhkell.h"

enum { CPUS = 4, PAGES = 4096, ROUNDS = 100000, MOST_HELD = 1500 };

/* The highest zone index that a request of this pool may use: that of zone Normal. */
enum { NORMAL = 2 };

/* The machine: one zone with all pages free, and its watermarks min, low and high. */
static const char MACHINE[] = "vmtrace 1\n"
                              "cpus 4\n"
                              "zone 0 Normal 4096 128 512 768\n"
                              "base 0 Normal nr_free_pages 4096\n"
                              "go\n";

/* The pages that nobody has, as a stack. The lock is of the stack alone: the counters need none. */
static struct {
    pthread_mutex_t lock;
    int free[PAGES];
    int count;
} pool = {PTHREAD_MUTEX_INITIALIZER, {0}, 0};

static uint32_t zone, free_pages;

/* What the reclaimer waits for, and what it asks of the CPUs: to give a page back for each that they take. */
static pthread_mutex_t reclaim_lock = PTHREAD_MUTEX_INITIALIZER;
static pthread_cond_t reclaim_due = PTHREAD_COND_INITIALIZER;
static bool is_due, is_over;
static atomic_bool gives_back;

struct cpu {
    vozhkell_handle handle;
    unsigned random;
    int held[MOST_HELD];
    int count;
    long taken, refused;
};

/* Ends the program where a call is refused that can't be. */
static void must(int status, const char *what)
{
    if (status != VOZHKELL_OK) {
        fprintf(stderr, "pool: %s: status %d\n", what, status);
        exit(1);
    }
}

/* Whether the zone has more free pages than a watermark asks for. */
static bool is_above(struct cpu *cpu, enum vozhkell_mark mark)
{
    vozhkell_answer answer;
    must(vozhkell_watermark_ok(&cpu->handle, zone, mark, NORMAL, &answer), "a watermark");
    return answer.yes;
}

/* Takes a page, unless only the reserve is left. */
static void take(struct cpu *cpu)
{
    if (cpu->count == MOST_HELD || !is_above(cpu, VOZHKELL_MIN)) {
        cpu->refused++;
        return;
    }
    pthread_mutex_lock(&pool.lock);
    int page = pool.count > 0 ? pool.free[--pool.count] : -1;
    pthread_mutex_unlock(&pool.lock);
    if (page < 0) {
        cpu->refused++;
        return;
    }
    cpu->held[cpu->count++] = page;
    cpu->taken++;
    /* The count follows the page: until here the counters show one more than there is. */
    must(vozhkell_dec(&cpu->handle, free_pages), "a page less");
    if (!is_above(cpu, VOZHKELL_LOW)) {
        pthread_mutex_lock(&reclaim_lock);
        is_due = true;
        pthread_cond_signal(&reclaim_due);
        pthread_mutex_unlock(&reclaim_lock);
    }
}

static void give(struct cpu *cpu)
{
    if (cpu->count == 0)
        return;
    int page = cpu->held[--cpu->count];
    pthread_mutex_lock(&pool.lock);
    pool.free[pool.count++] = page;
    pthread_mutex_unlock(&pool.lock);
    must(vozhkell_inc(&cpu->handle, free_pages), "a page more");
    /* The request to give back ends with the zone above its high watermark, as kswapd's work does. */
    if (atomic_load(&gives_back) && is_above(cpu, VOZHKELL_HIGH))
        atomic_store(&gives_back, false);
}

/* A CPU: it takes a little more often than it gives, so that the pool runs low. */
static void *run_cpu(void *of)
{
    struct cpu *cpu = (struct cpu *)of;
    for (int round = 0; round < ROUNDS; round++) {
        cpu->random = cpu->random * 1103515245u + 12345u;
        if ((cpu->random >> 16) % 100 < 55)
            take(cpu);
        else
            give(cpu);
        if (atomic_load(&gives_back)) {
            give(cpu);
            give(cpu);
        }
    }
    return NULL;
}

/* The reclaimer owns no CPU: by the control handle it folds all of them, so that plain reads are exact for a moment. */
static void *run_reclaimer(void *of)
{
    vozhkell_control *control = (vozhkell_control *)of;
    static long wakes;
    pthread_mutex_lock(&reclaim_lock);
    for (;;) {
        while (!is_due && !is_over)
            pthread_cond_wait(&reclaim_due, &reclaim_lock);
        if (is_over)
            break;
        is_due = false;
        wakes++;
        pthread_mutex_unlock(&reclaim_lock);
        for (uint32_t cpu = 0; cpu < CPUS; cpu++)
            must(vozhkell_control_fold(control, cpu), "a fold");
        atomic_store(&gives_back, true);
        pthread_mutex_lock(&reclaim_lock);
    }
    pthread_mutex_unlock(&reclaim_lock);
    return &wakes;
}

int main(void)
{
    static struct cpu cpus[CPUS];
    vozhkell counters = VOZHKELL_NONE;
    vozhkell_control control = VOZHKELL_NONE;
    pthread_t threads[CPUS], reclaimer;
    uint32_t line = 0;
    uint64_t value, snapshot;
    void *wakes;

    for (pool.count = 0; pool.count < PAGES; pool.count++)
        pool.free[pool.count] = pool.count;
    must(vozhkell_open(&counters, MACHINE, sizeof MACHINE - 1, &line), "the machine");
    must(vozhkell_place(&counters, 0, "Normal", &zone), "the zone");
    must(vozhkell_counter(&counters, zone, "nr_free_pages", &free_pages), "the counter");
    must(vozhkell_begin_control(&counters, &control), "the control handle");

    /* Handles are begun here, and each goes to its thread as that begins. */
    if (pthread_create(&reclaimer, NULL, run_reclaimer, &control))
        return 1;
    for (uint32_t n = 0; n < CPUS; n++) {
        cpus[n].random = n + 1;
        must(vozhkell_begin(&counters, n, &cpus[n].handle), "a handle");
        if (pthread_create(&threads[n], NULL, run_cpu, &cpus[n]))
            return 1;
    }
    for (int n = 0; n < CPUS; n++)
        pthread_join(threads[n], NULL);
    pthread_mutex_lock(&reclaim_lock);
    is_over = true;
    pthread_cond_signal(&reclaim_due);
    pthread_mutex_unlock(&reclaim_lock);
    pthread_join(reclaimer, &wakes);

    /* Each handle came back as its thread ended. Nobody changes pages now, so the snapshot is the true total. */
    must(vozhkell_value(&cpus[0].handle, free_pages, &value), "the value");
    must(vozhkell_snapshot(&cpus[0].handle, free_pages, &snapshot), "the snapshot");
    for (int n = 0; n < CPUS; n++) {
        printf("CPU %d: %ld pages taken, %ld refused, %d held\n", n, cpus[n].taken, cpus[n].refused, cpus[n].count);
        must(vozhkell_end(&counters, &cpus[n].handle), "the end of a handle");
    }
    must(vozhkell_end_control(&counters, &control), "the end of the control handle");
    must(vozhkell_close(&counters), "the end of the counters");
    printf("the reclaimer was woken %ld times\n", *(long *)wakes);
    printf("free pages: %d in the pool, %llu by a snapshot, %llu by a plain read\n", pool.count,
           (unsigned long long)snapshot, (unsigned long long)value);
    return snapshot == (uint64_t)pool.count ? 0 : 1;
}
