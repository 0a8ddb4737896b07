/* What threads find by handles of crates/vozhkell_c: sums, tests of a watermark, additions that don't wait, volumes.
 *
 * Built and run by .ci/own-checks, as bench/door.c. The numbers that are expected were worked out by hand. Status 0:
 * each of them was found. */
#include <inttypes.h>
#include <pthread.h>
#include <sched.h>
#include <stdatomic.h>
#include <stdio.h>
#include <stdlib.h>
#include <string.h>

#include "vozhkell.h"

/* Zone Normal's zone index, which tests ask for, and the numbers of the counters that are used. */
enum { INDEX = 2, ZONE = 0, FREE = 0, EVENT = 3, FILES = 0 };

static const int64_t VOLUME = INT64_C(1) << 48;

static int failures;

static void expect(const char *what, int64_t found, int64_t wanted)
{
    if (found != wanted) {
        printf("handles.c: %s: %" PRId64 ", and not %" PRId64 "\n", what, found, wanted);
        failures++;
    }
}

/* Ends the program where a call is refused that can't be. */
static void must(int status)
{
    if (status != VOZHKELL_OK) {
        printf("handles.c: a call answered %d\n", status);
        exit(2);
    }
}

static void open_text(vozhkell *counters, const char *text)
{
    uint32_t line;
    must(vozhkell_open(counters, text, strlen(text), &line));
}

static pthread_t started(void *(*body)(void *), void *with)
{
    pthread_t thread;
    if (pthread_create(&thread, NULL, body, with) != 0) {
        puts("handles.c: no thread can be started");
        exit(2);
    }
    return thread;
}

/* Adds to the percpu counter, and tries again while others hold its lock. */
static void percpu_add(vozhkell_handle *handle, int64_t amount)
{
    int status;
    while ((status = vozhkell_try_percpu_add(handle, FILES, amount)) == VOZHKELL_HELD)
        sched_yield();
    must(status);
}

/* Sums. Four threads change a page counter, an event and a percpu counter, while a fifth sets thresholds. */

enum { ROUNDS = 100000, THREADS = 4 };

static void *change(void *arg)
{
    vozhkell_handle *handle = arg;
    for (uint32_t round = 0; round < ROUNDS; round++) {
        must(vozhkell_add(handle, FREE, 3 - (int64_t)(round % 5)));
        must(vozhkell_count_event(handle, EVENT, 1));
        percpu_add(handle, 1);
        if (round % 64 == 0) {
            vozhkell_answer answer;
            uint64_t times;
            must(vozhkell_fold(handle, round / 64 % THREADS));
            must(vozhkell_watermark_ok(handle, ZONE, VOZHKELL_HIGH, INDEX, &answer));
            must(vozhkell_events(handle, EVENT, &times));
        }
    }
    return NULL;
}

static void *set_thresholds(void *arg)
{
    vozhkell_control *control = arg;
    for (int round = 0; round < ROUNDS / 100; round++) {
        must(vozhkell_set_pressure(control, 1));
        must(vozhkell_set_normal(control, 1));
    }
    return NULL;
}

static void sums(void)
{
    vozhkell counters = VOZHKELL_NONE;
    vozhkell_handle handles[THREADS] = {VOZHKELL_NONE, VOZHKELL_NONE, VOZHKELL_NONE, VOZHKELL_NONE};
    vozhkell_control control = VOZHKELL_NONE;
    pthread_t threads[THREADS + 1];
    uint64_t pages, times;
    int64_t things;

    open_text(&counters, "vmtrace 1\ncpus 4\nzone 0 Normal 262144 100 125 150\nbase 0 Normal nr_free_pages 1000000\n"
                         "counter files 32\ngo\n");
    for (uint32_t cpu = 0; cpu < THREADS; cpu++)
        must(vozhkell_begin(&counters, cpu, &handles[cpu]));
    must(vozhkell_begin_control(&counters, &control));
    for (int n = 0; n < THREADS; n++)
        threads[n] = started(change, &handles[n]);
    threads[THREADS] = started(set_thresholds, &control);
    for (int n = 0; n <= THREADS; n++)
        pthread_join(threads[n], NULL);
    must(vozhkell_end_control(&counters, &control));

    /* Each thread adds a page a round on average, an event and a thing. */
    must(vozhkell_snapshot(&handles[0], FREE, &pages));
    must(vozhkell_events(&handles[0], EVENT, &times));
    must(vozhkell_try_percpu_sum(&handles[0], FILES, &things));
    expect("free pages", (int64_t)pages, 1000000 + THREADS * ROUNDS);
    expect("counts of the event", (int64_t)times, THREADS * ROUNDS);
    expect("things of the percpu counter", things, THREADS * ROUNDS);
    for (int n = 0; n < THREADS; n++)
        must(vozhkell_end(&counters, &handles[n]));
    must(vozhkell_close(&counters));
}

/* Tests of a watermark while another thread adds pages. The first zone keeps a 256th of the second one's pages, 14,850,
 * from requests that may use both, so a test of `high` asks for more than 15,000. The zone's slack is its mark of 190
 * less `high`. An `inc` under the threshold of 20 carries at most the 20 pages that it finds, its own, and half a
 * threshold. */

enum { LIMIT = 15000, SLACK = 40, CARRIED = 31, TESTS = 20000, OTHERS = 10000 };

/* How many pages the other thread has begun to add, and how many of them are surely added. */
static atomic_uint_fast64_t begun, added;

/* How many tests answered yes and no by the value alone, and how many answers of any kind were further from the truth
 * than they may be, or a yes or no that the pages which they tell don't give. */
struct tally {
    vozhkell_handle handle;
    uint64_t yes, no, far;
};

static void *inc_openly(void *arg)
{
    vozhkell_handle *handle = arg;
    for (uint64_t pages = 1; pages <= OTHERS; pages++) {
        atomic_store(&begun, pages);
        must(vozhkell_inc(handle, FREE));
        atomic_store(&added, pages);
    }
    return NULL;
}

static void *inc_and_test(void *arg)
{
    struct tally *tally = arg;
    for (uint64_t own = 1; own <= TESTS; own++) {
        vozhkell_answer answer;
        must(vozhkell_inc(&tally->handle, FREE));
        uint64_t least = atomic_load(&added) + own;
        must(vozhkell_watermark_ok(&tally->handle, ZONE, VOZHKELL_HIGH, INDEX, &answer));
        uint64_t most = atomic_load(&begun) + own;
        tally->yes += answer.fast && answer.yes;
        tally->no += answer.fast && !answer.yes;
        tally->far += answer.yes != (LIMIT < answer.free) || answer.free > most + SLACK ||
                      least > answer.free + SLACK + CARRIED;
    }
    return NULL;
}

static void tests_beside_changes(void)
{
    vozhkell counters = VOZHKELL_NONE;
    vozhkell_handle other = VOZHKELL_NONE;
    struct tally tally = {VOZHKELL_NONE, 0, 0, 0};

    open_text(&counters, "vmtrace 1\ncpus 2\nzone 0 DMA32 262144 100 125 150\nzone 0 Normal 3801600 100 125 150\ngo\n");
    must(vozhkell_begin(&counters, 0, &tally.handle));
    must(vozhkell_begin(&counters, 1, &other));
    pthread_t testing = started(inc_and_test, &tally), adding = started(inc_openly, &other);
    pthread_join(testing, NULL);
    pthread_join(adding, NULL);
    /* With 4,900 pages of its own the tester knows of at most 14,900, and with all its pages of at least 20,000. */
    expect("answers too far from the truth", (int64_t)tally.far, 0);
    expect("4,000 answers no", tally.no >= 4000, 1);
    expect("an answer yes", tally.yes >= 1, 1);
    must(vozhkell_end(&counters, &tally.handle));
    must(vozhkell_end(&counters, &other));
    must(vozhkell_close(&counters));
}

/* Additions to a percpu counter by two threads. The second may give up where others hold the lock. */

enum { ADDITIONS = 10000 };

struct adder {
    vozhkell_handle handle;
    int64_t amount;
    bool gives_up;
    int64_t given_up;
};

static void *add_often(void *arg)
{
    struct adder *adder = arg;
    for (int n = 0; n < ADDITIONS; n++) {
        if (!adder->gives_up) {
            percpu_add(&adder->handle, adder->amount);
            continue;
        }
        int status = vozhkell_try_percpu_add(&adder->handle, FILES, adder->amount);
        if (status == VOZHKELL_HELD)
            adder->given_up++;
        else
            must(status);
    }
    return NULL;
}

/* The sum and the shared part that two threads leave, and how often the second gave up. */
static void additions(int64_t amount, bool gives_up, int64_t *sum, int64_t *shared, int64_t *given_up)
{
    vozhkell counters = VOZHKELL_NONE;
    struct adder first = {VOZHKELL_NONE, amount, false, 0}, second = {VOZHKELL_NONE, amount, gives_up, 0};

    open_text(&counters, "vmtrace 1\ncpus 2\nzone 0 Normal 262144 100 125 150\ncounter files 32\ngo\n");
    must(vozhkell_begin(&counters, 0, &first.handle));
    must(vozhkell_begin(&counters, 1, &second.handle));
    pthread_t one = started(add_often, &first), other = started(add_often, &second);
    pthread_join(one, NULL);
    pthread_join(other, NULL);
    must(vozhkell_try_percpu_sum(&first.handle, FILES, sum));
    must(vozhkell_percpu_read(&first.handle, FILES, shared));
    *given_up = second.given_up;
    must(vozhkell_end(&counters, &first.handle));
    must(vozhkell_end(&counters, &second.handle));
    must(vozhkell_close(&counters));
}

static void additions_of_two(void)
{
    int64_t sum, shared, given_up;

    /* Of 11 additions of 3 the eleventh reaches the batch and moves 33; 10,000 are 909 times 11 and one more. */
    additions(3, false, &sum, &shared, &given_up);
    expect("the sum of additions of 3", sum, 60000);
    expect("the shared part after additions of 3", shared, 59994);
    /* What was given up has changed nothing. */
    additions(30, true, &sum, &shared, &given_up);
    expect("the sum of additions of 30", sum, 600000 - 30 * given_up);
}

/* What was refused hasn't counted: the CPU may change each counter by 2^48 afterwards, and by no more. */
static void volumes(void)
{
    vozhkell counters = VOZHKELL_NONE;
    vozhkell_handle handle = VOZHKELL_NONE;
    uint32_t yes;

    open_text(&counters, "vmtrace 1\ncpus 2\nzone 0 Normal 262144 100 125 150\ncounter files 32\ngo\n");
    must(vozhkell_begin(&counters, 0, &handle));
    expect("pages past 2^48", vozhkell_add(&handle, FREE, VOLUME + 1), VOZHKELL_TOO_MUCH);
    expect("the least number of pages", vozhkell_add(&handle, FREE, INT64_MIN), VOZHKELL_TOO_MUCH);
    expect("pages of no counter", vozhkell_add(&handle, UINT32_MAX, 1), VOZHKELL_NO_COUNTER);
    expect("counts past 2^48", vozhkell_count_event(&handle, EVENT, (uint64_t)VOLUME + 1), VOZHKELL_TOO_MUCH);
    expect("things past 2^48", vozhkell_try_percpu_add(&handle, FILES, VOLUME + 1), VOZHKELL_TOO_MUCH);
    expect("the least number of things", vozhkell_try_percpu_add(&handle, FILES, INT64_MIN), VOZHKELL_TOO_MUCH);
    expect("a limit past 2^60", vozhkell_try_percpu_limited_add(&handle, FILES, -(VOLUME << 12) - 1, 1, &yes),
           VOZHKELL_TOO_FAR);

    expect("2^48 pages", vozhkell_add(&handle, FREE, VOLUME), VOZHKELL_OK);
    expect("2^48 counts", vozhkell_count_event(&handle, EVENT, (uint64_t)VOLUME), VOZHKELL_OK);
    expect("2^48 things", vozhkell_try_percpu_add(&handle, FILES, VOLUME), VOZHKELL_OK);
    expect("a page more", vozhkell_dec(&handle, FREE), VOZHKELL_TOO_MUCH);
    expect("a count more", vozhkell_count_event(&handle, EVENT, 1), VOZHKELL_TOO_MUCH);
    expect("a thing more", vozhkell_try_percpu_add(&handle, FILES, -1), VOZHKELL_TOO_MUCH);
    must(vozhkell_end(&counters, &handle));
    must(vozhkell_close(&counters));
}

int main(void)
{
    sums();
    tests_beside_changes();
    additions_of_two();
    volumes();
    return failures ? 1 : 0;
}
