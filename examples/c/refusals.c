/* Every call of vozhkell.h with what it must refuse, and with each allocation failing in turn.
 *
 * Build as pool.c, with -Wl,--wrap=malloc,--wrap=realloc beside: the library's allocations then go through the two
 * functions below. Status 0: each call answered as it should, and what was refused left everything as it was. */
#include <stdio.h>

#include "vozhkell.h"

static const char MACHINE[] = "vmtrace 2\n"
                              "cpus 2\n"
                              "item zone area1\n"
                              "zone 0 DMA 4096 16 20 24\n"
                              "zone 0 Normal 262144 100 125 150\n"
                              "base 0 Normal nr_free_pages 200\n"
                              "counter files 32\n"
                              "go\n";

/* Counters by number: a place has 16, the places are zone DMA, zone Normal, node 0. */
enum { FREE = 16, LAST = 47, NORMAL = 1, NODE = 2 };

/* The last event, and the percpu counter with its batch. */
enum { LAST_EVENT = 7, FILES = 0, BATCH = 32 };

static const int64_t FARTHEST = INT64_C(1) << 60;

static int failures;

static void expect(int line, long long found, long long wanted)
{
    if (found != wanted) {
        printf("refusals.c:%d: %lld, and not %lld\n", line, found, wanted);
        failures++;
    }
}

#define EXPECT(found, wanted) expect(__LINE__, (long long)(found), (long long)(wanted))

/* Which allocation fails, counted from 1: none where it is 0. */
static long failing, allocations;

void *__real_malloc(size_t size);
void *__real_realloc(void *block, size_t size);
void *__wrap_malloc(size_t size);
void *__wrap_realloc(void *block, size_t size);

void *__wrap_malloc(size_t size)
{
    return ++allocations == failing ? NULL : __real_malloc(size);
}

void *__wrap_realloc(void *block, size_t size)
{
    return ++allocations == failing ? NULL : __real_realloc(block, size);
}

static int open_text(vozhkell *counters, const char *text, uint32_t *line)
{
    return vozhkell_open(counters, text, strlen(text), line);
}

/* A text that is no header: its status, with the line at fault, and no counters. */
static void refuses_header(const char *text, int status, uint32_t line)
{
    vozhkell counters = VOZHKELL_NONE;
    uint32_t at = 77;
    EXPECT(open_text(&counters, text, &at), status);
    EXPECT(at, line);
    EXPECT(counters.at == NULL, true);
}

static void refuses_headers(void)
{
    refuses_header("", VOZHKELL_HEADER_BAD_MAGIC, 1);
    refuses_header("vmtrace 1\ncpus 02\n", VOZHKELL_HEADER_BAD_NUMBER, 2);
    refuses_header("vmtrace 1\ncpus 65\n", VOZHKELL_HEADER_BAD_CPUS, 2);
    refuses_header("vmtrace 1\ncpus 2\ngo\n", VOZHKELL_HEADER_NO_ZONE, 3);
    refuses_header("vmtrace 1\ncpus 2\nzone 0 DMA 1 0 0 0\nzone 0 DMA 1 0 0 0\n", VOZHKELL_HEADER_DOUBLED_ZONE, 4);
    refuses_header("vmtrace 1\ncpus 2\nzone 0 DMA 1 3 2 1\n", VOZHKELL_HEADER_BAD_MARKS, 3);
    refuses_header("vmtrace 1\ncpus 2\nzone 0 dma 1 0 0 0\n", VOZHKELL_HEADER_UNKNOWN_NAME, 3);
    refuses_header("vmtrace 1\ncpus 2\nzone 0 DMA 1 0 0 0\nbase 0 DMA nr_mlock 1\nbase 0 DMA nr_mlock 1\n",
                   VOZHKELL_HEADER_DOUBLED_COUNTER, 5);
    refuses_header("vmtrace 1\ncpus 2\nzone 0 DMA 1 0 0 0\ncounter a 0\n", VOZHKELL_HEADER_BAD_BATCH, 4);
    refuses_header("vmtrace 1\ncpus 2\nzone 0 DMA 1 0 0 0\n", VOZHKELL_HEADER_MISSING_GO, 4);
    refuses_header("vmtrace 1\ncpus\n", VOZHKELL_HEADER_MALFORMED, 2);
    refuses_header("vmtrace 2\ncpus 2\nitem zone nr_mlock\n", VOZHKELL_HEADER_DOUBLED_ITEM, 3);

    vozhkell counters = VOZHKELL_NONE;
    uint32_t at = 77;
    static char long_text[(1 << 26) + 1];
    EXPECT(vozhkell_open(&counters, long_text, sizeof long_text, &at), VOZHKELL_HEADER_TOO_LONG);
    memset(long_text, 'a', 201);
    EXPECT(vozhkell_open(&counters, long_text, 201, &at), VOZHKELL_HEADER_LINE_TOO_LONG);
    EXPECT(at, 1);
}

/* Null pointers, and variables that hold nothing. */
static void refuses_nulls(vozhkell *counters, vozhkell_handle *handle, vozhkell_control *control)
{
    vozhkell no_counters = VOZHKELL_NONE;
    vozhkell_handle none = VOZHKELL_NONE;
    vozhkell_control no_control = VOZHKELL_NONE;
    vozhkell_answer answer = {0};
    vozhkell_order_answer order = {0};
    vozhkell_balance balance = {0};
    uint32_t number = 77;
    uint64_t pages = 77;
    int64_t value = 77;

    EXPECT(vozhkell_open(NULL, MACHINE, 1, &number), VOZHKELL_NULL);
    EXPECT(vozhkell_open(&no_counters, NULL, 0, &number), VOZHKELL_NULL);
    EXPECT(vozhkell_open(&no_counters, MACHINE, 1, NULL), VOZHKELL_NULL);
    EXPECT(vozhkell_close(NULL), VOZHKELL_NULL);
    EXPECT(vozhkell_close(&no_counters), VOZHKELL_NULL);
    EXPECT(vozhkell_begin(NULL, 0, &none), VOZHKELL_NULL);
    EXPECT(vozhkell_begin(counters, 1, NULL), VOZHKELL_NULL);
    EXPECT(vozhkell_begin(&no_counters, 1, &none), VOZHKELL_NULL);
    EXPECT(vozhkell_end(NULL, handle), VOZHKELL_NULL);
    EXPECT(vozhkell_end(counters, NULL), VOZHKELL_NULL);
    EXPECT(vozhkell_end(&no_counters, handle), VOZHKELL_NULL);
    EXPECT(vozhkell_end(counters, &none), VOZHKELL_NULL);
    EXPECT(vozhkell_begin_control(NULL, &no_control), VOZHKELL_NULL);
    EXPECT(vozhkell_begin_control(counters, NULL), VOZHKELL_NULL);
    EXPECT(vozhkell_begin_control(&no_counters, &no_control), VOZHKELL_NULL);
    EXPECT(vozhkell_end_control(NULL, &no_control), VOZHKELL_NULL);
    EXPECT(vozhkell_end_control(counters, NULL), VOZHKELL_NULL);
    EXPECT(vozhkell_end_control(&no_counters, &no_control), VOZHKELL_NULL);
    EXPECT(vozhkell_end_control(counters, &no_control), VOZHKELL_NULL);
    EXPECT(vozhkell_place(NULL, 0, "node", &number), VOZHKELL_NULL);
    EXPECT(vozhkell_place(counters, 0, NULL, &number), VOZHKELL_NULL);
    EXPECT(vozhkell_place(counters, 0, "node", NULL), VOZHKELL_NULL);
    EXPECT(vozhkell_place(&no_counters, 0, "node", &number), VOZHKELL_NULL);
    EXPECT(vozhkell_counter(NULL, 0, "nr_mlock", &number), VOZHKELL_NULL);
    EXPECT(vozhkell_counter(counters, 0, NULL, &number), VOZHKELL_NULL);
    EXPECT(vozhkell_counter(counters, 0, "nr_mlock", NULL), VOZHKELL_NULL);
    EXPECT(vozhkell_counter(&no_counters, 0, "nr_mlock", &number), VOZHKELL_NULL);
    EXPECT(vozhkell_item(NULL, false, "nr_mlock", &number), VOZHKELL_NULL);
    EXPECT(vozhkell_item(counters, false, NULL, &number), VOZHKELL_NULL);
    EXPECT(vozhkell_item(counters, false, "nr_mlock", NULL), VOZHKELL_NULL);
    EXPECT(vozhkell_item(&no_counters, false, "nr_mlock", &number), VOZHKELL_NULL);
    EXPECT(vozhkell_add(NULL, FREE, 1), VOZHKELL_NULL);
    EXPECT(vozhkell_add(&none, FREE, 1), VOZHKELL_NULL);
    EXPECT(vozhkell_inc(NULL, FREE), VOZHKELL_NULL);
    EXPECT(vozhkell_inc(&none, FREE), VOZHKELL_NULL);
    EXPECT(vozhkell_dec(NULL, FREE), VOZHKELL_NULL);
    EXPECT(vozhkell_dec(&none, FREE), VOZHKELL_NULL);
    EXPECT(vozhkell_fold(NULL, 0), VOZHKELL_NULL);
    EXPECT(vozhkell_fold(&none, 0), VOZHKELL_NULL);
    EXPECT(vozhkell_value(NULL, FREE, &pages), VOZHKELL_NULL);
    EXPECT(vozhkell_value(handle, FREE, NULL), VOZHKELL_NULL);
    EXPECT(vozhkell_value(&none, FREE, &pages), VOZHKELL_NULL);
    EXPECT(vozhkell_system_value(NULL, 0, &pages), VOZHKELL_NULL);
    EXPECT(vozhkell_system_value(handle, 0, NULL), VOZHKELL_NULL);
    EXPECT(vozhkell_system_value(&none, 0, &pages), VOZHKELL_NULL);
    EXPECT(vozhkell_snapshot(NULL, FREE, &pages), VOZHKELL_NULL);
    EXPECT(vozhkell_snapshot(handle, FREE, NULL), VOZHKELL_NULL);
    EXPECT(vozhkell_snapshot(&none, FREE, &pages), VOZHKELL_NULL);
    EXPECT(vozhkell_watermark_ok(NULL, NORMAL, VOZHKELL_MIN, 2, &answer), VOZHKELL_NULL);
    EXPECT(vozhkell_watermark_ok(handle, NORMAL, VOZHKELL_MIN, 2, NULL), VOZHKELL_NULL);
    EXPECT(vozhkell_watermark_ok(&none, NORMAL, VOZHKELL_MIN, 2, &answer), VOZHKELL_NULL);
    EXPECT(vozhkell_zone_ok(NULL, NORMAL, VOZHKELL_MIN, 0, 2, &order), VOZHKELL_NULL);
    EXPECT(vozhkell_zone_ok(handle, NORMAL, VOZHKELL_MIN, 0, 2, NULL), VOZHKELL_NULL);
    EXPECT(vozhkell_zone_ok(&none, NORMAL, VOZHKELL_MIN, 0, 2, &order), VOZHKELL_NULL);
    EXPECT(vozhkell_balanced(NULL, NODE, 0, 2, &balance), VOZHKELL_NULL);
    EXPECT(vozhkell_balanced(handle, NODE, 0, 2, NULL), VOZHKELL_NULL);
    EXPECT(vozhkell_balanced(&none, NODE, 0, 2, &balance), VOZHKELL_NULL);
    EXPECT(vozhkell_count_event(NULL, 0, 1), VOZHKELL_NULL);
    EXPECT(vozhkell_count_event(&none, 0, 1), VOZHKELL_NULL);
    EXPECT(vozhkell_events(NULL, 0, &pages), VOZHKELL_NULL);
    EXPECT(vozhkell_events(handle, 0, NULL), VOZHKELL_NULL);
    EXPECT(vozhkell_events(&none, 0, &pages), VOZHKELL_NULL);
    EXPECT(vozhkell_percpu_read(NULL, FILES, &value), VOZHKELL_NULL);
    EXPECT(vozhkell_percpu_read(handle, FILES, NULL), VOZHKELL_NULL);
    EXPECT(vozhkell_percpu_read(&none, FILES, &value), VOZHKELL_NULL);
    EXPECT(vozhkell_try_percpu_add(NULL, FILES, 1), VOZHKELL_NULL);
    EXPECT(vozhkell_try_percpu_add(&none, FILES, 1), VOZHKELL_NULL);
    EXPECT(vozhkell_try_percpu_limited_add(NULL, FILES, 9, 1, &number), VOZHKELL_NULL);
    EXPECT(vozhkell_try_percpu_limited_add(handle, FILES, 9, 1, NULL), VOZHKELL_NULL);
    EXPECT(vozhkell_try_percpu_limited_add(&none, FILES, 9, 1, &number), VOZHKELL_NULL);
    EXPECT(vozhkell_try_percpu_sync(NULL, FILES), VOZHKELL_NULL);
    EXPECT(vozhkell_try_percpu_sync(&none, FILES), VOZHKELL_NULL);
    EXPECT(vozhkell_try_percpu_sum(NULL, FILES, &value), VOZHKELL_NULL);
    EXPECT(vozhkell_try_percpu_sum(handle, FILES, NULL), VOZHKELL_NULL);
    EXPECT(vozhkell_try_percpu_sum(&none, FILES, &value), VOZHKELL_NULL);
    EXPECT(vozhkell_control_fold(NULL, 0), VOZHKELL_NULL);
    EXPECT(vozhkell_control_fold(&no_control, 0), VOZHKELL_NULL);
    EXPECT(vozhkell_control_value(NULL, FREE, &pages), VOZHKELL_NULL);
    EXPECT(vozhkell_control_value(control, FREE, NULL), VOZHKELL_NULL);
    EXPECT(vozhkell_control_value(&no_control, FREE, &pages), VOZHKELL_NULL);
    EXPECT(vozhkell_control_snapshot(NULL, FREE, &pages), VOZHKELL_NULL);
    EXPECT(vozhkell_control_snapshot(control, FREE, NULL), VOZHKELL_NULL);
    EXPECT(vozhkell_control_snapshot(&no_control, FREE, &pages), VOZHKELL_NULL);
    EXPECT(vozhkell_control_events(NULL, 0, &pages), VOZHKELL_NULL);
    EXPECT(vozhkell_control_events(control, 0, NULL), VOZHKELL_NULL);
    EXPECT(vozhkell_control_events(&no_control, 0, &pages), VOZHKELL_NULL);
    EXPECT(vozhkell_set_pressure(NULL, NODE), VOZHKELL_NULL);
    EXPECT(vozhkell_set_pressure(&no_control, NODE), VOZHKELL_NULL);
    EXPECT(vozhkell_set_normal(NULL, NODE), VOZHKELL_NULL);
    EXPECT(vozhkell_set_normal(&no_control, NODE), VOZHKELL_NULL);
    EXPECT(vozhkell_refresh(NULL), VOZHKELL_NULL);
    EXPECT(vozhkell_refresh(&no_control), VOZHKELL_NULL);
    EXPECT(vozhkell_kswapd_turn(NULL, NODE, 0, 2, &balance), VOZHKELL_NULL);
    EXPECT(vozhkell_kswapd_turn(control, NODE, 0, 2, NULL), VOZHKELL_NULL);
    EXPECT(vozhkell_kswapd_turn(&no_control, NODE, 0, 2, &balance), VOZHKELL_NULL);
    EXPECT(number, 77);
    EXPECT(pages, 77);
    EXPECT(value, 77);
    EXPECT(none.at == NULL && no_control.at == NULL && no_counters.at == NULL, true);
}

/* Numbers and names that the machine doesn't have. */
static void refuses_numbers(vozhkell *counters, vozhkell_handle *handle, vozhkell_control *control)
{
    static const uint32_t wrong[] = {1, 2, 1000, 1u << 31, UINT32_MAX};
    vozhkell_handle none = VOZHKELL_NONE;
    vozhkell_answer answer = {77, 77, 77};
    vozhkell_order_answer order = {77, 77, 77, 77};
    vozhkell_balance balance = {77, 77, 77};
    uint32_t number = 77;
    uint64_t pages = 77;
    int64_t value = 77;

    for (size_t n = 0; n < sizeof wrong / sizeof *wrong; n++) {
        uint32_t past = wrong[n] > UINT32_MAX - LAST ? wrong[n] : LAST + wrong[n];
        EXPECT(vozhkell_add(handle, past, 1), VOZHKELL_NO_COUNTER);
        EXPECT(vozhkell_inc(handle, past), VOZHKELL_NO_COUNTER);
        EXPECT(vozhkell_dec(handle, past), VOZHKELL_NO_COUNTER);
        EXPECT(vozhkell_value(handle, past, &pages), VOZHKELL_NO_COUNTER);
        EXPECT(vozhkell_snapshot(handle, past, &pages), VOZHKELL_NO_COUNTER);
        EXPECT(vozhkell_system_value(handle, past, &pages), VOZHKELL_NO_ITEM);
        if (wrong[n] > 1) {
            EXPECT(vozhkell_begin(counters, wrong[n], &none), VOZHKELL_NOT_ONLINE);
            EXPECT(vozhkell_fold(handle, wrong[n]), VOZHKELL_NO_CPU);
            EXPECT(vozhkell_control_fold(control, wrong[n]), VOZHKELL_NO_CPU);
            EXPECT(vozhkell_watermark_ok(handle, wrong[n], VOZHKELL_MIN, 2, &answer), VOZHKELL_NO_ZONE);
            EXPECT(vozhkell_watermark_ok(handle, NORMAL, VOZHKELL_MIN, 2 + wrong[n], &answer),
                   2 + wrong[n] > 3 ? VOZHKELL_NO_ZONE_INDEX : VOZHKELL_OK);
            EXPECT(vozhkell_counter(counters, wrong[n] > NODE ? wrong[n] : NODE + wrong[n], "nr_mlock", &number),
                   VOZHKELL_NO_PLACE);
        }
        EXPECT(vozhkell_watermark_ok(handle, NORMAL, (enum vozhkell_mark)(2 + wrong[n]), 2, &answer),
               2 + wrong[n] > 2 ? VOZHKELL_NO_MARK : VOZHKELL_OK);
        EXPECT(vozhkell_place(counters, wrong[n], "node", &number), VOZHKELL_NO_PLACE);
        EXPECT(vozhkell_place(counters, wrong[n], "DMA", &number), VOZHKELL_NO_PLACE);

        uint32_t event = wrong[n] > UINT32_MAX - LAST_EVENT ? wrong[n] : LAST_EVENT + wrong[n];
        uint32_t node = wrong[n] == NODE ? NODE + 1 : wrong[n];
        EXPECT(vozhkell_count_event(handle, event, 1), VOZHKELL_NO_EVENT);
        EXPECT(vozhkell_events(handle, event, &pages), VOZHKELL_NO_EVENT);
        EXPECT(vozhkell_control_events(control, event, &pages), VOZHKELL_NO_EVENT);
        EXPECT(vozhkell_percpu_read(handle, wrong[n], &value), VOZHKELL_NO_PERCPU);
        EXPECT(vozhkell_try_percpu_add(handle, wrong[n], 1), VOZHKELL_NO_PERCPU);
        EXPECT(vozhkell_try_percpu_limited_add(handle, wrong[n], 9, 1, &number), VOZHKELL_NO_PERCPU);
        EXPECT(vozhkell_try_percpu_sync(handle, wrong[n]), VOZHKELL_NO_PERCPU);
        EXPECT(vozhkell_try_percpu_sum(handle, wrong[n], &value), VOZHKELL_NO_PERCPU);
        EXPECT(vozhkell_control_value(control, past, &pages), VOZHKELL_NO_COUNTER);
        EXPECT(vozhkell_control_snapshot(control, past, &pages), VOZHKELL_NO_COUNTER);
        EXPECT(vozhkell_balanced(handle, node, 0, 2, &balance), VOZHKELL_NO_NODE);
        EXPECT(vozhkell_kswapd_turn(control, node, 0, 2, &balance), VOZHKELL_NO_NODE);
        EXPECT(vozhkell_set_pressure(control, node), VOZHKELL_NO_NODE);
        EXPECT(vozhkell_set_normal(control, node), VOZHKELL_NO_NODE);
        if (wrong[n] > 10) {
            EXPECT(vozhkell_zone_ok(handle, NORMAL, VOZHKELL_MIN, wrong[n], 2, &order), VOZHKELL_NO_ORDER);
            EXPECT(vozhkell_balanced(handle, NODE, wrong[n], 2, &balance), VOZHKELL_NO_ORDER);
            EXPECT(vozhkell_kswapd_turn(control, NODE, wrong[n], 2, &balance), VOZHKELL_NO_ORDER);
            EXPECT(vozhkell_zone_ok(handle, wrong[n], VOZHKELL_MIN, 0, 2, &order), VOZHKELL_NO_ZONE);
            EXPECT(vozhkell_zone_ok(handle, NORMAL, VOZHKELL_MIN, 0, wrong[n], &order), VOZHKELL_NO_ZONE_INDEX);
            EXPECT(vozhkell_zone_ok(handle, NORMAL, (enum vozhkell_mark)wrong[n], 0, 2, &order), VOZHKELL_NO_MARK);
            EXPECT(vozhkell_balanced(handle, NODE, 0, wrong[n], &balance), VOZHKELL_NO_ZONE_INDEX);
            EXPECT(vozhkell_kswapd_turn(control, NODE, 0, wrong[n], &balance), VOZHKELL_NO_ZONE_INDEX);
        }
    }
    /* The first number that is too large. */
    EXPECT(vozhkell_zone_ok(handle, NORMAL, VOZHKELL_MIN, 11, 2, &order), VOZHKELL_NO_ORDER);
    EXPECT(vozhkell_zone_ok(handle, NORMAL, VOZHKELL_MIN, 10, 4, &order), VOZHKELL_NO_ZONE_INDEX);
    EXPECT(vozhkell_balanced(handle, NODE, 11, 2, &balance), VOZHKELL_NO_ORDER);
    EXPECT(vozhkell_balanced(handle, NODE, 10, 4, &balance), VOZHKELL_NO_ZONE_INDEX);
    EXPECT(vozhkell_kswapd_turn(control, NODE, 11, 2, &balance), VOZHKELL_NO_ORDER);
    EXPECT(vozhkell_kswapd_turn(control, NODE, 10, 4, &balance), VOZHKELL_NO_ZONE_INDEX);
    EXPECT(vozhkell_count_event(handle, 0, (UINT64_C(1) << 48) + 1), VOZHKELL_TOO_MUCH);
    EXPECT(vozhkell_count_event(handle, 0, UINT64_MAX), VOZHKELL_TOO_MUCH);
    EXPECT(vozhkell_try_percpu_add(handle, FILES, INT64_MIN), VOZHKELL_TOO_MUCH);
    EXPECT(vozhkell_try_percpu_add(handle, FILES, INT64_MAX), VOZHKELL_TOO_MUCH);
    EXPECT(vozhkell_try_percpu_limited_add(handle, FILES, FARTHEST + 1, 1, &number), VOZHKELL_TOO_FAR);
    EXPECT(vozhkell_try_percpu_limited_add(handle, FILES, -FARTHEST - 1, 1, &number), VOZHKELL_TOO_FAR);
    EXPECT(vozhkell_try_percpu_limited_add(handle, FILES, INT64_MIN, 1, &number), VOZHKELL_TOO_FAR);
    EXPECT(vozhkell_try_percpu_limited_add(handle, FILES, FARTHEST, INT64_MIN, &number), VOZHKELL_TOO_MUCH);
    EXPECT(vozhkell_place(counters, 0, "Movable", &number), VOZHKELL_NO_PLACE);
    EXPECT(vozhkell_place(counters, 0, "", &number), VOZHKELL_NO_PLACE);
    EXPECT(vozhkell_counter(counters, 0, "nr_dirty", &number), VOZHKELL_NO_NAME);
    EXPECT(vozhkell_counter(counters, NODE, "area1", &number), VOZHKELL_NO_NAME);
    EXPECT(vozhkell_counter(counters, 0, "", &number), VOZHKELL_NO_NAME);
    EXPECT(vozhkell_item(counters, true, "nr_mlock", &number), VOZHKELL_NO_NAME);
    EXPECT(vozhkell_item(counters, false, "nr_dirty", &number), VOZHKELL_NO_NAME);
    EXPECT(vozhkell_add(handle, FREE, INT64_MIN), VOZHKELL_TOO_MUCH);
    EXPECT(vozhkell_add(handle, FREE, (INT64_C(1) << 48) + 1), VOZHKELL_TOO_MUCH);
    EXPECT(number, 77);
    EXPECT(pages, 77);
    EXPECT(value, 77);
    EXPECT(order.free == 77 && order.order == 77 && balance.free == 77 && balance.zone == 77, true);
    EXPECT(none.at == NULL, true);
}

/* What is begun twice, ended by others, or closed too early. */
static void refuses_owners(vozhkell *counters, vozhkell_handle *handle, vozhkell_control *control)
{
    vozhkell others = VOZHKELL_NONE;
    vozhkell_handle none = VOZHKELL_NONE, second = VOZHKELL_NONE;
    vozhkell_control no_control = VOZHKELL_NONE;
    uint32_t line = 77;

    EXPECT(open_text(counters, MACHINE, &line), VOZHKELL_IN_USE);
    EXPECT(vozhkell_begin(counters, 0, &none), VOZHKELL_HAS_HANDLE);
    EXPECT(vozhkell_begin(counters, 1, handle), VOZHKELL_IN_USE);
    EXPECT(vozhkell_begin_control(counters, &no_control), VOZHKELL_HAS_CONTROL);
    EXPECT(vozhkell_begin_control(counters, control), VOZHKELL_IN_USE);
    EXPECT(vozhkell_close(counters), VOZHKELL_HANDLES_OUT);
    EXPECT(open_text(&others, MACHINE, &line), VOZHKELL_OK);
    EXPECT(vozhkell_end(&others, handle), VOZHKELL_OTHER_COUNTERS);
    EXPECT(vozhkell_end_control(&others, control), VOZHKELL_OTHER_COUNTERS);
    EXPECT(vozhkell_begin(&others, 0, &second), VOZHKELL_OK);
    EXPECT(vozhkell_end(counters, &second), VOZHKELL_OTHER_COUNTERS);
    EXPECT(vozhkell_close(&others), VOZHKELL_HANDLES_OUT);
    EXPECT(vozhkell_end(&others, &second), VOZHKELL_OK);
    EXPECT(vozhkell_end(&others, &second), VOZHKELL_NULL);
    EXPECT(vozhkell_close(&others), VOZHKELL_OK);
    EXPECT(vozhkell_close(&others), VOZHKELL_NULL);
    EXPECT(line, 77);
    EXPECT(none.at == NULL && no_control.at == NULL, true);
}

/* What is found by names, and what the counters show: what was refused has changed nothing. */
static void answers(vozhkell *counters, vozhkell_handle *handle)
{
    vozhkell_answer answer;
    uint32_t number;
    uint64_t pages;

    EXPECT(vozhkell_place(counters, 0, "DMA", &number), VOZHKELL_OK);
    EXPECT(number, 0);
    EXPECT(vozhkell_place(counters, 0, "Normal", &number), VOZHKELL_OK);
    EXPECT(number, NORMAL);
    EXPECT(vozhkell_place(counters, 0, "node", &number), VOZHKELL_OK);
    EXPECT(number, NODE);
    EXPECT(vozhkell_counter(counters, NORMAL, "nr_free_pages", &number), VOZHKELL_OK);
    EXPECT(number, FREE);
    EXPECT(vozhkell_counter(counters, NORMAL, "area1", &number), VOZHKELL_OK);
    EXPECT(number, FREE + 8);
    EXPECT(vozhkell_counter(counters, NODE, "nr_dirty", &number), VOZHKELL_OK);
    EXPECT(number, 39);
    EXPECT(vozhkell_item(counters, false, "area1", &number), VOZHKELL_OK);
    EXPECT(number, 8);
    EXPECT(vozhkell_item(counters, true, "nr_dirty", &number), VOZHKELL_OK);
    EXPECT(number, 23);
    EXPECT(vozhkell_add(handle, FREE, -20), VOZHKELL_OK);
    EXPECT(vozhkell_inc(handle, FREE), VOZHKELL_OK);
    EXPECT(vozhkell_dec(handle, FREE), VOZHKELL_OK);
    EXPECT(vozhkell_value(handle, FREE, &pages), VOZHKELL_OK);
    EXPECT(pages, 200);
    EXPECT(vozhkell_system_value(handle, 0, &pages), VOZHKELL_OK);
    EXPECT(pages, 200);
    EXPECT(vozhkell_snapshot(handle, FREE, &pages), VOZHKELL_OK);
    EXPECT(pages, 180);
    EXPECT(vozhkell_watermark_ok(handle, NORMAL, VOZHKELL_HIGH, 2, &answer), VOZHKELL_OK);
    EXPECT(answer.yes, 1);
    EXPECT(answer.free, 200 - 20 * !answer.fast);
    EXPECT(vozhkell_fold(handle, 0), VOZHKELL_OK);
    EXPECT(vozhkell_value(handle, FREE, &pages), VOZHKELL_OK);
    EXPECT(pages, 180);
    EXPECT(vozhkell_add(handle, FREE, 20), VOZHKELL_OK);
    EXPECT(vozhkell_fold(handle, 0), VOZHKELL_OK);
}

/* Events and percpu counters. `times` is how often this was called before. */
static void counts(vozhkell_handle *handle, vozhkell_control *control, uint64_t times)
{
    uint64_t found = 77;
    uint32_t yes = 77;
    int64_t value = 77;

    EXPECT(vozhkell_count_event(handle, LAST_EVENT, 3), VOZHKELL_OK);
    EXPECT(vozhkell_events(handle, LAST_EVENT, &found), VOZHKELL_OK);
    EXPECT(found, 3 * times + 3);
    EXPECT(vozhkell_control_events(control, LAST_EVENT, &found), VOZHKELL_OK);
    EXPECT(found, 3 * times + 3);
    EXPECT(vozhkell_events(handle, 0, &found), VOZHKELL_OK);
    EXPECT(found, 0);

    EXPECT(vozhkell_try_percpu_add(handle, FILES, BATCH - 1), VOZHKELL_OK);
    EXPECT(vozhkell_percpu_read(handle, FILES, &value), VOZHKELL_OK);
    EXPECT(value, 0);
    EXPECT(vozhkell_try_percpu_sum(handle, FILES, &value), VOZHKELL_OK);
    EXPECT(value, BATCH - 1);
    EXPECT(vozhkell_try_percpu_add(handle, FILES, 1), VOZHKELL_OK);
    EXPECT(vozhkell_percpu_read(handle, FILES, &value), VOZHKELL_OK);
    EXPECT(value, BATCH);
    EXPECT(vozhkell_try_percpu_limited_add(handle, FILES, BATCH, 1, &yes), VOZHKELL_OK);
    EXPECT(yes, 0);
    EXPECT(vozhkell_try_percpu_limited_add(handle, FILES, BATCH + 1, 1, &yes), VOZHKELL_OK);
    EXPECT(yes, 1);
    EXPECT(vozhkell_try_percpu_sync(handle, FILES), VOZHKELL_OK);
    EXPECT(vozhkell_percpu_read(handle, FILES, &value), VOZHKELL_OK);
    EXPECT(value, BATCH + 1);
    EXPECT(vozhkell_try_percpu_add(handle, FILES, -BATCH - 1), VOZHKELL_OK);
    EXPECT(vozhkell_percpu_read(handle, FILES, &value), VOZHKELL_OK);
    EXPECT(value, 0);
}

/* Thresholds, and tests that ask for blocks. Zone Normal has no free block. */
static void controls(vozhkell_handle *handle, vozhkell_control *control)
{
    vozhkell_order_answer order;
    vozhkell_balance balance;
    uint64_t pages;

    EXPECT(vozhkell_set_pressure(control, NODE), VOZHKELL_OK);
    EXPECT(vozhkell_set_normal(control, NODE), VOZHKELL_OK);
    EXPECT(vozhkell_refresh(control), VOZHKELL_OK);
    EXPECT(vozhkell_control_value(control, FREE, &pages), VOZHKELL_OK);
    EXPECT(pages, 200);
    EXPECT(vozhkell_control_snapshot(control, FREE, &pages), VOZHKELL_OK);
    EXPECT(pages, 200);
    EXPECT(vozhkell_zone_ok(handle, NORMAL, VOZHKELL_HIGH, 0, 2, &order), VOZHKELL_OK);
    EXPECT(order.yes, 1);
    EXPECT(order.free, 200);
    EXPECT(order.order, UINT32_MAX);
    EXPECT(vozhkell_zone_ok(handle, NORMAL, VOZHKELL_HIGH, 1, 2, &order), VOZHKELL_OK);
    EXPECT(order.yes, 0);
    EXPECT(order.order, UINT32_MAX);
    EXPECT(vozhkell_balanced(handle, NODE, 0, 2, &balance), VOZHKELL_OK);
    EXPECT(balance.yes, 1);
    EXPECT(balance.zone, NORMAL);
    EXPECT(balance.free, 200);
    EXPECT(vozhkell_balanced(handle, NODE, 1, 2, &balance), VOZHKELL_OK);
    EXPECT(balance.yes, 0);
    EXPECT(balance.zone, 0);
    EXPECT(vozhkell_kswapd_turn(control, NODE, 0, 2, &balance), VOZHKELL_OK);
    EXPECT(balance.yes, 1);
    EXPECT(balance.zone, NORMAL);
}

/* Opens, begins, ends and closes, where one allocation fails. Whether all of it was done. */
static bool whole_life(void)
{
    vozhkell counters = VOZHKELL_NONE;
    vozhkell_handle handle = VOZHKELL_NONE;
    vozhkell_control control = VOZHKELL_NONE;
    uint32_t line = 77;
    int status = open_text(&counters, MACHINE, &line);
    EXPECT(line, 77);
    if (status) {
        EXPECT(status, VOZHKELL_NO_MEMORY);
        EXPECT(counters.at == NULL, true);
        return false;
    }
    int begun = vozhkell_begin(&counters, 1, &handle);
    if (begun) {
        EXPECT(begun, VOZHKELL_NO_MEMORY);
        EXPECT(handle.at == NULL, true);
    } else {
        EXPECT(vozhkell_inc(&handle, FREE), VOZHKELL_OK);
        EXPECT(vozhkell_count_event(&handle, 0, 1), VOZHKELL_OK);
        EXPECT(vozhkell_try_percpu_add(&handle, FILES, BATCH), VOZHKELL_OK);
        EXPECT(vozhkell_end(&counters, &handle), VOZHKELL_OK);
    }
    int controls = vozhkell_begin_control(&counters, &control);
    if (controls) {
        EXPECT(controls, VOZHKELL_NO_MEMORY);
        EXPECT(control.at == NULL, true);
    } else {
        EXPECT(vozhkell_control_fold(&control, 1), VOZHKELL_OK);
        EXPECT(vozhkell_end_control(&counters, &control), VOZHKELL_OK);
    }
    EXPECT(vozhkell_close(&counters), VOZHKELL_OK);
    EXPECT(counters.at == NULL && handle.at == NULL && control.at == NULL, true);
    return !begun && !controls;
}

int main(void)
{
    vozhkell counters = VOZHKELL_NONE;
    vozhkell_handle handle = VOZHKELL_NONE;
    vozhkell_control control = VOZHKELL_NONE;
    uint32_t line = 0;

    refuses_headers();
    EXPECT(open_text(&counters, MACHINE, &line), VOZHKELL_OK);
    EXPECT(vozhkell_begin(&counters, 0, &handle), VOZHKELL_OK);
    EXPECT(vozhkell_begin_control(&counters, &control), VOZHKELL_OK);
    answers(&counters, &handle);
    counts(&handle, &control, 0);
    controls(&handle, &control);
    refuses_nulls(&counters, &handle, &control);
    refuses_numbers(&counters, &handle, &control);
    refuses_owners(&counters, &handle, &control);
    answers(&counters, &handle);
    counts(&handle, &control, 1);
    controls(&handle, &control);
    EXPECT(vozhkell_end(&counters, &handle), VOZHKELL_OK);
    EXPECT(vozhkell_end_control(&counters, &control), VOZHKELL_OK);
    EXPECT(vozhkell_close(&counters), VOZHKELL_OK);

    long tried = 0;
    do {
        allocations = 0;
        failing = ++tried;
    } while (!whole_life());
    printf("%ld allocations failed in turn, %d expectations failed\n", tried - 1, failures);
    return failures ? 1 : 0;
}
