/* Counters of Linux's mm/vmstat.c and lib/percpu_counter.c, from C: of pages, of events, and percpu counters.
 *
 * A program opens counters and begins a handle for each CPU that it has, a thread say. A handle changes and reads the
 * counters of its CPU; it may be passed to another thread. Nothing waits: the functions with `try` in their names
 * answer VOZHKELL_HELD where others hold the lock of a percpu counter, which they do for a few steps. All pages have
 * 4096 bytes.
 *
 * Statuses. Every function answers 0, or one of the negative numbers below. Results are written only where it answers
 * 0, but for the line of vozhkell_open. Where it answers another number nothing has changed.
 *
 * Variables. A `vozhkell`, `vozhkell_handle` or `vozhkell_control` holds one thing on the heap, or nothing: begin each
 * with VOZHKELL_NONE. vozhkell_open and the functions that begin fill one; vozhkell_close and the functions that end
 * empty it. One that holds nothing is refused with VOZHKELL_NULL, one that is to be filled and isn't empty with
 * VOZHKELL_IN_USE.
 *
 * What the caller owes, which nothing tests:
 * - The fields of these variables are the library's: leave them alone, and go on with one copy of each variable.
 * - One call at a time on a variable, and on the counters with their lookups. A variable goes from a thread to another
 *   by the start or the end of a thread, a lock or an atomic of the order memory_order_seq_cst. Calls on different
 *   handles may be made at the same time; so may one on the counters and some on their handles.
 * - A pointer is null, or leads to its type: a text to so many bytes, a name to a text with a byte 0 at its end. A
 *   result lies neither in another argument nor in a variable above. Names and results that are read have been written.
 * - malloc, realloc and free are of one allocator. No function is called from a signal handler, or in the child of a
 *   fork of a process with threads.
 *
 * What is proved: each function behind these (vozhkell_c_..) answers as its contract says, whatever other threads do by
 * handles of their own, in memory that it owns. The contracts stand in crates/vozhkell_c/src. vozhkell.h is C, and not
 * proved: its functions test what no contract can, whether a pointer is null and whether a handle is of the counters
 * that are to end it. */
#ifndef VOZHKELL_H
#define VOZHKELL_H

#include <stdbool.h>
#include <stddef.h>
#include <stdint.h>
#include <string.h>

#ifdef __cplusplus
extern "C" {
#endif

enum vozhkell_status {
    VOZHKELL_OK = 0,
    /* A null pointer, or a variable that holds nothing. */
    VOZHKELL_NULL = -1,
    /* No memory is left. */
    VOZHKELL_NO_MEMORY = -2,
    /* The variable to be filled holds something. */
    VOZHKELL_IN_USE = -3,
    /* Other counters began the handle. */
    VOZHKELL_OTHER_COUNTERS = -4,
    /* A handle hasn't ended. */
    VOZHKELL_HANDLES_OUT = -5,
    /* The machine has no such CPU. */
    VOZHKELL_NOT_ONLINE = -6,
    /* The CPU has a handle. */
    VOZHKELL_HAS_HANDLE = -7,
    /* There is a control handle. */
    VOZHKELL_HAS_CONTROL = -8,
    /* Nothing has the number: a counter, an item, a CPU, a zone, a node, a zone index (0 to 3), an order (0 to 10). */
    VOZHKELL_NO_COUNTER = -9,
    VOZHKELL_NO_ITEM = -10,
    VOZHKELL_NO_CPU = -11,
    VOZHKELL_NO_ZONE = -12,
    VOZHKELL_NO_NODE = -13,
    VOZHKELL_NO_ZONE_INDEX = -14,
    VOZHKELL_NO_ORDER = -15,
    /* The CPU would have changed the counter by more than 2^48 in absolute sum: by pages, counts or amounts. */
    VOZHKELL_TOO_MUCH = -16,
    /* No watermark has the number: it isn't one of enum vozhkell_mark. */
    VOZHKELL_NO_MARK = -17,
    /* The machine has no such zone or node. */
    VOZHKELL_NO_PLACE = -18,
    /* No item has the name. */
    VOZHKELL_NO_NAME = -19,
    /* The text of a header has more than 64 MiB. */
    VOZHKELL_HEADER_TOO_LONG = -20,
    /* Why a line of a header is refused: the causes of docs/FORMATS.md. */
    VOZHKELL_HEADER_BAD_MAGIC = -21,
    VOZHKELL_HEADER_BAD_NUMBER = -22,
    VOZHKELL_HEADER_BAD_CPUS = -23,
    VOZHKELL_HEADER_NO_ZONE = -24,
    VOZHKELL_HEADER_DOUBLED_ZONE = -25,
    VOZHKELL_HEADER_TOO_MANY_ZONES = -26,
    VOZHKELL_HEADER_BAD_MARKS = -27,
    VOZHKELL_HEADER_UNKNOWN_NAME = -28,
    VOZHKELL_HEADER_DOUBLED_COUNTER = -29,
    VOZHKELL_HEADER_BAD_BATCH = -30,
    VOZHKELL_HEADER_MISSING_GO = -31,
    VOZHKELL_HEADER_MALFORMED = -32,
    VOZHKELL_HEADER_TOO_MANY_COUNTERS = -33,
    VOZHKELL_HEADER_LINE_TOO_LONG = -34,
    VOZHKELL_HEADER_DOUBLED_ITEM = -35,
    VOZHKELL_HEADER_TOO_MANY_ITEMS = -36,
    /* A threshold or a drift mark was set 2,000,000 times. */
    VOZHKELL_TOO_OFTEN = -37,
    /* Nothing has the number: an event (0 to 7), a percpu counter that the header declares. */
    VOZHKELL_NO_EVENT = -38,
    VOZHKELL_NO_PERCPU = -39,
    /* A limit is further from 0 than 2^60. */
    VOZHKELL_TOO_FAR = -40,
    /* Others hold the lock of the percpu counter. Nothing has changed: try again. */
    VOZHKELL_HELD = -41
};

/* The watermarks of a zone. */
enum vozhkell_mark { VOZHKELL_MIN = 0, VOZHKELL_LOW = 1, VOZHKELL_HIGH = 2 };

/* Open counters. */
typedef struct vozhkell {
    struct vozhkell_memory *at;
} vozhkell;

/* A handle, which owns a CPU, and the counters that began it. */
typedef struct vozhkell_handle {
    struct vozhkell_memory *at;
    const struct vozhkell_memory *of;
} vozhkell_handle;

/* The control handle, which owns no CPU, and the counters that began it. */
typedef struct vozhkell_control {
    struct vozhkell_memory *at;
    const struct vozhkell_memory *of;
} vozhkell_control;

/* What a variable begins with: it holds nothing. */
#ifdef __cplusplus
#define VOZHKELL_NONE {}
#else
#define VOZHKELL_NONE {0}
#endif

/* What a test of a watermark answers. */
typedef struct vozhkell_answer {
    /* The free pages that the answer rests on. */
    uint64_t free;
    /* 1 where the zone has more than the watermark and the zone's reserve ask for, else 0. */
    uint32_t yes;
    /* 1 where no snapshot was made, else 0. */
    uint32_t fast;
} vozhkell_answer;

/* What a test for a free block answers. */
typedef struct vozhkell_order_answer {
    /* The free pages that it rests on. */
    uint64_t free;
    /* 1 where the zone passed, else 0. */
    uint32_t yes;
    /* 1 where no snapshot of the free pages was made, else 0. */
    uint32_t fast;
    /* The order of the free block that was found, and UINT32_MAX where none was. */
    uint32_t order;
} vozhkell_order_answer;

/* What a balance test of a node, or a turn of kswapd, answers. */
typedef struct vozhkell_balance {
    /* The free pages that the test of the zone rests on which passed, and 0 where none did. */
    uint64_t free;
    /* 1 where the node is balanced, else 0. */
    uint32_t yes;
    /* The first zone that passed, and 0 where none did. */
    uint32_t zone;
} vozhkell_balance;

/* The functions of the library. A variable is passed by its first field. */
int32_t vozhkell_c_open(struct vozhkell_memory **counters, const unsigned char *text, size_t length, uint32_t *line);
int32_t vozhkell_c_close(struct vozhkell_memory **counters);
int32_t vozhkell_c_begin(struct vozhkell_memory **counters, uint32_t cpu, struct vozhkell_memory **handle);
int32_t vozhkell_c_end(struct vozhkell_memory **counters, struct vozhkell_memory **handle);
int32_t vozhkell_c_begin_control(struct vozhkell_memory **counters, struct vozhkell_memory **control);
int32_t vozhkell_c_end_control(struct vozhkell_memory **counters, struct vozhkell_memory **control);
int32_t vozhkell_c_place(struct vozhkell_memory **counters, uint32_t node, const unsigned char *word, size_t length,
                         uint32_t *place);
int32_t vozhkell_c_counter(struct vozhkell_memory **counters, uint32_t place, const unsigned char *name, size_t length,
                           uint32_t *counter);
int32_t vozhkell_c_item(struct vozhkell_memory **counters, bool node, const unsigned char *name, size_t length,
                        uint32_t *item);
int32_t vozhkell_c_add(struct vozhkell_memory **handle, uint32_t counter, int64_t pages);
int32_t vozhkell_c_inc(struct vozhkell_memory **handle, uint32_t counter);
int32_t vozhkell_c_dec(struct vozhkell_memory **handle, uint32_t counter);
int32_t vozhkell_c_fold(struct vozhkell_memory **handle, uint32_t cpu);
int32_t vozhkell_c_value(struct vozhkell_memory **handle, uint32_t counter, uint64_t *pages);
int32_t vozhkell_c_system_value(struct vozhkell_memory **handle, uint32_t item, uint64_t *pages);
int32_t vozhkell_c_snapshot(struct vozhkell_memory **handle, uint32_t counter, uint64_t *pages);
int32_t vozhkell_c_watermark_ok(struct vozhkell_memory **handle, uint32_t zone, uint32_t mark, uint32_t most,
                                vozhkell_answer *answer);
int32_t vozhkell_c_zone_ok(struct vozhkell_memory **handle, uint32_t zone, uint32_t mark, uint32_t order, uint32_t most,
                           vozhkell_order_answer *answer);
int32_t vozhkell_c_balanced(struct vozhkell_memory **handle, uint32_t node, uint32_t order, uint32_t most,
                            vozhkell_balance *answer);
int32_t vozhkell_c_count_event(struct vozhkell_memory **handle, uint32_t event, uint64_t times);
int32_t vozhkell_c_events(struct vozhkell_memory **handle, uint32_t event, uint64_t *times);
int32_t vozhkell_c_percpu_read(struct vozhkell_memory **handle, uint32_t counter, int64_t *value);
int32_t vozhkell_c_try_percpu_add(struct vozhkell_memory **handle, uint32_t counter, int64_t amount);
int32_t vozhkell_c_try_percpu_limited_add(struct vozhkell_memory **handle, uint32_t counter, int64_t limit,
                                          int64_t amount, uint32_t *yes);
int32_t vozhkell_c_try_percpu_sync(struct vozhkell_memory **handle, uint32_t counter);
int32_t vozhkell_c_try_percpu_sum(struct vozhkell_memory **handle, uint32_t counter, int64_t *value);
int32_t vozhkell_c_control_fold(struct vozhkell_memory **control, uint32_t cpu);
int32_t vozhkell_c_control_value(struct vozhkell_memory **control, uint32_t counter, uint64_t *pages);
int32_t vozhkell_c_control_snapshot(struct vozhkell_memory **control, uint32_t counter, uint64_t *pages);
int32_t vozhkell_c_control_events(struct vozhkell_memory **control, uint32_t event, uint64_t *times);
int32_t vozhkell_c_set_pressure(struct vozhkell_memory **control, uint32_t node);
int32_t vozhkell_c_set_normal(struct vozhkell_memory **control, uint32_t node);
int32_t vozhkell_c_refresh(struct vozhkell_memory **control);
int32_t vozhkell_c_kswapd_turn(struct vozhkell_memory **control, uint32_t node, uint32_t order, uint32_t most,
                               vozhkell_balance *answer);

/* Opens counters, with the machine that the header of a trace says (docs/FORMATS.md, "The header"; from `vmtrace` to
 * `go`, what stands below is ignored). Each counter has its `base`, every CPU is online, and thresholds are those of
 * the kernel's calculate_normal_threshold. Where a line of the text is refused, its cause is answered and `line` is its
 * number, counted from 1. */
static inline int vozhkell_open(vozhkell *counters, const char *text, size_t length, uint32_t *line)
{
    if (!counters || !text || !line)
        return VOZHKELL_NULL;
    return vozhkell_c_open(&counters->at, (const unsigned char *)text, length, line);
}

/* Closes counters, and gives their memory back. VOZHKELL_HANDLES_OUT: a handle hasn't ended, and nothing changes. */
static inline int vozhkell_close(vozhkell *counters)
{
    return counters ? vozhkell_c_close(&counters->at) : VOZHKELL_NULL;
}

/* Begins the handle of a CPU. VOZHKELL_NOT_ONLINE, VOZHKELL_HAS_HANDLE. */
static inline int vozhkell_begin(vozhkell *counters, uint32_t cpu, vozhkell_handle *handle)
{
    if (!counters || !handle)
        return VOZHKELL_NULL;
    int status = vozhkell_c_begin(&counters->at, cpu, &handle->at);
    if (!status)
        handle->of = counters->at;
    return status;
}

/* Ends a handle. What its CPU hasn't folded stays, and is found by the next handle of the CPU. VOZHKELL_OTHER_COUNTERS.
 */
static inline int vozhkell_end(vozhkell *counters, vozhkell_handle *handle)
{
    if (!counters || !handle)
        return VOZHKELL_NULL;
    if (counters->at && handle->at && handle->of != counters->at)
        return VOZHKELL_OTHER_COUNTERS;
    return vozhkell_c_end(&counters->at, &handle->at);
}

/* Begins the control handle, of which there is one at a time. VOZHKELL_HAS_CONTROL. */
static inline int vozhkell_begin_control(vozhkell *counters, vozhkell_control *control)
{
    if (!counters || !control)
        return VOZHKELL_NULL;
    int status = vozhkell_c_begin_control(&counters->at, &control->at);
    if (!status)
        control->of = counters->at;
    return status;
}

/* Ends the control handle. VOZHKELL_OTHER_COUNTERS. */
static inline int vozhkell_end_control(vozhkell *counters, vozhkell_control *control)
{
    if (!counters || !control)
        return VOZHKELL_NULL;
    if (counters->at && control->at && control->of != counters->at)
        return VOZHKELL_OTHER_COUNTERS;
    return vozhkell_c_end_control(&counters->at, &control->at);
}

/* The number of a place: of the zone of a node, by `DMA`, `DMA32`, `Normal` or `Movable`, or of the node itself, by
 * `node`. Zones have the numbers from 0, by node and kind. VOZHKELL_NO_PLACE. */
static inline int vozhkell_place(vozhkell *counters, uint32_t node, const char *word, uint32_t *place)
{
    if (!counters || !word || !place)
        return VOZHKELL_NULL;
    return vozhkell_c_place(&counters->at, node, (const unsigned char *)word, strlen(word), place);
}

/* The number of a counter, by its place and the name of its item, as `nr_free_pages`. VOZHKELL_NO_PLACE,
 * VOZHKELL_NO_NAME. */
static inline int vozhkell_counter(vozhkell *counters, uint32_t place, const char *name, uint32_t *counter)
{
    if (!counters || !name || !counter)
        return VOZHKELL_NULL;
    return vozhkell_c_counter(&counters->at, place, (const unsigned char *)name, strlen(name), counter);
}

/* The number of a system-wide value, by the name of an item of the nodes, or else of the zones. VOZHKELL_NO_NAME. */
static inline int vozhkell_item(vozhkell *counters, bool node, const char *name, uint32_t *item)
{
    if (!counters || !name || !item)
        return VOZHKELL_NULL;
    return vozhkell_c_item(&counters->at, node, (const unsigned char *)name, strlen(name), item);
}

/* Changes a counter by a number of pages on the handle's CPU (mod_zone_page_state, mod_node_page_state).
 * VOZHKELL_NO_COUNTER, VOZHKELL_TOO_MUCH. */
static inline int vozhkell_add(vozhkell_handle *handle, uint32_t counter, int64_t pages)
{
    return handle ? vozhkell_c_add(&handle->at, counter, pages) : VOZHKELL_NULL;
}

/* Adds a page to a counter; past the threshold half a threshold more moves to the global value (inc_zone_page_state).
 * VOZHKELL_NO_COUNTER, VOZHKELL_TOO_MUCH. */
static inline int vozhkell_inc(vozhkell_handle *handle, uint32_t counter)
{
    return handle ? vozhkell_c_inc(&handle->at, counter) : VOZHKELL_NULL;
}

/* Takes a page from a counter, likewise (dec_zone_page_state). VOZHKELL_NO_COUNTER, VOZHKELL_TOO_MUCH. */
static inline int vozhkell_dec(vozhkell_handle *handle, uint32_t counter)
{
    return handle ? vozhkell_c_dec(&handle->at, counter) : VOZHKELL_NULL;
}

/* Folds a CPU, the handle's own or another: its differentials move to the global values (cpu_vm_stats_fold).
 * VOZHKELL_NO_CPU. */
static inline int vozhkell_fold(vozhkell_handle *handle, uint32_t cpu)
{
    return handle ? vozhkell_c_fold(&handle->at, cpu) : VOZHKELL_NULL;
}

/* The global value of a counter, in pages, and 0 where it is negative (zone_page_state). What CPUs haven't folded is
 * missing. So it is off from the true total at its load by at most what the CPUs may hide and what calls of others are
 * just moving. A CPU may hide the threshold that stands for it, at most 125 pages, or one that stood before where the
 * CPU hasn't acknowledged the new one by a fold. A call moves at most the size of its change, and 62 pages more where
 * another handle folds its CPU meanwhile; a fold of another CPU that is online moves at most 125. VOZHKELL_NO_COUNTER. */
static inline int vozhkell_value(vozhkell_handle *handle, uint32_t counter, uint64_t *pages)
{
    return handle && pages ? vozhkell_c_value(&handle->at, counter, pages) : VOZHKELL_NULL;
}

/* The system-wide value of an item, in pages, and 0 where it is negative (global_zone_page_state). It is off from the
 * true total at its load by at most what the CPUs may hide of each of the item's counters, together, and what calls of
 * others are just moving, where a fold moves at most 125 pages of each counter. VOZHKELL_NO_ITEM. */
static inline int vozhkell_system_value(vozhkell_handle *handle, uint32_t item, uint64_t *pages)
{
    return handle && pages ? vozhkell_c_system_value(&handle->at, item, pages) : VOZHKELL_NULL;
}

/* The global value with what the CPUs haven't folded, in pages, and 0 where that is negative
 * (zone_page_state_snapshot). Less what dead CPUs hide and what calls are just moving it is the true total at its first
 * load where no differential moves until the CPUs are looked at, and else it is off by as much as these move. In any
 * case it is off by at most what a CPU may hide for each CPU that is online, at most 125 pages, beyond what
 * vozhkell_value is off by. VOZHKELL_NO_COUNTER. */
static inline int vozhkell_snapshot(vozhkell_handle *handle, uint32_t counter, uint64_t *pages)
{
    return handle && pages ? vozhkell_c_snapshot(&handle->at, counter, pages) : VOZHKELL_NULL;
}

/* Tests whether a zone has more free pages than a watermark asks for, for a request that may use the zones of its node
 * up to the zone index `most` (zone_watermark_ok_safe, order 0). Without a snapshot, whatever the answer is, the free
 * pages that it tells are off by no more than vozhkell_value; what the CPUs may hide is at most the zone's slack, which
 * is low - min where the zone has no drift mark, else the mark less high. With one they are off by no more than
 * vozhkell_snapshot. VOZHKELL_NO_MARK, VOZHKELL_NO_ZONE, VOZHKELL_NO_ZONE_INDEX. */
static inline int vozhkell_watermark_ok(vozhkell_handle *handle, uint32_t zone, enum vozhkell_mark mark, uint32_t most,
                                        vozhkell_answer *answer)
{
    return handle && answer ? vozhkell_c_watermark_ok(&handle->at, zone, (uint32_t)mark, most, answer) : VOZHKELL_NULL;
}

/* Tests whether a zone has more free pages than a watermark asks for and, above order 0, a free block of 2^order pages
 * or more (__zone_watermark_ok): blocks are looked for in the zone items area1 to area10 that the header declares. What
 * is true of the free pages is as of vozhkell_watermark_ok. VOZHKELL_NO_MARK, VOZHKELL_NO_ZONE, VOZHKELL_NO_ORDER,
 * VOZHKELL_NO_ZONE_INDEX. */
static inline int vozhkell_zone_ok(vozhkell_handle *handle, uint32_t zone, enum vozhkell_mark mark, uint32_t order,
                                   uint32_t most, vozhkell_order_answer *answer)
{
    return handle && answer ? vozhkell_c_zone_ok(&handle->at, zone, (uint32_t)mark, order, most, answer)
                            : VOZHKELL_NULL;
}

/* Tests whether a node is balanced for an order (pgdat_balanced): its zones up to the zone index `most` are tested in
 * order by their high watermark, up to the first that passes. What is true of the free pages of the zone that it names,
 * and after a no of each zone, is as of vozhkell_watermark_ok. VOZHKELL_NO_NODE, VOZHKELL_NO_ORDER,
 * VOZHKELL_NO_ZONE_INDEX. */
static inline int vozhkell_balanced(vozhkell_handle *handle, uint32_t node, uint32_t order, uint32_t most,
                                    vozhkell_balance *answer)
{
    return handle && answer ? vozhkell_c_balanced(&handle->at, node, order, most, answer) : VOZHKELL_NULL;
}

/* Counts an event (0 to 7, in the order of docs/FORMATS.md) a number of times on the handle's CPU (count_vm_events).
 * VOZHKELL_NO_EVENT, VOZHKELL_TOO_MUCH. */
static inline int vozhkell_count_event(vozhkell_handle *handle, uint32_t event, uint64_t times)
{
    return handle ? vozhkell_c_count_event(&handle->at, event, times) : VOZHKELL_NULL;
}

/* How often the CPUs have counted an event (all_vm_events): at least as often as when the call began, and at most as
 * often as when it ended. VOZHKELL_NO_EVENT. */
static inline int vozhkell_events(vozhkell_handle *handle, uint32_t event, uint64_t *times)
{
    return handle && times ? vozhkell_c_events(&handle->at, event, times) : VOZHKELL_NULL;
}

/* The shared part of a percpu counter (percpu_counter_read). It is off from the true total at its load by at most a
 * batch for each CPU that is present. Percpu counters have the numbers from 0 in the order in which the header declares them.
 * VOZHKELL_NO_PERCPU. */
static inline int vozhkell_percpu_read(vozhkell_handle *handle, uint32_t counter, int64_t *value)
{
    return handle && value ? vozhkell_c_percpu_read(&handle->at, counter, value) : VOZHKELL_NULL;
}

/* Adds an amount to a percpu counter on the handle's CPU (percpu_counter_add_batch). VOZHKELL_NO_PERCPU,
 * VOZHKELL_TOO_MUCH, VOZHKELL_HELD. */
static inline int vozhkell_try_percpu_add(vozhkell_handle *handle, uint32_t counter, int64_t amount)
{
    return handle ? vozhkell_c_try_percpu_add(&handle->at, counter, amount) : VOZHKELL_NULL;
}

/* Adds an amount to a percpu counter where the counter then keeps a limit: the most for a positive amount, the least
 * for a negative one. `yes` is 1 where it does, else 0; either way the amount's size counts for VOZHKELL_TOO_MUCH. A 1
 * keeps the limit if nobody else adds meanwhile; others can push the total past it by at most what they add meanwhile
 * and carried. VOZHKELL_NO_PERCPU, VOZHKELL_TOO_FAR, VOZHKELL_TOO_MUCH, VOZHKELL_HELD. */
static inline int vozhkell_try_percpu_limited_add(vozhkell_handle *handle, uint32_t counter, int64_t limit,
                                                  int64_t amount, uint32_t *yes)
{
    return handle && yes ? vozhkell_c_try_percpu_limited_add(&handle->at, counter, limit, amount, yes) : VOZHKELL_NULL;
}

/* Moves what the handle's CPU holds of a percpu counter to its shared part (percpu_counter_sync). VOZHKELL_NO_PERCPU,
 * VOZHKELL_HELD. */
static inline int vozhkell_try_percpu_sync(vozhkell_handle *handle, uint32_t counter)
{
    return handle ? vozhkell_c_try_percpu_sync(&handle->at, counter) : VOZHKELL_NULL;
}

/* The shared part of a percpu counter and what all CPUs hold (__percpu_counter_sum): the true total when the lock was
 * won, and what each CPU added to its part from there until the call loaded it. VOZHKELL_NO_PERCPU, VOZHKELL_HELD. */
static inline int vozhkell_try_percpu_sum(vozhkell_handle *handle, uint32_t counter, int64_t *value)
{
    return handle && value ? vozhkell_c_try_percpu_sum(&handle->at, counter, value) : VOZHKELL_NULL;
}

/* The value and a snapshot of a counter, and how often an event was counted, by the control handle: as
 * vozhkell_value, vozhkell_snapshot and vozhkell_events. */
static inline int vozhkell_control_value(vozhkell_control *control, uint32_t counter, uint64_t *pages)
{
    return control && pages ? vozhkell_c_control_value(&control->at, counter, pages) : VOZHKELL_NULL;
}

static inline int vozhkell_control_snapshot(vozhkell_control *control, uint32_t counter, uint64_t *pages)
{
    return control && pages ? vozhkell_c_control_snapshot(&control->at, counter, pages) : VOZHKELL_NULL;
}

static inline int vozhkell_control_events(vozhkell_control *control, uint32_t event, uint64_t *times)
{
    return control && times ? vozhkell_c_control_events(&control->at, event, times) : VOZHKELL_NULL;
}

/* Sets the thresholds of a node's zones to those under memory pressure, or back to the normal ones
 * (set_pgdat_percpu_threshold with calculate_pressure_threshold or calculate_normal_threshold), under drift marks that
 * cover them. A zone whose mark is 0 keeps its thresholds. VOZHKELL_NO_NODE, VOZHKELL_TOO_OFTEN. */
static inline int vozhkell_set_pressure(vozhkell_control *control, uint32_t node)
{
    return control ? vozhkell_c_set_pressure(&control->at, node) : VOZHKELL_NULL;
}

static inline int vozhkell_set_normal(vozhkell_control *control, uint32_t node)
{
    return control ? vozhkell_c_set_normal(&control->at, node) : VOZHKELL_NULL;
}

/* Gives each zone its normal threshold, under a drift mark that covers it, and each node the largest of its zones
 * (refresh_zone_stat_thresholds). VOZHKELL_TOO_OFTEN. */
static inline int vozhkell_refresh(vozhkell_control *control)
{
    return control ? vozhkell_c_refresh(&control->at) : VOZHKELL_NULL;
}

/* Takes a turn of kswapd on a node (kswapd_try_to_sleep): it sets pressure thresholds, tests whether the node is
 * balanced, and sets normal thresholds if it is. VOZHKELL_NO_NODE, VOZHKELL_NO_ORDER, VOZHKELL_NO_ZONE_INDEX,
 * VOZHKELL_TOO_OFTEN. */
static inline int vozhkell_kswapd_turn(vozhkell_control *control, uint32_t node, uint32_t order, uint32_t most,
                                       vozhkell_balance *answer)
{
    return control && answer ? vozhkell_c_kswapd_turn(&control->at, node, order, most, answer) : VOZHKELL_NULL;
}

/* Folds a CPU by the control handle. VOZHKELL_NO_CPU. */
static inline int vozhkell_control_fold(vozhkell_control *control, uint32_t cpu)
{
    return control ? vozhkell_c_control_fold(&control->at, cpu) : VOZHKELL_NULL;
}

#ifdef __cplusplus
}
#endif

#endif
