/*
 * grelpicado.h: the diagnostic event manager, for firmware in C or C++.
 *
 * To start: write a configuration (grelpicado_event), give grelpicado_begin your
 * arrays, and make the calls grelpicado_ctx_... on what it filled. They stand at
 * the end of this file, over the sixteen plain calls that do the work.
 *
 * The manager keeps nothing of its own. Everything it works on is lent by the
 * caller for the length of one call:
 *
 *   config     signed 32-bit numbers, 3 in front and 14 for each event, read only
 *   records    4 bytes for each event: status, failed cycles, healing, ageing
 *   debounce   one signed 32-bit number for each event
 *   memory     the number of entries, then the entries, the oldest first: event number (2 bytes, high
 *              first), occurrence count, first frame, latest frame
 *   counts     five unsigned 32-bit numbers: how many entries were admitted, pushed out, aged and
 *              cleared, and how many failures were not stored
 *   board      which of the four cycles run, and the overflow flag, by value
 *
 * The counts are lent to the calls that move them: fresh, report, tick, stop, clear,
 * restore and the diagnostic request. The other calls take no counts.
 *
 * A call takes any numbers, any bytes and any lengths. It answers with a number:
 * 0 when it is done, else one of the refusals below, the first that applies in
 * the order that stands above the call. A refused call has changed no lent
 * byte, and hands back the board that it was given; a status, count or length
 * beside a refusal is 0, a frame part empty, a verdict none, a paint grey.
 *
 * What the caller owes, since no call can test it:
 *   - each pointer points to as many elements as the length beside it says,
 *     readable, and writable where it is not const; it is aligned for its type,
 *     and not NULL even where the length is 0 (the calls on a context take NULL
 *     with length 0 for a frame, an image, a request, a room or a list);
 *   - a block that a call may write overlaps no other block of that call, and
 *     nobody else reads or writes it meanwhile. Blocks that are const in a call
 *     may overlap one another.
 * Two calls may run at the same time if they share no block that either may
 * write; the configuration may be shared.
 *
 * The archive is for x86-64 Linux. Of the C library it needs memcpy and memset
 * alone.
 */
#ifndef GRELPICADO_H
#define GRELPICADO_H

#include <stddef.h>
#include <stdint.h>

#ifdef __cplusplus
extern "C" {
#endif

/*
 * Of this header: 5000 is 5.0. The thousands rise when a program that includes it must be changed
 * or compiled again, the rest when something is added.
 */
#define GRELPICADO_HEADER_VERSION 5000

/* A cast and a check in the words of either language, for this file. */
#ifdef __cplusplus
#define GRELPICADO_SIZE_(number) static_cast<size_t>(number)
#define GRELPICADO_CHECK_(condition, words) static_assert(condition, words)
#else
#define GRELPICADO_SIZE_(number) ((size_t)(number))
#define GRELPICADO_CHECK_(condition, words) _Static_assert(condition, words)
#endif

/* ---- sizes, from n events, M memory places and F frame bytes */

#define GRELPICADO_MAX_EVENTS 512u
#define GRELPICADO_MAX_PLACES 64u
#define GRELPICADO_MAX_FRAME 32u

/* Numbers of the configuration. */
#define GRELPICADO_CONFIG_NUMBERS(n) (GRELPICADO_SIZE_(3) + GRELPICADO_SIZE_(14) * GRELPICADO_SIZE_(n))
/* Bytes of the records. */
#define GRELPICADO_RECORDS_BYTES(n) (GRELPICADO_SIZE_(4) * GRELPICADO_SIZE_(n))
/* Debounce numbers. */
#define GRELPICADO_DEBOUNCE_NUMBERS(n) GRELPICADO_SIZE_(n)
/* Bytes of the memory: an entry has two frames. */
#define GRELPICADO_MEMORY_BYTES(M, F) \
    (GRELPICADO_SIZE_(1) \
        + GRELPICADO_SIZE_(M) * (GRELPICADO_SIZE_(3) + GRELPICADO_SIZE_(2) * GRELPICADO_SIZE_(F)))
/* Counts. */
#define GRELPICADO_COUNTS 5u
/* Bytes of the largest saved image. */
#define GRELPICADO_IMAGE_BYTES(n, M, F) \
    (GRELPICADO_SIZE_(20) + GRELPICADO_RECORDS_BYTES(n) + GRELPICADO_MEMORY_BYTES(M, F) + GRELPICADO_SIZE_(1))
/*
 * Bytes of the largest diagnostic reply: of the list of all events, 3 + 4n, of one event with its
 * two frames, 7 + 2F, or with its details, 11. A constant expression where n and F are.
 */
#define GRELPICADO_REPLY_BYTES(n, F) \
    GRELPICADO_LARGER_(GRELPICADO_SIZE_(3) + GRELPICADO_SIZE_(4) * GRELPICADO_SIZE_(n), \
        GRELPICADO_LARGER_(GRELPICADO_SIZE_(7) + GRELPICADO_SIZE_(2) * GRELPICADO_SIZE_(F), GRELPICADO_SIZE_(11)))
#define GRELPICADO_LARGER_(a, b) ((a) < (b) ? (b) : (a))

/* Numbers of the longest list of grey events. */
#define GRELPICADO_LIST_NUMBERS(n) GRELPICADO_SIZE_(n)

/* An array by its name, not by a pointer to it, as a call takes it: the pointer and how many elements. */
#define GRELPICADO_LEND(array) (array), sizeof (array) / sizeof (array)[0]

/* ---- the configuration */

/*
 * Three numbers in front, then fourteen for each event, event 0 first. Any other length, or any
 * number that this table does not allow, and every call answers GRELPICADO_BAD_CONFIGURATION.
 *
 *      in front       meaning                                        allowed
 *      events         n, how many events there are                   1 to 512
 *      places         M, how many entries the memory holds           1 to 64
 *      frame_bytes    F, how many bytes a frame has                  0 to 32
 *
 *   #  of an event    meaning                                        allowed
 *   1  trouble_code   the code that a tester knows it by             1 to 16,777,214, each greater than
 *                                                                    that of the event before
 *   2  priority       1 the most important: who gives way in a       1 to 255
 *                     full memory
 *   3  cycle          the cycle in which its test runs               0 to 3
 *   4  debounce_kind  who debounces: 0 the test itself (internal),   0 to 2
 *                     1 a counter, 2 time
 *   5  p              P: passed when counted down to it, or after    kinds 1, 2: -30,000 to -1; kind 0: 0
 *                     -P ms of pre-passed
 *   6  q              Q: failed when counted up to it, or after      kinds 1, 2: 1 to 30,000; kind 0: 0
 *                     Q ms of pre-failed
 *   7  up             what a pre-failed adds                         kind 1: 1 to 30,000; else 0
 *   8  down           what a pre-passed takes off                    kind 1: 1 to 30,000; else 0
 *   9  jumps          start from 0 when the count turns: 1 up,       kind 1: 0 to 3; else 0
 *                     2 down, 3 both
 *  10  confirm        C: in how many runs it must fail to be         1 to 255
 *                     confirmed
 *  11  heal           H: after how many clean runs it warns no       1 to 255
 *                     more
 *  12  age            A: after how many clean runs it is confirmed   1 to 255
 *                     no more, and its entry leaves
 *  13  indicator      whether it warns when confirmed: 1 yes, 0 no   0 or 1
 *  14  needed         the set of conditions without which it is      0 to 2,147,483,647
 *                     not tested, 0 for none
 *
 * A run is clean for an event if its test was completed in it and never failed.
 */
typedef struct grelpicado_event {
    int32_t trouble_code;
    int32_t priority;
    int32_t cycle;         /* GRELPICADO_CYCLE_... */
    int32_t debounce_kind; /* GRELPICADO_KIND_... */
    int32_t p;
    int32_t q;
    int32_t up;
    int32_t down;
    int32_t jumps;         /* GRELPICADO_JUMP_... */
    int32_t confirm;
    int32_t heal;
    int32_t age;
    int32_t indicator;
    int32_t needed;        /* GRELPICADO_CONDITION(k), or several with | between them */
} grelpicado_event;

#define GRELPICADO_MAX_TROUBLE_CODE 0xFFFFFE

#define GRELPICADO_CYCLES 4
#define GRELPICADO_CYCLE_0 0
#define GRELPICADO_CYCLE_1 1
#define GRELPICADO_CYCLE_2 2
#define GRELPICADO_CYCLE_3 3

#define GRELPICADO_KIND_INTERNAL 0
#define GRELPICADO_KIND_COUNTER 1
#define GRELPICADO_KIND_TIME 2

#define GRELPICADO_JUMP_NONE 0
#define GRELPICADO_JUMP_UP 1
#define GRELPICADO_JUMP_DOWN 2
#define GRELPICADO_JUMP_BOTH 3

/*
 * There are 31 conditions, 0 to 30. What each stands for, as that the pump is on, is the caller's to
 * say. A set of them has a bit for each: the set that an event needs, and the set that is present,
 * of which bit 31 is ignored. k is 0 to 30; cast the set to int32_t where `needed` gets one that is
 * known at run time only.
 */
#define GRELPICADO_CONDITIONS 31
#define GRELPICADO_CONDITION(k) (1u << (k))
#define GRELPICADO_ALL_PRESENT 0x7FFFFFFFu

/*
 * The type of a whole configuration of n events, laid out as the numbers that a call takes:
 *
 *     static const GRELPICADO_CONFIG(1) config = {
 *         1, 4, 0,
 *         {{0x1234, 1, GRELPICADO_CYCLE_0, GRELPICADO_KIND_INTERNAL, 0, 0, 0, 0, 0, 1, 1, 1, 1, 0}},
 *     };
 *
 * In C the fields may be named, as .trouble_code = 0x1234; in C++ n may not be a constant with the
 * name of a field, as events. Its pointer for a call is &config.events.
 */
#define GRELPICADO_CONFIG(n)                \
    struct {                                \
        int32_t events;                     \
        int32_t places;                     \
        int32_t frame_bytes;                \
        grelpicado_event event[n];          \
    }

/* Such a configuration as a call takes it: the pointer and how many numbers. */
#define GRELPICADO_LEND_CONFIG(config) &(config).events, sizeof (config) / sizeof (config).events

/* ---- the numbers a call answers with */

#define GRELPICADO_DONE 0
#define GRELPICADO_BAD_ARGUMENT 1       /* report code above 3; tick above 60,000; empty request */
#define GRELPICADO_BAD_CONFIGURATION 2  /* the configuration breaks its table */
#define GRELPICADO_BAD_STATE 3          /* wrong length of a block; state not well formed */
#define GRELPICADO_NO_SUCH 4            /* no such event, cycle or trouble code */
#define GRELPICADO_WRONG_CYCLE_STATE 5  /* report, stop: stopped; start: running; save: any running */
#define GRELPICADO_NO_PRE_RESULT 6      /* a pre-result reported to an event of kind 0 */
#define GRELPICADO_ROOM_TOO_SMALL 7     /* the output room, or the list, is too small */
#define GRELPICADO_BAD_IMAGE 8          /* the image is not acceptable */
#define GRELPICADO_WRONG_FRAME 9        /* the lent frame is not F bytes */
#define GRELPICADO_NO_ENTRY 10          /* the event has no memory entry */
#define GRELPICADO_MISSING_CONDITION 11 /* a condition that the event needs is not present */
#define GRELPICADO_COUNTS_FULL 12       /* the call would carry a count past 4,294,967,295 */

/* ---- the status byte, ISO 14229-1 */

#define GRELPICADO_TEST_FAILED 0x01u
#define GRELPICADO_TEST_FAILED_THIS_OPERATION_CYCLE 0x02u
#define GRELPICADO_PENDING 0x04u
#define GRELPICADO_CONFIRMED 0x08u
#define GRELPICADO_TEST_NOT_COMPLETED_SINCE_LAST_CLEAR 0x10u
#define GRELPICADO_TEST_FAILED_SINCE_LAST_CLEAR 0x20u
#define GRELPICADO_TEST_NOT_COMPLETED_THIS_OPERATION_CYCLE 0x40u
#define GRELPICADO_WARNING_INDICATOR_REQUESTED 0x80u
/* The status of an event after fresh or clear. */
#define GRELPICADO_FRESH_STATUS 0x50u

/* ---- the codes of a report, and its verdict */

#define GRELPICADO_PASSED 0u
#define GRELPICADO_FAILED 1u
#define GRELPICADO_PRE_PASSED 2u
#define GRELPICADO_PRE_FAILED 3u

#define GRELPICADO_VERDICT_NONE 0
#define GRELPICADO_VERDICT_PASSED 1
#define GRELPICADO_VERDICT_FAILED 2

/* ---- the paint of an event */

#define GRELPICADO_PAINT_GREY 0 /* its cycle is stopped, or no result lies in this run after any clear */
#define GRELPICADO_PAINT_RED 1  /* else, its last result is failed */
#define GRELPICADO_PAINT_LIVE 2 /* else: its last result is passed */

/* ---- which frame of an entry; any other number is the latest too */

#define GRELPICADO_FIRST 0  /* that of the failure which made the entry; of an entry that was restored from an
                               image of edition 1, the one that the image had, its latest by then */
#define GRELPICADO_LATEST 1 /* that of its latest fresh failure; after one failure both are the same */

/* ---- the counts, by their places in the slice of five */

/*
 * How many since the fresh state or the restore, 32 bits each. While calls alone change them, as many
 * entries were admitted as are in memory, were pushed out, aged and were cleared. A fresh failure of an
 * event that has an entry admits none. Fresh zeroes all five; restore sets the first to the entries
 * present and the rest to 0. They are in no image, and a call only adds to them: the caller may set
 * them. A call that would carry one past 4,294,967,295 is refused whole, with 12.
 */
#define GRELPICADO_COUNT_ADMITTED 0   /* entries stored anew */
#define GRELPICADO_COUNT_PUSHED_OUT 1 /* entries that gave way to another */
#define GRELPICADO_COUNT_AGED 2       /* entries that left at a stop, since their event aged */
#define GRELPICADO_COUNT_CLEARED 3    /* entries that left at a clear, or at a request of service 14h */
#define GRELPICADO_COUNT_NOT_STORED 4 /* fresh failures that found no place */

/* The trouble code that clears all events. */
#define GRELPICADO_ALL_CODES 0xFFFFFFu

/* The longest tick, in milliseconds. */
#define GRELPICADO_MAX_TICK 60000u

/* The lowest missing condition where none is missing. */
#define GRELPICADO_NONE_MISSING 32u

/* ---- what crosses by value */

/*
 * Each byte of the board is a flag: 0 no, anything else yes. A call that is
 * done hands back 0 and 1 only; a refused one the bytes that it was given.
 */
typedef struct grelpicado_board {
    uint8_t running[4]; /* whether cycle 0, 1, 2, 3 runs */
    uint8_t overflow;   /* whether a failure was not stored since the last clear of all */
} grelpicado_board;

typedef struct grelpicado_answer {
    uint8_t number;
    grelpicado_board board;
} grelpicado_answer;

typedef struct grelpicado_report_answer {
    uint8_t number;
    uint8_t verdict; /* GRELPICADO_VERDICT_... */
    grelpicado_board board;
} grelpicado_report_answer;

typedef struct grelpicado_status_answer {
    uint8_t number;
    uint8_t status;
} grelpicado_status_answer;

/* The fault detection counter, -128 to 127; 0 beside a refusal. */
typedef struct grelpicado_counter_answer {
    uint8_t number;
    int8_t counter;
} grelpicado_counter_answer;

/* How many needed conditions are missing, and the lowest of their numbers; 0 and 0 beside a refusal, so
 * look at the number first. */
typedef struct grelpicado_missing_answer {
    uint8_t number;
    uint32_t count;
    uint32_t lowest; /* GRELPICADO_NONE_MISSING where the count is 0 */
} grelpicado_missing_answer;

/* counts[c][b]: how many events of cycle c have bit b of their status set; all 0 beside a refusal. */
typedef struct grelpicado_table_answer {
    uint8_t number;
    uint16_t counts[GRELPICADO_CYCLES][8];
} grelpicado_table_answer;

/* Grey beside a refusal. */
typedef struct grelpicado_paint_answer {
    uint8_t number;
    uint8_t paint; /* GRELPICADO_PAINT_... */
} grelpicado_paint_answer;

/* The frame is memory[start] to memory[start + length - 1], in the caller's own block. */
typedef struct grelpicado_frame_answer {
    uint8_t number;
    size_t start;
    size_t length;
} grelpicado_frame_answer;

/* The first length bytes of the room, or numbers of the list, were written, and no other. */
typedef struct grelpicado_length_answer {
    uint8_t number;
    size_t length;
} grelpicado_length_answer;

typedef struct grelpicado_request_answer {
    uint8_t number;
    size_t length;
    grelpicado_board board;
} grelpicado_request_answer;

/* ---- the sixteen calls */

/*
 * The fresh state: every status 50h, no entry, cycles stopped, overflow clear, all counts 0.
 * Refusals, in order: 2, 3 (the lengths alone, that of the counts too; what they hold may be anything).
 */
grelpicado_answer grelpicado_fresh(
    const int32_t *config, size_t config_length,
    uint8_t *records, size_t records_length,
    int32_t *debounce, size_t debounce_length,
    uint8_t *memory, size_t memory_length,
    grelpicado_board board,
    uint32_t *counts, size_t counts_length);

/*
 * A test's result for one event: code GRELPICADO_PASSED to GRELPICADO_PRE_FAILED, the frame, of F bytes,
 * that is stored should this be a fresh failure, and the set of conditions that are present:
 * GRELPICADO_ALL_PRESENT where there are none to watch.
 * Refusals, in order: 2, 3, 4 (event), 1 (code), 6, 9, 5 (cycle stopped), 11 (one it needs is missing),
 * 12 (a count).
 */
grelpicado_report_answer grelpicado_report(
    const int32_t *config, size_t config_length,
    uint8_t *records, size_t records_length,
    int32_t *debounce, size_t debounce_length,
    uint8_t *memory, size_t memory_length,
    grelpicado_board board,
    size_t event, uint32_t code,
    const uint8_t *frame, size_t frame_length,
    uint32_t present,
    uint32_t *counts, size_t counts_length);

/*
 * ms milliseconds have passed, 0 to 60,000, with these conditions present. Every event that fails by it
 * takes the frame. An event that needs a condition which is not among them keeps its debounce number.
 * Refusals, in order: 2, 3, 1 (ms), 9, 12 (a count; then none of its events has moved).
 */
grelpicado_answer grelpicado_tick(
    const int32_t *config, size_t config_length,
    uint8_t *records, size_t records_length,
    int32_t *debounce, size_t debounce_length,
    uint8_t *memory, size_t memory_length,
    grelpicado_board board,
    uint32_t ms,
    const uint8_t *frame, size_t frame_length,
    uint32_t present,
    uint32_t *counts, size_t counts_length);

/*
 * Starts a cycle, 0 to 3.
 * Refusals, in order: 2, 3, 4 (cycle), 5 (it runs).
 */
grelpicado_answer grelpicado_start(
    const int32_t *config, size_t config_length,
    uint8_t *records, size_t records_length,
    const int32_t *debounce, size_t debounce_length,
    const uint8_t *memory, size_t memory_length,
    grelpicado_board board,
    uint32_t cycle);

/*
 * Stops a cycle, 0 to 3.
 * Refusals, in order: 2, 3, 4 (cycle), 5 (it is stopped), 12 (a count).
 */
grelpicado_answer grelpicado_stop(
    const int32_t *config, size_t config_length,
    uint8_t *records, size_t records_length,
    int32_t *debounce, size_t debounce_length,
    uint8_t *memory, size_t memory_length,
    grelpicado_board board,
    uint32_t cycle,
    uint32_t *counts, size_t counts_length);

/*
 * Clears the event of a trouble code, or all for GRELPICADO_ALL_CODES, in any cycle state.
 * Refusals, in order: 2, 3, 4 (code), 12 (a count).
 */
grelpicado_answer grelpicado_clear(
    const int32_t *config, size_t config_length,
    uint8_t *records, size_t records_length,
    int32_t *debounce, size_t debounce_length,
    uint8_t *memory, size_t memory_length,
    grelpicado_board board,
    uint32_t code,
    uint32_t *counts, size_t counts_length);

/*
 * The status byte of an event. Writes nothing.
 * Refusals, in order: 2, 3, 4 (event).
 */
grelpicado_status_answer grelpicado_read_status(
    const int32_t *config, size_t config_length,
    const uint8_t *records, size_t records_length,
    const int32_t *debounce, size_t debounce_length,
    const uint8_t *memory, size_t memory_length,
    grelpicado_board board,
    size_t event);

/*
 * How near an event is to a fault: the fault detection counter. Of kinds 1 and 2 it is 127 exactly
 * where the debounce number is at its top, -128 exactly at its bottom, and never falls as it rises; a
 * stop makes it 0. Of kind 0: 127 while the last result is failed, 0 while there is none since the
 * last clear, else -128. Writes nothing.
 * Refusals, in order: 2, 3, 4 (event).
 */
grelpicado_counter_answer grelpicado_read_counter(
    const int32_t *config, size_t config_length,
    const uint8_t *records, size_t records_length,
    const int32_t *debounce, size_t debounce_length,
    const uint8_t *memory, size_t memory_length,
    grelpicado_board board,
    size_t event);

/*
 * What keeps an event from being tested: how many of the conditions that it needs are missing from those
 * present, and the lowest of their numbers, 32 where none is. Writes nothing. While any is missing the
 * event's status, paint and counter stay as they were, live too: paint its value grey.
 * Refusals, in order: 2, 3, 4 (event).
 */
grelpicado_missing_answer grelpicado_read_missing(
    const int32_t *config, size_t config_length,
    const uint8_t *records, size_t records_length,
    const int32_t *debounce, size_t debounce_length,
    const uint8_t *memory, size_t memory_length,
    grelpicado_board board,
    size_t event,
    uint32_t present);

/*
 * For each of the four cycles and each of the eight bits of the status, how many events of that cycle
 * have the bit set. Writes nothing.
 * Refusals, in order: 2, 3.
 */
grelpicado_table_answer grelpicado_read_table(
    const int32_t *config, size_t config_length,
    const uint8_t *records, size_t records_length,
    const int32_t *debounce, size_t debounce_length,
    const uint8_t *memory, size_t memory_length,
    grelpicado_board board);

/*
 * How a panel paints what an event tests: grey if bit 6 of the status is set or its cycle is stopped,
 * else red if bit 0 is set, else live. Where blocks and board were changed by these calls only, it is
 * live exactly when its cycle runs, a result lies in the present run after any clear, and the last one
 * is passed. Writes nothing.
 * Refusals, in order: 2, 3, 4 (event).
 */
grelpicado_paint_answer grelpicado_read_paint(
    const int32_t *config, size_t config_length,
    const uint8_t *records, size_t records_length,
    const int32_t *debounce, size_t debounce_length,
    const uint8_t *memory, size_t memory_length,
    grelpicado_board board,
    size_t event);

/*
 * Writes the numbers of all events that are painted grey to the front of the list, rising: at most
 * GRELPICADO_LIST_NUMBERS(n).
 * Refusals, in order: 2, 3, 7 (the list is too short; length 0 is enough where none is grey).
 */
grelpicado_length_answer grelpicado_list_grey(
    const int32_t *config, size_t config_length,
    const uint8_t *records, size_t records_length,
    const int32_t *debounce, size_t debounce_length,
    const uint8_t *memory, size_t memory_length,
    grelpicado_board board,
    uint16_t *list, size_t list_length);

/*
 * Where a stored frame of an event lies in the memory block: the first where `which` is GRELPICADO_FIRST,
 * 0, else the latest. Writes nothing.
 * Refusals, in order: 2, 3, 4 (event), 10.
 */
grelpicado_frame_answer grelpicado_read_frame(
    const int32_t *config, size_t config_length,
    const uint8_t *records, size_t records_length,
    const int32_t *debounce, size_t debounce_length,
    const uint8_t *memory, size_t memory_length,
    grelpicado_board board,
    size_t event,
    uint32_t which);

/*
 * Saves the state into a room: at most GRELPICADO_IMAGE_BYTES(n, M, F) bytes. It writes edition 2.
 * Refusals, in order: 2, 3, 5 (any cycle runs), 7.
 */
grelpicado_length_answer grelpicado_save(
    const int32_t *config, size_t config_length,
    const uint8_t *records, size_t records_length,
    const int32_t *debounce, size_t debounce_length,
    const uint8_t *memory, size_t memory_length,
    grelpicado_board board,
    uint8_t *room, size_t room_length);

/*
 * Makes the state that an image was saved of, all cycles stopped. The blocks may hold anything. Of an
 * image of edition 1, whose entries have one frame, that frame becomes the first and the latest. The
 * entries admitted are those present, the other counts 0.
 * Refusals, in order: 2, 3 (the lengths alone, that of the counts too), 8.
 */
grelpicado_answer grelpicado_restore(
    const int32_t *config, size_t config_length,
    uint8_t *records, size_t records_length,
    int32_t *debounce, size_t debounce_length,
    uint8_t *memory, size_t memory_length,
    grelpicado_board board,
    const uint8_t *image, size_t image_length,
    uint32_t *counts, size_t counts_length);

/*
 * Answers a diagnostic request, services 19h and 14h. A negative reply (7Fh, service, code) is
 * written with number 0. A suppressed positive reply has length 0. A room of
 * GRELPICADO_REPLY_BYTES(n, F) bytes holds every reply.
 * Refusals, in order: 2, 3, 7 (the room is below 3 bytes), 1 (the request is empty), 12 (a count, of a
 * request that would clear; any other leaves the counts).
 */
grelpicado_request_answer grelpicado_request(
    const int32_t *config, size_t config_length,
    uint8_t *records, size_t records_length,
    int32_t *debounce, size_t debounce_length,
    uint8_t *memory, size_t memory_length,
    grelpicado_board board,
    const uint8_t *request, size_t request_length,
    uint8_t *room, size_t room_length,
    uint32_t *counts, size_t counts_length);

/* ---- replies over CAN: ISO 15765-2, 8-byte frames, normal addressing */

/*
 * A sender and a receiver stand on nothing of the manager: a message is any bytes. They are values that
 * the caller keeps, an idle one all zeros; the next call takes what the last one handed back. The
 * driver sends and receives the frames, with their identifiers, and watches the time: docs/CAN.md.
 *
 * A call takes any sender, receiver, message, room and frame. A sender or receiver that no sequence of
 * calls makes is answered as if no frame were due. What is said of calls at the top of this file is
 * said of the manager's.
 */
#define GRELPICADO_CAN_REFUSED 13       /* the number for all that a sender or a receiver refuses */
#define GRELPICADO_CAN_LONGEST 4095u    /* bytes of the longest message; the shortest has 1 */

typedef struct grelpicado_can_frame {
    uint8_t bytes[8];
} grelpicado_can_frame;

#define GRELPICADO_CAN_IDLE 0       /* of a sender or a receiver; so is any state that is not named here */
#define GRELPICADO_CAN_WAITING 1    /* of a sender: flow control is due */
#define GRELPICADO_CAN_RUNNING 2    /* of a sender: frames are due */
#define GRELPICADO_CAN_COLLECTING 1 /* of a receiver: frames are due */

typedef struct grelpicado_can_sender {
    uint8_t state; /* GRELPICADO_CAN_IDLE, _WAITING, _RUNNING */
    uint8_t left;  /* frames until flow control is due, 0 for no limit */
    size_t next;   /* the number of the next consecutive frame, from 1 on */
} grelpicado_can_sender;

typedef struct grelpicado_can_receiver {
    uint8_t state; /* GRELPICADO_CAN_IDLE, _COLLECTING */
    uint8_t left;  /* frames until flow control is sent, 0 for no limit */
    size_t next;   /* the number of the next consecutive frame, from 1 on */
    size_t size;   /* bytes of the message */
} grelpicado_can_receiver;

/* On 13 there is no frame to send, and the caller keeps the sender that it has. */
typedef struct grelpicado_can_start_answer {
    uint8_t number;
    grelpicado_can_frame frame;
    grelpicado_can_sender sender;
} grelpicado_can_start_answer;

#define GRELPICADO_CAN_GO 1      /* frames are due, this separation time apart */
#define GRELPICADO_CAN_WAIT 2    /* more flow control is to come */
#define GRELPICADO_CAN_ABORTED 3 /* the message is given up */

/* On 13 it says 0, and the sender is the one that was given. */
typedef struct grelpicado_can_flow_answer {
    uint8_t number;
    uint8_t says; /* GRELPICADO_CAN_GO, _WAIT, _ABORTED */
    uint8_t separation; /* of GRELPICADO_CAN_GO: the byte as it was received */
    grelpicado_can_sender sender;
} grelpicado_can_flow_answer;

/* That nothing is due is no refusal: the sender is then the one that was given. */
typedef struct grelpicado_can_next_answer {
    uint8_t due; /* 1: send the frame; 0: nothing is due */
    grelpicado_can_frame frame;
    grelpicado_can_sender sender;
} grelpicado_can_next_answer;

#define GRELPICADO_CAN_GOING 1    /* more frames are to come */
#define GRELPICADO_CAN_CONTROL 2  /* send this flow control */
#define GRELPICADO_CAN_COMPLETE 3 /* a message of this length stands at the front of the room */

/* On 13 it says 0, nothing was written, and the receiver is idle: a message under way is dropped. */
typedef struct grelpicado_can_take_answer {
    uint8_t number;
    uint8_t says; /* GRELPICADO_CAN_GOING, _CONTROL, _COMPLETE */
    grelpicado_can_frame frame;
    size_t length;
    grelpicado_can_receiver receiver;
} grelpicado_can_take_answer;

/*
 * Begins a message: the single or the first frame, which is to be sent, and the sender. A message
 * under way is given up.
 * Refused: a length outside 1 to 4,095.
 */
grelpicado_can_start_answer grelpicado_can_start(
    const uint8_t *message, size_t message_length);

/*
 * A frame that was received as flow control: 30h lets the sender go on, 31h waits, any other first
 * byte aborts.
 * Refused: in any state where no flow control is due.
 */
grelpicado_can_flow_answer grelpicado_can_flow(
    grelpicado_can_sender sender,
    grelpicado_can_frame frame);

/*
 * The next consecutive frame of the message, which is the one that was started, if one is due.
 */
grelpicado_can_next_answer grelpicado_can_next(
    grelpicado_can_sender sender,
    const uint8_t *message, size_t message_length);

/*
 * A frame that was received, but for flow control. Its bytes go into the room, which must be the same
 * one until the message is complete. block and separation are what flow control is to tell the sender:
 * how many frames before the next flow control, 0 for no limit, and the separation time.
 * Refused: a wrong number of the frame, a single frame's length of 0 or above 7, a first frame's below
 * 8, a length above the room, any frame that is not due.
 */
grelpicado_can_take_answer grelpicado_can_take(
    grelpicado_can_receiver receiver,
    uint8_t *room, size_t room_length,
    uint8_t block,
    uint8_t separation,
    grelpicado_can_frame frame);

/* ---- the context: the same calls on what one object holds */

/*
 * All that the calls are lent, and the board that the last call handed back. grelpicado_begin fills
 * it; it holds pointers into your arrays, which must live as long as it does.
 *
 * Each function grelpicado_ctx_x makes the plain call grelpicado_x, with its refusals in its order,
 * keeps the board that it hands back, and answers the rest: the number where there is nothing else.
 * A refused call hands back the board it was given, so it changes nothing here either.
 *
 * A frame, an image, a request, a room or a list of length 0 may be NULL: the plain call is then lent an
 * address of this file's own.
 */
typedef struct grelpicado {
    const int32_t *config;
    size_t config_length; /* numbers */
    uint8_t *records;
    size_t records_length; /* bytes */
    int32_t *debounce;
    size_t debounce_length; /* numbers */
    uint8_t *memory;
    size_t memory_length; /* bytes */
    uint32_t *counts;
    size_t counts_length; /* numbers */
    grelpicado_board board;
} grelpicado;

typedef struct grelpicado_verdict_answer {
    uint8_t number;
    uint8_t verdict; /* GRELPICADO_VERDICT_... */
} grelpicado_verdict_answer;

/* What every plain call is lent, in its order. */
#define GRELPICADO_LENT_(manager)                       \
    (manager)->config, (manager)->config_length,        \
    (manager)->records, (manager)->records_length,      \
    (manager)->debounce, (manager)->debounce_length,    \
    (manager)->memory, (manager)->memory_length,        \
    (manager)->board

/* And, behind a call's own arguments, where it moves the counts. */
#define GRELPICADO_COUNTS_(manager) (manager)->counts, (manager)->counts_length

/* Keeps the board, answers the number. */
static inline uint8_t grelpicado_keep_(grelpicado *manager, grelpicado_answer answer)
{
    manager->board = answer.board;
    return answer.number;
}

/* The bytes, or an address for none. */
static inline const uint8_t *grelpicado_bytes_(const uint8_t *bytes, size_t length)
{
    static const uint8_t none = 0;
    return length == 0 ? &none : bytes;
}

/* The fresh state. The blocks and the counts may hold anything. */
static inline uint8_t grelpicado_ctx_fresh(grelpicado *manager)
{
    return grelpicado_keep_(manager, grelpicado_fresh(GRELPICADO_LENT_(manager), GRELPICADO_COUNTS_(manager)));
}

/*
 * Fills the context from the caller's arrays and makes the fresh state. Every length is the number of
 * elements: GRELPICADO_LEND and GRELPICADO_LEND_CONFIG write pointer and length of an array.
 * Refusals, in order: 2, 3 (the lengths alone).
 */
static inline uint8_t grelpicado_begin(
    grelpicado *manager,
    const int32_t *config, size_t config_length,
    uint8_t *records, size_t records_length,
    int32_t *debounce, size_t debounce_length,
    uint8_t *memory, size_t memory_length,
    uint32_t *counts, size_t counts_length)
{
    const grelpicado_board stopped = {{0, 0, 0, 0}, 0};
    manager->config = config;
    manager->config_length = config_length;
    manager->records = records;
    manager->records_length = records_length;
    manager->debounce = debounce;
    manager->debounce_length = debounce_length;
    manager->memory = memory;
    manager->memory_length = memory_length;
    manager->counts = counts;
    manager->counts_length = counts_length;
    manager->board = stopped;
    return grelpicado_ctx_fresh(manager);
}

/*
 * A test's result for one event, with the frame of F bytes and the conditions that are present.
 * Refusals: 2, 3, 4, 1, 6, 9, 5, 11, 12.
 */
static inline grelpicado_verdict_answer grelpicado_ctx_report(
    grelpicado *manager, size_t event, uint32_t code, const uint8_t *frame, size_t frame_length, uint32_t present)
{
    const grelpicado_report_answer answer = grelpicado_report(
        GRELPICADO_LENT_(manager), event, code, grelpicado_bytes_(frame, frame_length), frame_length, present,
        GRELPICADO_COUNTS_(manager));
    const grelpicado_verdict_answer rest = {answer.number, answer.verdict};
    manager->board = answer.board;
    return rest;
}

/* So many milliseconds have passed, with these conditions present. Refusals: 2, 3, 1, 9, 12. */
static inline uint8_t grelpicado_ctx_tick(
    grelpicado *manager, uint32_t ms, const uint8_t *frame, size_t frame_length, uint32_t present)
{
    return grelpicado_keep_(manager, grelpicado_tick(
        GRELPICADO_LENT_(manager), ms, grelpicado_bytes_(frame, frame_length), frame_length, present,
        GRELPICADO_COUNTS_(manager)));
}

/* Starts a cycle. Refusals: 2, 3, 4, 5. */
static inline uint8_t grelpicado_ctx_start(grelpicado *manager, uint32_t cycle)
{
    return grelpicado_keep_(manager, grelpicado_start(GRELPICADO_LENT_(manager), cycle));
}

/* Stops a cycle. Refusals: 2, 3, 4, 5, 12. */
static inline uint8_t grelpicado_ctx_stop(grelpicado *manager, uint32_t cycle)
{
    return grelpicado_keep_(manager, grelpicado_stop(GRELPICADO_LENT_(manager), cycle, GRELPICADO_COUNTS_(manager)));
}

/* Clears the event of a trouble code, or all for GRELPICADO_ALL_CODES. Refusals: 2, 3, 4, 12. */
static inline uint8_t grelpicado_ctx_clear(grelpicado *manager, uint32_t code)
{
    return grelpicado_keep_(manager, grelpicado_clear(GRELPICADO_LENT_(manager), code, GRELPICADO_COUNTS_(manager)));
}

/* The status byte of an event. Refusals: 2, 3, 4. */
static inline grelpicado_status_answer grelpicado_ctx_read_status(const grelpicado *manager, size_t event)
{
    return grelpicado_read_status(GRELPICADO_LENT_(manager), event);
}

/* How near an event is to a fault, -128 to 127. Refusals: 2, 3, 4. */
static inline grelpicado_counter_answer grelpicado_ctx_read_counter(const grelpicado *manager, size_t event)
{
    return grelpicado_read_counter(GRELPICADO_LENT_(manager), event);
}

/* How many conditions that an event needs are missing, and the lowest. Refusals: 2, 3, 4. */
static inline grelpicado_missing_answer grelpicado_ctx_read_missing(
    const grelpicado *manager, size_t event, uint32_t present)
{
    return grelpicado_read_missing(GRELPICADO_LENT_(manager), event, present);
}

/* How many events of each cycle have each bit set. Refusals: 2, 3. */
static inline grelpicado_table_answer grelpicado_ctx_read_table(const grelpicado *manager)
{
    return grelpicado_read_table(GRELPICADO_LENT_(manager));
}

/* How a panel paints what an event tests. Refusals: 2, 3, 4. */
static inline grelpicado_paint_answer grelpicado_ctx_read_paint(const grelpicado *manager, size_t event)
{
    return grelpicado_read_paint(GRELPICADO_LENT_(manager), event);
}

/* The numbers of the events that are painted grey. Refusals: 2, 3, 7. */
static inline grelpicado_length_answer grelpicado_ctx_list_grey(
    const grelpicado *manager, uint16_t *list, size_t list_length)
{
    uint16_t none = 0;
    return grelpicado_list_grey(GRELPICADO_LENT_(manager), list_length == 0 ? &none : list, list_length);
}

/* Where the first or latest frame of an event lies: at manager->memory + start. Refusals: 2, 3, 4, 10. */
static inline grelpicado_frame_answer grelpicado_ctx_read_frame(
    const grelpicado *manager, size_t event, uint32_t which)
{
    return grelpicado_read_frame(GRELPICADO_LENT_(manager), event, which);
}

/* Saves the state into a room, as edition 2. Refusals: 2, 3, 5, 7. */
static inline grelpicado_length_answer grelpicado_ctx_save(
    const grelpicado *manager, uint8_t *room, size_t room_length)
{
    uint8_t none = 0;
    return grelpicado_save(GRELPICADO_LENT_(manager), room_length == 0 ? &none : room, room_length);
}

/* Makes the state that an image of edition 1 or 2 was saved of. Refusals: 2, 3 (the lengths alone), 8. */
static inline uint8_t grelpicado_ctx_restore(grelpicado *manager, const uint8_t *image, size_t image_length)
{
    return grelpicado_keep_(manager, grelpicado_restore(
        GRELPICADO_LENT_(manager), grelpicado_bytes_(image, image_length), image_length,
        GRELPICADO_COUNTS_(manager)));
}

/* Answers a diagnostic request. Refusals: 2, 3, 7, 1, 12. */
static inline grelpicado_length_answer grelpicado_ctx_request(
    grelpicado *manager, const uint8_t *request, size_t request_length, uint8_t *room, size_t room_length)
{
    uint8_t none = 0;
    const grelpicado_request_answer answer = grelpicado_request(
        GRELPICADO_LENT_(manager), grelpicado_bytes_(request, request_length), request_length,
        room_length == 0 ? &none : room, room_length, GRELPICADO_COUNTS_(manager));
    const grelpicado_length_answer rest = {answer.number, answer.length};
    manager->board = answer.board;
    return rest;
}

#undef GRELPICADO_LENT_
#undef GRELPICADO_COUNTS_

/* ---- the layout that the archive was compiled for; a compiler that lays out otherwise stops here */

typedef GRELPICADO_CONFIG(2) grelpicado_config_of_two_;

GRELPICADO_CHECK_(sizeof(size_t) == 8, "lengths have 64 bits");
GRELPICADO_CHECK_(sizeof(grelpicado_event) == 14 * sizeof(int32_t), "an event is fourteen numbers");
GRELPICADO_CHECK_(offsetof(grelpicado_event, needed) == 13 * sizeof(int32_t), "the needed set is the last");
GRELPICADO_CHECK_(offsetof(grelpicado_config_of_two_, events) == 0, "n is the first number");
GRELPICADO_CHECK_(offsetof(grelpicado_config_of_two_, event) == 3 * sizeof(int32_t),
    "the events follow three numbers");
GRELPICADO_CHECK_(sizeof(grelpicado_config_of_two_) == GRELPICADO_CONFIG_NUMBERS(2) * sizeof(int32_t),
    "a configuration has no gaps");
GRELPICADO_CHECK_(sizeof(grelpicado_board) == 5 && offsetof(grelpicado_board, running) == 0
    && offsetof(grelpicado_board, overflow) == 4, "layout of grelpicado_board");
GRELPICADO_CHECK_(sizeof(grelpicado_answer) == 6 && offsetof(grelpicado_answer, number) == 0
    && offsetof(grelpicado_answer, board) == 1, "layout of grelpicado_answer");
GRELPICADO_CHECK_(sizeof(grelpicado_report_answer) == 7 && offsetof(grelpicado_report_answer, number) == 0
    && offsetof(grelpicado_report_answer, verdict) == 1
    && offsetof(grelpicado_report_answer, board) == 2, "layout of grelpicado_report_answer");
GRELPICADO_CHECK_(sizeof(grelpicado_status_answer) == 2 && offsetof(grelpicado_status_answer, number) == 0
    && offsetof(grelpicado_status_answer, status) == 1, "layout of grelpicado_status_answer");
GRELPICADO_CHECK_(sizeof(grelpicado_counter_answer) == 2 && offsetof(grelpicado_counter_answer, number) == 0
    && offsetof(grelpicado_counter_answer, counter) == 1, "layout of grelpicado_counter_answer");
GRELPICADO_CHECK_(sizeof(grelpicado_missing_answer) == 12 && offsetof(grelpicado_missing_answer, number) == 0
    && offsetof(grelpicado_missing_answer, count) == 4
    && offsetof(grelpicado_missing_answer, lowest) == 8, "layout of grelpicado_missing_answer");
GRELPICADO_CHECK_(sizeof(grelpicado_table_answer) == 66 && offsetof(grelpicado_table_answer, number) == 0
    && offsetof(grelpicado_table_answer, counts) == 2, "layout of grelpicado_table_answer");
GRELPICADO_CHECK_(sizeof(grelpicado_paint_answer) == 2 && offsetof(grelpicado_paint_answer, number) == 0
    && offsetof(grelpicado_paint_answer, paint) == 1, "layout of grelpicado_paint_answer");
GRELPICADO_CHECK_(sizeof(grelpicado_frame_answer) == 24 && offsetof(grelpicado_frame_answer, number) == 0
    && offsetof(grelpicado_frame_answer, start) == 8
    && offsetof(grelpicado_frame_answer, length) == 16, "layout of grelpicado_frame_answer");
GRELPICADO_CHECK_(sizeof(grelpicado_length_answer) == 16 && offsetof(grelpicado_length_answer, number) == 0
    && offsetof(grelpicado_length_answer, length) == 8, "layout of grelpicado_length_answer");
GRELPICADO_CHECK_(sizeof(grelpicado_request_answer) == 24 && offsetof(grelpicado_request_answer, number) == 0
    && offsetof(grelpicado_request_answer, length) == 8
    && offsetof(grelpicado_request_answer, board) == 16, "layout of grelpicado_request_answer");

GRELPICADO_CHECK_(sizeof(grelpicado_can_frame) == 8 && offsetof(grelpicado_can_frame, bytes) == 0,
    "layout of grelpicado_can_frame");
GRELPICADO_CHECK_(sizeof(grelpicado_can_sender) == 16 && offsetof(grelpicado_can_sender, state) == 0
    && offsetof(grelpicado_can_sender, left) == 1
    && offsetof(grelpicado_can_sender, next) == 8, "layout of grelpicado_can_sender");
GRELPICADO_CHECK_(sizeof(grelpicado_can_receiver) == 24 && offsetof(grelpicado_can_receiver, state) == 0
    && offsetof(grelpicado_can_receiver, left) == 1 && offsetof(grelpicado_can_receiver, next) == 8
    && offsetof(grelpicado_can_receiver, size) == 16, "layout of grelpicado_can_receiver");
GRELPICADO_CHECK_(sizeof(grelpicado_can_start_answer) == 32 && offsetof(grelpicado_can_start_answer, number) == 0
    && offsetof(grelpicado_can_start_answer, frame) == 1
    && offsetof(grelpicado_can_start_answer, sender) == 16, "layout of grelpicado_can_start_answer");
GRELPICADO_CHECK_(sizeof(grelpicado_can_flow_answer) == 24 && offsetof(grelpicado_can_flow_answer, number) == 0
    && offsetof(grelpicado_can_flow_answer, says) == 1 && offsetof(grelpicado_can_flow_answer, separation) == 2
    && offsetof(grelpicado_can_flow_answer, sender) == 8, "layout of grelpicado_can_flow_answer");
GRELPICADO_CHECK_(sizeof(grelpicado_can_next_answer) == 32 && offsetof(grelpicado_can_next_answer, due) == 0
    && offsetof(grelpicado_can_next_answer, frame) == 1
    && offsetof(grelpicado_can_next_answer, sender) == 16, "layout of grelpicado_can_next_answer");
GRELPICADO_CHECK_(sizeof(grelpicado_can_take_answer) == 48 && offsetof(grelpicado_can_take_answer, number) == 0
    && offsetof(grelpicado_can_take_answer, says) == 1 && offsetof(grelpicado_can_take_answer, frame) == 2
    && offsetof(grelpicado_can_take_answer, length) == 16
    && offsetof(grelpicado_can_take_answer, receiver) == 24, "layout of grelpicado_can_take_answer");

#ifdef __cplusplus
}
#endif

#endif
