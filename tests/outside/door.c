/*
 * The side of the outside tests that a firmware engineer would write: it
 * includes grelpicado.h, links the archive, and makes the calls that it is told
 * to make. What is right it does not know; the other side does.
 *
 *   door calls     reads calls from standard input until it ends, and answers each
 *   door layout    prints the size of each struct, and where its fields lie
 *   door numbers   prints what the header's macros stand for
 *
 * A call is a struct head, then the contents of the seven blocks in their order.
 * Its answer is a struct answer, then the seven blocks as the call left them. The
 * room of list grey holds its 16-bit numbers; read table has one for its counts.
 * The five counts are a block, also of a plain call that does not take them.
 * Numbers are little-endian: the archive is for x86-64.
 */
#define _POSIX_C_SOURCE 200809L

#include <stdbool.h>
#include <stdio.h>
#include <stdlib.h>
#include <string.h>
#include <time.h>
#include <unistd.h>

#include "grelpicado.h"

/* ---- what goes over the pipes */

enum { CONFIG, RECORDS, DEBOUNCE, MEMORY, COUNTS, INPUT, ROOM, BLOCKS };

enum {
    FRESH, REPORT, TICK, START, STOP, CLEAR, READ_STATUS, READ_FRAME, SAVE, RESTORE, REQUEST, READ_COUNTER,
    READ_TABLE, READ_PAINT, LIST_GREY, READ_MISSING
};

/* By the plain call; on a context; by grelpicado_begin, for a fresh state. */
enum { BY_PLAIN, BY_CONTEXT, BY_BEGIN };

struct head {
    uint8_t call;
    uint8_t way;
    uint8_t timed;          /* 0, or how often to make the call, each on its own copy, by the clock */
    grelpicado_board board;
    uint64_t turn;          /* handed back, so that no answer is taken for another's */
    uint64_t event;         /* or cycle, milliseconds, trouble code */
    uint64_t code;          /* of a report; or which frame is read */
    uint64_t present;       /* the set of conditions */
    uint64_t bytes[BLOCKS]; /* of each block; numbers in bytes too */
};

struct answer {
    uint8_t number;
    uint8_t value;  /* verdict, status or paint */
    uint8_t broken; /* a bit for each block beside which a byte was written; 80h: the context's blocks changed */
    grelpicado_board board;
    uint64_t turn;
    uint64_t start;  /* of a frame; or a counter, as a signed number; or how many conditions are missing */
    uint64_t length; /* or the lowest missing condition */
    uint64_t nanoseconds;
};

_Static_assert(sizeof(struct head) == 96, "the other side writes 96 bytes");
_Static_assert(sizeof(struct answer) == 40, "the other side reads 40 bytes");

static struct {
    uint8_t bytes[1 << 16];
    size_t at;
    size_t end;
} in;

static struct {
    uint8_t bytes[1 << 16];
    size_t used;
} out;

static void give_up(const char *words)
{
    fprintf(stderr, "door: %s\n", words);
    exit(EXIT_FAILURE);
}

/* An answer goes out before the next call is made, so that a crash is that of the first call without one. */
static void flush(void)
{
    size_t at = 0;
    while (at < out.used) {
        ssize_t wrote = write(STDOUT_FILENO, out.bytes + at, out.used - at);
        if (wrote < 0) {
            give_up("nobody reads the answers");
        }
        at += (size_t)wrote;
    }
    out.used = 0;
}

static void put(const void *from, size_t length)
{
    const uint8_t *bytes = from;
    while (length > 0) {
        size_t free_bytes = sizeof out.bytes - out.used;
        size_t part = length < free_bytes ? length : free_bytes;
        memcpy(out.bytes + out.used, bytes, part);
        out.used += part;
        bytes += part;
        length -= part;
        if (out.used == sizeof out.bytes) {
            flush();
        }
    }
}

/* Whether there is more input. */
static bool more(void)
{
    if (in.at == in.end) {
        ssize_t got = read(STDIN_FILENO, in.bytes, sizeof in.bytes);
        if (got < 0) {
            give_up("standard input cannot be read");
        }
        in.at = 0;
        in.end = (size_t)got;
    }
    return in.at < in.end;
}

static void get(void *to, size_t length)
{
    uint8_t *bytes = to;
    while (length > 0) {
        if (!more()) {
            give_up("the input ends within a call");
        }
        size_t part = length < in.end - in.at ? length : in.end - in.at;
        memcpy(bytes, in.bytes + in.at, part);
        in.at += part;
        bytes += part;
        length -= part;
    }
}

/* ---- lent blocks, with a pattern on both sides */

enum { GUARD = 64 };

struct block {
    uint8_t *room;
    size_t capacity;
    size_t front;  /* bytes before the block */
    size_t length; /* bytes of the block */
};

static uint8_t pattern(size_t at)
{
    return (uint8_t)(at * 37u ^ 0x5Cu);
}

static void draw_guards(struct block *block)
{
    size_t end = block->front + block->length;
    for (size_t i = 0; i < GUARD; i++) {
        block->room[block->front - 1 - i] = pattern(i);
        block->room[end + i] = pattern(i);
    }
}

static bool guards_stand(const struct block *block)
{
    size_t end = block->front + block->length;
    bool stand = true;
    for (size_t i = 0; i < GUARD; i++) {
        stand = stand && block->room[block->front - 1 - i] == pattern(i) && block->room[end + i] == pattern(i);
    }
    return stand;
}

/* Numbers of 4 bytes lie on a multiple of 4 that is none of 8, those of 2 on one of 2 that is none of 4, bytes on an
   odd address: more is not promised. */
static void make_room(struct block *block, size_t length, size_t width)
{
    block->front = GUARD + width;
    block->length = length;
    size_t needed = block->front + length + GUARD;
    if (needed > block->capacity) {
        free(block->room);
        block->room = malloc(needed);
        block->capacity = needed;
    }
    if (block->room == NULL) {
        give_up("no memory");
    }
    draw_guards(block);
}

/* Bytes of an element of a block. */
static size_t width_of(size_t block, const struct head *head)
{
    if (block == CONFIG || block == DEBOUNCE || block == COUNTS) {
        return 4;
    }
    return block == ROOM && head->call == LIST_GREY ? 2 : 1;
}

static void make_rooms(struct block blocks[BLOCKS], const struct head *head)
{
    for (size_t i = 0; i < BLOCKS; i++) {
        make_room(&blocks[i], (size_t)head->bytes[i], width_of(i, head));
    }
}

static uint8_t *bytes_of(const struct block *block)
{
    return block->room + block->front;
}

static int32_t *numbers_of(const struct block *block)
{
    return (int32_t *)(void *)bytes_of(block);
}

static size_t count_of(const struct block *block)
{
    return block->length / sizeof(int32_t);
}

static uint32_t *counts_of(const struct block *block)
{
    return (uint32_t *)(void *)bytes_of(block);
}

static uint16_t *list_of(const struct block *block)
{
    return (uint16_t *)(void *)bytes_of(block);
}

/* On a context, no bytes are lent as NULL with length 0. */
static uint8_t *bytes_or_null(const struct block *block)
{
    return block->length == 0 ? NULL : bytes_of(block);
}

/* ---- the plain calls */

#define LENT                                                    \
    numbers_of(&b[CONFIG]), count_of(&b[CONFIG]),               \
    bytes_of(&b[RECORDS]), b[RECORDS].length,                   \
    numbers_of(&b[DEBOUNCE]), count_of(&b[DEBOUNCE]),           \
    bytes_of(&b[MEMORY]), b[MEMORY].length

#define COUNTED counts_of(&b[COUNTS]), count_of(&b[COUNTS])
#define INPUT_BYTES bytes_of(&b[INPUT]), b[INPUT].length
#define ROOM_BYTES bytes_of(&b[ROOM]), b[ROOM].length
#define ROOM_LIST list_of(&b[ROOM]), b[ROOM].length / sizeof(uint16_t)

static void take(struct answer *answer, grelpicado_answer got)
{
    answer->number = got.number;
    answer->board = got.board;
}

static void take_report(struct answer *answer, grelpicado_report_answer got)
{
    answer->number = got.number;
    answer->value = got.verdict;
    answer->board = got.board;
}

static void take_status(struct answer *answer, grelpicado_status_answer got)
{
    answer->number = got.number;
    answer->value = got.status;
}

static void take_counter(struct answer *answer, grelpicado_counter_answer got)
{
    answer->number = got.number;
    answer->start = (uint64_t)(int64_t)got.counter; /* with its sign, as the header's type has it */
}

static void take_missing(struct answer *answer, grelpicado_missing_answer got)
{
    answer->number = got.number;
    answer->start = got.count;
    answer->length = got.lowest;
}

/* The counts go where they can be compared: into the room, which is as long as they are. */
static void take_table(struct answer *answer, const struct block *room, grelpicado_table_answer got)
{
    answer->number = got.number;
    if (room->length != sizeof got.counts) {
        give_up("the room of read table is as long as its counts");
    }
    memcpy(bytes_of(room), got.counts, sizeof got.counts);
}

static void take_paint(struct answer *answer, grelpicado_paint_answer got)
{
    answer->number = got.number;
    answer->value = got.paint;
}

static void take_frame(struct answer *answer, grelpicado_frame_answer got)
{
    answer->number = got.number;
    answer->start = got.start;
    answer->length = got.length;
}

static void take_length(struct answer *answer, grelpicado_length_answer got)
{
    answer->number = got.number;
    answer->length = got.length;
}

static void take_request(struct answer *answer, grelpicado_request_answer got)
{
    answer->number = got.number;
    answer->length = got.length;
    answer->board = got.board;
}

static void by_plain(const struct head *head, const struct block b[BLOCKS], struct answer *answer)
{
    grelpicado_board board = head->board;
    size_t event = (size_t)head->event;
    uint32_t number = (uint32_t)head->event;
    uint32_t code = (uint32_t)head->code;
    uint32_t present = (uint32_t)head->present;
    switch (head->call) {
    case FRESH: take(answer, grelpicado_fresh(LENT, board, COUNTED)); break;
    case REPORT: take_report(answer, grelpicado_report(LENT, board, event, code, INPUT_BYTES, present, COUNTED)); break;
    case TICK: take(answer, grelpicado_tick(LENT, board, number, INPUT_BYTES, present, COUNTED)); break;
    case START: take(answer, grelpicado_start(LENT, board, number)); break;
    case STOP: take(answer, grelpicado_stop(LENT, board, number, COUNTED)); break;
    case CLEAR: take(answer, grelpicado_clear(LENT, board, number, COUNTED)); break;
    case READ_STATUS: take_status(answer, grelpicado_read_status(LENT, board, event)); break;
    case READ_FRAME: take_frame(answer, grelpicado_read_frame(LENT, board, event, code)); break;
    case SAVE: take_length(answer, grelpicado_save(LENT, board, ROOM_BYTES)); break;
    case RESTORE: take(answer, grelpicado_restore(LENT, board, INPUT_BYTES, COUNTED)); break;
    case REQUEST: take_request(answer, grelpicado_request(LENT, board, INPUT_BYTES, ROOM_BYTES, COUNTED)); break;
    case READ_COUNTER: take_counter(answer, grelpicado_read_counter(LENT, board, event)); break;
    case READ_TABLE: take_table(answer, &b[ROOM], grelpicado_read_table(LENT, board)); break;
    case READ_PAINT: take_paint(answer, grelpicado_read_paint(LENT, board, event)); break;
    case LIST_GREY: take_length(answer, grelpicado_list_grey(LENT, board, ROOM_LIST)); break;
    case READ_MISSING: take_missing(answer, grelpicado_read_missing(LENT, board, event, present)); break;
    default: give_up("no such call");
    }
}

/* ---- the calls on a context */

#define INPUT_OR_NULL bytes_or_null(&b[INPUT]), b[INPUT].length
#define ROOM_OR_NULL bytes_or_null(&b[ROOM]), b[ROOM].length
#define LIST_OR_NULL b[ROOM].length == 0 ? NULL : list_of(&b[ROOM]), b[ROOM].length / sizeof(uint16_t)

static void take_verdict(struct answer *answer, grelpicado_verdict_answer got)
{
    answer->number = got.number;
    answer->value = got.verdict;
}

static void on_context(
    const struct head *head, const struct block b[BLOCKS], grelpicado *manager, struct answer *answer)
{
    size_t event = (size_t)head->event;
    uint32_t number = (uint32_t)head->event;
    uint32_t code = (uint32_t)head->code;
    uint32_t present = (uint32_t)head->present;
    switch (head->call) {
    case FRESH: answer->number = grelpicado_ctx_fresh(manager); break;
    case REPORT: take_verdict(answer, grelpicado_ctx_report(manager, event, code, INPUT_OR_NULL, present)); break;
    case TICK: answer->number = grelpicado_ctx_tick(manager, number, INPUT_OR_NULL, present); break;
    case START: answer->number = grelpicado_ctx_start(manager, number); break;
    case STOP: answer->number = grelpicado_ctx_stop(manager, number); break;
    case CLEAR: answer->number = grelpicado_ctx_clear(manager, number); break;
    case READ_STATUS: take_status(answer, grelpicado_ctx_read_status(manager, event)); break;
    case READ_FRAME: take_frame(answer, grelpicado_ctx_read_frame(manager, event, code)); break;
    case SAVE: take_length(answer, grelpicado_ctx_save(manager, ROOM_OR_NULL)); break;
    case RESTORE: answer->number = grelpicado_ctx_restore(manager, INPUT_OR_NULL); break;
    case REQUEST: take_length(answer, grelpicado_ctx_request(manager, INPUT_OR_NULL, ROOM_OR_NULL)); break;
    case READ_COUNTER: take_counter(answer, grelpicado_ctx_read_counter(manager, event)); break;
    case READ_TABLE: take_table(answer, &b[ROOM], grelpicado_ctx_read_table(manager)); break;
    case READ_PAINT: take_paint(answer, grelpicado_ctx_read_paint(manager, event)); break;
    case LIST_GREY: take_length(answer, grelpicado_ctx_list_grey(manager, LIST_OR_NULL)); break;
    case READ_MISSING: take_missing(answer, grelpicado_ctx_read_missing(manager, event, present)); break;
    default: give_up("no such call");
    }
}

/* Whether the context still holds the blocks that were lent, whole. */
static bool holds(const grelpicado *manager, const struct block b[BLOCKS])
{
    return manager->config == numbers_of(&b[CONFIG]) && manager->config_length == count_of(&b[CONFIG])
        && manager->records == bytes_of(&b[RECORDS]) && manager->records_length == b[RECORDS].length
        && manager->debounce == numbers_of(&b[DEBOUNCE]) && manager->debounce_length == count_of(&b[DEBOUNCE])
        && manager->memory == bytes_of(&b[MEMORY]) && manager->memory_length == b[MEMORY].length
        && manager->counts == counts_of(&b[COUNTS]) && manager->counts_length == count_of(&b[COUNTS]);
}

static void by_context(const struct head *head, const struct block b[BLOCKS], struct answer *answer)
{
    grelpicado manager = {LENT, COUNTED, head->board};
    if (head->way == BY_BEGIN) {
        memset(&manager, 0xA5, sizeof manager);
        answer->number = grelpicado_begin(&manager, LENT, COUNTED);
    } else {
        on_context(head, b, &manager, answer);
    }
    answer->board = manager.board;
    if (!holds(&manager, b)) {
        answer->broken |= 0x80;
    }
}

/* ---- call after call */

/* A function of its own, so that a tool can count its instructions by this name. */
__attribute__((noinline)) static void make_call(
    const struct head *head, const struct block blocks[BLOCKS], struct answer *answer)
{
    if (head->way == BY_PLAIN) {
        by_plain(head, blocks, answer);
    } else {
        by_context(head, blocks, answer);
    }
}

static uint64_t now(void)
{
    struct timespec time;
    (void)clock_gettime(CLOCK_MONOTONIC, &time);
    return (uint64_t)time.tv_sec * 1000000000u + (uint64_t)time.tv_nsec;
}

enum { MOST_COPIES = 255 };

static struct block copies[MOST_COPIES][BLOCKS];

static void copy_blocks(struct block to[BLOCKS], const struct block from[BLOCKS], const struct head *head)
{
    make_rooms(to, head);
    for (size_t i = 0; i < BLOCKS; i++) {
        memcpy(bytes_of(&to[i]), bytes_of(&from[i]), from[i].length);
    }
}

/* Makes the call so many times, each on its own copy of the blocks, made before the clock starts. */
static void time_calls(const struct head *head, const struct block blocks[BLOCKS], struct answer *answer)
{
    for (size_t i = 0; i < head->timed; i++) {
        copy_blocks(copies[i], blocks, head);
    }
    uint64_t start = now();
    for (size_t i = 0; i < head->timed; i++) {
        make_call(head, copies[i], answer);
    }
    answer->nanoseconds = now() - start;
}

static void put_answer(struct answer *answer, const struct block blocks[BLOCKS])
{
    for (size_t i = 0; i < BLOCKS; i++) {
        if (!guards_stand(&blocks[i])) {
            answer->broken = (uint8_t)(answer->broken | 1u << i);
        }
    }
    put(answer, sizeof *answer);
    for (size_t i = 0; i < BLOCKS; i++) {
        put(bytes_of(&blocks[i]), blocks[i].length);
    }
    flush();
}

static void answer_calls(void)
{
    static struct block blocks[BLOCKS];
    struct head head;
    while (more()) {
        get(&head, sizeof head);
        make_rooms(blocks, &head);
        for (size_t i = 0; i < BLOCKS; i++) {
            get(bytes_of(&blocks[i]), blocks[i].length);
        }
        struct answer answer = {0, 0, 0, head.board, head.turn, 0, 0, 0};
        if (head.timed > 0) {
            time_calls(&head, blocks, &answer);
        } else {
            make_call(&head, blocks, &answer);
        }
        put_answer(&answer, blocks);
    }
}

/* ---- what the header says, for the other side to compare */

#define SIZE(type) printf(#type " %zu\n", sizeof(type))
#define FIELD(type, field) \
    printf(#type "." #field " %zu %zu\n", offsetof(type, field), sizeof(((type *)NULL)->field))

static void print_events(void)
{
    SIZE(grelpicado_event);
    FIELD(grelpicado_event, trouble_code);
    FIELD(grelpicado_event, priority);
    FIELD(grelpicado_event, cycle);
    FIELD(grelpicado_event, debounce_kind);
    FIELD(grelpicado_event, p);
    FIELD(grelpicado_event, q);
    FIELD(grelpicado_event, up);
    FIELD(grelpicado_event, down);
    FIELD(grelpicado_event, jumps);
    FIELD(grelpicado_event, confirm);
    FIELD(grelpicado_event, heal);
    FIELD(grelpicado_event, age);
    FIELD(grelpicado_event, indicator);
    FIELD(grelpicado_event, needed);
}

static void print_layout(void)
{
    SIZE(grelpicado_board);
    FIELD(grelpicado_board, running);
    FIELD(grelpicado_board, overflow);
    SIZE(grelpicado_answer);
    FIELD(grelpicado_answer, number);
    FIELD(grelpicado_answer, board);
    SIZE(grelpicado_report_answer);
    FIELD(grelpicado_report_answer, number);
    FIELD(grelpicado_report_answer, verdict);
    FIELD(grelpicado_report_answer, board);
    SIZE(grelpicado_status_answer);
    FIELD(grelpicado_status_answer, number);
    FIELD(grelpicado_status_answer, status);
    SIZE(grelpicado_counter_answer);
    FIELD(grelpicado_counter_answer, number);
    FIELD(grelpicado_counter_answer, counter);
    SIZE(grelpicado_missing_answer);
    FIELD(grelpicado_missing_answer, number);
    FIELD(grelpicado_missing_answer, count);
    FIELD(grelpicado_missing_answer, lowest);
    SIZE(grelpicado_table_answer);
    FIELD(grelpicado_table_answer, number);
    FIELD(grelpicado_table_answer, counts);
    SIZE(grelpicado_paint_answer);
    FIELD(grelpicado_paint_answer, number);
    FIELD(grelpicado_paint_answer, paint);
    SIZE(grelpicado_frame_answer);
    FIELD(grelpicado_frame_answer, number);
    FIELD(grelpicado_frame_answer, start);
    FIELD(grelpicado_frame_answer, length);
    SIZE(grelpicado_length_answer);
    FIELD(grelpicado_length_answer, number);
    FIELD(grelpicado_length_answer, length);
    SIZE(grelpicado_request_answer);
    FIELD(grelpicado_request_answer, number);
    FIELD(grelpicado_request_answer, length);
    FIELD(grelpicado_request_answer, board);
}

#define NUMBER(name) {#name, name}

static const struct {
    const char *name;
    long long value;
} numbers[] = {
    NUMBER(GRELPICADO_HEADER_VERSION),
    NUMBER(GRELPICADO_MAX_EVENTS),
    NUMBER(GRELPICADO_MAX_PLACES),
    NUMBER(GRELPICADO_MAX_FRAME),
    NUMBER(GRELPICADO_MAX_TROUBLE_CODE),
    NUMBER(GRELPICADO_MAX_TICK),
    NUMBER(GRELPICADO_CYCLES),
    NUMBER(GRELPICADO_CYCLE_0),
    NUMBER(GRELPICADO_CYCLE_1),
    NUMBER(GRELPICADO_CYCLE_2),
    NUMBER(GRELPICADO_CYCLE_3),
    NUMBER(GRELPICADO_KIND_INTERNAL),
    NUMBER(GRELPICADO_KIND_COUNTER),
    NUMBER(GRELPICADO_KIND_TIME),
    NUMBER(GRELPICADO_JUMP_NONE),
    NUMBER(GRELPICADO_JUMP_UP),
    NUMBER(GRELPICADO_JUMP_DOWN),
    NUMBER(GRELPICADO_JUMP_BOTH),
    NUMBER(GRELPICADO_CONDITIONS),
    NUMBER(GRELPICADO_ALL_PRESENT),
    NUMBER(GRELPICADO_NONE_MISSING),
    NUMBER(GRELPICADO_DONE),
    NUMBER(GRELPICADO_BAD_ARGUMENT),
    NUMBER(GRELPICADO_BAD_CONFIGURATION),
    NUMBER(GRELPICADO_BAD_STATE),
    NUMBER(GRELPICADO_NO_SUCH),
    NUMBER(GRELPICADO_WRONG_CYCLE_STATE),
    NUMBER(GRELPICADO_NO_PRE_RESULT),
    NUMBER(GRELPICADO_ROOM_TOO_SMALL),
    NUMBER(GRELPICADO_BAD_IMAGE),
    NUMBER(GRELPICADO_WRONG_FRAME),
    NUMBER(GRELPICADO_NO_ENTRY),
    NUMBER(GRELPICADO_MISSING_CONDITION),
    NUMBER(GRELPICADO_COUNTS_FULL),
    NUMBER(GRELPICADO_COUNTS),
    NUMBER(GRELPICADO_COUNT_ADMITTED),
    NUMBER(GRELPICADO_COUNT_PUSHED_OUT),
    NUMBER(GRELPICADO_COUNT_AGED),
    NUMBER(GRELPICADO_COUNT_CLEARED),
    NUMBER(GRELPICADO_COUNT_NOT_STORED),
    NUMBER(GRELPICADO_TEST_FAILED),
    NUMBER(GRELPICADO_TEST_FAILED_THIS_OPERATION_CYCLE),
    NUMBER(GRELPICADO_PENDING),
    NUMBER(GRELPICADO_CONFIRMED),
    NUMBER(GRELPICADO_TEST_NOT_COMPLETED_SINCE_LAST_CLEAR),
    NUMBER(GRELPICADO_TEST_FAILED_SINCE_LAST_CLEAR),
    NUMBER(GRELPICADO_TEST_NOT_COMPLETED_THIS_OPERATION_CYCLE),
    NUMBER(GRELPICADO_WARNING_INDICATOR_REQUESTED),
    NUMBER(GRELPICADO_FRESH_STATUS),
    NUMBER(GRELPICADO_PASSED),
    NUMBER(GRELPICADO_FAILED),
    NUMBER(GRELPICADO_PRE_PASSED),
    NUMBER(GRELPICADO_PRE_FAILED),
    NUMBER(GRELPICADO_VERDICT_NONE),
    NUMBER(GRELPICADO_VERDICT_PASSED),
    NUMBER(GRELPICADO_VERDICT_FAILED),
    NUMBER(GRELPICADO_PAINT_GREY),
    NUMBER(GRELPICADO_PAINT_RED),
    NUMBER(GRELPICADO_PAINT_LIVE),
    NUMBER(GRELPICADO_FIRST),
    NUMBER(GRELPICADO_LATEST),
    NUMBER(GRELPICADO_ALL_CODES),
};

/* The sizes, each with the n, M and F that it was asked for. */
static void print_sizes(size_t n, size_t places, size_t frame)
{
    printf("GRELPICADO_CONFIG_NUMBERS(%zu) %zu\n", n, GRELPICADO_CONFIG_NUMBERS(n));
    printf("GRELPICADO_RECORDS_BYTES(%zu) %zu\n", n, GRELPICADO_RECORDS_BYTES(n));
    printf("GRELPICADO_DEBOUNCE_NUMBERS(%zu) %zu\n", n, GRELPICADO_DEBOUNCE_NUMBERS(n));
    printf("GRELPICADO_MEMORY_BYTES(%zu,%zu) %zu\n", places, frame, GRELPICADO_MEMORY_BYTES(places, frame));
    printf("GRELPICADO_IMAGE_BYTES(%zu,%zu,%zu) %zu\n", n, places, frame,
        GRELPICADO_IMAGE_BYTES(n, places, frame));
    printf("GRELPICADO_REPLY_BYTES(%zu,%zu) %zu\n", n, frame, GRELPICADO_REPLY_BYTES(n, frame));
    printf("GRELPICADO_LIST_NUMBERS(%zu) %zu\n", n, GRELPICADO_LIST_NUMBERS(n));
}

/* What the macros that lend make of arrays of known lengths, and what GRELPICADO_CONFIG lays out. */
static void print_lent(void)
{
    static const GRELPICADO_CONFIG(7) config;
    static const int32_t five[5];
    struct { const int32_t *pointer; size_t length; } lent = {GRELPICADO_LEND(five)};
    struct { const int32_t *pointer; size_t length; } whole = {GRELPICADO_LEND_CONFIG(config)};
    printf("GRELPICADO_LEND(5) %zu\n", lent.pointer == five ? lent.length : 0);
    printf("GRELPICADO_LEND_CONFIG(7) %zu\n", (const void *)whole.pointer == (const void *)&config ? whole.length : 0);
    printf("GRELPICADO_CONFIG(7) %zu\n", sizeof config);
}

static void print_numbers(void)
{
    for (size_t i = 0; i < sizeof numbers / sizeof numbers[0]; i++) {
        printf("%s %lld\n", numbers[i].name, numbers[i].value);
    }
    for (unsigned k = 0; k < GRELPICADO_CONDITIONS; k++) {
        printf("GRELPICADO_CONDITION(%u) %u\n", k, GRELPICADO_CONDITION(k));
    }
    print_sizes(1, 1, 0);
    print_sizes(2, 1, 5);
    print_sizes(7, 3, 5);
    print_sizes(7, 3, 32);
    print_sizes(512, 64, 32);
    print_lent();
}

int main(int count, char **words)
{
    const char *asked = count == 2 ? words[1] : "";
    if (strcmp(asked, "calls") == 0) {
        answer_calls();
    } else if (strcmp(asked, "layout") == 0) {
        print_events();
        print_layout();
    } else if (strcmp(asked, "numbers") == 0) {
        print_numbers();
    } else {
        give_up("calls, layout or numbers?");
    }
    return EXIT_SUCCESS;
}
