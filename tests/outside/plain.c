/*
 * Documents 01 and 02 in plain C, to count the archive's instructions beside. It shares with the archive the
 * types and macros of grelpicado.h alone, takes any arguments as the archive does, and judges the same:
 * the outside tests compare its answers and every lent byte with the reference, as they do the archive's.
 *
 * It is written as firmware is written that should be quick and readable. Rows are read through the
 * header's struct. What is wrong is left at once. That no two entries are of one event is told by a mark
 * for each event seen, not by comparing pairs. A trouble code is searched by halving, since the codes
 * rise. Blocks of bytes are moved, filled and compared by the C library. Where a count is near its limit,
 * the blocks are kept, the work is done, and undone where a count would be past it.
 */
#include "plain.h"

#include <stdbool.h>
#include <string.h>

enum { STATUS, K, H, G, RECORD };               /* the four bytes of an event's record */
enum { EVENT_HIGH, EVENT_LOW, OCCURRENCE, HEAD }; /* an entry before its frames, the first and the latest */
enum { IMAGE_HEAD = 20 };
enum { EDITION_1 = 1, EDITION_2 = 2 };          /* images of entries with one frame and with two */
enum { NO_PLACE = -1 };

/* The status bits, by shorter names. */
enum {
    FAILED = GRELPICADO_TEST_FAILED,
    FAILED_THIS_CYCLE = GRELPICADO_TEST_FAILED_THIS_OPERATION_CYCLE,
    PENDING = GRELPICADO_PENDING,
    CONFIRMED = GRELPICADO_CONFIRMED,
    UNTESTED = GRELPICADO_TEST_NOT_COMPLETED_SINCE_LAST_CLEAR,
    FAILED_SINCE_CLEAR = GRELPICADO_TEST_FAILED_SINCE_LAST_CLEAR,
    UNTESTED_THIS_CYCLE = GRELPICADO_TEST_NOT_COMPLETED_THIS_OPERATION_CYCLE,
    WARNING = GRELPICADO_WARNING_INDICATOR_REQUESTED,
    FRESH = GRELPICADO_FRESH_STATUS
};

/* A configuration that keeps its table. */
struct table {
    size_t events;
    size_t places;
    size_t frame;
    size_t entry; /* bytes of an entry */
    const grelpicado_event *event;
};

/* What a call may change, and what it adds to the counts. */
struct state {
    uint8_t *records;
    int32_t *debounce;
    uint8_t *memory;
    grelpicado_board board;
    uint32_t rise[GRELPICADO_COUNTS];
};

/* What every call is lent, and the same as it is handed on. */
#define LENT(writes)                                        \
    const int32_t *config, size_t config_length,            \
    writes uint8_t *records, size_t records_length,         \
    writes int32_t *debounce, size_t debounce_length,       \
    writes uint8_t *memory, size_t memory_length,           \
    grelpicado_board board
#define COUNTS uint32_t *counts, size_t counts_length
#define LENGTHS config, config_length, records_length, debounce_length, memory_length
#define BLOCKS records, debounce, memory
#define STATE {BLOCKS, tidy(board), {0, 0, 0, 0, 0}}

/* ---- the configuration */

static bool in(int32_t number, int32_t least, int32_t greatest)
{
    return least <= number && number <= greatest;
}

static bool debounce_allowed(const grelpicado_event *row)
{
    bool bounds = in(row->p, -30000, -1) && in(row->q, 1, 30000);
    bool no_steps = row->up == 0 && row->down == 0 && row->jumps == 0;
    switch (row->debounce_kind) {
    case GRELPICADO_KIND_INTERNAL:
        return row->p == 0 && row->q == 0 && no_steps;
    case GRELPICADO_KIND_COUNTER:
        return bounds && in(row->up, 1, 30000) && in(row->down, 1, 30000) && in(row->jumps, 0, 3);
    case GRELPICADO_KIND_TIME:
        return bounds && no_steps;
    default:
        return false;
    }
}

static bool row_allowed(const grelpicado_event *row)
{
    return in(row->trouble_code, 1, GRELPICADO_MAX_TROUBLE_CODE)
        && in(row->priority, 1, 255)
        && in(row->cycle, 0, GRELPICADO_CYCLES - 1)
        && debounce_allowed(row)
        && in(row->confirm, 1, 255)
        && in(row->heal, 1, 255)
        && in(row->age, 1, 255)
        && in(row->indicator, 0, 1)
        && row->needed >= 0;
}

static bool read_table(struct table *table, const int32_t *config, size_t length)
{
    if (length < 3 || !in(config[0], 1, GRELPICADO_MAX_EVENTS) || !in(config[1], 1, GRELPICADO_MAX_PLACES)
        || !in(config[2], 0, GRELPICADO_MAX_FRAME)) {
        return false;
    }
    table->events = (size_t)config[0];
    table->places = (size_t)config[1];
    table->frame = (size_t)config[2];
    table->entry = HEAD + 2 * table->frame;
    table->event = (const grelpicado_event *)(const void *)(config + 3);
    if (length != GRELPICADO_CONFIG_NUMBERS(table->events)) {
        return false;
    }
    int32_t before = 0;
    for (size_t e = 0; e < table->events; e++) {
        const grelpicado_event *row = &table->event[e];
        if (!row_allowed(row) || row->trouble_code <= before) {
            return false;
        }
        before = row->trouble_code;
    }
    return true;
}

/* For fresh and restore, 3 judges the lengths alone. */
static uint8_t judge_lengths(
    struct table *table, const int32_t *config, size_t config_length,
    size_t records_length, size_t debounce_length, size_t memory_length)
{
    if (!read_table(table, config, config_length)) {
        return GRELPICADO_BAD_CONFIGURATION;
    }
    bool fit = records_length == GRELPICADO_RECORDS_BYTES(table->events)
        && debounce_length == GRELPICADO_DEBOUNCE_NUMBERS(table->events)
        && memory_length == GRELPICADO_MEMORY_BYTES(table->places, table->frame);
    return fit ? GRELPICADO_DONE : GRELPICADO_BAD_STATE;
}

/* ---- well-formed states */

static bool record_fits(const grelpicado_event *row, const uint8_t *record)
{
    uint8_t status = record[STATUS];
    if ((status & UNTESTED) && status != FRESH) {
        return false;
    }
    if ((status & (FAILED | PENDING | CONFIRMED)) && !(status & FAILED_SINCE_CLEAR)) {
        return false;
    }
    if ((status & FAILED_THIS_CYCLE) && (status & (PENDING | UNTESTED_THIS_CYCLE)) != PENDING) {
        return false;
    }
    if ((status & WARNING) && !((status & CONFIRMED) && row->indicator == 1)) {
        return false;
    }
    if ((record[K] >= 1) != ((status & PENDING) != 0)) {
        return false;
    }
    if (record[H] >= row->heal || (record[H] != 0 && !(status & WARNING))) {
        return false;
    }
    return record[G] < row->age && (record[G] == 0 || (status & CONFIRMED));
}

/* The least and the greatest D of an event whose cycle runs. Kind 0 has P = Q = 0. */
static int32_t bottom(const grelpicado_event *row)
{
    return row->debounce_kind == GRELPICADO_KIND_TIME ? row->p - 1 : row->p;
}

static int32_t top(const grelpicado_event *row)
{
    return row->debounce_kind == GRELPICADO_KIND_TIME ? row->q + 1 : row->q;
}

static bool number_fits(const grelpicado_event *row, int32_t d, const grelpicado_board *board)
{
    return board->running[row->cycle] ? in(d, bottom(row), top(row)) : d == 0;
}

static size_t event_in(const uint8_t *entry)
{
    return (size_t)(entry[EVENT_HIGH] << 8 | entry[EVENT_LOW]);
}

/* The entries of this width behind a memory's first byte, which is at most M. */
static bool entries_fit(const struct table *table, size_t width, const uint8_t *memory, const uint8_t *records)
{
    bool seen[GRELPICADO_MAX_EVENTS] = {false};
    const uint8_t *entry = memory + 1;
    for (size_t i = 0; i < memory[0]; i++, entry += width) {
        size_t e = event_in(entry);
        if (e >= table->events || seen[e] || entry[OCCURRENCE] == 0) {
            return false;
        }
        if (!(records[RECORD * e + STATUS] & FAILED_SINCE_CLEAR)) {
            return false;
        }
        seen[e] = true;
    }
    return true;
}

static bool all_zero(const uint8_t *bytes, const uint8_t *end)
{
    while (bytes < end) {
        if (*bytes++ != 0) {
            return false;
        }
    }
    return true;
}

static bool memory_fits(const struct table *table, const uint8_t *memory, const uint8_t *records)
{
    return memory[0] <= table->places
        && entries_fit(table, table->entry, memory, records)
        && all_zero(memory + 1 + memory[0] * table->entry, memory + 1 + table->places * table->entry);
}

/* Every call begins 2, 3. */
static uint8_t judge(
    struct table *table, const int32_t *config, size_t config_length,
    size_t records_length, size_t debounce_length, size_t memory_length,
    const uint8_t *records, const int32_t *debounce, const uint8_t *memory, const grelpicado_board *board)
{
    uint8_t number = judge_lengths(table, LENGTHS);
    if (number != GRELPICADO_DONE) {
        return number;
    }
    for (size_t e = 0; e < table->events; e++) {
        const grelpicado_event *row = &table->event[e];
        if (!record_fits(row, records + RECORD * e) || !number_fits(row, debounce[e], board)) {
            return GRELPICADO_BAD_STATE;
        }
    }
    return memory_fits(table, memory, records) ? GRELPICADO_DONE : GRELPICADO_BAD_STATE;
}

/* The same of a call that is lent counts: 3 of theirs comes with that of the blocks. */
static uint8_t with_counts(uint8_t number, size_t counts_length)
{
    return number == GRELPICADO_DONE && counts_length != GRELPICADO_COUNTS ? GRELPICADO_BAD_STATE : number;
}

/* ---- the counts */

/* The blocks as they were, while a call may have to be undone. */
struct kept {
    bool is_kept;
    uint8_t records[GRELPICADO_RECORDS_BYTES(GRELPICADO_MAX_EVENTS)];
    int32_t debounce[GRELPICADO_DEBOUNCE_NUMBERS(GRELPICADO_MAX_EVENTS)];
    uint8_t memory[GRELPICADO_MEMORY_BYTES(GRELPICADO_MAX_PLACES, GRELPICADO_MAX_FRAME)];
};

static void copy_blocks(
    const struct table *table, uint8_t *records, int32_t *debounce, uint8_t *memory,
    const uint8_t *from_records, const int32_t *from_debounce, const uint8_t *from_memory)
{
    memcpy(records, from_records, RECORD * table->events);
    memcpy(debounce, from_debounce, table->events * sizeof *debounce);
    memcpy(memory, from_memory, 1 + table->places * table->entry);
}

/* Each count rises at most once for an event: further from its limit it cannot come past it. */
static void keep_if_near(
    const struct table *table, const struct state *state, const uint32_t *counts, struct kept *kept)
{
    kept->is_kept = false;
    for (size_t i = 0; i < GRELPICADO_COUNTS; i++) {
        kept->is_kept = kept->is_kept || counts[i] > UINT32_MAX - table->events;
    }
    if (kept->is_kept) {
        copy_blocks(
            table, kept->records, kept->debounce, kept->memory, state->records, state->debounce, state->memory);
    }
}

/* The rise goes to the counts, whole; or the blocks become what they were. */
static uint8_t add_or_undo(
    const struct table *table, struct state *state, uint32_t *counts, const struct kept *kept)
{
    for (size_t i = 0; kept->is_kept && i < GRELPICADO_COUNTS; i++) {
        if (state->rise[i] > UINT32_MAX - counts[i]) {
            copy_blocks(
                table, state->records, state->debounce, state->memory, kept->records, kept->debounce, kept->memory);
            return GRELPICADO_COUNTS_FULL;
        }
    }
    for (size_t i = 0; i < GRELPICADO_COUNTS; i++) {
        counts[i] += state->rise[i];
    }
    return GRELPICADO_DONE;
}

/* ---- memory */

static uint8_t *entry_at(const struct table *table, uint8_t *memory, size_t place)
{
    return memory + 1 + place * table->entry;
}

static int place_of(const struct table *table, const uint8_t *memory, size_t event)
{
    const uint8_t *entry = memory + 1;
    for (int i = 0; i < memory[0]; i++, entry += table->entry) {
        if (event_in(entry) == event) {
            return i;
        }
    }
    return NO_PLACE;
}

/* Closes the gap and keeps the order. */
static void take_out(const struct table *table, uint8_t *memory, size_t place)
{
    uint8_t *gap = entry_at(table, memory, place);
    uint8_t *last = entry_at(table, memory, memory[0] - 1u);
    memmove(gap, gap + table->entry, (size_t)(last - gap));
    memset(last, 0, table->entry);
    memory[0]--;
}

/* The event's entry leaves, where it has one, and is counted. */
static void leave(const struct table *table, struct state *state, size_t event, size_t as)
{
    int place = place_of(table, state->memory, event);
    if (place != NO_PLACE) {
        take_out(table, state->memory, (size_t)place);
        state->rise[as]++;
    }
}

/* The entry that gives way to an event in a full memory. */
static int victim_for(const struct table *table, const struct state *state, size_t event)
{
    int32_t own = table->event[event].priority;
    int32_t greatest = own;
    int less_important = NO_PLACE;
    int equal_and_passed = NO_PLACE;
    const uint8_t *entry = state->memory + 1;
    for (int i = 0; i < state->memory[0]; i++, entry += table->entry) {
        size_t other = event_in(entry);
        int32_t priority = table->event[other].priority;
        if (priority > greatest) {
            greatest = priority;
            less_important = i;
        } else if (priority == own && equal_and_passed == NO_PLACE
            && !(state->records[RECORD * other + STATUS] & FAILED)) {
            equal_and_passed = i;
        }
    }
    return less_important != NO_PLACE ? less_important : equal_and_passed;
}

/* A fresh failure, told to memory. The first frame of an entry that is renewed stays. */
static void store(const struct table *table, struct state *state, size_t event, const uint8_t *frame)
{
    uint8_t *memory = state->memory;
    uint8_t occurrence = 1;
    uint8_t kept[GRELPICADO_MAX_FRAME];
    const uint8_t *first = frame;
    int place = place_of(table, memory, event);
    if (place != NO_PLACE) {
        const uint8_t *before = entry_at(table, memory, (size_t)place);
        occurrence = before[OCCURRENCE] < 255 ? (uint8_t)(before[OCCURRENCE] + 1) : 255;
        first = memcpy(kept, before + HEAD, table->frame);
    } else if (memory[0] == table->places) {
        place = victim_for(table, state, event);
        if (place == NO_PLACE) {
            state->board.overflow = 1;
            state->rise[GRELPICADO_COUNT_NOT_STORED]++;
            return;
        }
        state->rise[GRELPICADO_COUNT_PUSHED_OUT]++;
        state->rise[GRELPICADO_COUNT_ADMITTED]++;
    } else {
        state->rise[GRELPICADO_COUNT_ADMITTED]++;
    }
    if (place != NO_PLACE) {
        take_out(table, memory, (size_t)place);
    }
    uint8_t *entry = entry_at(table, memory, memory[0]++);
    entry[EVENT_HIGH] = (uint8_t)(event >> 8);
    entry[EVENT_LOW] = (uint8_t)event;
    entry[OCCURRENCE] = occurrence;
    memcpy(entry + HEAD, first, table->frame);
    memcpy(entry + HEAD + table->frame, frame, table->frame);
}

/* ---- one event */

static void make_fresh(uint8_t *record)
{
    record[STATUS] = FRESH;
    record[K] = record[H] = record[G] = 0;
}

static void fail(const struct table *table, struct state *state, size_t event, const uint8_t *frame)
{
    const grelpicado_event *row = &table->event[event];
    uint8_t *record = state->records + RECORD * event;
    uint8_t before = record[STATUS];
    if (!(before & FAILED_THIS_CYCLE) && record[K] < 255) {
        record[K]++;
    }
    int status = before | FAILED | FAILED_THIS_CYCLE | PENDING | FAILED_SINCE_CLEAR;
    status &= ~(UNTESTED | UNTESTED_THIS_CYCLE);
    if (record[K] >= row->confirm) {
        status |= row->indicator ? CONFIRMED | WARNING : CONFIRMED;
    }
    record[STATUS] = (uint8_t)status;
    record[H] = record[G] = 0;
    if (!(before & FAILED)) {
        store(table, state, event, frame);
    }
}

/* Keeps the new D, and does what follows of it. Answers the verdict. */
static uint8_t qualify(
    const struct table *table, struct state *state, size_t event, int32_t d, const uint8_t *frame)
{
    const grelpicado_event *row = &table->event[event];
    state->debounce[event] = d;
    if (d == top(row)) {
        fail(table, state, event, frame);
        return GRELPICADO_VERDICT_FAILED;
    }
    if (d == bottom(row)) {
        state->records[RECORD * event + STATUS] &= (uint8_t)~(FAILED | UNTESTED | UNTESTED_THIS_CYCLE);
        return GRELPICADO_VERDICT_PASSED;
    }
    return GRELPICADO_VERDICT_NONE;
}

static int32_t smaller(int32_t a, int32_t b)
{
    return a < b ? a : b;
}

static int32_t larger(int32_t a, int32_t b)
{
    return a > b ? a : b;
}

/* The D that a report leaves, of kinds 1 and 2. */
static int32_t debounced(const grelpicado_event *row, int32_t d, uint32_t code)
{
    bool counter = row->debounce_kind == GRELPICADO_KIND_COUNTER;
    switch (code) {
    case GRELPICADO_FAILED:
        return top(row);
    case GRELPICADO_PASSED:
        return bottom(row);
    case GRELPICADO_PRE_FAILED:
        if (!counter) {
            return larger(d, 1);
        }
        return smaller(((row->jumps & GRELPICADO_JUMP_UP) && d < 0 ? 0 : d) + row->up, row->q);
    default:
        if (!counter) {
            return smaller(d, -1);
        }
        return larger(((row->jumps & GRELPICADO_JUMP_DOWN) && d > 0 ? 0 : d) - row->down, row->p);
    }
}

/* A stop's parts (a) and (b). Says whether the event aged. */
static bool heal_and_age(const grelpicado_event *row, uint8_t *record)
{
    int status = record[STATUS];
    if (status & (FAILED_THIS_CYCLE | UNTESTED_THIS_CYCLE)) {
        return false;
    }
    status &= ~PENDING;
    record[K] = 0;
    if ((status & WARNING) && ++record[H] == row->heal) {
        status &= ~WARNING;
        record[H] = 0;
    }
    bool aged = (status & CONFIRMED) && ++record[G] == row->age;
    if (aged) {
        status &= ~(CONFIRMED | WARNING);
        record[H] = record[G] = 0;
    }
    record[STATUS] = (uint8_t)status;
    return aged;
}

/* ---- the board */

static uint8_t flag(uint8_t byte)
{
    return byte != 0;
}

/* The board of a done call, of 0 and 1. */
static grelpicado_board tidy(grelpicado_board board)
{
    const uint8_t *running = board.running;
    return (grelpicado_board){
        {flag(running[0]), flag(running[1]), flag(running[2]), flag(running[3])}, flag(board.overflow)};
}

/* ---- the calls */

grelpicado_answer plain_fresh(LENT(), COUNTS)
{
    struct table table;
    uint8_t number = with_counts(judge_lengths(&table, LENGTHS), counts_length);
    if (number != GRELPICADO_DONE) {
        return (grelpicado_answer){number, board};
    }
    for (size_t e = 0; e < table.events; e++) {
        make_fresh(records + RECORD * e);
    }
    memset(debounce, 0, debounce_length * sizeof *debounce);
    memset(memory, 0, memory_length);
    memset(counts, 0, counts_length * sizeof *counts);
    return (grelpicado_answer){GRELPICADO_DONE, {{0, 0, 0, 0}, 0}};
}

/* The conditions that an event needs and that are not present. No event needs bit 31. */
static uint32_t missing_of(const grelpicado_event *row, uint32_t present)
{
    return (uint32_t)row->needed & ~present;
}

/* The first refusal of a report that applies after 2 and 3. */
static uint8_t judge_report(
    const struct table *table, const grelpicado_board *board, size_t event, uint32_t code, size_t frame_length,
    uint32_t present)
{
    if (event >= table->events) {
        return GRELPICADO_NO_SUCH;
    }
    const grelpicado_event *row = &table->event[event];
    if (code > GRELPICADO_PRE_FAILED) {
        return GRELPICADO_BAD_ARGUMENT;
    }
    if (row->debounce_kind == GRELPICADO_KIND_INTERNAL && code >= GRELPICADO_PRE_PASSED) {
        return GRELPICADO_NO_PRE_RESULT;
    }
    if (frame_length != table->frame) {
        return GRELPICADO_WRONG_FRAME;
    }
    if (!board->running[row->cycle]) {
        return GRELPICADO_WRONG_CYCLE_STATE;
    }
    return missing_of(row, present) == 0 ? GRELPICADO_DONE : GRELPICADO_MISSING_CONDITION;
}

/* Of kind 0 the result is the verdict, and D stays 0. */
static uint8_t take_result(
    const struct table *table, struct state *state, size_t event, uint32_t code, const uint8_t *frame)
{
    const grelpicado_event *row = &table->event[event];
    if (row->debounce_kind != GRELPICADO_KIND_INTERNAL) {
        return qualify(table, state, event, debounced(row, state->debounce[event], code), frame);
    }
    if (code == GRELPICADO_FAILED) {
        fail(table, state, event, frame);
        return GRELPICADO_VERDICT_FAILED;
    }
    state->records[RECORD * event + STATUS] &= (uint8_t)~(FAILED | UNTESTED | UNTESTED_THIS_CYCLE);
    return GRELPICADO_VERDICT_PASSED;
}

grelpicado_report_answer plain_report(
    LENT(), size_t event, uint32_t code, const uint8_t *frame, size_t frame_length, uint32_t present, COUNTS)
{
    struct table table;
    struct kept kept;
    uint8_t number = with_counts(judge(&table, LENGTHS, BLOCKS, &board), counts_length);
    if (number == GRELPICADO_DONE) {
        number = judge_report(&table, &board, event, code, frame_length, present);
    }
    if (number != GRELPICADO_DONE) {
        return (grelpicado_report_answer){number, GRELPICADO_VERDICT_NONE, board};
    }
    struct state state = STATE;
    keep_if_near(&table, &state, counts, &kept);
    uint8_t verdict = take_result(&table, &state, event, code, frame);
    number = add_or_undo(&table, &state, counts, &kept);
    if (number != GRELPICADO_DONE) {
        return (grelpicado_report_answer){number, GRELPICADO_VERDICT_NONE, board};
    }
    return (grelpicado_report_answer){GRELPICADO_DONE, verdict, state.board};
}

static void pass_time(
    const struct table *table, struct state *state, int32_t ms, const uint8_t *frame, uint32_t present)
{
    for (size_t e = 0; e < table->events; e++) {
        const grelpicado_event *row = &table->event[e];
        int32_t d = state->debounce[e];
        if (row->debounce_kind != GRELPICADO_KIND_TIME || !state->board.running[row->cycle]
            || missing_of(row, present) != 0) {
            continue;
        }
        if (0 < d && d < top(row)) {
            qualify(table, state, e, smaller(d + ms, top(row)), frame);
        } else if (bottom(row) < d && d < 0) {
            qualify(table, state, e, larger(d - ms, bottom(row)), frame);
        }
    }
}

grelpicado_answer plain_tick(
    LENT(), uint32_t ms, const uint8_t *frame, size_t frame_length, uint32_t present, COUNTS)
{
    struct table table;
    struct kept kept;
    uint8_t number = with_counts(judge(&table, LENGTHS, BLOCKS, &board), counts_length);
    if (number == GRELPICADO_DONE && ms > GRELPICADO_MAX_TICK) {
        number = GRELPICADO_BAD_ARGUMENT;
    }
    if (number == GRELPICADO_DONE && frame_length != table.frame) {
        number = GRELPICADO_WRONG_FRAME;
    }
    if (number != GRELPICADO_DONE) {
        return (grelpicado_answer){number, board};
    }
    struct state state = STATE;
    keep_if_near(&table, &state, counts, &kept);
    pass_time(&table, &state, (int32_t)ms, frame, present);
    number = add_or_undo(&table, &state, counts, &kept);
    return (grelpicado_answer){number, number == GRELPICADO_DONE ? state.board : board};
}

/* The first refusal of a start or stop that applies after 2 and 3. */
static uint8_t judge_cycle(const grelpicado_board *board, uint32_t cycle, bool must_run)
{
    if (cycle >= GRELPICADO_CYCLES) {
        return GRELPICADO_NO_SUCH;
    }
    return (board->running[cycle] != 0) == must_run ? GRELPICADO_DONE : GRELPICADO_WRONG_CYCLE_STATE;
}

/* The header's start writes the records alone. */
grelpicado_answer plain_start(
    const int32_t *config, size_t config_length,
    uint8_t *records, size_t records_length,
    const int32_t *debounce, size_t debounce_length,
    const uint8_t *memory, size_t memory_length,
    grelpicado_board board, uint32_t cycle)
{
    struct table table;
    uint8_t number = judge(&table, LENGTHS, BLOCKS, &board);
    if (number == GRELPICADO_DONE) {
        number = judge_cycle(&board, cycle, false);
    }
    if (number != GRELPICADO_DONE) {
        return (grelpicado_answer){number, board};
    }
    for (size_t e = 0; e < table.events; e++) {
        uint8_t *status = &records[RECORD * e + STATUS];
        if (table.event[e].cycle == (int32_t)cycle) {
            *status = (uint8_t)((*status & ~FAILED_THIS_CYCLE) | UNTESTED_THIS_CYCLE);
        }
    }
    board.running[cycle] = 1;
    return (grelpicado_answer){GRELPICADO_DONE, tidy(board)};
}

static void stop_events(const struct table *table, struct state *state, uint32_t cycle)
{
    for (size_t e = 0; e < table->events; e++) {
        if (table->event[e].cycle == (int32_t)cycle) {
            if (heal_and_age(&table->event[e], state->records + RECORD * e)) {
                leave(table, state, e, GRELPICADO_COUNT_AGED);
            }
            state->debounce[e] = 0;
        }
    }
    state->board.running[cycle] = 0;
}

grelpicado_answer plain_stop(LENT(), uint32_t cycle, COUNTS)
{
    struct table table;
    struct kept kept;
    uint8_t number = with_counts(judge(&table, LENGTHS, BLOCKS, &board), counts_length);
    if (number == GRELPICADO_DONE) {
        number = judge_cycle(&board, cycle, true);
    }
    if (number != GRELPICADO_DONE) {
        return (grelpicado_answer){number, board};
    }
    struct state state = STATE;
    keep_if_near(&table, &state, counts, &kept);
    stop_events(&table, &state, cycle);
    number = add_or_undo(&table, &state, counts, &kept);
    return (grelpicado_answer){number, number == GRELPICADO_DONE ? state.board : board};
}

/* The event of a trouble code, or n where there is none. */
static size_t event_of(const struct table *table, uint32_t code)
{
    size_t low = 0;
    size_t high = table->events;
    while (low < high) {
        size_t middle = (low + high) / 2;
        uint32_t found = (uint32_t)table->event[middle].trouble_code;
        if (found == code) {
            return middle;
        }
        if (found < code) {
            low = middle + 1;
        } else {
            high = middle;
        }
    }
    return table->events;
}

static void clear_all(const struct table *table, struct state *state)
{
    for (size_t e = 0; e < table->events; e++) {
        make_fresh(state->records + RECORD * e);
    }
    state->rise[GRELPICADO_COUNT_CLEARED] = state->memory[0];
    memset(state->debounce, 0, table->events * sizeof *state->debounce);
    memset(state->memory, 0, GRELPICADO_MEMORY_BYTES(table->places, table->frame));
    state->board.overflow = 0;
}

/* Clears one code or all. False, and nothing done, for an unknown code. */
static bool clear_code(const struct table *table, struct state *state, uint32_t code)
{
    if (code == GRELPICADO_ALL_CODES) {
        clear_all(table, state);
        return true;
    }
    size_t event = event_of(table, code);
    if (event == table->events) {
        return false;
    }
    make_fresh(state->records + RECORD * event);
    state->debounce[event] = 0;
    leave(table, state, event, GRELPICADO_COUNT_CLEARED);
    return true;
}

/* The same with the counts: done, 4 or 12. */
static uint8_t clear_counted(const struct table *table, struct state *state, uint32_t code, uint32_t *counts)
{
    struct kept kept;
    keep_if_near(table, state, counts, &kept);
    if (!clear_code(table, state, code)) {
        return GRELPICADO_NO_SUCH;
    }
    return add_or_undo(table, state, counts, &kept);
}

grelpicado_answer plain_clear(LENT(), uint32_t code, COUNTS)
{
    struct table table;
    uint8_t number = with_counts(judge(&table, LENGTHS, BLOCKS, &board), counts_length);
    if (number != GRELPICADO_DONE) {
        return (grelpicado_answer){number, board};
    }
    struct state state = STATE;
    number = clear_counted(&table, &state, code, counts);
    return (grelpicado_answer){number, number == GRELPICADO_DONE ? state.board : board};
}

grelpicado_status_answer plain_read_status(LENT(const), size_t event)
{
    struct table table;
    uint8_t number = judge(&table, LENGTHS, BLOCKS, &board);
    if (number != GRELPICADO_DONE) {
        return (grelpicado_status_answer){number, 0};
    }
    if (event >= table.events) {
        return (grelpicado_status_answer){GRELPICADO_NO_SUCH, 0};
    }
    return (grelpicado_status_answer){GRELPICADO_DONE, records[RECORD * event + STATUS]};
}

/* How near an event is to a fault, -128 to 127. */
static int32_t counter_of(const grelpicado_event *row, int32_t d, uint8_t status)
{
    if (row->debounce_kind == GRELPICADO_KIND_INTERNAL) {
        if (status & GRELPICADO_TEST_FAILED) {
            return 127;
        }
        return status & GRELPICADO_TEST_NOT_COMPLETED_SINCE_LAST_CLEAR ? 0 : -128;
    }
    int32_t less = row->debounce_kind == GRELPICADO_KIND_TIME ? 1 : 0;
    if (d == 0) {
        return 0;
    }
    return d > 0 ? 127 * (d - less) / row->q : -(128 * (-d - less) / -row->p);
}

grelpicado_counter_answer plain_read_counter(LENT(const), size_t event)
{
    struct table table;
    uint8_t number = judge(&table, LENGTHS, BLOCKS, &board);
    if (number != GRELPICADO_DONE) {
        return (grelpicado_counter_answer){number, 0};
    }
    if (event >= table.events) {
        return (grelpicado_counter_answer){GRELPICADO_NO_SUCH, 0};
    }
    int32_t counter = counter_of(&table.event[event], debounce[event], records[RECORD * event + STATUS]);
    return (grelpicado_counter_answer){GRELPICADO_DONE, (int8_t)counter};
}

grelpicado_missing_answer plain_read_missing(LENT(const), size_t event, uint32_t present)
{
    struct table table;
    uint8_t number = judge(&table, LENGTHS, BLOCKS, &board);
    if (number != GRELPICADO_DONE) {
        return (grelpicado_missing_answer){number, 0, 0};
    }
    if (event >= table.events) {
        return (grelpicado_missing_answer){GRELPICADO_NO_SUCH, 0, 0};
    }
    uint32_t missing = missing_of(&table.event[event], present);
    uint32_t count = 0;
    uint32_t lowest = GRELPICADO_NONE_MISSING;
    for (uint32_t k = GRELPICADO_CONDITIONS; k-- > 0;) {
        if (missing & GRELPICADO_CONDITION(k)) {
            count++;
            lowest = k;
        }
    }
    return (grelpicado_missing_answer){GRELPICADO_DONE, count, lowest};
}

/* Not tested in this run, or no run goes on. */
static bool is_grey(const grelpicado_event *row, uint8_t status, const grelpicado_board *board)
{
    return (status & GRELPICADO_TEST_NOT_COMPLETED_THIS_OPERATION_CYCLE) != 0 || board->running[row->cycle] == 0;
}

grelpicado_table_answer plain_read_table(LENT(const))
{
    struct table table;
    grelpicado_table_answer answer = {judge(&table, LENGTHS, BLOCKS, &board), {{0}}};
    if (answer.number != GRELPICADO_DONE) {
        return answer;
    }
    for (size_t e = 0; e < table.events; e++) {
        uint16_t *counts = answer.counts[table.event[e].cycle];
        uint8_t status = records[RECORD * e + STATUS];
        for (unsigned bit = 0; bit < 8; bit++) {
            counts[bit] = (uint16_t)(counts[bit] + (status >> bit & 1u));
        }
    }
    return answer;
}

grelpicado_paint_answer plain_read_paint(LENT(const), size_t event)
{
    struct table table;
    uint8_t number = judge(&table, LENGTHS, BLOCKS, &board);
    if (number != GRELPICADO_DONE) {
        return (grelpicado_paint_answer){number, GRELPICADO_PAINT_GREY};
    }
    if (event >= table.events) {
        return (grelpicado_paint_answer){GRELPICADO_NO_SUCH, GRELPICADO_PAINT_GREY};
    }
    uint8_t status = records[RECORD * event + STATUS];
    uint8_t tested = status & GRELPICADO_TEST_FAILED ? GRELPICADO_PAINT_RED : GRELPICADO_PAINT_LIVE;
    return (grelpicado_paint_answer){
        GRELPICADO_DONE, is_grey(&table.event[event], status, &board) ? GRELPICADO_PAINT_GREY : tested};
}

/* The grey events are gathered apart, so that a list that is too short stays as it is. */
grelpicado_length_answer plain_list_grey(LENT(const), uint16_t *list, size_t list_length)
{
    struct table table;
    uint16_t grey[GRELPICADO_MAX_EVENTS];
    size_t number_of_grey = 0;
    uint8_t number = judge(&table, LENGTHS, BLOCKS, &board);
    if (number != GRELPICADO_DONE) {
        return (grelpicado_length_answer){number, 0};
    }
    for (size_t e = 0; e < table.events; e++) {
        if (is_grey(&table.event[e], records[RECORD * e + STATUS], &board)) {
            grey[number_of_grey++] = (uint16_t)e;
        }
    }
    if (list_length < number_of_grey) {
        return (grelpicado_length_answer){GRELPICADO_ROOM_TOO_SMALL, 0};
    }
    memcpy(list, grey, number_of_grey * sizeof grey[0]);
    return (grelpicado_length_answer){GRELPICADO_DONE, number_of_grey};
}

grelpicado_frame_answer plain_read_frame(LENT(const), size_t event, uint32_t which)
{
    struct table table;
    uint8_t number = judge(&table, LENGTHS, BLOCKS, &board);
    if (number != GRELPICADO_DONE) {
        return (grelpicado_frame_answer){number, 0, 0};
    }
    if (event >= table.events) {
        return (grelpicado_frame_answer){GRELPICADO_NO_SUCH, 0, 0};
    }
    int place = place_of(&table, memory, event);
    if (place == NO_PLACE) {
        return (grelpicado_frame_answer){GRELPICADO_NO_ENTRY, 0, 0};
    }
    size_t first = 1 + (size_t)place * table.entry + HEAD;
    size_t start = which == GRELPICADO_FIRST ? first : first + table.frame;
    return (grelpicado_frame_answer){GRELPICADO_DONE, start, table.frame};
}

/* ---- the image */

static void put_two(uint8_t *at, size_t number)
{
    at[0] = (uint8_t)(number >> 8);
    at[1] = (uint8_t)number;
}

/* Bytes of an entry in an image of an edition. */
static size_t entry_of(const struct table *table, uint8_t edition)
{
    return edition == EDITION_1 ? HEAD + table->frame : table->entry;
}

/* The image's bytes before its bodies. Answers the image's length. */
static size_t image_head(const struct table *table, uint8_t edition, size_t entries, uint8_t head[IMAGE_HEAD])
{
    const size_t lengths[3] = {RECORD * table->events, 1 + entries * entry_of(table, edition), 1};
    size_t offset = IMAGE_HEAD;
    head[0] = 3;
    head[1] = edition;
    for (size_t body = 0; body < 3; body++) {
        uint8_t *row = head + 2 + 6 * body;
        row[0] = (uint8_t)(body + 1);
        row[1] = 0;
        put_two(row + 2, offset);
        put_two(row + 4, lengths[body]);
        offset += lengths[body];
    }
    return offset;
}

grelpicado_length_answer plain_save(LENT(const), uint8_t *room, size_t room_length)
{
    struct table table;
    uint8_t number = judge(&table, LENGTHS, BLOCKS, &board);
    if (number != GRELPICADO_DONE) {
        return (grelpicado_length_answer){number, 0};
    }
    const uint8_t *running = board.running;
    if (running[0] || running[1] || running[2] || running[3]) {
        return (grelpicado_length_answer){GRELPICADO_WRONG_CYCLE_STATE, 0};
    }
    uint8_t head[IMAGE_HEAD];
    size_t length = image_head(&table, EDITION_2, memory[0], head);
    if (room_length < length) {
        return (grelpicado_length_answer){GRELPICADO_ROOM_TOO_SMALL, 0};
    }
    memcpy(room, head, IMAGE_HEAD);
    memcpy(room + IMAGE_HEAD, records, records_length);
    memcpy(room + IMAGE_HEAD + records_length, memory, 1 + memory[0] * table.entry);
    room[length - 1] = flag(board.overflow);
    return (grelpicado_length_answer){GRELPICADO_DONE, length};
}

/* Whether it is the image, of either edition, of a well-formed state with all cycles stopped. */
static bool image_fits(const struct table *table, const uint8_t *image, size_t length)
{
    if (length <= IMAGE_HEAD + RECORD * table->events) {
        return false;
    }
    const uint8_t *records = image + IMAGE_HEAD;
    const uint8_t *memory = records + RECORD * table->events;
    uint8_t edition = image[1];
    uint8_t head[IMAGE_HEAD];
    if (edition != EDITION_1 && edition != EDITION_2) {
        return false;
    }
    if (memory[0] > table->places || image_head(table, edition, memory[0], head) != length
        || memcmp(head, image, IMAGE_HEAD) != 0 || image[length - 1] > 1) {
        return false;
    }
    for (size_t e = 0; e < table->events; e++) {
        if (!record_fits(&table->event[e], records + RECORD * e)) {
            return false;
        }
    }
    return entries_fit(table, entry_of(table, edition), memory, records);
}

/* Puts the entries of an image's second body into the memory block. In edition 1 the one frame becomes both. */
static void take_entries(const struct table *table, uint8_t edition, const uint8_t *saved, uint8_t *memory)
{
    size_t width = entry_of(table, edition);
    if (width == table->entry) {
        memcpy(memory, saved, 1 + saved[0] * width);
        return;
    }
    memory[0] = saved[0];
    for (size_t i = 0; i < saved[0]; i++) {
        const uint8_t *from = saved + 1 + i * width;
        uint8_t *entry = entry_at(table, memory, i);
        memcpy(entry, from, width);
        memcpy(entry + width, from + HEAD, table->frame);
    }
}

grelpicado_answer plain_restore(LENT(), const uint8_t *image, size_t image_length, COUNTS)
{
    struct table table;
    uint8_t number = with_counts(judge_lengths(&table, LENGTHS), counts_length);
    if (number == GRELPICADO_DONE && !image_fits(&table, image, image_length)) {
        number = GRELPICADO_BAD_IMAGE;
    }
    if (number != GRELPICADO_DONE) {
        return (grelpicado_answer){number, board};
    }
    const uint8_t *saved = image + IMAGE_HEAD + records_length;
    size_t used = 1 + saved[0] * table.entry;
    memcpy(records, image + IMAGE_HEAD, records_length);
    memset(debounce, 0, debounce_length * sizeof *debounce);
    take_entries(&table, image[1], saved, memory);
    memset(memory + used, 0, memory_length - used);
    memset(counts, 0, counts_length * sizeof *counts);
    counts[GRELPICADO_COUNT_ADMITTED] = saved[0];
    return (grelpicado_answer){GRELPICADO_DONE, {{0, 0, 0, 0}, image[image_length - 1]}};
}

/* ---- diagnostic requests */

enum {
    READ_INFORMATION = 0x19, CLEAR_INFORMATION = 0x14, POSITIVE = 0x40, NEGATIVE = 0x7F,
    COUNT_BY_MASK = 0x01, LIST_BY_MASK = 0x02, LIST_ALL = 0x0A, LIST_NEAR = 0x14, SHOW_FRAMES = 0x04,
    SHOW_DETAILS = 0x06, SUPPRESS = 0x80
};

/* The codes of negative replies; 0 where the request is good. */
enum {
    GOOD = 0, NO_SERVICE = 0x11, NO_SUB_FUNCTION = 0x12, WRONG_LENGTH = 0x13, REPLY_TOO_LONG = 0x14,
    OUT_OF_RANGE = 0x31
};

/* A request of service 19. */
struct question {
    uint8_t sub_function;
    bool all; /* every event matches, even with status 0, which no mask meets */
    uint8_t mask;
};

static bool matches(const struct question *question, uint8_t status)
{
    return question->all || (status & question->mask) != 0;
}

static uint8_t judge_question(struct question *question, const uint8_t *request, size_t length)
{
    if (length == 1) {
        return WRONG_LENGTH;
    }
    question->sub_function = request[1] & 0x7F;
    if (question->sub_function == SHOW_FRAMES || question->sub_function == SHOW_DETAILS) {
        return length == 6 ? GOOD : WRONG_LENGTH;
    }
    question->all = question->sub_function == LIST_ALL || question->sub_function == LIST_NEAR;
    if (!question->all && question->sub_function != COUNT_BY_MASK && question->sub_function != LIST_BY_MASK) {
        return NO_SUB_FUNCTION;
    }
    if (length != (question->all ? 2 : 3)) {
        return WRONG_LENGTH;
    }
    question->mask = question->all ? 0 : request[2];
    return GOOD;
}

static void put_code(uint8_t *at, int32_t code)
{
    at[0] = (uint8_t)(code >> 16);
    at[1] = (uint8_t)(code >> 8);
    at[2] = (uint8_t)code;
}

static void list(const struct table *table, const uint8_t *records, const struct question *question, uint8_t *at)
{
    for (size_t e = 0; e < table->events; e++) {
        uint8_t status = records[RECORD * e + STATUS];
        if (matches(question, status)) {
            put_code(at, table->event[e].trouble_code);
            at[3] = status;
            at += 4;
        }
    }
}

static size_t count_matching(const struct table *table, const uint8_t *records, const struct question *question)
{
    size_t count = 0;
    for (size_t e = 0; e < table->events; e++) {
        count += matches(question, records[RECORD * e + STATUS]);
    }
    return count;
}

/* The events whose counter is 1 to 126, with it. Without a room they are only counted. */
static size_t list_near(const struct table *table, const struct state *state, uint8_t *at)
{
    size_t count = 0;
    for (size_t e = 0; e < table->events; e++) {
        int32_t counter = counter_of(&table->event[e], state->debounce[e], state->records[RECORD * e + STATUS]);
        if (counter < 1 || counter > 126) {
            continue;
        }
        if (at != NULL) {
            put_code(at + 4 * count, table->event[e].trouble_code);
            at[4 * count + 3] = (uint8_t)counter;
        }
        count++;
    }
    return count;
}

/* Sub-function 14. */
static uint8_t reply_near(
    const struct table *table, const struct state *state, uint8_t *room, size_t room_length, size_t *length)
{
    *length = 2 + 4 * list_near(table, state, NULL);
    if (*length > room_length) {
        return REPLY_TOO_LONG;
    }
    room[0] = READ_INFORMATION + POSITIVE;
    room[1] = LIST_NEAR;
    list_near(table, state, room + 2);
    return GOOD;
}

/* Sub-functions 04 and 06: the event of one trouble code, and its frames or its details. */
static uint8_t show(
    const struct table *table, const struct state *state, const uint8_t *request, uint8_t *room, size_t room_length,
    size_t *length)
{
    bool frames = (request[1] & 0x7F) == SHOW_FRAMES;
    size_t event = event_of(table, (uint32_t)request[2] << 16 | (uint32_t)request[3] << 8 | request[4]);
    if (event == table->events || (request[5] != 0x01 && request[5] != 0xFF)) {
        return OUT_OF_RANGE;
    }
    if (request[1] & SUPPRESS) {
        *length = 0;
        return GOOD;
    }
    const uint8_t *record = state->records + RECORD * event;
    int place = place_of(table, state->memory, event);
    *length = place == NO_PLACE ? 6 : frames ? 7 + 2 * table->frame : 11;
    if (*length > room_length) {
        return REPLY_TOO_LONG;
    }
    room[0] = READ_INFORMATION + POSITIVE;
    memcpy(room + 1, request + 1, 4);
    room[5] = record[STATUS];
    if (place == NO_PLACE) {
        return GOOD;
    }
    const uint8_t *entry = state->memory + 1 + (size_t)place * table->entry;
    room[6] = 0x01;
    if (frames) {
        memcpy(room + 7, entry + HEAD, 2 * table->frame);
    } else {
        room[7] = entry[OCCURRENCE];
        memcpy(room + 8, record + K, 3);
    }
    return GOOD;
}

/* Service 19. Answers the code of a negative reply, or 0 and the reply's length. */
static uint8_t read_information(
    const struct table *table, const struct state *state, const uint8_t *request, size_t request_length,
    uint8_t *room, size_t room_length, size_t *length)
{
    const uint8_t *records = state->records;
    struct question question;
    uint8_t code = judge_question(&question, request, request_length);
    if (code != GOOD) {
        return code;
    }
    if (question.sub_function == SHOW_FRAMES || question.sub_function == SHOW_DETAILS) {
        return show(table, state, request, room, room_length, length);
    }
    if (request[1] & SUPPRESS) {
        *length = 0;
        return GOOD;
    }
    if (question.sub_function == LIST_NEAR) {
        return reply_near(table, state, room, room_length, length);
    }
    size_t matching = question.all ? table->events : count_matching(table, records, &question);
    bool counts = question.sub_function == COUNT_BY_MASK;
    *length = counts ? 6 : 3 + 4 * matching;
    if (*length > room_length) {
        return REPLY_TOO_LONG;
    }
    room[0] = READ_INFORMATION + POSITIVE;
    room[1] = question.sub_function;
    room[2] = 0xFF;
    if (counts) {
        room[3] = 0x01;
        put_two(room + 4, matching);
    } else {
        list(table, records, &question, room + 3);
    }
    return GOOD;
}

/* Service 14, likewise; the number is 12 where the counts refuse the clear. */
static uint8_t clear_information(
    const struct table *table, struct state *state, uint32_t *counts, const uint8_t *request, size_t request_length,
    uint8_t *room, size_t *length, uint8_t *number)
{
    if (request_length != 4) {
        return WRONG_LENGTH;
    }
    uint32_t code = (uint32_t)request[1] << 16 | (uint32_t)request[2] << 8 | request[3];
    uint8_t cleared = clear_counted(table, state, code, counts);
    if (cleared == GRELPICADO_NO_SUCH) {
        return OUT_OF_RANGE;
    }
    *number = cleared;
    if (cleared == GRELPICADO_DONE) {
        room[0] = CLEAR_INFORMATION + POSITIVE;
        *length = 1;
    }
    return GOOD;
}

/* Answers the number, which is 12 or 0, and the reply's length. */
static uint8_t reply(
    const struct table *table, struct state *state, uint32_t *counts, const uint8_t *request, size_t request_length,
    uint8_t *room, size_t room_length, size_t *length)
{
    uint8_t code = NO_SERVICE;
    uint8_t number = GRELPICADO_DONE;
    if (request[0] == READ_INFORMATION) {
        code = read_information(table, state, request, request_length, room, room_length, length);
    } else if (request[0] == CLEAR_INFORMATION) {
        code = clear_information(table, state, counts, request, request_length, room, length, &number);
    }
    if (code == GOOD) {
        return number;
    }
    room[0] = NEGATIVE;
    room[1] = request[0];
    room[2] = code;
    *length = 3;
    return GRELPICADO_DONE;
}

grelpicado_request_answer plain_request(
    LENT(), const uint8_t *request, size_t request_length, uint8_t *room, size_t room_length, COUNTS)
{
    struct table table;
    uint8_t number = with_counts(judge(&table, LENGTHS, BLOCKS, &board), counts_length);
    if (number == GRELPICADO_DONE && room_length < 3) {
        number = GRELPICADO_ROOM_TOO_SMALL;
    }
    if (number == GRELPICADO_DONE && request_length == 0) {
        number = GRELPICADO_BAD_ARGUMENT;
    }
    if (number != GRELPICADO_DONE) {
        return (grelpicado_request_answer){number, 0, board};
    }
    struct state state = STATE;
    size_t length = 0;
    number = reply(&table, &state, counts, request, request_length, room, room_length, &length);
    return (grelpicado_request_answer){number, length, number == GRELPICADO_DONE ? state.board : board};
}
