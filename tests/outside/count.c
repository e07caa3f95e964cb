/*
 * The calls whose instructions `count` counts: each once through the archive and once through plain C, on
 * equal copies of one state, with mark() before, between and behind. Both must be done and leave the same.
 *
 * It prints where mark lies, and a line for each call: its name, n and M. The state, F = 32 throughout:
 *   - kinds in turn: time, counter, internal; all events in cycle 0, priorities 1 to 8 in turn; each needs
 *     condition 0, and all are present;
 *   - memory is full, or holds an entry of every event where there are fewer events than places; event 0
 *     has the oldest;
 *   - one event in two is confirmed and warns, one in eight ages at the next stop; one in four is fresh
 *     where it has no entry;
 *   - where the cycle runs, the events of kind time are counted up, and one in eight of them is 5 ms
 *     before it fails.
 */
#include <stdbool.h>
#include <stdio.h>
#include <stdlib.h>
#include <string.h>

#include "plain.h"

enum { FRAME = 32, MOST_EVENTS = GRELPICADO_MAX_EVENTS, MOST_PLACES = GRELPICADO_MAX_PLACES };

static size_t n;
static size_t places;
static size_t entries;

static GRELPICADO_CONFIG(MOST_EVENTS) config;
static uint8_t frame[FRAME];
static uint8_t image[GRELPICADO_IMAGE_BYTES(MOST_EVENTS, MOST_PLACES, FRAME)];
static size_t image_length;
static uint8_t older[GRELPICADO_IMAGE_BYTES(MOST_EVENTS, MOST_PLACES, FRAME)]; /* the same as edition 1 */
static size_t older_length;

/* All that a call may write, and its answer. */
struct world {
    uint8_t records[GRELPICADO_RECORDS_BYTES(MOST_EVENTS)];
    int32_t debounce[GRELPICADO_DEBOUNCE_NUMBERS(MOST_EVENTS)];
    uint8_t memory[GRELPICADO_MEMORY_BYTES(MOST_PLACES, FRAME)];
    uint8_t room[GRELPICADO_IMAGE_BYTES(MOST_EVENTS, MOST_PLACES, FRAME)];
    uint16_t list[GRELPICADO_LIST_NUMBERS(MOST_EVENTS)];
    uint16_t table[GRELPICADO_CYCLES][8];
    uint32_t counts[GRELPICADO_COUNTS];
    grelpicado_board board;
    uint8_t number;
    uint8_t value;
    size_t start;
    size_t length;
};

/* ---- the state */

static size_t event_of_place(size_t place)
{
    return 7 * place % n; /* no two equal: 7 and each n here have no factor in common */
}

static void configure(void)
{
    static const grelpicado_event kinds[3] = {
        {.debounce_kind = GRELPICADO_KIND_TIME, .p = -500, .q = 500},
        {.debounce_kind = GRELPICADO_KIND_COUNTER, .p = -100, .q = 100, .up = 10, .down = 5, .jumps = 3},
        {.debounce_kind = GRELPICADO_KIND_INTERNAL},
    };
    config.events = (int32_t)n;
    config.places = (int32_t)places;
    config.frame_bytes = FRAME;
    for (size_t e = 0; e < n; e++) {
        grelpicado_event *row = &config.event[e];
        *row = kinds[e % 3];
        row->trouble_code = (int32_t)(1000 + 3 * e);
        row->priority = (int32_t)(1 + e % 8);
        row->confirm = 2;
        row->heal = 3;
        row->age = 4;
        row->indicator = 1;
        row->needed = GRELPICADO_CONDITION(0);
    }
}

static void fill_records(struct world *world)
{
    static const uint8_t fresh[4] = {GRELPICADO_FRESH_STATUS, 0, 0, 0};
    static const uint8_t passed[4] = {0x20, 0, 0, 0};
    static const uint8_t warns[4] = {0xA8, 0, 1, 0};
    static const uint8_t ages[4] = {0xA8, 0, 1, 3};
    for (size_t e = 0; e < n; e++) {
        const uint8_t *record = e % 8 == 0 ? ages : e % 2 == 0 ? warns : e % 4 == 1 ? passed : fresh;
        memcpy(world->records + 4 * e, record, 4);
    }
}

static void fill_memory(struct world *world)
{
    world->memory[0] = (uint8_t)entries;
    for (size_t i = 0; i < entries; i++) {
        size_t e = event_of_place(i);
        uint8_t *entry = world->memory + 1 + i * (3 + 2 * FRAME);
        entry[0] = (uint8_t)(e >> 8);
        entry[1] = (uint8_t)e;
        entry[2] = 1;
        memset(entry + 3, (int)i, FRAME);
        memset(entry + 3 + FRAME, (int)(i + 1), FRAME);
        if (world->records[4 * e] == GRELPICADO_FRESH_STATUS) {
            world->records[4 * e] = 0x20;
        }
    }
}

static void fill(struct world *world, bool running)
{
    memset(world, 0, sizeof *world);
    fill_records(world);
    fill_memory(world);
    for (size_t e = 0; e < n; e += 3) {
        world->debounce[e] = !running ? 0 : e % 24 == 0 ? 495 : 100;
    }
    world->board.running[0] = running;
}

/* ---- the two sides */

struct side {
    __typeof__(grelpicado_fresh) *fresh;
    __typeof__(grelpicado_report) *report;
    __typeof__(grelpicado_tick) *tick;
    __typeof__(grelpicado_start) *start;
    __typeof__(grelpicado_stop) *stop;
    __typeof__(grelpicado_clear) *clear;
    __typeof__(grelpicado_read_status) *read_status;
    __typeof__(grelpicado_read_counter) *read_counter;
    __typeof__(grelpicado_read_missing) *read_missing;
    __typeof__(grelpicado_read_table) *read_table;
    __typeof__(grelpicado_read_paint) *read_paint;
    __typeof__(grelpicado_list_grey) *list_grey;
    __typeof__(grelpicado_read_frame) *read_frame;
    __typeof__(grelpicado_save) *save;
    __typeof__(grelpicado_restore) *restore;
    __typeof__(grelpicado_request) *request;
};

static const struct side archive = {
    grelpicado_fresh, grelpicado_report, grelpicado_tick, grelpicado_start, grelpicado_stop, grelpicado_clear,
    grelpicado_read_status, grelpicado_read_counter, grelpicado_read_missing, grelpicado_read_table, grelpicado_read_paint,
    grelpicado_list_grey, grelpicado_read_frame, grelpicado_save, grelpicado_restore, grelpicado_request,
};

static const struct side plain = {
    plain_fresh, plain_report, plain_tick, plain_start, plain_stop, plain_clear,
    plain_read_status, plain_read_counter, plain_read_missing, plain_read_table, plain_read_paint, plain_list_grey,
    plain_read_frame, plain_save, plain_restore, plain_request,
};

/* ---- the calls */

#define LENT                                                                    \
    &config.events, GRELPICADO_CONFIG_NUMBERS(n),                               \
    world->records, GRELPICADO_RECORDS_BYTES(n),                                \
    world->debounce, GRELPICADO_DEBOUNCE_NUMBERS(n),                            \
    world->memory, GRELPICADO_MEMORY_BYTES(places, FRAME), world->board

#define COUNTED GRELPICADO_LEND(world->counts)

/* The event whose entry stands in the middle. */
static size_t middle(void)
{
    return event_of_place(entries / 2);
}

static uint32_t middle_code(void)
{
    return (uint32_t)config.event[middle()].trouble_code;
}

static void keep(struct world *world, grelpicado_answer got)
{
    world->number = got.number;
    world->board = got.board;
}

static void report(const struct side *by, struct world *world, size_t event, uint32_t code)
{
    grelpicado_report_answer got =
        by->report(LENT, event, code, GRELPICADO_LEND(frame), GRELPICADO_ALL_PRESENT, COUNTED);
    world->number = got.number;
    world->value = got.verdict;
    world->board = got.board;
}

static void request(const struct side *by, struct world *world, const uint8_t *bytes, size_t length)
{
    grelpicado_request_answer got = by->request(LENT, bytes, length, GRELPICADO_LEND(world->room), COUNTED);
    world->number = got.number;
    world->length = got.length;
    world->board = got.board;
}

static void fresh(const struct side *by, struct world *world)
{
    keep(world, by->fresh(LENT, COUNTED));
}

static void report_renews(const struct side *by, struct world *world)
{
    report(by, world, 0, GRELPICADO_FAILED);
}

/* Event 8 has no entry where there are fewer places than events, and is more important than any or equal. */
static void report_displaces(const struct side *by, struct world *world)
{
    report(by, world, 8, GRELPICADO_FAILED);
}

static void report_passed(const struct side *by, struct world *world)
{
    report(by, world, 0, GRELPICADO_PASSED);
}

static void report_pre_failed(const struct side *by, struct world *world)
{
    report(by, world, 0, GRELPICADO_PRE_FAILED);
}

static void tick(const struct side *by, struct world *world)
{
    keep(world, by->tick(LENT, 10, GRELPICADO_LEND(frame), GRELPICADO_ALL_PRESENT, COUNTED));
}

static void start(const struct side *by, struct world *world)
{
    keep(world, by->start(LENT, 0));
}

static void stop(const struct side *by, struct world *world)
{
    keep(world, by->stop(LENT, 0, COUNTED));
}

static void clear_one(const struct side *by, struct world *world)
{
    keep(world, by->clear(LENT, middle_code(), COUNTED));
}

static void clear_all(const struct side *by, struct world *world)
{
    keep(world, by->clear(LENT, GRELPICADO_ALL_CODES, COUNTED));
}

static void read_status(const struct side *by, struct world *world)
{
    grelpicado_status_answer got = by->read_status(LENT, middle());
    world->number = got.number;
    world->value = got.status;
}

/* Event 0 is of kind time and on its way to a fault. */
static void read_counter(const struct side *by, struct world *world)
{
    grelpicado_counter_answer got = by->read_counter(LENT, 0);
    world->number = got.number;
    world->value = (uint8_t)got.counter;
}

static void read_missing(const struct side *by, struct world *world)
{
    grelpicado_missing_answer got = by->read_missing(LENT, middle(), 0);
    world->number = got.number;
    world->value = (uint8_t)(got.count + got.lowest);
}

static void read_table(const struct side *by, struct world *world)
{
    grelpicado_table_answer got = by->read_table(LENT);
    world->number = got.number;
    memcpy(world->table, got.counts, sizeof got.counts);
}

static void read_paint(const struct side *by, struct world *world)
{
    grelpicado_paint_answer got = by->read_paint(LENT, middle());
    world->number = got.number;
    world->value = got.paint;
}

static void list_grey(const struct side *by, struct world *world)
{
    grelpicado_length_answer got = by->list_grey(LENT, GRELPICADO_LEND(world->list));
    world->number = got.number;
    world->length = got.length;
}

static void read_frame(const struct side *by, struct world *world)
{
    grelpicado_frame_answer got = by->read_frame(LENT, middle(), GRELPICADO_LATEST);
    world->number = got.number;
    world->start = got.start;
    world->length = got.length;
}

static void save(const struct side *by, struct world *world)
{
    grelpicado_length_answer got = by->save(LENT, GRELPICADO_LEND(world->room));
    world->number = got.number;
    world->length = got.length;
}

static void restore(const struct side *by, struct world *world)
{
    keep(world, by->restore(LENT, image, image_length, COUNTED));
}

static void restore_older(const struct side *by, struct world *world)
{
    keep(world, by->restore(LENT, older, older_length, COUNTED));
}

static void count_by_mask(const struct side *by, struct world *world)
{
    request(by, world, (const uint8_t[]){0x19, 0x01, 0xFF}, 3);
}

static void list_by_mask(const struct side *by, struct world *world)
{
    request(by, world, (const uint8_t[]){0x19, 0x02, 0xFF}, 3);
}

static void list_all(const struct side *by, struct world *world)
{
    request(by, world, (const uint8_t[]){0x19, 0x0A}, 2);
}

static void list_near(const struct side *by, struct world *world)
{
    request(by, world, (const uint8_t[]){0x19, 0x14}, 2);
}

/* Sub-function 04 or 06, of the event whose entry stands in the middle. */
static void show(const struct side *by, struct world *world, uint8_t sub_function)
{
    uint32_t code = middle_code();
    const uint8_t bytes[] = {0x19, sub_function, (uint8_t)(code >> 16), (uint8_t)(code >> 8), (uint8_t)code, 0x01};
    request(by, world, bytes, sizeof bytes);
}

static void show_frame(const struct side *by, struct world *world)
{
    show(by, world, 0x04);
}

static void show_details(const struct side *by, struct world *world)
{
    show(by, world, 0x06);
}

static void request_clear_one(const struct side *by, struct world *world)
{
    uint32_t code = middle_code();
    request(by, world, (const uint8_t[]){0x14, (uint8_t)(code >> 16), (uint8_t)(code >> 8), (uint8_t)code}, 4);
}

static void request_clear_all(const struct side *by, struct world *world)
{
    request(by, world, (const uint8_t[]){0x14, 0xFF, 0xFF, 0xFF}, 4);
}

static const struct scene {
    const char *name;
    void (*make)(const struct side *, struct world *);
    bool running;
} scenes[] = {
    {"fresh", fresh, true},
    {"report failed, renews the oldest entry", report_renews, true},
    {"report failed, another entry gives way", report_displaces, true},
    {"report passed", report_passed, true},
    {"report pre-failed, no verdict", report_pre_failed, true},
    {"tick 10 ms", tick, true},
    {"start", start, false},
    {"stop", stop, true},
    {"clear one", clear_one, true},
    {"clear all", clear_all, true},
    {"read status", read_status, true},
    {"read counter", read_counter, true},
    {"read missing", read_missing, true},
    {"read table", read_table, true},
    {"read paint", read_paint, true},
    {"list grey, some", list_grey, true},
    {"list grey, all", list_grey, false},
    {"read frame", read_frame, true},
    {"save", save, false},
    {"restore", restore, false},
    {"restore, edition 1", restore_older, false},
    {"19 01, all match", count_by_mask, true},
    {"19 02, all match", list_by_mask, true},
    {"19 0A", list_all, true},
    {"19 14, a third are near", list_near, true},
    {"19 04", show_frame, true},
    {"19 06", show_details, true},
    {"14, one code", request_clear_one, true},
    {"14, all codes", request_clear_all, true},
};

/* ---- counted */

__attribute__((noinline)) static void mark(void)
{
    __asm__ volatile("");
}

static void give_up(const char *name, const char *words)
{
    fprintf(stderr, "count: %s, n = %zu, M = %zu: %s\n", name, n, places, words);
    exit(EXIT_FAILURE);
}

static void play(const struct scene *scene)
{
    static struct world ours;
    static struct world theirs;
    fill(&ours, scene->running);
    fill(&theirs, scene->running);
    mark();
    scene->make(&archive, &ours);
    mark();
    scene->make(&plain, &theirs);
    mark();
    if (ours.number != GRELPICADO_DONE) {
        give_up(scene->name, "refused");
    }
    if (memcmp(&ours, &theirs, sizeof ours) != 0) {
        give_up(scene->name, "the archive and plain C differ");
    }
    printf("%s|%zu|%zu\n", scene->name, n, places);
}

static void put_two(uint8_t *at, size_t number)
{
    at[0] = (uint8_t)(number >> 8);
    at[1] = (uint8_t)number;
}

/* The image as edition 1 has it: the latest frames are left out, so the second body is shorter. */
static void make_older(void)
{
    size_t memory = 20 + GRELPICADO_RECORDS_BYTES(n);
    size_t length = 1 + entries * (3 + FRAME);
    memcpy(older, image, memory + 1);
    older[1] = 1;
    put_two(older + 12, length);
    put_two(older + 16, memory + length);
    for (size_t i = 0; i < entries; i++) {
        memcpy(older + memory + 1 + i * (3 + FRAME), image + memory + 1 + i * (3 + 2 * FRAME), 3 + FRAME);
    }
    older[memory + length] = image[image_length - 1];
    older_length = memory + length + 1;
}

/* The images that restore takes. */
static void make_images(void)
{
    static struct world world;
    fill(&world, false);
    save(&plain, &world);
    image_length = world.length;
    memcpy(image, world.room, image_length);
    make_older();
}

static void play_all(size_t with_events, size_t with_places)
{
    n = with_events;
    places = with_places;
    entries = n < places ? n : places;
    configure();
    make_images();
    for (size_t i = 0; i < sizeof scenes / sizeof scenes[0]; i++) {
        if (scenes[i].make != report_displaces || n > places) {
            play(&scenes[i]);
        }
    }
}

int main(void)
{
    static const size_t sizes[] = {1, 64, 512};
    memset(frame, 0x5A, sizeof frame);
    printf("%zx\n", (size_t)mark);
    for (size_t i = 0; i < 3; i++) {
        play_all(sizes[i], 1);
        play_all(sizes[i], 64);
    }
    play_all(512, 32); /* between the two M, to see how the cost grows */
    return EXIT_SUCCESS;
}
