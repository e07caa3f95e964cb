/*
 * A panel's loop for one pump, with two events of its one cycle, a run of the machine:
 *
 *   the pressure   tested on each value that arrives while the pump is on, counted up and down
 *   the link       tested every 100 ms by whether the sensor answers, timed
 *
 * The pump may be switched off in a run. The sensor then answers 0.00 bar, and that is no fault: the
 * pressure needs the condition that the pump is on. The panel reports what it reads all the same. Without
 * the condition the report is refused, nothing happens, and the panel asks what is missing.
 *
 * While the link is silent no value arrives, and the pressure is not tested either. The panel paints the
 * value as the pressure is painted, but grey unless the link is live and the pump is on. So a last value
 * does not stay live on the glass after the link has dropped, the pump was switched off or the run has
 * ended, when nothing is tested and the bytes stay.
 *
 * The memory has one place, and the pressure is the more important: its entry pushes the link's out, and
 * while it is there a failure of the link is not stored. The counts tell a service engineer so.
 */
#include <stdbool.h>
#include <stdio.h>
#include <stdlib.h>
#include <string.h>

#include "grelpicado.h"

enum { EVENTS = 2, PLACES = 1, FRAME = 2 };
enum { PRESSURE = 0, LINK = 1 };
enum { RUN = 0 };      /* the cycle of both events */
enum { PUMP_ON = 0 };  /* the condition that the pressure needs */
enum { STEP_MS = 100 };
enum { LOWEST = 150, HIGHEST = 400 };  /* the good pressures, in 0.01 bar */
enum { SILENT = -1 };  /* no value arrived */

static const GRELPICADO_CONFIG(EVENTS) config = {
    .events = EVENTS,
    .places = PLACES,
    .frame_bytes = FRAME,
    .event = {
        [PRESSURE] = {
            .trouble_code = 0x0A11,
            .priority = 1,
            .cycle = RUN,
            .debounce_kind = GRELPICADO_KIND_COUNTER,
            .p = -2,
            .q = 2,
            .up = 1,
            .down = 1,
            .jumps = GRELPICADO_JUMP_BOTH,
            .confirm = 1,
            .heal = 1,
            .age = 3,
            .indicator = 1,
            .needed = GRELPICADO_CONDITION(PUMP_ON),
        },
        [LINK] = {
            .trouble_code = 0x0A12,
            .priority = 2,
            .cycle = RUN,
            .debounce_kind = GRELPICADO_KIND_TIME,
            .p = -200,
            .q = 500,
            .confirm = 1,
            .heal = 1,
            .age = 3,
            .indicator = 1,
        },
    },
};

/* All that the manager works on beside the configuration. It belongs to the panel. */
struct panel {
    uint8_t records[GRELPICADO_RECORDS_BYTES(EVENTS)];
    int32_t debounce[GRELPICADO_DEBOUNCE_NUMBERS(EVENTS)];
    uint8_t memory[GRELPICADO_MEMORY_BYTES(PLACES, FRAME)];
    uint32_t counts[GRELPICADO_COUNTS];
    grelpicado manager;
    uint32_t present; /* the set of conditions that are present */
};

static void must_be_done(uint8_t number, const char *call)
{
    if (number != GRELPICADO_DONE) {
        fprintf(stderr, "%s refused: %u\n", call, (unsigned)number);
        exit(EXIT_FAILURE);
    }
}

static void switch_pump(struct panel *panel, bool on)
{
    panel->present = on ? GRELPICADO_CONDITION(PUMP_ON) : 0;
}

static void begin(struct panel *panel)
{
    uint8_t number = grelpicado_begin(
        &panel->manager, GRELPICADO_LEND_CONFIG(config), GRELPICADO_LEND(panel->records),
        GRELPICADO_LEND(panel->debounce), GRELPICADO_LEND(panel->memory), GRELPICADO_LEND(panel->counts));
    must_be_done(number, "begin");
    switch_pump(panel, true);
}

static uint8_t status_of(const struct panel *panel, size_t event)
{
    grelpicado_status_answer answer = grelpicado_ctx_read_status(&panel->manager, event);
    must_be_done(answer.number, "read status");
    return answer.status;
}

/* Grey, red or live; grey also of an event that the manager does not know. */
static uint8_t paint_of(const struct panel *panel, size_t event)
{
    return grelpicado_ctx_read_paint(&panel->manager, event).paint;
}

/* Which conditions keep the pressure from being tested. */
static grelpicado_missing_answer missing_of(const struct panel *panel)
{
    grelpicado_missing_answer answer =
        grelpicado_ctx_read_missing(&panel->manager, PRESSURE, panel->present);
    must_be_done(answer.number, "read missing");
    return answer;
}

/* The value on the glass. */
static uint8_t paint_of_value(const struct panel *panel)
{
    bool tested = paint_of(panel, LINK) == GRELPICADO_PAINT_LIVE && missing_of(panel).count == 0;
    return tested ? paint_of(panel, PRESSURE) : GRELPICADO_PAINT_GREY;
}

/* ---- printing */

static const char *const paint_names[3] = {
    [GRELPICADO_PAINT_GREY] = "grey",
    [GRELPICADO_PAINT_RED] = "red",
    [GRELPICADO_PAINT_LIVE] = "live",
};

static const char *const bit_names[8] = {
    "testFailed", "testFailedThisOperationCycle", "pending", "confirmed",
    "testNotCompletedSinceLastClear", "testFailedSinceLastClear",
    "testNotCompletedThisOperationCycle", "warningIndicatorRequested",
};

static void print_event(const struct panel *panel, const char *name, size_t event)
{
    uint8_t status = status_of(panel, event);
    printf("  %-9s%-5s%02Xh", name, paint_names[paint_of(panel, event)], (unsigned)status);
    for (unsigned bit = 0; bit < 8; bit++) {
        if (status >> bit & 1u) {
            printf(" %s", bit_names[bit]);
        }
    }
    putchar('\n');
}

/* Each condition that an event needs has a text here. */
static const char *const reasons[GRELPICADO_CONDITIONS] = {[PUMP_ON] = "the pump is off"};

static void print_panel(const struct panel *panel, const char *moment)
{
    printf("%s\n", moment);
    print_event(panel, "pressure", PRESSURE);
    print_event(panel, "link", LINK);
    printf("  the value is painted %s\n", paint_names[paint_of_value(panel)]);
    grelpicado_missing_answer missing = missing_of(panel);
    if (missing.count > 0) {
        printf("  the pressure is not tested: %s\n", reasons[missing.lowest]);
    }
}

/* The value of a frame of the pressure, read in the panel's own memory block; false where it has no entry. */
static bool print_frame(const struct panel *panel, const char *name, uint32_t which)
{
    grelpicado_frame_answer frame = grelpicado_ctx_read_frame(&panel->manager, PRESSURE, which);
    if (frame.number == GRELPICADO_NO_ENTRY) {
        printf("  no entry of the pressure\n");
        return false;
    }
    must_be_done(frame.number, "read frame");
    const uint8_t *bytes = panel->memory + frame.start;
    unsigned value = bytes[0] * 256u + bytes[1];
    printf("  stored with the %s failure: %u.%02u bar\n", name, value / 100, value % 100);
    return true;
}

static void print_frames(const struct panel *panel)
{
    if (print_frame(panel, "first", GRELPICADO_FIRST)) {
        print_frame(panel, "latest", GRELPICADO_LATEST);
    }
}

/* Where the entries went: those admitted are those in memory, pushed out, aged and cleared. */
static void print_counts(const struct panel *panel)
{
    const uint32_t *counts = panel->counts;
    printf("  entries: %u admitted; %u in memory, %u pushed out, %u aged, %u cleared; failures not stored: %u\n",
        (unsigned)counts[GRELPICADO_COUNT_ADMITTED], (unsigned)panel->memory[0],
        (unsigned)counts[GRELPICADO_COUNT_PUSHED_OUT], (unsigned)counts[GRELPICADO_COUNT_AGED],
        (unsigned)counts[GRELPICADO_COUNT_CLEARED], (unsigned)counts[GRELPICADO_COUNT_NOT_STORED]);
}

/* ---- the loop */

/* Without a condition that the event needs, it is not tested now: refused, and nothing has changed. */
static void report(struct panel *panel, size_t event, uint32_t code, const uint8_t *frame)
{
    uint8_t number =
        grelpicado_ctx_report(&panel->manager, event, code, frame, FRAME, panel->present).number;
    if (number != GRELPICADO_MISSING_CONDITION) {
        must_be_done(number, "report");
    }
}

/* One step: the link answers with a value or is silent, and 100 ms pass. */
static void step(struct panel *panel, int value)
{
    bool answers = value != SILENT;
    uint8_t frame[FRAME] = {0, 0};
    if (answers) {
        bool good = LOWEST <= value && value <= HIGHEST;
        frame[0] = (uint8_t)(value / 256);
        frame[1] = (uint8_t)(value % 256);
        report(panel, PRESSURE, good ? GRELPICADO_PRE_PASSED : GRELPICADO_PRE_FAILED, frame);
    }
    report(panel, LINK, answers ? GRELPICADO_PRE_PASSED : GRELPICADO_PRE_FAILED, frame);
    must_be_done(grelpicado_ctx_tick(&panel->manager, STEP_MS, frame, FRAME, panel->present), "tick");
}

static void go_on(struct panel *panel, const int *values, size_t steps)
{
    for (size_t i = 0; i < steps; i++) {
        step(panel, values[i]);
    }
}

static void run(struct panel *panel, const int *values, size_t steps)
{
    must_be_done(grelpicado_ctx_start(&panel->manager, RUN), "start");
    go_on(panel, values, steps);
}

static void stop(struct panel *panel)
{
    must_be_done(grelpicado_ctx_stop(&panel->manager, RUN), "stop");
}

/* ---- power off and on */

/* Saves the state, loses every block, and restores. */
static void lose_power(struct panel *panel)
{
    uint8_t image[GRELPICADO_IMAGE_BYTES(EVENTS, PLACES, FRAME)];
    grelpicado_length_answer saved = grelpicado_ctx_save(&panel->manager, GRELPICADO_LEND(image));
    must_be_done(saved.number, "save");
    printf("Power off: %zu bytes saved.\n", saved.length);
    memset(panel, 0xA5, sizeof *panel);
    begin(panel);
    must_be_done(grelpicado_ctx_restore(&panel->manager, image, saved.length), "restore");
}

/* ---- the pump is switched off and on, in one run */

static void switch_off_and_on(struct panel *panel)
{
    static const int good[] = {210, 209, 210};
    static const int nothing[] = {0, 0, 0};
    run(panel, GRELPICADO_LEND(good));
    switch_pump(panel, false);
    go_on(panel, GRELPICADO_LEND(nothing));
    print_panel(panel, "Fifth run: 2.10 bar, then the pump is switched off, and the sensor answers 0.00 bar.");
    switch_pump(panel, true);
    go_on(panel, GRELPICADO_LEND(nothing));
    print_panel(panel, "The pump is switched on, and the sensor still answers 0.00 bar.");
    print_frames(panel);
    stop(panel);
}

/* ---- the service screen */

/* A tester clears the code of the pressure. */
static void service(struct panel *panel)
{
    static const uint8_t request[] = {0x14, 0x00, 0x0A, 0x11};
    uint8_t reply[GRELPICADO_REPLY_BYTES(EVENTS, FRAME)];
    must_be_done(
        grelpicado_ctx_request(&panel->manager, GRELPICADO_LEND(request), GRELPICADO_LEND(reply)).number, "request");
    printf("Service: a tester clears the code of the pressure.\n");
    print_counts(panel);
}

int main(void)
{
    static const int no_answer[] = {SILENT, SILENT, SILENT, SILENT, SILENT, SILENT};
    static const int falling[] = {210, 210, 208, 96, 31};
    static const int good[] = {210, 209, 210};
    static const int dropping[] = {210, 210, 210, SILENT, SILENT, SILENT, SILENT, SILENT};
    struct panel panel;
    begin(&panel);

    run(&panel, GRELPICADO_LEND(no_answer));
    print_panel(&panel, "First run: the sensor never answers.");
    stop(&panel);

    run(&panel, GRELPICADO_LEND(falling));
    print_panel(&panel, "Second run: the link is back, then the pressure falls.");
    print_frames(&panel);
    print_counts(&panel);
    stop(&panel);

    lose_power(&panel);
    print_panel(&panel, "Power on: the state is as it was saved.");
    print_counts(&panel);

    run(&panel, GRELPICADO_LEND(good));
    print_panel(&panel, "Third run: the pressure is good again.");
    stop(&panel);
    print_panel(&panel, "Stopped: a clean run has healed the warning.");
    print_frames(&panel);

    run(&panel, GRELPICADO_LEND(dropping));
    print_panel(&panel, "Fourth run: 2.10 bar, then the link drops.");
    print_counts(&panel);
    stop(&panel);

    switch_off_and_on(&panel);
    service(&panel);
    return EXIT_SUCCESS;
}
