/*
 * A tester asks the panel for its trouble codes over CAN. The request goes in a single frame. The reply
 * is longer than that: the panel sends it in a first frame and consecutive frames, the tester lets it
 * go on by flow control after each but the last, and puts it together again.
 *
 * The line is this file: what one side sends, the other is given, and every frame is printed with its
 * identifier. docs/CAN.md says what a driver does beside.
 */
#include <stdio.h>
#include <stdlib.h>
#include <string.h>

#include "grelpicado.h"

enum { EVENTS = 3, PLACES = 4, FRAME = 0 };
enum { TO_PANEL = 0x7E0, TO_TESTER = 0x7E8 };

/* ---- the panel: three events that were never tested */

#define TEST(code) \
    {.trouble_code = (code), .priority = 1, .debounce_kind = GRELPICADO_KIND_INTERNAL, \
     .confirm = 1, .heal = 1, .age = 1}

static const GRELPICADO_CONFIG(EVENTS) config = {
    .events = EVENTS, .places = PLACES, .frame_bytes = FRAME,
    .event = {TEST(0x0A11), TEST(0x0A12), TEST(0x0A13)},
};

static uint8_t records[GRELPICADO_RECORDS_BYTES(EVENTS)];
static int32_t debounce[GRELPICADO_DEBOUNCE_NUMBERS(EVENTS)];
static uint8_t memory[GRELPICADO_MEMORY_BYTES(PLACES, FRAME)];
static uint32_t counts[GRELPICADO_COUNTS];
static grelpicado manager;

/* ---- what each side keeps */

static struct {
    grelpicado_can_sender sender;
    grelpicado_can_receiver receiver;
    uint8_t request[8];
    uint8_t reply[GRELPICADO_REPLY_BYTES(EVENTS, FRAME)];
    size_t reply_length;
} panel;

static struct {
    grelpicado_can_receiver receiver;
    uint8_t reply[64];
} tester;

static void must(uint8_t number)
{
    if (number != GRELPICADO_DONE) {
        fprintf(stderr, "refused: %d\n", number);
        exit(EXIT_FAILURE);
    }
}

static void print_bytes(const uint8_t *bytes, size_t length)
{
    for (size_t i = 0; i < length; i++) {
        printf(" %02X", (unsigned)bytes[i]);
    }
    printf("\n");
}

static void print_frame(unsigned identifier, grelpicado_can_frame frame)
{
    printf("%03X ", identifier);
    print_bytes(frame.bytes, sizeof frame.bytes);
}

/* ---- a frame arrives */

static void tester_takes(grelpicado_can_frame frame);

static void panel_sends(grelpicado_can_frame frame)
{
    print_frame(TO_TESTER, frame);
    tester_takes(frame);
}

static void answer_request(size_t request_length)
{
    grelpicado_length_answer answer = grelpicado_ctx_request(
        &manager, panel.request, request_length, GRELPICADO_LEND(panel.reply));
    must(answer.number);
    if (answer.length > 0) { /* a suppressed reply is not sent */
        grelpicado_can_start_answer started = grelpicado_can_start(panel.reply, answer.length);
        must(started.number);
        panel.reply_length = answer.length;
        panel.sender = started.sender;
        panel_sends(started.frame);
    }
}

/* Flow control goes to the sender, any other frame to the receiver. */
static void panel_takes(grelpicado_can_frame frame)
{
    if (frame.bytes[0] >> 4 == 3) {
        grelpicado_can_flow_answer flow = grelpicado_can_flow(panel.sender, frame);
        panel.sender = flow.sender; /* on 13 the one that was given */
    } else {
        grelpicado_can_take_answer taken =
            grelpicado_can_take(panel.receiver, GRELPICADO_LEND(panel.request), 0, 0, frame);
        panel.receiver = taken.receiver;
        if (taken.says == GRELPICADO_CAN_COMPLETE) {
            answer_request(taken.length);
        }
    }
}

/* Of the panel's loop: the next frame, if one is due. A driver lets the separation time pass before it. */
static int panel_goes_on(void)
{
    grelpicado_can_next_answer next = grelpicado_can_next(panel.sender, panel.reply, panel.reply_length);
    panel.sender = next.sender;
    if (next.due) {
        panel_sends(next.frame);
    }
    return next.due;
}

static void tester_sends(grelpicado_can_frame frame)
{
    print_frame(TO_PANEL, frame);
    panel_takes(frame);
}

/* The tester sends flow control after each frame but the last, 10 ms apart. */
static void tester_takes(grelpicado_can_frame frame)
{
    grelpicado_can_take_answer taken =
        grelpicado_can_take(tester.receiver, GRELPICADO_LEND(tester.reply), 1, 10, frame);
    must(taken.number);
    tester.receiver = taken.receiver;
    if (taken.says == GRELPICADO_CAN_CONTROL) {
        tester_sends(taken.frame);
    } else if (taken.says == GRELPICADO_CAN_COMPLETE) {
        printf("the reply is");
        print_bytes(tester.reply, taken.length);
    }
}

int main(void)
{
    const uint8_t supported_codes[] = {0x19, 0x0A};
    must(grelpicado_begin(&manager, GRELPICADO_LEND_CONFIG(config), GRELPICADO_LEND(records),
                          GRELPICADO_LEND(debounce), GRELPICADO_LEND(memory), GRELPICADO_LEND(counts)));
    grelpicado_can_start_answer asked = grelpicado_can_start(GRELPICADO_LEND(supported_codes));
    must(asked.number);
    tester_sends(asked.frame);
    while (panel_goes_on()) {
    }
    return 0;
}
