/*
 * What a tester on the bus would see: a session on a context, and each request with the reply that the
 * archive wrote, a line each, in hexadecimal digits; "-" where the reply is suppressed. The script `peer`
 * carries them over CAN and has them read by a stock dissector.
 */
#include <stdio.h>

#include "grelpicado.h"

enum { EVENTS = 3, PLACES = 2, FRAME = 4 };

static const GRELPICADO_CONFIG(EVENTS) config = {
    EVENTS, PLACES, FRAME,
    {
        {0x123456, 1, GRELPICADO_CYCLE_0, GRELPICADO_KIND_INTERNAL, 0, 0, 0, 0, GRELPICADO_JUMP_NONE, 1, 1, 1, 1, 0},
        {0x123457, 2, GRELPICADO_CYCLE_0, GRELPICADO_KIND_INTERNAL, 0, 0, 0, 0, GRELPICADO_JUMP_NONE, 2, 1, 1, 0, 0},
        {0x123458, 3, GRELPICADO_CYCLE_0, GRELPICADO_KIND_COUNTER, -2, 2, 1, 1, GRELPICADO_JUMP_NONE, 1, 1, 1, 0, 0},
    },
};

static uint8_t records[GRELPICADO_RECORDS_BYTES(EVENTS)];
static int32_t debounce[GRELPICADO_DEBOUNCE_NUMBERS(EVENTS)];
static uint8_t memory[GRELPICADO_MEMORY_BYTES(PLACES, FRAME)];
static uint32_t counts[GRELPICADO_COUNTS];
static uint8_t reply[GRELPICADO_REPLY_BYTES(EVENTS, FRAME)];

static void print_bytes(const uint8_t *bytes, size_t length)
{
    for (size_t i = 0; i < length; i++) {
        printf("%02x", (unsigned)bytes[i]);
    }
    if (length == 0) {
        printf("-");
    }
}

/* A request of at most 6 bytes, in a room of so many bytes. */
struct asked {
    uint8_t length;
    uint8_t bytes[6];
    uint8_t room;
};

static const struct asked all[] = {
    {6, {0x19, 0x04, 0x12, 0x34, 0x56, 0x01}, sizeof reply},
    {6, {0x19, 0x04, 0x12, 0x34, 0x56, 0xFF}, sizeof reply},
    {6, {0x19, 0x06, 0x12, 0x34, 0x56, 0x01}, sizeof reply},
    {6, {0x19, 0x06, 0x12, 0x34, 0x56, 0xFF}, sizeof reply},
    {6, {0x19, 0x04, 0x12, 0x34, 0x57, 0x01}, sizeof reply},
    {6, {0x19, 0x06, 0x12, 0x34, 0x57, 0xFF}, sizeof reply},
    {6, {0x19, 0x84, 0x12, 0x34, 0x56, 0x01}, sizeof reply},
    {6, {0x19, 0x86, 0x12, 0x34, 0x56, 0xFF}, sizeof reply},
    {6, {0x19, 0x04, 0x12, 0x34, 0x56, 0x00}, sizeof reply},
    {6, {0x19, 0x84, 0x12, 0x34, 0x59, 0x01}, sizeof reply},
    {6, {0x19, 0x06, 0xFF, 0xFF, 0xFF, 0x01}, sizeof reply},
    {5, {0x19, 0x06, 0x12, 0x34, 0x56}, sizeof reply},
    {6, {0x19, 0x04, 0x12, 0x34, 0x56, 0x01}, 7 + 2 * FRAME - 1},
    {6, {0x19, 0x05, 0x12, 0x34, 0x56, 0x01}, sizeof reply},
    {3, {0x19, 0x01, 0x01}, sizeof reply},
    {3, {0x19, 0x02, 0x01}, sizeof reply},
    {2, {0x19, 0x0A}, sizeof reply},
    {2, {0x19, 0x14}, sizeof reply},
    {4, {0x14, 0x12, 0x34, 0x59}, sizeof reply},
    {4, {0x14, 0x12, 0x34, 0x56}, sizeof reply},
    {2, {0x22, 0x01}, sizeof reply},
};

static uint8_t report(grelpicado *manager, size_t event, uint32_t code, uint8_t last)
{
    const uint8_t frame[FRAME] = {0xCA, 0xFE, 0x01, last};
    return grelpicado_ctx_report(manager, event, code, GRELPICADO_LEND(frame), GRELPICADO_ALL_PRESENT).number;
}

int main(void)
{
    grelpicado manager;
    int well = grelpicado_begin(
        &manager, GRELPICADO_LEND_CONFIG(config), GRELPICADO_LEND(records), GRELPICADO_LEND(debounce),
        GRELPICADO_LEND(memory), GRELPICADO_LEND(counts)) == GRELPICADO_DONE
        && grelpicado_ctx_start(&manager, GRELPICADO_CYCLE_0) == GRELPICADO_DONE
        && report(&manager, 0, GRELPICADO_FAILED, 0x02) == GRELPICADO_DONE
        && report(&manager, 0, GRELPICADO_PASSED, 0x03) == GRELPICADO_DONE
        && report(&manager, 0, GRELPICADO_FAILED, 0x04) == GRELPICADO_DONE
        && report(&manager, 2, GRELPICADO_PRE_FAILED, 0x05) == GRELPICADO_DONE;
    for (size_t i = 0; well && i < sizeof all / sizeof all[0]; i++) {
        grelpicado_length_answer answer =
            grelpicado_ctx_request(&manager, all[i].bytes, all[i].length, reply, all[i].room);
        well = answer.number == GRELPICADO_DONE;
        print_bytes(all[i].bytes, all[i].length);
        printf(" ");
        print_bytes(reply, answer.length);
        printf("\n");
    }
    return well ? 0 : 1;
}
