/*
 * The side of the outside tests of replies over CAN that a driver's author would
 * write: it includes grelpicado.h, links the archive, and makes the calls that it
 * is told to make. What is right it does not know; the other side does.
 *
 *   can steps     reads steps from standard input, a line each, and answers each with a line
 *   can loop      sends a message of every length through a sender and a receiver, with several
 *                 block sizes, and prints how many went through
 *   can layout    prints the size of each struct, and where its fields lie
 *   can numbers   prints what the header's macros stand for
 *
 * A step and its answer. SENDER is its state, left and next, RECEIVER the same and its size; numbers
 * are decimal, a frame, a message and a room in hex, and an empty one is a point:
 *
 *   start MESSAGE                               NUMBER FRAME SENDER
 *   flow SENDER FRAME                           NUMBER SAYS SEPARATION SENDER
 *   next SENDER MESSAGE                         DUE FRAME SENDER
 *   take RECEIVER BLOCK SEPARATION FRAME ROOM   NUMBER SAYS FRAME LENGTH RECEIVER ROOM
 */
#include <inttypes.h>
#include <stdbool.h>
#include <stdio.h>
#include <stdlib.h>
#include <string.h>

#include "grelpicado.h"

enum { MOST = 8192, GUARD = 64 };

/* A message or a room, with a pattern on both sides. */
static struct {
    uint8_t bytes[GUARD + MOST + GUARD];
    size_t length;
} lent;

static void give_up(const char *words)
{
    fprintf(stderr, "can: %s\n", words);
    exit(EXIT_FAILURE);
}

/* ---- words of a line */

static char line[4 * MOST];

static const char *word(void)
{
    const char *next = strtok(NULL, " \n");
    if (next == NULL) {
        give_up("a word is missing");
    }
    return next;
}

static uint64_t number(void)
{
    return strtoull(word(), NULL, 10);
}

static uint8_t byte(void)
{
    return (uint8_t)number();
}

static uint8_t digit(char of)
{
    if (of >= '0' && of <= '9') {
        return (uint8_t)(of - '0');
    }
    if (of < 'a' || of > 'f') {
        give_up("no digit");
    }
    return (uint8_t)(of - 'a' + 10);
}

static size_t hex(const char *digits, uint8_t *to, size_t most)
{
    size_t length = 0;
    if (strcmp(digits, ".") == 0) {
        return 0;
    }
    for (; digits[2 * length] != 0; length++) {
        if (length == most) {
            give_up("there are too many bytes");
        }
        to[length] = (uint8_t)(16 * digit(digits[2 * length]) + digit(digits[2 * length + 1]));
    }
    return length;
}

static grelpicado_can_frame frame(void)
{
    grelpicado_can_frame read = {{0}};
    if (hex(word(), read.bytes, sizeof read.bytes) != sizeof read.bytes) {
        give_up("a frame has 8 bytes");
    }
    return read;
}

static grelpicado_can_sender sender(void)
{
    grelpicado_can_sender read = {0};
    read.state = byte();
    read.left = byte();
    read.next = number();
    return read;
}

static grelpicado_can_receiver receiver(void)
{
    grelpicado_can_receiver read = {0};
    read.state = byte();
    read.left = byte();
    read.next = number();
    read.size = number();
    return read;
}

static uint8_t *block(void)
{
    memset(lent.bytes, 0x5A, sizeof lent.bytes);
    lent.length = hex(word(), lent.bytes + GUARD, MOST);
    return lent.bytes + GUARD;
}

/* ---- answers */

static void say_bytes(const uint8_t *bytes, size_t length)
{
    static char text[2 * MOST + 1];
    for (size_t i = 0; i < length; i++) {
        text[2 * i] = "0123456789abcdef"[bytes[i] / 16];
        text[2 * i + 1] = "0123456789abcdef"[bytes[i] % 16];
    }
    text[2 * length] = 0;
    printf(" %s", length == 0 ? "." : text);
}

static void say_sender(grelpicado_can_sender said)
{
    printf(" %u %u %zu", said.state, said.left, said.next);
}

static void check_guards(void)
{
    for (size_t i = 0; i < sizeof lent.bytes; i++) {
        bool outside = i < GUARD || i >= GUARD + lent.length;
        if (outside && lent.bytes[i] != 0x5A) {
            give_up("a byte beside the room was written");
        }
    }
}

static void start_step(void)
{
    const uint8_t *message = block();
    const grelpicado_can_start_answer answer = grelpicado_can_start(message, lent.length);
    printf("%u", answer.number);
    say_bytes(answer.frame.bytes, sizeof answer.frame.bytes);
    say_sender(answer.sender);
}

static void flow_step(void)
{
    const grelpicado_can_sender given = sender();
    const grelpicado_can_flow_answer answer = grelpicado_can_flow(given, frame());
    printf("%u %u %u", answer.number, answer.says, answer.separation);
    say_sender(answer.sender);
}

static void next_step(void)
{
    const grelpicado_can_sender given = sender();
    const uint8_t *message = block();
    const grelpicado_can_next_answer answer = grelpicado_can_next(given, message, lent.length);
    printf("%u", answer.due);
    say_bytes(answer.frame.bytes, sizeof answer.frame.bytes);
    say_sender(answer.sender);
}

static void take_step(void)
{
    const grelpicado_can_receiver given = receiver();
    const uint8_t block_size = byte();
    const uint8_t separation = byte();
    const grelpicado_can_frame received = frame();
    uint8_t *room = block();
    const grelpicado_can_take_answer answer =
        grelpicado_can_take(given, room, lent.length, block_size, separation, received);
    printf("%u %u", answer.number, answer.says);
    say_bytes(answer.frame.bytes, sizeof answer.frame.bytes);
    printf(" %zu %u %u %zu %zu", answer.length, answer.receiver.state, answer.receiver.left, answer.receiver.next,
        answer.receiver.size);
    check_guards();
    say_bytes(room, lent.length);
}

static void answer_steps(void)
{
    while (fgets(line, sizeof line, stdin) != NULL) {
        const char *step = strtok(line, " \n");
        if (step == NULL) {
            give_up("a line is empty");
        } else if (strcmp(step, "start") == 0) {
            start_step();
        } else if (strcmp(step, "flow") == 0) {
            flow_step();
        } else if (strcmp(step, "next") == 0) {
            next_step();
        } else if (strcmp(step, "take") == 0) {
            take_step();
        } else {
            give_up("start, flow, next or take?");
        }
        putchar('\n');
        fflush(stdout);
    }
}

/* ---- every length, through a sender and a receiver */

static uint8_t message[GRELPICADO_CAN_LONGEST];
static uint8_t room[GRELPICADO_CAN_LONGEST + GUARD];

/* How many frames it took; 0 where anything else happened than should. */
static size_t looped(size_t length, uint8_t block_size, uint8_t separation)
{
    const grelpicado_can_start_answer started = grelpicado_can_start(message, length);
    grelpicado_can_sender from = started.sender;
    grelpicado_can_receiver to = {0};
    grelpicado_can_frame on_the_line = started.frame;
    size_t frames = 0;
    while (started.number == GRELPICADO_DONE) {
        const grelpicado_can_take_answer taken =
            grelpicado_can_take(to, room, sizeof room, block_size, separation, on_the_line);
        grelpicado_can_next_answer next;
        frames++;
        to = taken.receiver;
        if (taken.number != GRELPICADO_DONE) {
            return 0;
        }
        if (taken.says == GRELPICADO_CAN_COMPLETE) {
            bool idle = from.state == GRELPICADO_CAN_IDLE && to.state == GRELPICADO_CAN_IDLE;
            return idle && taken.length == length ? frames : 0;
        }
        if (taken.says == GRELPICADO_CAN_CONTROL) {
            const grelpicado_can_flow_answer flow = grelpicado_can_flow(from, taken.frame);
            if (flow.says != GRELPICADO_CAN_GO || flow.separation != separation) {
                return 0;
            }
            from = flow.sender;
        }
        next = grelpicado_can_next(from, message, length);
        if (next.due != 1) {
            return 0;
        }
        from = next.sender;
        on_the_line = next.frame;
    }
    return 0;
}

/* Whether the message, and nothing else, stands in the room. */
static bool arrived(size_t length)
{
    for (size_t i = length; i < sizeof room; i++) {
        if (room[i] != 0xA5) {
            return false;
        }
    }
    return memcmp(room, message, length) == 0;
}

static void loop_all(void)
{
    static const uint8_t blocks[] = {0, 1, 2, 8, 255};
    size_t messages = 0;
    size_t frames = 0;
    for (size_t i = 0; i < sizeof message; i++) {
        message[i] = (uint8_t)(i * 37 + i / 256);
    }
    for (size_t i = 0; i < sizeof blocks; i++) {
        for (size_t length = 1; length <= sizeof message; length++) {
            memset(room, 0xA5, sizeof room);
            size_t took = looped(length, blocks[i], (uint8_t)length);
            if (took != (length <= 7 ? 1 : 1 + (length - 6 + 6) / 7) || !arrived(length)) {
                printf("length %zu with block size %u did not come through\n", length, blocks[i]);
                exit(EXIT_FAILURE);
            }
            messages++;
            frames += took;
        }
    }
    printf("%zu messages in %zu frames\n", messages, frames);
}

/* ---- what the header says, for the other side to compare */

#define SIZE(type) printf(#type " %zu\n", sizeof(type))
#define FIELD(type, field) \
    printf(#type "." #field " %zu %zu\n", offsetof(type, field), sizeof(((type *)NULL)->field))

static void print_layout(void)
{
    SIZE(grelpicado_can_frame);
    FIELD(grelpicado_can_frame, bytes);
    SIZE(grelpicado_can_sender);
    FIELD(grelpicado_can_sender, state);
    FIELD(grelpicado_can_sender, left);
    FIELD(grelpicado_can_sender, next);
    SIZE(grelpicado_can_receiver);
    FIELD(grelpicado_can_receiver, state);
    FIELD(grelpicado_can_receiver, left);
    FIELD(grelpicado_can_receiver, next);
    FIELD(grelpicado_can_receiver, size);
    SIZE(grelpicado_can_start_answer);
    FIELD(grelpicado_can_start_answer, number);
    FIELD(grelpicado_can_start_answer, frame);
    FIELD(grelpicado_can_start_answer, sender);
    SIZE(grelpicado_can_flow_answer);
    FIELD(grelpicado_can_flow_answer, number);
    FIELD(grelpicado_can_flow_answer, says);
    FIELD(grelpicado_can_flow_answer, separation);
    FIELD(grelpicado_can_flow_answer, sender);
    SIZE(grelpicado_can_next_answer);
    FIELD(grelpicado_can_next_answer, due);
    FIELD(grelpicado_can_next_answer, frame);
    FIELD(grelpicado_can_next_answer, sender);
    SIZE(grelpicado_can_take_answer);
    FIELD(grelpicado_can_take_answer, number);
    FIELD(grelpicado_can_take_answer, says);
    FIELD(grelpicado_can_take_answer, frame);
    FIELD(grelpicado_can_take_answer, length);
    FIELD(grelpicado_can_take_answer, receiver);
}

#define NUMBER(macro) printf(#macro " %lld\n", (long long)(macro))

static void print_numbers(void)
{
    NUMBER(GRELPICADO_CAN_REFUSED);
    NUMBER(GRELPICADO_CAN_LONGEST);
    NUMBER(GRELPICADO_CAN_IDLE);
    NUMBER(GRELPICADO_CAN_WAITING);
    NUMBER(GRELPICADO_CAN_RUNNING);
    NUMBER(GRELPICADO_CAN_COLLECTING);
    NUMBER(GRELPICADO_CAN_GO);
    NUMBER(GRELPICADO_CAN_WAIT);
    NUMBER(GRELPICADO_CAN_ABORTED);
    NUMBER(GRELPICADO_CAN_GOING);
    NUMBER(GRELPICADO_CAN_CONTROL);
    NUMBER(GRELPICADO_CAN_COMPLETE);
}

int main(int count, char **words)
{
    const char *asked = count == 2 ? words[1] : "";
    if (strcmp(asked, "steps") == 0) {
        answer_steps();
    } else if (strcmp(asked, "loop") == 0) {
        loop_all();
    } else if (strcmp(asked, "layout") == 0) {
        print_layout();
    } else if (strcmp(asked, "numbers") == 0) {
        print_numbers();
    } else {
        give_up("steps, loop, layout or numbers?");
    }
    return EXIT_SUCCESS;
}
