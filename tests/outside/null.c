/*
 * Whether a context lends an address where the caller has NULL with length 0. The
 * archive reads nothing of an empty block, so its answers cannot tell; the plain
 * calls here are others, which say in the answer's number whether they were given
 * NULL. It needs no archive.
 */
#include <stdio.h>

#include "grelpicado.h"

/* What every call is lent, and that these look at none of it. */
#define LENT(writes)                                        \
    const int32_t *config, size_t config_length,            \
    writes uint8_t *records, size_t records_length,         \
    writes int32_t *debounce, size_t debounce_length,       \
    writes uint8_t *memory, size_t memory_length,           \
    grelpicado_board board
#define UNUSED                                              \
    (void)config, (void)config_length,                      \
    (void)records, (void)records_length,                    \
    (void)debounce, (void)debounce_length,                  \
    (void)memory, (void)memory_length

/* The same of the counts. */
#define COUNTS uint32_t *counts, size_t counts_length
#define NO_COUNTS (void)counts, (void)counts_length

static uint8_t given_null(const uint8_t *bytes, size_t length)
{
    (void)length;
    return bytes == NULL ? 1 : 0;
}

grelpicado_report_answer grelpicado_report(
    LENT(), size_t event, uint32_t code, const uint8_t *frame, size_t frame_length, uint32_t present, COUNTS)
{
    UNUSED, NO_COUNTS, (void)event, (void)code, (void)present;
    return (grelpicado_report_answer){given_null(frame, frame_length), 0, board};
}

grelpicado_answer grelpicado_tick(
    LENT(), uint32_t ms, const uint8_t *frame, size_t frame_length, uint32_t present, COUNTS)
{
    UNUSED, NO_COUNTS, (void)ms, (void)present;
    return (grelpicado_answer){given_null(frame, frame_length), board};
}

grelpicado_length_answer grelpicado_save(LENT(const), uint8_t *room, size_t room_length)
{
    UNUSED, (void)board;
    return (grelpicado_length_answer){given_null(room, room_length), 0};
}

grelpicado_length_answer grelpicado_list_grey(LENT(const), uint16_t *list, size_t list_length)
{
    UNUSED, (void)board, (void)list_length;
    return (grelpicado_length_answer){list == NULL ? 1 : 0, 0};
}

grelpicado_answer grelpicado_restore(LENT(), const uint8_t *image, size_t image_length, COUNTS)
{
    UNUSED, NO_COUNTS;
    return (grelpicado_answer){given_null(image, image_length), board};
}

grelpicado_request_answer grelpicado_request(
    LENT(), const uint8_t *request, size_t request_length, uint8_t *room, size_t room_length, COUNTS)
{
    UNUSED, NO_COUNTS;
    uint8_t number = given_null(request, request_length) | given_null(room, room_length);
    return (grelpicado_request_answer){number, 0, board};
}

static int lends_null(const char *call, uint8_t number)
{
    if (number != 0) {
        printf("%s: on a context, NULL with length 0 goes on as NULL\n", call);
    }
    return number;
}

int main(void)
{
    grelpicado manager = {NULL, 0, NULL, 0, NULL, 0, NULL, 0, NULL, 0, {{0, 0, 0, 0}, 0}};
    uint8_t byte = 0;
    int wrong = lends_null("report", grelpicado_ctx_report(&manager, 0, 0, NULL, 0, 0).number)
        + lends_null("tick", grelpicado_ctx_tick(&manager, 0, NULL, 0, 0))
        + lends_null("save", grelpicado_ctx_save(&manager, NULL, 0).number)
        + lends_null("list grey", grelpicado_ctx_list_grey(&manager, NULL, 0).number)
        + lends_null("restore", grelpicado_ctx_restore(&manager, NULL, 0))
        + lends_null("request", grelpicado_ctx_request(&manager, NULL, 0, &byte, 1).number)
        + lends_null("room of a request", grelpicado_ctx_request(&manager, &byte, 1, NULL, 0).number);
    return wrong == 0 ? 0 : 1;
}
