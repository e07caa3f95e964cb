// grelpicado.h as firmware in C++17 includes it: a configuration, and each call on a context once.
#include <cstdint>

#include "grelpicado.h"

namespace {

constexpr int event_count = 2;
constexpr int place_count = 1;
constexpr int frame_length = 0;

const GRELPICADO_CONFIG(event_count) config = {
    event_count, place_count, frame_length,
    {
        {0x1234, 1, GRELPICADO_CYCLE_0, GRELPICADO_KIND_INTERNAL, 0, 0, 0, 0, GRELPICADO_JUMP_NONE, 1, 1, 1, 1,
            GRELPICADO_CONDITION(0) | GRELPICADO_CONDITION(30)},
        {0x1235, 2, GRELPICADO_CYCLE_1, GRELPICADO_KIND_COUNTER, -2, 2, 1, 1, GRELPICADO_JUMP_BOTH, 1, 1, 1, 0, 0},
    },
};

std::uint8_t records[GRELPICADO_RECORDS_BYTES(event_count)];
std::int32_t debounce[GRELPICADO_DEBOUNCE_NUMBERS(event_count)];
std::uint8_t memory[GRELPICADO_MEMORY_BYTES(place_count, frame_length)];
std::uint32_t counts[GRELPICADO_COUNTS];
std::uint8_t image[GRELPICADO_IMAGE_BYTES(event_count, place_count, frame_length)];
std::uint8_t reply[GRELPICADO_REPLY_BYTES(event_count, frame_length)];
std::uint16_t list[GRELPICADO_LIST_NUMBERS(event_count)];

std::uint8_t verdict_of(grelpicado *manager, std::uint32_t code)
{
    return grelpicado_ctx_report(manager, 0, code, nullptr, 0, GRELPICADO_ALL_PRESENT).verdict;
}

bool a_run(grelpicado *manager)
{
    return grelpicado_ctx_start(manager, GRELPICADO_CYCLE_0) == GRELPICADO_DONE
        && grelpicado_ctx_report(manager, 0, GRELPICADO_FAILED, nullptr, 0, GRELPICADO_CONDITION(0)).number
            == GRELPICADO_MISSING_CONDITION
        && grelpicado_ctx_read_missing(manager, 0, 0).count == 2
        && grelpicado_ctx_read_missing(manager, 0, GRELPICADO_CONDITION(0)).lowest == 30
        && grelpicado_ctx_read_missing(manager, 0, GRELPICADO_ALL_PRESENT).lowest == GRELPICADO_NONE_MISSING
        && verdict_of(manager, GRELPICADO_FAILED) == GRELPICADO_VERDICT_FAILED
        && grelpicado_ctx_tick(manager, GRELPICADO_MAX_TICK, nullptr, 0, 0) == GRELPICADO_DONE
        && grelpicado_ctx_read_status(manager, 0).status == 0xAF
        && counts[GRELPICADO_COUNT_ADMITTED] == 1
        && grelpicado_ctx_read_counter(manager, 0).counter == 127
        && grelpicado_ctx_read_frame(manager, 0, GRELPICADO_FIRST).start == 4
        && grelpicado_ctx_read_frame(manager, 0, GRELPICADO_LATEST).start == 4
        && grelpicado_ctx_read_paint(manager, 0).paint == GRELPICADO_PAINT_RED
        && grelpicado_ctx_read_table(manager).counts[0][7] == 1
        && grelpicado_ctx_list_grey(manager, GRELPICADO_LEND(list)).length == 1
        && list[0] == 1
        && verdict_of(manager, GRELPICADO_PASSED) == GRELPICADO_VERDICT_PASSED
        && grelpicado_ctx_read_counter(manager, 0).counter == -128
        && grelpicado_ctx_read_paint(manager, 0).paint == GRELPICADO_PAINT_LIVE
        && verdict_of(manager, GRELPICADO_FAILED) == GRELPICADO_VERDICT_FAILED
        && counts[GRELPICADO_COUNT_ADMITTED] == 1
        && grelpicado_ctx_stop(manager, GRELPICADO_CYCLE_0) == GRELPICADO_DONE;
}

bool refused_while_full(grelpicado *manager)
{
    counts[GRELPICADO_COUNT_CLEARED] = UINT32_MAX;
    const bool refused = grelpicado_ctx_clear(manager, GRELPICADO_ALL_CODES) == GRELPICADO_COUNTS_FULL;
    counts[GRELPICADO_COUNT_CLEARED] = 0;
    return refused;
}

bool back_and_cleared(grelpicado *manager)
{
    const std::uint8_t request[] = {0x19, 0x02, GRELPICADO_CONFIRMED};
    const std::uint8_t details[] = {0x19, 0x06, 0x00, 0x12, 0x34, 0xFF};
    const grelpicado_length_answer saved = grelpicado_ctx_save(manager, GRELPICADO_LEND(image));
    return grelpicado_ctx_fresh(manager) == GRELPICADO_DONE
        && counts[GRELPICADO_COUNT_ADMITTED] == 0
        && grelpicado_ctx_restore(manager, image, saved.length) == GRELPICADO_DONE
        && counts[GRELPICADO_COUNT_ADMITTED] == 1
        && grelpicado_ctx_request(manager, GRELPICADO_LEND(request), GRELPICADO_LEND(reply)).length == 7
        && grelpicado_ctx_request(manager, GRELPICADO_LEND(details), GRELPICADO_LEND(reply)).length == 11
        && refused_while_full(manager)
        && grelpicado_ctx_clear(manager, GRELPICADO_ALL_CODES) == GRELPICADO_DONE
        && counts[GRELPICADO_COUNT_CLEARED] == 1
        && grelpicado_ctx_read_status(manager, 0).status == GRELPICADO_FRESH_STATUS;
}

} // namespace

int main()
{
    grelpicado manager;
    const std::uint8_t begun = grelpicado_begin(
        &manager, GRELPICADO_LEND_CONFIG(config), GRELPICADO_LEND(records), GRELPICADO_LEND(debounce),
        GRELPICADO_LEND(memory), GRELPICADO_LEND(counts));
    return begun == GRELPICADO_DONE && a_run(&manager) && back_and_cleared(&manager) ? 0 : 1;
}
