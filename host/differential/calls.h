// One call, made on either side.
#pragma once

#include <cinttypes>
#include <cstdio>

#include "baseline/unit.h"
#include "sides.h"

enum class Kind {
    reset,
    reset_by_value,
    control,
    control_by_value,
    flush,
    set_ranges,
    set_ranges_in_place,
    set_ranges_by_value,
    snoop,
    drop_line,
    external_write,
    read,
    read_carrying,
    read_carrying_none,
    write,
    view,
    view_number,
    test_write,
    test_read,
    block_answers,
    load_table,
    load_table_by_value,
    board_answers,
    run,
};

constexpr size_t kinds = 24;

constexpr const char *kind_names[kinds] = {"reset", "reset_by_value", "control", "control_by_value", "flush",
    "set_ranges", "set_ranges_in_place", "set_ranges_by_value", "snoop", "drop_line", "external_write",
    "read", "read_carrying", "read_carrying_none", "write", "view", "view_number", "test_write", "test_read",
    "block_answers", "load_table", "load_table_by_value", "board_answers", "run"};

// The arguments that are not lent; each call takes those that it receives.
struct Call {
    Kind kind = Kind::reset;
    uint32_t address = 0;
    uint32_t width = 0;
    uint64_t value = 0;
    bool pcd = false;
    bool cd = false;
    bool nw = false;
    uint32_t set = 0; // of a test call, as the next three
    uint32_t way = 0;
    uint32_t tag = 0;
    bool mark = false;
    unit486_carried_writes carried{};
};

inline bool is_access(const Call &call)
{
    return call.kind == Kind::read || call.kind == Kind::read_carrying ||
           call.kind == Kind::read_carrying_none || call.kind == Kind::write;
}

inline bool is_test(const Call &call)
{
    return call.kind == Kind::test_write || call.kind == Kind::test_read;
}

inline bool is_setting(const Call &call)
{
    return call.kind == Kind::set_ranges || call.kind == Kind::set_ranges_in_place ||
           call.kind == Kind::set_ranges_by_value;
}

inline bool is_view(const Call &call) { return call.kind == Kind::view || call.kind == Kind::view_number; }

// Whether the call tests the directory's ranges; a setting tests those that it is given.
inline bool looks_at_ranges(const Call &call)
{
    return is_access(call) || is_view(call) || call.kind == Kind::external_write;
}

// The result of a call that answers a number alone.
inline unit486_result number_only(uint32_t number) { return {number, 0, 0}; }

// A call by value with its directory stored.
inline unit486_result stored(unit486_directory &directory, const unit486_outcome &outcome)
{
    directory = outcome.directory;
    return {outcome.number, outcome.cycles, outcome.value};
}

inline unit486_result call_library(Side &side, const Call &call)
{
    unit486_buffers lent = side.lent();
    unit486_directory *directory = &side.directory;
    switch (call.kind) {
    case Kind::reset: unit486_reset(directory); return number_only(UNIT486_DONE);
    case Kind::reset_by_value: return stored(*directory, unit486_reset_by_value(*directory));
    case Kind::control: return number_only(unit486_control(directory, call.cd, call.nw));
    case Kind::control_by_value:
        return stored(*directory, unit486_control_by_value(*directory, call.cd, call.nw));
    case Kind::flush: unit486_flush(directory); return number_only(UNIT486_DONE);
    case Kind::set_ranges:
        return number_only(unit486_set_ranges(directory, lent.ram, lent.ram_length,
            reinterpret_cast<const unit486_range *>(side.ranges.start()), side.ranges.length / 2));
    case Kind::set_ranges_in_place:
        return number_only(
            unit486_set_ranges_in_place(&directory->ranges.count, &directory->ranges.ranges[0].start,
                lent.ram, lent.ram_length, side.ranges.start(), side.ranges.length));
    case Kind::set_ranges_by_value:
        return stored(*directory, unit486_set_ranges_by_value(*directory, lent.ram, lent.ram_length,
                                      side.ranges.start(), side.ranges.length));
    case Kind::snoop: return number_only(unit486_snoop(directory, call.address));
    case Kind::drop_line: return number_only(unit486_drop_line(directory, call.address));
    case Kind::external_write:
        return number_only(
            unit486_external_write(directory, &lent, call.address, side.bytes.start(), side.bytes.length));
    case Kind::read:
        return unit486_read(directory, &lent, call.address, call.width, call.pcd, side.answers.start(),
            side.answers.length, side.log.start(), side.log.length);
    case Kind::read_carrying:
    case Kind::read_carrying_none:
        return unit486_read_carrying(directory, &lent, call.address, call.width, call.pcd,
            side.answers.start(), side.answers.length, side.log.start(), side.log.length, &call.carried);
    case Kind::write:
        return unit486_write(directory, &lent, call.address, call.width, call.value, side.answers.start(),
            side.answers.length, side.log.start(), side.log.length);
    case Kind::view: return number_only(unit486_view(directory, &lent, call.address, side.shown.start()));
    case Kind::view_number: return number_only(unit486_view_number(directory, &lent, call.address));
    case Kind::test_write:
        return number_only(unit486_test_write(
            directory, &lent, call.set, call.way, call.tag, call.mark, side.bytes.start()));
    case Kind::test_read:
        side.line = unit486_test_read(directory, &lent, call.set, call.way);
        return number_only(side.line.number);
    default:
        unit486_board_answers(side.table.start(), call.address, call.width, side.answers.start());
        return number_only(UNIT486_DONE);
    }
}

// A carrying read that carries nothing is the read.
inline unit486_result call_baseline(Side &side, const Call &call)
{
    unit486_buffers lent = side.lent();
    unit486_directory &directory = side.directory;
    switch (call.kind) {
    case Kind::reset:
    case Kind::reset_by_value: baseline::reset(directory); return number_only(UNIT486_DONE);
    case Kind::control:
    case Kind::control_by_value: return number_only(baseline::control(directory, call.cd, call.nw));
    case Kind::flush: baseline::flush(directory); return number_only(UNIT486_DONE);
    case Kind::set_ranges: // of whole ranges, so that a word without a length is not lent
        return number_only(baseline::set_ranges(
            directory, lent.ram_length, side.ranges.start(), side.ranges.length / 2 * 2));
    case Kind::set_ranges_in_place:
    case Kind::set_ranges_by_value:
        return number_only(
            baseline::set_ranges(directory, lent.ram_length, side.ranges.start(), side.ranges.length));
    case Kind::snoop:
    case Kind::drop_line: return number_only(baseline::snoop(directory, call.address));
    case Kind::external_write:
        return number_only(
            baseline::external_write(directory, lent, call.address, side.bytes.start(), side.bytes.length));
    case Kind::read:
    case Kind::read_carrying_none:
        return baseline::read(directory, lent, call.address, call.width, call.pcd, side.answers.start(),
            side.answers.length, side.log.start(), side.log.length);
    case Kind::read_carrying:
        return baseline::read_carrying(directory, lent, call.address, call.width, call.pcd,
            side.answers.start(), side.answers.length, side.log.start(), side.log.length, call.carried);
    case Kind::write:
        return baseline::write(directory, lent, call.address, call.width, call.value, side.answers.start(),
            side.answers.length, side.log.start(), side.log.length);
    case Kind::view: return number_only(baseline::view(directory, lent, call.address, side.shown.start()));
    case Kind::view_number: return number_only(baseline::view_number(directory, lent, call.address));
    case Kind::test_write:
        return number_only(baseline::test_write(
            directory, lent, call.set, call.way, call.tag, call.mark, side.bytes.start()));
    case Kind::test_read:
        side.line = baseline::test_read(directory, lent, call.set, call.way);
        return number_only(side.line.number);
    default:
        baseline::board_answers(side.table.start(), call.address, call.width, side.answers.start());
        return number_only(UNIT486_DONE);
    }
}

inline void print_bytes(const char *name, const Lent<uint8_t> &bytes)
{
    std::printf("  %s (%zu):", name, bytes.length);
    for (size_t k = 0; k < bytes.length && k < 64; ++k)
        std::printf(" %u", bytes.start()[k]);
    std::printf("\n");
}

inline void print_carried(const unit486_carried_writes &carried)
{
    std::printf("  carried writes: %" PRIu32 "\n", carried.count);
    for (uint32_t k = 0; k < carried.count && k < UNIT486_CARRIED_MOST; ++k) {
        std::printf("    before cycle %" PRIu32 ": address %" PRIu32 " (%#" PRIx32 "), length %" PRIu32 ":",
            carried.cycles[k], carried.addresses[k], carried.addresses[k], carried.lengths[k]);
        for (const uint8_t byte : carried.bytes[k])
            std::printf(" %u", byte);
        std::printf("\n");
    }
}

inline void print_ranges(const char *name, const uint32_t *words, size_t count)
{
    std::printf("  %s:", name);
    for (size_t k = 0; k < count; ++k)
        std::printf(" %#" PRIx32 "%s", words[k], k % 2 == 0 ? "" : ",");
    std::printf(" (%zu words, start and length in turn)\n", count);
}

// The call and all lengths; answers and bytes as they are after it, which no call but board_answers
// changes.
inline void print_call(const Call &call, const Side &side)
{
    std::printf("  %s: address %" PRIu32 " (%#" PRIx32 "), width %" PRIu32 ", value %" PRIu64
                ", PCD %d, CD %d, NW %d\n",
        kind_names[static_cast<size_t>(call.kind)], call.address, call.address, call.width, call.value,
        call.pcd, call.cd, call.nw);
    std::printf("  set %" PRIu32 ", way %" PRIu32 ", tag %" PRIu32 ", valid mark %d\n", call.set, call.way,
        call.tag, call.mark);
    std::printf("  RAM %zu bytes, parity %zu, data array %zu, log %zu words\n", side.ram.length,
        side.parity.length, side.data.length, side.log.length);
    print_bytes("answers", side.answers);
    print_bytes("block table", side.table);
    print_bytes("bytes of an external write or a test write", side.bytes);
    print_carried(call.carried);
    if (is_setting(call))
        print_ranges("ranges to be set", side.ranges.start(), side.ranges.length);
}

inline void print_result(const char *side, const unit486_result &result)
{
    std::printf("  %-9s number %" PRIu32 ", value %" PRIu64 ", cycles %" PRIu32 "\n", side, result.number,
        result.value, result.cycles);
}

// Which call differed, and where.
inline void print_mismatch(uint64_t call, uint64_t seed, const char *series, const std::string &found)
{
    std::printf("MISMATCH in call %" PRIu64 " of seed %" PRIu64 " (%s series)\n", call, seed, series);
    std::printf("  first difference: %s\n", found.c_str());
}
