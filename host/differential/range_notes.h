// What settings of ranges met, and the calls that look at them, so that a test which met too little fails.
#pragma once

#include <algorithm>
#include <cstring>

#include "baseline/ranges.h"
#include "coverage.h"
#include "ranges.h"

class RangeNotes {
public:
    RangeNotes(Coverage &coverage, const unit486_directory &before, const Call &call,
        const unit486_result &result, const Side &side)
        : coverage(coverage), before(before), kept(before.ranges), call(call), result(result), side(side)
    {
    }

    void note()
    {
        if (is_setting(call))
            note_setting();
        else if (call.kind == Kind::reset || call.kind == Kind::reset_by_value)
            note_reset();
        else if (looks_at_ranges(call))
            note_other_call();
    }

private:
    Coverage &coverage;
    const unit486_directory &before;
    const unit486_ranges &kept; // before the call, and after it but for a setting
    const Call &call;
    const unit486_result &result;
    const Side &side;

    bool wrong(const unit486_range &range) const
    {
        return baseline::wrong_range(range.start, range.length, side.ram.length);
    }

    uint32_t kept_number() const { return baseline::ranges_number(kept, side.ram.length); }

    void note_reset()
    {
        if (kept.count == 0)
            return;
        coverage.note(call.kind == Kind::reset ? kept_by_reset : kept_by_reset_by_value);
        coverage.note(kept_wrong_by_reset, kept_number() != UNIT486_DONE);
    }

    // ---- settings ----

    RangeList given() const
    {
        RangeList made(side.ranges.length / 2);
        for (size_t k = 0; k < made.size(); ++k)
            made[k] = {side.ranges.start()[2 * k], side.ranges.start()[2 * k + 1]};
        return made;
    }

    void note_setting()
    {
        const RangeList ranges = given();
        coverage.note(setting_refused_over_ranges, result.number != UNIT486_DONE && kept.count != 0);
        switch (result.number) {
        case UNIT486_DONE: note_set(ranges); break;
        case UNIT486_WRONG_RANGE: note_wrong(ranges); break;
        case UNIT486_TOO_MANY_RANGES:
            coverage.note(ranges.size() == 9 ? setting_nine : setting_above_nine);
            coverage.note(setting_same_low_byte, ranges.size() % 256 <= UNIT486_RANGES_MOST);
            break;
        default: coverage.note(setting_ram_first, ranges.size() > 8 || any_wrong_in_long_ram(ranges));
        }
    }

    void note_set(const RangeList &ranges)
    {
        const auto count = ranges.size();
        coverage.note(ranges_of_none, count == 0 && kept.count != 0);
        coverage.note(ranges_of_one, count == 1);
        coverage.note(ranges_of_eight, count == 8);
        coverage.note(ranges_fewer_than_before, count < kept.count && kept.count <= 8);
        coverage.note(ranges_over_wrong_ones, kept_number() != UNIT486_DONE);
        for (size_t k = 0; k < count; ++k) {
            const uint32_t end = ranges[k].start + ranges[k].length;
            const bool at_start = ranges[k].start == 0, at_end = end == side.ram.length;
            coverage.note(ranges_at_start_of_ram, at_start && !at_end);
            coverage.note(ranges_at_end_of_ram, at_end && !at_start);
            coverage.note(ranges_of_all_ram, at_start && at_end);
            for (size_t other = 0; other < k; ++other)
                coverage.note(
                    ranges_overlap, ranges[other].start < end &&
                                        ranges[k].start < ranges[other].start + ranges[other].length);
        }
    }

    static bool any_wrong_in_long_ram(const RangeList &ranges)
    {
        return std::any_of(ranges.begin(), ranges.end(), [](const unit486_range &range) {
            return baseline::wrong_range(range.start, range.length, UNIT486_RAM_MOST);
        });
    }

    void note_wrong(const RangeList &ranges)
    {
        const auto is_wrong = [this](const unit486_range &range) { return wrong(range); };
        const auto first = std::find_if(ranges.begin(), ranges.end(), is_wrong);
        if (first == ranges.end())
            return coverage.note(setting_without_length);
        const auto place = first - ranges.begin();
        if (std::none_of(first + 1, ranges.end(), is_wrong)) {
            coverage.note(setting_wrong_first, place == 0 && ranges.size() > 1);
            coverage.note(setting_wrong_eighth, place == 7);
            coverage.note(setting_wrong_past_eighth, place > 7);
        }
        const uint64_t start = first->start, length = first->length, end = start + length;
        const bool whole_start = start % 16 == 0, whole_length = length % 16 == 0;
        const bool in_ram = end <= side.ram.length;
        coverage.note(setting_empty, length == 0 && whole_start && in_ram);
        coverage.note(setting_start_in_line, !whole_start && whole_length && length != 0 && in_ram);
        coverage.note(setting_length_in_line, whole_start && !whole_length && in_ram);
        coverage.note(setting_within_lines, !whole_start && !whole_length && end % 16 == 0 && in_ram);
        coverage.note(
            setting_beyond_ram, whole_start && whole_length && length != 0 && end == side.ram.length + 16);
        coverage.note(setting_sum_above_32_bits,
            whole_start && whole_length && end > UINT32_MAX && static_cast<uint32_t>(end) <= side.ram.length);
    }

    // ---- the other calls' numbers ----

    void note_other_call()
    {
        if (result.number == UNIT486_WRONG_RANGE)
            note_kept_wrong();
        else if (result.number == UNIT486_TOO_MANY_RANGES)
            coverage.note(kept.count == 9 ? kept_nine : kept_above_nine);
        else if (result.number == UNIT486_WRONG_CARRIED_WRITES)
            coverage.note(kept_after_carried, kept_number() != UNIT486_DONE);
        else if (result.number != UNIT486_DONE && result.number < UNIT486_TWO_OF_ONE_TAG)
            coverage.note(kept_after_input, kept_number() != UNIT486_DONE);
        if (result.number == UNIT486_WRONG_RANGE || result.number == UNIT486_TOO_MANY_RANGES)
            coverage.note(kept_before_state, state_number() != UNIT486_DONE);
        if (result.number == UNIT486_DONE)
            note_done();
    }

    uint32_t state_number() const
    {
        return is_access(call) ? baseline::states_number(before, call.address, call.width)
                               : baseline::state_number(before, baseline::set_of(call.address));
    }

    void note_kept_wrong()
    {
        const uint32_t count = std::min(kept.count, uint32_t{UNIT486_RANGES_MOST});
        const auto is_wrong = [this](const unit486_range &range) { return wrong(range); };
        const auto wrong_ones = std::count_if(kept.ranges, kept.ranges + count, is_wrong);
        coverage.note(kept_wrong_first, wrong_ones == 1 && wrong(kept.ranges[0]) && count > 1);
        coverage.note(kept_wrong_eighth, wrong_ones == 1 && count == 8 && wrong(kept.ranges[7]));
        coverage.note(kept_wrong_and_too_many, kept.count > UNIT486_RANGES_MOST);
        coverage.note(
            kept_of_longer_ram, baseline::ranges_number(kept, side.ram.length + 16) == UNIT486_DONE);
    }

    // ---- done ----

    // The places of the ranges that have the address, as a mask.
    uint32_t ranges_at(uint32_t address) const
    {
        uint32_t mask = 0;
        for (uint32_t k = 0; k < kept.count; ++k)
            if (address >= kept.ranges[k].start && address - kept.ranges[k].start < kept.ranges[k].length)
                mask |= 1u << k;
        return mask;
    }

    bool read_only(uint32_t address) const { return ranges_at(address) != 0; }

    bool starts_range(uint32_t address) const { return read_only(address) && address % 16 == 0; }
    bool ends_range(uint32_t address) const { return address > 0 && read_only(address - 1); }

    uint32_t last() const { return call.address + call.width - 1; }

    void note_done()
    {
        // A place that is not used has zeros, and would be an empty range.
        coverage.note(kept_junk_past_count,
            std::any_of(kept.ranges + kept.count, kept.ranges + UNIT486_RANGES_MOST,
                [this](const unit486_range &range) { return range.length != 0 && wrong(range); }));
        if (kept.count == 0)
            return;
        if (call.kind == Kind::write)
            note_write();
        else if (call.kind == Kind::external_write)
            note_external();
        else if (is_view(call))
            coverage.note(view_in_range, read_only(call.address));
        else
            note_read();
        if (call.kind == Kind::read_carrying)
            note_carried();
    }

    // Whether a write of these bytes, had it landed, would show: of RAM, which it left alone.
    bool differs(uint32_t address, const uint8_t *bytes, size_t count) const
    {
        return std::memcmp(side.ram.start() + address, bytes, count) != 0;
    }

    bool has_upper_bits(uint32_t address) const { return side.parity.start()[address / 4] > 15; }

    bool has_wrong_parity(uint32_t address) const
    {
        const unsigned due = static_cast<unsigned>(__builtin_parity(side.ram.start()[address]));
        return (side.parity.start()[address / 4] >> address % 4 & 1) != due;
    }

    void note_write()
    {
        const bool first_in = read_only(call.address), last_in = read_only(last());
        if (!first_in && !last_in) {
            coverage.note(write_up_to_range, starts_range(last() + 1));
            coverage.note(write_from_range_on, ends_range(call.address));
            return;
        }
        coverage.note(write_into_range, !first_in);
        coverage.note(write_out_of_range, !last_in);
        const uint32_t at = first_in ? call.address : last() & ~15u;
        const uint32_t count = first_in ? std::min(call.width, 16 - at % 16) : last() - at + 1;
        note_ignored(at, count);
        if (first_in && last_in)
            coverage.note(write_across_two_ranges, (ranges_at(call.address) & ranges_at(last())) == 0);
    }

    // The bytes of a write that lie in a range: those of the access's first line, or of its second.
    void note_ignored(uint32_t at, uint32_t count)
    {
        uint8_t value[8];
        std::memcpy(value, &call.value, sizeof value);
        if (!differs(at, value + (at - call.address), count))
            return;
        const bool held = is_held(before, at);
        coverage.note(write_miss_ignored, !held);
        coverage.note(before.cd && before.nw ? write_inside_in_range : write_hit_ignored, held);
        const uint32_t mask = ranges_at(at);
        coverage.note(write_in_first_range_alone, mask == 1 && kept.count > 1);
        coverage.note(write_in_eighth_range_alone, mask == 1u << 7);
        coverage.note(write_in_two_ranges_at_once, (mask & (mask - 1)) != 0);
        coverage.note(write_in_last_line_of_range, !read_only(at / 16 * 16 + 16) && ends_range(at / 16 * 16));
        if (held && before.cd && before.nw)
            return;
        coverage.note(write_over_upper_parity_bits, has_upper_bits(at));
        coverage.note(write_of_wrong_parity_ignored, has_wrong_parity(at));
    }

    void note_external()
    {
        const size_t count = side.bytes.length;
        if (!read_only(call.address)) {
            coverage.note(
                external_write_up_to_range, starts_range(static_cast<uint32_t>(call.address + count)));
            coverage.note(external_write_from_range_on, ends_range(call.address));
            return;
        }
        if (!differs(call.address, side.bytes.start(), count))
            return;
        coverage.note(external_write_ignored);
        if (is_held(before, call.address))
            coverage.note(
                before.nw ? external_write_ignored_kept_line_by_nw : external_write_ignored_dropped_line);
        coverage.note(external_write_over_upper_parity_bits, has_upper_bits(call.address));
    }

    void note_read()
    {
        if (!read_only(call.address))
            return;
        if (is_held(before, call.address))
            return coverage.note(read_hit_in_range);
        const bool fill = result.cycles > 0 && (side.log.start()[1] & UNIT486_FLAG_FILL) != 0;
        coverage.note(fill ? fill_in_range : plain_read_in_range);
    }

    // ---- carried writes ----

    void note_carried()
    {
        const unit486_carried_writes &carried = call.carried;
        uint32_t ignored = 0;
        for (uint32_t k = 0; k < carried.count; ++k) {
            const uint32_t address = carried.addresses[k];
            if (!read_only(address) || !differs(address, carried.bytes[k], carried.lengths[k]))
                continue;
            ++ignored;
            coverage.note(carried_ignored);
            coverage.note(carried_ignored_dropped_line, is_held(before, address) && !before.nw);
            note_carried_in_fill(address, carried.cycles[k]);
        }
        coverage.note(carried_ignored_and_other, ignored > 0 && ignored < carried.count);
    }

    // Of the access's first fill, where the address's line is the one that comes in.
    void note_carried_in_fill(uint32_t address, uint32_t cycle)
    {
        coverage.note(carried_ignored_past_last_cycle, cycle >= result.cycles);
        if (result.cycles == 0 || !(side.log.start()[1] & UNIT486_FLAG_FILL))
            return;
        uint32_t end = 1;
        while (!(side.log.start()[3 * end - 2] & UNIT486_FLAG_LAST))
            ++end;
        if (address / 16 != side.log.start()[0] / 16 || cycle >= end)
            return;
        coverage.note(cycle == 0 ? carried_ignored_at_first_cycle : carried_ignored_spoiled_fill);
    }
};
