// What the writes that a read carried met, so that a test which met too little fails.
#pragma once

#include <algorithm>
#include <vector>

#include "baseline/bus.h"
#include "baseline/refusal.h"
#include "coverage.h"

class CarriedNotes {
public:
    CarriedNotes(Coverage &coverage, const unit486_directory &before, const Call &call,
        const unit486_result &result, const Side &side)
        : coverage(coverage), before(before), call(call), carried(call.carried), result(result), side(side)
    {
    }

    void note()
    {
        if (result.number == UNIT486_WRONG_CARRIED_WRITES)
            note_fault();
        else if (result.number != UNIT486_DONE)
            note_other_number();
        else
            note_done();
    }

private:
    Coverage &coverage;
    const unit486_directory &before;
    const Call &call;
    const unit486_carried_writes &carried;
    const unit486_result &result;
    const Side &side;

    // The cycles of a doubleword that missed.
    struct Group {
        uint32_t address, first, end;
        uint32_t own; // so many from the first on move the doubleword itself
        bool fill, last_ken;
    };
    std::vector<Group> groups;

    static bool same_line(uint32_t one, uint32_t other) { return one / 16 == other / 16; }
    static bool same_set(uint32_t one, uint32_t other) { return one / 16 % 128 == other / 16 % 128; }

    uint32_t lower() const { return lowest_doubleword(call); }
    uint32_t upper() const { return (call.address + call.width - 1) & ~3u; }

    // 0 for the lowest doubleword of the access.
    uint32_t place_of(const Group &group) const { return (group.address - lower()) / 4; }

    // ---- refused ----

    // The fault of the first write that has one. Whether a write is out of order is asked first.
    void note_fault()
    {
        if (carried.count > UNIT486_CARRIED_MOST)
            return coverage.note(carried_too_many);
        for (uint32_t k = 0; k < carried.count && !note_fault_of(k);)
            ++k;
        coverage.note(carried_fault_before_state, states_of_read() != UNIT486_DONE);
    }

    bool note_fault_of(uint32_t k)
    {
        const uint32_t offset = carried.addresses[k] % 16, length = carried.lengths[k];
        const struct {
            bool is;
            Condition condition;
        } faults[] = {{k > 0 && carried.cycles[k] < carried.cycles[k - 1], carried_out_of_order},
            {length == 0, carried_empty}, {length > 16, carried_too_long},
            {length <= 16 && offset + length > 16, carried_across_lines},
            {carried.addresses[k] >= side.ram.length, carried_beyond_ram}};
        for (const auto &[is, condition] : faults)
            if (is) {
                coverage.note(condition);
                return true;
            }
        return false;
    }

    uint32_t states_of_read() const { return baseline::states_number(before, call.address, call.width); }

    void note_other_number()
    {
        unit486_buffers lent{};
        lent.ram_length = side.ram.length;
        if (result.number < UNIT486_TWO_OF_ONE_TAG)
            coverage.note(carried_fault_after_other, baseline::carried_number(lent, carried) != UNIT486_DONE);
        else if (result.number <= UNIT486_LARGE_LRU)
            coverage.note(carried_refused_by_state, states_of_read() == UNIT486_DONE);
    }

    // ---- done ----

    void find_groups()
    {
        Group group{};
        for (uint32_t k = 0; k < result.cycles; ++k) {
            const uint32_t *record = side.log.start() + 3 * k;
            if (k == group.end)
                group = {record[0], k, k, 0, (record[1] & UNIT486_FLAG_FILL) != 0, false};
            group.own += record[0] == group.address;
            if (!(record[1] & UNIT486_FLAG_LAST))
                continue;
            group.end = k + 1;
            const uint32_t answers = place_of(group) * baseline::group_answers;
            group.last_ken = side.answers.start()[answers + k - group.first] & UNIT486_KEN;
            groups.push_back(group);
        }
    }

    void note_done()
    {
        find_groups();
        coverage.note(carried.count == 0                     ? carried_none
                      : carried.count < UNIT486_CARRIED_MOST ? carried_one_to_three
                                                             : carried_four);
        for (uint32_t k = 0; k < carried.count; ++k) {
            note_snoop(k);
            note_order(k);
            coverage.note(
                carried_before_cycle_above_32, carried.cycles[k] > 32 && carried.cycles[k] < result.cycles);
            for (const Group &group : groups)
                if (carried.cycles[k] >= group.first && carried.cycles[k] < group.end)
                    note_within(group, k);
            if (carried.cycles[k] >= result.cycles)
                note_rest(k);
        }
        note_later_lookups();
    }

    void note_snoop(uint32_t k)
    {
        if (is_held(before, carried.addresses[k]))
            coverage.note(before.nw ? carried_kept_line_by_nw : carried_dropped_line);
    }

    // Writes of one number that put different bytes at one place.
    void note_order(uint32_t k)
    {
        if (k == 0 || carried.cycles[k] != carried.cycles[k - 1])
            return;
        const uint32_t at = std::max(carried.addresses[k], carried.addresses[k - 1]);
        const uint32_t now = at - carried.addresses[k], earlier = at - carried.addresses[k - 1];
        coverage.note(carried_over_another, now < carried.lengths[k] && earlier < carried.lengths[k - 1] &&
                                                carried.bytes[k][now] != carried.bytes[k - 1][earlier]);
    }

    void note_within(const Group &group, uint32_t k)
    {
        const uint32_t address = carried.addresses[k];
        const uint32_t place = carried.cycles[k] - group.first;
        const bool moved_doubleword =
            address < group.address + 4 && address + carried.lengths[k] > group.address;
        if (doublewords_of(call) == 3)
            note_within_three(group);
        coverage.note(
            carried_between_bytes_of_doubleword, place > 0 && place < group.own && moved_doubleword);
        if (!group.fill)
            return coverage.note(carried_in_plain_read);
        if (!group.last_ken)
            return;
        if (same_line(address, group.address))
            note_in_filled_line(group, place);
        else if (same_set(address, group.address) && !before.nw)
            note_victim(group, address);
    }

    void note_within_three(const Group &group)
    {
        coverage.note(carried_in_middle_of_three, place_of(group) == 1);
        coverage.note(carried_in_last_of_three, place_of(group) == 2);
    }

    // Of a fill whose last cycle has KEN#.
    void note_in_filled_line(const Group &group, uint32_t place)
    {
        const uint32_t cycles = group.end - group.first;
        if (place == 0)
            return coverage.note(carried_at_first_cycle_of_fill);
        coverage.note(before.nw ? carried_spoiled_fill_with_nw : carried_spoiled_fill);
        coverage.note(carried_spoiled_fill_of_16_cycles, cycles == 16);
        coverage.note(carried_spoiled_fill_from_cycle_32, group.first == 32);
        coverage.note(carried_spoiled_fill_at_last_cycle, place == cycles - 1);
    }

    // The line that the write dropped made room for the fill in a full set.
    void note_victim(const Group &group, uint32_t address)
    {
        const unsigned set = baseline::set_of(address), way = baseline::lookup(before, address);
        const bool *valid = before.valid + baseline::line_index(set, 0);
        if (way == baseline::no_way || !(valid[0] && valid[1] && valid[2] && valid[3]))
            return;
        const bool filled =
            side.directory.tags[baseline::line_index(set, way)] == baseline::tag_of(group.address);
        coverage.note(carried_chose_the_victim, filled && way != baseline::victim(before, set));
    }

    void note_rest(uint32_t k)
    {
        coverage.note(groups.empty() ? carried_with_no_cycle : carried_past_last_cycle);
        const bool upper_hit = groups.size() == 1 && groups[0].address == lower() && lower() != upper();
        coverage.note(carried_after_upper_hit,
            upper_hit && carried.cycles[k] == result.cycles && same_line(carried.addresses[k], upper()));
    }

    // What the lowest doubleword's writes and fill mean for the last one, and the reverse.
    void note_later_lookups()
    {
        if (lower() == upper() || groups.empty())
            return;
        const Group &last = groups.back();
        const bool upper_missed = last.address == upper();
        const bool lower_missed = groups[0].address == lower();
        for (uint32_t k = 0; k < carried.count && upper_missed; ++k) {
            note_spoiled_before_upper(k);
            const uint32_t address = carried.addresses[k], number = carried.cycles[k];
            coverage.note(carried_made_upper_miss,
                number < last.first && same_line(address, upper()) && is_held(before, upper()) && !before.nw);
            coverage.note(
                carried_after_lower_hit, !lower_missed && number == 0 && same_line(address, lower()));
            coverage.note(carried_dropped_line_just_filled,
                lower_missed && groups[0].fill && number >= last.first && number < last.end && !before.nw &&
                    same_line(address, lower()) && !same_line(lower(), upper()));
        }
    }

    // The last doubleword missed in the line of the fill before it, which the write dropped.
    void note_spoiled_before_upper(uint32_t k)
    {
        if (groups.size() < 2)
            return;
        const Group &fill = groups[groups.size() - 2];
        const bool during = carried.cycles[k] > fill.first && carried.cycles[k] < fill.end;
        if (!during || !fill.fill || !fill.last_ken || !same_line(fill.address, upper()) ||
            !same_line(carried.addresses[k], upper()))
            return;
        coverage.note(carried_spoiled_fill_before_upper);
        coverage.note(carried_spoiled_fill_from_middle, place_of(fill) == 1);
    }
};
