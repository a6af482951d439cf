// The lines that a test write planted, for as long as they are held.
#pragma once

#include <algorithm>
#include <array>

#include "calls.h"

// Whether a valid line of the set, other than the one in this way, has the tag.
inline bool another_has_tag(const unit486_directory &directory, uint32_t set, uint32_t way, uint32_t tag)
{
    for (uint32_t other = 0; other < UNIT486_WAYS; ++other) {
        const unsigned index = baseline::line_index(set, other);
        if (other != way && directory.valid[index] && directory.tags[index] == tag)
            return true;
    }
    return false;
}

class Planted {
public:
    void forget() { lines.fill(false); }

    void forget_set(uint32_t set) { std::fill_n(lines.begin() + set * UNIT486_WAYS, UNIT486_WAYS, false); }

    bool at(size_t index) const { return lines[index]; }

    bool fill_set(uint32_t set) const
    {
        const auto first = lines.begin() + set * UNIT486_WAYS;
        return std::find(first, first + UNIT486_WAYS, false) == first + UNIT486_WAYS;
    }

    bool any() const { return std::find(lines.begin(), lines.end(), true) != lines.end(); }

    // Whether a planted line of the address's set has the tag of another valid line there.
    bool has_tag_twice(const unit486_directory &directory, uint32_t address) const
    {
        const unsigned set = baseline::set_of(address);
        for (unsigned way = 0; way < UNIT486_WAYS; ++way) {
            const unsigned index = baseline::line_index(set, way);
            if (lines[index] && another_has_tag(directory, set, way, directory.tags[index]))
                return true;
        }
        return false;
    }

    // Whether the line that holds the address is planted.
    bool holds(const unit486_directory &directory, uint32_t address) const
    {
        const unsigned way = baseline::lookup(directory, address);
        return way != baseline::no_way && lines[baseline::line_index(baseline::set_of(address), way)];
    }

    // After an accepted call. A fill changes the victim's tag or finds it invalid, but where a carried write
    // dropped the line of that tag just before.
    void follow(const unit486_directory &before, const Call &call, const unit486_directory &after)
    {
        for (uint32_t k = 0; k < call.carried.count && !before.nw; ++k)
            forget_line(before, call.carried.addresses[k]);
        for (size_t k = 0; k < UNIT486_LINES; ++k)
            lines[k] = lines[k] && after.valid[k] && after.tags[k] == before.tags[k];
        if (call.kind == Kind::test_write)
            lines[baseline::line_index(call.set, call.way)] = call.mark;
    }

private:
    std::array<bool, UNIT486_LINES> lines{};

    void forget_line(const unit486_directory &directory, uint32_t address)
    {
        const unsigned way = baseline::lookup(directory, address);
        if (way != baseline::no_way)
            lines[baseline::line_index(baseline::set_of(address), way)] = false;
    }
};
