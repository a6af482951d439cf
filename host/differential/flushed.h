// The sets whose LRU number a flush zeroed, for as long as it stays 0.
#pragma once

#include <array>

#include "calls.h"

class Flushed {
public:
    void forget() { sets.fill(false); }

    void forget_set(uint32_t set) { sets[set] = false; }

    bool at(size_t set) const { return sets[set]; }

    // After an accepted call.
    void follow(const unit486_directory &before, const Call &call, const unit486_directory &after)
    {
        const bool reset = call.kind == Kind::reset || call.kind == Kind::reset_by_value;
        for (size_t set = 0; set < UNIT486_SETS; ++set) {
            const bool zeroed = call.kind == Kind::flush && before.lru[set] != 0;
            sets[set] = (zeroed || sets[set]) && after.lru[set] == 0 && !reset;
        }
    }

private:
    std::array<bool, UNIT486_SETS> sets{};
};
