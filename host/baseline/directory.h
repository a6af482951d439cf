// The directory: indexes, lookup, use, victim, and what is wrong with a set. Quotations are document 01's.
#pragma once

#include "unit486.h"

namespace baseline {

using Directory = unit486_directory;

constexpr unsigned ways = UNIT486_WAYS;
constexpr unsigned no_way = ways;
constexpr uint32_t tag_limit = UNIT486_TAG_MOST;
constexpr uint8_t lru_limit = 7;

// "tag = address / 2048, set = (address / 16) mod 128, byte = address mod 16"
inline uint32_t tag_of(uint32_t address) { return address / 2048; }
inline unsigned set_of(uint32_t address) { return address / 16 % UNIT486_SETS; }
inline uint32_t line_address(uint32_t address) { return address & ~15u; }

// Tags and valid marks stand at set x 4 + way, as lines do in the data array.
inline unsigned line_index(unsigned set, unsigned way) { return set * ways + way; }

// The lowest way of a mask of ways, or no_way. No branch depends on which way it is.
inline unsigned lowest(unsigned mask) { return static_cast<unsigned>(__builtin_ctz(mask | 1u << no_way)); }

// The way that holds the address's line, or no_way. A set that passed state_number has one at most.
inline unsigned lookup(const Directory &directory, uint32_t address)
{
    const uint32_t tag = tag_of(address);
    const uint32_t *t = directory.tags + line_index(set_of(address), 0);
    const bool *v = directory.valid + line_index(set_of(address), 0);
    return lowest((v[0] & (t[0] == tag)) | (v[1] & (t[1] == tag)) << 1 | (v[2] & (t[2] == tag)) << 2 |
                  (v[3] & (t[3] == tag)) << 3);
}

// "Use of way 0 sets B0 and B1; way 1 sets B0, clears B1; way 2 clears B0, sets B2; way 3 clears B0 and
// B2. The other bit is kept."
inline void use(Directory &directory, unsigned set, unsigned way)
{
    static constexpr uint8_t kept[ways] = {4, 4, 2, 2};
    static constexpr uint8_t made[ways] = {3, 1, 4, 0};
    directory.lru[set] = (directory.lru[set] & kept[way]) | made[way];
}

// "The victim is the lowest invalid way (H). If all are valid: B0 = 0 takes way B1; B0 = 1 takes way
// 2 + B2."
inline unsigned victim(const Directory &directory, unsigned set)
{
    const bool *v = directory.valid + line_index(set, 0);
    const unsigned valid = v[0] | v[1] << 1 | v[2] << 2 | v[3] << 3;
    const unsigned invalid = lowest(~valid & 15);
    if (invalid != no_way)
        return invalid;
    const unsigned lru = directory.lru[set];
    return lru & 1 ? 2 + (lru >> 2 & 1) : lru >> 1 & 1;
}

// "A kept fill writes the victim's bytes, tag and valid mark", and is a use. The bytes are the caller's
// part: it gets the line's index.
inline unsigned fill(Directory &directory, uint32_t address)
{
    const unsigned set = set_of(address);
    const unsigned way = victim(directory, set);
    const unsigned index = line_index(set, way);
    directory.tags[index] = tag_of(address);
    directory.valid[index] = true;
    use(directory, set, way);
    return index;
}

// "A snoop invalidates the line holding its address. With NW = 1 it changes nothing."
inline void invalidate(Directory &directory, uint32_t address)
{
    if (directory.nw)
        return;
    const unsigned way = lookup(directory, address);
    if (way != no_way)
        directory.valid[line_index(set_of(address), way)] = false;
}

// "21. Two valid lines with one tag. 22. A valid tag above 2,097,151. 23. LRU number above 7."
inline uint32_t state_number(const Directory &directory, unsigned set)
{
    const uint32_t *t = directory.tags + line_index(set, 0);
    const bool *v = directory.valid + line_index(set, 0);
    // All tests at once: a branch for each would cost more than the tests.
    const unsigned same = (v[0] & v[1] & (t[0] == t[1])) | (v[0] & v[2] & (t[0] == t[2])) |
                          (v[0] & v[3] & (t[0] == t[3])) | (v[1] & v[2] & (t[1] == t[2])) |
                          (v[1] & v[3] & (t[1] == t[3])) | (v[2] & v[3] & (t[2] == t[3]));
    const unsigned above = (v[0] & (t[0] > tag_limit)) | (v[1] & (t[1] > tag_limit)) |
                           (v[2] & (t[2] > tag_limit)) | (v[3] & (t[3] > tag_limit));
    const unsigned wrong_lru = directory.lru[set] > lru_limit;
    if ((same | above | wrong_lru) == 0)
        return UNIT486_DONE;
    return same ? UNIT486_TWO_OF_ONE_TAG : above ? UNIT486_LARGE_TAG : UNIT486_LARGE_LRU;
}

// "Checked in every touched set, the lower address's set first"; "All of one set comes before the next
// set." The bytes lie in RAM and in two lines at most.
inline uint32_t states_number(const Directory &directory, uint32_t address, uint32_t count)
{
    const unsigned lower = set_of(address);
    const unsigned upper = set_of(address + count - 1);
    const uint32_t number = state_number(directory, lower);
    if (number != UNIT486_DONE || upper == lower)
        return number;
    return state_number(directory, upper);
}

} // namespace baseline
