// Read-only ranges: good ones, and such as 37 refuses.
#pragma once

#include <algorithm>
#include <vector>

#include "random.h"
#include "unit486.h"

using RangeList = std::vector<unit486_range>;

// So many lines from a line on, as far as RAM has them.
inline unit486_range range_of_lines(uint32_t first, uint32_t lines, uint32_t ram_length)
{
    return {first * 16, std::min(lines, ram_length / 16 - first) * 16};
}

// A range at the line of an address or near it, or at an end of RAM; now and then a long one.
inline unit486_range good_range(Random &random, uint32_t address, uint32_t ram_length)
{
    const uint32_t all = ram_length / 16, lines = random.between(1, 4);
    const uint32_t line = address / 16 % all, before = std::min(line, random.below(3));
    const uint32_t roll = random.below(100);
    if (roll < 6)
        return range_of_lines(0, lines, ram_length);
    if (roll < 12)
        return range_of_lines(all - std::min(all, lines), lines, ram_length);
    if (roll < 40)
        return range_of_lines(line, 1, ram_length);
    if (roll < 44)
        return range_of_lines(line, all, ram_length);
    if (roll < 46)
        return {0, ram_length};
    return range_of_lines(line - before, lines, ram_length);
}

constexpr uint32_t range_faults = 12;

// A range with a fault that 37 names. Of the last two a sum of 32 bits comes back to RAM.
inline unit486_range wrong_range(Random &random, uint32_t fault, uint32_t ram_length)
{
    const unit486_range good = good_range(random, random.word(), ram_length);
    const uint32_t part = random.pick({1u, 4u, 8u, 15u});
    switch (fault) {
    case 0: return {good.start, 0};
    case 1: return {good.start + part, good.length};
    case 2: return {good.start, good.length + part};
    case 3: return {good.start, good.length - part};
    case 4: return {good.start + part, good.length - part}; // ends with a line
    case 5: return {ram_length, 16};
    case 6: return {ram_length, 0};
    case 7: return {good.start, ram_length - good.start + 16};
    case 8: return {random.pick({0x7ffffff0u, 0xfffffff0u}), 16};
    case 9: return {random.word() | 1, random.word()};
    case 10: return {0 - 16 * random.between(1, 4), 16 * random.between(5, 8)};
    default: return {good.start + 16, 0 - good.start - 16 * random.below(2)};
    }
}

// So many good ranges near addresses that a function gives.
template <class Address>
RangeList good_ranges(Random &random, uint32_t count, Address address, uint32_t ram_length)
{
    RangeList made(count);
    for (unit486_range &range : made)
        range = good_range(random, address(), ram_length);
    return made;
}

// Their words, start and length in turn.
inline std::vector<uint32_t> words_of(const RangeList &ranges)
{
    std::vector<uint32_t> words;
    for (const unit486_range &range : ranges) {
        words.push_back(range.start);
        words.push_back(range.length);
    }
    return words;
}
