// Read-only ranges: their numbers, and which addresses they have. Quotations are document 02's, request C-17.
#pragma once

#include "refusal.h"
#include "unit486.h"

namespace baseline {

using Ranges = unit486_ranges;

// 37. "a range is empty, not whole lines or beyond RAM". The sum has 64 bits, so that it cannot wrap.
inline bool wrong_range(uint32_t start, uint32_t length, size_t ram_length)
{
    return (length == 0) | ((start | length) % UNIT486_LINE_BYTES != 0) |
           (uint64_t{start} + length > ram_length);
}

// 37, 38, of ranges in a directory, which may have any count. All at once: a branch for each would cost more
// than its tests.
[[gnu::noinline]] inline uint32_t some_ranges_number(const Ranges &ranges, size_t ram_length)
{
    const bool too_many = ranges.count > UNIT486_RANGES_MOST;
    const uint32_t count = too_many ? uint32_t{UNIT486_RANGES_MOST} : ranges.count;
    bool wrong = false;
    for (uint32_t k = 0; k < count; ++k)
        wrong |= wrong_range(ranges.ranges[k].start, ranges.ranges[k].length, ram_length);
    return wrong ? UNIT486_WRONG_RANGE : too_many ? UNIT486_TOO_MANY_RANGES : UNIT486_DONE;
}

// "every other call given directory and RAM tests them by 37 and 38 too". Most directories have none.
inline uint32_t ranges_number(const Ranges &ranges, size_t ram_length)
{
    if (ranges.count == 0)
        return UNIT486_DONE;
    return some_ranges_number(ranges, ram_length);
}

// 1, 37, 38, of ranges to be set: start and length of each in turn. "38 for more than eight, after 37": first
// 37 over all of them. A last word alone has no length.
inline uint32_t setting_number(size_t ram_length, const uint32_t *words, size_t count)
{
    if (!good_ram(ram_length))
        return UNIT486_WRONG_RAM_LENGTH;
    for (size_t k = 0; k < count; k += 2)
        if (k + 1 == count || wrong_range(words[k], words[k + 1], ram_length))
            return UNIT486_WRONG_RANGE;
    return count > 2 * UNIT486_RANGES_MOST ? UNIT486_TOO_MANY_RANGES : UNIT486_DONE;
}

// Whether an address lies in one of the ranges, which have no number. Whole lines: all of a line or of a
// doubleword does, or none of it. Below the start the difference wraps to more than any length in RAM.
inline bool is_read_only(const Ranges &ranges, uint32_t address)
{
    bool inside = false;
    for (uint32_t k = 0; k < ranges.count; ++k)
        inside |= address - ranges.ranges[k].start < ranges.ranges[k].length;
    return inside;
}

} // namespace baseline
