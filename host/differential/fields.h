// Fields of lines: numbers in digits, good and not.
#pragma once

#include <algorithm>
#include <string>

#include "random.h"

// At least so many digits, by leading zeros.
inline std::string in_digits(uint64_t value, size_t least)
{
    const std::string digits = std::to_string(value);
    return std::string(least - std::min(least, digits.size()), '0') + digits;
}

// Sometimes with leading zeros, up to so many digits.
inline std::string padded(Random &random, uint64_t value, size_t most)
{
    std::string digits = std::to_string(value);
    while (digits.size() < most && random.percent(5))
        digits.insert(0, "0");
    return digits;
}

// One byte put in, taken out or replaced in what is not empty. What comes out may be well formed.
inline std::string changed(Random &random, std::string made)
{
    const char byte = random.pick({'\t', ' ', '0', '9', 'A', 'a', 'R', '\r', '\0', '\xff', '-', '\n'});
    const uint32_t at = random.below(static_cast<uint32_t>(made.size()));
    switch (random.below(3)) {
    case 0: made.insert(at, 1, byte); break;
    case 1: made.erase(at, 1); break;
    default: made[at] = byte;
    }
    return made;
}

inline bool are_digits(const std::string &field, size_t most)
{
    return !field.empty() && field.size() <= most && field.find_first_not_of("0123456789") == field.npos;
}
