// Lines of a text and their fields, for the event program and for block tables.
#pragma once

#include <cstddef>
#include <cstdint>
#include <cstring>

namespace baseline {

// The fields of one line, read from left to right. A field takes what it can; whatever is left then
// fails where a tab or the end of the line is asked for.
struct Scanner {
    const uint8_t *at;
    const uint8_t *end;

    bool done() const { return at == end; }

    bool tab() { return at != end && *at++ == '\t'; }

    // The number of at most `most` decimal digits, of which 19 always have one of 64 bits.
    uint64_t digits(unsigned most)
    {
        uint64_t sum = 0;
        for (; most > 0 && is_digit(); --most)
            sum = sum * 10 + (*at++ - '0');
        return sum;
    }

    bool is_digit() const { return at != end && *at >= '0' && *at <= '9'; }

    // "1 to 10 decimal digits, up to 4,294,967,295"
    bool number(uint32_t &number)
    {
        const uint8_t *first = at;
        const uint64_t sum = digits(10);
        number = static_cast<uint32_t>(sum);
        return at != first && sum <= UINT32_MAX;
    }

    // Document 02: "any 64-bit number, 1 to 20 digits".
    bool value(uint64_t &value)
    {
        const uint8_t *first = at;
        value = digits(19);
        if (at - first < 19 || !is_digit())
            return at != first;
        const uint64_t last = *at++ - uint64_t{'0'};
        return !__builtin_mul_overflow(value, 10, &value) && !__builtin_add_overflow(value, last, &value);
    }

    // "one digit 0 or 1"
    bool bit(bool &bit)
    {
        if (at == end || (*at != '0' && *at != '1'))
            return false;
        bit = *at++ == '1';
        return true;
    }

    static int hex_digit(uint8_t c)
    {
        if (c >= '0' && c <= '9')
            return c - '0';
        return c >= 'A' && c <= 'F' ? c - 'A' + 10 : -1;
    }

    // "uppercase hex pairs; an empty field is well formed and gets 10". There is room for half of the line.
    bool pairs(uint8_t *bytes, size_t &count)
    {
        for (count = 0; end - at >= 2; at += 2) {
            const int high = hex_digit(at[0]);
            const int low = hex_digit(at[1]);
            if (high < 0 || low < 0)
                return false;
            bytes[count++] = static_cast<uint8_t>(high * 16 + low);
        }
        return true;
    }
};

// The lines of a text, in order, each without its newline.
struct TextLines {
    const uint8_t *at;
    const uint8_t *end;

    bool done() const { return at == end; }

    // Where there is one more.
    Scanner next()
    {
        const void *newline = std::memchr(at, '\n', static_cast<size_t>(end - at));
        const uint8_t *stop = newline ? static_cast<const uint8_t *>(newline) : end;
        const Scanner line{at, stop};
        at = newline ? stop + 1 : end; // "the last newline optional"
        return line;
    }
};

} // namespace baseline
