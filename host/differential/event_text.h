// Random event lines, well formed and not.
#pragma once

#include <string>

#include "fields.h"
#include "random.h"

class EventText {
public:
    explicit EventText(Random &random) : random(random) {}

    std::string text()
    {
        std::string made = random.percent(80) ? "C\t0\t0\n" : "";
        const bool long_file = random.below(200) == 0;
        const size_t target =
            long_file ? random.between(65535, 65537) : random.below(random.percent(10) ? 20 : 2500);
        if (long_file && random.percent(30))
            return std::string(target, '\n');
        while (made.size() < target)
            made += line() + "\n";
        if (long_file)
            made.resize(target);
        else if (random.percent(30) && !made.empty())
            made.pop_back();
        else if (random.percent(10))
            made += "\n";
        return made;
    }

private:
    Random &random;

    std::string line()
    {
        if (random.percent(85))
            return well_formed();
        switch (random.below(6)) {
        case 0: return "";
        case 1: return overlong();
        case 2: return wrong_field();
        default: return changed(random, well_formed());
        }
    }

    std::string well_formed()
    {
        const uint32_t roll = random.below(100);
        if (roll < 45)
            return "R\t" + number(address()) + "\t" + number(width()) + "\t" + bit();
        if (roll < 68)
            return random.percent(90) ? written() : written_digits();
        if (roll < 82)
            return "X\t" + number(address()) + "\t" +
                   pairs(random.percent(90) ? random.below(17) : random.below(35));
        if (roll < 91)
            return "S\t" + number(address());
        if (roll < 98)
            return random.percent(60) ? "C\t0\t0" : "C\t" + bit() + "\t" + bit();
        return random.percent(60) ? "F" : "Z";
    }

    std::string written()
    {
        const uint32_t bytes = width();
        const bool fits = random.percent(90) && bytes >= 1 && bytes <= 8;
        return "W\t" + number(address()) + "\t" + number(bytes) + "\t" +
               padded(random, random.of_bytes(fits ? bytes : random.between(1, 8)), 20);
    }

    // A value of 1 to 21 digits, many of them near the limit of 64 bits.
    std::string written_digits()
    {
        const std::string limit = "18446744073709551615";
        std::string value = random.percent(40) ? limit : "";
        for (uint32_t digits = random.between(1, 21); value.size() < digits;)
            value += "0123456789"[random.below(10)];
        value[random.below(static_cast<uint32_t>(value.size()))] = "0123456789"[random.below(10)];
        return "W\t" + number(address()) + "\t" + number(random.pick({1u, 4u, 8u, 8u})) + "\t" + value;
    }

    // A few lines of a few sets, so that they meet again; and the ends of RAM and of the numbers.
    uint32_t address()
    {
        const uint32_t roll = random.below(100);
        if (roll < 4)
            return random.between(65528, 65544);
        if (roll < 6)
            return UINT32_MAX - random.below(8);
        if (roll < 8)
            return random.word();
        return random.below(8) * 2048 + random.pick({0u, 16u, 2032u}) + random.below(16);
    }

    uint32_t width()
    {
        return random.percent(96) ? random.pick({1u, 2u, 4u, 8u})
                                  : random.pick({0u, 3u, 5u, 6u, 7u, 9u, 16u, UINT32_MAX});
    }

    std::string bit() { return random.percent(70) ? "0" : "1"; }

    std::string number(uint32_t value) { return padded(random, value, 10); }

    std::string pairs(uint32_t count)
    {
        std::string made;
        for (uint32_t k = 0; k < 2 * count; ++k)
            made += "0123456789ABCDEF"[random.below(16)];
        return made;
    }

    // About the limit of 80 bytes, well formed but for the length.
    std::string overlong()
    {
        if (random.percent(20))
            return std::string(random.between(79, 300), 'R');
        return "X\t" + std::to_string(random.pick({0u, 10u, 100u, 1000u})) + "\t" +
               pairs(random.between(34, 40));
    }

    // A field that is malformed in one of the ways which the rules name.
    std::string wrong_field()
    {
        const char *field =
            random.pick({"", "4294967296", "9999999999", "00000000000", "-1", "+1", " 1", "1 ", "0x1"});
        const char *value =
            random.pick({"", "18446744073709551616", "99999999999999999999", "000000000000000000000", "-1"});
        switch (random.below(7)) {
        case 0: return std::string("R\t") + field + "\t4\t0";
        case 1: return std::string("W\t0\t4\t") + field;
        case 5: return std::string("W\t0\t8\t") + value;
        case 2: return std::string("S\t") + field;
        case 3: return std::string("C\t0\t") + random.pick({"", "2", "00", "01", "x", "0\t"});
        case 4: return std::string("X\t0") + random.pick({"", "\tA", "\taa", "\tAG", "\tAA\t", "\t AA"});
        default: return std::string("R\t0\t4\t") + random.pick({"", "2", "00", "1\r", "1\t"});
        }
    }
};
