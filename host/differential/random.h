// A seeded generator: the same seed gives the same sequence.
#pragma once

#include <array>
#include <cstddef>
#include <cstdint>
#include <initializer_list>

class Random {
public:
    explicit Random(uint64_t seed) : state(seed) {}

    // SplitMix64.
    uint64_t next()
    {
        uint64_t z = state += 0x9e3779b97f4a7c15;
        z = (z ^ z >> 30) * 0xbf58476d1ce4e5b9;
        z = (z ^ z >> 27) * 0x94d049bb133111eb;
        return z ^ z >> 31;
    }

    uint32_t word() { return static_cast<uint32_t>(next() >> 32); }
    uint8_t byte() { return static_cast<uint8_t>(next() >> 56); }

    // Any value of 1 to 8 bytes.
    uint64_t of_bytes(uint32_t bytes) { return next() >> (64 - 8 * bytes); }

    // 0 to limit - 1; the tiny bias of the product does no harm here.
    uint32_t below(uint32_t limit) { return static_cast<uint32_t>(uint64_t{word()} * limit >> 32); }

    uint32_t between(uint32_t least, uint32_t most) { return least + below(most - least + 1); }

    bool percent(uint32_t chance) { return below(100) < chance; }

    template <class T> T pick(std::initializer_list<T> list)
    {
        return list.begin()[below(static_cast<uint32_t>(list.size()))];
    }

    template <class T, size_t count> T pick(const std::array<T, count> &list)
    {
        return list[below(static_cast<uint32_t>(count))];
    }

private:
    uint64_t state;
};
