// The calls of a turn: on which addresses, and of which kind.
#pragma once

#include <cstring>
#include <vector>

#include "differential/random.h"
#include "sides.h"

constexpr uint32_t calls = 16384; // of one turn

// The addresses of a turn's calls, the same for both sides.
using Addresses = std::vector<uint32_t>;

template <class Address> Addresses in_order(Address address)
{
    Addresses made(calls);
    for (uint32_t k = 0; k < calls; ++k)
        made[k] = address(k);
    return made;
}

template <class Address> Addresses at_random(Address address)
{
    Random random(1);
    return in_order([&](uint32_t) { return address(random); });
}

// Held doublewords and held lines, one after the other.
inline Addresses each_doubleword()
{
    return in_order([](uint32_t k) { return k * 4 % held_bytes; });
}

inline Addresses each_line()
{
    return in_order([](uint32_t k) { return k * UNIT486_LINE_BYTES % held_bytes; });
}

// Of held accesses of so many bytes at a multiple of them: in one doubleword, those of 8 bytes in two.
inline Addresses aligned(uint32_t width)
{
    return at_random([=](Random &random) { return random.below(held_bytes / width) * width; });
}

// Of held accesses of four bytes.
inline Addresses in_two_doublewords()
{
    return at_random([](Random &random) {
        return random.below(UNIT486_LINES) * UNIT486_LINE_BYTES + random.below(3) * 4 + random.between(1, 3);
    });
}

// Of held accesses of eight bytes in one line.
inline Addresses in_three_doublewords()
{
    return at_random([](Random &random) {
        return random.below(UNIT486_LINES) * UNIT486_LINE_BYTES + random.below(2) * 4 + random.between(1, 3);
    });
}

// Of held accesses of four bytes, or of eight in three doublewords, the last two in the second line.
inline Addresses in_two_lines()
{
    return at_random([](Random &random) {
        return random.below(UNIT486_LINES - 1) * UNIT486_LINE_BYTES + random.between(13, 15);
    });
}

// The same places in lines that are not held.
inline Addresses not_held(Addresses addresses)
{
    for (uint32_t &address : addresses)
        address += held_bytes;
    return addresses;
}

// Read-only ranges in the upper half of RAM, a part of it between each two; no line there is held.
constexpr uint32_t range_distance = ram_bytes / 2 / UNIT486_RANGES_MOST;
constexpr uint32_t range_bytes = range_distance / 2;
constexpr uint32_t range_start(uint32_t k) { return ram_bytes / 2 + k * range_distance; }

// Of so many ranges, at random: accesses of four bytes, lines.
inline Addresses in_ranges(uint32_t count, uint32_t bytes)
{
    return at_random([=](Random &random) {
        return range_start(random.below(count)) + random.below(range_bytes / bytes) * bytes;
    });
}

// A turn: one call for each address.
template <class Call> auto each(const Addresses &addresses, Call call)
{
    return [=](Side &side, auto unit) {
        for (const uint32_t address : addresses)
            side.note(call(side, unit, address));
    };
}

inline auto reads(const Addresses &addresses, uint32_t width, bool pcd = false)
{
    return each(addresses,
        [=](Side &side, auto unit, uint32_t address) { return unit.read(side, address, width, pcd); });
}

// Reads of four bytes, during which four bytes at a distance from them are written before the third cycle.
inline auto carrying_reads(const Addresses &addresses, uint32_t distance)
{
    return each(addresses, [=](Side &side, auto unit, uint32_t address) {
        side.carried.count = 1;
        side.carried.cycles[0] = 2;
        side.carried.addresses[0] = (address + distance) % ram_bytes;
        side.carried.lengths[0] = 4;
        std::memset(side.carried.bytes[0], static_cast<int>(address / UNIT486_LINE_BYTES), 4);
        return unit.read_carrying(side, address, 4);
    });
}

// Values of the whole width.
inline auto writes(const Addresses &addresses, uint32_t width)
{
    const uint32_t shift = 64 - 8 * width;
    return each(addresses, [=](Side &side, auto unit, uint32_t address) {
        return unit.write(side, address, width, address * 0x9e3779b97f4a7c15 >> shift);
    });
}

inline auto external_writes(const Addresses &addresses, uint32_t count)
{
    return each(addresses, [=](Side &side, auto unit, uint32_t address) {
        uint8_t bytes[UNIT486_LINE_BYTES];
        std::memset(bytes, static_cast<int>(address / UNIT486_LINE_BYTES), sizeof bytes);
        return unit.external_write(side, address, bytes, count);
    });
}
