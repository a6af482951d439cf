// Doublewords of RAM, their lanes and their parity.
#pragma once

#include <cstdint>
#include <cstring>

namespace baseline {

static_assert(__BYTE_ORDER__ == __ORDER_LITTLE_ENDIAN__, "doublewords are moved whole");

constexpr unsigned all_lanes = 15;

// The bits of a doubleword that a mask of lanes names.
// clang-format off
constexpr uint32_t lane_bits[16] = {
    0x00000000, 0x000000ff, 0x0000ff00, 0x0000ffff, 0x00ff0000, 0x00ff00ff, 0x00ffff00, 0x00ffffff,
    0xff000000, 0xff0000ff, 0xff00ff00, 0xff00ffff, 0xffff0000, 0xffff00ff, 0xffffff00, 0xffffffff};
// clang-format on

inline uint32_t load(const uint8_t *from)
{
    uint32_t word;
    std::memcpy(&word, from, 4);
    return word;
}

inline void store(uint8_t *to, uint32_t word) { std::memcpy(to, &word, 4); }

// The lanes of a doubleword in memory replaced by those of a word.
inline void store_lanes(uint8_t *to, unsigned lanes, uint32_t word)
{
    const uint32_t bits = lane_bits[lanes];
    store(to, (load(to) & ~bits) | (word & bits));
}

// "Even parity: a byte and its DP bit together have an even number of ones": DP0 to DP3 of a doubleword.
inline unsigned dp_bits(uint32_t word)
{
    word ^= word >> 4;
    word ^= word >> 2;
    word ^= word >> 1;
    // Bits 0, 8, 16 and 24 are now odd or even; the product gathers them in bits 24 to 27.
    return (word & 0x01010101) * 0x01020408 >> 24;
}

// "bits 0 to 3 are DP0 to DP3, the upper four are ignored and become 0 when that byte is written"
inline void store_parity(uint8_t &parity, unsigned lanes, uint32_t word)
{
    parity = (parity & all_lanes & ~lanes) | (dp_bits(word) & lanes);
}

} // namespace baseline
