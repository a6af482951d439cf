// Cycles: sizing, flags and records.
#pragma once

#include "memory.h"
#include "unit486.h"

namespace baseline {

// "0 to 15 serve the cycles of the lower doubleword in turn, 16 to 31 those of the upper"; document 02: "48
// answers in groups of 16".
constexpr unsigned group_answers = 16;

// "A cycle moves part of the bytes still wanted, starting with the lowest: with BS8# that byte alone;
// with BS16# all wanted bytes in its half of the doubleword; otherwise all. With both, BS8# rules."
inline unsigned moved_lanes(unsigned wanted, unsigned answer)
{
    if (answer & UNIT486_BS8)
        return wanted & -wanted;
    if (answer & UNIT486_BS16)
        return wanted & 3 ? wanted & 3 : wanted;
    return wanted;
}

// "Each cycle leaves three 32-bit words in the log: doubleword address; flags; data, unmoved lanes 0."
struct Records {
    uint32_t *next;
    uint32_t count = 0;

    void put(uint32_t address, uint32_t flags, uint32_t word)
    {
        next[0] = address;
        next[1] = flags;
        next[2] = word;
        next += 3;
        ++count;
    }
};

// "128 read with wrong parity in a moved byte. Parity never alters data."
inline void read_cycle(
    const unit486_buffers &lent, uint32_t address, unsigned lanes, uint32_t flags, Records &records)
{
    const uint32_t word = load(lent.ram + address) & lane_bits[lanes];
    const unsigned wrong = (dp_bits(word) ^ lent.parity[address / 4]) & lanes;
    records.put(address, lanes | flags | (wrong ? UNIT486_FLAG_WRONG_PARITY : 0), word);
}

// The wanted lanes of an access: 0 to 3 in the lowest doubleword, 4 to 7 in the next, 8 to 10 in the third.
inline unsigned wanted_lanes(uint32_t address, uint32_t width) { return ((1u << width) - 1) << address % 4; }
constexpr unsigned two_doublewords = 255;

// Document 02: "up to three doublewords". `read` gives the wanted lanes of one; "the lower one completed
// first (H)": the next one may hit in the line that it filled. Written out, which is faster than a loop.
template <class Read>
uint64_t read_doublewords(uint32_t address, uint32_t width, const uint8_t *answers, Read read)
{
    const unsigned wanted = wanted_lanes(address, width);
    const unsigned shift = 8 * (address % 4);
    const uint32_t lowest = address & ~3u;
    uint64_t words = read(lowest, wanted & all_lanes, answers);
    if (wanted > all_lanes)
        words |= uint64_t{read(lowest + 4, wanted >> 4 & all_lanes, answers + group_answers)} << 32;
    uint64_t value = words >> shift;
    if (wanted > two_doublewords)
        value |= uint64_t{read(lowest + 8, wanted >> 8, answers + 2 * group_answers)} << (64 - shift);
    return value;
}

template <class Write>
void write_doublewords(uint32_t address, uint32_t width, uint64_t value, const uint8_t *answers, Write write)
{
    const unsigned wanted = wanted_lanes(address, width);
    const unsigned shift = 8 * (address % 4);
    const uint32_t lowest = address & ~3u;
    const uint64_t words = value << shift;
    write(lowest, wanted & all_lanes, static_cast<uint32_t>(words), answers);
    if (wanted > all_lanes)
        write(
            lowest + 4, wanted >> 4 & all_lanes, static_cast<uint32_t>(words >> 32), answers + group_answers);
    if (wanted > two_doublewords)
        write(lowest + 8, wanted >> 8, static_cast<uint32_t>(value >> (64 - shift)),
            answers + 2 * group_answers);
}

// Ahead of a cycle of a read that carries no writes.
constexpr auto nothing_lands = [] {};

// The cycles of a read that is no fill: "the wanted bytes only".
template <class Land> void read_cycles(const unit486_buffers &lent, uint32_t address, unsigned wanted,
    const uint8_t *answers, Records &records, Land land)
{
    do {
        land();
        const unsigned lanes = moved_lanes(wanted, *answers++);
        wanted &= ~lanes;
        read_cycle(lent, address, lanes, wanted ? 0 : UNIT486_FLAG_LAST, records);
    } while (wanted);
}

// "Fill: all four bytes of each doubleword of the line". Answers whether the last cycle has KEN#.
template <class Land> bool fill_cycles(
    const unit486_buffers &lent, uint32_t address, const uint8_t *answers, Records &records, Land land)
{
    unsigned answer = 0;
    for (unsigned offset = 0; offset < UNIT486_LINE_BYTES; offset += 4) {
        // "0-4-8-12, 4-0-12-8, 8-12-0-4 or 12-8-4-0"; document 02, C-13: "each case is its start
        // exclusive-or 0, 4, 8 and 12 in turn".
        const uint32_t doubleword = address ^ offset;
        unsigned wanted = all_lanes;
        do {
            land();
            answer = *answers++;
            const unsigned lanes = moved_lanes(wanted, answer);
            wanted &= ~lanes;
            const bool last = offset == 12 && wanted == 0;
            read_cycle(lent, doubleword, lanes, UNIT486_FLAG_FILL | (last ? UNIT486_FLAG_LAST : 0), records);
        } while (wanted);
    }
    return answer & UNIT486_KEN;
}

// "Write: to RAM and the moved lanes' parity". The cycles together move all wanted lanes, so RAM and
// parity are written once, or not at all where they are read-only.
inline void write_cycles(unit486_buffers &lent, uint32_t address, unsigned wanted, uint32_t word,
    bool read_only, const uint8_t *answers, Records &records)
{
    if (!read_only) {
        store_lanes(lent.ram + address, wanted, word);
        store_parity(lent.parity[address / 4], wanted, word);
    }
    do {
        const unsigned lanes = moved_lanes(wanted, *answers++);
        wanted &= ~lanes;
        const uint32_t flags = lanes | UNIT486_FLAG_WRITE | (wanted ? 0 : UNIT486_FLAG_LAST);
        records.put(address, flags, word & lane_bits[lanes]);
    } while (wanted);
}

} // namespace baseline
