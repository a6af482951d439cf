// Refused, "because of the input": each function gives the lowest number that it meets, or 0.
#pragma once

#include <cstring>

#include "unit486.h"

namespace baseline {

// 1. "RAM has 16 to 16,777,216 bytes, a multiple of 16."
inline bool good_ram(size_t length)
{
    return length >= UNIT486_RAM_LEAST && length <= UNIT486_RAM_MOST && length % 16 == 0;
}

// 1, 2. "Parity length is not RAM / 4."
inline uint32_t memory_number(const unit486_buffers &lent)
{
    if (!good_ram(lent.ram_length))
        return UNIT486_WRONG_RAM_LENGTH;
    return lent.parity_length == lent.ram_length / 4 ? UNIT486_DONE : UNIT486_WRONG_PARITY_LENGTH;
}

// 4. Document 02: "Add width 8."
inline bool good_width(uint32_t width) { return width == 1 || width == 2 || width == 4 || width == 8; }

// 6. Not 48 answers, "or one above 7", the unused ones too.
inline bool good_answers(const uint8_t *answers, size_t length)
{
    if (length != UNIT486_ANSWERS)
        return false;
    // Eight at a time, with the bits that none may have.
    uint64_t seen = 0;
    for (size_t k = 0; k < UNIT486_ANSWERS; k += 8) {
        uint64_t eight;
        std::memcpy(&eight, answers + k, 8);
        seen |= eight;
    }
    return (seen & 0xf8f8f8f8f8f8f8f8) == 0;
}

// 1 to 7, of a read or a write. Address + width is a sum of 64 bits, which cannot wrap.
inline uint32_t input_number(const unit486_buffers &lent, uint32_t address, uint32_t width,
    const uint8_t *answers, size_t answers_length, size_t log_length)
{
    const uint32_t number = memory_number(lent);
    if (number != UNIT486_DONE)
        return number;
    if (lent.data_length != UNIT486_DATA_BYTES)
        return UNIT486_WRONG_DATA_LENGTH;
    if (!good_width(width))
        return UNIT486_WRONG_WIDTH;
    if (uint64_t{address} + width > lent.ram_length)
        return UNIT486_BEYOND_RAM;
    if (!good_answers(answers, answers_length))
        return UNIT486_WRONG_ANSWERS;
    return log_length < UNIT486_LOG_WORDS ? UNIT486_SHORT_LOG : UNIT486_DONE;
}

// 8. "Value too large for its width."
inline uint32_t value_number(uint32_t width, uint64_t value)
{
    return width < 8 && value >> 8 * width != 0 ? UNIT486_LARGE_VALUE : UNIT486_DONE;
}

// 10. "External write empty, over 16 bytes, across lines or beyond RAM."
inline bool good_external_write(const unit486_buffers &lent, uint32_t address, size_t count)
{
    if (count == 0 || count > UNIT486_LINE_BYTES || address % 16 + count > UNIT486_LINE_BYTES)
        return false;
    return address + count <= lent.ram_length;
}

// 1, 2, 10.
inline uint32_t external_input_number(const unit486_buffers &lent, uint32_t address, size_t count)
{
    const uint32_t number = memory_number(lent);
    if (number != UNIT486_DONE)
        return number;
    return good_external_write(lent, address, count) ? UNIT486_DONE : UNIT486_WRONG_EXTERNAL_WRITE;
}

// 33. Document 02: "more than four writes, they aren't in cycle order or one would be refused by 10". Equal
// numbers are in order.
inline uint32_t carried_number(const unit486_buffers &lent, const unit486_carried_writes &carried)
{
    if (carried.count > UNIT486_CARRIED_MOST)
        return UNIT486_WRONG_CARRIED_WRITES;
    for (uint32_t k = 0; k < carried.count; ++k) {
        const bool in_order = k == 0 || carried.cycles[k] >= carried.cycles[k - 1];
        if (!in_order || !good_external_write(lent, carried.addresses[k], carried.lengths[k]))
            return UNIT486_WRONG_CARRIED_WRITES;
    }
    return UNIT486_DONE;
}

// 1, 3, 5. "view: address not in RAM"
inline uint32_t view_input_number(const unit486_buffers &lent, uint32_t address)
{
    if (!good_ram(lent.ram_length))
        return UNIT486_WRONG_RAM_LENGTH;
    if (lent.data_length != UNIT486_DATA_BYTES)
        return UNIT486_WRONG_DATA_LENGTH;
    return address < lent.ram_length ? UNIT486_DONE : UNIT486_BEYOND_RAM;
}

// 3, 31, 32. Document 02: "31 where CD = 0, after 3; 32 where the set is above 127, the way above 3 or the
// tag above 2,097,151, after 31". A test read has no tag, and asks with 0.
inline uint32_t test_number(const unit486_buffers &lent, bool cd, uint32_t set, uint32_t way, uint32_t tag)
{
    if (lent.data_length != UNIT486_DATA_BYTES)
        return UNIT486_WRONG_DATA_LENGTH;
    if (!cd)
        return UNIT486_TEST_WITH_CD_0;
    const bool good = set < UNIT486_SETS && way < UNIT486_WAYS && tag <= UNIT486_TAG_MOST;
    return good ? UNIT486_DONE : UNIT486_WRONG_TEST_LINE;
}

} // namespace baseline
