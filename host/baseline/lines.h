// Lines of the data array, and what a kept fill and another master's write leave.
#pragma once

#include <cstring>

#include "directory.h"
#include "memory.h"
#include "ranges.h"
#include "unit486.h"

namespace baseline {

// Where the byte of an address stands in the data array, by the index of its line.
inline size_t data_offset(unsigned index, uint32_t address)
{
    return size_t{index * UNIT486_LINE_BYTES} + address % UNIT486_LINE_BYTES;
}

// A kept fill: RAM's line as it stands is what its cycles brought.
inline void keep_fill(Directory &directory, unit486_buffers &lent, uint32_t address)
{
    const uint32_t line = line_address(address);
    const size_t offset = data_offset(fill(directory, address), line);
    std::memcpy(lent.data + offset, lent.ram + line, UNIT486_LINE_BYTES);
}

// Bytes of one line into RAM, with their parity.
inline void put_bytes(unit486_buffers &lent, uint32_t address, const uint8_t *bytes, size_t count)
{
    std::memcpy(lent.ram + address, bytes, count);
    // The written lanes of the line's sixteen, four for each doubleword.
    const unsigned written = ((1u << count) - 1) << address % 16;
    const uint32_t line = line_address(address);
    for (unsigned k = 0; k < 4; ++k) {
        const unsigned lanes = written >> 4 * k & all_lanes;
        if (lanes != 0)
            store_parity(lent.parity[line / 4 + k], lanes, load(lent.ram + line + 4 * k));
    }
}

// "An external write puts 1 to 16 bytes of one line into RAM, sets their parity, then snoops. It leaves
// no record." Document 02: "RAM and parity there ignore CPU writes and external writes, though cycles and
// snoops go on."
inline void put_external(
    Directory &directory, unit486_buffers &lent, uint32_t address, const uint8_t *bytes, size_t count)
{
    if (!is_read_only(directory.ranges, address))
        put_bytes(lent, address, bytes, count);
    invalidate(directory, address);
}

} // namespace baseline
