// The calls. Each looks for its number before it changes anything, so that a refused call leaves
// all that it was lent as it was.
#include "unit.h"

#include <cstring>

#include "bus.h"
#include "lines.h"
#include "ranges.h"
#include "refusal.h"

namespace baseline {

// "After reset all 512 lines are invalid, tags and LRU numbers are 0, and CD = NW = 1." Document 02: "A later
// reset keeps them", the ranges.
void reset(Directory &directory)
{
    std::memset(&directory, 0, offsetof(Directory, ranges));
    directory.cd = true;
    directory.nw = true;
}

uint32_t control(Directory &directory, bool cd, bool nw)
{
    if (nw && !cd)
        return UNIT486_WRONG_CONTROL;
    directory.cd = cd;
    directory.nw = nw;
    return UNIT486_DONE;
}

// "A flush (FLUSH#, INVD and WBINVD alike) clears valid marks"; document 02: "The data sheet zeroes the 128
// LRU numbers on a flush as on reset."
void flush(Directory &directory)
{
    std::memset(directory.valid, 0, sizeof directory.valid);
    std::memset(directory.lru, 0, sizeof directory.lru);
}

// Document 02: "One call sets them all anew". Places that are left over become 0.
uint32_t set_ranges(Directory &directory, size_t ram_length, const uint32_t *words, size_t count)
{
    const uint32_t number = setting_number(ram_length, words, count);
    if (number != UNIT486_DONE)
        return number;
    directory.ranges = Ranges{};
    directory.ranges.count = static_cast<uint32_t>(count / 2);
    for (uint32_t k = 0; k < directory.ranges.count; ++k)
        directory.ranges.ranges[k] = {words[2 * k], words[2 * k + 1]};
    return UNIT486_DONE;
}

uint32_t snoop(Directory &directory, uint32_t address)
{
    const uint32_t number = state_number(directory, set_of(address));
    if (number == UNIT486_DONE)
        invalidate(directory, address);
    return number;
}

// "Read miss: a fill when CD = 0, PCD = 0 and the first cycle has KEN#. Otherwise the wanted bytes only."
// A fill brings in RAM's line as it stands, so what the cycles brought is read from RAM. Apart from
// read_doubleword, which stays short for hits.
[[gnu::noinline]] static uint32_t read_miss(Directory &directory, unit486_buffers &lent, uint32_t address,
    unsigned wanted, bool may_fill, const uint8_t *answers, Records &records)
{
    if (!may_fill || !(answers[0] & UNIT486_KEN)) {
        read_cycles(lent, address, wanted, answers, records, nothing_lands);
    } else if (fill_cycles(lent, address, answers, records, nothing_lands)) {
        // "It is kept only if the last cycle also has KEN#".
        keep_fill(directory, lent, address);
    }
    return load(lent.ram + address) & lane_bits[wanted];
}

// One doubleword of a read: its wanted lanes. "Read hit: from the data array, no cycle, whatever CD and
// PCD are."
static uint32_t read_doubleword(Directory &directory, unit486_buffers &lent, uint32_t address,
    unsigned wanted, bool may_fill, const uint8_t *answers, Records &records)
{
    const unsigned way = lookup(directory, address);
    if (way == no_way)
        return read_miss(directory, lent, address, wanted, may_fill, answers, records);
    const unsigned set = set_of(address);
    use(directory, set, way);
    return load(lent.data + data_offset(line_index(set, way), address)) & lane_bits[wanted];
}

unit486_result read(Directory &directory, unit486_buffers &lent, uint32_t address, uint32_t width, bool pcd,
    const uint8_t *answers, size_t answers_length, uint32_t *log, size_t log_length)
{
    uint32_t number = input_number(lent, address, width, answers, answers_length, log_length);
    if (number == UNIT486_DONE)
        number = ranges_number(directory.ranges, lent.ram_length);
    if (number == UNIT486_DONE)
        number = states_number(directory, address, width);
    if (number != UNIT486_DONE)
        return {number, 0, 0};
    Records records{log};
    const bool may_fill = !directory.cd && !pcd;
    const auto read_one = [&](uint32_t doubleword, unsigned wanted, const uint8_t *group) {
        return read_doubleword(directory, lent, doubleword, wanted, may_fill, group, records);
    };
    const uint64_t value = read_doublewords(address, width, answers, read_one);
    return {UNIT486_DONE, records.count, value};
}

// One doubleword of a write. "A miss never fills. With CD = NW = 1 a hit changes the data array and, as
// a use, the LRU number; RAM and parity stay, with no cycle."
static void write_doubleword(Directory &directory, unit486_buffers &lent, uint32_t address, unsigned wanted,
    uint32_t word, const uint8_t *answers, Records &records)
{
    const unsigned way = lookup(directory, address);
    if (way != no_way) {
        const unsigned set = set_of(address);
        use(directory, set, way);
        store_lanes(lent.data + data_offset(line_index(set, way), address), wanted, word);
        if (directory.cd && directory.nw)
            return;
    }
    write_cycles(lent, address, wanted, word, is_read_only(directory.ranges, address), answers, records);
}

unit486_result write(Directory &directory, unit486_buffers &lent, uint32_t address, uint32_t width,
    uint64_t value, const uint8_t *answers, size_t answers_length, uint32_t *log, size_t log_length)
{
    uint32_t number = input_number(lent, address, width, answers, answers_length, log_length);
    if (number == UNIT486_DONE)
        number = value_number(width, value);
    if (number == UNIT486_DONE)
        number = ranges_number(directory.ranges, lent.ram_length);
    if (number == UNIT486_DONE)
        number = states_number(directory, address, width);
    if (number != UNIT486_DONE)
        return {number, 0, 0};
    Records records{log};
    const auto write_one = [&](uint32_t doubleword, unsigned wanted, uint32_t word, const uint8_t *group) {
        write_doubleword(directory, lent, doubleword, wanted, word, group, records);
    };
    write_doublewords(address, width, value, answers, write_one);
    return {UNIT486_DONE, records.count, 0};
}

uint32_t external_write(
    Directory &directory, unit486_buffers &lent, uint32_t address, const uint8_t *bytes, size_t count)
{
    uint32_t number = external_input_number(lent, address, count);
    if (number == UNIT486_DONE)
        number = ranges_number(directory.ranges, lent.ram_length);
    if (number == UNIT486_DONE)
        number = state_number(directory, set_of(address));
    if (number == UNIT486_DONE)
        put_external(directory, lent, address, bytes, count);
    return number;
}

// In line in both that ask it: a view is short.
[[gnu::always_inline]] static inline uint32_t number_of_view(
    const Directory &directory, const unit486_buffers &lent, uint32_t address)
{
    uint32_t number = view_input_number(lent, address);
    if (number == UNIT486_DONE)
        number = ranges_number(directory.ranges, lent.ram_length);
    return number != UNIT486_DONE ? number : state_number(directory, set_of(address));
}

uint32_t view_number(const Directory &directory, const unit486_buffers &lent, uint32_t address)
{
    return number_of_view(directory, lent, address);
}

// "A line view is a part of the data array where the line is held, otherwise a part of RAM, always the
// sixteen bytes around the address". A view is no use.
uint32_t view(const Directory &directory, const unit486_buffers &lent, uint32_t address, uint8_t *shown)
{
    const uint32_t number = number_of_view(directory, lent, address);
    if (number != UNIT486_DONE)
        return number;
    const unsigned way = lookup(directory, address);
    const uint32_t line = line_address(address);
    const uint8_t *part =
        way == no_way ? lent.ram + line : lent.data + data_offset(line_index(set_of(address), way), line);
    std::memcpy(shown, part, UNIT486_LINE_BYTES);
    return UNIT486_DONE;
}

// Document 02: "a test write, which puts a tag, a valid mark and sixteen bytes in a given set and way".
// It is no use.
uint32_t test_write(Directory &directory, unit486_buffers &lent, uint32_t set, uint32_t way, uint32_t tag,
    bool mark, const uint8_t *bytes)
{
    const uint32_t number = test_number(lent, directory.cd, set, way, tag);
    if (number != UNIT486_DONE)
        return number;
    const unsigned index = line_index(set, way);
    directory.tags[index] = tag;
    directory.valid[index] = mark;
    std::memcpy(lent.data + data_offset(index, 0), bytes, UNIT486_LINE_BYTES);
    return UNIT486_DONE;
}

// "and a test read, which returns them with the set's LRU number"; "A refused test read gives zeros and an
// invalid mark."
unit486_test_line test_read(
    const Directory &directory, const unit486_buffers &lent, uint32_t set, uint32_t way)
{
    unit486_test_line line{};
    line.number = test_number(lent, directory.cd, set, way, 0);
    if (line.number != UNIT486_DONE)
        return line;
    const unsigned index = line_index(set, way);
    line.tag = directory.tags[index];
    line.valid = directory.valid[index];
    line.lru = directory.lru[set];
    std::memcpy(line.bytes, lent.data + data_offset(index, 0), UNIT486_LINE_BYTES);
    return line;
}

} // namespace baseline
