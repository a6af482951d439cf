// A read that carries other masters' writes. Quotations are document 02's, request C-12. It is apart from the
// read that carries none, which has nothing to ask between two cycles.
#include "bus.h"
#include "lines.h"
#include "ranges.h"
#include "refusal.h"
#include "unit.h"

namespace baseline {

namespace {

// An access under way: its records, and the writes of which `next` is the first that has not landed.
struct Carrying {
    Directory &directory;
    unit486_buffers &lent;
    const unit486_carried_writes &carried;
    Records records;
    uint32_t next = 0;

    // "counted from 0 over the access": the coming cycle's number is the count of records.
    bool due() const { return next < carried.count && carried.cycles[next] <= records.count; }

    bool next_is_in_line_of(uint32_t address) const
    {
        return line_address(carried.addresses[next]) == line_address(address);
    }

    void land()
    {
        put_external(directory, lent, carried.addresses[next], carried.bytes[next], carried.lengths[next]);
        ++next;
    }
};

// The lanes of a doubleword as its own cycles moved them: RAM may have other bytes by now. In a fill they are
// the first cycles, and the rest have other addresses.
uint32_t moved_by(const uint32_t *record, const uint32_t *end, uint32_t address)
{
    uint32_t word = 0;
    for (; record != end && record[0] == address; record += 3)
        word |= record[2];
    return word;
}

// "one landing before the first data leaves the fill valid. One landing later in the line being filled drops
// that fill, with NW = 1 too." So RAM's line is what a kept fill's cycles brought. "The victim is chosen
// after a fill's last cycle."
uint32_t read_miss(Carrying &access, uint32_t address, unsigned wanted, bool may_fill, const uint8_t *answers)
{
    const uint32_t first = access.records.count;
    const uint32_t *first_record = access.records.next;
    bool spoiled = false;
    const auto land = [&] {
        for (; access.due(); access.land())
            spoiled |= access.records.count > first && access.next_is_in_line_of(address);
    };
    if (!may_fill || !(answers[0] & UNIT486_KEN))
        read_cycles(access.lent, address, wanted, answers, access.records, land);
    else if (fill_cycles(access.lent, address, answers, access.records, land) && !spoiled)
        keep_fill(access.directory, access.lent, address);
    return moved_by(first_record, access.records.next, address) & lane_bits[wanted];
}

// "A doubleword is looked up before a write lands ahead of its first cycle."
uint32_t read_doubleword(
    Carrying &access, uint32_t address, unsigned wanted, bool may_fill, const uint8_t *answers)
{
    const unsigned way = lookup(access.directory, address);
    if (way == no_way)
        return read_miss(access, address, wanted, may_fill, answers);
    const unsigned set = set_of(address);
    use(access.directory, set, way);
    return load(access.lent.data + data_offset(line_index(set, way), address)) & lane_bits[wanted];
}

// "State numbers: the read's sets first, then the writes' in list order."
uint32_t carrying_states_number(
    const Directory &directory, uint32_t address, uint32_t width, const unit486_carried_writes &carried)
{
    uint32_t number = states_number(directory, address, width);
    for (uint32_t k = 0; number == UNIT486_DONE && k < carried.count; ++k)
        number = state_number(directory, set_of(carried.addresses[k]));
    return number;
}

} // namespace

unit486_result read_carrying(Directory &directory, unit486_buffers &lent, uint32_t address, uint32_t width,
    bool pcd, const uint8_t *answers, size_t answers_length, uint32_t *log, size_t log_length,
    const unit486_carried_writes &carried)
{
    uint32_t number = input_number(lent, address, width, answers, answers_length, log_length);
    if (number == UNIT486_DONE)
        number = carried_number(lent, carried);
    if (number == UNIT486_DONE)
        number = ranges_number(directory.ranges, lent.ram_length);
    if (number == UNIT486_DONE)
        number = carrying_states_number(directory, address, width, carried);
    if (number != UNIT486_DONE)
        return {number, 0, 0};
    Carrying access{directory, lent, carried, {log}};
    const bool may_fill = !directory.cd && !pcd;
    const auto read_one = [&](uint32_t doubleword, unsigned wanted, const uint8_t *group) {
        return read_doubleword(access, doubleword, wanted, may_fill, group);
    };
    const uint64_t value = read_doublewords(address, width, answers, read_one);
    // "Writes numbered past the last cycle, and all where there is none, land after the value is taken."
    while (access.next < carried.count)
        access.land();
    return {UNIT486_DONE, access.records.count, value};
}

} // namespace baseline
