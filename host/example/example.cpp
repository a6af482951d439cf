// A host's first steps: compare versions, fill a line, hit it, let another master write, read the new byte;
// then a floating-point number of eight bytes, a fieldbus card that writes during a fill, a plant's own block
// table, a diagnostic disk's test of the cache, and a guest's test for its boot ROM. Ends with 1 if a step is
// not as unit486.h says.
#include <cinttypes>
#include <cstdio>
#include <cstring>
#include <string>
#include <vector>

#include "unit486.h"

static bool all_as_documented = true;

static void expect(const char *step, uint64_t seen, uint64_t documented)
{
    std::printf("%-52s %" PRIu64 "\n", step, seen);
    if (seen != documented) {
        std::printf("  but %" PRIu64 " is documented\n", documented);
        all_as_documented = false;
    }
}

// The number that a call answered, with its text where the call was refused.
static void expect_number(const char *step, uint32_t seen, unit486_number documented)
{
    expect(step, seen, documented);
    if (seen != UNIT486_DONE)
        std::printf("  refused: %s\n", unit486_number_text(seen));
}

// All that the unit works on is the host's: here 64 KB of zero bytes where nothing else is said, with which
// zero parity agrees, a board with document 01's answers, and a directory of zero bytes, which has no range.
struct Host {
    std::vector<uint8_t> ram, parity, data;
    uint8_t table[UNIT486_BLOCKS];
    uint32_t log[UNIT486_LOG_WORDS];
    unit486_directory directory = {};
    unit486_buffers lent;

    explicit Host(size_t ram_bytes = 65536) : ram(ram_bytes), parity(ram_bytes / 4), data(UNIT486_DATA_BYTES)
    {
        unit486_block_answers(table);
        unit486_reset(&directory);
        lent = {ram.data(), ram.size(), parity.data(), parity.size(), data.data(), data.size()};
    }

    // The board is asked for each access, since it answers by address.
    unit486_result read(uint32_t address, uint32_t width)
    {
        uint8_t answers[UNIT486_ANSWERS];
        unit486_board_answers(table, address, width, answers);
        return unit486_read(
            &directory, &lent, address, width, false, answers, UNIT486_ANSWERS, log, UNIT486_LOG_WORDS);
    }

    // A read during which other masters write.
    unit486_result read_carrying(uint32_t address, uint32_t width, const unit486_carried_writes &carried)
    {
        uint8_t answers[UNIT486_ANSWERS];
        unit486_board_answers(table, address, width, answers);
        return unit486_read_carrying(&directory, &lent, address, width, false, answers, UNIT486_ANSWERS, log,
            UNIT486_LOG_WORDS, &carried);
    }

    unit486_result write(uint32_t address, uint32_t width, uint64_t value)
    {
        uint8_t answers[UNIT486_ANSWERS];
        unit486_board_answers(table, address, width, answers);
        return unit486_write(
            &directory, &lent, address, width, value, answers, UNIT486_ANSWERS, log, UNIT486_LOG_WORDS);
    }
};

static constexpr uint32_t address = 0x1234;
static constexpr uint32_t all_bytes =
    UNIT486_FLAG_BYTE0 | UNIT486_FLAG_BYTE1 | UNIT486_FLAG_BYTE2 | UNIT486_FLAG_BYTE3;

static void fill_and_hit(Host &host)
{
    expect_number(
        "control, CD = NW = 0: number", unit486_control(&host.directory, false, false), UNIT486_DONE);

    unit486_result result = host.write(address, 4, 0x11223344);
    expect("write of 4 bytes, a miss: cycles", result.cycles, 1);
    expect("  flags of its cycle", host.log[1], all_bytes | UNIT486_FLAG_WRITE | UNIT486_FLAG_LAST);

    result = host.read(address, 4);
    expect("read, a fill: cycles", result.cycles, 4);
    expect("  value", result.value, 0x11223344);
    expect("  address of the first cycle", host.log[0], 0x1234);
    expect("  address of the second, in burst order", host.log[3], 0x1230);
    expect("  flags of the last", host.log[10], all_bytes | UNIT486_FLAG_FILL | UNIT486_FLAG_LAST);

    result = host.read(address, 4);
    expect("the same read, a hit: cycles", result.cycles, 0);
    expect("  value", result.value, 0x11223344);
}

static void another_master(Host &host)
{
    const uint8_t byte = 0xAA;
    expect_number("another master's write: number",
        unit486_external_write(&host.directory, &host.lent, address, &byte, 1), UNIT486_DONE);

    const unit486_result result = host.read(address, 1);
    expect("read of that byte, a fill again: cycles", result.cycles, 4);
    expect("  value", result.value, 0xAA);

    uint8_t shown[UNIT486_LINE_BYTES];
    expect_number(
        "line view: number", unit486_view(&host.directory, &host.lent, address, shown), UNIT486_DONE);
    expect("  the byte in it", shown[address % UNIT486_LINE_BYTES], 0xAA);

    expect_number("read beyond RAM: number", host.read(65534, 4).number, UNIT486_BEYOND_RAM);
}

// A recipe's floating-point number, stored and loaded where it lies in three doublewords of one line. The
// first brings the line in, from its own place on, and the two others hit.
static void eight_bytes(Host &host)
{
    constexpr uint32_t recipe = 0x3456;
    const double dose = 0.1;
    uint64_t bits;
    std::memcpy(&bits, &dose, sizeof bits);

    unit486_result result = host.write(recipe, 8, bits);
    expect("write of 8 bytes in three doublewords: cycles", result.cycles, 3);
    expect("  flags of the first", host.log[1],
        UNIT486_FLAG_BYTE2 | UNIT486_FLAG_BYTE3 | UNIT486_FLAG_WRITE | UNIT486_FLAG_LAST);
    expect("  flags of the second", host.log[4], all_bytes | UNIT486_FLAG_WRITE | UNIT486_FLAG_LAST);
    expect("  flags of the third", host.log[7],
        UNIT486_FLAG_BYTE0 | UNIT486_FLAG_BYTE1 | UNIT486_FLAG_WRITE | UNIT486_FLAG_LAST);

    result = host.read(recipe, 8);
    expect("read of them, one fill: cycles", result.cycles, 4);
    expect("  address of the first cycle", host.log[0], 0x3454);
    expect("  value", result.value, bits);
    expect("the same read, a hit: cycles", host.read(recipe, 8).cycles, 0);

    expect_number(
        "write of a value of 8 bytes to 4: number", host.write(recipe, 4, bits).number, UNIT486_LARGE_VALUE);
}

static constexpr uint32_t batch_address = 0x2348;

// A fieldbus card's new batch number, which lands before a cycle of the read that carries it.
static unit486_carried_writes batch_write(uint8_t batch, uint32_t cycle)
{
    unit486_carried_writes carried = {};
    carried.count = 1;
    carried.cycles[0] = cycle;
    carried.addresses[0] = batch_address;
    carried.lengths[0] = 1;
    carried.bytes[0][0] = batch;
    return carried;
}

// A batch number changes while its line comes in. Its own doubleword comes in first, in cycle 0.
static void card_writes_during_fill(Host &host)
{
    host.write(batch_address, 1, 41);
    unit486_result result = host.read_carrying(batch_address, 1, batch_write(42, 2));
    expect("read, the card writes before cycle 2: cycles", result.cycles, 4);
    expect("  value, as in RAM at cycle 0", result.value, 41);
    result = host.read(batch_address, 1);
    expect("read again, a fill as that was dropped: cycles", result.cycles, 4);
    expect("  value, not stale", result.value, 42);

    unit486_flush(&host.directory);
    result = host.read_carrying(batch_address, 1, batch_write(43, 0));
    expect("read, the card writes before cycle 0: cycles", result.cycles, 4);
    expect("  value", result.value, 43);
    result = host.read(batch_address, 1);
    expect("read again, a hit as that fill was kept: cycles", result.cycles, 0);
    expect("  value", result.value, 43);

    result = host.read_carrying(batch_address, 1, batch_write(44, 0));
    expect("hit: the card writes after it; value", result.value, 43);
    result = host.read(batch_address, 1);
    expect("  read again, a fill: value", result.value, 44);

    unit486_carried_writes carried = batch_write(45, 0);
    carried.count = UNIT486_CARRIED_MOST + 1;
    expect_number("read that carries five writes: number",
        host.read_carrying(batch_address, 1, carried).number, UNIT486_WRONG_CARRIED_WRITES);
}

// A board whose memory is eight bits wide: block 0 answers KEN# and BS8#, so that a fill has sixteen cycles.
// A text of which only the first line has come is refused and leaves the table.
static void plant_table(Host &host)
{
    std::string text = "0\t3\n";
    for (uint32_t block = 1; block < UNIT486_BLOCKS; ++block)
        text += std::to_string(block) + "\t1\n";
    const uint8_t *bytes = reinterpret_cast<const uint8_t *>(text.data());
    expect_number("load of the plant's table: number", unit486_load_table(host.table, bytes, text.size()),
        UNIT486_DONE);
    expect("  the answer of block 0", host.table[0], UNIT486_KEN | UNIT486_BS8);
    unit486_flush(&host.directory);
    expect("read with this table, a fill: cycles", host.read(address, 4).cycles, 16);

    expect_number("load of its first line alone: number", unit486_load_table(host.table, bytes, 4),
        UNIT486_WRONG_TABLE_LINE);
    expect("  the answer of block 0, as it was", host.table[0], UNIT486_KEN | UNIT486_BS8);
    unit486_block_answers(host.table);
    expect("document 01's table: the answer of block 0", host.table[0], UNIT486_KEN);
}

// A line planted and read back, as a diagnostic disk does it. Its tag and set are those of an address in RAM,
// where other bytes stand: reads there differ from RAM until the flush ends what was planted.
static void cache_test(Host &host)
{
    constexpr uint32_t set = 127, way = 2, tag = 7, planted = (tag * UNIT486_SETS + set) * UNIT486_LINE_BYTES;
    const uint8_t pattern[UNIT486_LINE_BYTES] = {0x55, 0xAA};
    expect("write to RAM, a miss: cycles", host.write(planted, 2, 0x6677).cycles, 1);
    expect_number("test write with CD = 0: number",
        unit486_test_write(&host.directory, &host.lent, set, way, tag, true, pattern),
        UNIT486_TEST_WITH_CD_0);

    expect_number(
        "control, CD = 1, NW = 0: number", unit486_control(&host.directory, true, false), UNIT486_DONE);
    expect_number("test write: number",
        unit486_test_write(&host.directory, &host.lent, set, way, tag, true, pattern), UNIT486_DONE);

    unit486_test_line line = unit486_test_read(&host.directory, &host.lent, set, way);
    expect_number("test read: number", line.number, UNIT486_DONE);
    expect("  tag", line.tag, tag);
    expect("  valid mark", line.valid, 1);
    expect("  the bytes are those planted", std::memcmp(line.bytes, pattern, sizeof pattern) == 0, 1);
    expect("read of that line, a hit: value", host.read(planted, 2).value, 0xAA55);
    line = unit486_test_read(&host.directory, &host.lent, set, way);
    expect("  LRU number, B2 set by that use of way 2", line.lru, 4);

    unit486_flush(&host.directory);
    line = unit486_test_read(&host.directory, &host.lent, set, way);
    expect("test read after a flush: valid mark", line.valid, 0);
    expect("  LRU number", line.lru, 0);
    expect("read of that line: value, as in RAM", host.read(planted, 2).value, 0x6677);
}

// A boot ROM of 64 KB at the end of block 14, whose answer is BS8# without KEN#, so that no line of it is ever
// held. The host puts its bytes there, then makes them read-only, right after the reset. A guest that writes
// there reads the old bytes, and so knows it for ROM.
static void boot_rom()
{
    constexpr uint32_t rom_bytes = 65536, rom = 15 * 1048576 - rom_bytes;
    Host host(rom + rom_bytes);
    const uint8_t signature[2] = {0x55, 0xAA}, other[2] = {0x12, 0x34};
    unit486_external_write(&host.directory, &host.lent, rom, signature, sizeof signature);

    unit486_range ranges[UNIT486_RANGES_MOST + 1];
    for (unit486_range &range : ranges)
        range = {rom, rom_bytes};
    const auto set = [&](size_t count) {
        return unit486_set_ranges(&host.directory, host.lent.ram, host.lent.ram_length, ranges, count);
    };
    expect_number("setting of the boot ROM's range: number", set(1), UNIT486_DONE);
    unit486_control(&host.directory, false, false);

    unit486_result result = host.write(rom, 2, 0);
    expect("write into the boot ROM, BS8#: cycles", result.cycles, 2);
    result = host.read(rom, 2);
    expect("read of it, no fill: cycles", result.cycles, 2);
    expect("  value, as it was", result.value, 0xAA55);
    expect_number("another master's write into it: number",
        unit486_external_write(&host.directory, &host.lent, rom, other, sizeof other), UNIT486_DONE);
    expect("  value, as it was", host.read(rom, 2).value, 0xAA55);
    host.write(rom - 1, 2, 0x6677);
    expect("write across its start: the byte before it", host.read(rom - 1, 1).value, 0x77);
    expect("  its first byte, as it was", host.read(rom, 1).value, 0x55);

    unit486_reset(&host.directory);
    expect("reset, which keeps the ranges: their count", host.directory.ranges.count, 1);
    expect_number("setting of nine ranges: number", set(9), UNIT486_TOO_MANY_RANGES);
    ranges[0].length = 8;
    expect_number("setting of half a line: number", set(1), UNIT486_WRONG_RANGE);
    expect("  the count of ranges, as it was", host.directory.ranges.count, 1);
}

int main(int argc, char **)
{
    if (argc > 1) {
        std::fprintf(stderr, "usage: example\n");
        return 2;
    }
    expect("version of the library", unit486_version(), UNIT486_VERSION);
    if (!all_as_documented)
        return 1;
    Host host;
    fill_and_hit(host);
    another_master(host);
    eight_bytes(host);
    card_writes_during_fill(host);
    plant_table(host);
    cache_test(host);
    boot_rom();
    std::printf(all_as_documented ? "all as documented\n" : "NOT as documented\n");
    return all_as_documented ? 0 : 1;
}
