// Times of the library beside those of the baseline, in one run, with the ratio of the two.
//
// Both sides get the same work on states of their own. A row is timed in turns, library and baseline,
// and the median of each side counts. What the calls answered is summed up, and after each row the sums,
// the directory and every buffer are compared: work that differs, or that is not what the row says, ends
// the program with 1. No time does.
#include <cstdio>
#include <cstdlib>
#include <cstring>
#include <string>
#include <vector>

#include "benchmark/sides.h"
#include "benchmark/timing.h"
#include "benchmark/turns.h"

namespace {

void require(bool same, const char *name)
{
    if (same)
        return;
    std::printf("%s: the two sides did different work, or other work than the row says\n", name);
    std::exit(1);
}

// What every call of a row does: so many cycles, which show that the calls are hits, fills or plain reads
// as the row says; or the number by which it is refused.
struct Expected {
    uint32_t cycles, number;
};

constexpr Expected done{0, UNIT486_DONE};
constexpr Expected cycles(uint32_t count) { return {count, UNIT486_DONE}; }
constexpr Expected refused(unit486_number number) { return {0, number}; }

void unprepared(Side &) {}

// What the board answers in every cycle.
auto answered(uint8_t answer)
{
    return [answer](Side &side) { std::memset(side.answers, answer, sizeof side.answers); };
}

// A row: one turn's calls, given as a function of a side's state.
template <class Turn, class Prepare = void (*)(Side &)>
void row(const char *name, Expected expected, Turn turn, Prepare prepare = unprepared)
{
    Side library, baseline;
    for (Side *side : {&library, &baseline}) {
        side->number = expected.number;
        prepare(*side);
    }
    const Times times = time_both([&] { turn(library, Library{}); }, [&] { turn(baseline, Baseline{}); });
    require(library.same_as(baseline), name);
    require(library.other_numbers == 0 && baseline.other_numbers == 0, name);
    require(baseline.cycles == uint64_t{expected.cycles} * calls * (turns + 1), name);
    std::printf("| %-48s | %9.1f | %9.1f | %6.2f |\n", name, times.library / calls * 1e9,
        times.baseline / calls * 1e9, times.ratio);
}

// All lines are dropped one by one, then marked valid again: a look at 512 bytes and a store of them for
// 512 snoops.
template <class Snoop> auto drops(Snoop snoop)
{
    return each(each_line(), [=](Side &side, auto unit, uint32_t address) {
        const uint32_t number = snoop(side, unit, address);
        if (address == held_bytes - UNIT486_LINE_BYTES) {
            require(std::memchr(side.directory.valid, 1, UNIT486_LINES) == nullptr, "snoop hit");
            std::memset(side.directory.valid, 1, UNIT486_LINES);
        }
        return number;
    });
}

void hit_rows()
{
    row("read hit, sequential", done, reads(each_doubleword(), 4));
    row("read hit, random", done, reads(aligned(4), 4));
    row("read hit of 1 byte", done, reads(aligned(1), 1));
    row("read hit of 2 bytes", done, reads(aligned(2), 2));
    row("read hit in two doublewords of one line", done, reads(in_two_doublewords(), 4));
    row("read hit in two lines", done, reads(in_two_lines(), 4));
    row("read hit of 8 bytes", done, reads(aligned(8), 8));
    row("read hit of 8 bytes in three doublewords", done, reads(in_three_doublewords(), 8));
    row("read hit of 8 bytes in two lines", done, reads(in_two_lines(), 8));
}

// All of RAM in turn, 32 tags for each set: each line is gone before it is read again. The lines that are
// held at first come last.
Addresses every(uint32_t bytes)
{
    return in_order([=](uint32_t k) { return (held_bytes + k * bytes) % ram_bytes; });
}

void fill_rows()
{
    const Addresses lines = every(UNIT486_LINE_BYTES);
    Addresses pairs = every(2 * UNIT486_LINE_BYTES);
    for (uint32_t &address : pairs)
        address += UNIT486_LINE_BYTES - 2;
    row("read miss with fill, 32-bit bus (4 cycles)", cycles(4), reads(lines, 4));
    row("read miss with fill, BS16# (8 cycles)", cycles(8), reads(lines, 4),
        answered(UNIT486_KEN | UNIT486_BS16));
    row("read miss with fill, BS8# (16 cycles)", cycles(16), reads(lines, 4),
        answered(UNIT486_KEN | UNIT486_BS8));
    row("fill of two lines (8 cycles)", cycles(8), reads(pairs, 4));
}

// Half of RAM away no line is held: it was filled 2,048 fills ago. A line whose fill is dropped is not held,
// so that its next read has the cycles of a fill again.
void carrying_rows()
{
    row("fill during a write into another line (4 cycles)", cycles(4),
        carrying_reads(every(UNIT486_LINE_BYTES), ram_bytes / 2));
    row("fill that a write into its line drops (4 cycles)", cycles(4),
        carrying_reads(not_held(each_line()), UNIT486_LINE_BYTES / 2));
}

void plain_read_rows()
{
    const auto plain = reads(not_held(each_doubleword()), 4, true);
    row("plain read (PCD = 1, 1 cycle)", cycles(1), plain);
    row("plain read, BS16# (2 cycles)", cycles(2), plain, answered(UNIT486_BS16));
    row("plain read, BS8# (4 cycles)", cycles(4), plain, answered(UNIT486_BS8));
    row("plain read in two doublewords (2 cycles)", cycles(2),
        reads(not_held(in_two_doublewords()), 4, true));
    row("plain read of 8 bytes (2 cycles)", cycles(2), reads(not_held(aligned(8)), 8, true));
}

void write_rows()
{
    const auto hits = writes(aligned(4), 4);
    const auto misses = writes(not_held(aligned(4)), 4);
    row("write hit, through to RAM (1 cycle)", cycles(1), hits);
    row("write miss (1 cycle)", cycles(1), misses);
    row("write hit of 1 byte (1 cycle)", cycles(1), writes(aligned(1), 1));
    row("write hit of 2 bytes (1 cycle)", cycles(1), writes(aligned(2), 2));
    row("write hit, BS16# (2 cycles)", cycles(2), hits, answered(UNIT486_BS16));
    row("write hit, BS8# (4 cycles)", cycles(4), hits, answered(UNIT486_BS8));
    row("write hit in two doublewords (2 cycles)", cycles(2), writes(in_two_doublewords(), 4));
    row("write hit in two lines (2 cycles)", cycles(2), writes(in_two_lines(), 4));
    row("write hit of 8 bytes (2 cycles)", cycles(2), writes(aligned(8), 8));
    row("write hit of 8 bytes, 3 doublewords (3 cycles)", cycles(3), writes(in_three_doublewords(), 8));
    row("write miss, BS8# (4 cycles)", cycles(4), misses, answered(UNIT486_BS8));
    row("write that stays in the cache (CD = NW = 1)", done, hits,
        [](Side &side) { side.directory.cd = side.directory.nw = true; });
}

void master_rows()
{
    const auto snoop = [](Side &side, auto unit, uint32_t address) { return unit.snoop(side, address); };
    const auto thin = [](Side &side, auto unit, uint32_t address) { return unit.drop_line(side, address); };
    row("snoop hit", done, drops(snoop));
    row("snoop hit, thin call (drop_line)", done, drops(thin));
    row("snoop miss", done, each(not_held(each_line()), snoop));
    row("external write, 4 bytes, line not held", done, external_writes(not_held(each_line()), 4));
    row("external write, 16 bytes, line not held", done, external_writes(not_held(each_line()), 16));
}

// Directories with so many ranges.
auto ranged(uint32_t count)
{
    return [count](Side &side) {
        uint32_t words[2 * UNIT486_RANGES_MOST];
        for (uint32_t k = 0; k < count; ++k) {
            words[2 * k] = range_start(k);
            words[2 * k + 1] = range_bytes;
        }
        require(baseline::set_ranges(side.directory, ram_bytes, words, 2 * count) == UNIT486_DONE, "ranges");
    };
}

void range_rows(uint32_t count, const std::string &of)
{
    const auto prepare = ranged(count);
    const auto ranged_row = [&](const std::string &name, Expected expected, const auto &turn) {
        row((name + ", " + of).c_str(), expected, turn, prepare);
    };
    const Addresses lines = not_held(each_line());
    ranged_row("read hit", done, reads(aligned(4), 4));
    ranged_row("fill (4 cycles)", cycles(4), reads(every(UNIT486_LINE_BYTES), 4));
    ranged_row("write hit (1 cycle)", cycles(1), writes(aligned(4), 4));
    ranged_row("write into a range (1 cycle)", cycles(1), writes(in_ranges(count, 4), 4));
    ranged_row("external write, 4 bytes", done, external_writes(lines, 4));
    ranged_row("external write into a range", done, external_writes(in_ranges(count, UNIT486_LINE_BYTES), 4));
}

void directory_rows()
{
    const auto flush = [](Side &side, auto unit, uint32_t address) {
        side.directory.valid[address / UNIT486_LINE_BYTES] = true;
        unit.flush(side);
        return UNIT486_DONE;
    };
    row("flush", done, each(each_line(), flush),
        [](Side &side) { std::memset(side.directory.lru, 7, sizeof side.directory.lru); });
    row("reset", done, each(each_line(), [](Side &side, auto unit, uint32_t address) {
        side.directory.valid[address / UNIT486_LINE_BYTES] = true;
        unit.reset(side);
        return UNIT486_DONE;
    }));
    row("control", done, each(each_line(), [](Side &side, auto unit, uint32_t address) {
        return unit.control(side, address / UNIT486_LINE_BYTES % 2 != 0, false);
    }));
    row("line view of a held line", done,
        each(each_doubleword(), [](Side &side, auto unit, uint32_t address) {
            const uint32_t number = unit.view(side, address);
            side.sum += side.shown[address % UNIT486_LINE_BYTES];
            return number;
        }));
}

// In each set the second line gets the tag of the first.
void double_tags(Side &side)
{
    for (uint32_t first = 0; first < UNIT486_LINES; first += UNIT486_WAYS)
        side.directory.tags[first + 1] = side.directory.tags[first];
}

void refused_rows()
{
    const Addresses beyond = in_order([](uint32_t k) { return ram_bytes + k; });
    row("refused read, width 3 (number 4)", refused(UNIT486_WRONG_WIDTH), reads(aligned(4), 3));
    row("refused read, beyond RAM (number 5)", refused(UNIT486_BEYOND_RAM), reads(beyond, 4));
    row("refused read, two lines of one tag (number 21)", refused(UNIT486_TWO_OF_ONE_TAG),
        reads(aligned(4), 4), double_tags);
    row("refused write, value too large (number 8)", refused(UNIT486_LARGE_VALUE),
        each(aligned(1), [](Side &side, auto unit, uint32_t address) {
            return unit.write(side, address, 1, 256 + address);
        }));
    row("refused external write, across lines (number 10)", refused(UNIT486_WRONG_EXTERNAL_WRITE),
        external_writes(in_two_lines(), 4));
    row("refused view, beyond RAM (number 5)", refused(UNIT486_BEYOND_RAM),
        each(beyond, [](Side &side, auto unit, uint32_t address) { return unit.view(side, address); }));
    row("refused control, CD = 0 and NW = 1 (number 9)", refused(UNIT486_WRONG_CONTROL),
        each(each_line(), [](Side &side, auto unit, uint32_t) { return unit.control(side, false, true); }));
}

// One event of a mix with a hot set: half reads, a quarter writes, other masters.
std::string event_line(Random &random)
{
    const uint32_t roll = random.below(100);
    const std::string address = std::to_string(random.below(8) * 2048 + random.below(64) * 4);
    if (roll < 55)
        return "R\t" + address + "\t4\t0\n";
    if (roll < 80)
        return "W\t" + address + "\t4\t" + std::to_string(random.word()) + "\n";
    if (roll < 90)
        return "X\t" + address + "\t0123456789ABCDEF\n";
    return "S\t" + address + "\n";
}

void program_row()
{
    Random random(2);
    std::string text = "C\t0\t0\n";
    size_t events = 1;
    for (std::string line; text.size() + (line = event_line(random)).size() <= UNIT486_INPUT_MOST; ++events)
        text += line;
    std::vector<uint8_t> library(UNIT486_OUTPUT_MOST), baseline(UNIT486_OUTPUT_MOST);
    size_t lengths[2] = {};
    const Times times = time_both([&] { lengths[0] = Library::run(text, library); },
        [&] { lengths[1] = Baseline::run(text, baseline); });
    require(lengths[0] == lengths[1] && library == baseline, "event program");
    std::printf("\nThe event program on %zu events (%zu bytes):\n\n", events, text.size());
    std::printf("| %-48s | %9.0f | %9.0f | %6.2f |\n", "events per second; ratio of times",
        events / times.library, events / times.baseline, times.ratio);
}

} // namespace

int main(int argc, char **)
{
    if (argc > 1) {
        std::fprintf(stderr, "usage: benchmark\n");
        return 2;
    }
    if (unit486_version() != UNIT486_VERSION) {
        std::fprintf(stderr, "benchmark: the library has another version than the header\n");
        return 2;
    }
    std::printf("Median of %d turns of %u calls, nanoseconds for each call.\n\n", turns, calls);
    std::printf("| %-48s | %9s | %9s | %6s |\n", "call", "library", "baseline", "ratio");
    std::printf("|---|---|---|---|\n");
    hit_rows();
    fill_rows();
    carrying_rows();
    plain_read_rows();
    write_rows();
    master_rows();
    range_rows(1, "1 range");
    range_rows(UNIT486_RANGES_MOST, "8 ranges");
    directory_rows();
    refused_rows();
    program_row();
}
