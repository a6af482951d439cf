// Series of random calls, each made on both sides and compared whole.
#pragma once

#include <algorithm>
#include <array>
#include <cstdlib>
#include <string>
#include <utility>
#include <vector>

#include "calls.h"
#include "carried.h"
#include "carried_notes.h"
#include "coverage.h"
#include "event_text.h"
#include "loads.h"
#include "operand_notes.h"
#include "range_notes.h"
#include "ranges.h"
#include "runs.h"
#include "sides.h"
#include "table_text.h"

class Series {
public:
    Series(uint64_t seed, Coverage &coverage) : seed(seed), random(seed), coverage(coverage) {}

    // Well-formed runs on a few sets: hits, fills, replacement, other masters; now and then a refusal.
    void hot(uint32_t calls)
    {
        name = "hot";
        make_sides(random.percent(20) ? random.between(1, 128) * 16 : random.between(256, 2048) * 16);
        choose_sets();
        set_control(false, false);
        quiet = random.percent(40);
        for (uint32_t k = 0; k < calls; ++k) {
            if (random.percent(5))
                add_fault();
            check_mostly_good(next_call());
        }
    }

    // Every call on sets made anew, well formed or not, with wrong lengths and arguments often.
    void refused(uint32_t calls)
    {
        name = "refused";
        make_sides(random.pick({16u, 32u, 48u, 2032u, 2048u, 2064u, 4096u, 8192u}));
        choose_sets();
        quiet = false;
        for (uint32_t k = 0; k < calls; ++k) {
            Call call = next_call();
            restore_lengths();
            if (random.percent(20))
                lend_wrong_lengths();
            if (random.percent(20))
                call = with_wrong_argument(call);
            make_sets(call);
            make_ranges();
            check(call);
        }
    }

    // The longest RAM, at the ends of the board table's blocks.
    void large(uint32_t calls)
    {
        name = "large";
        make_sides(UNIT486_RAM_MOST);
        sets[0] = 127, sets[1] = 0, sets[2] = 1;
        set_control(false, false);
        set_ranges(Kind::set_ranges, {{0, 16}, {UNIT486_RAM_MOST - 16, 16}, {1048576, 32}});
        quiet = false;
        for (uint32_t k = 0; k < calls; ++k) {
            const Call call = next_call();
            restore_lengths();
            if (random.percent(10))
                lend_lengths(ram_length + 16, parity_length + 4);
            else if (random.percent(10))
                lend_lengths(ram_length - 16, parity_length - 4);
            check(call);
        }
    }

    // A diagnostic disk: lines planted and read back with CD = 1, then calls that meet them, then a flush or
    // a reset.
    void planted(uint32_t calls)
    {
        name = "planted";
        make_sides(random.between(256, 2048) * 16);
        choose_sets();
        quiet = random.percent(50);
        for (const uint64_t end = coverage.calls + calls; coverage.calls < end;) {
            set_control(true, random.percent(50));
            for (uint32_t k = random.between(1, 12); k > 0; --k)
                plant_and_read_back();
            if (random.percent(60))
                set_control(false, false);
            for (uint32_t k = random.between(5, 40); k > 0; --k)
                check_mostly_good(next_call());
            check_mostly_good(next_call(random.percent(50) ? Kind::flush : Kind::reset));
        }
    }

    // Test calls on either side of every limit, in every combination, so that each number is met alone and
    // before those that come after it. The directory is ill formed in some sets.
    void test_limits()
    {
        name = "test limits";
        make_sides(2048);
        for (uint32_t set = 0; set < UNIT486_SETS; ++set)
            make_set(random.below(8) * 2048 + set * 16);
        restore_lengths();
        for (const size_t data : {0u, 8191u, 8192u, 8193u, 8208u})
            for (const bool cd : {false, true}) {
                sides.both([&](Side &side) { side.data.length = data, side.directory.cd = cd; });
                for (const uint32_t set : around_limit(UNIT486_SETS - 1))
                    for (const uint32_t way : around_limit(UNIT486_WAYS - 1))
                        for (const uint32_t tag : around_limit(UNIT486_TAG_MOST))
                            check_test_calls(set, way, tag);
            }
    }

    // A diagnostic disk's flush, four lines of a set that it plants, and a miss there, from each LRU number
    // and from some above 7. All sets have that number, so that one which a flush leaves would show.
    void first_victims()
    {
        name = "first victims";
        make_sides(10240);
        for (const uint32_t lru : {0u, 1u, 2u, 3u, 4u, 5u, 6u, 7u, 8u, 255u})
            for (const uint32_t set : {0u, 1u, 64u, 126u, 127u})
                check_first_victim(lru, set);
    }

    // Reads that carry writes on either side of every limit of 33, in each place of the list.
    void carried_limits()
    {
        name = "carried limits";
        make_sides(2048);
        choose_sets();
        set_control(false, false);
        for (const uint32_t count : {1u, 2u, 3u, 4u, 5u, 6u, UINT32_MAX})
            for (uint32_t place = 0; place < UNIT486_CARRIED_MOST; ++place) {
                for (const uint32_t address : {0u, 1u, 15u, 2032u, 2047u, 2048u, UINT32_MAX - 15, UINT32_MAX})
                    for (const uint32_t length : {0u, 1u, 2u, 15u, 16u, 17u, UINT32_MAX})
                        check_carried_place(count, place, address, length);
                for (const uint32_t number : {0u, 1u, 2u, 3u, UINT32_MAX - 1, UINT32_MAX})
                    check_carried_number(count, place, number);
            }
    }

    // Reads of every start, sizing and mode that carry writes at every number into each line that they may
    // meet.
    void carrying()
    {
        name = "carrying";
        make_sides(8192);
        choose_sets();
        restore_lengths();
        const std::pair<uint32_t, uint32_t> bytes[] = {{0, 1}, {5, 2}, {8, 4}, {12, 4}, {2, 4}, {7, 2},
            {9, 4}, {13, 4}, {15, 2}, {0, 8}, {12, 8}, {1, 8}, {6, 8}, {11, 8}, {13, 8}, {15, 8}};
        for (uint32_t modes = 0; modes < 4; ++modes) {
            make_modes(modes % 2 != 0, modes / 2 != 0);
            for (const auto &[offset, width] : bytes)
                for (const int answer : {1, 3, 5, mixed_answers}) {
                    keep_some_ranges();
                    check_carrying(offset, width, answer);
                }
        }
    }

    // Reads of three doublewords under BS8#, whose fills are dropped in turn, so that up to 48 cycles are
    // made, and carry writes at every number.
    void carrying_byte_fills()
    {
        name = "carrying byte fills";
        make_sides(8192);
        choose_sets();
        restore_lengths();
        for (const bool nw : {false, true}) {
            make_modes(false, nw);
            for (const uint32_t offset : {1u, 6u, 11u, 13u})
                for (const int kept : {0, 4, 6})
                    check_carrying(offset, 8, byte_fills + kept);
        }
    }

    // Accesses of every width from every byte of a line on, under every answer and mode, each of their lines
    // held and not: across sets, from the last set into the first, and in RAM's last line.
    void operands()
    {
        name = "operands";
        make_sides(4096);
        restore_lengths();
        for (uint32_t modes = 0; modes < 4; ++modes) {
            make_modes(modes % 2 != 0, modes / 2 != 0);
            for (const uint32_t line : {16u, 2032u, 4080u})
                for (int answer = mixed_answers; answer < 8; ++answer)
                    check_operands(line, answer);
        }
    }

    // Values on either side of every width's limit, lengths and answers on either side of theirs, for every
    // width.
    void operand_limits()
    {
        name = "operand limits";
        make_sides(2048);
        choose_sets();
        set_control(false, false);
        for (const uint32_t width : {0u, 1u, 2u, 3u, 4u, 5u, 6u, 7u, 8u, 9u, 12u, 16u}) {
            check_value_limits(width);
            check_length_limits(width);
            check_each_answer(width);
        }
    }

    // Ranges to be set on either side of every limit, at each place of a list, and RAM of a wrong length.
    void range_limits()
    {
        name = "range limits";
        make_sides(2048);
        choose_sets();
        restore_lengths();
        for (uint32_t count = 0; count <= 10; ++count)
            for (const Kind kind : {Kind::set_ranges, Kind::set_ranges_in_place, Kind::set_ranges_by_value}) {
                for (uint32_t place = 0; place < count; ++place)
                    for (uint32_t fault = 0; fault < range_faults; ++fault)
                        check_setting(kind, count, place, fault);
                check_setting_of_good(kind, count);
            }
        for (const uint32_t count : {255u, 256u, 257u, 264u, 265u})
            check_setting_of_good(Kind::set_ranges_in_place, count);
    }

    // Calls on directories that a host made: any count, with a wrong range at each place, and what stands past
    // the count.
    void kept_range_limits()
    {
        name = "kept range limits";
        make_sides(2048);
        choose_sets();
        restore_lengths();
        for (const uint32_t count : {0u, 1u, 2u, 7u, 8u, 9u, 10u, 256u, 264u, 0x80000000u, UINT32_MAX})
            for (uint32_t place = 0; place < UNIT486_RANGES_MOST; ++place)
                for (uint32_t fault = 0; fault <= range_faults; ++fault)
                    for (const Kind kind : {Kind::read, Kind::read_carrying, Kind::read_carrying_none,
                             Kind::write, Kind::external_write, Kind::view, Kind::view_number, Kind::reset,
                             Kind::reset_by_value})
                        check_kept(kind, count, place, fault);
    }

    // Writes of every kind from each byte around the edges of ranges on, their lines held and not.
    void range_edges()
    {
        name = "range edges";
        make_sides(4096);
        choose_sets();
        restore_lengths();
        RangeList eight;
        for (uint32_t k = 0; k < UNIT486_RANGES_MOST; ++k)
            eight.push_back({512 + 256 * (k * 3 % 8), 16 + k % 2 * 16});
        // One; at the ends of RAM; all of it; side by side, a line apart, overlapping, twice the same.
        for (const RangeList &ranges :
            {RangeList{{2032, 16}}, RangeList{{2016, 48}}, RangeList{{0, 32}}, RangeList{{4064, 32}},
                RangeList{{0, 4096}}, RangeList{{2048, 16}, {2032, 16}}, RangeList{{2000, 16}, {2032, 32}},
                RangeList{{2016, 48}, {2032, 16}, {2048, 64}}, RangeList{{1024, 16}, {1024, 16}}, eight}) {
            set_ranges(Kind::set_ranges, ranges);
            for (const unit486_range &range : ranges) {
                check_edge(range.start);
                check_edge(range.start + range.length);
            }
        }
    }

    // The board's answers for every width, on either side of the start of each block. That of block 0 is
    // also where addresses end.
    void board()
    {
        name = "board";
        make_sides(2048);
        for (uint32_t block = 0; block <= UNIT486_BLOCKS; ++block)
            for (uint32_t back = 0; back < 12; ++back)
                for (const uint32_t width : {0u, 1u, 2u, 3u, 4u, 5u, 7u, 8u, 9u, 16u, UINT32_MAX}) {
                    Call call = next_call(Kind::board_answers);
                    call.address = block * 1048576 - back;
                    call.width = width;
                    check(call);
                }
    }

    // Texts of block tables on either side of every limit.
    void table_limits()
    {
        Loads made(seed, random, coverage);
        made.check_good_lines();
        made.check_wrong_lines();
        made.check_counts();
        made.check_long_texts();
    }

    // Random texts of block tables.
    void tables(uint32_t loads)
    {
        Loads made(seed, random, coverage);
        made.check_block_answers();
        for (uint32_t k = 0; k < loads; ++k)
            made.check(random_table_text(random));
    }

    // The event program on random lines, with a table of its own for each run.
    void events(uint32_t runs)
    {
        Runs made(seed, random, coverage);
        for (uint32_t k = 0; k < runs; ++k)
            made.check(random_table(random), EventText(random).text());
    }

private:
    // In place of one answer for all cycles: what is lent already; or BS8# with KEN# in the first cycle of
    // each doubleword, and in the sixteenth of those that an added mask names: of these a fill is kept.
    static constexpr int mixed_answers = -1;
    static constexpr int byte_fills = 8;

    uint64_t seed;
    Random random;
    Coverage &coverage;
    Sides sides;
    const char *name = "";
    uint32_t ram_length = 0;
    uint32_t parity_length = 0;
    uint32_t sets[3] = {};
    bool quiet = false; // few calls that end a line's validity, so that full sets are common

    // ---- the sides ----

    void make_sides(uint32_t length)
    {
        ram_length = length;
        parity_length = length / 4;
        Side &side = sides.baseline;
        side.ram.make(ram_length + 32, random);
        side.parity.make(parity_length + 32, random);
        side.data.make(UNIT486_DATA_BYTES + 32, random);
        side.answers.make(64, random);
        side.table.make_of(random_table(random), random);
        side.bytes.make(64, random);
        side.shown.make(16, random);
        side.log.make(176, random);
        side.ranges.make(0, random);
        for (uint32_t k = 0; k < ram_length; ++k) {
            uint8_t &parity = side.parity.start()[k / 4];
            parity = static_cast<uint8_t>(
                (parity & ~(1u << k % 4)) | __builtin_parity(side.ram.start()[k]) << k % 4);
        }
        side.directory = unit486_directory{};
        baseline::reset(side.directory);
        sides.library = sides.baseline;
        coverage.planted.forget();
        coverage.flushed.forget();
    }

    // Most series cross from the last set into the first.
    void choose_sets()
    {
        sets[0] = random.percent(50) ? 127 : random.below(128);
        sets[1] = (sets[0] + 1) % 128;
        sets[2] = random.below(128);
    }

    void set_control(bool cd, bool nw)
    {
        Call call;
        call.kind = Kind::control;
        call.cd = cd, call.nw = nw;
        restore_lengths();
        check(call);
    }

    // ---- ranges ----

    void lend_ranges(const std::vector<uint32_t> &words)
    {
        sides.baseline.ranges.make_of(words, random);
        sides.library.ranges = sides.baseline.ranges;
    }

    void set_ranges(Kind kind, const RangeList &ranges)
    {
        Call call = next_call(kind);
        lend_ranges(words_of(ranges));
        check(call);
    }

    RangeList some_good_ranges(uint32_t count)
    {
        return good_ranges(
            random, count, [this] { return address(); }, ram_length);
    }

    // Mostly a few good ranges; some lists have a wrong one, or are too long, or have a word too many.
    std::vector<uint32_t> random_ranges()
    {
        const uint32_t roll = random.below(100);
        RangeList ranges = some_good_ranges(roll < 15   ? 0
                                            : roll < 60 ? random.between(1, 3)
                                            : roll < 90 ? random.between(4, 8)
                                                        : random.between(9, 12));
        if (random.percent(15) && !ranges.empty())
            ranges[random.below(static_cast<uint32_t>(ranges.size()))] =
                wrong_range(random, random.below(range_faults), ram_length);
        std::vector<uint32_t> words = words_of(ranges);
        if (random.percent(5))
            words.push_back(random.pick({0u, 16u, random.word()}));
        return words;
    }

    // Ranges that no call set, right or not, with this count. Places past it may have anything.
    void keep_ranges(const RangeList &ranges, uint32_t count)
    {
        unit486_ranges kept{};
        kept.count = count;
        for (uint32_t k = 0; k < UNIT486_RANGES_MOST; ++k)
            kept.ranges[k] = k < ranges.size() ? ranges[k] : unit486_range{random.word() | 1, random.word()};
        sides.both([&](Side &side) { side.directory.ranges = kept; });
    }

    // The ranges of a directory made anew: often none.
    void make_ranges()
    {
        const uint32_t roll = random.below(100);
        const uint32_t count = roll < 50   ? 0
                               : roll < 90 ? random.between(1, UNIT486_RANGES_MOST)
                                           : random.pick({9u, 10u, 255u, 256u, random.word(), UINT32_MAX});
        RangeList ranges = some_good_ranges(std::min(count, uint32_t{UNIT486_RANGES_MOST}));
        if (!ranges.empty() && random.percent(25))
            ranges[random.below(static_cast<uint32_t>(ranges.size()))] =
                wrong_range(random, random.below(range_faults), ram_length);
        keep_ranges(ranges, count);
    }

    // Good ranges, or none.
    void keep_some_ranges()
    {
        const uint32_t count = random.percent(50) ? 0 : random.between(1, UNIT486_RANGES_MOST);
        keep_ranges(some_good_ranges(count), count);
    }

    void add_parity_fault(uint32_t at)
    {
        const uint8_t mask = random.byte();
        sides.both([&](Side &side) { side.parity.start()[at / 4] ^= mask; });
    }

    // What no call does: a parity fault, or bytes in RAM or in the data array that no longer agree.
    void add_fault()
    {
        const uint32_t at = address() % ram_length;
        const uint32_t data_offset = (at / 16 % 128 * 4 + random.below(4)) * 16 + random.below(16);
        const uint8_t mask = random.byte();
        const uint32_t what = random.below(3);
        sides.both([&](Side &side) {
            uint8_t *const bytes[] = {
                side.parity.start() + at / 4, side.ram.start() + at, side.data.start() + data_offset};
            *bytes[what] ^= mask;
        });
    }

    void make_modes(bool cd, bool nw)
    {
        sides.both([&](Side &side) { side.directory.cd = cd, side.directory.nw = nw; });
    }

    // The touched sets of a call, made anew; of carried writes so many that well-formed ones are common.
    void make_sets(const Call &call)
    {
        const bool cd = random.percent(40);
        make_modes(cd, random.percent(40));
        for (uint32_t k = 0; k < call.carried.count && k < UNIT486_CARRIED_MOST; ++k)
            if (random.percent(40))
                make_set(call.carried.addresses[k]);
        make_set(call.address);
        if (call.address % 16 + call.width > 16)
            make_set(call.address + call.width - 1);
    }

    // The set of an address, well formed, with all four tags of the series' RAM. The address's own line is
    // held now and then; a line beyond RAM takes its place most of the time, so that full sets are common.
    void make_set_for_carrying(uint32_t at)
    {
        const uint32_t first = at / 16 % 128 * 4;
        uint32_t tags[4] = {0, 1, 2, 3};
        bool valid[4];
        for (uint32_t way = 0; way < 4; ++way)
            std::swap(tags[way], tags[random.below(4)]);
        const bool held = random.percent(20), replaced = random.percent(70);
        for (uint32_t way = 0; way < 4; ++way) {
            const bool own = tags[way] == at / 2048;
            valid[way] = own && !replaced ? held : random.percent(90);
            tags[way] = own && replaced ? 9 : tags[way];
        }
        const uint8_t lru = static_cast<uint8_t>(random.below(8));
        put_set(first, tags, valid, lru);
    }

    // The set of an address, well formed, with its line in some way, valid or not, and lines beyond RAM.
    void make_set_of_line(uint32_t at, bool held)
    {
        const uint32_t own = random.below(4);
        uint32_t tags[4];
        bool valid[4];
        for (uint32_t way = 0; way < 4; ++way) {
            tags[way] = way == own ? at / 2048 : 100 + way;
            valid[way] = way == own ? held : random.percent(75);
        }
        put_set(at / 16 % 128 * 4, tags, valid, static_cast<uint8_t>(random.below(8)));
    }

    void put_set(uint32_t first, const uint32_t *tags, const bool *valid, uint8_t lru)
    {
        sides.both([&](Side &side) {
            std::memcpy(side.directory.tags + first, tags, 4 * sizeof *tags);
            std::memcpy(side.directory.valid + first, valid, 4 * sizeof *valid);
            side.directory.lru[first / 4] = lru;
        });
        coverage.planted.forget_set(first / 4);
        coverage.flushed.forget_set(first / 4);
    }

    void make_set(uint32_t at)
    {
        const uint32_t first = at / 16 % 128 * 4;
        uint32_t tags[4] = {at / 2048, at / 2048 + 1, 2097151 - random.below(2), random.word() % 2097152};
        bool valid[4];
        for (uint32_t way = 0; way < 4; ++way) {
            std::swap(tags[way], tags[random.below(4)]);
            valid[way] = random.percent(75);
        }
        uint8_t lru = static_cast<uint8_t>(random.below(8));
        for (uint32_t faults = random.percent(70) ? 0 : random.between(1, 2); faults > 0; --faults)
            add_state_fault(tags, valid, lru);
        put_set(first, tags, valid, lru);
    }

    // A fault, or what only looks like one: a stale tag.
    void add_state_fault(uint32_t *tags, bool *valid, uint8_t &lru)
    {
        const uint32_t way = random.below(4), other = random.below(4);
        switch (random.below(3)) {
        case 0:
            tags[way] = tags[other];
            valid[way] = random.percent(75);
            break;
        case 1:
            tags[way] = random.pick({2097152u, 2097153u, UINT32_MAX});
            valid[way] = random.percent(75);
            break;
        default: lru = static_cast<uint8_t>(random.pick({8u, 9u, 16u, 128u, 255u}));
        }
    }

    // ---- lengths ----

    void lend_lengths(size_t ram, size_t parity)
    {
        sides.both([&](Side &side) { side.ram.length = ram, side.parity.length = parity; });
    }

    void restore_lengths()
    {
        const size_t log = UNIT486_LOG_WORDS + (random.percent(30) ? random.below(33) : 0);
        lend_lengths(ram_length, parity_length);
        sides.both([&](Side &side) {
            side.data.length = UNIT486_DATA_BYTES;
            side.answers.length = UNIT486_ANSWERS;
            side.log.length = log;
        });
    }

    void lend_wrong_lengths()
    {
        const size_t ram = random.pick({ram_length - 16, ram_length - 8, ram_length - 1, ram_length + 1,
            ram_length + 8, ram_length + 16, 0u, 1u, 15u});
        const size_t parity = random.pick({parity_length - 1, parity_length + 1, parity_length + 4, 0u});
        const size_t data = random.pick({0u, 16u, 8191u, 8193u, 8208u});
        const size_t answers = random.pick({0u, 16u, 32u, 47u, 49u, 64u});
        const size_t log = random.pick({0u, 3u, 96u, 143u});
        const uint32_t which = random.percent(70) ? 1u << random.below(5) : random.below(32);
        sides.both([&](Side &side) {
            side.ram.length = which & 1 ? ram : side.ram.length;
            side.parity.length = which & 2 ? parity : side.parity.length;
            side.data.length = which & 4 ? data : side.data.length;
            side.answers.length = which & 8 ? answers : side.answers.length;
            side.log.length = which & 16 ? log : side.log.length;
        });
    }

    // ---- calls ----

    uint32_t address()
    {
        if (random.percent(3))
            return random.pick({ram_length - random.below(20), ram_length + random.below(4), random.word(),
                UINT32_MAX - random.below(20), random.below(16)});
        if (ram_length == UNIT486_RAM_MOST && random.percent(60))
            return random.below(17) * 1048576 + random.below(16) - 12;
        // As many tags as RAM has, eight at most, so that lines meet again.
        const uint32_t tags = std::min(ram_length / 2048 + 1, 8u);
        const uint32_t at = random.below(tags) * 2048 + sets[random.below(3)] * 16 + random.below(16);
        return at < ram_length ? at : at % ram_length;
    }

    Kind kind()
    {
        const uint32_t roll = random.below(1000);
        const struct {
            uint32_t below;
            Kind kind;
        } table[] = {{300, Kind::read}, {395, Kind::read_carrying}, {410, Kind::read_carrying_none},
            {640, Kind::write}, {660, Kind::test_write}, {680, Kind::test_read}, {770, Kind::external_write},
            {830, Kind::snoop}, {880, Kind::drop_line}, {920, Kind::view}, {940, Kind::view_number},
            {951, Kind::board_answers}, {953, Kind::set_ranges}, {954, Kind::set_ranges_in_place},
            {955, Kind::set_ranges_by_value}, {975, Kind::control}, {985, Kind::control_by_value},
            {992, Kind::flush}, {997, Kind::reset}, {1000, Kind::reset_by_value}};
        size_t k = 0;
        while (roll >= table[k].below)
            ++k;
        const bool ends_lines = (roll >= 680 && roll < 880) || roll >= 985;
        return quiet && ends_lines && random.percent(90) ? Kind::read : table[k].kind;
    }

    Call next_call() { return next_call(kind()); }

    Call next_call(Kind kind)
    {
        Call call;
        call.kind = kind;
        call.address = address();
        call.width = random.pick({1u, 2u, 4u, 4u, 8u, 8u});
        call.value = random.of_bytes(call.width);
        call.pcd = random.percent(15);
        call.cd = random.percent(25);
        call.nw = random.percent(call.cd ? 50 : 10);
        if (kind == Kind::board_answers)
            choose_block(call);
        if (is_setting(call))
            lend_ranges(random_ranges());
        choose_line(call);
        if (kind == Kind::read_carrying || kind == Kind::read_carrying_none)
            call.carried = none_carried(random);
        if (kind == Kind::read_carrying)
            carry(call, random.below(UNIT486_CARRIED_MOST + 1));
        lend_contents(call);
        return call;
    }

    // A table, which is in force from here on. The answer changes at the ends of blocks only, and no width is
    // refused here.
    void choose_block(Call &call)
    {
        const BlockTable table = random_table(random);
        sides.both([&](Side &side) { std::copy(table.begin(), table.end(), side.table.start()); });
        if (!random.percent(70))
            return;
        call.address = random.below(4097) * 1048576 + random.below(16) - 12;
        call.width = random.pick({0u, 1u, 2u, 3u, 4u, 5u, 6u, 7u, 8u, 8u, 9u, 16u, UINT32_MAX});
    }

    // Writes in cycle order: half of them in the lines of the access.
    void carry(Call &call, uint32_t count)
    {
        std::array<uint32_t, UNIT486_CARRIED_MOST> numbers;
        for (uint32_t k = 0; k < count; ++k)
            numbers[k] = k > 0 && random.percent(30) ? numbers[k - 1] : random_cycle(random);
        std::sort(numbers.begin(), numbers.begin() + count);
        for (uint32_t k = 0; k < count; ++k) {
            const uint32_t byte = call.address + random.pick({0u, call.width - 1});
            const uint32_t in_line = byte - byte % 16 + random.below(16);
            add_write(call.carried, random, numbers[k], random.percent(50) ? in_line : address());
        }
    }

    // The line of a test call: most of the time the one that holds the address, if one does, since a tag
    // that is held twice has the other calls on its set refused.
    void choose_line(Call &call)
    {
        const unsigned held = baseline::lookup(sides.baseline.directory, call.address);
        call.set = baseline::set_of(call.address);
        call.way = held != baseline::no_way && random.percent(95) ? held : random.below(UNIT486_WAYS);
        call.tag = baseline::tag_of(call.address);
        call.mark = random.percent(85);
    }

    // Either side of a limit, and what a product with 64, 16 or 4 of 32 bits brings back to the start.
    static std::array<uint32_t, 7> around_limit(uint32_t limit)
    {
        return {0, limit, limit + 1, 0x04000000, 0x10000000, 0x40000000, UINT32_MAX};
    }

    Call with_wrong_line(Call call)
    {
        switch (random.below(3)) {
        case 0: call.set = random.pick(around_limit(UNIT486_SETS - 1)); break;
        case 1: call.way = random.pick(around_limit(UNIT486_WAYS - 1)); break;
        default: call.tag = random.pick(around_limit(UNIT486_TAG_MOST));
        }
        return call;
    }

    // An argument that is refused, most of the time.
    Call with_wrong_argument(Call call)
    {
        if (is_test(call))
            return with_wrong_line(call);
        if (call.kind == Kind::read_carrying && random.percent(60)) {
            add_carried_fault(call.carried, random, ram_length);
            return call;
        }
        const uint8_t above = static_cast<uint8_t>(random.pick({8u, 9u, 16u, 128u, 255u}));
        const uint32_t at = random.below(UNIT486_ANSWERS);
        switch (random.below(4)) {
        case 0:
            call.width = random.pick({0u, 3u, 5u, 6u, 7u, 9u, 16u, 64u, UINT32_MAX, random.word()});
            break;
        case 1:
            call.address = random.pick({ram_length, ram_length - 1, ram_length - 3, ram_length - 7,
                UINT32_MAX - 7, UINT32_MAX, random.word()});
            break;
        case 2: sides.both([&](Side &side) { side.answers.start()[at] = above; }); break;
        default: call.value = random.pick({random.pick(around_widths()), random.next()});
        }
        return call;
    }

    // Either side of the limits of 1, 2 and 4 bytes, and what has its low bits clear.
    static std::array<uint64_t, 12> around_widths()
    {
        constexpr uint64_t one = 256, two = 65536, four = uint64_t{1} << 32;
        return {0, one - 1, one, one + 1, two - 1, two, two + 1, four - 1, four, four + 1, uint64_t{1} << 63,
            UINT64_MAX};
    }

    // New answers, log words and bytes for a call, the same on both sides.
    void lend_contents(const Call &call)
    {
        if (is_access(call)) {
            uint8_t answers[64];
            make_answers(call, answers);
            const uint32_t base = random.word();
            sides.both([&](Side &side) {
                std::memcpy(side.answers.start(), answers, sizeof answers);
                for (uint32_t k = 0; k < side.log.room(); ++k)
                    side.log.start()[k] = base + k * 0x9e3779b9;
            });
        } else {
            // Most external writes stay in their line; some are empty or too long.
            const uint32_t room = 16 - call.address % 16;
            const size_t count = call.kind == Kind::test_write ? size_t{UNIT486_LINE_BYTES}
                                 : random.percent(90)          ? random.between(1, room)
                                                               : random.below(20);
            const uint64_t bytes[2] = {random.next(), random.next()};
            Lent<uint8_t> Side::*buffer = call.kind == Kind::view ? &Side::shown : &Side::bytes;
            sides.both([&](Side &side) {
                std::memcpy((side.*buffer).start(), bytes, sizeof bytes);
                side.bytes.length = count;
            });
        }
    }

    void make_answers(const Call &call, uint8_t *answers)
    {
        const uint32_t roll = random.below(100);
        const uint8_t same = static_cast<uint8_t>(random.below(8));
        for (uint32_t k = 0; k < 64; ++k) {
            const uint8_t any = static_cast<uint8_t>(random.below(8));
            answers[k] = roll < 30 ? 1 : roll < 45 ? same : roll < 70 ? any | 1 : any;
        }
        // KEN# of the first cycle and of the last must both count, and no other.
        if (roll >= 85)
            for (uint32_t k = 0; k < 64; ++k)
                answers[k] = static_cast<uint8_t>((k % 16 == 0) | (answers[k] & 6));
        else if (roll >= 80)
            baseline::board_answers(sides.baseline.table.start(), call.address, call.width, answers);
    }

    // ---- calls on both sides ----

    // Now and then with a wrong length or argument.
    void check_mostly_good(const Call &call)
    {
        restore_lengths();
        if (random.percent(3))
            lend_wrong_lengths();
        check(random.percent(4) ? with_wrong_argument(call) : call);
    }

    void plant_and_read_back()
    {
        Call call = next_call(Kind::test_write);
        check_mostly_good(call);
        call.kind = Kind::test_read;
        check_mostly_good(call);
    }

    void check_test_calls(uint32_t set, uint32_t way, uint32_t tag)
    {
        Call call = next_call(Kind::test_write);
        call.set = set, call.way = way, call.tag = tag;
        check(call);
        call.kind = Kind::test_read;
        check(call);
    }

    void check_first_victim(uint32_t lru, uint32_t set)
    {
        sides.both([&](Side &side) { std::memset(side.directory.lru, lru, sizeof side.directory.lru); });
        coverage.flushed.forget();
        check(next_call(Kind::flush));
        set_control(true, false);
        for (uint32_t way = 0; way < UNIT486_WAYS; ++way)
            check_line_of_set(Kind::test_write, set, way);
        check_line_of_set(Kind::test_read, set, random.below(UNIT486_WAYS));
        set_control(false, false);
        Call miss = next_call(Kind::read);
        miss.address = 4 * 2048 + set * 16 + random.below(16);
        miss.width = 1, miss.pcd = false;
        sides.both([](Side &side) { std::memset(side.answers.start(), UNIT486_KEN, UNIT486_ANSWERS); });
        check(miss);
        set_control(true, false);
        for (uint32_t way = 0; way < UNIT486_WAYS; ++way)
            check_line_of_set(Kind::test_read, set, way);
    }

    // A test call of the line that has its way for a tag.
    void check_line_of_set(Kind kind, uint32_t set, uint32_t way)
    {
        Call call = next_call(kind);
        call.set = set, call.way = way, call.tag = way, call.mark = true;
        check(call);
    }

    void check_setting(Kind kind, uint32_t count, uint32_t place, uint32_t fault)
    {
        keep_some_ranges();
        RangeList ranges = some_good_ranges(count);
        ranges[place] = wrong_range(random, fault, ram_length);
        set_ranges(kind, ranges);
    }

    // With a RAM of each length, and with a word too many.
    void check_setting_of_good(Kind kind, uint32_t count)
    {
        for (const uint32_t length : {0u, 8u, 15u, 16u, ram_length - 16, ram_length - 8, ram_length + 8,
                 ram_length + 16, ram_length}) {
            make_ranges();
            lend_lengths(length, parity_length);
            set_ranges(kind, some_good_ranges(count));
        }
        for (const uint32_t word : {0u, 16u, 32u}) {
            std::vector<uint32_t> words = words_of(some_good_ranges(count));
            words.push_back(word);
            const Call call = next_call(kind);
            lend_ranges(words);
            check(call);
        }
    }

    // A fault past the last is none.
    void check_kept(Kind kind, uint32_t count, uint32_t place, uint32_t fault)
    {
        const Call call = next_call(kind);
        RangeList ranges = some_good_ranges(UNIT486_RANGES_MOST);
        if (fault < range_faults)
            ranges[place] = wrong_range(random, fault, ram_length);
        make_sets(call);
        keep_ranges(ranges, count);
        check(call);
    }

    // From each byte of the lines before and after an edge on.
    void check_edge(uint32_t edge)
    {
        for (uint32_t at = edge < 16 ? 0 : edge - 16; at < edge + 16 && at < ram_length; ++at)
            for (uint32_t held = 0; held < 4; ++held) {
                for (const uint32_t width : {1u, 2u, 4u, 8u})
                    check_write_at_edge(Kind::write, at, width, held);
                check_write_at_edge(Kind::external_write, at, 1, held);
                check_carried_at_edge(at, held);
                if (random.percent(5))
                    check(next_call(random.pick({Kind::reset, Kind::reset_by_value})));
            }
    }

    // Bit 0 of `held` is for the line of the address, bit 1 for the next one.
    void make_sets_of_lines(uint32_t at, uint32_t held)
    {
        make_modes(random.percent(50), random.percent(40));
        make_set_of_line(at, held % 2 != 0);
        make_set_of_line(at + UNIT486_LINE_BYTES, held / 2 != 0);
        if (random.percent(30))
            add_parity_fault(at);
    }

    void check_write_at_edge(Kind kind, uint32_t at, uint32_t width, uint32_t held)
    {
        Call call = next_call(kind);
        call.address = at;
        call.width = width;
        call.value = random.of_bytes(width);
        const uint32_t room = 16 - at % 16;
        const size_t count = random.percent(40) ? room : random.between(1, room);
        sides.both([&](Side &side) { side.bytes.length = count; });
        make_sets_of_lines(at, held);
        check(call);
    }

    // A read there or in the line before, whose writes meet the lines about it.
    void check_carried_at_edge(uint32_t at, uint32_t held)
    {
        Call call = next_call(Kind::read_carrying);
        call.address = random.percent(50) || at < 16 ? at : at - 16;
        call.carried.count = 0;
        uint32_t cycle = random.below(3);
        for (uint32_t k = random.between(1, UNIT486_CARRIED_MOST); k > 0; --k, cycle += random.below(3))
            add_write(call.carried, random, cycle, random.percent(50) ? at : (at ^ 16) % ram_length);
        make_sets_of_lines(call.address, held);
        check(call);
    }

    // A read of an accepted address with four good writes in cycle order, of which it carries `count`.
    Call next_carrying_read(uint32_t count)
    {
        Call call = next_call(Kind::read_carrying);
        call.address = random.below(ram_length - 8);
        call.carried.count = 0;
        for (uint32_t k = 0; k < UNIT486_CARRIED_MOST; ++k)
            add_write(call.carried, random, 1 + k / 2, random.below(ram_length));
        call.carried.count = count;
        return call;
    }

    void check_carried_place(uint32_t count, uint32_t place, uint32_t address, uint32_t length)
    {
        Call call = next_carrying_read(count);
        call.carried.addresses[place] = address;
        call.carried.lengths[place] = length;
        check(call);
    }

    void check_carried_number(uint32_t count, uint32_t place, uint32_t number)
    {
        Call call = next_carrying_read(count);
        call.carried.cycles[place] = number;
        check(call);
    }

    // At each number that its cycles may have, and past them, and in each line.
    void check_carrying(uint32_t offset, uint32_t width, int answer)
    {
        for (uint32_t number = 0; number < (width == 8 ? 50 : 34); ++number)
            for (uint32_t line = 0; line < 4; ++line)
                check_carrying(offset, width, answer, number, line);
    }

    // A write of this number, and at times more of this and the next numbers. Lines 0 to 3: that of the
    // access's first byte, that of its last, and another of the set of each.
    void check_carrying(uint32_t offset, uint32_t width, int answer, uint32_t number, uint32_t line)
    {
        Call call = next_call(Kind::read_carrying);
        call.address = random.below(3) * 2048 + sets[0] * 16 + offset;
        call.width = width;
        call.carried.count = 0;
        const uint32_t last = call.address + width - 1;
        const uint32_t lines[] = {call.address, last, call.address ^ 2048, last ^ 2048};
        for (uint32_t target = line; call.carried.count < 1 + random.below(4); target = random.below(4))
            add_write(call.carried, random, number + random.below(call.carried.count + 1),
                lines[target] / 16 * 16 + random.below(16));
        std::sort(call.carried.cycles, call.carried.cycles + call.carried.count);
        lend_answers(answer);
        make_set_for_carrying(call.address);
        if (last / 16 != call.address / 16)
            make_set_for_carrying(last);
        check(call);
    }

    void lend_answers(int answer)
    {
        if (answer == mixed_answers)
            return;
        uint8_t answers[UNIT486_ANSWERS];
        for (uint32_t k = 0; k < UNIT486_ANSWERS; ++k)
            answers[k] = static_cast<uint8_t>(
                answer < byte_fills ? answer
                                    : byte_fill_answer(static_cast<uint32_t>(answer - byte_fills), k));
        sides.both([&](Side &side) { std::memcpy(side.answers.start(), answers, sizeof answers); });
    }

    static int byte_fill_answer(uint32_t kept, uint32_t k)
    {
        const bool ken = k % 16 == 0 || (k % 16 == 15 && (kept >> k / 16 & 1));
        return ken ? UNIT486_BS8 | UNIT486_KEN : UNIT486_BS8;
    }

    // Some of the two lines are read-only.
    void check_operands(uint32_t line, int answer)
    {
        RangeList ranges;
        for (const uint32_t start : {line, line + UNIT486_LINE_BYTES})
            if (start < ram_length && random.percent(50))
                ranges.push_back({start, UNIT486_LINE_BYTES});
        keep_ranges(ranges, static_cast<uint32_t>(ranges.size()));
        for (uint32_t offset = 0; offset < UNIT486_LINE_BYTES; ++offset)
            for (const uint32_t width : {1u, 2u, 4u, 8u})
                for (uint32_t held = 0; held < 4; ++held)
                    check_operand(line + offset, width, answer, held);
    }

    // Reads and a write; bit 0 of `held` is for the line of the first byte, bit 1 for the next line.
    void check_operand(uint32_t address, uint32_t width, int answer, uint32_t held)
    {
        for (const Kind kind : {Kind::read, Kind::read_carrying_none, Kind::write}) {
            Call call = next_call(kind);
            call.address = address;
            call.width = width;
            call.value = random.of_bytes(width);
            lend_answers(answer);
            make_set_of_line(address, held % 2 != 0);
            make_set_of_line(address + UNIT486_LINE_BYTES, held / 2 != 0);
            check(call);
        }
    }

    void check_value_limits(uint32_t width)
    {
        for (const uint64_t value : around_widths()) {
            Call call = next_call(Kind::write);
            call.address = random.below(ram_length - 16);
            call.width = width;
            call.value = value;
            check(call);
        }
    }

    void check_length_limits(uint32_t width)
    {
        for (const size_t answers : {0u, 16u, 32u, 47u, 48u, 49u, 64u})
            for (const size_t log : {0u, 96u, 143u, 144u, 145u})
                for (const Kind kind : {Kind::read, Kind::read_carrying, Kind::write}) {
                    sides.both([&](Side &side) { side.answers.length = answers, side.log.length = log; });
                    Call call = next_call(kind);
                    call.width = width;
                    check(call);
                }
        restore_lengths();
    }

    // Each answer in turn as large as may be, and larger.
    void check_each_answer(uint32_t width)
    {
        for (uint32_t at = 0; at < UNIT486_ANSWERS; ++at)
            for (const uint8_t answer : {7, 8, 128, 255}) {
                Call call = next_call(random.pick({Kind::read, Kind::read_carrying, Kind::write}));
                call.width = width;
                sides.both([&](Side &side) { side.answers.start()[at] = answer; });
                check(call);
            }
    }

    void check(const Call &call)
    {
        const unit486_directory before = sides.baseline.directory;
        const unit486_result library = call_library(sides.library, call);
        const unit486_result baseline = call_baseline(sides.baseline, call);
        ++coverage.calls;
        const std::string found =
            std::memcmp(&library, &baseline, sizeof baseline) ? "the result" : sides.difference();
        if (!found.empty()) {
            print_mismatch(coverage.calls, seed, name, found);
            print_call(call, sides.baseline);
            std::printf("  CD %d, NW %d, %" PRIu32 " ranges before the call\n", before.cd, before.nw,
                before.ranges.count);
            print_ranges("those ranges", &before.ranges.ranges[0].start, 2 * UNIT486_RANGES_MOST);
            print_result("library", library);
            print_result("baseline", baseline);
            std::exit(1);
        }
        coverage.note_call(before, call, baseline, sides.baseline);
        OperandNotes(coverage, call, baseline, sides.baseline).note();
        RangeNotes(coverage, before, call, baseline, sides.baseline).note();
        if (call.kind == Kind::read_carrying)
            CarriedNotes(coverage, before, call, baseline, sides.baseline).note();
    }
};
