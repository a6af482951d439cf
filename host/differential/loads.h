// Loads of block tables, each made on both sides and compared whole.
#pragma once

#include <cinttypes>
#include <cstdlib>
#include <string>

#include "coverage.h"
#include "load_notes.h"
#include "sides.h"
#include "table_text.h"

class Loads {
public:
    Loads(uint64_t seed, Random &random, Coverage &coverage) : seed(seed), random(random), coverage(coverage)
    {
    }

    // Document 01's table, over any bytes.
    void check_block_answers() { check(Kind::block_answers, random_table(random), ""); }

    // Both loads of a text.
    void check(const std::string &text)
    {
        const BlockTable given = random_table(random);
        check(Kind::load_table, given, text);
        check(Kind::load_table_by_value, given, text);
        LoadNotes(coverage, given, text).note();
    }

    // Each answer at each place, and numbers of each count of digits.
    void check_good_lines()
    {
        for (uint32_t digits = 1; digits <= 10; ++digits)
            for (uint32_t first = 0; first < 8; ++first) {
                TableLines lines;
                for (uint32_t place = 0; place < UNIT486_BLOCKS; ++place)
                    lines.push_back(in_digits(place, digits) + "\t" + in_digits((place + first) % 8, digits));
                check(text_of(lines, random.percent(50)));
            }
    }

    // Each wrong line at each place, alone and with another at each place after it.
    void check_wrong_lines()
    {
        for (uint32_t place = 0; place < UNIT486_BLOCKS; ++place)
            for (const uint32_t number : table_numbers) {
                for (const std::string &line : wrong_lines(number, place))
                    check_with(place, line);
                for (uint32_t later = place + 1; later < UNIT486_BLOCKS; ++later)
                    check_two(place, number, later);
            }
    }

    // Too few lines and too many, with the last newline and without it.
    void check_counts()
    {
        for (const bool last_newline : {false, true}) {
            TableLines lines = good_lines(random);
            for (; !lines.empty(); lines.pop_back())
                check(text_of(lines, last_newline));
            check("");
            for (const char *line : {"", "\r", "x", "0\t1", "15\t1", "16\t1", "16\t8", "17\t1"}) {
                lines = good_lines(random);
                lines.push_back(line);
                check(text_of(lines, last_newline));
            }
        }
    }

    // "Load a table of sixteen ... lines": no length is named, not the 65,536 bytes of an input either.
    void check_long_texts()
    {
        const std::string good = text_of(good_lines(random), true);
        for (const size_t length : {65535u, 65536u, 65537u, 131072u}) {
            check(std::string(length, '0'));
            check(std::string(length, '\n'));
            check(good + std::string(length - good.size(), '\n'));
            check(good + std::string(length - good.size(), '0'));
            check_with(UNIT486_BLOCKS - 1, std::string(length, '0') + "15\t1");
        }
    }

private:
    uint64_t seed;
    Random &random;
    Coverage &coverage;

    // What one side is lent, and what it answered.
    struct Load {
        Lent<uint8_t> table, text;
        unit486_loaded_table loaded{}; // by value
        uint32_t number = UNIT486_DONE;
    };

    void check_with(uint32_t place, const std::string &line)
    {
        TableLines lines = good_lines(random);
        lines[place] = line;
        check(text_of(lines, random.percent(50)));
    }

    void check_two(uint32_t place, uint32_t number, uint32_t later)
    {
        for (const uint32_t other : table_numbers) {
            TableLines lines = good_lines(random);
            lines[place] = wrong_line(random, number, place);
            lines[later] = wrong_line(random, other, later);
            check(text_of(lines, random.percent(50)));
        }
    }

    void check(Kind kind, const BlockTable &given, const std::string &text)
    {
        Load baseline;
        baseline.table.make_of(given, random);
        baseline.text.make_of(text, random);
        Load library = baseline;
        call_library(kind, library);
        call_baseline(kind, baseline);
        ++coverage.calls;
        compare(kind, given, library, baseline);
        coverage.note_number(kind, baseline.number);
    }

    static void call_library(Kind kind, Load &load)
    {
        uint8_t *table = load.table.start();
        const uint8_t *text = load.text.start();
        switch (kind) {
        case Kind::block_answers: unit486_block_answers(table); break;
        case Kind::load_table: load.number = unit486_load_table(table, text, load.text.length); break;
        default:
            load.loaded = unit486_load_table_by_value(table, text, load.text.length);
            load.number = load.loaded.number;
        }
    }

    // The load by value is the load of a copy.
    static void call_baseline(Kind kind, Load &load)
    {
        uint8_t *table = load.table.start();
        const uint8_t *text = load.text.start();
        switch (kind) {
        case Kind::block_answers: baseline::block_answers(table); break;
        case Kind::load_table: load.number = baseline::load_table(table, text, load.text.length); break;
        default:
            std::memcpy(load.loaded.table, table, UNIT486_BLOCKS);
            load.number = baseline::load_table(load.loaded.table, text, load.text.length);
            load.loaded.number = load.number;
        }
    }

    static std::string difference(const Load &library, const Load &baseline)
    {
        if (library.number != baseline.number)
            return "the number";
        if (std::memcmp(&library.loaded, &baseline.loaded, sizeof library.loaded))
            return "the table by value";
        const std::string table = library.table.difference(baseline.table);
        if (!table.empty())
            return "the lent table, " + table;
        const std::string text = library.text.difference(baseline.text);
        return text.empty() ? "" : "the text, " + text;
    }

    void compare(Kind kind, const BlockTable &given, const Load &library, const Load &baseline) const
    {
        const std::string found = difference(library, baseline);
        if (found.empty())
            return;
        print_mismatch(coverage.calls, seed, "tables", found);
        std::printf("  %s: number by the library %" PRIu32 ", by the baseline %" PRIu32 "\n",
            kind_names[static_cast<size_t>(kind)], library.number, baseline.number);
        print_table("given", given.data());
        for (const Load *load : {&library, &baseline}) {
            const char *side = load == &library ? "library" : "baseline";
            print_table(side, load->table.start());
            print_table(side, load->loaded.table);
        }
        std::printf("  text of %zu bytes:\n", baseline.text.length);
        std::fwrite(baseline.text.start(), 1, baseline.text.length, stdout);
        std::printf("\n");
        std::exit(1);
    }

    static void print_table(const char *name, const uint8_t *table)
    {
        std::printf("  table, %-9s", name);
        for (size_t block = 0; block < UNIT486_BLOCKS; ++block)
            std::printf(" %u", table[block]);
        std::printf("\n");
    }
};
