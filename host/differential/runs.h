// Runs of the event program, each made on both sides and compared whole.
#pragma once

#include <algorithm>
#include <cstdlib>
#include <sstream>
#include <string>

#include "calls.h"
#include "coverage.h"
#include "fields.h"
#include "sides.h"
#include "table_text.h"

class Runs {
public:
    Runs(uint64_t seed, Random &random, Coverage &coverage) : seed(seed), random(random), coverage(coverage)
    {
    }

    // One run, into a buffer that may be too short.
    void check(const BlockTable &table, const std::string &text)
    {
        Texts baseline;
        baseline.table.make_of(table, random);
        lend(text, baseline);
        Texts library = baseline;
        library.whole = unit486_run(library.table.start(), library.input.start(), library.input.length,
            library.output.start(), library.output.length);
        baseline.whole = baseline::run(baseline.table.start(), baseline.input.start(), baseline.input.length,
            baseline.output.start(), baseline.output.length);
        ++coverage.calls;
        compare(library, baseline);
        note_table(table);
        note(text, baseline);
    }

private:
    uint64_t seed;
    Random &random;
    Coverage &coverage;

    // What one side is lent, and the length of its whole output.
    struct Texts {
        Lent<uint8_t> table, input, output;
        size_t whole = 0;
    };

    void lend(const std::string &text, Texts &texts)
    {
        texts.input.make_of(text, random);
        const size_t lines = static_cast<size_t>(std::count(text.begin(), text.end(), '\n')) + 1;
        const size_t enough = 26 + 54 * lines; // the header and the longest rows
        texts.output.make(enough, random);
        if (random.percent(30))
            texts.output.length = random.below(static_cast<uint32_t>(random.percent(50) ? enough / 4 : 60));
        texts.output.length = std::min(texts.output.length, enough);
    }

    void compare(const Texts &library, const Texts &baseline) const
    {
        std::string found = library.output.difference(baseline.output);
        if (found.empty())
            found = library.input.difference(baseline.input);
        if (found.empty())
            found = library.table.difference(baseline.table);
        if (found.empty() && library.whole == baseline.whole)
            return;
        print_mismatch(coverage.calls, seed, "events", found.empty() ? "length of the output" : found);
        std::printf("  whole output: library %zu, baseline %zu; lent %zu bytes\n", library.whole,
            baseline.whole, baseline.output.length);
        print_bytes("block table", baseline.table);
        std::printf("  input of %zu bytes:\n", baseline.input.length);
        std::fwrite(baseline.input.start(), 1, baseline.input.length, stdout);
        std::printf("\n");
        std::exit(1);
    }

    // RAM is in block 0: its answer decides alone, and the rows have 6 where it is above 7.
    void note_table(const BlockTable &table)
    {
        const bool good = table[0] <= 7;
        coverage.note(run_with_our_table, table == our_table());
        coverage.note(run_with_other_block_0, good && table[0] != our_table()[0]);
        coverage.note(run_with_junk_past_block_0, good && *std::max_element(table.begin(), table.end()) > 7);
    }

    void note(const std::string &text, const Texts &baseline)
    {
        const bool cut = baseline.whole > baseline.output.length;
        coverage.note(cut ? run_output_cut : run_whole_output);
        if (!text.empty() && text.back() != '\n')
            coverage.note(run_without_last_newline);
        // The row of each line, as far as rows are whole. An input that is too long has one row.
        const std::string output(baseline.output.start(),
            baseline.output.start() + std::min(baseline.whole, baseline.output.length));
        std::istringstream lines(text), rows(output.substr(0, output.rfind('\n') + 1));
        std::string line, row;
        std::getline(rows, row); // the header
        while (std::getline(rows, row)) {
            std::getline(lines, line);
            note_row(line, row);
        }
    }

    void note_row(const std::string &line, const std::string &row)
    {
        uint32_t event = 0, answer = 0;
        uint64_t value = 0;
        std::istringstream(row) >> event >> answer >> value;
        coverage.note_number(Kind::run, answer);
        coverage.note(run_read_above_32_bits, value > UINT32_MAX);
        if (answer != UNIT486_LONG_INPUT)
            note_written(line, answer);
    }

    // Of a W line whose fields are digits, those of address and width so few that their number is in range:
    // what the value's digits led to.
    void note_written(const std::string &line, uint32_t answer)
    {
        std::istringstream text(line);
        std::string fields[4];
        for (std::string &field : fields)
            std::getline(text, field, '\t');
        if (fields[0] != "W" || !text.eof() || !are_digits(fields[1], 9) || !are_digits(fields[2], 9) ||
            !are_digits(fields[3], line.size()))
            return;
        const size_t digits = fields[3].size();
        const bool malformed = answer == UNIT486_MALFORMED_LINE;
        coverage.note(run_value_of_20_digits, digits == 20 && answer == UNIT486_DONE);
        coverage.note(run_value_above_64_bits, digits == 20 && malformed);
        coverage.note(run_value_of_21_digits, digits == 21 && malformed);
        coverage.note(
            run_value_of_64_bits_refused, digits > 10 && digits <= 20 && answer == UNIT486_LARGE_VALUE);
    }
};
