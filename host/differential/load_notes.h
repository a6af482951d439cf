// What a load met, so that a test which met too little fails.
#pragma once

#include <algorithm>
#include <sstream>
#include <string>

#include "coverage.h"
#include "table_text.h"

class LoadNotes {
public:
    LoadNotes(Coverage &coverage, const BlockTable &given, const std::string &text)
        : coverage(coverage), given(given), text(text)
    {
        std::istringstream read(text);
        for (std::string line; std::getline(read, line);)
            lines.push_back(line);
    }

    void note()
    {
        BlockTable table = given;
        const bool done = load(table, text) == UNIT486_DONE;
        const bool junk = *std::max_element(given.begin(), given.end()) > 7;
        coverage.note(load_of_other_answers, done && table != given);
        coverage.note(load_over_answers_above_7, done && junk);
        coverage.note(load_refused_over_answers_above_7, !done && junk);
        coverage.note(load_without_last_newline, done && text.back() != '\n');
        coverage.note(load_of_ten_digits, done && has_ten_digits());
        coverage.note(load_of_long_text, text.size() > UNIT486_INPUT_MOST);
        if (!done)
            note_refused();
    }

private:
    Coverage &coverage;
    const BlockTable &given;
    const std::string &text;
    TableLines lines;

    static uint32_t load(BlockTable &table, const std::string &text)
    {
        return baseline::load_table(
            table.data(), reinterpret_cast<const uint8_t *>(text.data()), text.size());
    }

    bool has_ten_digits() const
    {
        return std::any_of(
            lines.begin(), lines.end(), [](const std::string &line) { return line.find('\t') == 10; });
    }

    // The number of a line by itself: in a text whose other lines are good.
    uint32_t number_at(size_t place) const
    {
        std::string made;
        for (uint32_t k = 0; k < UNIT486_BLOCKS; ++k)
            made += (k == place ? lines[place] : table_line(k, 1)) + "\n";
        BlockTable table;
        return load(table, made);
    }

    size_t lines_of_blocks() const { return std::min(lines.size(), size_t{UNIT486_BLOCKS}); }

    void note_refused()
    {
        size_t place = 0;
        while (place < lines_of_blocks() && number_at(place) == UNIT486_DONE)
            ++place;
        if (place == UNIT486_BLOCKS)
            coverage.note(lines[place].empty() ? seventeenth_line_empty : seventeenth_line_written);
        else if (place == lines.size())
            coverage.note(of_place(place, first_line_missing, middle_line_missing, last_line_missing));
        else
            note_line(place);
    }

    static Condition of_place(size_t place, Condition first, Condition middle, Condition last)
    {
        return place == 0 ? first : place < UNIT486_BLOCKS - 1 ? middle : last;
    }

    // The earliest bad line.
    void note_line(size_t place)
    {
        const uint32_t number = number_at(place);
        coverage.note(
            bad_line_before_other_count, number > UNIT486_WRONG_TABLE_LINE && lines.size() != UNIT486_BLOCKS);
        for (size_t later = place + 1; later < lines_of_blocks(); ++later) {
            const uint32_t other = number_at(later);
            coverage.note(bad_line_before_lower_number, other != UNIT486_DONE && other < number);
        }
        const TableLines fields = fields_of(lines[place]);
        switch (number) {
        case UNIT486_WRONG_TABLE_LINE: note_malformed(place, fields); break;
        case UNIT486_WRONG_TABLE_BLOCK: note_block(place, fields); break;
        default: note_answer(place, fields);
        }
    }

    static TableLines fields_of(const std::string &line)
    {
        TableLines fields(1);
        for (const char byte : line) {
            if (byte == '\t')
                fields.emplace_back();
            else
                fields.back() += byte;
        }
        return fields;
    }

    void note_malformed(size_t place, const TableLines &fields)
    {
        coverage.note(of_place(place, first_line_malformed, middle_line_malformed, last_line_malformed));
        coverage.note(table_line_empty, lines[place].empty());
        coverage.note(table_line_of_three_fields, fields.size() == 3);
        if (fields.size() != 2)
            return;
        const bool digits = are_digits(fields[0], 11) && are_digits(fields[1], 11);
        const size_t most = std::max(fields[0].size(), fields[1].size());
        coverage.note(table_line_with_carriage_return, !fields[1].empty() && fields[1].back() == '\r');
        coverage.note(table_line_of_eleven_digits, digits && most == 11);
        coverage.note(table_line_above_32_bits, digits && most <= 10);
    }

    void note_block(size_t place, const TableLines &fields)
    {
        const uint64_t block = std::stoull(fields[0]);
        coverage.note(
            of_place(place, wrong_block_in_first_line, wrong_block_in_middle_line, wrong_block_in_last_line));
        coverage.note(block_repeated, block + 1 == place);
        coverage.note(block_left_out, block == place + 1);
        coverage.note(block_of_same_low_byte, block % 256 == place);
        coverage.note(wrong_block_and_large_answer, std::stoull(fields[1]) > 7);
    }

    void note_answer(size_t place, const TableLines &fields)
    {
        const uint64_t answer = std::stoull(fields[1]);
        coverage.note(of_place(
            place, large_answer_in_first_line, large_answer_in_middle_line, large_answer_in_last_line));
        coverage.note(answer_of_8, answer == 8);
        coverage.note(answer_of_good_low_byte, answer % 256 <= 7);
        coverage.note(answer_of_32_bits, answer == UINT32_MAX);
    }
};
