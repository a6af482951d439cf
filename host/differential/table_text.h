// Block tables, and texts to load them from, good and wrong.
#pragma once

#include <array>
#include <string>
#include <vector>

#include "baseline/unit.h"
#include "fields.h"
#include "random.h"

using BlockTable = std::array<uint8_t, UNIT486_BLOCKS>;

// Document 01's.
inline BlockTable our_table()
{
    BlockTable table;
    baseline::block_answers(table.data());
    return table;
}

// Ours; or answers up to 7, at times with other bytes among them; or any bytes.
inline BlockTable random_table(Random &random)
{
    BlockTable table = our_table();
    if (random.percent(20))
        return table;
    const uint32_t junk = random.pick({0u, 0u, 0u, 10u, 100u}); // per cent
    for (uint8_t &answer : table)
        answer = random.percent(junk) ? random.byte() : static_cast<uint8_t>(random.below(8));
    return table;
}

// Of a text, without their newlines.
using TableLines = std::vector<std::string>;

inline std::string text_of(const TableLines &lines, bool last_newline)
{
    std::string text;
    for (const std::string &line : lines)
        text += line + "\n";
    if (!last_newline && !text.empty())
        text.pop_back();
    return text;
}

inline std::string table_line(uint32_t block, uint32_t answer)
{
    return std::to_string(block) + "\t" + std::to_string(answer);
}

inline TableLines good_lines(Random &random)
{
    TableLines lines;
    for (uint32_t place = 0; place < UNIT486_BLOCKS; ++place)
        lines.push_back(padded(random, place, 10) + "\t" + padded(random, random.below(8), 10));
    return lines;
}

// Numbers above 32 bits whose low 32 bits would be good are among them, and numbers of 11 digits.
inline TableLines malformed_lines(uint32_t place)
{
    const std::string block = std::to_string(place);
    TableLines lines{"", "\t", "\r", "x", block, "\t1", " " + block + "\t1", "+" + block + "\t1",
        "-" + block + "\t1", "\t" + block + "\t1", block + "\t1\t", block + "\t1\t1", block + "\t\t1",
        std::to_string(4294967296 + place) + "\t1", "9999999999\t1", in_digits(place, 11) + "\t1",
        std::string(81, '0'), block + std::string(1, '\0') + "\t1"};
    for (const char *answer : {"", "x", "-1", "+1", " 1", "1 ", "1\r", "1\v", "0x1", "1A", "1.0",
             "4294967296", "4294967303", "9999999999", "00000000001"})
        lines.push_back(block + "\t" + answer);
    return lines;
}

// The block before, the one after, and some of the same low byte, with a good answer and with a large one.
inline TableLines wrong_block_lines(uint32_t place)
{
    TableLines lines;
    for (const uint32_t block :
        {place - 1, place + 1, place ^ 15, place + 16, place + 256, place + 65536, UINT32_MAX})
        for (const uint32_t answer : {7u, 8u})
            lines.push_back(table_line(block, answer));
    return lines;
}

inline TableLines large_answer_lines(uint32_t place)
{
    TableLines lines{std::to_string(place) + "\t0000000008"};
    for (const uint32_t answer : {8u, 9u, 10u, 15u, 16u, 255u, 256u, 257u, 263u, 65536u, 65543u, UINT32_MAX})
        lines.push_back(table_line(place, answer));
    return lines;
}

// Lines that have this number at this place.
inline TableLines wrong_lines(uint32_t number, uint32_t place)
{
    switch (number) {
    case UNIT486_WRONG_TABLE_LINE: return malformed_lines(place);
    case UNIT486_WRONG_TABLE_BLOCK: return wrong_block_lines(place);
    default: return large_answer_lines(place);
    }
}

constexpr std::array<uint32_t, 3> table_numbers = {
    UNIT486_WRONG_TABLE_LINE, UNIT486_WRONG_TABLE_BLOCK, UNIT486_LARGE_TABLE_ANSWER};

inline std::string wrong_line(Random &random, uint32_t number, uint32_t place)
{
    const TableLines lines = wrong_lines(number, place);
    return lines[random.below(static_cast<uint32_t>(lines.size()))];
}

// Good, or with lines that are wrong, missing or over, or with a byte changed.
inline std::string random_table_text(Random &random)
{
    TableLines lines = good_lines(random);
    for (uint32_t faults = random.pick({0u, 0u, 1u, 2u, 3u}); faults > 0; --faults) {
        const uint32_t place = random.below(UNIT486_BLOCKS);
        lines[place] = wrong_line(random, random.pick(table_numbers), place);
    }
    if (random.percent(10))
        lines.resize(random.below(UNIT486_BLOCKS));
    else if (random.percent(10))
        lines.push_back(random.pick({"16\t1", "15\t1", "", "x"}));
    const std::string text = text_of(lines, random.percent(60));
    return random.percent(20) && !text.empty() ? changed(random, text) : text;
}
