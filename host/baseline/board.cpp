// The board: its answers for an access by a block table, and tables loaded from a text.
#include <cstring>

#include "bus.h"
#include "fields.h"
#include "refusal.h"
#include "unit.h"

namespace baseline {

// "The answer by 1 MiB block 0 to 15 is 1 1 1 1 1 1 1 1 5 5 5 5 4 4 2 3"
void block_answers(uint8_t *table)
{
    static constexpr uint8_t ours[UNIT486_BLOCKS] = {1, 1, 1, 1, 1, 1, 1, 1, 5, 5, 5, 5, 4, 4, 2, 3};
    std::memcpy(table, ours, sizeof ours);
}

// "The block is (address / 1,048,576) mod 16."
static uint8_t answer_at(const uint8_t *table, uint64_t address)
{
    return table[address / 1048576 % UNIT486_BLOCKS];
}

// "repeated 16 times for each doubleword"; document 02: "the third group from its own doubleword, or from the
// lowest where there is none", and so is the second. A width that will be refused has the lowest alone.
void board_answers(const uint8_t *table, uint32_t address, uint32_t width, uint8_t *answers)
{
    const uint64_t lowest = address;
    const uint32_t end = good_width(width) ? address % 4 + width : 4;
    std::memset(answers, answer_at(table, lowest), group_answers);
    std::memset(answers + group_answers, answer_at(table, end > 4 ? lowest + 4 : lowest), group_answers);
    std::memset(answers + 2 * group_answers, answer_at(table, end > 8 ? lowest + 8 : lowest), group_answers);
}

// Document 02: "34 for a malformed", "35 for a wrong or repeated block; 36 for an answer above 7", "lowest
// number first"; blocks "ascending from 0", so that a line's is its place. Two fields and a tab are never over
// 80 bytes.
static uint32_t table_line_number(Scanner line, uint32_t place, uint8_t &answer)
{
    uint32_t block = 0, given = 0;
    if (!line.number(block) || !line.tab() || !line.number(given) || !line.done())
        return UNIT486_WRONG_TABLE_LINE;
    if (block != place)
        return UNIT486_WRONG_TABLE_BLOCK;
    if (given > 7)
        return UNIT486_LARGE_TABLE_ANSWER;
    answer = static_cast<uint8_t>(given);
    return UNIT486_DONE;
}

// "Check it whole before use; a rejected table leaves the old one"; the numbers "are reported for the earliest
// bad line", a missing or seventeenth one too.
uint32_t load_table(uint8_t *table, const uint8_t *text, size_t length)
{
    uint8_t loaded[UNIT486_BLOCKS];
    TextLines lines{text, text + length};
    for (uint32_t place = 0; place < UNIT486_BLOCKS; ++place) {
        if (lines.done())
            return UNIT486_WRONG_TABLE_LINE;
        const uint32_t number = table_line_number(lines.next(), place, loaded[place]);
        if (number != UNIT486_DONE)
            return number;
    }
    if (!lines.done())
        return UNIT486_WRONG_TABLE_LINE;
    std::memcpy(table, loaded, sizeof loaded);
    return UNIT486_DONE;
}

} // namespace baseline
