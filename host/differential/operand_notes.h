// What accesses of up to three doublewords met, and the limits of what they are given, so that a test which
// met too little fails.
#pragma once

#include "baseline/refusal.h"
#include "baseline/unit.h"
#include "coverage.h"

class OperandNotes {
public:
    OperandNotes(Coverage &coverage, const Call &call, const unit486_result &result, const Side &side)
        : coverage(coverage), call(call), result(result), side(side)
    {
    }

    void note()
    {
        if (call.kind == Kind::board_answers)
            return note_board();
        if (!is_access(call))
            return;
        note_lengths();
        note_end_of_ram();
        if (call.kind == Kind::write)
            note_value();
        else
            coverage.note(read_of_value_above_32_bits, result.value > UINT32_MAX);
        if (result.number == UNIT486_DONE && doublewords_of(call) == 3)
            note_three();
    }

private:
    Coverage &coverage;
    const Call &call;
    const unit486_result &result;
    const Side &side;

    bool done() const { return result.number == UNIT486_DONE; }

    // ---- limits ----

    void note_lengths()
    {
        const bool wrong_answers = result.number == UNIT486_WRONG_ANSWERS;
        const size_t answers = side.answers.length, log = side.log.length;
        coverage.note(one_answer_less, wrong_answers && answers == UNIT486_ANSWERS - 1);
        coverage.note(one_answer_more, wrong_answers && answers == UNIT486_ANSWERS + 1);
        coverage.note(last_answer_above_7, wrong_answers && answers == UNIT486_ANSWERS && last_alone_wrong());
        coverage.note(log_of_143_words, result.number == UNIT486_SHORT_LOG && log == UNIT486_LOG_WORDS - 1);
        coverage.note(log_of_144_words, done() && log == UNIT486_LOG_WORDS);
        coverage.note(log_of_145_words, done() && log == UNIT486_LOG_WORDS + 1);
    }

    bool last_alone_wrong() const
    {
        const uint8_t *answers = side.answers.start(), *last = answers + UNIT486_ANSWERS - 1;
        return *last > 7 && std::all_of(answers, last, [](uint8_t answer) { return answer <= 7; });
    }

    void note_end_of_ram()
    {
        const uint64_t start = call.address, length = side.ram.length;
        coverage.note(access_of_8_at_end_of_ram, done() && call.width == 8 && start + 8 == length);
        coverage.note(access_of_8_past_end_of_ram,
            result.number == UNIT486_BEYOND_RAM && call.width == 8 && start + 4 <= length);
    }

    void note_value()
    {
        const bool refused = result.number == UNIT486_LARGE_VALUE;
        const bool above_32_bits = call.value > UINT32_MAX;
        const uint64_t limit = call.width < 8 ? uint64_t{1} << 8 * call.width : 0;
        coverage.note(largest_value_of_width, done() && call.width < 8 && call.value == limit - 1);
        coverage.note(value_one_above_width, refused && call.value == limit);
        coverage.note(value_above_32_bits_refused, refused && above_32_bits);
        coverage.note(write_of_value_above_32_bits, done() && above_32_bits);
    }

    // ---- three doublewords ----

    enum class Made { hit, plain, fill };

    void note_three()
    {
        const uint32_t offset = call.address % 16;
        coverage.note(offset < 8    ? three_in_one_line
                      : offset < 12 ? three_with_last_alone
                                    : three_with_first_alone);
        Made made[3] = {};
        find_made(made);
        const auto hits = std::count(made, made + 3, Made::hit);
        if (call.kind == Kind::write) {
            // What a write makes no cycle for stayed inside.
            coverage.note(three_inside_in_part, hits == 1 || hits == 2);
            return;
        }
        coverage.note(three_hits, hits == 3);
        coverage.note(three_with_one_hit_in_two_lines, hits == 1 && offset > 8);
        coverage.note(three_with_two_hits_in_two_lines, hits == 2 && offset > 8);
        coverage.note(read_of_48_cycles, result.cycles == 48);
        const bool one_line = offset < 8 || offset > 12; // of the middle doubleword and the last
        coverage.note(fill_from_middle, made[1] == Made::fill);
        coverage.note(
            last_hits_line_filled_from_middle, made[1] == Made::fill && made[2] == Made::hit && one_line);
        coverage.note(last_fills_after_dropped_fill_from_middle,
            made[1] == Made::fill && made[2] == Made::fill && one_line);
    }

    // The records of a doubleword start at its own address and end with flag 64.
    void find_made(Made (&made)[3])
    {
        bool first = true;
        uint32_t place = 0;
        for (uint32_t k = 0; k < result.cycles; ++k) {
            const uint32_t *record = side.log.start() + 3 * k;
            if (first)
                place = (record[0] - lowest_doubleword(call)) / 4;
            made[place] = record[1] & UNIT486_FLAG_FILL ? Made::fill : Made::plain;
            coverage.note(
                wrong_parity_in_last_of_three, place == 2 && (record[1] & UNIT486_FLAG_WRONG_PARITY));
            first = record[1] & UNIT486_FLAG_LAST;
        }
    }

    // ---- the board ----

    void note_board()
    {
        const uint8_t *answers = side.answers.start();
        const bool second = answers[16] != answers[0], third = answers[32] != answers[0];
        coverage.note(board_with_own_second_group, second && !third);
        coverage.note(board_with_own_third_group, third && !second);
        coverage.note(board_with_own_second_and_third, second && third);
        uint8_t next[UNIT486_ANSWERS];
        baseline::board_answers(side.table.start(), call.address + 4, 1, next);
        coverage.note(board_of_refused_width, !baseline::good_width(call.width) && next[0] != answers[0]);
        const uint32_t block = call.address / 1048576 % UNIT486_BLOCKS;
        coverage.note(board_from_last_block_to_first, second && block == UNIT486_BLOCKS - 1);
        coverage.note(board_answer_above_7, answers[0] > 7);
    }
};
