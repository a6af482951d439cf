// What the calls met, so that a test which met too little fails.
#pragma once

#include <algorithm>
#include <cinttypes>
#include <cstdio>

#include "calls.h"
#include "flushed.h"
#include "planted.h"

enum Condition {
    read_hit,
    read_hit_under_cd_or_pcd,
    plain_read,
    fill_kept,
    fill_dropped,
    fill_of_16_cycles,
    fill_of_mixed_sizes,
    line_replaced,
    upper_hits_line_just_filled,
    upper_fills_after_dropped_fill,
    access_across_lines,
    three_in_one_line,
    three_with_first_alone,
    three_with_last_alone,
    three_hits,
    three_with_one_hit_in_two_lines,
    three_with_two_hits_in_two_lines,
    fill_from_middle,
    last_hits_line_filled_from_middle,
    last_fills_after_dropped_fill_from_middle,
    read_of_48_cycles,
    wrong_parity_in_last_of_three,
    three_inside_in_part,
    read_of_value_above_32_bits,
    write_of_value_above_32_bits,
    access_of_8_at_end_of_ram,
    access_of_8_past_end_of_ram,
    largest_value_of_width,
    value_one_above_width,
    value_above_32_bits_refused,
    one_answer_less,
    one_answer_more,
    log_of_143_words,
    log_of_144_words,
    log_of_145_words,
    last_answer_above_7,
    board_with_own_second_group,
    board_with_own_third_group,
    board_with_own_second_and_third,
    board_of_refused_width,
    board_from_last_block_to_first,
    board_answer_above_7,
    wrong_parity_in_plain_read,
    wrong_parity_in_fill,
    write_hit_through,
    write_hit_inside,
    write_miss,
    write_hit_and_miss_inside,
    snoop_dropped_line,
    snoop_kept_line_by_nw,
    external_write_dropped_line,
    external_write_kept_line_by_nw,
    view_of_held_line,
    view_of_ram,
    access_under_cd_0_nw_1,
    test_write_of_valid_line,
    test_write_of_invalid_line,
    test_write_over_valid_line,
    test_write_in_ill_formed_set,
    tag_planted_twice,
    test_read_of_planted_line,
    test_read_of_invalid_line,
    test_read_of_ill_formed_set,
    read_of_planted_line,
    write_of_planted_line,
    view_of_planted_line,
    snoop_dropped_planted_line,
    external_write_dropped_planted_line,
    flush_of_planted_lines,
    refused_by_planted_tag,
    flush_of_lru_numbers,
    flush_of_first_and_last_lru,
    flush_of_lru_above_7,
    first_victim_after_flush,
    carried_none,
    carried_one_to_three,
    carried_four,
    carried_dropped_line,
    carried_kept_line_by_nw,
    carried_over_another,
    carried_between_bytes_of_doubleword,
    carried_in_plain_read,
    carried_at_first_cycle_of_fill,
    carried_spoiled_fill,
    carried_spoiled_fill_with_nw,
    carried_spoiled_fill_of_16_cycles,
    carried_spoiled_fill_at_last_cycle,
    carried_spoiled_fill_before_upper,
    carried_spoiled_fill_from_middle,
    carried_in_middle_of_three,
    carried_in_last_of_three,
    carried_before_cycle_above_32,
    carried_spoiled_fill_from_cycle_32,
    carried_chose_the_victim,
    carried_made_upper_miss,
    carried_after_lower_hit,
    carried_after_upper_hit,
    carried_dropped_line_just_filled,
    carried_past_last_cycle,
    carried_with_no_cycle,
    carried_too_many,
    carried_out_of_order,
    carried_empty,
    carried_too_long,
    carried_across_lines,
    carried_beyond_ram,
    carried_fault_before_state,
    carried_fault_after_other,
    carried_refused_by_state,
    ranges_of_none,
    ranges_of_one,
    ranges_of_eight,
    ranges_overlap,
    ranges_at_start_of_ram,
    ranges_at_end_of_ram,
    ranges_of_all_ram,
    ranges_fewer_than_before,
    ranges_over_wrong_ones,
    setting_refused_over_ranges,
    setting_empty,
    setting_start_in_line,
    setting_length_in_line,
    setting_within_lines,
    setting_beyond_ram,
    setting_sum_above_32_bits,
    setting_without_length,
    setting_wrong_first,
    setting_wrong_eighth,
    setting_wrong_past_eighth,
    setting_nine,
    setting_above_nine,
    setting_same_low_byte,
    setting_ram_first,
    kept_wrong_first,
    kept_wrong_eighth,
    kept_wrong_and_too_many,
    kept_of_longer_ram,
    kept_nine,
    kept_above_nine,
    kept_before_state,
    kept_after_input,
    kept_after_carried,
    kept_junk_past_count,
    kept_by_reset,
    kept_by_reset_by_value,
    kept_wrong_by_reset,
    write_miss_ignored,
    write_hit_ignored,
    write_inside_in_range,
    write_into_range,
    write_out_of_range,
    write_across_two_ranges,
    write_in_last_line_of_range,
    write_up_to_range,
    write_from_range_on,
    write_in_first_range_alone,
    write_in_eighth_range_alone,
    write_in_two_ranges_at_once,
    write_over_upper_parity_bits,
    write_of_wrong_parity_ignored,
    external_write_ignored,
    external_write_ignored_dropped_line,
    external_write_ignored_kept_line_by_nw,
    external_write_up_to_range,
    external_write_from_range_on,
    external_write_over_upper_parity_bits,
    carried_ignored,
    carried_ignored_and_other,
    carried_ignored_dropped_line,
    carried_ignored_spoiled_fill,
    carried_ignored_at_first_cycle,
    carried_ignored_past_last_cycle,
    read_hit_in_range,
    plain_read_in_range,
    fill_in_range,
    view_in_range,
    load_of_other_answers,
    load_over_answers_above_7,
    load_refused_over_answers_above_7,
    load_without_last_newline,
    load_of_ten_digits,
    load_of_long_text,
    first_line_malformed,
    middle_line_malformed,
    last_line_malformed,
    first_line_missing,
    middle_line_missing,
    last_line_missing,
    seventeenth_line_empty,
    seventeenth_line_written,
    table_line_empty,
    table_line_of_three_fields,
    table_line_with_carriage_return,
    table_line_of_eleven_digits,
    table_line_above_32_bits,
    wrong_block_in_first_line,
    wrong_block_in_middle_line,
    wrong_block_in_last_line,
    block_repeated,
    block_left_out,
    block_of_same_low_byte,
    wrong_block_and_large_answer,
    large_answer_in_first_line,
    large_answer_in_middle_line,
    large_answer_in_last_line,
    answer_of_8,
    answer_of_good_low_byte,
    answer_of_32_bits,
    bad_line_before_lower_number,
    bad_line_before_other_count,
    run_with_our_table,
    run_with_other_block_0,
    run_with_junk_past_block_0,
    run_whole_output,
    run_output_cut,
    run_without_last_newline,
    run_value_of_20_digits,
    run_value_of_21_digits,
    run_value_above_64_bits,
    run_value_of_64_bits_refused,
    run_read_above_32_bits,
    conditions
};

constexpr const char *condition_names[conditions] = {
    "read hits",
    "read hits with CD = 1 or PCD = 1",
    "plain reads",
    "fills kept",
    "fills dropped",
    "fills of 16 cycles",
    "fills of 5 to 15 cycles",
    "fills that replaced a valid line",
    "upper doubleword hit in the line just filled",
    "upper doubleword filled after a dropped fill of its line",
    "accesses across two lines",
    "accesses of three doublewords in one line",
    "those in two lines, the first alone in its line",
    "those in two lines, the last alone in its line",
    "reads of three doublewords that all hit",
    "reads of three doublewords in two lines with one hit",
    "reads of three doublewords in two lines with two hits",
    "fills that start in the middle doubleword of three",
    "last doubleword hit in the line filled from the middle",
    "last doubleword filled after a dropped fill from the middle",
    "reads of 48 cycles",
    "reads with a parity error in the last doubleword of three",
    "writes of three doublewords, some inside, some to RAM",
    "reads of a value above 32 bits",
    "writes of a value above 32 bits",
    "accesses of 8 bytes that end with RAM",
    "accesses of 8 bytes of which RAM has 4 to 7 (5)",
    "writes of the largest value of a width below 8",
    "writes of the smallest value too large for its width (8)",
    "writes of a value above 32 bits, too large (8)",
    "accesses with 47 answers (6)",
    "accesses with 49 answers (6)",
    "accesses with a log of 143 words (7)",
    "accesses with a log of 144 words",
    "accesses with a log of 145 words",
    "accesses whose last answer alone is above 7 (6)",
    "board answers whose second group alone is not the lowest's",
    "board answers whose third group alone is not the lowest's",
    "board answers whose second and third are not the lowest's",
    "board answers of a refused width at the end of a block",
    "board answers of an access from block 15 into block 0",
    "board answers above 7, as the table has them",
    "plain reads with a parity error",
    "fills with a parity error",
    "write hits through to RAM",
    "write hits that stayed inside (CD = NW = 1)",
    "write misses",
    "writes in part inside, in part to RAM",
    "snoops that dropped a line",
    "snoops of a held line with NW = 1",
    "external writes that dropped a line",
    "external writes to a held line with NW = 1",
    "views of a held line",
    "views of RAM",
    "accesses with CD = 0 and NW = 1",
    "test writes of a valid line",
    "test writes of an invalid line",
    "test writes in place of a valid line",
    "test writes in a set that 21 to 23 refuse",
    "test writes of a tag that another line of the set has",
    "test reads of a planted line",
    "test reads of an invalid line",
    "test reads of a set that 21 to 23 refuse",
    "reads that hit a planted line",
    "writes that hit a planted line",
    "views of a planted line",
    "snoops that dropped a planted line",
    "external writes that dropped a planted line",
    "flushes and resets of planted lines",
    "calls that a tag planted twice refused (21)",
    "flushes of an LRU number other than 0",
    "flushes of those of the first and of the last set",
    "flushes of an LRU number above 7",
    "fills in a set of planted lines whose LRU number was flushed",
    "carrying reads of no write",
    "carrying reads of 1 to 3 writes",
    "carrying reads of 4 writes",
    "carried writes to a held line",
    "carried writes to a held line with NW = 1",
    "carried writes over bytes of another of the same number",
    "carried writes between two cycles of their doubleword",
    "carried writes during a plain read",
    "carried writes at the first cycle of a fill of their line",
    "carried writes that dropped a fill",
    "carried writes that dropped a fill with NW = 1",
    "carried writes that dropped a fill of 16 cycles",
    "carried writes that dropped a fill at its last cycle",
    "fills dropped so that the last doubleword missed",
    "those that started in the middle doubleword of three",
    "carried writes during the middle doubleword of three",
    "carried writes during the last doubleword of three",
    "carried writes before a cycle numbered above 32",
    "carried writes that dropped a fill from cycle 32 on",
    "carried writes that dropped the line which became the victim",
    "carried writes that made the upper doubleword miss",
    "carried writes to the line where the lower doubleword hit",
    "carried writes to the line where the upper doubleword hit",
    "carried writes to the line that the lower one filled",
    "carried writes past the last cycle",
    "carried writes of a read with no cycle",
    "33: more than four",
    "33: not in cycle order",
    "33: an empty write",
    "33: a write over 16 bytes",
    "33: a write across lines",
    "33: a write beyond RAM",
    "33 where the read's sets have a state number",
    "1 to 7 where 33 would be met too",
    "21 to 23 of a carried write's set alone",
    "settings of no range",
    "settings of one range",
    "settings of eight ranges",
    "settings of ranges that overlap",
    "settings of a range at the start of RAM",
    "settings of a range that ends with RAM",
    "settings of a range of all RAM",
    "settings of fewer ranges than before",
    "settings over ranges that 37 or 38 refuse",
    "refused settings over ranges",
    "37 of a setting: an empty range",
    "37 of a setting: a start within a line",
    "37 of a setting: a length of no whole lines",
    "37 of a setting: neither start nor length, but their sum",
    "37 of a setting: one line beyond RAM",
    "37 of a setting: a sum above 32 bits that wraps into RAM",
    "37 of a setting: a last word without a length",
    "37 of a setting: the first range alone",
    "37 of a setting: the eighth range alone",
    "37 of a setting: a range past the eighth alone",
    "38 of a setting: nine ranges",
    "38 of a setting: more",
    "38 of a setting: a count whose low byte is at most 8",
    "1 of a setting where 37 or 38 would be met too",
    "37 of another call: the first range alone",
    "37 of another call: the eighth range alone",
    "37 of another call where 38 would be met too",
    "37 of another call: ranges of a longer RAM",
    "38 of another call: nine ranges",
    "38 of another call: more",
    "37 or 38 where 21 to 23 would be met too",
    "1 to 10 where 37 or 38 would be met too",
    "33 where 37 or 38 would be met too",
    "calls done with wrong ranges past the count",
    "resets that kept ranges",
    "resets by value that kept ranges",
    "resets that kept ranges which 37 or 38 refuse",
    "write misses in a range",
    "write hits in a range, of the data array alone",
    "write hits in a range with CD = NW = 1",
    "writes from before a range into it",
    "writes from within a range past its end",
    "writes from one range into another",
    "writes in the last line of a range of more",
    "writes that end just before a range",
    "writes that start just past a range",
    "writes in the first range alone",
    "writes in the eighth range alone",
    "writes in two ranges that overlap there",
    "ignored writes where the parity byte has upper bits",
    "ignored writes where parity was wrong",
    "external writes in a range",
    "those that dropped a line",
    "those to a held line with NW = 1",
    "external writes that end just before a range",
    "external writes that start just past a range",
    "those in a range where a parity byte has upper bits",
    "carried writes in a range",
    "carrying reads with writes in a range and not",
    "carried writes in a range that dropped a line",
    "carried writes in a range that dropped a fill",
    "carried writes in a range at the first cycle of its fill",
    "carried writes in a range past the last cycle",
    "reads that hit in a range",
    "plain reads in a range",
    "fills in a range",
    "views in a range",
    "loads that changed the table",
    "loads over answers above 7",
    "refused loads over answers above 7",
    "loads of a text without its last newline",
    "loads of numbers of 10 digits",
    "loads of a text over 65,536 bytes",
    "34: the first line malformed",
    "34: a middle line malformed",
    "34: the last line malformed",
    "34: the first line missing",
    "34: a middle line missing",
    "34: the last line missing",
    "34: a seventeenth line, empty",
    "34: a seventeenth line, not empty",
    "34: an empty line",
    "34: a line of three fields",
    "34: a carriage return after the answer",
    "34: a number of 11 digits",
    "34: a number above 32 bits",
    "35 in the first line",
    "35 in a middle line",
    "35 in the last line",
    "35: the block of the line before",
    "35: the block of the next line",
    "35: a block with the low byte of the line's",
    "35 where 36 would be met in the line too",
    "36 in the first line",
    "36 in a middle line",
    "36 in the last line",
    "36: an answer of 8",
    "36: an answer whose low byte is at most 7",
    "36: an answer of 4,294,967,295",
    "35 or 36 where a later line has a lower number",
    "35 or 36 where a line is missing or over too",
    "runs with our table",
    "runs with another good answer of block 0",
    "runs with answers above 7, not that of block 0",
    "runs with their whole output",
    "runs whose output was cut",
    "runs without a last newline",
    "W lines whose value has 20 digits, done",
    "W lines whose value has 21 digits (11)",
    "W lines whose value has 20 digits and is above 64 bits (11)",
    "W lines whose value has 11 to 20 digits, refused (8)",
    "R lines that gave a value above 32 bits",
};

// The numbers that each kind of call can answer; of run, those of its rows.
constexpr uint64_t bits_of() { return 0; }
template <class... More> constexpr uint64_t bits_of(int number, More... more)
{
    return uint64_t{1} << number | bits_of(more...);
}

constexpr uint32_t numbers_counted = 64; // the last stands for all from there on, and is never possible
constexpr uint64_t state_bits = bits_of(21, 22, 23);
constexpr uint64_t kept_bits = bits_of(37, 38) | state_bits; // of calls that look at the ranges
constexpr uint64_t possible_numbers[kinds] = {
    bits_of(0),
    bits_of(0),
    bits_of(0, 9),
    bits_of(0, 9),
    bits_of(0),
    bits_of(0, 1, 37, 38),
    bits_of(0, 1, 37, 38),
    bits_of(0, 1, 37, 38),
    bits_of(0) | state_bits,
    bits_of(0) | state_bits,
    bits_of(0, 1, 2, 10) | kept_bits,
    bits_of(0, 1, 2, 3, 4, 5, 6, 7) | kept_bits,
    bits_of(0, 1, 2, 3, 4, 5, 6, 7, 33) | kept_bits,
    bits_of(0, 1, 2, 3, 4, 5, 6, 7) | kept_bits,
    bits_of(0, 1, 2, 3, 4, 5, 6, 7, 8) | kept_bits,
    bits_of(0, 1, 3, 5) | kept_bits,
    bits_of(0, 1, 3, 5) | kept_bits,
    bits_of(0, 3, 31, 32),
    bits_of(0, 3, 31, 32),
    bits_of(0),
    bits_of(0, 34, 35, 36),
    bits_of(0, 34, 35, 36),
    bits_of(0),
    bits_of(0, 4, 5, 6, 8, 9, 10, 11, 12),
};

inline bool is_held(const unit486_directory &directory, uint32_t address)
{
    for (size_t index = address / 16 % 128 * 4, way = 0; way < 4; ++way)
        if (directory.valid[index + way] && directory.tags[index + way] == address / 2048)
            return true;
    return false;
}

inline uint32_t lowest_doubleword(const Call &call) { return call.address & ~3u; }

inline uint32_t doublewords_of(const Call &call) { return (call.address % 4 + call.width + 3) / 4; }

class Coverage {
public:
    uint64_t calls = 0;
    Planted planted;
    Flushed flushed;

    void note(Condition condition, uint64_t times = 1) { met[condition] += times; }

    void note_number(Kind kind, uint32_t number)
    {
        ++numbers[static_cast<size_t>(kind)][std::min(number, numbers_counted - 1)];
    }

    // A call that both sides answered alike: the directory before it, and the side after it.
    void note_call(
        const unit486_directory &before, const Call &call, const unit486_result &result, const Side &side)
    {
        note_number(call.kind, result.number);
        // The address's set is looked at first: where it has a tag twice, 21 is its number.
        if (result.number == UNIT486_TWO_OF_ONE_TAG && planted.has_tag_twice(before, call.address))
            note(refused_by_planted_tag);
        if (result.number != UNIT486_DONE)
            return;
        const bool held = is_held(before, call.address);
        if (call.kind == Kind::read || call.kind == Kind::read_carrying_none)
            note_read(before, call, result, side);
        else if (call.kind == Kind::read_carrying)
            note_records(result, side);
        else if (call.kind == Kind::write)
            note_write(before, call, result, side);
        else if (held && (call.kind == Kind::snoop || call.kind == Kind::drop_line))
            note(before.nw ? snoop_kept_line_by_nw : snoop_dropped_line);
        else if (held && call.kind == Kind::external_write)
            note(before.nw ? external_write_kept_line_by_nw : external_write_dropped_line);
        else if (call.kind == Kind::view)
            note(held ? view_of_held_line : view_of_ram);
        if (is_test(call))
            note_test(before, call);
        else
            note_planted(before, call, side.directory);
        planted.follow(before, call, side.directory);
        flushed.follow(before, call, side.directory);
    }

    // Prints the counts; whether all that can be met was met.
    bool report() const
    {
        bool good = true;
        std::printf("%-19s number: how often\n", "call");
        for (size_t kind = 0; kind < kinds; ++kind) {
            std::printf("%-19s", kind_names[kind]);
            for (uint32_t number = 0; number < numbers_counted; ++number)
                good = report_number(kind, number) && good;
            std::printf("\n");
        }
        for (size_t k = 0; k < conditions; ++k) {
            std::printf("%-60s %10" PRIu64 "%s\n", condition_names[k], met[k], met[k] ? "" : "  NEVER MET");
            good = good && met[k] != 0;
        }
        return good;
    }

private:
    uint64_t numbers[kinds][numbers_counted] = {};
    uint64_t met[conditions] = {};

    bool report_number(size_t kind, uint32_t number) const
    {
        const bool possible = possible_numbers[kind] >> number & 1;
        const uint64_t count = numbers[kind][number];
        if (count != 0)
            std::printf(" %" PRIu32 ": %" PRIu64 "%s", number, count, possible ? "" : " (NOT POSSIBLE)");
        else if (possible)
            std::printf(" %" PRIu32 ": NEVER MET", number);
        return possible == (count != 0);
    }

    void note_test(const unit486_directory &before, const Call &call)
    {
        const unsigned index = baseline::line_index(call.set, call.way);
        const bool ill_formed = baseline::state_number(before, call.set) != UNIT486_DONE;
        if (call.kind == Kind::test_read) {
            note(test_read_of_planted_line, planted.at(index));
            note(test_read_of_invalid_line, !before.valid[index]);
            note(test_read_of_ill_formed_set, ill_formed);
            return;
        }
        note(call.mark ? test_write_of_valid_line : test_write_of_invalid_line);
        note(test_write_over_valid_line, before.valid[index]);
        note(test_write_in_ill_formed_set, ill_formed);
        note(tag_planted_twice, call.mark && another_has_tag(before, call.set, call.way, call.tag));
    }

    // Any other accepted call where it meets what was planted, or flushes.
    void note_planted(const unit486_directory &before, const Call &call, const unit486_directory &after)
    {
        const bool held = planted.holds(before, call.address);
        switch (call.kind) {
        case Kind::read:
        case Kind::read_carrying_none: note_first_victim(before, call, after); [[fallthrough]];
        case Kind::read_carrying: note(read_of_planted_line, held); break;
        case Kind::write: note(write_of_planted_line, held); break;
        case Kind::view: note(view_of_planted_line, held); break;
        case Kind::snoop:
        case Kind::drop_line: note(snoop_dropped_planted_line, held && !before.nw); break;
        case Kind::external_write: note(external_write_dropped_planted_line, held && !before.nw); break;
        case Kind::flush: note_flush(before); [[fallthrough]];
        case Kind::reset:
        case Kind::reset_by_value: note(flush_of_planted_lines, planted.any()); break;
        default: break;
        }
    }

    void note_flush(const unit486_directory &before)
    {
        const uint8_t most = *std::max_element(before.lru, before.lru + UNIT486_SETS);
        note(flush_of_lru_numbers, most != 0);
        note(flush_of_first_and_last_lru, before.lru[0] != 0 && before.lru[UNIT486_SETS - 1] != 0);
        note(flush_of_lru_above_7, most > 7);
    }

    // A line replaced in a set of four planted lines, by an LRU number that a flush zeroed.
    void note_first_victim(const unit486_directory &before, const Call &call, const unit486_directory &after)
    {
        const unsigned set = baseline::set_of(call.address), first = baseline::line_index(set, 0);
        const bool replaced =
            !std::equal(before.tags + first, before.tags + first + UNIT486_WAYS, after.tags + first);
        note(first_victim_after_flush, replaced && planted.fill_set(set) && flushed.at(set));
    }

    // The groups of cycles that records form, each ended by its flag 64.
    struct Groups {
        uint32_t plain = 0, fills = 0;
    };

    Groups note_records(const unit486_result &result, const Side &side)
    {
        Groups groups;
        uint32_t length = 0;
        for (uint32_t k = 0; k < result.cycles; ++k) {
            const uint32_t flags = side.log.start()[3 * k + 1];
            const bool fill = flags & UNIT486_FLAG_FILL;
            ++length;
            if (flags & UNIT486_FLAG_WRONG_PARITY)
                note(fill ? wrong_parity_in_fill : wrong_parity_in_plain_read);
            if (!(flags & UNIT486_FLAG_LAST))
                continue;
            ++(fill ? groups.fills : groups.plain);
            if (fill && length > 4)
                note(length == 16 ? fill_of_16_cycles : fill_of_mixed_sizes);
            length = 0;
        }
        return groups;
    }

    // A kept fill puts a line that was not held in place of another, so tag or valid mark changes.
    uint32_t note_kept_fills(const unit486_directory &before, const unit486_directory &after)
    {
        uint32_t kept = 0;
        for (size_t k = 0; k < UNIT486_LINES; ++k) {
            if (before.tags[k] == after.tags[k] && before.valid[k] == after.valid[k])
                continue;
            ++kept;
            note(line_replaced, before.valid[k]);
        }
        note(fill_kept, kept);
        return kept;
    }

    void note_access(const unit486_directory &before, const Call &call)
    {
        if (call.address % 16 + call.width > 16)
            note(access_across_lines);
        if (!before.cd && before.nw)
            note(access_under_cd_0_nw_1);
    }

    void note_read(
        const unit486_directory &before, const Call &call, const unit486_result &result, const Side &side)
    {
        note_access(before, call);
        const Groups groups = note_records(result, side);
        const uint32_t hits = doublewords_of(call) - groups.plain - groups.fills;
        const uint32_t kept = groups.fills ? note_kept_fills(before, side.directory) : 0;
        note(read_hit, hits);
        note(plain_read, groups.plain);
        note(fill_dropped, groups.fills - kept);
        if (before.cd || call.pcd)
            note(read_hit_under_cd_or_pcd, hits);
        if (call.address % 16 + call.width > 16)
            return;
        if (groups.fills == 1 && hits > 0)
            note(upper_hits_line_just_filled);
        if (groups.fills > 1)
            note(upper_fills_after_dropped_fill);
    }

    void note_write(
        const unit486_directory &before, const Call &call, const unit486_result &result, const Side &side)
    {
        note_access(before, call);
        const uint32_t doublewords = doublewords_of(call);
        uint32_t held = 0;
        for (uint32_t k = 0; k < doublewords; ++k)
            held += is_held(before, lowest_doubleword(call) + 4 * k);
        const uint32_t inside = doublewords - note_records(result, side).plain;
        note(write_hit_inside, inside);
        note(write_hit_through, held - inside);
        note(write_miss, doublewords - held);
        if (inside > 0 && inside < doublewords)
            note(write_hit_and_miss_inside);
    }
};
