// The unit in plain C++, written from documents 01 and 02 for speed: what the library is compared with and
// measured against. It changes the directory and the buffers in place, by the same rules and numbers.
#pragma once

#include "directory.h"
#include "unit486.h"

namespace baseline {

void reset(Directory &directory);
uint32_t control(Directory &directory, bool cd, bool nw);
void flush(Directory &directory);
uint32_t set_ranges(Directory &directory, size_t ram_length, const uint32_t *words, size_t count);
uint32_t snoop(Directory &directory, uint32_t address);

unit486_result read(Directory &directory, unit486_buffers &lent, uint32_t address, uint32_t width, bool pcd,
    const uint8_t *answers, size_t answers_length, uint32_t *log, size_t log_length);
unit486_result read_carrying(Directory &directory, unit486_buffers &lent, uint32_t address, uint32_t width,
    bool pcd, const uint8_t *answers, size_t answers_length, uint32_t *log, size_t log_length,
    const unit486_carried_writes &carried);
unit486_result write(Directory &directory, unit486_buffers &lent, uint32_t address, uint32_t width,
    uint64_t value, const uint8_t *answers, size_t answers_length, uint32_t *log, size_t log_length);
uint32_t external_write(
    Directory &directory, unit486_buffers &lent, uint32_t address, const uint8_t *bytes, size_t count);

uint32_t view_number(const Directory &directory, const unit486_buffers &lent, uint32_t address);
uint32_t view(const Directory &directory, const unit486_buffers &lent, uint32_t address, uint8_t *shown);

uint32_t test_write(Directory &directory, unit486_buffers &lent, uint32_t set, uint32_t way, uint32_t tag,
    bool mark, const uint8_t *bytes);
unit486_test_line test_read(
    const Directory &directory, const unit486_buffers &lent, uint32_t set, uint32_t way);

void block_answers(uint8_t *table);
uint32_t load_table(uint8_t *table, const uint8_t *text, size_t length);
void board_answers(const uint8_t *table, uint32_t address, uint32_t width, uint8_t *answers);

// The event program: puts as much of the output as fits, answers its whole length.
size_t run(
    const uint8_t *table, const uint8_t *input, size_t input_length, uint8_t *output, size_t output_length);

} // namespace baseline
