// What each side works on, and its calls.
#pragma once

#include <cstring>
#include <string>
#include <vector>

#include "baseline/unit.h"
#include "differential/random.h"
#include "unit486.h"

constexpr uint32_t ram_bytes = 65536;
constexpr uint32_t held_bytes = UNIT486_DATA_BYTES; // of RAM, from its start: 512 lines

// One side's state, and what its calls answered.
struct Side {
    unit486_directory directory{};
    std::vector<uint8_t> ram, parity, data;
    uint8_t answers[UNIT486_ANSWERS];
    uint32_t log[UNIT486_LOG_WORDS] = {};
    uint8_t shown[UNIT486_LINE_BYTES] = {};
    unit486_carried_writes carried = {};
    uint32_t number = UNIT486_DONE; // that each call is to answer
    uint64_t other_numbers = 0;
    uint64_t sum = 0;
    uint64_t cycles = 0;
    unit486_buffers lent;

    Side() : ram(ram_bytes), parity(ram_bytes / 4), data(UNIT486_DATA_BYTES)
    {
        lent = {ram.data(), ram.size(), parity.data(), parity.size(), data.data(), data.size()};
        Random random(486);
        for (uint32_t k = 0; k < ram_bytes; ++k) {
            ram[k] = random.byte();
            parity[k / 4] = static_cast<uint8_t>(parity[k / 4] | __builtin_parity(ram[k]) << k % 4);
        }
        baseline::reset(directory);
        baseline::control(directory, false, false);
        std::memset(answers, UNIT486_KEN, sizeof answers);
        for (uint32_t line = 0; line < held_bytes; line += UNIT486_LINE_BYTES)
            baseline::read(directory, lent, line, 4, false, answers, UNIT486_ANSWERS, log, UNIT486_LOG_WORDS);
    }

    Side(const Side &) = delete; // lent points into it
    Side &operator=(const Side &) = delete;

    void note(uint32_t answered) { other_numbers += answered != number; }

    void note(const unit486_result &result)
    {
        note(result.number);
        sum += result.value + log[2];
        cycles += result.cycles;
    }

    bool same_as(const Side &other) const
    {
        return sum == other.sum && cycles == other.cycles && ram == other.ram && parity == other.parity &&
               data == other.data &&
               std::memcmp(&directory, &other.directory, offsetof(unit486_directory, nw) + 1) == 0 &&
               std::memcmp(&directory.ranges, &other.directory.ranges, sizeof directory.ranges) == 0 &&
               std::memcmp(log, other.log, sizeof log) == 0 &&
               std::memcmp(shown, other.shown, sizeof shown) == 0;
    }
};

// The calls of each side under one name each.
struct Library {
    static unit486_result read(Side &side, uint32_t address, uint32_t width, bool pcd)
    {
        return unit486_read(&side.directory, &side.lent, address, width, pcd, side.answers, UNIT486_ANSWERS,
            side.log, UNIT486_LOG_WORDS);
    }
    static unit486_result read_carrying(Side &side, uint32_t address, uint32_t width)
    {
        return unit486_read_carrying(&side.directory, &side.lent, address, width, false, side.answers,
            UNIT486_ANSWERS, side.log, UNIT486_LOG_WORDS, &side.carried);
    }
    static unit486_result write(Side &side, uint32_t address, uint32_t width, uint64_t value)
    {
        return unit486_write(&side.directory, &side.lent, address, width, value, side.answers,
            UNIT486_ANSWERS, side.log, UNIT486_LOG_WORDS);
    }
    static uint32_t external_write(Side &side, uint32_t address, const uint8_t *bytes, size_t count)
    {
        return unit486_external_write(&side.directory, &side.lent, address, bytes, count);
    }
    static uint32_t view(Side &side, uint32_t address)
    {
        return unit486_view(&side.directory, &side.lent, address, side.shown);
    }
    static uint32_t snoop(Side &side, uint32_t address) { return unit486_snoop(&side.directory, address); }
    static uint32_t drop_line(Side &side, uint32_t address)
    {
        return unit486_drop_line(&side.directory, address);
    }
    static void flush(Side &side) { unit486_flush(&side.directory); }
    static void reset(Side &side) { unit486_reset(&side.directory); }
    static uint32_t control(Side &side, bool cd, bool nw) { return unit486_control(&side.directory, cd, nw); }
    static size_t run(const std::string &text, std::vector<uint8_t> &output)
    {
        uint8_t table[UNIT486_BLOCKS];
        unit486_block_answers(table);
        return unit486_run(
            table, reinterpret_cast<const uint8_t *>(text.data()), text.size(), output.data(), output.size());
    }
};

struct Baseline {
    static unit486_result read(Side &side, uint32_t address, uint32_t width, bool pcd)
    {
        return baseline::read(side.directory, side.lent, address, width, pcd, side.answers, UNIT486_ANSWERS,
            side.log, UNIT486_LOG_WORDS);
    }
    static unit486_result read_carrying(Side &side, uint32_t address, uint32_t width)
    {
        return baseline::read_carrying(side.directory, side.lent, address, width, false, side.answers,
            UNIT486_ANSWERS, side.log, UNIT486_LOG_WORDS, side.carried);
    }
    static unit486_result write(Side &side, uint32_t address, uint32_t width, uint64_t value)
    {
        return baseline::write(side.directory, side.lent, address, width, value, side.answers,
            UNIT486_ANSWERS, side.log, UNIT486_LOG_WORDS);
    }
    static uint32_t external_write(Side &side, uint32_t address, const uint8_t *bytes, size_t count)
    {
        return baseline::external_write(side.directory, side.lent, address, bytes, count);
    }
    static uint32_t view(Side &side, uint32_t address)
    {
        return baseline::view(side.directory, side.lent, address, side.shown);
    }
    static uint32_t snoop(Side &side, uint32_t address) { return baseline::snoop(side.directory, address); }
    static uint32_t drop_line(Side &side, uint32_t address)
    {
        return baseline::snoop(side.directory, address);
    }
    static void flush(Side &side) { baseline::flush(side.directory); }
    static void reset(Side &side) { baseline::reset(side.directory); }
    static uint32_t control(Side &side, bool cd, bool nw)
    {
        return baseline::control(side.directory, cd, nw);
    }
    static size_t run(const std::string &text, std::vector<uint8_t> &output)
    {
        uint8_t table[UNIT486_BLOCKS];
        baseline::block_answers(table);
        return baseline::run(
            table, reinterpret_cast<const uint8_t *>(text.data()), text.size(), output.data(), output.size());
    }
};
