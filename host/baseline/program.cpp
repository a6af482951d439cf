// The event program: event lines in, rows out.
#include <charconv>
#include <cstring>
#include <limits>
#include <memory>

#include "fields.h"
#include "unit.h"

namespace baseline {

constexpr size_t ram_bytes = 65536;
constexpr size_t line_limit = 80;
constexpr size_t pairs_limit = line_limit / 2;

// An event: the letter of its line (0: malformed) and the fields that its letter has.
struct Event {
    char letter = 0;
    uint32_t address = 0;
    uint32_t width = 0;
    uint64_t value = 0;  // of a write
    bool first = false;  // PCD or CD
    bool second = false; // NW
    uint8_t bytes[pairs_limit];
    size_t count = 0; // of the bytes
};

// "R address width PCD; W address width value; X address bytes ...; S address; F; C CD NW; Z (reset)"
static bool fields_of(Scanner &scan, Event &event)
{
    switch (event.letter) {
    case 'R':
        return scan.tab() && scan.number(event.address) && scan.tab() && scan.number(event.width) &&
               scan.tab() && scan.bit(event.first);
    case 'W':
        return scan.tab() && scan.number(event.address) && scan.tab() && scan.number(event.width) &&
               scan.tab() && scan.value(event.value);
    case 'X':
        return scan.tab() && scan.number(event.address) && scan.tab() && scan.pairs(event.bytes, event.count);
    case 'S': return scan.tab() && scan.number(event.address);
    case 'C': return scan.tab() && scan.bit(event.first) && scan.tab() && scan.bit(event.second);
    case 'F':
    case 'Z': return true;
    default: return false;
    }
}

// "A malformed line, also an empty or overlong one"
static void scan_line(Scanner scan, Event &event)
{
    event.letter = 0;
    if (scan.done() || static_cast<size_t>(scan.end - scan.at) > line_limit)
        return;
    event.letter = static_cast<char>(*scan.at++);
    if (!fields_of(scan, event) || !scan.done())
        event.letter = 0;
}

// "The program has 65,536 zero RAM bytes, zero parity, a zero data array, a reset directory."
struct Unit {
    const uint8_t *table; // of the board
    Directory directory;
    uint8_t ram[ram_bytes];
    uint8_t parity[ram_bytes / 4];
    uint8_t data[UNIT486_DATA_BYTES];

    unit486_result access(const Event &event)
    {
        unit486_buffers lent{ram, sizeof ram, parity, sizeof parity, data, sizeof data};
        uint8_t answers[UNIT486_ANSWERS];
        uint32_t log[UNIT486_LOG_WORDS];
        board_answers(table, event.address, event.width, answers);
        if (event.letter == 'R')
            return read(directory, lent, event.address, event.width, event.first, answers, UNIT486_ANSWERS,
                log, UNIT486_LOG_WORDS);
        return write(directory, lent, event.address, event.width, event.value, answers, UNIT486_ANSWERS, log,
            UNIT486_LOG_WORDS);
    }

    uint32_t external(const Event &event)
    {
        unit486_buffers lent{ram, sizeof ram, parity, sizeof parity, data, sizeof data};
        return external_write(directory, lent, event.address, event.bytes, event.count);
    }

    unit486_result perform(const Event &event)
    {
        switch (event.letter) {
        case 'R':
        case 'W': return access(event);
        case 'X': return {external(event), 0, 0};
        case 'S': return {snoop(directory, event.address), 0, 0};
        case 'F': flush(directory); return {UNIT486_DONE, 0, 0};
        case 'C': return {control(directory, event.first, event.second), 0, 0};
        case 'Z': reset(directory); return {UNIT486_DONE, 0, 0};
        default: return {UNIT486_MALFORMED_LINE, 0, 0};
        }
    }
};

// Text into a buffer, as far as it goes, and the length of the whole text.
struct Text {
    uint8_t *to;
    size_t room;
    size_t length = 0;

    void put(const char *text, size_t count)
    {
        if (length < room)
            std::memcpy(to + length, text, count < room - length ? count : room - length);
        length += count;
    }

    // "event (line from 1), answer (0 = done), value, cycles. Each line gives one tab-parted row, ended
    // by a newline."
    void put_row(uint32_t event, const unit486_result &result)
    {
        char row[54];
        char *at = row;
        const auto put_field = [&](auto number, char end) {
            constexpr int most = std::numeric_limits<decltype(number)>::digits10 + 1;
            at = std::to_chars(at, at + most, number).ptr;
            *at++ = end;
        };
        put_field(event, '\t');
        put_field(result.number, '\t');
        put_field(result.value, '\t');
        put_field(result.cycles, '\n');
        put(row, static_cast<size_t>(at - row));
    }
};

// Document 02: "the run over event lines takes it", the table in force.
size_t run(
    const uint8_t *table, const uint8_t *input, size_t input_length, uint8_t *output, size_t output_length)
{
    static constexpr char header[] = "event\tanswer\tvalue\tcycles\n";
    Text text{output, output_length};
    text.put(header, sizeof header - 1);
    // "Number 12 prints the header and the one row 0, 12, 0, 0."
    if (input_length > UNIT486_INPUT_MOST) {
        text.put_row(0, {UNIT486_LONG_INPUT, 0, 0});
        return text.length;
    }
    const auto unit = std::make_unique<Unit>();
    unit->table = table;
    reset(unit->directory);
    TextLines lines{input, input + input_length};
    Event event;
    for (uint32_t row = 1; !lines.done(); ++row) {
        scan_line(lines.next(), event);
        text.put_row(row, unit->perform(event));
    }
    return text.length;
}

} // namespace baseline
