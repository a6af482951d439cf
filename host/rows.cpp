// Holds the baseline to the model's stored rows: prints what crates/event_files, crates/replay and
// crates/table_files must print for the same files, so that the output can be compared with their file stdout.
//
//     rows events FILE..             each file's name, then the program's output for it
//     rows calls FILE..              each file's name, then the row of each line of the call script
//     rows tables EVENTS TABLE..     each table's name, then its loads, the board's answers and two runs over
//                                    the event file, with the table in force and with the one of the junk row
//
// The lines of a script, and what a row has, are described in oracle/scripts/script_unit.py. A file that
// cannot be read, and a line that is no script line, end the program with 2.
#include <algorithm>
#include <charconv>
#include <cinttypes>
#include <cstdio>
#include <cstdlib>
#include <cstring>
#include <fstream>
#include <iterator>
#include <limits>
#include <map>
#include <sstream>
#include <string>
#include <utility>
#include <vector>

#include "baseline/unit.h"

namespace {

using Bytes = std::vector<uint8_t>;

Bytes file_bytes(const std::string &name)
{
    std::ifstream file(name, std::ios::binary);
    return Bytes(std::istreambuf_iterator<char>(file), {});
}

// A block table: document 01's at first.
struct Table {
    uint8_t answers[UNIT486_BLOCKS];

    Table() { baseline::block_answers(answers); }
};

void print_run(const Table &table, const Bytes &input)
{
    Bytes output(UNIT486_OUTPUT_MOST);
    const size_t length =
        baseline::run(table.answers, input.data(), input.size(), output.data(), output.size());
    std::fwrite(output.data(), 1, length, stdout);
}

void print_events(const std::string &name) { print_run(Table(), file_bytes(name)); }

void print_load(const char *row, Table &table, const Bytes &text)
{
    const uint32_t number = baseline::load_table(table.answers, text.data(), text.size());
    std::printf("%s\t%" PRIu32, row, number);
    for (const uint8_t answer : table.answers)
        std::printf("\t%d", answer);
    std::printf("\n");
}

// An access in three doublewords, the first of them the block's last: the first and the last of each sixteen
// answers.
void print_blocks(const Table &table)
{
    for (uint32_t block = 0; block < UNIT486_BLOCKS; ++block) {
        uint8_t answers[UNIT486_ANSWERS];
        baseline::board_answers(table.answers, (block + 1) * 1048576 - 3, 8, answers);
        std::printf("board\t%" PRIu32, block);
        for (const size_t k : {0, 15, 16, 31, 32, 47})
            std::printf("\t%d", answers[k]);
        std::printf("\n");
    }
}

// A text loaded over the table in force, and over junk, which a refused load leaves.
void print_table(Table &in_force, const std::string &name, const Bytes &events)
{
    const Bytes text = file_bytes(name);
    print_load("load", in_force, text);
    Table junk;
    for (size_t block = 0; block < UNIT486_BLOCKS; ++block)
        junk.answers[block] = static_cast<uint8_t>(255 - block);
    print_load("junk", junk, text);
    print_blocks(in_force);
    print_run(in_force, events);
    print_run(junk, events);
}

uint32_t adler32(const void *start, size_t count)
{
    const uint8_t *bytes = static_cast<const uint8_t *>(start);
    uint32_t low = 1, high = 0;
    for (size_t k = 0; k < count; ++k) {
        low = (low + bytes[k]) % 65521;
        high = (high + low) % 65521;
    }
    return high << 16 | low;
}

// The upper eight bits of a linear congruential generator's states.
Bytes contents(uint32_t seed, size_t length)
{
    Bytes made(length);
    for (uint8_t &byte : made) {
        seed = seed * 1664525 + 1013904223;
        byte = static_cast<uint8_t>(seed >> 24);
    }
    return made;
}

// The log's words before a call, so that words which the call leaves alone show.
std::vector<uint32_t> fresh_log(size_t words)
{
    std::vector<uint32_t> made(words);
    for (size_t k = 0; k < words; ++k)
        made[k] = 0xC0DE0000 + static_cast<uint32_t>(k);
    return made;
}

// How many fields a letter has, at least and at most. R and W may come with no answers.
const std::map<char, std::pair<size_t, size_t>> field_counts{{'N', {6, 6}}, {'T', {2, 2}}, {'K', {2, 2}},
    {'L', {2, 2}}, {'M', {2, 2}}, {'P', {2, 2}}, {'R', {3, 4}}, {'W', {3, 4}}, {'r', {3, 3}}, {'w', {3, 3}},
    {'X', {1, 65}}, {'S', {1, 1}}, {'F', {0, 0}}, {'C', {2, 2}}, {'Z', {0, 0}}, {'V', {1, 1}}, {'B', {2, 2}},
    {'p', {20, 20}}, {'t', {2, 2}}, {'Q', {5, 81}}, {'G', {1, 17}}, {'O', {0, 32}}, {'g', {0, 0}}};

constexpr size_t answers_word = 4; // of R, W and Q, the letter being word 0
constexpr size_t value_word = 3;   // of W and w

bool is_digits(const std::string &field) { return field.find_first_not_of("0123456789") == field.npos; }

// A number of 32 bits in 10 digits at most, or one of 64 in 20.
template <class Number> bool is_number(const std::string &field)
{
    constexpr size_t most_digits = std::numeric_limits<Number>::digits10 + 1;
    const char *end = field.data() + field.size();
    Number number;
    const std::from_chars_result read = std::from_chars(field.data(), end, number);
    return field.size() <= most_digits && read.ec == std::errc{} && read.ptr == end;
}

// The writes that a Q carries, from its count on; whether all their fields are there and no others.
bool take_carried(std::istringstream &line, unit486_carried_writes &carried)
{
    line >> carried.count;
    for (uint32_t k = 0; k < carried.count && k < UNIT486_CARRIED_MOST; ++k) {
        line >> carried.cycles[k] >> carried.addresses[k] >> carried.lengths[k];
        for (uint32_t j = 0; j < carried.lengths[k] && j < UNIT486_LINE_BYTES; ++j) {
            uint32_t byte = 0;
            line >> byte;
            carried.bytes[k][j] = static_cast<uint8_t>(byte);
        }
    }
    return !line.fail() && line.eof();
}

bool has_carried_form(const std::string &text)
{
    std::istringstream line(text);
    std::string word;
    for (size_t k = 0; k <= answers_word; ++k)
        line >> word;
    unit486_carried_writes carried{};
    return take_carried(line, carried);
}

// A letter and its fields: numbers of 32 bits, but for a written value, which has 64, and for answers, which
// are a run of digits.
bool has_form(const std::string &text)
{
    std::istringstream line(text);
    std::vector<std::string> words{std::istream_iterator<std::string>(line), {}};
    if (words.empty() || words[0] != text.substr(0, 1))
        return false;
    const auto found = field_counts.find(text[0]);
    const size_t fields = words.size() - 1;
    if (found == field_counts.end() || fields < found->second.first || fields > found->second.second)
        return false;
    if (std::strchr("RWQ", text[0]) && fields >= answers_word) {
        if (!is_digits(words[answers_word]))
            return false;
        words.erase(words.begin() + answers_word);
    }
    if (std::strchr("Ww", text[0])) {
        if (!is_number<uint64_t>(words[value_word]))
            return false;
        words.erase(words.begin() + value_word);
    }
    return std::all_of(words.begin() + 1, words.end(), is_number<uint32_t>) &&
           (text[0] != 'Q' || has_carried_form(text));
}

// A unit with its log, on which the lines of a script are run.
struct ScriptUnit {
    baseline::Directory directory;
    Bytes ram, parity, data;
    std::vector<uint32_t> log;

    unit486_buffers lent()
    {
        return {ram.data(), ram.size(), parity.data(), parity.size(), data.data(), data.size()};
    }

    void start(std::istringstream &line)
    {
        size_t lengths[4] = {};
        uint32_t seeds[2] = {};
        line >> lengths[0] >> lengths[1] >> lengths[2] >> lengths[3] >> seeds[0] >> seeds[1];
        directory = baseline::Directory{};
        baseline::reset(directory);
        ram = contents(seeds[0], lengths[0]);
        data = contents(seeds[1], lengths[2]);
        parity.assign(lengths[1], 0);
        for (size_t k = 0; k < ram.size() && k / 4 < parity.size(); ++k)
            parity[k / 4] |= static_cast<uint8_t>(__builtin_parity(ram[k]) << k % 4);
        log = fresh_log(lengths[3]);
    }

    // Whether what a line stores has a place.
    bool has_place(const std::string &text) const
    {
        const size_t index = std::strtoull(text.c_str() + 1, nullptr, 10);
        switch (text[0]) {
        case 'T':
        case 'K': return index < UNIT486_LINES;
        case 'L': return index < UNIT486_SETS;
        case 'P': return index < parity.size();
        default: return true;
        }
    }

    void print_digests() const
    {
        // Up to NW; padding follows, and the ranges, which have a line of their own.
        std::printf("\t%08x", adler32(&directory, offsetof(unit486_directory, nw) + 1));
        for (const Bytes *bytes : {&ram, &parity, &data})
            std::printf("\t%08x", adler32(bytes->data(), bytes->size()));
        std::printf("\t%08x\n", adler32(log.data(), 4 * log.size()));
    }

    void store(char letter, std::istringstream &line)
    {
        uint32_t index = 0, value = 0;
        line >> index >> value;
        switch (letter) {
        case 'T': directory.tags[index] = value; break;
        case 'K': directory.valid[index] = value != 0; break;
        case 'L': directory.lru[index] = static_cast<uint8_t>(value); break;
        case 'M': directory.cd = index != 0, directory.nw = value != 0; break;
        default: parity[index] ^= static_cast<uint8_t>(value);
        }
    }

    // The count and words of a G; words that are not there are 0.
    void store_ranges(std::istringstream &line)
    {
        uint32_t words[1 + 2 * UNIT486_RANGES_MOST] = {};
        for (uint32_t &word : words)
            if (!(line >> word))
                break;
        static_assert(sizeof words == sizeof directory.ranges);
        std::memcpy(&directory.ranges, words, sizeof words);
    }

    void print_ranges() const
    {
        std::printf("g\t%08x\n", adler32(&directory.ranges, sizeof directory.ranges));
    }

    unit486_result access(char letter, std::istringstream &line)
    {
        uint32_t address = 0, width = 0;
        uint64_t third = 0; // PCD or the value
        std::string digits;
        line >> address >> width >> third >> digits;
        Bytes answers(digits.begin(), digits.end());
        for (uint8_t &answer : answers)
            answer = static_cast<uint8_t>(answer - '0');
        if (letter == 'r' || letter == 'w') {
            answers.resize(UNIT486_ANSWERS);
            baseline::board_answers(Table().answers, address, width, answers.data());
        }
        unit486_buffers buffers = lent();
        if (letter == 'Q') {
            unit486_carried_writes carried{};
            take_carried(line, carried);
            return baseline::read_carrying(directory, buffers, address, width, third != 0, answers.data(),
                answers.size(), log.data(), log.size(), carried);
        }
        if (letter == 'R' || letter == 'r')
            return baseline::read(directory, buffers, address, width, third != 0, answers.data(),
                answers.size(), log.data(), log.size());
        return baseline::write(directory, buffers, address, width, third, answers.data(), answers.size(),
            log.data(), log.size());
    }

    unit486_result call(char letter, std::istringstream &line)
    {
        if (std::strchr("RrWwQ", letter))
            return access(letter, line);
        const std::vector<uint32_t> fields{std::istream_iterator<uint32_t>(line), {}};
        switch (letter) {
        case 'X': {
            const Bytes bytes(fields.begin() + 1, fields.end());
            unit486_buffers buffers = lent();
            return {
                baseline::external_write(directory, buffers, fields[0], bytes.data(), bytes.size()), 0, 0};
        }
        case 'p': {
            const Bytes bytes(fields.begin() + 4, fields.end());
            unit486_buffers buffers = lent();
            return {baseline::test_write(
                        directory, buffers, fields[0], fields[1], fields[2], fields[3] == 1, bytes.data()),
                0, 0};
        }
        case 'O': return {baseline::set_ranges(directory, ram.size(), fields.data(), fields.size()), 0, 0};
        case 'S': return {baseline::snoop(directory, fields[0]), 0, 0};
        case 'C': return {baseline::control(directory, fields[0] != 0, fields[1] != 0), 0, 0};
        case 'F': baseline::flush(directory); return {UNIT486_DONE, 0, 0};
        default: baseline::reset(directory); return {UNIT486_DONE, 0, 0};
        }
    }

    void print_view(std::istringstream &line)
    {
        uint32_t address = 0;
        line >> address;
        uint8_t shown[UNIT486_LINE_BYTES];
        const uint32_t number = baseline::view(directory, lent(), address, shown);
        const size_t length = number == UNIT486_DONE ? sizeof shown : 0;
        std::printf("V\t%" PRIu32 "\t%zu\t", number, length);
        for (size_t k = 0; k < length; ++k)
            std::printf("%02x", shown[k]);
        print_digests();
    }

    void print_test_read(std::istringstream &line)
    {
        uint32_t set = 0, way = 0;
        line >> set >> way;
        const unit486_test_line read = baseline::test_read(directory, lent(), set, way);
        std::printf("t\t%" PRIu32 "\t%" PRIu32 "\t%d\t%d\t", read.number, read.tag, read.valid, read.lru);
        for (const uint8_t byte : read.bytes)
            std::printf("%02x", byte);
        print_digests();
    }

    void print_call(char letter, std::istringstream &line)
    {
        const unit486_result result = call(letter, line);
        std::printf(
            "%c\t%" PRIu32 "\t%" PRIu64 "\t%" PRIu32, letter, result.number, result.value, result.cycles);
        for (size_t k = 0; k < 3 * result.cycles; ++k)
            std::printf("\t%" PRIu32, log[k]);
        print_digests();
    }

    void run_line(const std::string &text)
    {
        std::istringstream line(text.substr(1));
        const char letter = text[0];
        if (std::strchr("TKLMP", letter))
            return store(letter, line);
        if (letter == 'G')
            return store_ranges(line);
        if (letter == 'g')
            return print_ranges();
        if (letter == 'B')
            return print_board(line);
        if (letter != 'N')
            log = fresh_log(log.size());
        if (letter == 'V')
            return print_view(line);
        if (letter == 't')
            return print_test_read(line);
        if (letter != 'N')
            return print_call(letter, line);
        start(line);
        std::printf("N");
        print_digests();
    }

    static void print_board(std::istringstream &line)
    {
        uint32_t address = 0, width = 0;
        line >> address >> width;
        uint8_t answers[UNIT486_ANSWERS];
        baseline::board_answers(Table().answers, address, width, answers);
        std::printf("B\t");
        for (const uint8_t answer : answers)
            std::printf("%d", answer);
        std::printf("\n");
    }
};

void print_calls(const std::string &name)
{
    ScriptUnit unit;
    std::ifstream file(name);
    size_t line_number = 0;
    for (std::string line; std::getline(file, line);) {
        ++line_number;
        // A script begins with a new unit.
        if (!has_form(line) || !unit.has_place(line) || (line_number == 1 && line[0] != 'N')) {
            std::fprintf(stderr, "rows: %s:%zu: no script line\n", name.c_str(), line_number);
            std::exit(2);
        }
        unit.run_line(line);
    }
}

void require_readable(const char *name)
{
    if (std::ifstream(name))
        return;
    std::fprintf(stderr, "rows: cannot read %s\n", name);
    std::exit(2);
}

} // namespace

int main(int argc, char **argv)
{
    const std::string mode = argc > 2 ? argv[1] : "";
    const bool tables = mode == "tables" && argc > 3;
    if (mode != "events" && mode != "calls" && !tables) {
        std::fprintf(stderr, "usage: rows events FILE.. | rows calls FILE.. | rows tables EVENTS TABLE..\n");
        return 2;
    }
    for (int k = 2; k < argc; ++k)
        require_readable(argv[k]);
    const Bytes events = tables ? file_bytes(argv[2]) : Bytes();
    Table in_force;
    for (int k = tables ? 3 : 2; k < argc; ++k) {
        const std::string name = argv[k];
        std::printf("%s\n", name.substr(name.rfind('/') + 1).c_str());
        if (tables)
            print_table(in_force, name, events);
        else
            mode == "events" ? print_events(name) : print_calls(name);
    }
}
