// A plant's own block table: loaded from a file over document 01's, then the event program with the table in
// force.
//
//     table_example TABLE EVENTS     the rows of EVENTS on standard output; on standard error the number of
//                                    the load, its text and TABLE
//
// Ends with 0 where the table was loaded; with 1 where it was refused, and the rows are those of document 01's;
// with 2 where a file cannot be read, or the library has another version than the header.
#include <cinttypes>
#include <cstdio>
#include <cstdlib>
#include <fstream>
#include <iterator>
#include <string>
#include <vector>

#include "unit486.h"

// A string: what it lends is not null even where the file is empty.
static std::string file_bytes(const char *name)
{
    std::ifstream file(name, std::ios::binary);
    if (!file) {
        std::fprintf(stderr, "table_example: cannot read %s\n", name);
        std::exit(2);
    }
    return std::string(std::istreambuf_iterator<char>(file), {});
}

static const uint8_t *lent(const std::string &bytes)
{
    return reinterpret_cast<const uint8_t *>(bytes.data());
}

int main(int argc, char **argv)
{
    if (argc != 3) {
        std::fprintf(stderr, "usage: table_example TABLE EVENTS\n");
        return 2;
    }
    if (unit486_version() != UNIT486_VERSION) {
        std::fprintf(stderr, "table_example: the library has another version than the header\n");
        return 2;
    }
    const std::string text = file_bytes(argv[1]), events = file_bytes(argv[2]);
    uint8_t table[UNIT486_BLOCKS];
    unit486_block_answers(table);
    const uint32_t number = unit486_load_table(table, lent(text), text.size());
    std::fprintf(stderr, "%" PRIu32 ", %s: %s\n", number, unit486_number_text(number), argv[1]);

    std::vector<uint8_t> rows(UNIT486_OUTPUT_MOST);
    const size_t length = unit486_run(table, lent(events), events.size(), rows.data(), rows.size());
    std::fwrite(rows.data(), 1, length, stdout);
    return number == UNIT486_DONE ? 0 : 1;
}
