// The library and the baseline on the same seeded random calls. After each call every number, value and
// count, every lent byte and word, and the whole directory are compared.
//
//     differential [CALLS [SEED]]     at least so many calls; 2000000 and 1 if not given
//
// It ends with 1 at the first difference, and also where a number or a condition was never met; with 2
// where an argument is no number, or the library has another version than the header.
#include <cinttypes>
#include <cstdio>
#include <cstdlib>
#include <cstring>

#include "differential/series.h"

namespace {

// At most ten digits, so that no number is too large.
bool is_number(const char *word)
{
    const size_t digits = std::strspn(word, "0123456789");
    return digits > 0 && digits <= 10 && word[digits] == 0;
}

} // namespace

int main(int argc, char **argv)
{
    if (argc > 3 || (argc > 1 && !is_number(argv[1])) || (argc > 2 && !is_number(argv[2]))) {
        std::fprintf(stderr, "usage: differential [CALLS [SEED]]\n");
        return 2;
    }
    if (unit486_version() != UNIT486_VERSION) {
        std::fprintf(stderr, "differential: the library has another version than the header\n");
        return 2;
    }
    const uint64_t calls = argc > 1 ? std::strtoull(argv[1], nullptr, 10) : 2000000;
    const uint64_t seed = argc > 2 ? std::strtoull(argv[2], nullptr, 10) : 1;
    Coverage coverage;
    Series series(seed, coverage);
    series.large(200);
    series.test_limits();
    series.first_victims();
    series.operand_limits();
    series.operands();
    series.carried_limits();
    series.carrying();
    series.carrying_byte_fills();
    series.range_limits();
    series.kept_range_limits();
    series.range_edges();
    series.board();
    series.table_limits();
    while (coverage.calls < calls) {
        series.hot(3000);
        series.refused(1500);
        series.planted(1000);
        series.tables(50);
        series.events(100);
    }
    const bool met = coverage.report();
    std::printf("%" PRIu64 " calls, seed %" PRIu64 ": no difference\n", coverage.calls, seed);
    std::printf(met ? "PASS\n" : "FAIL: something was never met; some 400,000 calls meet everything\n");
    return met ? 0 : 1;
}
