// All that calls are lent, twice: once for the library, once for the baseline.
#pragma once

#include <algorithm>
#include <cstring>
#include <string>
#include <vector>

#include "random.h"
#include "unit486.h"

// A buffer of which a part from its start is lent. The margin before it and the room after it are never
// lent, and are compared too: a store outside the lent part shows.
template <class T> class Lent {
public:
    size_t length = 0;

    T *start() { return all.data() + margin; }
    const T *start() const { return all.data() + margin; }
    size_t room() const { return all.size() - 2 * margin; }

    void make(size_t room, Random &random)
    {
        all.resize(room + 2 * margin);
        length = room;
        for (T &element : all)
            element = static_cast<T>(random.word());
    }

    // As long as these elements, and with them.
    template <class Elements> void make_of(const Elements &elements, Random &random)
    {
        make(elements.size(), random);
        std::copy(elements.begin(), elements.end(), start());
    }

    // The index of the first element that differs, counted from the lent start; empty if none does.
    std::string difference(const Lent &other) const
    {
        if (all.size() == other.all.size() &&
            std::memcmp(all.data(), other.all.data(), all.size() * sizeof(T)) == 0)
            return "";
        for (size_t k = 0; k < all.size(); ++k)
            if (all[k] != other.all[k])
                return "element " + std::to_string(static_cast<long>(k) - static_cast<long>(margin)) +
                       " of " + std::to_string(length) + ": library " + std::to_string(all[k]) +
                       ", baseline " + std::to_string(other.all[k]);
        return "lengths";
    }

private:
    static constexpr size_t margin = 32;
    std::vector<T> all;
};

struct Side {
    unit486_directory directory{};
    Lent<uint8_t> ram, parity, data, answers, table, bytes, shown;
    Lent<uint32_t> log, ranges; // ranges to be set, by start and length
    unit486_test_line line{};   // of the last test read

    unit486_buffers lent()
    {
        return {ram.start(), ram.length, parity.start(), parity.length, data.start(), data.length};
    }
};

inline std::string ranges_difference(const unit486_ranges &library, const unit486_ranges &baseline)
{
    if (library.count != baseline.count)
        return "count of ranges: library " + std::to_string(library.count) + ", baseline " +
               std::to_string(baseline.count);
    for (size_t k = 0; k < UNIT486_RANGES_MOST; ++k)
        if (std::memcmp(library.ranges + k, baseline.ranges + k, sizeof *library.ranges) != 0)
            return "range " + std::to_string(k);
    return "";
}

// The first difference of two directories. Between NW and the ranges is padding, which no rule names.
inline std::string directory_difference(const unit486_directory &library, const unit486_directory &baseline)
{
    if (std::memcmp(&library, &baseline, offsetof(unit486_directory, nw) + 1) == 0)
        return ranges_difference(library.ranges, baseline.ranges);
    for (size_t k = 0; k < UNIT486_LINES; ++k) {
        if (library.tags[k] != baseline.tags[k])
            return "tag " + std::to_string(k) + ": library " + std::to_string(library.tags[k]) +
                   ", baseline " + std::to_string(baseline.tags[k]);
        if (library.valid[k] != baseline.valid[k])
            return "valid mark " + std::to_string(k) + ": library " + std::to_string(library.valid[k]) +
                   ", baseline " + std::to_string(baseline.valid[k]);
    }
    for (size_t k = 0; k < UNIT486_SETS; ++k)
        if (library.lru[k] != baseline.lru[k])
            return "LRU number of set " + std::to_string(k) + ": library " + std::to_string(library.lru[k]) +
                   ", baseline " + std::to_string(baseline.lru[k]);
    return "CD or NW";
}

// The first difference of two test lines. What follows the bytes is padding.
inline std::string line_difference(const unit486_test_line &library, const unit486_test_line &baseline)
{
    if (std::memcmp(&library, &baseline, offsetof(unit486_test_line, bytes) + UNIT486_LINE_BYTES) == 0)
        return "";
    const struct {
        const char *name;
        uint32_t library, baseline;
    } fields[] = {{"number", library.number, baseline.number}, {"tag", library.tag, baseline.tag},
        {"valid mark", library.valid, baseline.valid}, {"LRU number", library.lru, baseline.lru}};
    for (const auto &field : fields)
        if (field.library != field.baseline)
            return std::string(field.name) + ": library " + std::to_string(field.library) + ", baseline " +
                   std::to_string(field.baseline);
    return "bytes";
}

struct Sides {
    Side library, baseline;

    // The same change on both sides, outside of any call.
    template <class Change> void both(Change change)
    {
        change(library);
        change(baseline);
    }

    std::string difference() const
    {
        const std::string found = directory_difference(library.directory, baseline.directory);
        if (!found.empty())
            return "directory, " + found;
        const struct {
            const char *name;
            Lent<uint8_t> Side::*buffer;
        } buffers[] = {{"RAM", &Side::ram}, {"parity array", &Side::parity}, {"data array", &Side::data},
            {"answers", &Side::answers}, {"block table", &Side::table}, {"bytes", &Side::bytes},
            {"view", &Side::shown}};
        for (const auto &[name, buffer] : buffers) {
            const std::string differs = (library.*buffer).difference(baseline.*buffer);
            if (!differs.empty())
                return std::string(name) + ", " + differs;
        }
        const std::string log = library.log.difference(baseline.log);
        if (!log.empty())
            return "log, " + log;
        const std::string ranges = library.ranges.difference(baseline.ranges);
        if (!ranges.empty())
            return "ranges to be set, " + ranges;
        const std::string line = line_difference(library.line, baseline.line);
        return line.empty() ? "" : "test line, " + line;
    }
};
