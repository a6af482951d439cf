// Two pieces of work, timed in turns.
#pragma once

#include <algorithm>
#include <chrono>
#include <vector>

constexpr int turns = 51;

inline double seconds_of(const std::chrono::steady_clock::time_point &start)
{
    return std::chrono::duration<double>(std::chrono::steady_clock::now() - start).count();
}

inline double median(std::vector<double> times)
{
    std::sort(times.begin(), times.end());
    return times[times.size() / 2];
}

// Median seconds of a turn of each side, and the median of the turns' ratios. The two halves of a turn
// are neighbours in time, so a slow moment slows both down.
struct Times {
    double library, baseline, ratio;
};

// Who is first alternates, and the first turn is not counted.
template <class First, class Second> Times time_both(First library, Second baseline)
{
    std::vector<double> times[2], ratios;
    for (int turn = 0; turn <= turns; ++turn) {
        double seconds[2] = {};
        for (const int side : {turn % 2, 1 - turn % 2}) {
            const auto start = std::chrono::steady_clock::now();
            side == 0 ? library() : baseline();
            seconds[side] = seconds_of(start);
        }
        if (turn == 0)
            continue;
        times[0].push_back(seconds[0]);
        times[1].push_back(seconds[1]);
        ratios.push_back(seconds[0] / seconds[1]);
    }
    return {median(times[0]), median(times[1]), median(ratios)};
}
