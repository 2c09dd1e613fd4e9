// Times in turns, so that other work on the machine counts little: wall clock, best of the rounds. A short pass goes once untimed before
// it is timed, so that every side is warm.
#ifndef TURNS_H
#define TURNS_H

#include <algorithm>
#include <chrono>
#include <cmath>
#include <functional>
#include <vector>

// Makes a call for each rota of a family, so many times over, and adds the answers up.
using Pass = std::function<unsigned long(unsigned times)>;

// Answers go here, so that no call is left out.
inline volatile unsigned long sink;

inline double wall()
{
    using namespace std::chrono;
    return duration<double, std::micro>(steady_clock::now().time_since_epoch()).count();
}

// The µs of one pass, of so many.
inline double clock_pass(const Pass &pass, unsigned times)
{
    const double start = wall();
    sink = pass(times);
    return (wall() - start) / times;
}

// A batch lasts at least so long, and a pass from so many µs on is long, as beside Rust.
const double BATCH = 60;
const double LONG = 2000;

// The µs of each pass. Rounds go on for so many µs, and are at least five.
inline std::vector<double> best_of_turns(const std::vector<Pass> &passes, double most)
{
    std::vector<double> best;
    std::vector<unsigned> times;
    for (const Pass &pass : passes) {
        sink = pass(1);
        best.push_back(clock_pass(pass, 1));
        times.push_back(static_cast<unsigned>(std::max(1.0, std::ceil(BATCH / best.back()))));
    }
    const double start = wall();
    for (int round = 0; round < 5 || wall() - start < most; round++) {
        for (size_t k = 0; k < passes.size(); k++) {
            if (best[k] < LONG) {
                sink = passes[k](1);
            }
            best[k] = std::min(best[k], clock_pass(passes[k], times[k]));
        }
    }
    return best;
}

#endif
