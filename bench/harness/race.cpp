#include "race.hpp"

#include <algorithm>
#include <time.h>
#include <utility>

#include "require.hpp"

namespace {

double read_clock(clockid_t clock) {
    timespec time;
    clock_gettime(clock, &time);
    return static_cast<double>(time.tv_sec) * 1e9 + static_cast<double>(time.tv_nsec);
}

} // namespace

void Race::enter(const std::string &name, std::function<void()> work) {
    entrants_.push_back({name, std::move(work), {}});
}

void Race::run(const Pace &pace) {
    const clockid_t clock = kind_ == Clock::own_work ? CLOCK_THREAD_CPUTIME_ID : CLOCK_MONOTONIC;
    for (Entrant &entrant : entrants_) {
        entrant.times.reserve(static_cast<size_t>(pace.most));
        entrant.work();
    }
    const double end = read_clock(CLOCK_MONOTONIC) + pace.seconds * 1e9;
    const auto in_time = [end] { return read_clock(CLOCK_MONOTONIC) < end; };
    for (int turn = 0; turn < pace.most && (turn < pace.fewest || in_time()); turn++) {
        for (Entrant &entrant : entrants_) {
            const double start = read_clock(clock);
            entrant.work();
            entrant.times.push_back(read_clock(clock) - start);
        }
    }
}

const Race::Entrant &Race::entrant(const std::string &name) const {
    const auto found =
        std::find_if(entrants_.begin(), entrants_.end(), [&](const Entrant &entrant) { return entrant.name == name; });
    require(found != entrants_.end(), "no entrant %s in the race", name.c_str());
    return *found;
}

double Race::smallest(const std::string &name) const {
    const std::vector<double> &times = entrant(name).times;
    return *std::min_element(times.begin(), times.end());
}

double Race::median_beyond(const std::string &name, const std::string &other) const {
    std::vector<double> beyond = entrant(name).times;
    const std::vector<double> &others = entrant(other).times;
    for (size_t turn = 0; turn < beyond.size(); turn++) beyond[turn] -= others[turn];
    const auto middle = beyond.begin() + static_cast<long>(beyond.size() / 2);
    std::nth_element(beyond.begin(), middle, beyond.end());
    return *middle;
}
