// A race: each repetition runs every entrant once, in turn, and an entrant's smallest time counts.
#pragma once

#include <functional>
#include <string>
#include <vector>

// how long a race may take, and how often each entrant runs at least and at most
struct Pace {
    double seconds;
    int fewest;
    int most;
};

// The thread's own time of work, which leaves out what other processes take of the core, or the time of day.
enum class Clock { own_work, time_of_day };

class Race {
  public:
    explicit Race(Clock kind = Clock::own_work) : kind_(kind) {}

    void enter(const std::string &name, std::function<void()> work);

    // runs all entrants once untimed, then in turn until the pace's time is over
    void run(const Pace &pace);

    // the smallest time of the entrant, in nanoseconds
    double smallest(const std::string &name) const;

    // the median over all turns of what the entrant took beyond another, in nanoseconds
    double median_beyond(const std::string &name, const std::string &other) const;

  private:
    struct Entrant {
        std::string name;
        std::function<void()> work;
        std::vector<double> times;
    };
    const Entrant &entrant(const std::string &name) const;

    Clock kind_;
    std::vector<Entrant> entrants_;
};
