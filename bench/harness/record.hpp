// The results, one row a measurement and contender.
#pragma once

#include <cstdio>
#include <string>
#include <utility>
#include <vector>

// One thing measured, and each contender's nanoseconds for one unit of it.
struct Measurement {
    std::string operation;
    std::string family;
    std::string parameters;
    std::string unit;
    double bytes; // the bytes that one unit reads or writes; 0 where that says nothing
    std::vector<std::pair<std::string, double>> times; // the archive's is the first
};

class Record {
  public:
    explicit Record(const char *path);
    ~Record();
    Record(const Record &) = delete;
    Record &operator=(const Record &) = delete;

    void add(const Measurement &measurement);

  private:
    std::FILE *file_;
};
