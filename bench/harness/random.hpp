// A small random generator with a fixed seed, so that every run measures the same lists and questions.
#pragma once

#include <cstdint>

class Random {
  public:
    explicit Random(uint64_t seed) : state_(seed) {}

    // splitmix64
    uint64_t next() {
        uint64_t z = (state_ += 0x9E3779B97F4A7C15u);
        z = (z ^ (z >> 30)) * 0xBF58476D1CE4E5B9u;
        z = (z ^ (z >> 27)) * 0x94D049BB133111EBu;
        return z ^ (z >> 31);
    }

    // a number below the limit, which is at least 1
    uint32_t below(uint32_t limit) { return static_cast<uint32_t>((next() >> 32) * limit >> 32); }

    // a number from 0 up to 1, 1 not included
    double unit() { return static_cast<double>(next() >> 11) * 0x1p-53; }

    bool chance(double likelihood) { return unit() < likelihood; }

  private:
    uint64_t state_;
};
