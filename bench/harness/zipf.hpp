// Draws word numbers as often as they stand in a text: word i in proportion to 1 / (i + 1).
#pragma once

#include <algorithm>
#include <vector>

#include "random.hpp"

class Zipf {
  public:
    explicit Zipf(uint32_t words) {
        double sum = 0;
        for (uint32_t i = 0; i < words; i++) sums_.push_back(sum += 1.0 / (i + 1));
    }

    uint32_t draw(Random &random) const {
        const double at = random.unit() * sums_.back();
        return static_cast<uint32_t>(std::upper_bound(sums_.begin(), sums_.end(), at) - sums_.begin());
    }

  private:
    std::vector<double> sums_;
};
