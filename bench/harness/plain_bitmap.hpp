// Plain bitmaps: a bit for each number below U and nothing else; lists are crossed by `and` of whole words.
#pragma once

#include <cstddef>
#include <cstdint>
#include <vector>

#include "lists.hpp"

class PlainBitmaps {
  public:
    static constexpr const char *name = "plain bitmap";

    PlainBitmaps(uint32_t u, const std::vector<List> &lists);

    // the numbers that all these lists have; returns how many, the room is enough for the shortest list
    size_t common(const List &lists, uint32_t *pages) const;

  private:
    size_t words_;
    std::vector<std::vector<uint64_t>> bits_;
};
