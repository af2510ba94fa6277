// The libraries that hold lists in another form: what each can be asked, whole batches at a time.
#pragma once

#include <cstdint>
#include <memory>
#include <vector>

#include "lists.hpp"

constexpr uint32_t no_page = UINT32_MAX;

class Contender {
  public:
    virtual ~Contender() = default;

    virtual const char *name() const = 0;

    // whether building a list is work to be measured
    virtual bool builds() const { return true; }

    // holds these lists of numbers below u in its own form, and no others
    virtual void take(uint32_t u, const std::vector<List> &lists) = 0;

    // the numbers at these ranks of a list
    virtual void at_ranks(uint32_t list, const List &ranks, uint32_t *pages) const = 0;

    // the first numbers at or above these bounds in a list, no_page where there is none
    virtual void at_bounds(uint32_t list, const List &bounds, uint32_t *pages) const = 0;

    // the numbers that all these lists have; returns how many, the room is enough for the shortest list
    virtual size_t common(const List &lists, uint32_t *pages) const = 0;
};

// those that were there when the harness was compiled
std::vector<std::unique_ptr<Contender>> make_contenders();

std::unique_ptr<Contender> make_galloping();
std::unique_ptr<Contender> make_sdsl();
std::unique_ptr<Contender> make_roaring();
