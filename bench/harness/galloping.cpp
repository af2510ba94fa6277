// A plain sorted array: direct index, binary search, and a galloping intersection led by the shortest list.
#include <algorithm>

#include "contender.hpp"

namespace {

// the first place from `at` on whose number is at least the bound: doubling steps, then halving
const uint32_t *gallop(const uint32_t *at, const uint32_t *end, uint32_t bound) {
    if (at == end || *at >= bound) return at;
    size_t step = 1;
    while (static_cast<size_t>(end - at) > step && at[step] < bound) {
        at += step;
        step *= 2;
    }
    const uint32_t *limit = static_cast<size_t>(end - at) > step ? at + step : end;
    return std::lower_bound(at + 1, limit, bound);
}

class Galloping final : public Contender {
  public:
    const char *name() const override { return "galloping"; }

    bool builds() const override { return false; }

    void take(uint32_t, const std::vector<List> &lists) override { lists_ = lists; }

    void at_ranks(uint32_t list, const List &ranks, uint32_t *pages) const override {
        const List &numbers = lists_[list];
        for (uint32_t rank : ranks) *pages++ = numbers[rank];
    }

    void at_bounds(uint32_t list, const List &bounds, uint32_t *pages) const override {
        const List &numbers = lists_[list];
        for (uint32_t bound : bounds) {
            const auto found = std::lower_bound(numbers.begin(), numbers.end(), bound);
            *pages++ = found == numbers.end() ? no_page : *found;
        }
    }

    size_t common(const List &words, uint32_t *pages) const override {
        std::vector<std::pair<const uint32_t *, const uint32_t *>> rest;
        for (uint32_t word : words) rest.push_back({lists_[word].data(), lists_[word].data() + lists_[word].size()});
        std::sort(rest.begin(), rest.end(),
                  [](const auto &a, const auto &b) { return a.second - a.first < b.second - b.first; });
        uint32_t *out = pages;
        auto [at, end] = rest.front();
        while (at != end) {
            uint32_t bound = *at;
            for (size_t i = 1; i < rest.size() && bound == *at; i++) {
                rest[i].first = gallop(rest[i].first, rest[i].second, bound);
                if (rest[i].first == rest[i].second) return static_cast<size_t>(out - pages);
                bound = *rest[i].first;
            }
            if (bound == *at) *out++ = *at++;
            else at = gallop(at, end, bound);
        }
        return static_cast<size_t>(out - pages);
    }

  private:
    std::vector<List> lists_;
};

} // namespace

std::unique_ptr<Contender> make_galloping() { return std::make_unique<Galloping>(); }
