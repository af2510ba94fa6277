// sdsl's sd_vector: select for a rank, rank and select for a seek, and leapfrogging by them with the shortest lead.
#ifdef BENCH_SDSL
#include <algorithm>

#include <sdsl/sd_vector.hpp>

#include "contender.hpp"

namespace {

class SdList {
  public:
    SdList(uint32_t u, const List &list) : length_(list.size()) {
        sdsl::sd_vector_builder builder(u, list.size());
        for (uint32_t x : list) builder.set(x);
        bits_ = sdsl::sd_vector<>(builder);
        rank_ = sdsl::sd_vector<>::rank_1_type(&bits_);
        select_ = sdsl::sd_vector<>::select_1_type(&bits_);
    }
    SdList(const SdList &) = delete;
    SdList &operator=(const SdList &) = delete;

    size_t length() const { return length_; }

    uint32_t at_rank(uint32_t rank) const { return static_cast<uint32_t>(select_(rank + 1)); }

    uint32_t at_bound(uint32_t bound) const {
        if (bound >= bits_.size()) return no_page;
        const size_t rank = rank_(bound);
        return rank < length_ ? static_cast<uint32_t>(select_(rank + 1)) : no_page;
    }

  private:
    size_t length_;
    sdsl::sd_vector<> bits_;
    sdsl::sd_vector<>::rank_1_type rank_;
    sdsl::sd_vector<>::select_1_type select_;
};

class Sdsl final : public Contender {
  public:
    const char *name() const override { return "sdsl"; }

    void take(uint32_t u, const std::vector<List> &lists) override {
        lists_.clear();
        for (const List &list : lists) lists_.push_back(std::make_unique<SdList>(u, list));
    }

    void at_ranks(uint32_t list, const List &ranks, uint32_t *pages) const override {
        const SdList &numbers = *lists_[list];
        for (uint32_t rank : ranks) *pages++ = numbers.at_rank(rank);
    }

    void at_bounds(uint32_t list, const List &bounds, uint32_t *pages) const override {
        const SdList &numbers = *lists_[list];
        for (uint32_t bound : bounds) *pages++ = numbers.at_bound(bound);
    }

    size_t common(const List &words, uint32_t *pages) const override {
        std::vector<const SdList *> lists;
        for (uint32_t word : words) lists.push_back(lists_[word].get());
        const auto shorter = [](const SdList *a, const SdList *b) { return a->length() < b->length(); };
        std::iter_swap(lists.begin(), std::min_element(lists.begin(), lists.end(), shorter));
        uint32_t *out = pages;
        uint32_t page = lists[0]->at_bound(0);
        while (page != no_page) {
            uint32_t bound = page;
            for (size_t i = 1; i < lists.size() && bound == page; i++) bound = lists[i]->at_bound(page);
            if (bound == no_page) break;
            if (bound == page) *out++ = bound++;
            page = lists[0]->at_bound(bound);
        }
        return static_cast<size_t>(out - pages);
    }

  private:
    std::vector<std::unique_ptr<SdList>> lists_;
};

} // namespace

std::unique_ptr<Contender> make_sdsl() { return std::make_unique<Sdsl>(); }
#endif
