// CRoaring: select for a rank, an iterator or rank and select for a seek, and `and` of the bitmaps, shortest first.
#ifdef BENCH_ROARING
#include <algorithm>

#include <roaring/roaring.h>

#include "contender.hpp"

namespace {

struct Free {
    void operator()(roaring_bitmap_t *bitmap) const { roaring_bitmap_free(bitmap); }
};
using Bitmap = std::unique_ptr<roaring_bitmap_t, Free>;

class Roaring final : public Contender {
  public:
    const char *name() const override { return "CRoaring"; }

    void take(uint32_t, const std::vector<List> &lists) override {
        bitmaps_.clear();
        for (const List &list : lists) {
            bitmaps_.emplace_back(roaring_bitmap_of_ptr(list.size(), list.data()));
            roaring_bitmap_run_optimize(bitmaps_.back().get());
        }
    }

    void at_ranks(uint32_t list, const List &ranks, uint32_t *pages) const override {
        const roaring_bitmap_t *bitmap = bitmaps_[list].get();
        for (uint32_t rank : ranks) roaring_bitmap_select(bitmap, rank, pages++);
    }

    void at_bounds(uint32_t list, const List &bounds, uint32_t *pages) const override {
        const roaring_bitmap_t *bitmap = bitmaps_[list].get();
        for (uint32_t bound : bounds) {
            roaring_uint32_iterator_t at;
            roaring_init_iterator(bitmap, &at);
            *pages++ = roaring_move_uint32_iterator_equalorlarger(&at, bound) ? at.current_value : no_page;
        }
    }

    size_t common(const List &words, uint32_t *pages) const override {
        std::vector<std::pair<uint64_t, const roaring_bitmap_t *>> rest;
        for (uint32_t word : words) {
            rest.push_back({roaring_bitmap_get_cardinality(bitmaps_[word].get()), bitmaps_[word].get()});
        }
        std::sort(rest.begin(), rest.end());
        Bitmap both(rest.size() == 1 ? roaring_bitmap_copy(rest[0].second)
                                     : roaring_bitmap_and(rest[0].second, rest[1].second));
        for (size_t i = 2; i < rest.size(); i++) roaring_bitmap_and_inplace(both.get(), rest[i].second);
        roaring_bitmap_to_uint32_array(both.get(), pages);
        return roaring_bitmap_get_cardinality(both.get());
    }

  private:
    std::vector<Bitmap> bitmaps_;
};

} // namespace

std::unique_ptr<Contender> make_roaring() { return std::make_unique<Roaring>(); }
#endif
