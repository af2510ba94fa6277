#include "plain_bitmap.hpp"

PlainBitmaps::PlainBitmaps(uint32_t u, const std::vector<List> &lists) : words_((u + 63) / 64) {
    for (const List &list : lists) {
        bits_.emplace_back(words_);
        for (uint32_t x : list) bits_.back()[x / 64] |= uint64_t{1} << (x % 64);
    }
}

size_t PlainBitmaps::common(const List &lists, uint32_t *pages) const {
    std::vector<const uint64_t *> rest;
    for (uint32_t list : lists) rest.push_back(bits_[list].data());
    uint32_t *out = pages;
    for (size_t k = 0; k < words_; k++) {
        uint64_t ones = rest[0][k];
        for (size_t i = 1; i < rest.size(); i++) ones &= rest[i][k];
        for (; ones != 0; ones &= ones - 1) {
            *out++ = static_cast<uint32_t>(64 * k) + static_cast<uint32_t>(__builtin_ctzll(ones));
        }
    }
    return static_cast<size_t>(out - pages);
}
