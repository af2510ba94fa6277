#include "lists.hpp"

#include <algorithm>
#include <cmath>

namespace {

// how many trials of this likelihood fail before one succeeds
uint64_t failures(Random &random, double likelihood) {
    return static_cast<uint64_t>(std::log1p(-random.unit()) / std::log1p(-likelihood));
}

void sort_once(List &list) {
    std::sort(list.begin(), list.end());
    list.erase(std::unique(list.begin(), list.end()), list.end());
}

} // namespace

List scattered(Random &random, uint32_t u, double density) {
    List list;
    for (uint64_t x = failures(random, density); x < u; x += 1 + failures(random, density)) {
        list.push_back(static_cast<uint32_t>(x));
    }
    return list;
}

List of_length(Random &random, uint32_t u, uint32_t n) {
    std::vector<bool> taken(u);
    for (uint32_t left = n; left > 0;) {
        const uint32_t x = random.below(u);
        left -= !taken[x];
        taken[x] = true;
    }
    List list;
    for (uint32_t x = 0; x < u; x++) {
        if (taken[x]) list.push_back(x);
    }
    return list;
}

List clustered(Random &random, uint32_t u, double density, double mean_run) {
    List list;
    const double mean_gap = mean_run * (1 - density) / density;
    uint64_t x = failures(random, 1 / mean_gap);
    while (x < u) {
        const uint64_t end = std::min<uint64_t>(u, x + 1 + failures(random, 1 / mean_run));
        for (; x < end; x++) list.push_back(static_cast<uint32_t>(x));
        x += 1 + failures(random, 1 / mean_gap);
    }
    return list;
}

List noisy_part(Random &random, uint32_t u, const List &base, double kept, double noise) {
    List list = scattered(random, u, noise);
    for (uint32_t x : base) {
        if (random.chance(kept)) list.push_back(x);
    }
    sort_once(list);
    return list;
}

List shared_runs(Random &random, uint32_t u, const List &starts, uint32_t mean_run, double kept) {
    List list;
    for (uint32_t start : starts) {
        if (!random.chance(0.75)) continue;
        const uint32_t from = start + random.below(mean_run / 2);
        const uint32_t to = std::min(u, from + mean_run / 2 + random.below(mean_run));
        for (uint32_t x = from; x < to; x++) {
            if (random.chance(kept)) list.push_back(x);
        }
    }
    sort_once(list);
    return list;
}
