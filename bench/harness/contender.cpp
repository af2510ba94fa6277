#include "contender.hpp"

std::vector<std::unique_ptr<Contender>> make_contenders() {
    std::vector<std::unique_ptr<Contender>> all;
#ifdef BENCH_SDSL
    all.push_back(make_sdsl());
#endif
#ifdef BENCH_ROARING
    all.push_back(make_roaring());
#endif
    all.push_back(make_galloping());
    return all;
}
