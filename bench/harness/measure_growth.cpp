// Sweeps: how the cost of an operation grows with n, U, T and k.
#include "bench.hpp"
#include "families.hpp"

namespace {

void growth_with_n(Bench &bench) {
    for (uint32_t n = 1 << 6; n <= 1 << 20; n *= bench.quick ? 16 : 4) {
        Random random(n);
        const List list = of_length(random, large_u, n);
        one_list(bench, "growth with n", large_u, list);
        one_reading(bench, "growth with n", large_u, list);
    }
}

void growth_with_u(Bench &bench) {
    for (uint32_t u = 1 << 13; u <= large_u; u *= bench.quick ? 32 : 4) {
        Random random(u);
        const List list = of_length(random, u, 1 << 12);
        one_list(bench, "growth with U", u, list);
        one_reading(bench, "growth with U", u, list);
    }
}

void growth_with_t(Bench &bench) {
    for (uint32_t t = 1; t <= JF_MAX_T; t *= bench.quick ? 16 : 4) one_lookup(bench, "growth with T", t);
}

void growth_with_k(Bench &bench) {
    const MakeGroup make = [](Random &random, uint32_t u, uint32_t k) {
        const List base = scattered(random, u, 1.0 / 64);
        std::vector<List> lists;
        for (uint32_t i = 0; i < k; i++) lists.push_back(noisy_part(random, u, base, 0.8, 1.0 / 640));
        return lists;
    };
    for (uint32_t k = 1; k <= JF_MAX_WORDS; k++) one_common(bench, "growth with k", small_u, k, make);
}

} // namespace

void measure_growth(Bench &bench) {
    growth_with_n(bench);
    growth_with_u(bench);
    growth_with_t(bench);
    growth_with_k(bench);
}
