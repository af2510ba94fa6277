// The families of lists that single lists are measured on.
#pragma once

#include <functional>
#include <string>
#include <vector>

#include "lists.hpp"

struct Family {
    std::string name;
    std::function<List(Random &, uint32_t u)> make;
};

inline std::vector<Family> list_families() {
    const auto density = [](uint32_t one_in) {
        return [one_in](Random &random, uint32_t u) { return scattered(random, u, 1.0 / one_in); };
    };
    const auto runs = [](Random &random, uint32_t u) { return clustered(random, u, 1.0 / 16, 200); };
    // so dense that the format gives it no low parts
    const auto most = [](Random &random, uint32_t u) { return scattered(random, u, 3.0 / 4); };
    return {{"3 in 4", most},
            {"1 in 2", density(2)},
            {"1 in 16", density(16)},
            {"1 in 256", density(256)},
            {"1 in 4096", density(4096)},
            {"clustered", runs}};
}

constexpr uint32_t small_u = 1 << 20;
constexpr uint32_t large_u = 1 << 24;
