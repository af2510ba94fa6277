// The lists that are measured: rising numbers below U, made from a seed.
#pragma once

#include <cstdint>
#include <vector>

#include "random.hpp"

using List = std::vector<uint32_t>;

// each number below u with this likelihood, one apart from the other
List scattered(Random &random, uint32_t u, double density);

// exactly n numbers below u, one apart from the other
List of_length(Random &random, uint32_t u, uint32_t n);

// runs of neighbours, of this mean length, with gaps between them that give the density
List clustered(Random &random, uint32_t u, double density, double mean_run);

// each number of the base with the likelihood `kept`, and as noise each number below u with the likelihood `noise`
List noisy_part(Random &random, uint32_t u, const List &base, double kept, double noise);

// runs at the same places as the starts given, three of four kept, each with ends of its own; of a run's numbers each
// stands with the likelihood `kept`
List shared_runs(Random &random, uint32_t u, const List &starts, uint32_t mean_run, double kept);
