// Pages common to 2, 4 and 8 words (kind 3), a question in all and one seek inside it, and the pages of one word.
#include <algorithm>
#include <cmath>

#include "bench.hpp"
#include "families.hpp"

namespace {

std::vector<Other> others_for(const Bench &bench, const std::vector<List> &words, size_t rounds) {
    std::vector<Other> others;
    for (const auto &contender : bench.contenders) {
        const Contender *c = contender.get();
        others.push_back({c->name(), words.size() * rounds, [c, &words, rounds](uint32_t *pages) {
                              size_t found = 0;
                              for (size_t round = 0; round < rounds; round++) {
                                  for (const List &group : words) found += c->common(group, pages + found);
                              }
                              return found;
                          }});
    }
    return others;
}

// lengths in steps of ten, up to a quarter of the pages
std::vector<List> skewed(Random &random, uint32_t u, uint32_t k) {
    std::vector<List> lists;
    double length = u / 1024.0;
    for (uint32_t i = 0; i < k; i++) {
        lists.push_back(of_length(random, u, static_cast<uint32_t>(std::min(length, u / 4.0))));
        length *= 10;
    }
    return lists;
}

// in the same chapters of some 200 pages, of which each word has these
MakeGroup in_chapters(double starts_density, double kept) {
    return [=](Random &random, uint32_t u, uint32_t k) {
        const List starts = scattered(random, u, starts_density);
        std::vector<List> lists;
        for (uint32_t i = 0; i < k; i++) lists.push_back(shared_runs(random, u, starts, 200, kept));
        return lists;
    };
}

struct CommonFamily {
    const char *name;
    uint32_t u;
    MakeGroup make;
};

std::vector<CommonFamily> common_families(bool quick) {
    std::vector<CommonFamily> families{{"skewed", small_u, skewed},
                                       {"correlated 1 in 16", small_u, correlated(1.0 / 16)},
                                       {"correlated 1 in 256", small_u, correlated(1.0 / 256)},
                                       {"independent 1 in 2", small_u, independent(1.0 / 2)},
                                       {"independent 1 in 16", small_u, independent(1.0 / 16)},
                                       {"independent 1 in 256", small_u, independent(1.0 / 256)},
                                       {"clustered runs", small_u, in_chapters(1.0 / 3200, 1)},
                                       {"clustered 1 in 3", small_u, in_chapters(1.0 / 3200, 1.0 / 3)}};
    if (quick) return families;
    families.push_back({"skewed", large_u, skewed});
    families.push_back({"correlated 1 in 256", large_u, correlated(1.0 / 256)});
    families.push_back({"independent 1 in 256", large_u, independent(1.0 / 256)});
    families.push_back({"independent 1 in 4096", large_u, independent(1.0 / 4096)});
    families.push_back({"clustered runs", large_u, in_chapters(1.0 / 25600, 1)});
    families.push_back({"clustered 1 in 3", large_u, in_chapters(1.0 / 25600, 1.0 / 3)});
    return families;
}

} // namespace

namespace {

struct TimedQuestion {
    Times times;
    double seeks;
};

// questions for the common pages of k words: the time and the seeks of one
TimedQuestion time_common(Bench &bench, uint32_t u, uint32_t k, const MakeGroup &make) {
    const Groups groups = make_groups(u, k, make);
    const Bytes card = card_of_lists(u, groups.lists);
    for (const auto &contender : bench.contenders) contender->take(u, groups.lists);
    const double seeks = seeks_of(card, repeated(groups, 1));
    const size_t rounds = enough_rounds(card, seeks);
    const Times times = time_questions(bench, card, repeated(groups, rounds),
                                       others_for(bench, groups.words, rounds), common_pages);
    return {times, seeks / static_cast<double>(groups.words.size())};
}

std::string common_parameters(uint32_t u, uint32_t k, double seeks) {
    return parameters({{"U", u}, {"k", k}, {"seeks", static_cast<size_t>(seeks)}});
}

// all pages of one word: each is the next one of the upper run
void one_word(Bench &bench, const Family &family, uint32_t u) {
    const TimedQuestion timed = time_common(
        bench, u, 1, [&](Random &random, uint32_t u, uint32_t) { return std::vector<List>{family.make(random, u)}; });
    bench.record.add(
        {"pages of one word", family.name, common_parameters(u, 1, timed.seeks), "question", 0, timed.times});
}

} // namespace

MakeGroup correlated(double density) {
    return [density](Random &random, uint32_t u, uint32_t k) {
        const List base = scattered(random, u, density);
        std::vector<List> lists;
        for (uint32_t i = 0; i < k; i++) lists.push_back(noisy_part(random, u, base, 0.8, density / 10));
        return lists;
    };
}

void one_common(Bench &bench, const std::string &family, uint32_t u, uint32_t k, const MakeGroup &make) {
    const TimedQuestion timed = time_common(bench, u, k, make);
    const std::string text = common_parameters(u, k, timed.seeks);
    bench.record.add({"common pages", family, text, "question", 0, timed.times});
    Times each;
    for (const Engine *engine : engines) each.push_back({engine->name, 0});
    for (size_t e = 0; e < each.size(); e++) each[e].second = timed.times[e].second / timed.seeks;
    bench.record.add({"seek in common pages", family, text, "seek", 0, each});
}

void measure_common(Bench &bench) {
    for (const CommonFamily &family : common_families(bench.quick)) {
        for (uint32_t k : {2u, 4u, 8u}) one_common(bench, family.name, family.u, k, family.make);
    }
    for (const Family &family : list_families()) one_word(bench, family, small_u);
}
