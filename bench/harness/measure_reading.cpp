// Elements by rank (kind 1) and fresh seeks (kind 2) at random places of one list.
#include <algorithm>

#include "bench.hpp"
#include "families.hpp"

namespace {

// so many that the questions take about as long as the card's check, or longer
size_t enough_questions(const Bytes &card) { return std::clamp<size_t>(card.size() / 4, 4096, 1 << 19); }

// how many numbers follow an answer's count where there is a page: of kind 1 the page, of kind 2 its rank as well
constexpr uint32_t found_by_rank = 1, found_by_bound = 2;

// the pages of answers that have so many numbers where there is a page, no_page where there is none
template <uint32_t found> List pages_of(const List &answers) {
    List pages;
    for (size_t i = 0; i < answers.size(); i += 1 + answers[i]) {
        pages.push_back(answers[i] == found ? answers[i + 1] : no_page);
    }
    return pages;
}

Questions questions_of(uint32_t kind, const List &arguments) {
    Questions questions;
    for (uint32_t argument : arguments) questions.add(kind, {0, argument});
    return questions;
}

List random_numbers(Random &random, size_t count, uint32_t limit) {
    List numbers(count);
    for (uint32_t &number : numbers) number = random.below(limit);
    return numbers;
}

// the others have no check to stand out from, and some are slow
List first_some(const List &numbers) {
    return List(numbers.begin(), numbers.begin() + std::min<long>(static_cast<long>(numbers.size()), 1 << 16));
}

} // namespace

Reading time_reading(const Bench &bench, const std::vector<Side> &sides, const std::vector<Contender *> &contenders,
                     uint32_t u, const List &list) {
    for (Contender *contender : contenders) contender->take(u, {list});
    Random random(list.size());
    const size_t count = enough_questions(sides[0].card);
    const List ranks = random_numbers(random, count, static_cast<uint32_t>(list.size()));
    const List bounds = random_numbers(random, count, u);
    const List some_ranks = first_some(ranks), some_bounds = first_some(bounds);
    const size_t some = some_ranks.size();

    std::vector<Other> by_rank, by_bound;
    for (Contender *c : contenders) {
        by_rank.push_back({c->name(), some, [&, c](uint32_t *to) { return c->at_ranks(0, some_ranks, to), some; }});
        by_bound.push_back({c->name(), some, [&, c](uint32_t *to) { return c->at_bounds(0, some_bounds, to), some; }});
    }
    Times rank = time_sides(bench, sides, questions_of(JF_KIND_RANK, ranks), by_rank, pages_of<found_by_rank>);
    Times seek = time_sides(bench, sides, questions_of(JF_KIND_BOUND, bounds), by_bound, pages_of<found_by_bound>);
    return {rank, seek};
}

void one_reading(Bench &bench, const std::string &family, uint32_t u, const List &list) {
    const Bytes card = card_of_lists(u, {list});
    std::vector<Contender *> contenders;
    for (const auto &contender : bench.contenders) contenders.push_back(contender.get());
    const Reading reading = time_reading(bench, both_engines(card), contenders, u, list);
    const std::string text = parameters({{"U", u}, {"n", list.size()}});
    bench.record.add({"element by rank", family, text, "question", 0, reading.by_rank});
    bench.record.add({"fresh seek", family, text, "question", 0, reading.by_bound});
}

void measure_reading(Bench &bench) {
    for (uint32_t u : {small_u, large_u}) {
        if (bench.quick && u == large_u) continue;
        for (const Family &family : list_families()) {
            Random random(u);
            one_reading(bench, family.name, u, family.make(random, u));
        }
    }
}
