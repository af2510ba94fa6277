// Looking a word up by its number, as kind 1 on short words at random.
#include <algorithm>

#include "bench.hpp"

namespace {

constexpr uint32_t pages_on_card = 4096;
constexpr uint32_t pages_of_word = 16;
constexpr size_t questions_asked = 8192;

List nothing(const List &) { return {}; }

} // namespace

void one_lookup(Bench &bench, const std::string &family, uint32_t t) {
    Random random(t);
    std::vector<List> lists;
    for (uint32_t i = 0; i < t; i++) lists.push_back(of_length(random, pages_on_card, pages_of_word));
    const Bytes card = card_of_lists(pages_on_card, lists);
    Questions questions;
    for (size_t i = 0; i < questions_asked; i++) {
        questions.add(JF_KIND_RANK, {random.below(t), random.below(pages_of_word)});
    }
    bench.record.add({"word lookup", family, parameters({{"T", t}}), "question", 0,
                      time_questions(bench, card, questions, {}, nothing)});
}

void measure_lookup(Bench &bench) {
    for (uint32_t t : {1u, 16u, 256u, 4096u}) one_lookup(bench, "short words", t);
}
