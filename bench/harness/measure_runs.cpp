// Whole runs of 1, 10 and 1,000 mixed questions on one card, the card's check included.
#include <algorithm>

#include "bench.hpp"

namespace {

// kinds 1 to 4 in turn, on words drawn at random
Questions mixed(Random &random, uint32_t n, uint32_t t, size_t count) {
    Questions questions;
    questions.most = 1 + 2 * n;
    for (size_t i = 0; i < count; i++) {
        const uint32_t word = random.below(t), other = random.below(t);
        switch (i % 4) {
        case 0: questions.add(JF_KIND_COMMON, {word, other}); break;
        case 1: questions.add(JF_KIND_RANK, {word, random.below(8)}); break;
        case 2: questions.add(JF_KIND_BOUND, {word, random.below(n)}); break;
        default: questions.add(JF_KIND_PHRASE, {word, 0, other, 1}); break;
        }
    }
    return questions;
}

} // namespace

void measure_runs(Bench &bench) {
    struct Size {
        uint32_t n, t, most_pages;
    };
    for (const Size &size : {Size{2000, 120, 800}, Size{1 << 16, 256, 40000}}) {
        Random random(size.t);
        const Bytes card = make_card(size.n, zipf_words(random, size.n, size.t, size.most_pages));
        for (size_t count : {1, 10, 1000}) {
            const Questions questions = mixed(random, size.n, size.t, count);
            bench.record.add({"run of questions", card.size() < 100000 ? "small card" : "large card",
                              parameters({{"questions", count}, {"T", size.t}, {"bytes", card.size()}}), "run", 0,
                              time_runs(bench, card, questions)});
        }
    }
}
