// Phrases (kind 4) on the card of a made-up manual, whose text is drawn word by word: whole, and with words dropped.
#include <algorithm>

#include "bench.hpp"
#include "zipf.hpp"

namespace {

constexpr uint32_t page_words = 400;

// a manual: the words of each page, one page after the other
struct Manual {
    uint32_t pages;
    uint32_t vocabulary;
    List text;
};

Manual make_manual(Random &random, uint32_t pages, uint32_t vocabulary) {
    Manual manual{pages, vocabulary, List(static_cast<size_t>(pages) * page_words)};
    const Zipf zipf(vocabulary);
    for (uint32_t &word : manual.text) word = zipf.draw(random);
    return manual;
}

std::vector<Word> words_of(const Manual &manual) {
    std::vector<Word> words(manual.vocabulary);
    for (size_t at = 0; at < manual.text.size(); at++) {
        Word &word = words[manual.text[at]];
        const uint32_t page = static_cast<uint32_t>(at / page_words);
        if (word.pages.empty() || word.pages.back() != page) {
            word.pages.push_back(page);
            word.counts.push_back(0);
        }
        word.counts.back()++;
        word.positions.push_back(static_cast<uint32_t>(at % page_words));
    }
    return words;
}

// phrases as they stand in the text, of the words at these offsets, none of which is among the first `passed` ones
Questions phrases_in(Random &random, const Manual &manual, const List &offsets, uint32_t passed) {
    const size_t count = passed ? 400 : 100;
    Questions questions;
    questions.most = 1 + 2 * manual.pages;
    while (questions.count < count) {
        const size_t at = random.below(static_cast<uint32_t>(manual.text.size() - offsets.back() - 1));
        uint32_t commonest = manual.vocabulary;
        List pairs;
        for (uint32_t offset : offsets) {
            const uint32_t word = manual.text[at + offset];
            commonest = std::min(commonest, word);
            pairs.insert(pairs.end(), {word, offset});
        }
        if (commonest >= passed) questions.add(JF_KIND_PHRASE, pairs);
    }
    return questions;
}

List nothing(const List &) { return {}; }

// the phrases measured: how they are recorded, and the offsets of 2 and of 4 words
struct Form {
    const char *operation;
    const char *any_words;
    const char *less_common_words;
    List offsets[2];
};

const Form whole = {"phrase", "any words of the text", "less common words", {{0, 1}, {0, 1, 2, 3}}};
const Form with_gaps = {
    "phrase with gaps", "any words with gaps", "less common with gaps", {{0, 2}, {0, 2, 3, 5}}};

void one_manual(Bench &bench, Random &random, const Manual &manual, const Bytes &card, const Form &form) {
    for (const List &offsets : form.offsets) {
        for (uint32_t passed : {0u, 30u}) {
            const Questions questions = phrases_in(random, manual, offsets, passed);
            bench.record.add(
                {form.operation, passed ? form.less_common_words : form.any_words,
                 parameters({{"N", manual.pages}, {"k", offsets.size()}, {"T", manual.vocabulary}}), "question", 0,
                 time_questions(bench, card, questions, {}, nothing)});
        }
    }
}

} // namespace

void measure_phrases(Bench &bench) {
    // the draws with gaps are apart, so that the manuals and the whole phrases are the same without them
    Random random(4), random_with_gaps(5);
    for (uint32_t pages : {500u, 4000u}) {
        const Manual manual = make_manual(random, pages, 2000);
        const Bytes card = make_card(pages, words_of(manual));
        one_manual(bench, random, manual, card, whole);
        one_manual(bench, random_with_gaps, manual, card, with_gaps);
    }
}
