// Words and whole cards: written, checked and closed.
#include <algorithm>

#include "bench.hpp"
#include "require.hpp"

namespace {

// both engines' work on a whole card, the time for one card
Times race_both(const Bench &bench, const std::function<void(int)> &work) {
    Race race;
    for (int e : {0, 1}) race.enter(engines[e]->name, [&work, e] { work(e); });
    race.run(bench.pace);
    return {{archive.name, race.smallest(archive.name)}, {peer.name, race.smallest(peer.name)}};
}

struct Blocks {
    std::vector<Word> words;
    std::vector<Bytes> blocks;
    Bytes card;
};

Blocks make_blocks(uint32_t n, uint32_t t) {
    Random random(t);
    Blocks made;
    made.words = zipf_words(random, n, t, 40000);
    for (const Word &word : made.words) {
        made.blocks.push_back(term_block(archive, n, word));
        require(made.blocks.back() == term_block(peer, n, word), "archive and peer write different words");
    }
    made.card = make_card(n, made.words);
    return made;
}

void write_words(Bench &bench, uint32_t n, const Blocks &made, const std::string &text) {
    std::vector<Bytes> rooms[2];
    for (auto &engine_rooms : rooms) {
        for (const Word &w : made.words) engine_rooms.emplace_back(JF_TERM_ROOM(w.pages.size(), w.positions.size()));
    }
    const Times times = race_both(bench, [&](int e) {
        for (size_t i = 0; i < made.words.size(); i++) {
            const Word &w = made.words[i];
            engines[e]->write_term(first_edition, n, w.pages.data(), w.pages.size(), w.counts.data(), w.counts.size(),
                                   w.positions.data(), w.positions.size(), rooms[e][i].data(), rooms[e][i].size());
        }
    });
    bench.record.add({"write words", "whole card", text, "card", static_cast<double>(made.card.size()), times});
}

void check_words(Bench &bench, const Blocks &made, const std::string &text) {
    uint32_t refusals[2] = {0, 0};
    const Times times = race_both(bench, [&](int e) {
        for (const Bytes &block : made.blocks) {
            refusals[e] |= engines[e]->check_term(first_edition, block.data(), block.size());
        }
    });
    require(refusals[0] == JF_ACCEPTED && refusals[1] == JF_ACCEPTED, "a written word is refused");
    bench.record.add({"check words", "whole card", text, "card", static_cast<double>(made.card.size()), times});
}

void close_and_check(Bench &bench, uint32_t n, Blocks &made, const std::string &text) {
    const double bytes = static_cast<double>(made.card.size());
    const uint32_t t = static_cast<uint32_t>(made.words.size());
    Bytes buffers[2] = {made.card, made.card};
    uint32_t refusals[2] = {0, 0};
    const Times closing = race_both(bench, [&](int e) {
        Bytes &b = buffers[e];
        refusals[e] |= engines[e]->close_index(b.data(), b.size(), b.size(), first_edition, n, t).refusal;
    });
    bench.record.add({"close a card", "whole card", text, "card", bytes, closing});
    const Times checking = race_both(bench, [&](int e) {
        refusals[e] |= engines[e]->check_index(made.card.data(), made.card.size());
    });
    bench.record.add({"check a card", "whole card", text, "card", bytes, checking});
    require(refusals[0] == JF_ACCEPTED && refusals[1] == JF_ACCEPTED, "a card is refused");
    require(buffers[0] == made.card && buffers[1] == made.card, "closing again changes a card");
}

} // namespace

Word realistic_word(Random &random, uint32_t pages, uint32_t n) {
    Word word;
    word.pages = of_length(random, pages, n);
    for (size_t i = 0; i < word.pages.size(); i++) {
        const uint32_t count = 1 + random.below(4);
        word.counts.push_back(count);
        uint32_t position = random.below(60);
        for (uint32_t j = 0; j < count; j++, position += 1 + random.below(60)) word.positions.push_back(position);
    }
    return word;
}

std::vector<Word> zipf_words(Random &random, uint32_t n, uint32_t t, uint32_t most_pages) {
    std::vector<Word> words;
    for (uint32_t i = 0; i < t; i++) {
        words.push_back(realistic_word(random, n, std::max(8u, std::min(n / 2, most_pages / (i + 1)))));
    }
    return words;
}

void measure_cards(Bench &bench) {
    constexpr uint32_t n = 1 << 16;
    for (uint32_t t : {1u, 16u, 256u, 4096u}) {
        Blocks made = make_blocks(n, t);
        const std::string text = parameters({{"N", n}, {"T", t}, {"bytes", made.card.size()}});
        write_words(bench, n, made, text);
        check_words(bench, made, text);
        close_and_check(bench, n, made, text);
    }
}
