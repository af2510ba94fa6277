#include "cards.hpp"

#include <utility>

#include "require.hpp"

namespace {

Bytes fill_card(const Engine &engine, uint32_t n, const std::vector<Word> &words, uint32_t edition) {
    size_t most = JF_CARD_HEADER;
    for (const Word &word : words) most += JF_TERM_ROOM(word.pages.size(), word.positions.size());
    Bytes buffer(most);
    size_t used = JF_CARD_HEADER;
    for (const Word &w : words) {
        const jf_written term = engine.write_term(edition, n, w.pages.data(), w.pages.size(), w.counts.data(),
                                                  w.counts.size(), w.positions.data(), w.positions.size(),
                                                  buffer.data() + used, buffer.size() - used);
        require(term.refusal == JF_ACCEPTED, "the %s refuses a word with %u", engine.name, term.refusal);
        used += term.length;
    }
    const jf_written card =
        engine.close_index(buffer.data(), buffer.size(), used, edition, n, static_cast<uint32_t>(words.size()));
    require(card.refusal == JF_ACCEPTED, "the %s refuses a card with %u", engine.name, card.refusal);
    buffer.resize(card.length);
    return buffer;
}

} // namespace

Word plain_word(List pages) {
    const size_t n = pages.size();
    return {std::move(pages), List(n, 1), List(n, 0)};
}

Bytes term_block(const Engine &engine, uint32_t n, const Word &w, uint32_t edition) {
    Bytes room(JF_TERM_ROOM(w.pages.size(), w.positions.size()));
    const jf_written term =
        engine.write_term(edition, n, w.pages.data(), w.pages.size(), w.counts.data(), w.counts.size(),
                          w.positions.data(), w.positions.size(), room.data(), room.size());
    require(term.refusal == JF_ACCEPTED, "the %s refuses a word with %u", engine.name, term.refusal);
    room.resize(term.length);
    return room;
}

Bytes list_block(const Engine &engine, uint32_t u, const List &list) {
    Bytes room(JF_LIST_ROOM(list.size()));
    const jf_written block = engine.write_list(u, list.data(), list.size(), room.data(), room.size());
    require(block.refusal == JF_ACCEPTED, "the %s refuses a list with %u", engine.name, block.refusal);
    room.resize(block.length);
    return room;
}

Bytes make_card(uint32_t n, const std::vector<Word> &words, uint32_t edition) {
    Bytes card = fill_card(archive, n, words, edition);
    require(card == fill_card(peer, n, words, edition), "archive and peer write different cards");
    return card;
}

Bytes card_of_lists(uint32_t n, const std::vector<List> &lists, uint32_t edition) {
    std::vector<Word> words;
    for (const List &list : lists) words.push_back(plain_word(list));
    return make_card(n, words, edition);
}

void Questions::add(uint32_t kind, const List &arguments) {
    numbers.push_back(kind);
    numbers.push_back(static_cast<uint32_t>(arguments.size()));
    numbers.insert(numbers.end(), arguments.begin(), arguments.end());
    count++;
}

size_t room_for(const Bytes &card, const Questions &questions) {
    const List &q = questions.numbers;
    List room(1 << 16);
    for (;;) {
        const jf_asked asked = archive.ask(card.data(), card.size(), q.data(), q.size(), room.data(), room.size());
        if (asked.refusal == JF_ACCEPTED) return asked.used + questions.most;
        require(asked.refusal == JF_ROOM, "the archive refuses a question with %u", asked.refusal);
        room.resize(2 * room.size());
    }
}
