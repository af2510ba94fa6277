// Words and cards, made by the calls that are measured, and the questions asked of them.
#pragma once

#include <cstdint>
#include <vector>

#include "engine.hpp"
#include "lists.hpp"

using Bytes = std::vector<uint8_t>;

// one word of a manual: its pages, the count of positions on each, and the positions, page after page
struct Word {
    List pages;
    List counts;
    List positions;
};

// the word that stands once on each of these pages, at its start
Word plain_word(List pages);

// the block of a word; the run ends if the engine refuses it
Bytes term_block(const Engine &engine, uint32_t n, const Word &word, uint32_t edition = first_edition);

// the block of a list below u
Bytes list_block(const Engine &engine, uint32_t u, const List &list);

// the card of these words, the same bytes from both engines
Bytes make_card(uint32_t n, const std::vector<Word> &words, uint32_t edition = first_edition);

// the card whose words stand once on each page of a list
Bytes card_of_lists(uint32_t n, const std::vector<List> &lists, uint32_t edition = first_edition);

// questions in the form that a run takes, how many there are, and the most that an answer could take
struct Questions {
    List numbers;
    size_t count = 0;
    size_t most = 3;

    void add(uint32_t kind, const List &arguments);
};

// numbers of room for the answers to these questions, and behind them for the most that one more could take, so that
// no engine has reason to count pages before it lists them
size_t room_for(const Bytes &card, const Questions &questions);
