// What every group of measurements shares, and the groups.
#pragma once

#include <functional>
#include <memory>
#include <string>
#include <utility>
#include <vector>

#include "cards.hpp"
#include "contender.hpp"
#include "groups.hpp"
#include "race.hpp"
#include "record.hpp"

struct Bench {
    Record &record;
    std::vector<std::unique_ptr<Contender>> contenders;
    bool quick;
    Pace pace;
};

// the archive's own writer of whole lists, where words written in runs are measured
constexpr const char *whole_lists = "whole lists";

// the archive's own kind 3 for the same words, where screens are measured
constexpr const char *all_pages = "all pages";

// the archive on the same words in the first edition, where dense words are measured
constexpr const char *in_first_edition = "edition 1";

using Times = std::vector<std::pair<std::string, double>>;

// another contender's work on the first `count` questions of a run: it writes what it finds, and returns how much
struct Other {
    std::string name;
    size_t count;
    std::function<size_t(uint32_t *)> answer;
};

// the numbers of an archive's answers that the others give too
using Essence = List (*)(const List &answers);

// an engine and the card that it is asked about, in another edition than the first side's if its looks may be others
struct Side {
    std::string name;
    const Engine &engine;
    const Bytes &card;
    bool has_other_looks = false;
};

// the archive and the peer on one card
std::vector<Side> both_engines(const Bytes &card);

// Compares all answers, then times a run of the questions and a run of none: nanoseconds of one question.
Times time_sides(const Bench &bench, const std::vector<Side> &sides, const Questions &questions,
                 const std::vector<Other> &others, Essence essence);

// the same for both engines on one card
Times time_questions(const Bench &bench, const Bytes &card, const Questions &questions,
                     const std::vector<Other> &others, Essence essence);

// Compares the answers, then times whole runs, the card's check included.
Times time_runs(const Bench &bench, const Bytes &card, const Questions &questions);

// "U=1048576 n=65536" and the like
std::string parameters(std::initializer_list<std::pair<const char *, size_t>> pairs);

void measure_lists(Bench &bench);
void measure_reading(Bench &bench);
void measure_common(Bench &bench);
void measure_dense(Bench &bench);
void measure_screens(Bench &bench);
void measure_phrases(Bench &bench);
void measure_lookup(Bench &bench);
void measure_cards(Bench &bench);
void measure_streams(Bench &bench);
void measure_runs(Bench &bench);
void measure_program(Bench &bench, const char *folder);
void measure_growth(Bench &bench);

// one list written and checked
void one_list(Bench &bench, const std::string &family, uint32_t u, const List &list);

// elements by rank and fresh seeks on one list
void one_reading(Bench &bench, const std::string &family, uint32_t u, const List &list);

// the time of kind 1 and of kind 2 at random places of one list, which is word 0 of each side's card
struct Reading {
    Times by_rank, by_bound;
};
Reading time_reading(const Bench &bench, const std::vector<Side> &sides, const std::vector<Contender *> &contenders,
                     uint32_t u, const List &list);

// random words looked up on a card of t words
void one_lookup(Bench &bench, const std::string &family, uint32_t t);

// parts of one list of this density, with noise
MakeGroup correlated(double density);

// common pages of k words
void one_common(Bench &bench, const std::string &family, uint32_t u, uint32_t k, const MakeGroup &make);

// a word on n of a card's pages, with one to four positions on each
Word realistic_word(Random &random, uint32_t pages, uint32_t n);

// words as a manual has them: a few on most pages, most on a few
std::vector<Word> zipf_words(Random &random, uint32_t n, uint32_t t, uint32_t most_pages);
