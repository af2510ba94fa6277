// Groups of lists, and the questions for the pages that the lists of a group share (kind 3).
#pragma once

#include <functional>
#include <vector>

#include "cards.hpp"

// makes the k lists of one question
using MakeGroup = std::function<std::vector<List>(Random &, uint32_t u, uint32_t k)>;

// each number with this likelihood in each list, one apart from the other
MakeGroup independent(double density);

// the lists of a card, and the words of each question on it
struct Groups {
    std::vector<List> lists;
    std::vector<List> words;
};

// several groups of lists where they are short, so that a run is not one question learnt by heart
Groups make_groups(uint32_t u, uint32_t k, const MakeGroup &make);

// so many rounds of the questions, one for each group
Questions repeated(const Groups &groups, size_t rounds);

// the seeks that these questions report
double seeks_of(const Bytes &card, const Questions &questions);

// so many rounds that the questions take about as long as the card's check, or longer
size_t enough_rounds(const Bytes &card, double seeks);

// of answers to kind 3: the pages alone
List common_pages(const List &answers);
