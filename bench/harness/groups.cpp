#include "groups.hpp"

#include <algorithm>
#include <utility>

namespace {

constexpr size_t most_groups = 4;
constexpr size_t most_elements = 1 << 20;

} // namespace

MakeGroup independent(double density) {
    return [density](Random &random, uint32_t u, uint32_t k) {
        std::vector<List> lists;
        for (uint32_t i = 0; i < k; i++) lists.push_back(scattered(random, u, density));
        return lists;
    };
}

Groups make_groups(uint32_t u, uint32_t k, const MakeGroup &make) {
    Random random(u + k);
    Groups groups;
    size_t elements = 0;
    while (groups.words.size() < most_groups && elements < most_elements) {
        List words;
        for (List &list : make(random, u, k)) {
            words.push_back(static_cast<uint32_t>(groups.lists.size()));
            elements += list.size();
            groups.lists.push_back(std::move(list));
        }
        for (uint32_t i = static_cast<uint32_t>(words.size()); i > 1; i--) {
            std::swap(words[i - 1], words[random.below(i)]);
        }
        groups.words.push_back(words);
    }
    return groups;
}

Questions repeated(const Groups &groups, size_t rounds) {
    Questions questions;
    for (size_t round = 0; round < rounds; round++) {
        for (const List &words : groups.words) questions.add(JF_KIND_COMMON, words);
    }
    for (const List &list : groups.lists) questions.most = std::max(questions.most, 3 + list.size());
    return questions;
}

double seeks_of(const Bytes &card, const Questions &questions) {
    List room(room_for(card, questions));
    const List &q = questions.numbers;
    const jf_asked asked = archive.ask(card.data(), card.size(), q.data(), q.size(), room.data(), room.size());
    double seeks = 0;
    for (size_t i = 0; i < asked.used; i += 1 + room[i]) seeks += room[i + 1];
    return seeks;
}

size_t enough_rounds(const Bytes &card, double seeks) {
    const double check_ns = 8.0 * static_cast<double>(card.size());
    return static_cast<size_t>(std::clamp(check_ns / (15.0 * seeks), 1.0, 2000.0));
}

List common_pages(const List &answers) {
    List pages;
    for (size_t i = 0; i < answers.size(); i += 1 + answers[i]) {
        pages.insert(pages.end(), answers.begin() + static_cast<long>(i) + 3,
                     answers.begin() + static_cast<long>(i + 1 + answers[i]));
    }
    return pages;
}
