#include "bench.hpp"

#include <algorithm>

#include "require.hpp"

namespace {

jf_asked ask(const Side &side, const Questions &questions, List &room) {
    return side.engine.ask(side.card.data(), side.card.size(), questions.numbers.data(), questions.numbers.size(),
                           room.data(), room.size());
}

// the room of each side, zeroed beforehand, of the size that the answers need
using Rooms = std::vector<List>;

List essence_in(const List &room, const Questions &questions, Essence essence) {
    return essence(List(room.begin(), room.end() - static_cast<long>(questions.most)));
}

// all sides give the same report, and the same numbers or essence as the first; returns their rooms
Rooms compared(const std::vector<Side> &sides, const Questions &questions, Essence essence) {
    Rooms rooms(sides.size(), List(room_for(sides[0].card, questions)));
    const jf_asked first = ask(sides[0], questions, rooms[0]);
    require(first.answered == questions.count, "not all questions are answered");
    for (size_t s = 1; s < sides.size(); s++) {
        const jf_asked asked = ask(sides[s], questions, rooms[s]);
        require(asked.refusal == first.refusal && asked.answered == first.answered && asked.used == first.used,
                "%s and %s report differently", sides[0].name.c_str(), sides[s].name.c_str());
        const bool same = sides[s].has_other_looks ? essence_in(rooms[s], questions, essence) ==
                                                         essence_in(rooms[0], questions, essence)
                                                   : rooms[s] == rooms[0];
        require(same, "%s and %s answer differently", sides[0].name.c_str(), sides[s].name.c_str());
    }
    return rooms;
}

void compare(const Other &other, const Questions &questions, const List &expected, uint32_t *room) {
    const size_t found = other.answer(room);
    const bool whole = other.count < questions.count || found == expected.size();
    require(whole && found <= expected.size() && std::equal(room, room + found, expected.begin()),
            "archive and %s answer differently", other.name.c_str());
}

std::string with_none(const Side &side) { return side.name + ", no question"; }

List nothing(const List &) { return {}; }

} // namespace

Times time_sides(const Bench &bench, const std::vector<Side> &sides, const Questions &questions,
                 const std::vector<Other> &others, Essence essence) {
    Rooms rooms = compared(sides, questions, essence);
    List room(rooms[0].size());
    const List expected = essence_in(rooms[0], questions, essence);
    for (const Other &other : others) compare(other, questions, expected, room.data());

    Race race;
    const Questions none;
    for (size_t s = 0; s < sides.size(); s++) {
        const Side &side = sides[s];
        List &answers = rooms[s];
        race.enter(side.name, [&] { ask(side, questions, answers); });
        race.enter(with_none(side), [&] { ask(side, none, answers); });
    }
    for (const Other &other : others) race.enter(other.name, [&] { other.answer(room.data()); });
    race.run(bench.pace);

    Times times;
    const double count = static_cast<double>(questions.count);
    for (const Side &side : sides) {
        const double asking = race.smallest(side.name) - race.smallest(with_none(side));
        times.push_back({side.name, asking / count});
    }
    for (const Other &other : others) {
        times.push_back({other.name, race.smallest(other.name) / static_cast<double>(other.count)});
    }
    return times;
}

std::vector<Side> both_engines(const Bytes &card) {
    return {{archive.name, archive, card}, {peer.name, peer, card}};
}

Times time_questions(const Bench &bench, const Bytes &card, const Questions &questions,
                     const std::vector<Other> &others, Essence essence) {
    return time_sides(bench, both_engines(card), questions, others, essence);
}

Times time_runs(const Bench &bench, const Bytes &card, const Questions &questions) {
    const std::vector<Side> sides = both_engines(card);
    Rooms rooms = compared(sides, questions, nothing);
    Race race;
    for (size_t s = 0; s < sides.size(); s++) {
        race.enter(sides[s].name, [&, s] { ask(sides[s], questions, rooms[s]); });
    }
    race.run(bench.pace);
    return {{archive.name, race.smallest(archive.name)}, {peer.name, race.smallest(peer.name)}};
}

std::string parameters(std::initializer_list<std::pair<const char *, size_t>> pairs) {
    std::string text;
    for (const auto &[name, value] : pairs) {
        text += (text.empty() ? "" : " ") + std::string(name) + "=" + std::to_string(value);
    }
    return text;
}
