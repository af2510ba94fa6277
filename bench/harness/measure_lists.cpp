// One list: written from numbers, and its block checked.
#include "bench.hpp"
#include "families.hpp"
#include "require.hpp"

namespace {

// how often a list is handled in one timed turn, so that a turn takes long enough for the clock
size_t rounds_for(const List &list) { return list.size() < 4096 ? 4096 / (list.size() + 1) + 1 : 1; }

void write_race(Bench &bench, const std::string &family, uint32_t u, const List &list, size_t bytes) {
    Race race;
    const size_t rounds = rounds_for(list);
    std::vector<Bytes> rooms(2, Bytes(JF_LIST_ROOM(list.size())));
    for (int e : {0, 1}) {
        Bytes &room = rooms[e];
        race.enter(engines[e]->name, [&, e] {
            for (size_t i = 0; i < rounds; i++) {
                engines[e]->write_list(u, list.data(), list.size(), room.data(), room.size());
            }
        });
    }
    const std::vector<List> one{list};
    for (const auto &contender : bench.contenders) {
        if (!contender->builds()) continue;
        race.enter(contender->name(), [&] {
            for (size_t i = 0; i < rounds; i++) contender->take(u, one);
        });
    }
    race.run(bench.pace);

    const double elements = static_cast<double>(rounds * list.size());
    Times times;
    for (const Engine *engine : engines) times.push_back({engine->name, race.smallest(engine->name) / elements});
    for (const auto &contender : bench.contenders) {
        if (contender->builds()) times.push_back({contender->name(), race.smallest(contender->name()) / elements});
    }
    bench.record.add({"write a list", family, parameters({{"U", u}, {"n", list.size()}}), "element",
                      static_cast<double>(bytes) / static_cast<double>(list.size()), times});
}

void check_race(Bench &bench, const std::string &family, uint32_t u, const List &list, const Bytes &block) {
    Race race;
    const size_t rounds = rounds_for(list);
    uint32_t refusals[2] = {0, 0};
    for (int e : {0, 1}) {
        race.enter(engines[e]->name, [&, e] {
            for (size_t i = 0; i < rounds; i++) refusals[e] |= engines[e]->check_list(block.data(), block.size());
        });
    }
    race.run(bench.pace);
    require(refusals[0] == JF_ACCEPTED && refusals[1] == JF_ACCEPTED, "a written list is refused");

    const double elements = static_cast<double>(rounds * list.size());
    Times times;
    for (const Engine *engine : engines) times.push_back({engine->name, race.smallest(engine->name) / elements});
    bench.record.add({"check a list", family, parameters({{"U", u}, {"n", list.size()}}), "element",
                      static_cast<double>(block.size()) / static_cast<double>(list.size()), times});
}

} // namespace

void one_list(Bench &bench, const std::string &family, uint32_t u, const List &list) {
    const Bytes block = list_block(archive, u, list);
    require(block == list_block(peer, u, list), "archive and peer write different lists");
    write_race(bench, family, u, list, block.size());
    check_race(bench, family, u, list, block);
}

void measure_lists(Bench &bench) {
    for (uint32_t u : {small_u, large_u}) {
        if (bench.quick && u == large_u) continue;
        for (const Family &family : list_families()) {
            Random random(u);
            one_list(bench, family.name, u, family.make(random, u));
        }
    }
}
