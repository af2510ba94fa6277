// Dense words, whose pages the second edition holds as bitmaps, beside the archive's own first edition: seeks in common
// pages, the bytes of the pages, and one word written, checked and read.
#include <algorithm>
#include <cmath>
#include <numeric>

#include "bench.hpp"
#include "families.hpp"
#include "plain_bitmap.hpp"
#include "require.hpp"

namespace {

constexpr uint32_t least_u = 1 << 16;

// bytes of a term before its pages, and the place of the version in a list
constexpr size_t term_opening = 5, list_version = 4;

using MakeList = std::function<List(Random &, uint32_t u)>;

struct Density {
    const char *name;
    MakeList make;
    bool is_quick; // also measured in a quick look
    bool is_large; // also measured at the largest U
};

std::vector<Density> densities() {
    const auto likely = [](double density) {
        return [density](Random &random, uint32_t u) { return scattered(random, u, density); };
    };
    // one page more than the first edition's form holds in as few bits as there are pages
    const auto just_dense = [](Random &random, uint32_t u) { return of_length(random, u, u / 4 + 1); };
    const auto every_page = [](Random &, uint32_t u) {
        List list(u);
        std::iota(list.begin(), list.end(), 0);
        return list;
    };
    return {{"just dense", just_dense, true, true},
            {"1 in 3", likely(1.0 / 3), false, false},
            {"1 in 2", likely(1.0 / 2), true, true},
            {"3 in 4", likely(3.0 / 4), false, false},
            {"every page", every_page, true, true}};
}

MakeGroup all_of(const MakeList &make) {
    return [make](Random &random, uint32_t u, uint32_t k) {
        std::vector<List> lists;
        for (uint32_t i = 0; i < k; i++) lists.push_back(make(random, u));
        return lists;
    };
}

// one thin list, and beside it lists of 1 in 2
MakeGroup one_thin(double density) {
    return [density](Random &random, uint32_t u, uint32_t k) {
        std::vector<List> lists{scattered(random, u, density)};
        while (lists.size() < k) lists.push_back(scattered(random, u, 1.0 / 2));
        return lists;
    };
}

// the same words on a card of each edition
struct Editions {
    Bytes first, second;

    // the archive with the second edition, then with the first, and the peer with the second
    std::vector<Side> sides(bool looks_are_told) const {
        return {{archive.name, archive, second},
                {in_first_edition, archive, first, looks_are_told},
                {peer.name, peer, second}};
    }
};

Editions both_editions(uint32_t u, const std::vector<List> &lists) {
    return {card_of_lists(u, lists, first_edition), card_of_lists(u, lists, second_edition)};
}

Contender *roaring_in(const Bench &bench) {
    for (const auto &contender : bench.contenders) {
        if (contender->name() == std::string("CRoaring")) return contender.get();
    }
    return nullptr;
}

// the common pages of each group by a contender, round after round
template <class Library>
Other others_common(const char *name, const Library &library, const Groups &groups, size_t rounds) {
    return {name, groups.words.size() * rounds, [&library, &groups, rounds](uint32_t *pages) {
                size_t found = 0;
                for (size_t round = 0; round < rounds; round++) {
                    for (const List &words : groups.words) found += library.common(words, pages + found);
                }
                return found;
            }};
}

// the time of a question over its seeks, for those as well that make none
void one_dense_common(Bench &bench, const char *operation, const std::string &family, uint32_t u, uint32_t k,
                      const MakeGroup &make) {
    const Groups groups = make_groups(u, k, make);
    const Editions cards = both_editions(u, groups.lists);
    const double seeks = seeks_of(cards.second, repeated(groups, 1));
    require(seeks == seeks_of(cards.first, repeated(groups, 1)), "the editions differ in seeks");
    const size_t rounds = enough_rounds(cards.first, seeks);

    const PlainBitmaps plain(u, groups.lists);
    std::vector<Other> others;
    if (Contender *roaring = roaring_in(bench)) {
        roaring->take(u, groups.lists);
        others.push_back(others_common(roaring->name(), *roaring, groups, rounds));
    }
    others.push_back(others_common(PlainBitmaps::name, plain, groups, rounds));
    Times times = time_sides(bench, cards.sides(true), repeated(groups, rounds), others, common_pages);
    const double in_question = seeks / static_cast<double>(groups.words.size());
    for (auto &[name, ns] : times) ns /= in_question;
    bench.record.add({operation, family, parameters({{"U", u}, {"k", k}, {"seeks", static_cast<size_t>(in_question)}}),
                      "seek", 0, times});
}

// the bytes of a term's pages
size_t pages_bytes(const Bytes &term) {
    size_t length = 0;
    for (size_t i = 0; i < 4; i++) length = 256 * length + term[term_opening + i];
    return length;
}

// the fewest bytes that tell any n numbers below u from all others
double lower_bound_bytes(double u, double n) {
    const double bits = (std::lgamma(u + 1) - std::lgamma(n + 1) - std::lgamma(u - n + 1)) / std::log(2.0);
    return std::ceil(bits / 8);
}

// a dense word that stands once on each of its pages, and its term in each edition
struct DenseWord {
    uint32_t u;
    std::string family;
    Word word;
    Bytes first, second;

    std::string text() const { return parameters({{"U", u}, {"n", word.pages.size()}}); }
    double n() const { return static_cast<double>(word.pages.size()); }
};

Bytes compared_term(uint32_t u, const Word &word, uint32_t edition) {
    Bytes block = term_block(archive, u, word, edition);
    require(block == term_block(peer, u, word, edition), "archive and peer write different words");
    return block;
}

DenseWord make_dense(uint32_t u, const Density &density) {
    Random random(u);
    DenseWord made{u, density.name, plain_word(density.make(random, u)), {}, {}};
    made.first = compared_term(u, made.word, first_edition);
    made.second = compared_term(u, made.word, second_edition);
    require(made.first[term_opening + list_version] == 1 && made.second[term_opening + list_version] == 2,
            "the pages of a dense word have another form than their edition gives them");
    return made;
}

void sizes(Bench &bench, const DenseWord &dense) {
    bench.record.add({"size of dense pages", dense.family, dense.text(), "byte", 0,
                      {{archive.name, static_cast<double>(pages_bytes(dense.second))},
                       {in_first_edition, static_cast<double>(pages_bytes(dense.first))},
                       {"lower bound", lower_bound_bytes(dense.u, dense.n())}}});
}

// what an engine does in one edition
struct Turn {
    const char *name;
    const Engine &engine;
    uint32_t edition;
};

const Turn turns[] = {{archive.name, archive, second_edition},
                      {in_first_edition, archive, first_edition},
                      {peer.name, peer, second_edition}};

// the work of each turn on the whole word, recorded for one page
void race_turns(Bench &bench, const char *operation, const DenseWord &dense,
                const std::function<void(const Turn &)> &work) {
    Race race;
    for (const Turn &turn : turns) race.enter(turn.name, [&work, &turn] { work(turn); });
    race.run(bench.pace);
    Times times;
    for (const Turn &turn : turns) times.push_back({turn.name, race.smallest(turn.name) / dense.n()});
    const double bytes = static_cast<double>(dense.second.size()) / dense.n();
    bench.record.add({operation, dense.family, dense.text(), "page", bytes, times});
}

void write_dense(Bench &bench, const DenseWord &dense) {
    const Word &w = dense.word;
    Bytes room(std::max(dense.first.size(), dense.second.size()));
    race_turns(bench, "write a dense word", dense, [&](const Turn &turn) {
        turn.engine.write_term(turn.edition, dense.u, w.pages.data(), w.pages.size(), w.counts.data(), w.counts.size(),
                               w.positions.data(), w.positions.size(), room.data(), room.size());
    });
}

void check_dense(Bench &bench, const DenseWord &dense) {
    uint32_t refusals = 0;
    race_turns(bench, "check a dense word", dense, [&](const Turn &turn) {
        const Bytes &block = turn.edition == second_edition ? dense.second : dense.first;
        refusals |= turn.engine.check_term(turn.edition, block.data(), block.size());
    });
    require(refusals == JF_ACCEPTED, "a written word is refused");
}

void read_dense(Bench &bench, const DenseWord &dense) {
    const List &pages = dense.word.pages;
    const Editions cards = both_editions(dense.u, {pages});
    std::vector<Contender *> contenders;
    if (Contender *roaring = roaring_in(bench)) contenders.push_back(roaring);
    const Reading reading = time_reading(bench, cards.sides(false), contenders, dense.u, pages);
    bench.record.add({"dense page by rank", dense.family, dense.text(), "question", 0, reading.by_rank});
    bench.record.add({"dense fresh seek", dense.family, dense.text(), "question", 0, reading.by_bound});
}

void one_word(Bench &bench, const DenseWord &dense) {
    sizes(bench, dense);
    write_dense(bench, dense);
    check_dense(bench, dense);
    read_dense(bench, dense);
}

constexpr const char *of_dense = "seek in dense common pages", *of_mixed = "seek in mixed common pages";

void common_of_dense(Bench &bench) {
    for (const Density &density : densities()) {
        const MakeGroup make = all_of(density.make);
        if (bench.quick && !density.is_quick) continue;
        one_dense_common(bench, of_dense, density.name, least_u, 2, make);
        if (bench.quick) continue;
        for (uint32_t k : {2u, 4u, 8u}) one_dense_common(bench, of_dense, density.name, small_u, k, make);
        if (density.is_large) one_dense_common(bench, of_dense, density.name, large_u, 2, make);
    }
}

void common_of_mixed(Bench &bench) {
    one_dense_common(bench, of_mixed, "1 in 256 with 1 in 2", small_u, 2, one_thin(1.0 / 256));
    if (bench.quick) return;
    one_dense_common(bench, of_mixed, "1 in 256 with 1 in 2", small_u, 4, one_thin(1.0 / 256));
    for (uint32_t k : {2u, 4u}) one_dense_common(bench, of_mixed, "1 in 8 with 1 in 2", small_u, k, one_thin(1.0 / 8));
}

} // namespace

void measure_dense(Bench &bench) {
    common_of_dense(bench);
    common_of_mixed(bench);
    for (uint32_t u : {least_u, small_u, large_u}) {
        if (bench.quick && u != least_u) continue;
        for (const Density &density : densities()) {
            const bool is_measured = bench.quick ? density.is_quick : u != large_u || density.is_large;
            if (is_measured) one_word(bench, make_dense(u, density));
        }
    }
}
