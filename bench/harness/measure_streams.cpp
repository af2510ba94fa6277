// Words written run by run, in runs of 256 pages and of one page, beside the same words written from whole lists.
#include <algorithm>

#include "bench.hpp"
#include "families.hpp"
#include "require.hpp"

namespace {

// the postings of some pages, as parts of the word's lists
struct Run {
    size_t page, pages, position, positions;
};

// a word with its runs, and what is announced of it
struct Stream {
    Word word;
    std::vector<Run> runs;
    uint32_t n, u;
};

std::vector<Run> cut(const Word &word, size_t pages) {
    std::vector<Run> runs;
    size_t position = 0;
    for (size_t page = 0; page < word.pages.size(); page += pages) {
        Run run{page, std::min(pages, word.pages.size() - page), position, 0};
        for (size_t i = 0; i < run.pages; i++) run.positions += word.counts[page + i];
        position += run.positions;
        runs.push_back(run);
    }
    return runs;
}

// U of a word's positions: on each page the last of them, plus 1
uint32_t positions_u(const Word &word) {
    uint32_t u = 0;
    size_t end = 0;
    for (uint32_t count : word.counts) {
        end += count;
        u += word.positions[end - 1] + 1;
    }
    return u;
}

// writes the word into the room run by run; returns what the close reports
jf_streamed write_in_runs(const Engine &engine, const Stream &s, Bytes &room) {
    const Word &w = s.word;
    jf_streamed given =
        engine.begin_term(first_edition, s.n, static_cast<uint32_t>(w.pages.size()),
                          static_cast<uint32_t>(w.positions.size()), s.u, room.data(), room.size());
    for (const Run &run : s.runs) {
        given = engine.put_postings(given.stream, w.pages.data() + run.page, run.pages, w.counts.data() + run.page,
                                    run.pages, w.positions.data() + run.position, run.positions, room.data(),
                                    room.size());
    }
    return engine.end_term(given.stream, room.data(), room.size());
}

void write_whole(const Stream &s, Bytes &room) {
    const Word &w = s.word;
    archive.write_term(first_edition, s.n, w.pages.data(), w.pages.size(), w.counts.data(), w.counts.size(),
                       w.positions.data(), w.positions.size(), room.data(), room.size());
}

void compare(const Stream &s, const Bytes &block) {
    for (const Engine *engine : engines) {
        Bytes room(block.size(), 0xA5);
        const jf_streamed given = write_in_runs(*engine, s, room);
        require(given.refusal == JF_ACCEPTED, "the %s refuses a word in runs with %u", engine->name, given.refusal);
        require(given.length == block.size() && room == block, "the %s writes another word in runs", engine->name);
    }
}

// how often a word is written in one timed turn, so that a turn takes long enough for the clock
size_t rounds_for(const Word &word) { return 4096 / word.pages.size() + 1; }

void one_stream(Bench &bench, const char *operation, const std::string &family, const Stream &s, const Bytes &block) {
    compare(s, block);
    const size_t rounds = rounds_for(s.word);
    std::vector<Bytes> rooms(3, Bytes(block.size()));
    Race race;
    for (int e : {0, 1}) {
        race.enter(engines[e]->name, [&, e] {
            for (size_t i = 0; i < rounds; i++) write_in_runs(*engines[e], s, rooms[e]);
        });
    }
    race.enter(whole_lists, [&] {
        for (size_t i = 0; i < rounds; i++) write_whole(s, rooms[2]);
    });
    race.run(bench.pace);

    Times times;
    for (const char *name : {archive.name, peer.name, whole_lists}) {
        times.push_back({name, race.smallest(name) / static_cast<double>(rounds)});
    }
    const Word &w = s.word;
    bench.record.add({operation, family,
                      parameters({{"N", s.n}, {"pages", w.pages.size()}, {"positions", w.positions.size()}}), "word",
                      static_cast<double>(block.size()), times});
}

void one_word(Bench &bench, uint32_t n, uint32_t one_in) {
    Random random(one_in);
    const Word word = realistic_word(random, n, n / one_in);
    const Bytes block = term_block(archive, n, word);
    require(block == term_block(peer, n, word), "archive and peer write different words");
    const std::string family = "1 in " + std::to_string(one_in);
    const uint32_t u = positions_u(word);
    one_stream(bench, "write in runs of 256", family, {word, cut(word, 256), n, u}, block);
    one_stream(bench, "write in runs of 1", family, {word, cut(word, 1), n, u}, block);
}

} // namespace

void measure_streams(Bench &bench) {
    constexpr uint32_t n = 1 << 16;
    for (uint32_t one_in : {2u, 16u, 128u}) one_word(bench, n, one_in);
    if (!bench.quick) one_word(bench, small_u, 16);
}
