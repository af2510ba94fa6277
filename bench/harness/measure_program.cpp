// The programs from start to end, the process's start included: `lookup` and the peer's, on a card of 32 KiB.
#include <cstdio>
#include <fcntl.h>
#include <spawn.h>
#include <sys/wait.h>
#include <unistd.h>

#include "bench.hpp"
#include "require.hpp"

extern char **environ;

namespace {

constexpr size_t most_bytes = 32768;

struct Program {
    std::string name;
    std::string path;
};

template <class Data> void save(const std::string &path, const Data *data, size_t count) {
    std::FILE *file = std::fopen(path.c_str(), "wb");
    require(file != nullptr && std::fwrite(data, sizeof(Data), count, file) == count && std::fclose(file) == 0,
            "cannot write %s", path.c_str());
}

// runs the program to its end, with its output going to the file
void run(const Program &program, const std::string &card, const std::string &questions, const char *output) {
    posix_spawn_file_actions_t actions;
    posix_spawn_file_actions_init(&actions);
    posix_spawn_file_actions_addopen(&actions, 1, output, O_WRONLY | O_CREAT | O_TRUNC, 0644);
    char *words[] = {const_cast<char *>(program.path.c_str()), const_cast<char *>(card.c_str()),
                     const_cast<char *>(questions.c_str()), nullptr};
    pid_t child;
    require(posix_spawn(&child, words[0], &actions, nullptr, words, environ) == 0, "cannot run %s", words[0]);
    int status;
    waitpid(child, &status, 0);
    require(status == 0, "%s ends with status %d", words[0], status);
    posix_spawn_file_actions_destroy(&actions);
}

std::string text_of(const std::string &path) {
    std::string text;
    std::FILE *file = std::fopen(path.c_str(), "rb");
    require(file != nullptr, "cannot read %s", path.c_str());
    for (int c; (c = std::fgetc(file)) != EOF;) text += static_cast<char>(c);
    std::fclose(file);
    return text;
}

// as many words as 32 KiB hold
Bytes card_of_32_kib() {
    constexpr uint32_t n = 1000;
    Random random(32);
    std::vector<Word> words = zipf_words(random, n, 500, 400);
    while (make_card(n, words).size() > most_bytes) words.pop_back();
    return make_card(n, words);
}

// questions as a file has them: four bytes a number, the highest first
Bytes file_of(const Questions &questions) {
    Bytes bytes;
    for (uint32_t number : questions.numbers) {
        for (int shift : {24, 16, 8, 0}) bytes.push_back(static_cast<uint8_t>(number >> shift));
    }
    return bytes;
}

} // namespace

void measure_program(Bench &bench, const char *folder) {
    const std::string room(folder), card_path = room + "/card", questions_path = room + "/questions";
    const Program programs[] = {{"archive", std::string(BENCH_LOOKUP)}, {"peer", std::string(BENCH_PEER_LOOKUP)}};
    const Bytes card = card_of_32_kib();
    const uint32_t t = card[9] * 256u + card[10];
    save(card_path, card.data(), card.size());
    for (size_t count : {1, 10, 1000}) {
        Random random(count);
        Questions questions;
        for (size_t i = 0; i < count; i++) questions.add(JF_KIND_RANK, {random.below(t), random.below(8)});
        const Bytes file = file_of(questions);
        save(questions_path, file.data(), file.size());
        std::string texts[2];
        Race race(Clock::time_of_day);
        for (int p : {0, 1}) {
            run(programs[p], card_path, questions_path, (room + "/answers").c_str());
            texts[p] = text_of(room + "/answers");
            race.enter(programs[p].name, [&, p] { run(programs[p], card_path, questions_path, "/dev/null"); });
        }
        require(texts[0] == texts[1] && !texts[0].empty(), "lookup and the peer's program print different answers");
        race.run({bench.pace.seconds * 3, 50, 5000});
        bench.record.add({"program", "start to end", parameters({{"questions", count}, {"bytes", card.size()}}), "run",
                          0, {{"archive", race.smallest("archive")}, {"peer", race.smallest("peer")}}});
    }
}
