// A screen of 10 common pages at the start, in the middle and at the end of two words' lists, against all of their
// common pages by kind 3, and the check of the card, which each call makes.
#include <utility>

#include "bench.hpp"
#include "families.hpp"
#include "require.hpp"

namespace {

constexpr uint32_t pages_shown = 10;
constexpr int checks_before_engine = 8;
const List words{0, 1};

// a card of two words, how many pages both have, and what kind 3 answers for them
struct Shared {
    uint32_t u;
    size_t n;
    Bytes card;
    Questions question;
    List answer;

    List pages() const { return List(answer.begin() + 3, answer.end()); }
};

Shared make_shared(uint32_t u, double density) {
    Random random(u);
    const std::vector<List> lists = correlated(density)(random, u, 2);
    Shared shared{u, lists[0].size() + lists[1].size(), card_of_lists(u, lists), {}, {}};
    shared.question.add(JF_KIND_COMMON, words);
    const List &q = shared.question.numbers;
    shared.answer.resize(room_for(shared.card, shared.question));
    const jf_asked asked = archive.ask(shared.card.data(), shared.card.size(), q.data(), q.size(), shared.answer.data(),
                                       shared.answer.size());
    shared.answer.resize(asked.used);
    return shared;
}

// a screen of r pages from the bound on, and the rooms that it is laid into
struct Screen {
    const Bytes &card;
    std::string place;
    uint32_t bound;
    uint32_t r = pages_shown;
    List pages = List(pages_shown);
    List counts = List(JF_SCREEN_COUNTS);

    jf_screened show(const Engine &engine) {
        return engine.screen(card.data(), card.size(), bound, r, words.data(), words.size(), pages.data(), pages.size(),
                             counts.data(), counts.size());
    }
};

// both engines show the pages of kind 3 from this rank on, and report and count the same
void compare(Screen &screen, const List &pages, size_t rank) {
    const List expected(pages.begin() + static_cast<long>(rank), pages.begin() + static_cast<long>(rank + pages_shown));
    List counts;
    for (const Engine *engine : engines) {
        const jf_screened shown = screen.show(*engine);
        require(shown.refusal == JF_ACCEPTED && shown.found == pages_shown && shown.full == 1 &&
                    shown.next == expected.back() + 1 && screen.pages == expected,
                "the %s shows another screen than kind 3 has", engine->name);
        require(counts.empty() || counts == screen.counts, "archive and peer count differently");
        counts = screen.counts;
    }
}

std::vector<Screen> compared_screens(const Shared &shared) {
    const List pages = shared.pages();
    std::vector<Screen> screens;
    const auto add = [&](const char *place, uint32_t bound, size_t rank) {
        screens.push_back({shared.card, place, bound});
        compare(screens.back(), pages, rank);
    };
    const size_t middle = pages.size() / 2, last = pages.size() - pages_shown;
    add("at the start", 0, 0);
    add("in the middle", pages[middle], middle);
    add("at the end", pages[last], last);
    return screens;
}

std::string entrant(const Engine &engine, const std::string &what) { return engine.name + (", " + what); }

// A race in which some checks go uncounted before an engine's runs, and kind 3 and the same run before each run, so
// that all find caches and guessed branches alike; else the check is learnt by heart, and who runs later is faster.
class ScreenRace {
  public:
    // the screens, the check alone as a screen of no pages, which is refused behind it, and kind 3
    ScreenRace(const Shared &shared, std::vector<Screen> screens)
        : shared_(shared), screens_(std::move(screens)), check_{shared.card, "check", 0, 0},
          room_(room_for(shared.card, shared.question)) {
        for (const Engine *engine : engines) {
            race_.enter("uncounted", [this, engine] {
                for (int i = 0; i < checks_before_engine; i++) check_.show(*engine);
            });
            enter(*engine, check_.place, [this, engine] { check_.show(*engine); });
            for (Screen &screen : screens_) enter(*engine, screen.place, [&screen, engine] { screen.show(*engine); });
        }
        enter(archive, all_pages, [this] { ask_for_all(archive); });
    }
    ScreenRace(const ScreenRace &) = delete;
    ScreenRace &operator=(const ScreenRace &) = delete;

    void run(const Pace &pace) { race_.run(pace); }

    // the check by each engine
    Times check() const {
        Times times;
        for (const Engine *engine : engines) times.push_back({engine->name, race_.smallest(checked(*engine))});
        return times;
    }

    // a screen by each engine and all pages, the check included
    Times with_check(const std::string &place) const {
        Times times;
        for (const Engine *engine : engines) times.push_back({engine->name, race_.smallest(entrant(*engine, place))});
        times.push_back({all_pages, race_.smallest(entrant(archive, all_pages))});
        return times;
    }

    // the same beyond the check
    Times alone(const std::string &place) const {
        Times times;
        for (const Engine *engine : engines) {
            times.push_back({engine->name, race_.median_beyond(entrant(*engine, place), checked(*engine))});
        }
        times.push_back({all_pages, race_.median_beyond(entrant(archive, all_pages), checked(archive))});
        return times;
    }

  private:
    std::string checked(const Engine &engine) const { return entrant(engine, check_.place); }

    void enter(const Engine &engine, const std::string &what, const std::function<void()> &work) {
        race_.enter("uncounted", [this, &engine, work] {
            ask_for_all(engine);
            work();
        });
        race_.enter(entrant(engine, what), work);
    }

    void ask_for_all(const Engine &engine) {
        const List &q = shared_.question.numbers;
        engine.ask(shared_.card.data(), shared_.card.size(), q.data(), q.size(), room_.data(), room_.size());
    }

    const Shared &shared_;
    std::vector<Screen> screens_;
    Screen check_;
    List room_;
    Race race_;
};

struct Size {
    const char *family;
    uint32_t u;
    double density;
    bool is_long; // a screen is lost in how the check differs from run to run
};

std::string screen_parameters(const Shared &shared, const Screen &screen) {
    return parameters({{"U", shared.u},
                       {"seeks", screen.counts[0]},
                       {"looks", screen.counts[1]},
                       {"all-seeks", shared.answer[1]},
                       {"all-looks", shared.answer[2]}});
}

void one_card(Bench &bench, const Size &size) {
    const Shared shared = make_shared(size.u, size.density);
    const std::vector<Screen> screens = compared_screens(shared);
    ScreenRace race(shared, screens);
    race.run(bench.pace);
    const size_t bytes = shared.card.size();
    bench.record.add({"check before a screen", size.family,
                      parameters({{"U", size.u}, {"pages", shared.n}, {"bytes", bytes}}), "call",
                      static_cast<double>(bytes), race.check()});
    for (const Screen &screen : screens) {
        const std::string family = size.family + (" " + screen.place);
        const std::string text = screen_parameters(shared, screen);
        bench.record.add({"screen with the check", family, text, "call", 0, race.with_check(screen.place)});
        if (!size.is_long) bench.record.add({"screen alone", family, text, "screen", 0, race.alone(screen.place)});
    }
}

} // namespace

void measure_screens(Bench &bench) {
    one_card(bench, {"correlated 1 in 16", small_u, 1.0 / 16, true});
    one_card(bench, {"correlated 1 in 256", small_u, 1.0 / 256, false});
    if (bench.quick) return;
    one_card(bench, {"correlated 1 in 256", large_u, 1.0 / 256, true});
    one_card(bench, {"correlated 1 in 4096", large_u, 1.0 / 4096, false});
}
