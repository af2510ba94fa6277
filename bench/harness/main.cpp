// Compares answers, then times: harness RESULTS.csv FOLDER [quick] [GROUP...]. FOLDER is for files that are passed on.
#include <cstring>
#include <set>
#include <string>

#include "bench.hpp"
#include "require.hpp"

int main(int count, char **arguments) {
    require(count >= 3, "usage: harness RESULTS.csv FOLDER [quick] [GROUP...]");
    bool quick = false;
    std::set<std::string> groups;
    for (int i = 3; i < count; i++) {
        if (std::strcmp(arguments[i], "quick") == 0) quick = true;
        else groups.insert(arguments[i]);
    }
    const auto wanted = [&](const char *group) { return groups.empty() || groups.count(group) != 0; };

    Record record(arguments[1]);
    Bench bench{record, make_contenders(), quick, quick ? Pace{0.2, 5, 2000} : Pace{0.8, 7, 5000}};
    if (wanted("lists")) measure_lists(bench);
    if (wanted("reading")) measure_reading(bench);
    if (wanted("common")) measure_common(bench);
    if (wanted("dense")) measure_dense(bench);
    if (wanted("screens")) measure_screens(bench);
    if (wanted("phrases")) measure_phrases(bench);
    if (wanted("lookup")) measure_lookup(bench);
    if (wanted("cards")) measure_cards(bench);
    if (wanted("streams")) measure_streams(bench);
    if (wanted("runs")) measure_runs(bench);
    if (wanted("program")) measure_program(bench, arguments[2]);
    if (wanted("growth")) measure_growth(bench);
    return 0;
}
