// What has to hold before anything is timed; where it does not, the run ends with a message.
#pragma once

#include <cstdio>
#include <cstdlib>

template <class... Parts> void require(bool holds, const char *message, Parts... parts) {
    if (holds) return;
    std::fputs("bench: ", stderr);
    std::fprintf(stderr, message, parts...);
    std::fputs("\n", stderr);
    std::exit(1);
}
