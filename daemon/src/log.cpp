#include "log.hpp"

#include <cstdarg>
#include <cstdio>
#include <ctime>

namespace sysmemd {

static void write_line(const char *text) {
    // One write, so that lines of several programs do not mix; a broken pipe ends nothing, since SIGPIPE is ignored.
    std::fprintf(stderr, "sysmemd: %s\n", text);
}

void say(const char *format, ...) {
    constexpr int most = 20;
    static std::time_t second = 0;
    static int count = 0;
    timespec now;
    clock_gettime(CLOCK_MONOTONIC, &now);
    if (now.tv_sec != second) {
        char missing[64];
        std::snprintf(missing, sizeof missing, "%d lines were left out", count - most);
        if (count > most) write_line(missing);
        second = now.tv_sec;
        count = 0;
    }
    if (++count > most) return;
    char text[400];
    va_list words;
    va_start(words, format);
    std::vsnprintf(text, sizeof text, format, words);
    va_end(words);
    write_line(text);
}

} // namespace sysmemd
