// What the parts of the bench share: times in microseconds, of which a row has the 5th, 50th and 99th percentile.
#ifndef MEASURE_HPP
#define MEASURE_HPP

#include "../tests/rig.hpp"

using Clock = std::chrono::steady_clock;

inline double us(Clock::duration d) { return std::chrono::duration<double, std::micro>(d).count(); }
inline void print(const std::string &what, std::vector<double> times) {
    std::sort(times.begin(), times.end());
    std::printf("%-56s %8.1f %8.1f %8.1f\n", what.c_str(), times[times.size() / 20], times[times.size() / 2],
                times[times.size() * 99 / 100]);
}
// Makes the call so often, after a tenth of these that do not count.
template <class F> void measure(const std::string &what, int count, const F &once) {
    for (int i = 0; i < count / 10; i++) once();
    std::vector<double> times;
    for (int i = 0; i < count; i++) {
        auto start = Clock::now();
        once();
        times.push_back(us(Clock::now() - start));
    }
    print(what, std::move(times));
}
// A client of this uid, in this process.
inline Client join_as(const Daemon &d, uid_t uid) {
    CHECK(seteuid(uid) == 0);
    Client made = d.join("uid " + std::to_string(uid));
    CHECK(seteuid(0) == 0 || getuid() != 0);
    return made;
}

// ---- The parts ----

void measure_others();                   // others.cpp: what else a process may call
void measure_calls(const Daemon &d);     // calls.cpp: each request, alone
void measure_busy(const Daemon &d);      // calls.cpp: many clients, and deaths
void measure_hostile(const Daemon &d);   // peers.cpp: a Sync beside peers of another uid that mean harm
void measure_crowd(const Daemon &d);     // peers.cpp: 1,000 clients and 10,000 ends

#endif
