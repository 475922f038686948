// Tests of sysmemd, each in a process of its own, with a daemon of its own ($SYSMEMD). `tests NAME..` runs some of them,
// `tests -NAME..` all others, `tests --list` names them.
#include "rig.hpp"

static bool run(const Test &test) {
    std::fflush(nullptr);
    auto start = std::chrono::steady_clock::now();
    pid_t pid = fork();
    if (pid == 0) {
        prctl(PR_SET_PDEATHSIG, SIGKILL);
        if (!std::getenv("MESSAGES")) alarm(600);
        test.run();
        std::fflush(nullptr);
        _exit(0);
    }
    int is = 0;
    waitpid(pid, &is, 0);
    bool is_good = WIFEXITED(is) && WEXITSTATUS(is) == 0;
    auto ms = std::chrono::duration_cast<std::chrono::milliseconds>(std::chrono::steady_clock::now() - start).count();
    std::printf("%-16s %s %lld ms\n", test.name, is_good ? "ok" : "FAILED", (long long)ms);
    return is_good;
}

int main(int count, char **words) {
    std::setvbuf(stdout, nullptr, _IOLBF, 0);
    signal(SIGPIPE, SIG_IGN);
    bool is_list = count > 1 && std::string(words[1]) == "--list";
    bool is_without = count > 1 && !is_list && words[1][0] == '-';
    int failed = 0, found = 0;
    for (Test *test = Test::first(); test; test = test->next) {
        bool is_named = false;
        for (int i = 1; i < count; i++) is_named |= std::string(words[i]) == (is_without ? "-" : "") + std::string(test->name);
        found += is_named;
        if (is_list) std::puts(test->name);
        else if (count < 2 || is_named != is_without) failed += !run(*test);
    }
    if (!is_list && count > 1 && found != count - 1) return std::puts("no such test"), 2;
    return failed ? 1 : 0;
}
