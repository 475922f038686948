// What the tests share: daemons that they start, raw messages, children that are killed.
#ifndef RIG_HPP
#define RIG_HPP

#include "sysmem_remote.hpp"

#include <csignal>
#include <cstdio>
#include <dirent.h>
#include <fstream>
#include <functional>
#include <sstream>
#include <string>
#include <sys/prctl.h>
#include <sys/resource.h>
#include <sys/stat.h>
#include <sys/wait.h>
#include <vector>

using namespace sysmem::remote;
using namespace std::chrono_literals;


#define CHECK(is)                                                                                                      \
    do {                                                                                                               \
        if (!(is)) {                                                                                                   \
            std::fprintf(stderr, "%s:%d: %s\n", __FILE__, __LINE__, #is);                                              \
            std::fflush(nullptr);                                                                                      \
            _exit(1);                                                                                                  \
        }                                                                                                              \
    } while (0)

// No test fails because the machine is slow: what must come is waited for so long.
constexpr auto soon = 60s;
template <class F> bool comes(const F &is_so) {
    auto until = std::chrono::steady_clock::now() + soon;
    for (useconds_t pause = 100; !is_so(); pause = std::min<useconds_t>(2 * pause, 20000)) {
        if (std::chrono::steady_clock::now() > until) return false;
        usleep(pause);
    }
    return true;
}

// A test that `tests NAME` runs.
struct Test {
    const char *name;
    void (*run)();
    Test *next;
    static Test *&first() {
        static Test *list = nullptr;
        return list;
    }
    Test(const char *name, void (*run)()) : name(name), run(run), next(first()) { first() = this; }
};
#define TEST(name)                                                                                                     \
    static void test_##name();                                                                                         \
    static Test test_of_##name(#name, test_##name);                                                                    \
    static void test_##name()

// Under a sanitizer memory is no measure.
inline bool is_sanitized() {
    const char *name = std::getenv("SYSMEMD");
    return name && std::string(name).find(".address") != std::string::npos;
}
inline const char *program() { return std::getenv("SYSMEMD") ? std::getenv("SYSMEMD") : "build/sysmemd"; }

// The state of a process or a thread.
inline char state_of(const std::string &folder) {
    std::ifstream file(folder + "/stat");
    std::string all((std::istreambuf_iterator<char>(file)), {});
    return all.at(all.rfind(')') + 2);
}
// Makes this child another uid's. It still ends with its parent.
inline void become(uid_t uid) {
    CHECK(setgid(uid) == 0 && setuid(uid) == 0 && prctl(PR_SET_PDEATHSIG, SIGKILL) == 0);
}
// A daemon of the test's own. It ends with the value.
class Daemon {
public:
    // With so many descriptors, and with this in its environment, as "NAME=VALUE".
    explicit Daemon(std::vector<std::string> words = {}, rlim_t files = 0, std::vector<std::string> environment = {},
                    uid_t uid = 0)
        : words(std::move(words)), files(files), environment(std::move(environment)), uid(uid) {
        char name[] = "/tmp/sysmemd-test-XXXXXX";
        CHECK(mkdtemp(name));
        folder = name;
        path = folder + "/s";
        CHECK(chmod(name, 0755) == 0 && (uid == 0 || chown(name, uid, uid) == 0));
        start();
    }
    ~Daemon() {
        if (pid > 0) stop(SIGTERM);
        (void)!system(("rm -rf " + folder).c_str());
    }
    void start() {
        pid = fork();
        if (pid == 0) {
            prctl(PR_SET_PDEATHSIG, SIGKILL);
            if (files) {
                rlimit limit{files, files};
                setrlimit(RLIMIT_NOFILE, &limit);
            }
            for (std::string &one : environment) putenv(one.data());
            int log = ::open((folder + "/log").c_str(), O_WRONLY | O_CREAT | O_APPEND, 0600);
            dup2(log, 2);
            if (uid != 0) become(uid);
            bool is_wrapped = false; // see tests/wrapped
            for (std::string &one : environment) is_wrapped |= one.compare(0, 8, "SYSMEMD_") == 0;
            std::vector<std::string> all{is_wrapped ? std::getenv("WRAPPED") : program(), "--socket", path};
            all.insert(all.end(), words.begin(), words.end());
            std::vector<char *> argv;
            for (std::string &one : all) argv.push_back(one.data());
            argv.push_back(nullptr);
            execv(argv[0], argv.data());
            _exit(127);
        }
        CHECK(comes([&] { return is_listening() || !lives(); }) && lives());
    }
    // Whether somebody accepts there; a program that refuses memory may not say Hello.
    bool is_listening() const {
        sockaddr_un name{};
        name.sun_family = AF_UNIX;
        std::memcpy(name.sun_path, path.c_str(), path.size());
        int fd = socket(AF_UNIX, SOCK_SEQPACKET | SOCK_CLOEXEC, 0);
        bool is = connect(fd, reinterpret_cast<sockaddr *>(&name), sizeof name) == 0;
        ::close(fd);
        return is;
    }
    // What it said on standard error.
    std::string log() const {
        std::ostringstream text;
        text << std::ifstream(folder + "/log").rdbuf();
        return text.str();
    }
    bool says(const std::string &words) const { return log().find(words) != std::string::npos; }
    // Its state, as in /proc: R runs, S sleeps, D can't be interrupted, T is stopped.
    char state() const { return state_of("/proc/" + std::to_string(pid)); }
    // Stops it, so that what is sent meanwhile comes in one round.
    void pause() const {
        kill(pid, SIGSTOP);
        CHECK(comes([&] { return state() == 'T'; }));
    }
    void go_on() const { kill(pid, SIGCONT); }
    void stop(int by) {
        kill(pid, by);
        int is = 0;
        CHECK(waitpid(pid, &is, 0) == pid);
        if (by == SIGTERM && !(WIFEXITED(is) && WEXITSTATUS(is) == 0)) { // also: no sanitizer complained
            std::fprintf(stderr, "the daemon ended with status %x\n%s\n", unsigned(is), log().c_str());
            std::fflush(nullptr);
            _exit(1);
        }
        pid = 0;
    }
    bool lives() const { return pid > 0 && waitpid(pid, nullptr, WNOHANG) == 0; }
    // The daemon may not have seen yet that earlier connections ended.
    Client join(const std::string &label = "test") const {
        auto made = Client::open(path, label);
        CHECK(comes([&] {
            if (!made && ending(made.error()) == Ending::Crowded) made = Client::open(path, label);
            return made || ending(made.error()) != Ending::Crowded;
        }));
        return std::move(made).value();
    }
    // How many descriptors the daemon has.
    std::size_t files_open() const {
        std::size_t n = 0;
        DIR *dir = opendir(("/proc/" + std::to_string(pid) + "/fd").c_str());
        CHECK(dir);
        while (dirent *one = readdir(dir)) n += one->d_name[0] != '.';
        closedir(dir);
        return n;
    }
    // Its memory in kB.
    long memory() const {
        std::FILE *file = std::fopen(("/proc/" + std::to_string(pid) + "/status").c_str(), "r");
        CHECK(file);
        char line[256];
        long kb = 0;
        while (std::fgets(line, sizeof line, file)) std::sscanf(line, "VmRSS: %ld", &kb);
        std::fclose(file);
        return kb;
    }
    std::string folder, path;
    pid_t pid = 0;
    std::vector<std::string> words;
    rlim_t files;
    std::vector<std::string> environment;
    uid_t uid; // if not 0, whose it is
};

// Whether so many nodes live, nothing else is there, and the daemon has so many descriptors beside this connection.
inline bool is_whole(const Client &client, std::uint32_t live = 0, std::uint64_t descriptors = 0) {
    Status s;
    bool is = comes([&] {
        s = client.status().value();
        return s.live == live && s.held == 0 && s.free_pages == s.pages && s.memories == 0 && s.descriptors == 1 + descriptors;
    });
    if (!is)
        std::fprintf(stderr, "live %u held %llu free %u of %u memories %u descriptors %llu\n", s.live,
                     (unsigned long long)s.held, s.free_pages, s.pages, s.memories, (unsigned long long)s.descriptors);
    return is;
}

// Runs this in a child, which says by `mark` how far it is.
struct Child {
    pid_t pid = 0;
    int from = -1; // what the child writes by mark
    explicit Child(const std::function<void(int mark)> &run) {
        int two[2];
        CHECK(pipe2(two, O_CLOEXEC) == 0);
        std::fflush(nullptr);
        pid = fork();
        if (pid == 0) {
            prctl(PR_SET_PDEATHSIG, SIGKILL);
            ::close(two[0]);
            run(two[1]);
            _exit(0);
        }
        ::close(two[1]);
        from = two[0];
    }
    ~Child() {
        if (pid > 0) end(SIGKILL);
        ::close(from);
    }
    char await() {
        char c = 0;
        return read(from, &c, 1) == 1 ? c : 0;
    }
    int end(int by = 0) {
        if (by) kill(pid, by);
        int is = 0;
        CHECK(waitpid(pid, &is, 0) == pid);
        pid = 0;
        return is;
    }
};
// Runs this as another uid, in a child.
inline void as(uid_t uid, const std::function<void()> &run) {
    Child child([&](int) {
        become(uid);
        run();
    });
    int is = child.end();
    CHECK(WIFEXITED(is) && WEXITSTATUS(is) == 0);
}
inline void mark(int fd, char c) { CHECK(write(fd, &c, 1) == 1); }

inline int raw_connect(const std::string &path) {
    sockaddr_un name{};
    name.sun_family = AF_UNIX;
    std::memcpy(name.sun_path, path.c_str(), path.size());
    int fd = socket(AF_UNIX, SOCK_SEQPACKET | SOCK_CLOEXEC, 0);
    CHECK(fd >= 0);
    if (connect(fd, reinterpret_cast<sockaddr *>(&name), sizeof name)) return ::close(fd), -1;
    return fd;
}
// A connection that said Hello.
inline int raw_join(const std::string &path);
inline sysmemd_request words_of(std::uint32_t op, std::uint32_t serial = 7) {
    sysmemd_request q{};
    q.op = op;
    q.serial = serial;
    if (op == SYSMEMD_HELLO) q.size = SYSMEMD_MAGIC, q.left = SYSMEMD_VERSION;
    return q;
}
inline bool raw_send(int fd, const void *bytes, std::size_t length, const std::vector<int> &fds = {}, int flags = 0) {
    sysmem::remote::detail::Envelope<253> goes(bytes, length);
    goes.attach(fds.data(), fds.size());
    return sendmsg(fd, &goes.head, MSG_NOSIGNAL | flags) == ssize_t(length);
}
// The next reply; nothing at the end, or after the time. Descriptors that come along are closed, or kept in `fds`.
inline std::optional<sysmemd_reply> raw_receive(int fd, int ms = 60000, std::vector<int> *fds = nullptr) {
    for (int resets = 0;;) {
        pollfd one{fd, POLLIN, 0};
        if (poll(&one, 1, ms) != 1) return std::nullopt;
        sysmemd_reply r{};
        sysmem::remote::detail::Envelope<128> came(&r, sizeof r);
        ssize_t n = recvmsg(fd, &came.head, MSG_CMSG_CLOEXEC);
        if (n < 0 && errno == ECONNRESET && resets++ == 0) continue;
        if (n != ssize_t(sizeof r)) return std::nullopt;
        came.each([&](int type, const unsigned char *what, std::size_t length) {
            if (type != SCM_RIGHTS) return;
            std::vector<int> got(length / sizeof(int));
            std::memcpy(got.data(), what, got.size() * sizeof(int));
            for (int one : got)
                if (fds) fds->push_back(one);
                else ::close(one);
        });
        return r;
    }
}
inline int raw_join(const std::string &path) {
    int fd = raw_connect(path);
    auto hello = words_of(SYSMEMD_HELLO);
    CHECK(fd >= 0 && raw_send(fd, &hello, sizeof hello));
    auto told = raw_receive(fd);
    CHECK(told && told->kind == SYSMEMD_WELCOME && told->detail == SYSMEMD_VERSION);
    return fd;
}
// Sends a request, and answers the reply with its serial.
inline sysmemd_reply raw_ask(int fd, const sysmemd_request &q, std::vector<int> *fds = nullptr) {
    CHECK(raw_send(fd, &q, sizeof q));
    for (;;) {
        auto told = raw_receive(fd, 60000, fds);
        CHECK(told);
        if (told->serial == q.serial) return *told;
    }
}
inline std::uint64_t cookie_of(int fd) {
    std::uint64_t cookie = 0;
    socklen_t length = sizeof cookie;
    CHECK(getsockopt(fd, SOL_SOCKET, SO_COOKIE, &cookie, &length) == 0);
    return cookie;
}
// Whether the daemon ends this socket, for this reason if it says one, after whatever it still says.
inline bool is_cut(int fd, std::uint32_t why = 0) {
    std::uint32_t told = 0;
    for (int i = 0; i < 1000; i++) {
        sysmemd_reply r{};
        pollfd one{fd, POLLIN, 0};
        if (poll(&one, 1, 60000) != 1) return false;
        ssize_t n = recv(fd, &r, sizeof r, 0);
        if (n == 0) return why == 0 || why == told;
        if (n == ssize_t(sizeof r) && r.kind == SYSMEMD_ENDING) told = r.detail;
    }
    return false;
}

#endif
