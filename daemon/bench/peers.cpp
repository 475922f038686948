// Peers of another uid that mean harm, and a crowd.
#include "measure.hpp"

#include <sched.h>

constexpr uid_t nobody = 65534;

// Keeps requests pending on each of these sockets.
[[noreturn]] static void flood(const std::vector<int> &fds, std::uint32_t op, int m) {
    auto q = words_of(op);
    for (int fd : fds)
        for (int n = 0; n < 4; n++) raw_send(fd, &q, sizeof q, {}, MSG_DONTWAIT);
    mark(m, 'r');
    static char in[sizeof(sysmemd_list)];
    for (;;)
        for (int fd : fds)
            while (recv(fd, in, sizeof in, MSG_DONTWAIT) > 0) (void)raw_send(fd, &q, sizeof q, {}, MSG_DONTWAIT);
}
// So many ends of one tree.
static std::vector<int> open_tree(const Client &c, int count) {
    Token root = c.open_root("root").value();
    std::vector<int> all;
    for (int i = 1; i < count; i++) all.push_back(std::move(root.duplicate("kid").value()).detach());
    all.push_back(std::move(root).detach());
    return all;
}
static Collection allocate(const Client &c, std::uint8_t count, std::uint32_t size) {
    Collection a = c.open_root("a").value().bind().value();
    a.set_constraints({count, 0, size}).value();
    (void)a.wait_allocated(soon).value().value();
    return a;
}

// What a hostile process does again and again, once it has done it for the first time and said so.
using Harm = std::function<void(const Daemon &d, int m)>;
template <class F> static Harm again(const F &once) {
    return [once](const Daemon &d, int m) {
        Client c = d.join("hostile");
        once(d, c);
        mark(m, 'r');
        for (;;) once(d, c);
    };
}
static Harm busy(int count, std::uint32_t op) {
    return [=](const Daemon &d, int m) { flood(open_tree(d.join("hostile"), count), op, m); };
}
static void list_all(const Daemon &d, int m) {
    Client c = d.join("hostile");
    auto ends = open_tree(c, 1000);
    std::vector<int> lines;
    for (int i = 0; i < 100; i++) lines.push_back(raw_join(d.path));
    flood(lines, SYSMEMD_NODES, m);
}
static void never_read(const Daemon &d, int m) {
    auto ends = open_tree(d.join("hostile"), 1000);
    auto q = words_of(SYSMEMD_WAITS_FOR);
    for (int fd : ends)
        while (raw_send(fd, &q, sizeof q, {}, MSG_DONTWAIT)) {}
    mark(m, 'r');
    pause();
}
static void connect_and_go(const Daemon &d, const Client &) {
    for (int i = 0; i < 100; i++) ::close(raw_connect(d.path));
}
static void talk_nonsense(const Daemon &d, const Client &) {
    int fd = raw_connect(d.path);
    (void)raw_send(fd, "nonsense", 8);
    ::close(fd);
}
static void close_many(const Daemon &, const Client &c) {
    std::vector<Token> all;
    for (auto one = c.open_root("r"); one && all.size() < 60; one = c.open_root("r")) all.push_back(std::move(*one));
}
static void fail_tree(const Daemon &, const Client &c) {
    auto all = open_tree(c, 1000);
    ::close(all.front());
    CHECK(raw_receive(all.back())); // it was told
    for (std::size_t i = 1; i < all.size(); i++) ::close(all[i]);
    while (c.status().value().descriptors > 1) {}
}
static void take_and_drop(const Daemon &, const Client &c) {
    auto made = c.open_root("a").value().bind_and_take({64, 0, 4096});
    for (int i = 0; i < 10 && made; i++) (void)made->first.take();
}
static void drop_many(const Daemon &, const Client &c) {
    Collection a = allocate(c, 1, 4096);
    std::vector<Handle> all = std::move(*a.take().value());
    for (int i = 0; i < 2000; i++) all.push_back(all[0].duplicate().value());
}
static void free_much(const Daemon &, const Client &c) {
    Collection a = allocate(c, 1, 256 << 20);
    auto handles = *a.take().value();
    std::memset(handles[0].bytes().data(), 1, 256 << 20);
}

// Puts a process on these processors, if there are four: who means harm must not win by taking the daemon's.
static void place(pid_t pid, int first) {
    cpu_set_t set;
    CPU_ZERO(&set);
    CPU_SET(first, &set), CPU_SET(first + 1, &set);
    if (sysconf(_SC_NPROCESSORS_ONLN) >= 4) sched_setaffinity(pid, sizeof set, &set);
}

// A Sync of one uid now and then, while so many processes of another one do this.
static void beside(const Daemon &d, const char *what, int processes, const Harm &harm) {
    std::vector<std::unique_ptr<Child>> all;
    for (int i = 0; i < processes; i++)
        all.push_back(std::make_unique<Child>([&](int m) {
            place(0, 0);
            become(nobody);
            harm(d, m);
        }));
    for (auto &one : all) CHECK(one->await() == 'r');
    Client c = d.join("victim");
    Token t = c.open_root("t").value();
    std::vector<double> times;
    for (auto end = Clock::now() + 3s; Clock::now() < end; usleep(500)) {
        auto start = Clock::now();
        t.sync().value();
        times.push_back(us(Clock::now() - start));
    }
    print(std::string("  ") + what, times);
    all.clear();
}

void measure_hostile(const Daemon &d) {
    if (getuid() != 0) return void(std::puts("not root: no rows of hostile peers"));
    place(0, 2), place(d.pid, 2);
    std::puts("Sync, every 0.5 ms, while another uid");
    beside(d, "does nothing", 0, {});
    beside(d, "keeps 1,000 sockets busy with Syncs", 1, busy(1000, SYSMEM_SYNC));
    beside(d, "the same with lists of who is waited for", 1, busy(1000, SYSMEMD_WAITS_FOR));
    beside(d, "asks over 100 connections for a list of 1,000 nodes", 1, list_all);
    beside(d, "reads none of 1,000 sockets", 1, never_read);
    beside(d, "connects and goes, in four processes", 4, again(connect_and_go));
    beside(d, "sends nonsense, in four processes", 4, again(talk_nonsense));
    beside(d, "opens 60 roots and closes all, in four processes", 4, again(close_many));
    beside(d, "lets trees of 1,000 nodes fail", 1, again(fail_tree));
    beside(d, "takes 64 buffers and drops them, in four processes", 4, again(take_and_drop));
    beside(d, "opens 2,000 handles and drops all", 1, again(drop_many));
    beside(d, "fills 256 MiB and gives it back", 1, again(free_much));
}

// ---- The crowd ----

// Memory of the daemon, and of the kernel's tables; the latter is noisy where others use the machine.
struct Use {
    long daemon, kernel = 0; // kB
    explicit Use(const Daemon &d) : daemon(d.memory()) {
        std::ifstream file("/proc/meminfo");
        for (std::string word; file >> word;)
            if (word == "Slab:") file >> kernel;
    }
};
static void print_use(const char *what, const Daemon &d, const Use &before, int count) {
    Use after(d);
    std::printf("%-56s %6.2f kB in the daemon, %5.1f kB in the kernel\n", what, double(after.daemon - before.daemon) / count,
                double(after.kernel - before.kernel) / count);
}

// Ten uids with a hundred clients each, and a hundred trees of ten ends.
void measure_crowd(const Daemon &d) {
    bool is_root = getuid() == 0;
    int uids = is_root ? 10 : 1;
    Client c = d.join("bench");
    CHECK(is_whole(c));
    std::vector<Client> clients;
    auto join = [&](int count) {
        for (int i = 0; i < count; i++) clients.push_back(join_as(d, is_root ? 30000 + uid_t(i % uids) : getuid()));
    };
    Use before(d);
    join(uids);
    print_use("a core with a pool of 512 MiB", d, before, uids);
    before = Use(d);
    join(99 * uids);
    std::string count = std::to_string(clients.size()) + " clients: each";
    print_use(count.c_str(), d, before, 99 * uids);
    before = Use(d);
    std::vector<Token> ends;
    for (const Client &one : clients) {
        ends.push_back(one.open_root("r").value());
        std::size_t root = ends.size() - 1;
        for (int i = 0; i < 9; i++) ends.push_back(ends[root].duplicate("k").value());
    }
    count = std::to_string(ends.size()) + " ends: each";
    print_use(count.c_str(), d, before, int(ends.size()));
    before = Use(d);
    Collection k = allocate(c, 8, 4096);
    std::vector<Handle> handles;
    for (int i = 0; i < 125; i++) {
        auto got = *k.take().value();
        for (Handle &h : got) handles.push_back(std::move(h));
    }
    print_use("1000 leases, with the client's memfds: each", d, before, int(handles.size()));
    std::printf("%-56s %6ld kB, %zu descriptors\n", "the daemon then", d.memory(), d.files_open());
    measure("Sync beside all these", 5000, [&] { ends[0].sync().value(); });
    auto start = Clock::now();
    for (Token &one : ends) one.sync().value();
    std::printf("%-56s %8.1f\n", "one Sync of each of these ends: each", us(Clock::now() - start) / double(ends.size()));
    start = Clock::now();
    ends.clear();
    handles.clear();
    k.close();
    clients.clear();
    CHECK(comes([&] { return d.files_open() < 100; }) && is_whole(c));
    std::printf("%-56s %8.1f ms\n", "all closed", us(Clock::now() - start) / 1000);
}
