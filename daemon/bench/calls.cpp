// Each request alone, from the daemon's first look to handles in hand; many clients at once; and how soon a death is told.
#include "measure.hpp"

static void requests(const Client &c) {
    Token t = c.open_root("t").value();
    measure("Sync", 20000, [&] { t.sync().value(); });
    measure("OpenRoot and Release", 5000, [&] { std::move(c.open_root("x").value()).release().value(); });
    measure("Duplicate and Release", 900, [&] { // a released child keeps its place while its tree lives
        std::move(t.duplicate("x").value()).release().value();
    });
}

static void constraints(const Client &c) {
    std::vector<double> first, second;
    for (int i = 0; i < 3000; i++) {
        Token root = c.open_root("r").value();
        Token kid = root.duplicate("k").value();
        Collection a = std::move(root).bind().value(), b = std::move(kid).bind().value();
        auto start = Clock::now();
        a.set_constraints({1, 0, 4096}).value();
        first.push_back(us(Clock::now() - start));
        start = Clock::now();
        b.set_constraints({2, 0, 4096}).value();
        second.push_back(us(Clock::now() - start));
        std::move(a).release().value();
        std::move(b).release().value();
    }
    print("SetConstraints that waits for another's", first);
    print("SetConstraints that allocates 3 buffers", second);
}

// Waits until all buffers are home.
static void settle(const Client &c) {
    while (c.status().value().held) {}
}

static void buffers(const Client &c, int count) {
    std::vector<double> taken, all, once, mapped;
    for (int i = 0; i < 1000; i++) { // bind, constraints and take in one message
        settle(c);
        auto start = Clock::now();
        auto both = c.open_root("r").value().bind_and_take({std::uint8_t(count), 0, 65536}).value();
        once.push_back(us(Clock::now() - start));
        CHECK(both.second.value()->size() == std::size_t(count));
        std::move(both.first).release().value();
    }
    for (int i = 0; i < 1000; i++) {
        settle(c);
        auto zero = Clock::now();
        Collection k = c.open_root("r").value().bind().value();
        k.set_constraints({std::uint8_t(count), 0, 65536}).value();
        auto start = Clock::now();
        auto handles = *k.take().value();
        auto then = Clock::now();
        taken.push_back(us(then - start));
        all.push_back(us(then - zero));
        for (Handle &h : handles) h.bytes()[0] = std::byte(1);
        mapped.push_back(us(Clock::now() - then));
        std::move(k).release().value();
    }
    settle(c);
    std::string of = std::to_string(count) + (count == 1 ? " buffer" : " buffers") + " of 64 KiB";
    print("Take of " + of, taken);
    print("OpenRoot to handles in hand, " + of, all);
    print("the same in two messages", once);
    print("mmap and first byte of " + of, mapped);
}

static void frame(const Client &c) {
    Collection k = c.open_root("r").value().bind().value();
    k.set_constraints({2, 0, 65536}).value();
    auto handles = *k.take().value();
    int two[2];
    CHECK(socketpair(AF_UNIX, SOCK_SEQPACKET | SOCK_CLOEXEC, 0, two) == 0);
    measure("a frame: duplicate, give, adopt, map, drop, idle", 3000, [&] {
        handles[0].duplicate().value().give(two[0]).value();
        handles[0].on_idle(1).value();
        {
            Handle h = c.collect_for(two[1], 5s).value()->handle().value();
            h.bytes()[0] = std::byte(1);
        }
        CHECK(handles[0].wait_idle(1, 5s).value());
    });
    ::close(two[0]), ::close(two[1]);
}

static double throughput(const Daemon &d, int clients) {
    std::vector<std::unique_ptr<Child>> all;
    int go[2];
    CHECK(pipe(go) == 0);
    for (int i = 0; i < clients; i++)
        all.push_back(std::make_unique<Child>([&](int m) {
            Client c = d.join("c");
            Token t = c.open_root("t").value();
            mark(m, 'r');
            char word;
            CHECK(read(go[0], &word, 1) == 1);
            auto end = Clock::now() + 2s;
            std::uint64_t n = 0;
            while (Clock::now() < end) t.sync().value(), n++;
            CHECK(write(m, &n, sizeof n) == sizeof n);
        }));
    for (auto &one : all) CHECK(one->await() == 'r');
    for (int i = 0; i < clients; i++) mark(go[1], 'g');
    std::uint64_t sum = 0;
    for (auto &one : all) {
        std::uint64_t n = 0;
        CHECK(read(one->from, &n, sizeof n) == sizeof n);
        sum += n;
        one->end();
    }
    ::close(go[0]), ::close(go[1]);
    return double(sum) / 2;
}

// From a SIGKILL to the failure of another's end.
static void notice(const char *what, const Daemon &d, std::size_t touched) {
    Client c = d.join("app");
    std::vector<double> times;
    for (int i = 0; i < (touched ? 20 : 200); i++) {
        Token root = c.open_root("root").value();
        int fd = std::move(root.duplicate("victim").value()).detach();
        Collection mine = std::move(root).bind().value();
        Child victim([&](int m) {
            ::close(mine.fd()); // the copy that the fork made
            if (touched) std::memset(mmap(nullptr, touched, PROT_READ | PROT_WRITE, MAP_PRIVATE | MAP_ANONYMOUS, -1, 0), 1, touched);
            mark(m, 'r');
            pause();
        });
        ::close(fd);
        CHECK(victim.await() == 'r');
        usleep(1000);
        auto start = Clock::now();
        kill(victim.pid, SIGKILL);
        CHECK(mine.wait_failed(soon));
        times.push_back(us(Clock::now() - start));
        victim.end();
    }
    print(what, std::move(times));
}

void measure_calls(const Daemon &d) {
    Client c = d.join("bench");
    requests(c);
    constraints(c);
    for (int count : {1, 3, 64}) buffers(c, count);
    frame(c);
    CHECK(is_whole(c));
}

void measure_busy(const Daemon &d) {
    for (int clients : {1, 2, 4, 8})
        std::printf("Syncs a second, of %d clients in processes %*.0f\n", clients, 32, throughput(d, clients));
    notice("SIGKILL to the others' notice", d, 0);
    notice("the same, of a process with 256 MB touched", d, 256 << 20);
}
