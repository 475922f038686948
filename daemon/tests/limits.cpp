// Limits of descriptors, memory, uids and time.
#include "rig.hpp"

#include "random_life.hpp"

TEST(exhausted) {
    { // the daemon's own descriptors
        Daemon d({}, 64);
        Client c = d.join("witness");
        std::vector<Token> all;
        bool is_refused = false;
        for (int i = 0; i < 200 && !is_refused; i++) {
            auto made = c.open_root("r");
            if (made) all.push_back(std::move(*made));
            else is_refused = made.error().is_no_memory();
        }
        CHECK(is_refused && all.size() > 15 && all.size() < 32); // no uid has more than it leaves to others
        for (Token &t : all) CHECK(t.sync()); // those that are there are served
        auto more = all[0].track_node();
        CHECK(!more && more.error().is_no_memory());
        std::vector<Client> more_clients;
        for (bool is_turned_away = false; !is_turned_away;) {
            CHECK(more_clients.size() < 10);
            auto one = Client::open(d.path); // hears it at once, and does not hang
            if (one) more_clients.push_back(std::move(*one));
            else is_turned_away = true;
        }
        more_clients.clear();
        Collection k = std::move(all.back()).bind().value();
        all.pop_back();
        k.set_constraints({8, 0, 1}).value();
        auto taken = k.take();
        CHECK(!taken && taken.error().is_no_memory()); // 16 descriptors
        CHECK(k.sync());
        all.clear();
        std::optional<std::vector<Handle>> handles;
        CHECK(comes([&] {
            auto got = k.take();
            if (got) handles = std::move(*got);
            return bool(got);
        }));
        CHECK(handles && handles->size() == 8);
        k.close();
        handles.reset();
        CHECK(comes([&] { return bool(Client::open(d.path)); }));
        CHECK(is_whole(c));
    }
    { // a client's: the kernel closes what does not fit, and the daemon drops the handles
        Daemon d;
        Client c = d.join("witness");
        Child child([&](int) {
            rlimit few{40, 40};
            CHECK(setrlimit(RLIMIT_NOFILE, &few) == 0);
            Client mine = d.join("poor");
            Collection k = mine.open_root("k").value().bind().value();
            k.set_constraints({64, 0, 1}).value();
            auto taken = k.take();
            CHECK(!taken && taken.error().is_no_memory());
            CHECK(k.sync());
            std::move(k).release().value();
            CHECK(comes([&] { return mine.status().value().held == 0; }));
            Token root = mine.open_root("root").value();
            std::vector<Token> kids; // a token that this process has no room for is not made, and fails nobody
            for (;;) {
                auto made = root.duplicate("kid");
                if (!made) {
                    CHECK(made.error().is_no_memory());
                    break;
                }
                kids.push_back(std::move(*made));
            }
            CHECK(kids.size() > 20 && root.sync());
        });
        int is = child.end();
        CHECK(WIFEXITED(is) && WEXITSTATUS(is) == 0);
        CHECK(is_whole(c));
    }
    { // the limit of descriptors of a uid
        Daemon d({"--descriptors", "40"});
        Client c = d.join("witness");
        std::vector<Token> all;
        for (int i = 0; i < 100; i++) {
            auto made = c.open_root("r");
            if (!made) {
                CHECK(made.error().is(Refusal::TooManyNodes));
                break;
            }
            all.push_back(std::move(*made));
        }
        CHECK(all.size() == 39);
        auto t = all[0].track_node();
        CHECK(!t && t.error().is(Refusal::TrackersFull));
        all.clear();
        CHECK(is_whole(c));
    }
}

TEST(uid_limits) {
    if (getuid() != 0) return;
    Daemon d({"--mode", "666", "--connections", "5", "--uids", "2", "--nodes", "10"});
    Client c = d.join("root");
    std::vector<Token> mine;
    for (int i = 0; i < 10; i++) mine.push_back(c.open_root("r").value());
    auto full = c.open_root("r");
    CHECK(!full && full.error().is(Refusal::TooManyNodes)); // by the proved core
    as(65534, [&] {
        Client other = d.join("other"); // another uid has a core of its own
        std::vector<Token> its;
        for (int i = 0; i < 10; i++) its.push_back(other.open_root("r").value());
        CHECK(!other.open_root("r") && other.status().value().live == 10);
        std::vector<Client> more;
        for (int i = 0; i < 4; i++) more.push_back(d.join("other"));
        CHECK(!Client::open(d.path)); // the sixth connection
        more.pop_back();
        CHECK(comes([&] { return bool(Client::open(d.path)); }));
        // A token of theirs passes to another uid, whom the core of its opener serves.
        CHECK(its[0].sync());
    });
    int two[2];
    CHECK(socketpair(AF_UNIX, SOCK_SEQPACKET | SOCK_CLOEXEC, 0, two) == 0);
    mine.pop_back(), mine.pop_back();
    CHECK(comes([&] { return c.status().value().live == 8; })); // a close is seen when the daemon comes to that socket
    Token kid = mine[0].duplicate("kid").value();
    std::move(kid).give(two[0]).value();
    as(65534, [&] {
        Client other = d.join("other");
        Token got = other.collect_for(two[1], soon).value()->token().value();
        Collection k = std::move(got).bind().value();
        k.set_constraints({1, 0, 1}).value();
        CHECK(comes([&] { return other.status().value().live == 0; })); // it is in the opener's core
    });
    CHECK(mine[0].wait_failed(soon)->label == "kid");
    mine.clear();
    CHECK(is_whole(c));
}

TEST(rights) {
    if (getuid() != 0) return;
    {
        Daemon d; // mode 600
        struct stat s;
        CHECK(stat(d.path.c_str(), &s) == 0 && (s.st_mode & 0777) == 0600);
        as(65534, [&] {
            auto none = Client::open(d.path);
            CHECK(!none && ending(none.error()) == Ending::NoService);
            CHECK(none.error().note.find(std::strerror(EACCES)) != std::string::npos);
        });
    }
    Daemon d({"--mode", "660"});
    CHECK(chown(d.path.c_str(), 0, 65534) == 0);
    as(65534, [&] { CHECK(Client::open(d.path)); });
    as(1, [&] { CHECK(!Client::open(d.path)); });
}

TEST(crowd) {
    Daemon d({"--connections", "1100"});
    rlimit files{20000, 20000};
    setrlimit(RLIMIT_NOFILE, &files);
    Client app = d.join("app");
    std::vector<Client> clients;
    for (int i = 0; i < 1000; i++) clients.push_back(d.join("c" + std::to_string(i)));
    Token root = app.open_root("root").value();
    std::vector<Collection> ends;
    for (int i = 0; i < 1000; i++) {
        int fd = std::move(root.duplicate("n" + std::to_string(i)).value()).detach();
        ends.push_back(clients[std::size_t(i)].adopt_token(fd).value().bind().value()); // each by its own connection
    }
    Collection top = std::move(root).bind().value();
    for (Collection &one : ends) one.set_constraints({0, 1, 4096}).value();
    CHECK(!top.check().value());
    top.set_constraints({3, 0, 4096}).value();
    for (Collection &one : ends) CHECK(one.wait_allocated(soon).value()->count == 3);
    for (int i = 0; i < 100; i++) CHECK((*ends[std::size_t(i)].take().value()).size() == 3);
    auto start = std::chrono::steady_clock::now();
    ends[500].close();
    for (int i = 0; i < 1000; i++)
        if (i != 500) CHECK(ends[std::size_t(i)].wait_failed(soon)->label == "n500");
    auto took = std::chrono::duration_cast<std::chrono::microseconds>(std::chrono::steady_clock::now() - start).count();
    std::printf("  1,000 ends learn of a failure in %lld us; the daemon has %ld kB\n", (long long)took, d.memory());
    ends.clear();
    top.close();
    clients.clear();
    CHECK(is_whole(app));
}

// One allocation of 40 is refused to the daemon, in the core too: it goes on, answers NoMemory, and makes the calls of
// those that are gone later.
TEST(refused_memory) {
    const char *refuse = std::getenv("REFUSE");
    if (!refuse || !*refuse) return void(std::puts("  not run: REFUSE is not set"));
    Daemon d({}, 0, {std::string("LD_PRELOAD=") + refuse});
    int refusals = 0;
    auto join = [&] {
        for (;;) {
            auto one = Client::open(d.path);
            if (one) return std::move(*one);
            refusals++;
        }
    };
    for (int round = 0; round < 60 || (refusals == 0 && round < 2000); round++) {
        if (round % 2) {
            std::mt19937 rng(std::uint32_t(round) + 7);
            random_life(join(), rng, 400);
        } else {
            Child child([&](int) {
                std::mt19937 own(std::uint32_t(round) + 500);
                random_life(join(), own, 1 << 30);
            });
            usleep(20000);
            child.end(SIGKILL);
        }
        CHECK(d.lives());
    }
    bool is_fine = comes([&] {
        Client c = join();
        auto s = c.status();
        if (!s) refusals++;
        return s && s->live == 0 && s->held == 0 && s->free_pages == s->pages && s->memories == 0 && s->descriptors == 1;
    });
    CHECK(is_fine && refusals > 0);
}

// A client of this uid, which is that of who connects, in this process.
static Client join_as(const Daemon &d, uid_t uid) {
    CHECK(seteuid(uid) == 0);
    Client made = d.join();
    CHECK(seteuid(0) == 0 || getuid() != 0);
    return made;
}

// A uid whose sockets are all ready has its share of a round. Two requests of another uid on one socket are served in two rounds:
// what the busy uid did between them is at most two shares.
TEST(shares) {
    if (getuid() != 0) return void(std::puts("  not run: not root"));
    Daemon d({"--mode", "666", "--share", "20"});
    int line = raw_join(d.path);
    Client its = join_as(d, 65534);
    Token root = its.open_root("root").value();
    std::vector<Token> all;
    for (int i = 0; i < 300; i++) all.push_back(root.duplicate("k").value());
    d.pause();
    auto sync = words_of(SYSMEM_SYNC), q = words_of(SYSMEMD_STATUS_OF);
    for (int i = 0; i < 4; i++)
        for (Token &one : all) CHECK(raw_send(one.fd(), &sync, sizeof sync));
    q.left = 65534;
    for (q.serial = 1; q.serial <= 2; q.serial++) CHECK(raw_send(line, &q, sizeof q));
    d.go_on();
    auto first = raw_receive(line), second = raw_receive(line);
    CHECK(first && second && first->kind == SYSMEMD_STATE && second->serial == 2);
    std::uint64_t more = second->event - first->event;
    std::printf("  %llu requests of the busy uid in between\n", (unsigned long long)more);
    CHECK(more < 150); // without shares one of each socket
    ::close(line);
}

// Descriptors under way that nobody receives count against the daemon's user. No uid has more of them than it leaves to others.
// A claim that can't be delivered, since another process of that user has all, leaves the object where it was.
TEST(in_flight) {
    if (getuid() != 0) return void(std::puts("  not run: not root"));
    const uid_t own = 20000 + uid_t(getpid()) % 20000, others = own + 20000; // what is under way is counted for a user
    Daemon d({"--mode", "666"}, 400, {}, own);
    Client c = d.join();
    Token root = c.open_root("root").value();
    int kid = std::move(root.duplicate("kid").value()).detach(), claims = raw_join(d.path);
    Child hostile([&](int m) {
        become(others);
        Client its = d.join();
        Collection a = its.open_root("a").value().bind().value();
        a.set_constraints({1, 0, 4096}).value();
        std::vector<Handle> all = std::move(*a.take().value());
        for (int i = 0; i < 60; i++) all.push_back(all[0].duplicate().value());
        auto q = words_of(SYSMEMD_MEMORY);
        for (Handle &one : all)
            for (int i = 0; i < 14; i++) CHECK(raw_send(one.fd(), &q, sizeof q));
        CHECK(comes([&] { return !its.open_root("b"); })); // it has no more
        mark(m, 'f');
        pause();
    });
    CHECK(hostile.await() == 'f');
    {
        Collection k = c.open_root("k").value().bind().value();
        k.set_constraints({16, 0, 1}).value();
        for (int i = 0; i < 50; i++) CHECK(comes([&] { return bool(k.take()); })); // others are served
    }
    hostile.end(SIGKILL);
    auto claim = [&] {
        auto q = words_of(SYSMEMD_OFFER);
        q.size = 5;
        CHECK(raw_send(kid, &q, sizeof q));
        q = words_of(SYSMEMD_CLAIM);
        q.size = 5;
        q.cookie = cookie_of(kid);
        std::vector<int> got;
        sysmemd_reply told = raw_ask(claims, q, &got);
        for (int fd : got) ::close(fd);
        return told;
    };
    Child same([&](int m) {
        become(own);
        for (int i = 0; i < 2; i++) {
            int two[2];
            CHECK(socketpair(AF_UNIX, SOCK_STREAM, 0, two) == 0 && raw_send(two[0], "x", 1, std::vector<int>(250, two[0])));
        }
        mark(m, 'f');
        pause();
    });
    CHECK(same.await() == 'f');
    sysmemd_reply told = claim();
    CHECK(told.kind == SYSMEMD_FAULT && told.detail == SYSMEM_NO_MEMORY && d.says("can't be sent"));
    CHECK(raw_ask(kid, words_of(SYSMEM_SYNC)).kind == SYSMEM_OK && root.sync());
    same.end(SIGKILL);
    CHECK(comes([&] { return (told = claim()).kind == SYSMEMD_DESCRIBED; }) && told.detail == SYSMEMD_TOKEN);
    CHECK(is_cut(kid, SYSMEMD_CLAIMED) && root.wait_failed(soon)); // the claimant closed it
    ::close(kid), ::close(claims);
    root.close();
    CHECK(is_whole(c));
}

// A socket whose descriptors are unread gets no more of them, and one that is cut off meanwhile counts as long as they are
// unread.
TEST(unread_files) {
    Daemon d;
    Client c = d.join();
    rlimit files{20000, 20000};
    setrlimit(RLIMIT_NOFILE, &files);
    auto allocate = [&] {
        Collection a = c.open_root("a").value().bind().value();
        a.set_constraints({64, 0, 1}).value();
        CHECK(a.wait_allocated(soon).value());
        return std::move(a).detach();
    };
    auto q = words_of(SYSMEM_TAKE, 1);
    int fd = allocate();
    std::uint64_t events = c.status().value().events;
    for (; q.serial <= 5; q.serial++) CHECK(raw_send(fd, &q, sizeof q));
    std::vector<int> got;
    for (std::uint32_t n = 1; n <= 5; n++) { // one at a time, each once the one before was read
        CHECK(comes([&] { return c.status().value().events == events + n; }));
        usleep(20000);
        CHECK(c.status().value().events == events + n && c.status().value().descriptors == 2 + 64 + 64 * n);
        auto told = raw_receive(fd, 60000, &got);
        CHECK(told && told->kind == SYSMEM_TAKEN && told->serial == n);
    }
    for (int one : got) ::close(one);
    ::close(fd);
    CHECK(is_whole(c));
    for (bool is_received : {false, true}) {
        Collection k = c.open_root("k").value().bind().value();
        k.set_constraints({1, 0, 1}).value();
        int lease = std::move((*k.take().value())[0]).detach();
        std::move(k).release().value();
        q = words_of(SYSMEMD_MEMORY);
        for (int i = 0; i < 5; i++) CHECK(raw_send(lease, &q, sizeof q));
        CHECK(raw_send(lease, "nonsense", 8) && comes([&] { return c.status().value().held == 0; }));
        usleep(20000);
        CHECK(c.status().value().descriptors == 1 + 1); // the socket's other side is still open, with the buffer's file
        for (int i = 0; i < 5 && is_received; i++) CHECK(raw_receive(lease)->kind == SYSMEM_OK);
        if (is_received) CHECK(is_cut(lease, SYSMEMD_MALFORMED));
        else ::close(lease);
        CHECK(is_whole(c));
        if (is_received) ::close(lease);
    }
}

// Nanoseconds that the daemon's threads ran, the loop and the others, and whether one of these works.
struct Times {
    std::uint64_t loop = 0, others = 0;
    bool is_busy = false;
    explicit Times(const Daemon &d) {
        std::string tasks = "/proc/" + std::to_string(d.pid) + "/task";
        DIR *dir = opendir(tasks.c_str());
        CHECK(dir);
        while (dirent *one = readdir(dir)) {
            std::uint64_t time = 0;
            if (one->d_name[0] == '.' || !(std::ifstream(tasks + "/" + one->d_name + "/schedstat") >> time)) continue;
            bool is_loop = one->d_name == std::to_string(d.pid);
            (is_loop ? loop : others) += time;
            is_busy |= !is_loop && state_of(tasks + "/" + one->d_name) != 'S';
        }
        closedir(dir);
    }
};

static bool has_gigabytes(unsigned long n) {
    std::ifstream file("/proc/meminfo");
    for (std::string line; std::getline(file, line);)
        if (line.compare(0, 13, "MemAvailable:") == 0) return std::stoul(line.substr(13)) >= n << 20;
    return false;
}

// The memory of a large buffer is given back by another thread than that which serves, while another uid calls. Not measured by
// the clock, but by who works.
TEST(large) {
    std::uint32_t size = has_gigabytes(4) ? 1 << 30 : 256 << 20;
    Daemon d({"--mode", "666", "--pages", "262144"});
    Client c = d.join();
    Token mine = c.open_root("mine").value();
    Client its = join_as(d, getuid() == 0 ? 65534 : getuid());
    std::size_t files = d.files_open();
    Collection a = its.open_root("a").value().bind().value();
    a.set_constraints({1, 0, size}).value();
    auto handles = *a.take().value();
    std::memset(handles[0].bytes().data(), 1, size);
    Times before(d), last = before;
    handles.clear();
    a.close();
    std::uint64_t calls = 0, longest = 0;
    for (bool is_given_back = false; !is_given_back && calls < 1000000; calls++) {
        bool is_closing = d.files_open() == files;
        CHECK(mine.sync());
        Times now(d);
        is_given_back = is_closing && !now.is_busy;
        longest = std::max(longest, now.loop - std::exchange(last, now).loop);
    }
    std::uint64_t others = last.others - before.others;
    std::printf("  %u MiB given back in %.1f ms; meanwhile the loop ran at most %.2f ms for one of %llu calls\n", size >> 20,
                double(others) / 1e6, double(longest) / 1e6, (unsigned long long)calls);
    CHECK(4 * longest < others);
    mine.close();
    CHECK(is_whole(c) && is_whole(its));
}
