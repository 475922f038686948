// Clients that die.
#include "rig.hpp"

#include "random_life.hpp"

#include <thread>

// A client's steps. At step n it says so, and waits to be killed.
static void steps(const Daemon &d, int m, int n, int gift) {
    int at = 0;
    auto step = [&] {
        if (at++ != n) return;
        mark(m, 's');
        pause();
    };
    int raw = raw_connect(d.path);
    step(); // 0: connected, nothing said
    ::close(raw);
    Client c = d.join("victim");
    step();
    Token root = c.open_root("root").value();
    step();
    Token kid = root.duplicate("kid").value();
    step();
    kid.set_dispensable().value();
    step();
    Token third = root.duplicate("third").value();
    third.set_weak().value();
    third.set_weak_ok(true).value();
    step();
    std::move(third).give(gift).value();
    step(); // 6: a token is under way
    Collection a = std::move(root).bind().value();
    step();
    Collection b = std::move(kid).bind().value();
    b.set_constraints({1, 1, 100000}).value();
    step();
    Tracker node = b.track_node().value(), life = b.track_lifetime(0).value();
    step();
    a.set_constraints({2, 0, 4096}).value();
    step();
    int mine[2];
    CHECK(socketpair(AF_UNIX, SOCK_SEQPACKET | SOCK_CLOEXEC, 0, mine) == 0);
    Collection alone = c.open_root("alone").value().bind().value();
    alone.set_constraints({3, 0, 8192}).value();
    step(); // 11: allocated
    auto handles = *alone.take().value();
    step();
    for (Handle &h : handles) std::memset(h.bytes().data(), 1, h.bytes().size());
    step();
    Handle more = handles[0].duplicate().value();
    handles[0].on_idle(1).value();
    step();
    std::move(more).give(mine[0]).value();
    step(); // 15: a handle is under way to itself
    handles[1].drop();
    Token attached = alone.attach_token("at").value();
    step();
    Collection bound = std::move(attached).bind().value();
    bound.set_weak().value();
    bound.set_constraints({0, 0, 1}).value();
    step();
    auto weakly = *bound.take().value();
    Tracker asap = weakly[0].track_weak().value();
    step();
    std::move(alone).release().value();
    step(); // 19
    { // a request without its reply read, and a reply that nobody reads
        auto q = words_of(SYSMEM_TAKE);
        CHECK(raw_send(bound.fd(), &q, sizeof q));
        usleep(20000);
    }
    step(); // 20
    b.close();
    step();
}

TEST(killed) {
    Daemon d;
    Client c = d.join("witness");
    Token mine = c.open_root("mine").value(); // another's tree, which nothing of this concerns
    int gift[2];
    CHECK(socketpair(AF_UNIX, SOCK_SEQPACKET | SOCK_CLOEXEC, 0, gift) == 0);
    int n = 0;
    for (; n < 100; n++) {
        bool is_over = false;
        {
            Child child([&](int m) { steps(d, m, n, gift[1]); });
            is_over = child.await() != 's';
            child.end(is_over ? 0 : SIGKILL);
        }
        for (;;) { // the token that was under way is ours
            int fd = sysmem::remote::detail::receive_fd(gift[0], std::chrono::steady_clock::now() + 1ms);
            if (fd < 0) break;
            Token got = c.adopt_token(fd).value();
            auto why = got.wait_failed(soon);
            CHECK(why && why->is(Cause::Lost));
        }
        CHECK(mine.sync());
        if (!is_whole(c, 1, 1)) std::fprintf(stderr, "step %d\n", n), _exit(1);
        if (is_over) break;
    }
    CHECK(n == 22);
    mine.close();
    CHECK(is_whole(c));
}

TEST(killed_anywhere) {
    Daemon d;
    Client c = d.join("witness");
    std::mt19937 rng(1);
    const char *rounds = std::getenv("KILLS");
    for (int round = 0; round < (rounds ? std::atoi(rounds) : 150) || c.status().value().events <= 1000; round++) {
        Child child([&](int) {
            std::mt19937 own(std::uint32_t(round) + 100);
            Client mine = d.join("victim");
            random_life(mine, own, 1 << 30);
        });
        usleep(500 + rng() % 30000);
        child.end(SIGKILL);
        if (round % 10 == 9) CHECK(is_whole(c));
    }
    CHECK(is_whole(c));
}

// Several processes in one tree, each killed in turn by chance: the tree fails whole or in part, and nothing is left.
TEST(tree_killed) {
    Daemon d;
    Client c = d.join("app");
    std::mt19937 rng(2);
    for (int round = 0; round < 60; round++) {
        Token root = c.open_root("root").value();
        std::vector<std::unique_ptr<Child>> all;
        int back[2];
        CHECK(socketpair(AF_UNIX, SOCK_SEQPACKET | SOCK_CLOEXEC, 0, back) == 0);
        for (int i = 0; i < 3; i++) {
            Token kid = root.duplicate("kid" + std::to_string(i)).value();
            if (round % 3 == i) kid.set_dispensable().value();
            int two[2];
            CHECK(socketpair(AF_UNIX, SOCK_SEQPACKET | SOCK_CLOEXEC, 0, two) == 0);
            all.push_back(std::make_unique<Child>([&](int m) {
                Client mine = d.join("kid");
                root.close(); // the copy that the fork made of the app's end, and of the kid's
                int fd = std::move(kid).detach();
                auto its = mine.adopt_token(fd).value().bind(); // refused if another was killed by now
                if (!its || !its->set_constraints({1, 0, 4096}) || !its->wait_allocated(soon)) return;
                auto taken = its->take();
                if (taken && *taken) mark(m, 't');
                (void)its->wait_failed(soon);
            }));
            ::close(two[0]), ::close(two[1]);
        }
        ::close(back[0]), ::close(back[1]);
        Collection mine = std::move(root).bind().value();
        mine.set_constraints({0, 0, 1}).value();
        if (rng() % 2)
            for (auto &one : all) CHECK(one->await() == 't');
        else usleep(rng() % 3000);
        int victim = int(rng() % 3);
        all[std::size_t(victim)]->end(SIGKILL);
        if (round % 3 != victim) CHECK(mine.wait_failed(soon));
        else usleep(1000);
        mine.close();
        all.clear();
        CHECK(is_whole(c));
    }
}

// The rule for death: once a wait tells that a process that was killed has let go, it writes no more. What it wrote last may
// be torn. Four threads of it write all the time; the next writer's bytes stay as they are.
TEST(killed_writing) {
    Daemon d;
    Client c = d.join("camera");
    constexpr std::size_t size = 1 << 20;
    Collection mine = c.open_root("camera").value().bind().value();
    mine.set_constraints({1, 0, size}).value();
    auto handles = *mine.take().value();
    Bytes bytes = handles[0].bytes();
    int torn = 0;
    for (int round = 1; round <= 25; round++) {
        int fd = std::move(handles[0].duplicate().value()).detach();
        std::memset(bytes.data(), 0, bytes.size());
        Child writer([&](int m) {
            c.vanish(); // of the fork's copies only its own lease is left, and the socket of the camera's end
            ::close(mine.fd()), ::close(handles[0].fd());
            Client its = d.join("writer");
            Handle lease = its.adopt_handle(fd).value();
            std::byte *to = lease.bytes().data();
            std::vector<std::thread> all;
            for (int t = 0; t < 4; t++)
                all.emplace_back([=] {
                    for (unsigned n = 1;; n++) std::memset(to, int(n % 250 + 1), size);
                });
            while (to[size - 1] == std::byte(0)) {}
            mark(m, 'w');
            pause();
        });
        ::close(fd);
        CHECK(writer.await() == 'w');
        kill(writer.pid, SIGKILL);
        CHECK(handles[0].wait_idle(1, soon).value());
        torn += std::any_of(bytes.begin(), bytes.end(), [&](std::byte b) { return b != bytes[0]; });
        std::memset(bytes.data(), 255, bytes.size());
        usleep(2000);
        for (std::byte b : bytes) CHECK(b == std::byte(255));
        writer.end();
    }
    std::printf("  %d of 25 buffers were torn\n", torn);
    handles.clear();
    mine.close();
    CHECK(is_whole(c));
}

// What a stale mapping sees and does: it has the bytes of its own buffer, as all who had that, and never those of another.
TEST(stale_mapping) {
    Daemon d({"--pages", "2"});
    Client c = d.join();
    auto allocate = [&] {
        Collection a = c.open_root("a").value().bind().value();
        a.set_constraints({1, 0, 8192}).value(); // the whole pool
        return a;
    };
    Collection first = allocate();
    auto handles = *first.take().value();
    std::memset(handles[0].bytes().data(), 1, 8192);
    int file = dup(handles[0].memory_fd());
    auto *stale = static_cast<unsigned char *>(mmap(nullptr, 8192, PROT_READ | PROT_WRITE, MAP_SHARED, file, 0));
    CHECK(stale != MAP_FAILED);
    handles.clear();
    first.close();
    CHECK(is_whole(c)); // the pages are free, though the mapping is there
    Collection second = allocate();
    auto others = *second.take().value();
    Bytes bytes = others[0].bytes();
    for (std::byte b : bytes) CHECK(b == std::byte(0)); // nothing of the first is seen
    std::memset(bytes.data(), 2, bytes.size());
    CHECK(stale[0] == 1 && stale[8191] == 1);
    std::memset(stale, 3, 8192);
    for (std::byte b : bytes) CHECK(b == std::byte(2));
    // Within its buffer's life a stale mapping, unlike a dead process, goes on.
    Handle more = others[0].duplicate().value();
    int second_file = dup(more.memory_fd());
    auto *late = static_cast<unsigned char *>(mmap(nullptr, 8192, PROT_READ | PROT_WRITE, MAP_SHARED, second_file, 0));
    more.drop();
    CHECK(others[0].wait_idle(1, soon).value());
    late[5] = 9;
    CHECK(bytes[5] == std::byte(9));
    ::close(file), ::close(second_file);
}
