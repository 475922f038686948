// Messages and peers that mean harm.
#include "rig.hpp"

#include <linux/userfaultfd.h>
#include <netinet/in.h>
#include <random>
#include <sys/ioctl.h>
#include <sys/syscall.h>
#include <thread>

TEST(malformed) {
    Daemon d;
    Client c = d.join("witness");
    CHECK(is_whole(c));
    std::size_t files = d.files_open();
    Token mine = c.open_root("mine").value();
    // Each kind of object, made anew by a client of its own: descriptors by name.
    struct Set {
        int connection, fresh, token, collection, lease, tracker;
    };
    auto make = [&] {
        Client one = d.join("hostile");
        Set s{};
        Token t = one.open_root("t").value();
        Collection k = one.open_root("k").value().bind().value();
        k.set_constraints({1, 0, 1}).value();
        s.lease = std::move((*k.take().value())[0]).detach();
        s.tracker = dup(k.track_node().value().fd());
        s.token = std::move(t).detach();
        CHECK(k.is_allocated()); // its event is read
        s.collection = std::move(k).detach();
        s.connection = raw_join(d.path);
        s.fresh = raw_connect(d.path);
        return s;
    };
    auto end = [](Set &s) {
        for (int fd : {s.connection, s.fresh, s.token, s.collection, s.lease, s.tracker}) ::close(fd);
    };
    std::vector<int> many(250, STDIN_FILENO), one_fd{STDIN_FILENO};
    char big[100000] = {};
    int cuts = 0;
    // What is wrong with a request that is good otherwise.
    enum { EMPTY, BYTE, SHORT, LONG, HUGE, SERIAL, ZERO, ZERO2, LABEL_END, ONE_FD, MANY_FDS, ITSELF, NO_OP, CLOSE, OTHERS_OP, GIVE,
           SIZE, LEFT, COOKIE, LABEL, COUNTS, CHILDREN, FAULTS };
    for (int what = 0; what < FAULTS; what++)
        for (int on = 0; on < 6; on++) {
            if (on == 1 && (what == LEFT || what == LABEL)) continue; // a Hello reads them
            Set s = make();
            const int kinds[] = {s.connection, s.fresh, s.token, s.collection, s.lease, s.tracker};
            const std::uint32_t ops[] = {SYSMEMD_STATUS, SYSMEMD_HELLO, SYSMEM_SYNC, SYSMEM_SYNC, SYSMEMD_OPEN_HANDLES, SYSMEMD_DESCRIBE};
            int fd = kinds[on];
            auto q = words_of(ops[on]);
            std::size_t length = sizeof q;
            std::vector<int> along;
            switch (what) {
            case EMPTY: length = 0; break;
            case BYTE: length = 1; break;
            case SHORT: length = sizeof q - 1; break;
            case LONG: length = sizeof q + 1; break;
            case HUGE: length = sizeof big; break;
            case SERIAL: q.serial = 0; break;
            case ZERO: q.zero = 1; break;
            case ZERO2: q.zero2 = 1; break;
            case LABEL_END: std::memset(q.label, 'x', sizeof q.label); break;
            case ONE_FD: along = one_fd; break;
            case MANY_FDS: along = many; break;
            case ITSELF: along = {fd}; break;
            case NO_OP: q = words_of(UINT32_MAX); break;
            case CLOSE: q = words_of(SYSMEM_CLOSE); break; // no op over a socket
            case OTHERS_OP: q = words_of(on == 0 ? SYSMEM_TAKE : SYSMEM_OPEN_ROOT); break; // or before Hello
            case GIVE: q = words_of(SYSMEM_GIVE); break;
            case SIZE: q.size = 1; break;
            case LEFT: q.left = 1; break;
            case COOKIE: q.cookie = 1; break;
            case LABEL: q.label[3] = 'x'; break;
            case COUNTS: q.at_least = 1; break;
            case CHILDREN: q.children = 1; break;
            }
            std::memcpy(big, &q, sizeof q);
            bool is_sent = raw_send(fd, big, length, along);
            bool is_refused = !is_sent && errno == EPERM; // SO_PASSRIGHTS: nothing came
            CHECK(along.empty() ? is_sent && is_cut(fd, length == 0 ? 0 : SYSMEMD_MALFORMED) : is_refused);
            cuts++;
            CHECK(mine.sync());
            end(s);
        }
    CHECK(cuts == FAULTS * 6 - 2);
    usleep(1100000); // 20 lines a second are logged
    for (std::uint32_t version : {0u, 2u}) { // it is told which one the daemon has
        int fd = raw_connect(d.path);
        auto q = words_of(SYSMEMD_HELLO);
        q.left = version;
        CHECK(raw_send(fd, &q, sizeof q));
        auto told = raw_receive(fd);
        CHECK(told && told->kind == SYSMEMD_ENDING && told->detail == SYSMEMD_VERSION_IS && told->count == SYSMEMD_VERSION);
        CHECK(is_cut(fd));
        ::close(fd);
    }
    CHECK(d.says("cut off: a message was malformed") && d.says("cut off: the daemon has another version"));
    mine.close();
    CHECK(is_whole(c));
    CHECK(d.files_open() == files); // none of what came along stayed
}

// Several requests in one message: each has its reply, in order, or nothing of it is done.
TEST(several) {
    Daemon d;
    Client c = d.join();
    int fd = std::move(c.open_root("r").value()).detach();
    auto list = [](std::vector<std::uint32_t> ops) {
        std::vector<sysmemd_request> all;
        for (std::uint32_t op : ops) all.push_back(words_of(op, std::uint32_t(all.size()) + 1));
        return all;
    };
    auto send = [&](const std::vector<sysmemd_request> &all) { return raw_send(fd, all.data(), all.size() * sizeof all[0]); };
    auto all = list({SYSMEM_SYNC, SYSMEM_CHECK, SYSMEM_BIND, SYSMEM_BIND, SYSMEM_SET_CONSTRAINTS, SYSMEM_TAKE});
    all[4].camping = 2, all[4].size = 4096;
    CHECK(send(all));
    std::uint32_t kinds[] = {SYSMEM_OK, SYSMEM_REFUSED, SYSMEM_OK, SYSMEM_REFUSED, SYSMEM_OK, SYSMEMD_ALLOCATED, SYSMEM_TAKEN};
    std::uint32_t serial = 0; // what is refused stops nothing; the event has none
    for (std::uint32_t kind : kinds) {
        auto told = raw_receive(fd);
        CHECK(told && told->kind == kind && told->serial == (kind == SYSMEMD_ALLOCATED ? 0 : ++serial));
    }
    CHECK(send(std::vector<sysmemd_request>(16, words_of(SYSMEM_SYNC))));
    for (int i = 0; i < 16; i++) CHECK(raw_receive(fd)->kind == SYSMEM_OK);
    ::close(fd);
    for (int what = 0; what < 6; what++) {
        Collection a = c.open_root("a").value().bind().value();
        Token kid = a.attach_token("kid").value(); // hears if its parent fails
        std::uint64_t events = c.status().value().events;
        fd = a.fd();
        all = list({SYSMEM_SYNC, SYSMEM_SYNC});
        if (what == 0) all = std::vector<sysmemd_request>(17, words_of(SYSMEM_SYNC));
        if (what == 1) all[1].zero = 1;
        if (what == 2) all[1].serial = 0;
        if (what == 3) all = list({SYSMEM_TAKE, SYSMEM_SYNC});
        if (what == 4) all = list({SYSMEM_RELEASE, SYSMEM_SYNC});
        if (what == 5) all = list({SYSMEMD_WAITS_FOR, SYSMEM_SYNC});
        CHECK(send(all) && is_cut(fd, SYSMEMD_MALFORMED) && kid.wait_failed(soon));
        CHECK(c.status().value().events == events + 1); // the Close alone
    }
    { // the daemon tells of the fault of a part
        auto [mine, handles] = c.open_root("r").value().bind_and_take({65, 0, 1}).value();
        CHECK(!handles && handles.error().is_bad_call() && handles.error().note.find("camping") == 0 && mine.sync());
    }
    Token root = c.open_root("r").value(), other = root.duplicate("o").value();
    auto [mine, none] = std::move(root).bind_and_take({1, 0, 4096}).value();
    CHECK(none && !*none && !root); // pending
    auto [its, taken] = std::move(other).bind_and_take({1, 0, 4096}).value();
    CHECK(taken && (*taken)->size() == 2 && (**taken)[1].bytes().size() == 4096 && mine.take().value()->size() == 2);
    auto spent = std::move(other).bind_and_take({1, 0, 4096});
    CHECK(!spent && spent.error().is(Refusal::NoSuchEnd));
    taken->reset();
    mine.close(), its.close();
    CHECK(is_whole(c));
}

// Any op, with the fields that it reads, and once in a while with others.
static sysmemd_request random_request(std::mt19937 &rng) {
    static const std::uint32_t ops[] = {2, 3, 4, 5, 8, 9, 10, 11, 12, 13, 14, 15, 17, 20, 21, 22, 65, 66, 67, 68, 69, 70, 71, 72, 73, 74, 75, 76};
    sysmemd_request q = words_of(ops[rng() % 28], 1 + rng() % 1000);
    bool is_all = rng() % 100 == 0;
    if (is_all || q.op == SYSMEM_SET_CONSTRAINTS) {
        q.size = rng() % 3 ? 1 + rng() % 5000 : std::uint32_t(rng());
        q.camping = std::uint8_t(rng() % 20 ? rng() % 4 : rng() % 70);
        q.at_least = std::uint8_t(rng() % 3);
    }
    if (is_all || q.op == SYSMEM_SET_WEAK_OK) q.children = std::uint8_t(rng() % 2);
    if (is_all || q.op == SYSMEM_TRACK_LIFETIME || q.op == SYSMEMD_ON_IDLE || q.op == SYSMEMD_NODES || q.op >= SYSMEMD_INSPECT) q.left = rng() % 4;
    if (q.op == SYSMEMD_OFFER || q.op == SYSMEMD_CLAIM) q.size = rng() % 2, q.left = rng() % 2;
    if (is_all || q.op == SYSMEMD_CLAIM || q.op == SYSMEMD_ON_IDLE) q.cookie = rng();
    return q;
}

TEST(fuzzed) {
    Daemon d;
    Client c = d.join("witness");
    const char *messages = std::getenv("MESSAGES"), *seed = std::getenv("SEED"); // `make random` has millions
    std::mt19937 rng(seed ? std::uint32_t(std::atol(seed)) : 3);
    std::size_t sent = 0, live = 0;
    for (std::size_t round = 0; sent < (messages ? std::size_t(std::atoll(messages)) : 17000) || live <= 100; round++) {
        std::vector<int> fds;
        for (int i = 0; i < 400; i++) {
            if (fds.empty() || rng() % 50 == 0) {
                fds.push_back(raw_connect(d.path));
                auto hello = words_of(SYSMEMD_HELLO);
                CHECK(fds.back() >= 0 && raw_send(fds.back(), &hello, sizeof hello));
            }
            std::size_t at = rng() % fds.size();
            sysmemd_request all[4];
            std::size_t count = rng() % 8 ? 1 : 1 + rng() % 4;
            for (std::size_t n = 0; n < count; n++) all[n] = random_request(rng);
            if (rng() % 50 == 0)
                for (std::size_t b = 0; b < sizeof all; b++) reinterpret_cast<unsigned char *>(all)[b] ^= rng() % 64 ? 0 : rng();
            if (!raw_send(fds[at], all, count * sizeof *all, {}, MSG_DONTWAIT)) {
                ::close(fds[at]);
                fds.erase(fds.begin() + std::ptrdiff_t(at));
                continue;
            }
            sent++;
            if (all[0].op == SYSMEMD_OFFER || rng() % 4 == 0) continue; // its reply is read by a later one, or never
            std::vector<int> more;
            auto told = raw_receive(fds[at], 1, &more);
            live += told && (told->kind == SYSMEM_NEW_TOKEN || told->kind == SYSMEM_TAKEN);
            for (int fd : more) fds.push_back(fd); // memfds among them: a request on one fails
            while (fds.size() > 200) ::close(fds.back()), fds.pop_back();
        }
        for (int fd : fds) ::close(fd);
        if (round % 10 == 9) CHECK(is_whole(c));
        if (round % 1000 == 999) std::printf("  %zu messages\n", sent);
    }
    CHECK(is_whole(c) && d.lives());
    std::printf("  %zu requests, %zu made or took something\n", sent, live);
}

TEST(unread) {
    Daemon d;
    Client c = d.join("witness");
    Token mine = c.open_root("mine").value();
    std::vector<std::pair<int, std::uint32_t>> deaf; // with how many requests
    long before = 0;
    for (int i = 0; i < 20; i++) {
        int fd = raw_join(d.path);
        std::vector<int> got;
        CHECK(raw_ask(fd, words_of(SYSMEM_OPEN_ROOT), &got).kind == SYSMEM_NEW_TOKEN && got.size() == 1);
        ::close(fd);
        if (i == 10) before = d.memory();
        auto q = words_of(SYSMEM_SYNC, 1);
        for (; raw_send(got[0], &q, sizeof q, {}, MSG_DONTWAIT); q.serial++) {} // until its own queue is full
        deaf.emplace_back(got[0], q.serial - 1);
    }
    for (int i = 0; i < 1000; i++) CHECK(mine.sync()); // others are served
    CHECK(comes([&] { // the deaf ones wait, and the daemon does not spin
        std::uint64_t events = c.status().value().events;
        usleep(100000);
        return c.status().value().events == events;
    }));
    CHECK(is_sanitized() || d.memory() - before < 1000); // kB
    for (auto [fd, count] : deaf) { // once they read, all is answered, in order
        for (std::uint32_t n = 1; n <= count; n++) {
            auto told = raw_receive(fd);
            CHECK(told && told->serial == n && told->kind == SYSMEM_OK);
        }
        ::close(fd);
    }
    mine.close();
    CHECK(is_whole(c));
    // Replies with descriptors, unread: takes of 64 buffers on each of some ends.
    std::vector<Collection> ends;
    for (int i = 0; i < 8; i++) {
        ends.push_back(c.open_root("r").value().bind().value());
        ends.back().set_constraints({64, 0, 1}).value();
        auto q = words_of(SYSMEM_TAKE);
        for (int n = 0; n < 20; n++) (void)raw_send(ends.back().fd(), &q, sizeof q, {}, MSG_DONTWAIT);
    }
    CHECK(c.status() && d.lives());
    ends.clear();
    CHECK(is_whole(c));
}

// The last copy of a TCP socket that lingers: who closes it waits. It does not come as far as the daemon.
TEST(lingering) {
    Daemon d;
    Client c = d.join();
    Token mine = c.open_root("mine").value();
    int listens = socket(AF_INET, SOCK_STREAM | SOCK_CLOEXEC, 0), small = 4096;
    sockaddr_in at{};
    at.sin_family = AF_INET;
    at.sin_addr.s_addr = htonl(INADDR_LOOPBACK);
    socklen_t length = sizeof at;
    setsockopt(listens, SOL_SOCKET, SO_RCVBUF, &small, sizeof small);
    if (bind(listens, reinterpret_cast<sockaddr *>(&at), sizeof at) || listen(listens, 1)) return void(std::puts("  not run: no network"));
    CHECK(getsockname(listens, reinterpret_cast<sockaddr *>(&at), &length) == 0);
    int lingers = socket(AF_INET, SOCK_STREAM | SOCK_CLOEXEC, 0);
    CHECK(connect(lingers, reinterpret_cast<sockaddr *>(&at), sizeof at) == 0);
    int peer = accept(listens, nullptr, nullptr);
    static char bytes[65536];
    while (send(lingers, bytes, sizeof bytes, MSG_DONTWAIT) > 0) {}
    struct linger is {1, 600};
    CHECK(setsockopt(lingers, SOL_SOCKET, SO_LINGER, &is, sizeof is) == 0);
    int line = raw_join(d.path);
    auto q = words_of(SYSMEMD_STATUS);
    d.pause();
    CHECK(!raw_send(line, &q, sizeof q, {lingers}) && errno == EPERM);
    d.go_on();
    CHECK(mine.sync() && raw_ask(line, q).kind == SYSMEMD_STATE); // nothing was sent: the socket is fine
    is.l_linger = 0;
    setsockopt(lingers, SOL_SOCKET, SO_LINGER, &is, sizeof is);
    ::close(lingers), ::close(peer), ::close(listens), ::close(line);
}

// A holder sits in write() on a buffer's memfd, at a page that never comes, and lets go of all leases: nothing of the daemon
// waits for the file's lock.
TEST(locked_file) {
    Daemon d;
    Client c = d.join();
    Token mine = c.open_root("mine").value();
    Child holder([&](int m) {
        long faults = syscall(SYS_userfaultfd, O_CLOEXEC | O_NONBLOCK);
        uffdio_api api{};
        api.api = UFFD_API;
        if (faults < 0 || ioctl(int(faults), UFFDIO_API, &api)) mark(m, 'n'), _exit(0);
        void *page = mmap(nullptr, 4096, PROT_READ | PROT_WRITE, MAP_PRIVATE | MAP_ANONYMOUS, -1, 0);
        uffdio_register range{};
        range.range = {reinterpret_cast<std::uintptr_t>(page), 4096};
        range.mode = UFFDIO_REGISTER_MODE_MISSING;
        if (ioctl(int(faults), UFFDIO_REGISTER, &range)) mark(m, 'n'), _exit(0);
        Client its = d.join("holder");
        Collection a = its.open_root("a").value().bind().value();
        a.set_constraints({1, 0, 4096}).value();
        auto handles = *a.take().value();
        int file = dup(handles[0].memory_fd());
        std::thread([=] { (void)!write(file, page, 4096); }).detach();
        pollfd fault{int(faults), POLLIN, 0};
        CHECK(poll(&fault, 1, 60000) == 1); // it has the lock, and waits for the page
        handles.clear();
        a.close();
        mark(m, 'l');
        pause();
    });
    char told = holder.await();
    if (told == 'n') return void(std::puts("  not run: no userfaultfd"));
    CHECK(told == 'l');
    CHECK(comes([&] { return c.status().value().live == 1 && c.status().value().held == 0; }) && mine.sync());
    CHECK(comes([&] { return d.state() != 'D'; }));
    holder.end(SIGKILL);
}

// Who connects and says nothing costs others nothing, and is cut off after five seconds.
TEST(half_open) {
    Daemon d({"--connections", "20"});
    Client c = d.join();
    std::vector<int> silent;
    CHECK(comes([&] { return c.status().value().descriptors == 1; }));
    d.pause(); // so that it takes all at once
    for (int i = 0; i < 25; i++) silent.push_back(raw_connect(d.path)); // some are turned away
    auto q = words_of(SYSMEMD_HELLO);
    CHECK(raw_send(silent.back(), &q, sizeof q));
    d.go_on();
    auto crowded = raw_receive(silent.back());
    CHECK(crowded && crowded->kind == SYSMEMD_ENDING && crowded->detail == SYSMEMD_CROWDED);
    for (int fd : silent) {
        CHECK(is_cut(fd));
        ::close(fd);
    }
    CHECK(d.says("cut off: no Hello came in time"));
    CHECK(comes([&] { return bool(Client::open(d.path)); }) && c.status());
}

// A list comes some nodes at a time, and what is unread lies in its socket alone.
TEST(lists) {
    Daemon d;
    Client c = d.join();
    Token root = c.open_root("root").value();
    std::vector<Token> kids;
    for (int i = 0; i < 200; i++) kids.push_back(root.duplicate("k" + std::to_string(i)).value());
    Collection top = std::move(root).bind().value();
    top.set_constraints({1, 0, 1}).value();
    auto all = c.nodes().value(), waits = top.waits_for().value();
    CHECK(all.size() == 201 && waits.size() == 200);
    for (int i = 0; i < 200; i++) CHECK(waits[std::size_t(i)].label == "k" + std::to_string(i) && !waits[std::size_t(i)].is_bound);
    long before = d.memory();
    std::size_t files = d.files_open();
    for (Token &one : kids) {
        auto q = words_of(SYSMEMD_WAITS_FOR);
        for (int n = 0; n < 20; n++) (void)raw_send(one.fd(), &q, sizeof q, {}, MSG_DONTWAIT);
    }
    CHECK(c.status().value().descriptors == 202 && d.files_open() == files);
    CHECK(is_sanitized() || d.memory() - before < 4000);
    kids.clear();
    top.close();
    CHECK(is_whole(c));
}
