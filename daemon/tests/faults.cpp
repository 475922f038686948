// Answers of the core and of the system that a test can bring about only by a daemon that is lied to (tests/wrapped), and
// events of sockets that are no more.
#include "random_life.hpp"

// The core is refused the memory for each last call twice: it is made later, and only once.
TEST(late_calls) {
    Daemon d({}, 0, {"SYSMEMD_LATE=2"});
    Client c = d.join();
    Token root = c.open_root("root").value();
    Token kid = root.duplicate("kid").value(), gone = root.duplicate("gone").value();
    gone.set_dispensable().value();
    Collection a = std::move(root).bind().value(), b = std::move(kid).bind().value(), w = std::move(gone).bind().value();
    for (Collection *one : {&a, &b, &w}) one->set_constraints({1, 0, 4096}).value();
    auto handles = *a.take().value(), others = *b.take().value();
    CHECK(handles.size() == 3);
    {
        Tracker fires = w.track_node().value();
        w.close(); // dispensable: the others go on
        CHECK(fires.wait_for(soon) && a.sync());
    }
    others.clear();
    for (Handle &one : handles) CHECK(one.wait_idle(1, soon).value()); // nothing is late: the refusals begin anew
    auto told = std::move(b).release(); // refused now, and made later: nobody fails
    CHECK(!told && told.error().is_no_memory());
    CHECK(comes([&] { return c.status().value().live == 1; }) && a.sync() && !a.failure());
    handles.clear();
    a.close();
    CHECK(is_whole(c));
    std::mt19937 rng(9);
    for (int round = 0; round < 10; round++) random_life(d.join("random"), rng, 300);
    CHECK(is_whole(c));
}

// A Release that the core was refused memory for is made before a Take of the same round, and allocates what that hands out.
TEST(late_release) {
    for (const char *late : {"SYSMEMD_LATE=2", "SYSMEMD_LATE=3"}) {
        Daemon d({"--share", "1000000"}, 0, {late});
        Client c = d.join();
        Token root = c.open_root("root").value();
        int goes = std::move(root.duplicate("goes").value()).detach();
        Collection a = std::move(root).bind().value();
        a.set_constraints({3, 0, 4096}).value();
        int takes = std::move(a).detach();
        auto release = words_of(SYSMEM_RELEASE), take = words_of(SYSMEM_TAKE);
        CHECK(c.status()); // so epoll has looked at the end that takes once more, and will tell of the other one first
        d.pause();
        CHECK(raw_send(goes, &release, sizeof release) && raw_send(takes, &take, sizeof take));
        CHECK(raw_send(takes, &take, sizeof take)); // once the daemon has seen the other socket end
        d.go_on();
        std::vector<int> got;
        std::optional<sysmemd_reply> told;
        while ((told = raw_receive(takes, 60000, &got))->kind != SYSMEM_TAKEN)
            if (told->kind == SYSMEM_PENDING) CHECK(raw_send(takes, &take, sizeof take));
        CHECK(told->set == 7 && got.size() == 6);
        for (int fd : got) ::close(fd);
        ::close(goes), ::close(takes);
        CHECK(is_whole(c));
    }
}

// A socket that is full is cut off, whatever it should have been told, and nothing else is.
TEST(full_sockets) {
    Daemon d({}, 0, {"SYSMEMD_FULL=29"});
    std::mt19937 rng(10);
    auto join = [&] {
        for (;;) {
            auto one = Client::open(d.path);
            if (one) return std::move(*one);
        }
    };
    for (int round = 0; round < 30; round++) random_life(join(), rng, 200);
    CHECK(comes([&] {
        Client c = join();
        auto s = c.status();
        return s && s->live == 0 && s->held == 0 && s->memories == 0 && s->descriptors == 1;
    }));
    CHECK(d.says("cut off: a reply could not be sent"));
}

// One round tells of a claim, which closes a descriptor; of requests, which get its number for a new socket; and that the
// former one hung up. That is no event of the new one.
TEST(stale_events) {
    Daemon d({"--share", "1000000"}); // or on a busy machine it would be two rounds
    Client c = d.join();
    for (int round = 0; round < 20; round++) {
        Token root = c.open_root("root").value();
        int claims = raw_join(d.path), opens = raw_join(d.path);
        int old = std::move(root).detach();
        auto q = words_of(SYSMEMD_OFFER);
        q.size = 5;
        CHECK(raw_send(old, &q, sizeof q));
        CHECK(raw_ask(old, words_of(SYSMEM_SYNC)).kind == SYSMEM_OK); // so the offer was read
        CHECK(c.status()); // so epoll has looked at the former socket once more, and found nothing
        d.pause();
        q = words_of(SYSMEMD_CLAIM);
        q.size = 5;
        q.cookie = cookie_of(old);
        CHECK(raw_send(claims, &q, sizeof q));
        for (std::uint32_t i = 0; i < 3; i++) {
            q = words_of(SYSMEM_OPEN_ROOT, i + 1);
            CHECK(raw_send(opens, &q, sizeof q));
        }
        ::close(old);
        d.go_on();
        std::vector<int> mine, fresh;
        auto told = raw_receive(claims, 60000, &mine);
        CHECK(told && told->detail == SYSMEMD_TOKEN && mine.size() == 1);
        for (int i = 0; i < 3; i++) CHECK(raw_receive(opens, 60000, &fresh)->kind == SYSMEM_NEW_TOKEN);
        CHECK(fresh.size() == 3);
        for (int i = 0; i < 3; i++) // some rounds later
            for (int fd : {mine[0], fresh[0], fresh[1], fresh[2]}) CHECK(raw_ask(fd, words_of(SYSMEM_SYNC)).kind == SYSMEM_OK);
        for (int fd : {mine[0], fresh[0], fresh[1], fresh[2], claims, opens}) ::close(fd);
    }
    CHECK(is_whole(c));
}

// OFFER, nonsense and a claim in one round: the object that was cut is not found, and its hangup is not lost.
TEST(cut_and_claimed) {
    Daemon d({"--share", "1000000"});
    Client c = d.join();
    Token root = c.open_root("root").value();
    int kid = std::move(root.duplicate("kid").value()).detach(), claims = raw_join(d.path);
    auto q = words_of(SYSMEMD_OFFER);
    q.size = 5;
    CHECK(raw_send(kid, &q, sizeof q));
    CHECK(raw_ask(kid, words_of(SYSMEM_SYNC)).kind == SYSMEM_OK);
    d.pause();
    CHECK(raw_send(kid, "nonsense", 8));
    q = words_of(SYSMEMD_CLAIM);
    q.size = 5;
    q.cookie = cookie_of(kid);
    CHECK(raw_send(claims, &q, sizeof q));
    d.go_on();
    auto told = raw_receive(claims);
    CHECK(told && told->kind == SYSMEMD_DESCRIBED && told->detail == SYSMEMD_NOTHING);
    CHECK(root.wait_failed(soon)->label == "kid");
    ::close(kid), ::close(claims);
    root.close();
    CHECK(is_whole(c));
}

// Before Linux 6.16 it starts only if that is asked for.
TEST(old_kernel) {
    char folder[] = "/tmp/sysmemd-test-XXXXXX";
    CHECK(mkdtemp(folder));
    std::string path = std::string(folder) + "/s";
    pid_t pid = fork();
    if (pid == 0) {
        ::close(2);
        setenv("SYSMEMD_OLD", "1", 1);
        execl(std::getenv("WRAPPED"), "sysmemd", "--socket", path.c_str(), nullptr);
        _exit(127);
    }
    int is = 0;
    CHECK(waitpid(pid, &is, 0) == pid && WIFEXITED(is) && WEXITSTATUS(is) == 1);
    CHECK(access(path.c_str(), F_OK) != 0);
    unlink((path + ".lock").c_str()), rmdir(folder);
    Daemon d({"--allow-old-kernel"}, 0, {"SYSMEMD_OLD=1"});
    CHECK(comes([&] { return d.says("no SO_PASSRIGHTS"); }));
    Client c = d.join();
    std::size_t files = d.files_open();
    for (std::size_t count : {1u, 3u, 250u}) { // what comes is closed unseen, and its socket is cut
        int fd = raw_join(d.path);
        auto q = words_of(SYSMEMD_STATUS);
        CHECK(raw_send(fd, &q, sizeof q, std::vector<int>(count, fd)) && is_cut(fd, SYSMEMD_MALFORMED));
        ::close(fd);
    }
    CHECK(comes([&] { return d.files_open() == files; }) && c.status());
}

// With --reserve a buffer whose memory the system refuses is not handed out: the call answers NoMemory, and may be made again.
TEST(reserved) {
    Daemon d({"--reserve"}, 0, {"SYSMEMD_MEMORY=2"});
    Client c = d.join();
    Collection a = c.open_root("a").value().bind().value();
    a.set_constraints({2, 0, 100000}).value();
    auto handles = *a.take().value();
    struct stat s;
    CHECK(fstat(handles[0].memory_fd(), &s) == 0 && s.st_blocks * 512 >= 100000); // all of it is there
    Collection b = c.open_root("b").value().bind().value();
    b.set_constraints({1, 0, 4096}).value();
    std::uint64_t events = c.status().value().events;
    auto none = b.take();
    CHECK(!none && none.error().is_no_memory() && b.sync());
    CHECK(c.status().value().events == events + 1); // the Sync alone
    handles.clear();
    a.close();
    b.close();
    CHECK(is_whole(c));
}

// While a Take waits for memory, all others are served, and what follows on its socket waits. Who hangs up waits no more.
TEST(slow_memory) {
    char folder[] = "/tmp/sysmemd-test-XXXXXX";
    CHECK(mkdtemp(folder));
    std::string gate = std::string(folder) + "/gate";
    Daemon d({"--reserve"}, 0, {"SYSMEMD_GATE=" + gate});
    Client c = d.join();
    Token other = c.open_root("other").value();
    auto allocate = [&](std::uint32_t size) {
        Collection a = c.open_root("a").value().bind().value();
        a.set_constraints({2, 0, size}).value();
        CHECK(a.wait_allocated(soon).value());
        return std::move(a).detach();
    };
    int stays = allocate(100 << 20), goes = allocate(4096), claimed = allocate(4096);
    for (int fd : {stays, goes, claimed}) {
        auto q = words_of(SYSMEM_TAKE, 1), more = words_of(SYSMEM_SYNC, 2);
        CHECK(raw_send(fd, &q, sizeof q) && raw_send(fd, &more, sizeof more));
    }
    for (int i = 0; i < 100; i++) CHECK(other.sync() && c.open_root("b"));
    CHECK(comes([&] { return c.status().value().memories == 6; }));
    pollfd none[] = {{stays, POLLIN, 0}, {goes, POLLIN, 0}, {claimed, POLLIN, 0}};
    CHECK(poll(none, 3, 50) == 0);
    ::close(goes);
    CHECK(comes([&] { return c.status().value().live == 3 && c.status().value().memories == 4; }) && other.sync());
    CHECK(std::fclose(std::fopen(gate.c_str(), "w")) == 0);
    std::vector<int> leases;
    for (int fd : {stays, claimed}) {
        CHECK(raw_receive(fd, 60000, &leases)->kind == SYSMEM_TAKEN && raw_receive(fd)->kind == SYSMEM_OK);
        auto q = words_of(SYSMEM_TAKE);
        CHECK(raw_ask(fd, q).kind == SYSMEM_TAKEN); // what is there need not come again
    }
    struct stat s;
    CHECK(leases.size() == 8 && fstat(leases[1], &s) == 0 && s.st_blocks * 512 >= 100 << 20);
    for (int fd : leases) ::close(fd);
    ::close(stays), ::close(claimed);
    other.close();
    CHECK(is_whole(c));
    unlink(gate.c_str()), rmdir(folder);
}

// Each allocation, and each system call, of a life is refused in turn: the daemon lives, and nothing is left.
TEST(refused_in_turn) {
    const char *refuse = std::getenv("REFUSE");
    if (!refuse || !*refuse) return void(std::puts("  not run: REFUSE is not set"));
    char name[] = "/tmp/sysmemd-test-XXXXXX";
    int file = mkstemp(name);
    CHECK(file >= 0 && ftruncate(file, 4096) == 0);
    auto *numbers = static_cast<std::atomic<int> *>(mmap(nullptr, 4096, PROT_READ | PROT_WRITE, MAP_SHARED, file, 0));
    Daemon d({"--reserve"}, 0, {std::string("LD_PRELOAD=") + refuse, std::string("REFUSE_AT=") + name});
    auto join = [&] {
        for (;;) {
            auto one = Client::open(d.path);
            if (one) return std::move(*one);
        }
    };
    Client witness = d.join();
    Token mine = witness.open_root("mine").value();
    auto life = [&] {
        Client c = join();
        auto root = c.open_root("r");
        if (!root) return;
        auto kid = root->duplicate("k");
        if (kid) {
            int fd = std::move(*kid).detach();
            auto got = c.adopt_token(fd);
            if (!got && got.error().kind == Error::Kind::Fault) ::close(fd);
        }
        std::mt19937 rng(11);
        random_life(c, rng, 80);
    };
    life(); // the daemon's tables have their sizes
    for (int which : {1, 0}) { // where memory is refused, a transcript ends
        int n = 0;
        do {
            numbers[which] = ++n;
            life();
            CHECK(d.lives());
        } while (numbers[which].exchange(0) <= 0 && is_whole(witness, 1, 1));
        std::printf("  %d %s refused in turn\n", n - 1, which ? "system calls" : "allocations");
        CHECK(n > 30 && is_whole(witness, 1, 1));
    }
    CHECK(mine.sync());
    mine.close();
    CHECK(is_whole(witness));
    ::close(file), unlink(name);
}

// Where accept fails, the daemon neither spins nor stops.
TEST(accept_errors) {
    char folder[] = "/tmp/sysmemd-test-XXXXXX";
    CHECK(mkdtemp(folder));
    std::string gate = std::string(folder) + "/gate";
    for (int error : {EMFILE, ENFILE, ENOMEM, EPROTO}) {
        Daemon d({}, 0, {"SYSMEMD_ACCEPT=" + std::to_string(error), "SYSMEMD_GATE=" + gate});
        int waits = raw_connect(d.path); // nobody accepts it
        CHECK(comes([&] { return d.says(std::strerror(error)); }));
        usleep(300000);
        std::uint64_t ran = 0;
        CHECK(std::ifstream("/proc/" + std::to_string(d.pid) + "/schedstat") >> ran);
        CHECK(waits >= 0 && ran < 100000000);
        CHECK(std::fclose(std::fopen(gate.c_str(), "w")) == 0);
        Client c = d.join();
        CHECK(c.open_root("r"));
        ::close(waits), unlink(gate.c_str());
    }
    rmdir(folder);
}
