// The client library under event loops, several waits, peers that mean harm, and a daemon that does not answer.
#include "rig.hpp"

#include <sys/time.h>
#include <thread>

// Whether all other threads of this process sleep, for a while. One that spins runs, or is about to.
static bool are_asleep() {
    int times = 0;
    return comes([&] {
        DIR *dir = opendir("/proc/self/task");
        CHECK(dir);
        bool is = true;
        while (dirent *one = readdir(dir))
            if (one->d_name[0] != '.' && one->d_name != std::to_string(gettid()))
                is &= state_of(std::string("/proc/self/task/") + one->d_name) == 'S';
        closedir(dir);
        times = is ? times + 1 : 0;
        return times == 20;
    });
}
static bool is_readable(int fd) {
    pollfd one{fd, POLLIN, 0};
    return poll(&one, 1, 0) == 1;
}
template <class T> static bool ends(const Result<T> &result, Ending why) { return !result && ending(result.error()) == why; }
static Collection allocate(const Client &c, std::uint8_t count = 1) {
    Collection a = c.open_root("r").value().bind().value();
    a.set_constraints({count, 0, 4096}).value();
    return a;
}

// An event of a wait that timed out does not answer a later one.
TEST(idle) {
    Daemon d;
    Client c = d.join();
    Collection a = allocate(c);
    auto handles = *a.take().value();
    Handle second = handles[0].duplicate().value(), encoder = handles[0].duplicate().value();
    CHECK(!handles[0].wait_idle(2, 20ms).value());
    encoder.drop();
    CHECK(comes([&] { return second.open_handles().value() == 2; })); // so IDLE was sent before, and is unread
    Handle again = second.duplicate().value();
    CHECK(!handles[0].wait_idle(2, 50ms).value() && handles[0].open_handles().value() == 3);
    again.drop();
    CHECK(handles[0].wait_idle(2, soon).value());
    handles[0].on_idle(9).value(); // true at once: its event follows the reply
    CHECK(!handles[0].wait_idle(0, 20ms).value());
    CHECK(handles[0].is_idle() || comes([&] { return handles[0].is_idle(); }));
    int lease = std::move(second).detach(); // nothing is told before it is so
    auto q = words_of(SYSMEMD_ON_IDLE);
    q.left = 1, q.cookie = 5;
    CHECK(raw_ask(lease, q).kind == SYSMEM_OK && !raw_receive(lease, 50));
    handles.clear();
    auto told = raw_receive(lease);
    CHECK(told && told->kind == SYSMEMD_IDLE && told->count == 1 && told->set == 5);
    ::close(lease);
}

// Several threads wait on one handle, for different numbers; a lease has one wait in the daemon.
TEST(many_idle) {
    Daemon d;
    Client c = d.join();
    Collection a = allocate(c);
    auto handles = *a.take().value();
    std::vector<Handle> more;
    for (int i = 0; i < 8; i++) more.push_back(handles[0].duplicate().value());
    handles[0].on_idle(5).value();
    std::vector<std::thread> all;
    std::atomic<int> idle{0};
    for (std::uint32_t most = 1; most <= 8; most++)
        all.emplace_back([&, most] { idle += handles[0].wait_idle(most, soon).value(); });
    CHECK(!handles[0].wait_idle(8, 10ms).value());
    while (more.size() > 4) more.pop_back();
    CHECK(comes([&] { return handles[0].is_idle(); }));
    CHECK(comes([&] { return idle == 4; })); // those of 5 to 8
    more.clear();
    for (std::thread &one : all) one.join();
    CHECK(idle == 8);
}

// Two threads arm one lease. The first is held up as it sends, so that the second could come before it: the daemon keeps the wait
// of the request that comes last, which has to be the one whose event is waited for.
static std::atomic<int> waits_sent{-1}; // how many ON_IDLE were sent; below 0 they are not counted
static std::atomic<int> found_full{0};  // how many others found their socket full
extern "C" ssize_t send(int fd, const void *bytes, std::size_t length, int flags) {
    sysmemd_request q{};
    std::memcpy(&q, bytes, std::min(length, sizeof q));
    if (q.op != SYSMEMD_ON_IDLE || waits_sent < 0) {
        ssize_t sent = sendto(fd, bytes, length, flags, nullptr, 0);
        if (sent < 0 && errno == EAGAIN) found_full++;
        return sent;
    }
    static std::atomic<bool> is_first{true};
    if (is_first.exchange(false))
        for (int ms = 0; ms < 300 && waits_sent == 0; ms++) usleep(1000);
    ssize_t sent = sendto(fd, bytes, length, flags, nullptr, 0);
    waits_sent++;
    return sent;
}
TEST(ordered) {
    Daemon d;
    Client c = d.join();
    Collection a = allocate(c);
    auto handles = *a.take().value();
    Handle one = handles[0].duplicate().value(), two = handles[0].duplicate().value();
    waits_sent = 0;
    std::thread waits([&] { CHECK(handles[0].wait_idle(2, soon).value()); });
    std::thread more([&] { CHECK(handles[0].wait_idle(1, soon).value()); });
    CHECK(comes([&] { return waits_sent == 2; }));
    two.drop(), one.drop();
    waits.join(), more.join();
}

// O_NONBLOCK on a socket, as event loops set it, makes no call spin.
TEST(nonblocking) {
    Daemon d;
    Client c = d.join();
    Collection a = c.open_root("r").value().bind().value();
    Token kid = a.attach_token("k").value();
    Tracker gone = kid.track_node().value();
    int two[2];
    CHECK(socketpair(AF_UNIX, SOCK_STREAM, 0, two) == 0);
    for (int fd : {a.fd(), gone.fd(), two[0]}) fcntl(fd, F_SETFL, O_NONBLOCK);
    std::thread waits[] = {std::thread([&] { CHECK(a.wait_allocated(soon).value()->count == 1); }),
                           std::thread([&] { CHECK(gone.wait()); }),
                           std::thread([&] { CHECK(ends(c.collect_for(two[0], soon), Ending::NoGiver)); })};
    CHECK(are_asleep());
    kid.close();
    ::close(two[1]);
    a.set_constraints({1, 0, 1}).value();
    for (std::thread &one : waits) one.join();
}

// A peer that sends bytes without a descriptor, and signals, do not lengthen a wait without end.
TEST(noisy_peers) {
    Daemon d;
    Client c = d.join();
    int two[2];
    CHECK(socketpair(AF_UNIX, SOCK_STREAM, 0, two) == 0);
    Child floods([&](int) {
        char bytes[65536] = {};
        while (write(two[1], bytes, sizeof bytes) > 0) {}
    });
    CHECK(!c.collect_for(two[0], 200ms).value());
    CHECK(!c.collect_for(two[0], 0ms).value());
    floods.end(SIGKILL);
    ::close(two[1]);
    CHECK(ends(c.collect_for(two[0], soon), Ending::NoGiver) && ends(c.collect(two[0]), Ending::NoGiver));
    int quiet[2];
    CHECK(socketpair(AF_UNIX, SOCK_STREAM, 0, quiet) == 0);
    struct sigaction act {};
    act.sa_handler = [](int) {};
    sigaction(SIGALRM, &act, nullptr);
    itimerval often{{0, 20000}, {0, 20000}};
    setitimer(ITIMER_REAL, &often, nullptr);
    CHECK(!c.collect_for(quiet[0], 300ms).value());
    Token t = c.open_root("t").value();
    std::move(t).give(quiet[1]).value();
    CHECK(c.collect_for(quiet[0], soon).value()->token().value().sync());
    often = {};
    setitimer(ITIMER_REAL, &often, nullptr);
}

// Sends this until the socket takes no more.
static void fill(int fd, const void *bytes, std::size_t length) {
    while (raw_send(fd, bytes, length, {}, MSG_DONTWAIT)) {}
    CHECK(errno == EAGAIN);
}
// Over a full socket `give` takes as long as its deadline, and no time if the socket is O_NONBLOCK; the value stays. It goes on
// once somebody reads.
TEST(full_receiver) {
    Daemon d;
    Client patient = Client::open(d.path, "patient", soon).value();
    auto quick = Client::open(d.path, "quick", 60ms); // on a busy machine some tries are too late
    CHECK(comes([&] { return quick || bool(quick = Client::open(d.path, "quick", 60ms)); }));
    Collection a = allocate(patient);
    auto handles = *a.take().value();
    for (int kind : {SOCK_STREAM, SOCK_SEQPACKET}) {
        int two[2], least = 1;
        CHECK(socketpair(AF_UNIX, kind | SOCK_CLOEXEC, 0, two) == 0);
        CHECK(setsockopt(two[0], SOL_SOCKET, SO_SNDBUF, &least, sizeof least) == 0);
        fill(two[0], "x", 1);
        Result<Parcel> token = Error{}, handle = Error{};
        CHECK(comes([&] { return token || bool(token = quick->adopt(patient.open_root("r").value().detach())); }));
        CHECK(comes([&] { return handle || bool(handle = quick->adopt(handles[0].duplicate().value().detach())); }));
        auto since = std::chrono::steady_clock::now();
        Token late = token->token().value();
        Handle frame = handle->handle().value();
        CHECK(ends(std::move(late).give(two[0]), Ending::TimeOver) && ends(std::move(frame).give(two[0]), Ending::TimeOver));
        CHECK(std::chrono::steady_clock::now() - since >= 120ms && frame);
        Token mine = patient.adopt_token(std::move(late).detach()).value();
        fcntl(two[0], F_SETFL, O_NONBLOCK);
        CHECK(ends(std::move(mine).give(two[0]), Ending::NoReceiver) && mine.sync());
        fcntl(two[0], F_SETFL, 0);
        std::thread gives([&] { std::move(mine).give(two[0]).value(); });
        CHECK(are_asleep());
        CHECK(patient.collect_for(two[1], soon).value()->token().value().sync());
        gives.join();
    }
}

// A socket that is full both ways: who sends reads the replies there, of calls whose deadline was over or of another process,
// or the daemon would take no more. While another thread reads, the room is found too, of requests without replies.
TEST(full_both_ways) {
    Daemon d;
    Client c = Client::open(d.path, "patient", soon).value();
    for (bool is_read : {false, true}) {
        Token t = c.open_root("r").value();
        std::thread reads;
        if (is_read) reads = std::thread([&] { CHECK(t.wait_failed(soon)); });
        CHECK(are_asleep());
        auto q = words_of(is_read ? std::uint32_t(SYSMEMD_OFFER) : std::uint32_t(SYSMEM_SYNC));
        q.size = is_read;
        d.pause();
        fill(t.fd(), &q, sizeof q);
        found_full = 0;
        std::thread asks([&] { CHECK(t.sync()); });
        CHECK(comes([&] { return found_full > 0; }));
        d.go_on();
        asks.join();
        t.duplicate("kid").value().close(); // so it fails
        if (is_read) reads.join();
    }
}

// The giver left requests in the socket, and their replies unread: who adopts it does not sleep, and has it or WrongKind.
TEST(choked_gift) {
    Daemon d;
    Client c = d.join();
    for (int many : {3, 40, 2000}) {
        int fd = std::move(c.open_root("r").value()).detach();
        auto q = words_of(SYSMEM_SYNC);
        for (int i = 0; i < many; i++) (void)raw_send(fd, &q, sizeof q, {}, MSG_DONTWAIT);
        auto got = c.adopt_token(fd);
        CHECK(got ? bool(got->sync()) : many > 3 && got.error().is(Refusal::WrongKind));
    }
    CHECK(is_whole(c));
}

// A process without room for one more descriptor keeps what it was given.
TEST(full_table) {
    Daemon d;
    Client c = d.join();
    Child child([&](int) {
        Client mine = d.join();
        Token root = mine.open_root("r").value();
        int two[2];
        CHECK(socketpair(AF_UNIX, SOCK_SEQPACKET | SOCK_CLOEXEC, 0, two) == 0);
        int fd = std::move(root.duplicate("adopted").value()).detach();
        std::move(root.duplicate("collected").value()).give(two[0]).value();
        std::vector<int> all;
        rlimit few{40, 40};
        CHECK(setrlimit(RLIMIT_NOFILE, &few) == 0);
        for (int one; (one = dup(0)) >= 0;) all.push_back(one);
        auto none = mine.adopt_token(fd);
        CHECK(!none && none.error().is_no_memory() && root.sync());
        auto full = mine.collect_for(two[1], soon); // what came stays in the socket
        CHECK(!full && full.error().is_no_memory() && root.sync());
        ::close(all.back()), all.pop_back();
        auto later = mine.collect_for(two[1], soon); // the token came, and there is no room to exchange it
        CHECK(!later && later.error().is_no_memory() && root.sync());
        for (int one : all) ::close(one);
        Token adopted = mine.adopt_token(fd).value(), collected = mine.collect_for(two[1], soon).value()->token().value();
        CHECK(adopted.sync() && collected.sync() && root.sync());
    });
    int is = child.end();
    CHECK(WIFEXITED(is) && WEXITSTATUS(is) == 0);
    CHECK(is_whole(c));
}

// A copy of a tracker's socket may be read by others; who claims it hears all the same.
TEST(trackers) {
    Daemon d;
    Client c = d.join(), other = d.join("other");
    Token root = c.open_root("r").value();
    Tracker mine = root.track_node().value(), theirs = root.track_node().value();
    int copy = dup(mine.fd()), given = dup(theirs.fd());
    Tracker got = other.adopt_tracker(given).value();
    CHECK(got.id() == theirs.id() && !got.poll());
    CHECK(comes([&] { return theirs.is_orphan(); }));
    std::move(root).release().value();
    CHECK(got.wait_for(soon) == c.status().value().events);
    sysmemd_reply eaten;
    CHECK(comes([&] { return recv(copy, &eaten, sizeof eaten, MSG_DONTWAIT) == sizeof eaten; }) && eaten.kind == SYSMEMD_FIRED);
    CHECK(!mine.poll() && !mine.is_orphan()); // a thief took it, and nobody says that the daemon is gone
    Tracker again = other.adopt_tracker(dup(mine.fd())).value(); // who has doubts, claims: it is told anew
    CHECK(again.wait_for(soon) && again.id() == mine.id());
    Tracker moved = std::move(again);
    CHECK(!again.poll() && again.fd() == -1 && moved.poll()); // a spent value answers
    ::close(copy);
}

// A socket of a stranger gets nothing, not even our credentials.
TEST(strangers) {
    Daemon d;
    Client c = d.join();
    int two[2], kinds[] = {SOCK_SEQPACKET, SOCK_STREAM, SOCK_DGRAM};
    for (int kind : kinds) {
        CHECK(socketpair(AF_UNIX, kind, 0, two) == 0);
        auto got = c.adopt(two[0]);
        CHECK(!got && got.error().is(Refusal::WrongKind));
        char bytes[100];
        ssize_t n = recv(two[1], bytes, sizeof bytes, MSG_DONTWAIT);
        CHECK(n <= 0);
        ::close(two[1]);
    }
    Daemon another; // its objects are not ours
    Client stranger = another.join();
    auto got = c.adopt(std::move(stranger.open_root("r").value()).detach());
    CHECK(!got && got.error().is(Refusal::WrongKind));
    CHECK(is_whole(stranger));
}

// One descriptor of a connection, for an event loop: readable as long as pending() has something to tell, also if a call
// read the event before.
TEST(pending) {
    Daemon d;
    Client c = d.join();
    Token root = c.open_root("r").value();
    Token kid = root.duplicate("k").value();
    Collection a = std::move(root).bind().value(), b = std::move(kid).bind().value();
    int fd = c.fd();
    CHECK(c.pending().value().empty() && !is_readable(fd));
    a.set_constraints({2, 0, 4096}).value();
    CHECK(c.pending().value().empty());
    b.set_constraints({0, 0, 1}).value();
    a.sync().value(), b.sync().value(); // these read the events
    CHECK(is_readable(fd));
    Pending told = c.pending().value();
    CHECK(told.allocated.size() == 2 && told.failed.empty() && !is_readable(fd) && c.pending().value().empty());
    auto handles = *a.take().value(), others = *b.take().value();
    handles[1].on_idle(1).value();
    Tracker gone = b.track_node().value();
    CHECK(c.pending().value().empty());
    others.clear();
    CHECK(comes([&] { return is_readable(fd); }));
    told = c.pending().value();
    CHECK(told.idle.size() == 1 && told.idle[0] == handles[1].buffer() && handles[1].is_idle());
    b.close();
    CHECK(comes([&] {
        Pending more = c.pending().value();
        told.failed.insert(told.failed.end(), more.failed.begin(), more.failed.end());
        told.fired.insert(told.fired.end(), more.fired.begin(), more.fired.end());
        return told.failed.size() == 1 && told.fired.size() == 1;
    }));
    CHECK(told.failed[0] == a.key() && told.fired[0] == gone.id());
    CHECK(comes([&] { return c.pending().value().empty() && !is_readable(fd); }));
    { // dispatch() of one value likewise
        Collection one = allocate(c);
        one.sync().value();
        CHECK(one.dispatch() && one.is_allocated() && !one.dispatch());
        CHECK(c.pending().value().allocated.size() == 1);
    }
    Collection last = allocate(c);
    CHECK(comes([&] { return c.pending().value().allocated.size() == 1; }));
    d.stop(SIGKILL);
    CHECK(comes([&] { return c.pending().value().failed.size() == 1; }) && last.ending() == Ending::Gone);
    CHECK(c.ending() == Ending::Gone && comes([&] { return c.pending().value().empty() && !is_readable(fd); }));
}

// With a deadline a daemon that does not answer stops nobody.
TEST(deadline) {
    Daemon d;
    Client c = Client::open(d.path, "patient", 60s).value();
    auto got = Client::open(d.path, "quick", 60ms); // on a busy machine some tries are too late
    CHECK(comes([&] { return got || bool(got = Client::open(d.path, "quick", 60ms)); }));
    Client quick = std::move(*got);
    auto root = quick.open_root("r");
    CHECK(comes([&] { return root || bool(root = quick.open_root("r")); }));
    Token slow = c.open_root("r").value(), fast = std::move(*root);
    d.pause();
    for (int i = 0; i < 3; i++) {
        auto late = fast.sync();
        CHECK(!late && ending(late.error()) == Ending::TimeOver);
    }
    auto none = quick.open_root("lost");
    CHECK(!none && ending(none.error()) == Ending::TimeOver);
    auto closed = Client::open(d.path, "late", 60ms);
    CHECK(!closed && ending(closed.error()) == Ending::TimeOver);
    std::thread waits([&] { CHECK(slow.sync()); }); // 60 s suffice
    usleep(20000);
    d.go_on();
    waits.join();
    CHECK(comes([&] { return bool(fast.sync()); })); // late replies are dropped
    CHECK(slow.sync());
    CHECK(comes([&] { return quick.status() && c.status().value().live == 2; })); // the root that nobody got ended
    { // nobody accepts
        sockaddr_un name{};
        name.sun_family = AF_UNIX;
        std::string path = d.folder + "/deaf";
        std::memcpy(name.sun_path, path.c_str(), path.size());
        int deaf = socket(AF_UNIX, SOCK_SEQPACKET | SOCK_CLOEXEC, 0);
        CHECK(bind(deaf, reinterpret_cast<sockaddr *>(&name), sizeof name) == 0 && listen(deaf, 0) == 0);
        for (int i = 0; i < 3; i++) {
            auto one = Client::open(path, "deaf", 60ms);
            CHECK(!one && ending(one.error()) == Ending::TimeOver);
        }
        ::close(deaf);
    }
}

// What ends a value has a name.
TEST(endings) {
    auto none = Client::open("/nowhere/s");
    CHECK(!none && ending(none.error()) == Ending::NoService);
    CHECK(none.error().message().find("nobody serves this path: /nowhere/s: No such file") != std::string::npos);
    unsetenv("SYSMEM_SOCKET"), unsetenv("XDG_RUNTIME_DIR");
    CHECK(Client::open().error().note.find("XDG_RUNTIME_DIR is set") != std::string::npos);
    Daemon d({"--connections", "2"});
    Client c = d.join(), second = d.join();
    auto third = Client::open(d.path);
    CHECK(!third && ending(third.error()) == Ending::Crowded);
    Token a = c.open_root("a").value();
    Token mine = c.adopt_token(dup(a.fd())).value();
    CHECK(mine.sync());
    CHECK(!a.sync() && ending(a.sync().error()) == Ending::Claimed);
    Token b = c.open_root("b").value();
    CHECK(::send(b.fd(), "x", 1, 0) == 1);
    CHECK(comes([&] { return b.ending() != Ending::None; }) && b.ending() == Ending::Malformed);
    int two[2];
    CHECK(socketpair(AF_UNIX, SOCK_STREAM, 0, two) == 0);
    ::close(two[1]);
    Token t = c.open_root("t").value();
    auto sent = std::move(t).give(two[0]);
    CHECK(ends(sent, Ending::NoReceiver) && t.sync()); // it stays
    CHECK(ending(Error::fault(SYSMEM_NO_MEMORY)) == Ending::None && ending(Error::fault(SYSMEM_NOT_OPEN)) == Ending::None);
    d.stop(SIGTERM);
    auto last = t.sync();
    CHECK(!last && ending(last.error()) == Ending::Gone && std::string(name(Ending::Gone)) == "the daemon is gone");
}
