// What a life answers, and descriptors that travel.
#include "rig.hpp"

TEST(life) {
    Daemon d;
    Client c = d.join();
    Token root = c.open_root("root").value();
    Token kid = root.duplicate("kid").value();
    Collection a = std::move(root).bind().value(), b = std::move(kid).bind().value();
    a.set_constraints({2, 0, 5000}).value();
    CHECK(!a.check().value());
    auto waits = a.waits_for().value();
    CHECK(waits.size() == 1 && waits[0].label == "kid" && waits[0].is_bound && waits[0].pid == std::uint32_t(getpid()));
    CHECK(!waits[0].fault);
    b.set_constraints({1, 0, 4096}).value();
    Allocation got = *b.wait_allocated(soon).value();
    CHECK(got.count == 3 && got.size == 5000);
    auto ha = *a.take().value(), hb = *b.take().value();
    CHECK(ha.size() == 3 && hb.size() == 3 && ha[1].buffer() == hb[1].buffer());
    CHECK(ha[0].bytes().size() == 5000);
    for (std::size_t i = 0; i < 5000; i++) ha[1].bytes()[i] = std::byte(i % 251); // each buffer has bytes of its own
    for (std::size_t i = 0; i < 5000; i++) CHECK(hb[1].bytes()[i] == std::byte(i % 251));
    for (std::size_t i = 0; i < 5000; i++) CHECK(hb[0].bytes()[i] == std::byte(0));
    CHECK(ftruncate(ha[0].memory_fd(), 0) != 0 && ftruncate(ha[0].memory_fd(), 1 << 20) != 0);
    CHECK(fcntl(ha[0].memory_fd(), F_ADD_SEALS, 0x10) != 0 && errno == EPERM); // F_SEAL_FUTURE_WRITE: nobody shuts others out
    CHECK(ha[0].open_handles().value() == 2);
    CHECK(!ha[0].wait_idle(1, 20ms).value());
    ha[0].bytes()[4999] = std::byte(9);
    hb[0].drop();
    CHECK(ha[0].wait_idle(1, soon).value());
    Handle more = ha[0].duplicate().value();
    CHECK(ha[0].open_handles().value() == 2 && more.bytes().size() == 5000);
    auto twice = *b.take().value(); // the same bytes, whoever dropped a handle, and by whatever handle
    for (const Handle *h : {&ha[0], &more, &twice[0]}) CHECK(h->bytes()[4999] == std::byte(9));
    twice.clear();
    CHECK(ha[0].wait_idle(2, soon).value());
    std::move(a).release().value();
    std::move(b).release().value();
    CHECK(ha[0].open_handles().value() == 2); // handles outlive their collection's end
    CHECK(c.status().value().held == 3);
    // A mapping that is kept past the last handle holds the memory, and nobody gets that again.
    void *stale = mmap(nullptr, 5000, PROT_READ, MAP_SHARED, ha[1].memory_fd(), 0);
    CHECK(stale != MAP_FAILED && static_cast<unsigned char *>(stale)[300] == 300 % 251);
    ha.clear();
    hb.clear();
    more.drop();
    CHECK(is_whole(c));
}

TEST(answers) {
    Daemon d({"--pages", "16"});
    Client c = d.join();
    Token r = c.open_root("r").value();
    Token k = r.duplicate("k").value();
    { // a token is no collection
        int fd = std::move(k).detach();
        auto q = words_of(SYSMEM_CHECK);
        CHECK(raw_send(fd, &q, sizeof q));
        auto told = raw_receive(fd);
        CHECK(told && told->kind == SYSMEM_REFUSED && told->detail == SYSMEM_WRONG_KIND && told->serial == 7);
        k = c.adopt_token(fd).value();
    }
    Collection a = std::move(r).bind().value();
    a.set_constraints({1, 0, 1}).value();
    auto bad = a.set_constraints({65, 0, 1});
    CHECK(!bad && bad.error().is_bad_call() && bad.error().note.find("camping") == 0);
    auto misused = a.set_constraints({1, 0, 1});
    CHECK(!misused && misused.error().is(Misuse::SecondConstraints));
    auto closed = k.sync();
    CHECK(!closed && closed.error().is(Cause::SecondConstraints) && closed.error().label == "r");
    CHECK(k.failure() && k.failure()->is(Cause::SecondConstraints));
    for (const Node &one : c.nodes().value()) CHECK(one.fault == std::make_pair(Cause::SecondConstraints, a.key()));
    CHECK(c.nodes().value().size() == 2);
    a.close();
    k.close();
    CHECK(is_whole(c));
    // A failed allocation.
    Collection b = c.open_root("b").value().bind().value();
    b.set_constraints({1, 0, 16 * 4096 + 1}).value();
    auto full = b.wait_allocated(soon);
    CHECK(!full && full.error().is(Cause::FailedPoolFull) && full.error().label == "b");
    b.close();
    { // A failed end keeps no memory.
        Token top = c.open_root("top").value(), below = top.duplicate("below").value();
        Collection f = std::move(top).bind().value(), g = std::move(below).bind().value();
        f.set_constraints({1, 0, 4096}).value(), g.set_constraints({0, 0, 1}).value();
        auto handles = *f.take().value();
        g.close();
        CHECK(f.wait_failed(soon) && c.status().value().memories == 1);
        handles.clear();
        CHECK(comes([&] { return c.status().value().memories == 0; }));
    }
    // Weak nodes and handles.
    Token root = c.open_root("root").value();
    Token weak = root.duplicate("weak").value();
    weak.set_weak().value();
    Collection s = std::move(root).bind().value(), w = std::move(weak).bind().value();
    s.set_constraints({1, 0, 4096}).value();
    w.set_constraints({0, 0, 1}).value();
    auto strong = *s.take().value(), weakly = *w.take().value();
    CHECK(strong[0].strength() == Strength::Strong && weakly[0].strength() == Strength::Weak);
    auto none = strong[0].track_weak(); // the model asks for a weak handle of the caller: here, of this very lease
    CHECK(!none && none.error().is(Refusal::NoSuchHandle));
    std::optional<Tracker> first = weakly[0].track_weak().value(), second = w.track_lifetime(0).value();
    const Tracker &asap = *first, &left = *second;
    CHECK(!asap.poll() && !left.poll());
    std::move(s).release().value();
    CHECK(!asap.poll());
    strong.clear();
    CHECK(asap.wait_for(soon) && !left.poll());
    CHECK(asap.poll() && Tracker(asap).poll()); // for good
    auto gone = w.wait_failed(soon);
    CHECK(gone && gone->is(Cause::NoStrong));
    weakly.clear();
    CHECK(left.wait_for(soon));
    w.close();
    first.reset(), second.reset(); // a tracker's socket stays as long as it
    CHECK(is_whole(c));
    // Attached nodes and dispensable ones.
    Collection top = c.open_root("top").value().bind().value();
    Token at = top.attach_token("at").value();
    at.close();
    CHECK(top.sync());
    Token again = top.attach_token("again").value();
    again.set_dispensable().value();
    {
        Tracker node = again.track_node().value();
        again.close();
        CHECK(node.wait_for(soon));
    }
    top.close();
    CHECK(is_whole(c));
}

TEST(travels) {
    Daemon d;
    Client c = d.join();
    int two[2], back[2];
    CHECK(socketpair(AF_UNIX, SOCK_SEQPACKET | SOCK_CLOEXEC, 0, two) == 0);
    CHECK(socketpair(AF_UNIX, SOCK_STREAM | SOCK_CLOEXEC, 0, back) == 0); // any kind
    // A token that is passed on does not go with its first holder: a child opens, passes the root, and dies.
    Child first([&](int) {
        Client mine = d.join("first");
        Token root = mine.open_root("root").value();
        Token kid = root.duplicate("kid").value();
        std::move(root).give(two[1]).value();
        std::move(kid).give(two[1]).value();
        raise(SIGKILL);
    });
    first.end();
    Token root = c.collect_for(two[0], soon).value()->token().value();
    Token kid = c.collect_for(two[0], soon).value()->token().value();
    CHECK(root.sync() && kid.sync());
    // A bound end and a handle travel too, and so does what they were told.
    Collection a = std::move(root).bind().value(), b = std::move(kid).bind().value();
    a.set_constraints({1, 0, 4096}).value();
    b.set_constraints({1, 0, 4096}).value();
    (void)a.wait_allocated(soon).value().value();
    auto handles = *a.take().value();
    handles[0].bytes()[7] = std::byte(77);
    Child second([&](int m) {
        Client mine = d.join("second");
        auto collection = mine.collect_for(back[1], soon).value()->collection().value();
        CHECK(collection.wait_allocated(1s).value()->count == 2); // although its first holder read the event
        Handle handle = mine.collect_for(back[1], soon).value()->handle().value();
        CHECK(handle.bytes()[7] == std::byte(77) && handle.buffer() == Buffer({collection.collection(), 0}));
        mark(m, 'g');
        pause();
    });
    std::move(a).give(back[0]).value();
    std::move(handles[0]).give(back[0]).value();
    CHECK(second.await() == 'g');
    CHECK(b.sync() && handles[1].open_handles().value() == 1);
    pid_t last = second.pid;
    second.end(SIGKILL);
    auto why = b.wait_failed(soon);
    CHECK(why && why->is(Cause::Lost) && why->label == "root");
    CHECK(why->process == std::uint32_t(last) && why->note.empty());
    handles.clear();
    b.close();
    CHECK(is_whole(c));
    // What is under way when its receiver dies is lost with it.
    Token lone = c.open_root("lone").value();
    Token way = lone.duplicate("way").value();
    int three[2];
    CHECK(socketpair(AF_UNIX, SOCK_SEQPACKET | SOCK_CLOEXEC, 0, three) == 0);
    std::move(way).give(three[0]).value();
    ::close(three[0]);
    CHECK(lone.sync());
    ::close(three[1]);
    CHECK(lone.wait_failed(soon)->label == "way");
    lone.close();
    // Over its own socket, and round in a circle: the kernel collects it.
    Token own = c.open_root("own").value();
    int own_fd = std::move(own).detach(), pair[2];
    CHECK(socketpair(AF_UNIX, SOCK_SEQPACKET | SOCK_CLOEXEC, 0, pair) == 0);
    CHECK(sysmem::remote::detail::send_fd(pair[0], own_fd));
    CHECK(sysmem::remote::detail::send_fd(pair[0], pair[1]));
    CHECK(sysmem::remote::detail::send_fd(pair[1], pair[0]));
    ::close(own_fd), ::close(pair[0]), ::close(pair[1]);
    for (int i = 0; i < 64; i++) { // unix sockets that close start the collection
        CHECK(socketpair(AF_UNIX, SOCK_STREAM, 0, pair) == 0);
        ::close(pair[0]), ::close(pair[1]);
    }
    CHECK(is_whole(c));
    // A lease that a child inherited is open until both are gone.
    Collection solo = c.open_root("solo").value().bind().value();
    solo.set_constraints({1, 0, 1}).value();
    auto one = *solo.take().value();
    Child heir([&](int m) { mark(m, 'h'), pause(); });
    CHECK(heir.await() == 'h');
    std::move(solo).release().value();
    one.clear();
    usleep(50000);
    CHECK(c.status().value().held == 1);
    heir.end(SIGKILL);
    CHECK(is_whole(c));
}

TEST(forged) {
    Daemon d;
    Client c = d.join();
    auto is_wrong = [&](int fd) {
        auto got = c.adopt(fd);
        return !got && got.error().is(Refusal::WrongKind);
    };
    int two[2];
    CHECK(socketpair(AF_UNIX, SOCK_SEQPACKET | SOCK_CLOEXEC, 0, two) == 0);
    CHECK(is_wrong(dup(two[0])));   // a socket whose other side plays the daemon
    CHECK(pipe(two) == 0 && is_wrong(two[0]) && is_wrong(two[1]));
    CHECK(is_wrong(open("/dev/null", O_RDWR)));
    CHECK(is_wrong(memfd_create("x", 0)));
    int line = raw_join(d.path);    // a connection is no end, and stays
    CHECK(is_wrong(dup(line)) && raw_ask(line, words_of(SYSMEMD_STATUS)).kind == SYSMEMD_STATE);
    ::close(line);
    Collection a = c.open_root("a").value().bind().value();
    a.set_constraints({1, 0, 1}).value();
    auto handles = *a.take().value();
    auto wrong = c.adopt_token(dup(handles[0].fd()));
    CHECK(!wrong && wrong.error().is(Refusal::WrongKind));
    Tracker t = a.track_node().value();
    CHECK(is_wrong(dup(t.fd())) && !t.poll()); // it is exchanged, and no parcel
    CHECK(comes([&] { return t.is_orphan(); }));
    handles.clear();
    a.close();
    CHECK(is_whole(c));
}

// A giver that keeps a copy can't read the receiver's replies, nor take what comes with them.
TEST(stolen) {
    Daemon d;
    Client c = d.join(), thief = d.join("thief");
    Token root = thief.open_root("root").value();
    Token kid = root.duplicate("kid").value();
    int copy = dup(kid.fd());
    Collection mine = c.adopt_token(std::move(kid).detach()).value().bind().value();
    Collection top = std::move(root).bind().value();
    top.set_constraints({1, 0, 1}).value();
    mine.set_constraints({1, 0, 4096}).value();
    CHECK(is_cut(copy, SYSMEMD_CLAIMED));
    CHECK(mine.take().value()->size() == 2);
    auto q = words_of(SYSMEM_RELEASE);
    CHECK(!raw_send(copy, &q, sizeof q));
    ::close(copy);
    CHECK(mine.sync());
    // Who knows a cookie, but has no copy, gets nothing.
    std::uint64_t cookie = 0;
    socklen_t length = sizeof cookie;
    CHECK(getsockopt(mine.fd(), SOL_SOCKET, SO_COOKIE, &cookie, &length) == 0);
    for (std::uint32_t number : {0u, 1u, 77u}) {
        q = words_of(SYSMEMD_CLAIM, 9000 + number);
        q.cookie = cookie;
        q.size = number;
        int fd = raw_join(d.path);
        CHECK(raw_send(fd, &q, sizeof q));
        auto told = raw_receive(fd);
        CHECK(told && told->kind == SYSMEMD_DESCRIBED && told->detail == SYSMEMD_NOTHING && !told->label[0] && !told->id);
        ::close(fd);
    }
    CHECK(mine.sync());
    // A failed end tells its new holder why.
    int fd = dup(mine.fd());
    top.close();
    CHECK(mine.wait_failed(soon));
    Collection again = c.adopt_collection(fd).value();
    CHECK(again.wait_failed(soon)->label == "root");
    auto none = mine.sync();
    CHECK(!none && ending(none.error()) == Ending::Claimed && mine.ending() == Ending::Claimed);
    again.close();
    thief.vanish();
    CHECK(is_whole(c));
}
