// Pages and bytes of handles, idle buffers, one descriptor per client, waits without events and their ends, whom
// an allocation waits for, callbacks that make callbacks, a core with few events left, labels and names.
#include "inside.hpp"

#include <cstring>
#include <fcntl.h>
#include <functional>
#include <poll.h>
#include <sstream>
#include <unistd.h>
#include <unordered_map>

using namespace sysmem;
using namespace std::chrono_literals;

#define EXPECT(cond)                                                                             \
    do {                                                                                         \
        if (!(cond)) {                                                                           \
            std::printf("line %d: %s\n", __LINE__, #cond);                                       \
            std::exit(1);                                                                        \
        }                                                                                        \
    } while (0)

static bool is_readable(int fd) {
    pollfd one{fd, POLLIN, 0};
    return poll(&one, 1, 0) == 1;
}
static Collection allocated(Client &client, Constraints wanted) {
    Collection c = client.open_root("root").value().bind().value();
    c.set_constraints(wanted).value();
    return c;
}

static void pages_and_bytes(bool guard) {
    Options o;
    o.pages = 16;
    o.memory = Memory::open(16, guard).value();
    Memory &memory = *o.memory;
    EXPECT(Memory::open(0).error().message() == "bad limits: pages is 0, and must be 1 to 1048576");
    EXPECT(memory.fd() >= 0 && memory.pages() == 16);
    o.pages = 17;
    EXPECT(Service::open(o).error().detail == SYSMEM_BAD_LIMITS);
    o.pages = 16;
    EXPECT(Service::open(o)); // and closed
    Service service = Service::open(o).value();
    EXPECT(!Service::open(o)); // the memory is in use
    Client a = service.join("a").value(), b = service.join("b").value();
    Collection first = allocated(a, {1, 0, 4096}), c = allocated(a, {3, 0, 5000});
    std::vector<Handle> all = *c.take().value();
    auto held = service.held().value();
    EXPECT(held.size() == 4 && all.size() == 3);
    for (int i = 0; i < 3; i++) {
        EXPECT(all[i].pages()->start == held[i + 1].start && all[i].pages()->count == 2);
        Bytes bytes = memory.bytes(all[i]);
        EXPECT(bytes.size() == 5000);
        EXPECT(bytes.data() == memory.data() + all[i].pages()->start * Memory::page);
        std::memset(bytes.data(), i + 1, bytes.size());
    }
    std::move(all[1]).give(b.id()).value();
    EXPECT(memory.bytes(all[1]).empty());
    Handle there = b.collect().value()->handle().value();
    EXPECT(there.pages()->start == held[2].start && memory.bytes(there)[4999] == std::byte(2));
    EXPECT(there.open_handles().value() == 1);
    Handle more = there.duplicate().value();
    EXPECT(there.open_handles().value() == 2 && memory.bytes(more).data() == memory.bytes(there).data());
    b.vanish(); // the handle is not open any more
    EXPECT(memory.bytes(there).empty() && !there.open_handles() && !there.on_idle(0));
    c.close();
    all.clear();
    EXPECT(service.free_pages() == 15);
    Collection next = allocated(a, {2, 0, 4096});
    std::vector<Handle> others = *next.take().value();
    EXPECT(others[0].pages()->start == 1 && memory.bytes(others[0])[0] == std::byte(1));
}

// Whether the byte can be read: as the sanitizer knows it, or as the system finds it.
#ifdef SYSMEM_POISONS
static bool is_open(const std::byte *at) { return !__asan_address_is_poisoned(at); }
static constexpr bool rest_of_a_page_is_open = false;
#else
static bool is_open(const std::byte *at) {
    int ends[2];
    EXPECT(pipe(ends) == 0);
    bool is = write(ends[1], at, 1) == 1;
    close(ends[0]);
    close(ends[1]);
    return is;
}
static constexpr bool rest_of_a_page_is_open = true;
#endif

// With a guard the bytes of a buffer can be touched exactly while a handle on it is open.
static void guarded() {
    Options o;
    o.memory = Memory::open(16, true).value();
    Service service = Service::open(o).value();
    Client a = service.join("a").value(), b = service.join("b").value();
    Collection c = allocated(a, {2, 0, 5000});
    const std::byte *first = o.memory->data(), *second = first + 2 * Memory::page;
    EXPECT(!is_open(first) && !is_open(second)); // the pages are held, and nobody has a handle
    std::vector<Handle> all = *c.take().value();
    EXPECT(is_open(first) && is_open(first + 4999) && is_open(second));
    EXPECT(is_open(first + 5000) == rest_of_a_page_is_open && !is_open(second + 2 * Memory::page));
    o.memory->bytes(all[0])[4999] = std::byte(7);
    std::move(all[0]).give(b.id()).value();
    EXPECT(is_open(first)); // in its parcel
    Handle there = b.collect().value()->handle().value();
    Handle more = there.duplicate().value();
    there.drop();
    EXPECT(is_open(first));
    more.drop();
    EXPECT(!is_open(first) && is_open(second)); // though the pages are held
    all.clear();
    EXPECT(!is_open(second));
    all = *c.take().value();
    EXPECT(o.memory->bytes(all[0])[4999] == std::byte(7));
    a.vanish();
    EXPECT(!is_open(first) && !is_open(second));
}

static void idle() {
    Service service = Service::open().value();
    Client camera = service.join("camera").value(), b = service.join("b").value();
    std::optional<Client> crashes = service.join("c").value();
    Collection c = allocated(camera, {1, 0, 4096});
    Handle frame = std::move((*c.take().value())[0]);
    int calls = 0;
    auto count = [&](Buffer) { calls++; };
    frame.on_idle(1, count).value();
    EXPECT(calls == 1); // at once
    frame.duplicate().value().give(b.id()).value();
    frame.duplicate().value().give(crashes->id()).value();
    frame.on_idle(1, count).value();
    frame.on_idle(2, count).value();
    EXPECT(calls == 1 && frame.open_handles().value() == 3 && !frame.wait_idle(2, 1ms).value());
    std::uint64_t events = service.events();
    { Handle h = b.collect().value()->handle().value(); }
    EXPECT(calls == 2 && frame.wait_idle(2, 0ms).value() && service.events() == events + 2);
    std::thread thread([&] {
        Raw::await_sleepers(service);
        crashes.reset(); // with the handle in its parcel
    });
    EXPECT(frame.wait_idle(1, 60s).value());
    thread.join();
    EXPECT(calls == 3 && frame.open_handles().value() == 1);
    int fd = camera.fd(); // its node is allocated
    EXPECT(is_readable(fd) && camera.pending().value().allocated.size() == 1);
    frame.on_idle(0).value();
    EXPECT(!is_readable(fd));
    Buffer buffer = frame.buffer();
    frame.drop();
    EXPECT(is_readable(fd) && camera.pending().value().idle == std::vector<Buffer>{buffer});
    EXPECT(!is_readable(fd) && camera.pending().value().empty());
    EXPECT(!frame.on_idle(0) && frame.wait_idle(0, 0ms).error().is_spent);
    Client late = service.join("late").value(); // its descriptor comes after the news
    Collection other = allocated(late, {1, 0, 4096});
    (*other.take().value())[0].on_idle(0).value();
    EXPECT(is_readable(late.fd()) && late.pending().value().idle.size() == 1);
    EXPECT(!is_readable(late.fd()));
}

// Who has a buffer.
static void holders() {
    Service service = Service::open().value();
    Client a = service.join("a").value(), b = service.join("b").value();
    std::optional<Client> c = service.join("c").value();
    Token root = a.open_root().value(), watcher = root.duplicate().value();
    watcher.set_weak().value();
    Collection strong = std::move(root).bind().value(), weak = std::move(watcher).bind().value();
    strong.set_constraints({2, 0, 1}).value();
    weak.set_constraints({0, 0, 1}).value();
    std::vector<Handle> all = *strong.take().value(), eyes = *weak.take().value();
    Buffer first = all[0].buffer(), second = all[1].buffer();
    EXPECT(service.holders({99, 0}).empty() && service.open_handles({99, 0}) == 0);
    Handle more = all[0].duplicate().value();
    all[0].duplicate().value().give(b.id()).value();
    std::move(eyes[0]).give(c->id()).value();
    auto has = [](const Holder &h, const Client &who, std::uint32_t strong, std::uint32_t weak, std::uint32_t parcels) {
        return h.client == who.id() && h.label == who.label() && h.strong == strong && h.weak == weak &&
               h.parcels == parcels;
    };
    auto told = service.holders(first);
    EXPECT(told.size() == 3 && has(told[0], a, 2, 0, 0) && has(told[1], b, 0, 0, 1) && has(told[2], *c, 0, 0, 1));
    EXPECT(service.open_handles(first) == 4 && service.open_handles(first) == more.open_handles().value());
    Handle there = c->collect().value()->handle().value();
    told = service.holders(first);
    EXPECT(told.size() == 3 && has(told[2], *c, 0, 1, 0) && service.open_handles(first) == 4);
    told = service.holders(second);
    EXPECT(told.size() == 1 && has(told[0], a, 1, 1, 0) && service.open_handles(second) == 2);
    c.reset();
    EXPECT(service.holders(first).size() == 2 && service.open_handles(first) == 3);
}

static void descriptors() {
    Service service = Service::open().value();
    Client a = service.join("a").value(), b = service.join("b").value();
    Token root = a.open_root("root").value();
    int fd = a.fd(), other = b.fd();
    EXPECT(fd >= 0 && a.fd() == fd && !is_readable(fd));
    root.duplicate("kid").value().give(b.id()).value();
    EXPECT(is_readable(other) && b.pending().value().parcels == 1 && is_readable(other));
    Collection kid = b.collect().value()->token().value().bind().value();
    EXPECT(!is_readable(other));
    Collection mine = std::move(root).bind().value();
    auto waits = mine.waits_for().value();
    EXPECT(waits.size() == 2 && waits[0].label == "root" && waits[1].label == "kid");
    EXPECT(waits[1].holder_label == "b" && waits[1].is_bound && !waits[1].is_in_parcel);
    mine.set_constraints({1, 0, 4096}).value();
    EXPECT(mine.waits_for().value().size() == 1 && !is_readable(fd));
    std::uint64_t events = service.events();
    EXPECT(!*mine.wait_allocated(1ms) && !*a.collect_for(1ms) && service.events() == events);
    kid.set_constraints({1, 0, 4096}).value();
    EXPECT(is_readable(fd) && is_readable(other) && mine.waits_for().value().empty());
    Pending now = a.pending().value();
    EXPECT(now.allocated == std::vector<Key>{mine.key()} && now.failed.empty() && !is_readable(fd));
    EXPECT(b.pending().value().allocated == std::vector<Key>{kid.key()});
    Token late = mine.attach_token("late").value();
    Collection attached = std::move(late).bind().value();
    attached.set_constraints({9, 0, 4096}).value(); // TooFew: it fails
    now = a.pending().value();
    EXPECT(now.failed == std::vector<Key>{attached.key()} && now.allocated.empty());
    Tracker gone = mine.track_node().value();
    b.vanish();
    EXPECT(is_readable(fd));
    now = a.pending().value();
    EXPECT(now.failed == std::vector<Key>{mine.key()} && now.fired == std::vector<TrackerId>{gone.id()});
    EXPECT(!is_readable(fd) && mine.wait_allocated(1s).error().is(Cause::Lost));
    Client c = service.join("c").value();
    int third = c.fd();
    Token again = a.open_root("again").value();
    Token twin = again.duplicate("twin").value();
    std::move(twin).give(c.id()).value();
    again.close();
    Token got = c.collect().value()->token().value(); // its node failed in the parcel
    EXPECT(is_readable(third) && c.pending().value().failed == std::vector<Key>{got.key()});
    again = a.open_root("again").value();
    again.close();
    EXPECT(!is_readable(fd) && a.pending().value().empty()); // it has no ends any more
}

static void waits_across_units() {
    Service service = Service::open().value();
    Client a = service.join("a").value();
    std::optional<Client> b = service.join("b").value();
    Collection root = a.open_root("root").value().bind().value();
    Token att = root.attach_token("att").value();
    a.open_root().value().give(b->id()).value(); // two parcels come before
    std::move((*allocated(a, {1, 0, 1}).take().value())[0]).give(b->id()).value();
    att.duplicate("below").value().give(b->id()).value();
    Collection top = std::move(att).bind().value();
    top.set_constraints({1, 0, 4096}).value();
    auto waits = top.waits_for().value();
    EXPECT(waits.size() == 2 && waits[0].label == "root" && waits[1].label == "below");
    EXPECT(waits[1].is_in_parcel && waits[1].holder == a.id()); // b must collect it
    EXPECT(waits[1].receiver == b->id() && waits[1].receiver_label == "b" && waits[0].receiver == 0);
    EXPECT(root.waits_for().value().size() == 1);
    EXPECT(b->collect().value()->token() && b->collect().value()->handle());
    EXPECT(top.waits_for().value()[1].receiver == b->id());
    Token below = b->collect().value()->token().value();
    waits = top.waits_for().value();
    EXPECT(!waits[1].is_in_parcel && waits[1].holder_label == "b" && waits[1].receiver == 0);
    Client c = service.join().value();
    std::move(below).give(c.id()).value();
    b.reset();
    waits = top.waits_for().value();
    EXPECT(waits[1].receiver == c.id() && waits[1].receiver_label.empty() && waits[1].holder_label.empty());
}

static void callbacks() {
    Service service = Service::open().value();
    Client a = service.join("a").value();
    int rounds = 0, depth = 0;
    std::function<void(Event)> again = [&](Event) {
        EXPECT(depth++ == 0);
        if (++rounds < 200000) {
            Token t = a.open_root().value();
            t.track_node().value().on_fired(again);
        } // closed: it fires
        depth--;
    };
    a.open_root().value().track_node().value().on_fired(again);
    EXPECT(rounds == 200000 && depth == 0);
    rounds = 0;
    std::function<void(Event)> late = [&](Event) {
        EXPECT(depth++ == 0);
        if (++rounds < 200000) {
            Token t = a.open_root().value();
            Tracker gone = t.track_node().value();
            t.close();
            gone.on_fired(late); // it has fired
        }
        depth--;
    };
    a.open_root().value().track_node().value().on_fired(late);
    EXPECT(rounds == 200000);
}

static void parcels() {
    Service service = Service::open().value();
    Client a = service.join("a").value();
    a.open_root("root").value().give(a.id()).value();
    Parcel parcel = *a.collect().value();
    EXPECT(parcel.handle().error().is(Refusal::WrongKind) && !parcel.collection());
    Token root = parcel.token().value();
    EXPECT(root.sync() && parcel.token().value().sync().error().is_spent);
    Client b = service.join("b").value();
    b = std::move(a);
    EXPECT(root.sync());
    Tracker gone = root.track_node().value(), same = std::move(gone);
    EXPECT(gone.id() == same.id() && !gone.poll()); // a move is a copy
    Service moved = std::move(service);
    EXPECT(service.events() == moved.events());
    root.close();
    EXPECT(root.sync().error().message() == "refused: NoSuchEnd (the value was spent)" && !root.track_node());
    EXPECT(!std::move(root).give(b.id()) && !std::move(root).release() && root.client() == 0);
    EXPECT(a.label().empty() && a.fd() == -1 && !a.pending() && !a.collect_for(0ms) && !a);
    Token next = b.open_root("next").value();
    Token *self = &next;
    next = std::move(*self);
    EXPECT(next.sync());
}

// A wait ends when it is told to, and makes no event. A recorder may tell it so, which runs under the mutex.
template <class Make> static void cancelled(Make make, bool by_recorder) {
    std::function<void()> at_event;
    Options o;
    o.record = [&](std::string_view) {
        if (at_event) at_event();
    };
    Service service = Service::open(o).value();
    Client a = service.join("a").value();
    Token root = a.open_root("root").value();
    Tracker gone = root.track_node().value();
    Collection alone = std::move(root).bind().value();
    Collection c = allocated(a, {1, 0, 1});
    std::vector<Handle> frame = *c.take().value(), other = *c.take().value();
    auto late = a.collect_for(1ms);
    auto early = alone.wait_allocated(1ms);
    EXPECT(!*late && !late->is_cancelled() && !*early && !early->is_cancelled());
    EXPECT(!gone.wait_for(1ms).is_cancelled() && !frame[0].wait_idle(1, 1ms)->is_cancelled());
    std::uint64_t events = service.events();
    auto [stop, ends] = make();
    auto begin = std::chrono::steady_clock::now();
    std::atomic<int> ended{0};
    std::vector<std::thread> all;
    auto is_ended = [](const auto &told) { return !told && told.is_cancelled(); };
    all.emplace_back([&, &stop = stop] { ended += is_ended(*a.collect_for(1h, stop)); });
    all.emplace_back([&, &stop = stop] { ended += is_ended(*alone.wait_allocated(1h, stop)); });
    all.emplace_back([&, &stop = stop] { ended += is_ended(gone.wait(stop)); });
    all.emplace_back([&, &stop = stop] { ended += is_ended(frame[0].wait_idle(1, 1h, stop).value()); });
    Raw::await_sleepers(service, 4);
    if (by_recorder) {
        at_event = ends;
        c.sync().value();
        at_event = nullptr;
        events++;
    } else {
        ends();
    }
    for (std::thread &one : all) one.join();
    EXPECT(ended == 4 && std::chrono::steady_clock::now() - begin < 30s);
    EXPECT(is_ended(*a.collect_for(1h, stop)) && service.events() == events); // and those that come later
    EXPECT(frame[0].wait_idle(2, 1h, stop).value() && !frame[0].wait_idle(2, 1h, stop)->is_cancelled()); // it is so
    alone.close();
    EXPECT(gone.wait(stop) && !gone.wait(stop).is_cancelled());
}
// A Cancel also ends a wait in poll(), or in epoll.
static void cancel_descriptors() {
    Cancel one;
    std::optional<Cancel> copy = one;
    int fd = copy->fd();
    EXPECT(fd >= 0 && one.fd() == fd && !is_readable(fd));
    copy.reset();
    std::thread ends([one] {
        std::this_thread::sleep_for(5ms);
        one.cancel();
    });
    pollfd wait{fd, POLLIN, 0};
    EXPECT(poll(&wait, 1, 30000) == 1 && one.is_cancelled());
    ends.join();
    one.cancel();
    EXPECT(is_readable(fd));
    one = Cancel();
    EXPECT(fcntl(fd, F_GETFD) < 0); // the last copy has closed it
    one.cancel();
    EXPECT(is_readable(one.fd())); // also if it comes later
}
static void cancels() {
    for (bool by_recorder : {false, true}) {
        alarm(300); // a wait that nobody ends ends the test
        cancelled([] {
            Cancel cancel;
            return std::pair(cancel, std::function<void()>([cancel] { cancel.cancel(); }));
        }, by_recorder);
#ifdef __cpp_lib_jthread
        cancelled([] {
            auto source = std::make_shared<std::stop_source>();
            return std::pair(source->get_token(), std::function<void()>([source] { source->request_stop(); }));
        }, by_recorder);
#endif
        alarm(0);
    }
}

// Recorders of two services end waits on each other, both in the middle of an event.
static void cancels_across() {
    alarm(300);
    std::optional<Cancel> cancels[2]; // changed while there is one thread
    std::vector<Service> services;
    std::vector<Client> clients;
    for (int i : {0, 1}) {
        Options o;
        o.record = [&cancels, i](std::string_view) {
            if (cancels[1 - i]) cancels[1 - i]->cancel();
        };
        services.push_back(Service::open(o).value());
        clients.push_back(services[i].join().value());
    }
    for (int round = 0; round < 300; round++) {
        std::atomic<int> begun{0}, ready{0};
        for (auto &cancel : cancels) cancel.emplace();
        std::vector<std::thread> all;
        for (int i : {0, 1}) {
            all.emplace_back([&, i] {
                begun++;
                EXPECT(clients[i].collect_for(1h, *cancels[i])->is_cancelled());
            });
            all.emplace_back([&, i] {
                while (begun < 2) std::this_thread::yield();
                for (ready++; ready < 2;) continue;
                (void)clients[i].open_root(); // and closed
            });
        }
        for (std::thread &one : all) one.join();
    }
    alarm(0);
}

// The last events are for those who let go.
static void few_events() {
    Options o;
    o.events = 40;
    Service service = Service::open(o).value();
    {
        Client a = service.join("a").value(), b = service.join("b").value();
        Collection c = allocated(a, {2, 0, 1});
        std::vector<Handle> all = *c.take().value();
        while (service.remaining() >= 20) c.sync().value();
        EXPECT(service.join().error().is_history_full() && c.take().error().is_history_full());
        EXPECT(all[0].duplicate().error().is_history_full() && a.open_root().error().is_history_full());
        EXPECT(c.track_node().error().is_history_full() && c.attach_token().error().is_history_full());
        std::move(all[1]).give(b.id()).value();
        a.vanish();
        EXPECT(c.take().error().is_vanished && all[0].duplicate().error().is_vanished);
        EXPECT(c.track_node().error().is_vanished && c.attach_token().error().is_vanished);
    }
    EXPECT(service.is_settled() && service.live().value().empty() && service.free_pages() == 16);
    o.events = 8;
    Service other = Service::open(o).value();
    Client a = other.join("a").value();
    Token root = a.open_root().value();
    while (root.sync()) continue;
    root.close();
    EXPECT(other.lost() == 1 && !other.is_settled() && other.remaining() == 0);
    EXPECT(Service::open().value().remaining() == (std::uint64_t(1) << 53) - 1);
}

// Firings that were handed out are forgotten.
static void forgets() {
    Service service = Service::open().value();
    Client a = service.join("a").value();
    std::uint64_t told = 0;
    for (int i = 0; i < 10000; i++) {
        Token root = a.open_root().value();
        root.track_node().value().on_fired([&](Event) { told++; });
    }
    EXPECT(told == 10000 && service.fired().value().size() < 4096);
    Firings some = service.fired_from(5).value();
    EXPECT(some.first > 5 && some.first + some.all.size() == 10000);
    EXPECT(service.fired_from(9999).value().all.size() == 1);
    EXPECT(service.fired_from(UINT64_MAX).value().all.empty());
}

// Labels of kept nodes stay, and everything can be printed.
static void names() {
    Service service = Service::open().value();
    Client a = service.join("a").value();
    Token root = a.open_root("preview").value();
    Key key = root.key();
    Token child = root.duplicate("child").value();
    std::move(root).release().value();
    for (std::uint32_t slot = 2000; slot < 9000; slot++) service.set_label({slot, 7}, "nobody");
    EXPECT(service.label(key) == "preview" && service.label({2000, 7}).empty());
    Collection c = std::move(child).bind().value();
    auto nodes = service.nodes().value();
    EXPECT(nodes.size() == 2 && nodes[0].is_released && nodes[0].label == "preview" && nodes[0].holder == 0);
    EXPECT(nodes[1].is_bound && nodes[1].parent == key && nodes[1].holder_label == "a");
    c.set_constraints({0, 0, 1}).value();
    EXPECT(service.nodes().value().back().fault->second == key);
    std::ostringstream text;
    text << c.check().error() << ", " << key << ", " << Strength::Weak << ", " << Refusal::InTransit;
    EXPECT(text.str() == "closed: failed NoBuffers, by node 0.0 (preview), 0.0, weak, InTransit");
    Collection other = allocated(a, {2, 0, 5000});
    std::vector<Handle> handles = *other.take().value();
    Buffer second = handles[1].buffer();
    EXPECT(service.name(second) == "root.1" && service.name(key) == "preview" && service.name(Key{9, 9}) == "9.9");
    EXPECT(service.given(other.collection())->size == 5000 && !service.given(99));
    EXPECT(service.open_handles(a.id(), second, Strength::Strong) == 1);
    std::unordered_map<Buffer, int> by_buffer{{second, 1}};
    std::unordered_map<Key, int> by_key{{key, 1}};
    EXPECT(by_buffer.count(second) == 1 && by_key.count(key) == 1 && handles[0].buffer() < second);
    Buffer first = handles[0].buffer();
    handles[0] = std::move(handles[1]); // the handle that was there is dropped at once
    EXPECT(handles[0].buffer() == second && !handles[1]);
    EXPECT(service.open_handles(a.id(), first, Strength::Strong) == 0);
    EXPECT(service.open_handles(a.id(), second, Strength::Strong) == 1);
    EXPECT(other.set_constraints({1, 65, 1}).error().message() == "bad call: at_least is 65, and must be 0 to 64");
    EXPECT(other.set_constraints({0, 0, 0}).error().message() == "bad call: size is 0, and must be 1 to 1073741824");
    Options o;
    o.collections = 257;
    EXPECT(Service::open(o).error().message() == "bad limits: collections is 257, and must be 1 to 256");
}

// A recorder forgets the nodes that the core forgot, but not those that a kept one needs.
static void recorder_forgets() {
    Options o;
    std::string lines;
    o.record = [&](std::string_view two) { lines = two; };
    Service service = Service::open(o).value();
    Client a = service.join("a").value();
    Collection kept = a.open_root("kept").value().bind().value();
    Token child = kept.attach_token("child").value();
    Token twin = child.duplicate("twin").value();
    child.close(); // the origin of the twin's failure
    for (int i = 0; i < 20000; i++) a.open_root("gone").value();
    EXPECT(Raw::recorded(service) < 10000 && service.live().value().size() == 1);
    (void)twin.sync();
    EXPECT(lines == "a sync twin\n  closed lost child\n");
    kept.sync().value();
    EXPECT(lines == "a sync kept\n  done\n");
}

// What is written to standard error: the events, where the environment asks for them, and who keeps whom waiting.
static void says() {
    std::FILE *to = std::tmpfile();
    int before = dup(2);
    dup2(fileno(to), 2);
    setenv("SYSMEM_DEBUG", "1", 1);
    alarm(300);
    auto text = [&] {
        char bytes[2000];
        return std::string(bytes, std::size_t(pread(fileno(to), bytes, sizeof bytes, 0)));
    };
    auto waits_until_said = [&](const Collection &end, const char *words) {
        Cancel over;
        std::thread reads([&] {
            while (text().find(words) == std::string::npos) std::this_thread::sleep_for(1ms);
            over.cancel();
        });
        EXPECT(!*end.wait_allocated(1h, over));
        reads.join();
    };
    {
        Options o;
        o.slow = 1ms;
        Service service = Service::open(o).value();
        Client app = service.join("app").value();
        Collection view = app.open_root("view").value().bind().value();
        Client eye = service.join("eye").value();
        Token twin = app.open_root("twin").value(), given = twin.duplicate("given").value();
        std::move(given).give(eye.id()).value();
        waits_until_said(view, "sysmem: app waits for the allocation of view: no constraints from view (held by app)\n");
        waits_until_said(std::move(twin).bind().value(), "sysmem: app waits for the allocation of twin: no constraints from "
                                                         "twin (held by app), given (in a parcel for eye)\n");
    }
    alarm(0);
    unsetenv("SYSMEM_DEBUG");
    dup2(before, 2);
    std::string said = text();
    std::fclose(to);
    EXPECT(said.find("app join\n  joined\napp open view\n  token view\n") == 0);
    EXPECT(said.find("app close view\n  done\n") != std::string::npos);
}

int main() {
    pages_and_bytes(false);
    pages_and_bytes(true);
    guarded();
    idle();
    holders();
    descriptors();
    waits_across_units();
    callbacks();
    parcels();
    cancels();
    cancel_descriptors();
    cancels_across();
    few_events();
    forgets();
    names();
    recorder_forgets();
    says();
    std::puts("realuse: passed");
}
