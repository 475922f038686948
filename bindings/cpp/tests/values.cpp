// What each destructor does, what errors tell, and how trackers and waits are told.
#include "inside.hpp"

#include <cstdio>
#include <cstdlib>
#include <functional>
#include <limits>
#ifdef __linux__
#include <fcntl.h>
#include <poll.h>
#endif

using namespace sysmem;
using namespace std::chrono_literals;

static void expect(bool holds, const char *what, int line) {
    if (holds) return;
    std::fprintf(stderr, "line %d: %s\n", line, what);
    std::exit(1);
}
#define EXPECT(c) expect(static_cast<bool>(c), #c, __LINE__)

static Collection bound(const Client &client, Constraints wanted, std::string label = {}) {
    Collection c = client.open_root(std::move(label)).value().bind().value();
    c.set_constraints(wanted).value();
    return c;
}

// A token that goes out of scope fails its tree, and the peers are told by whom.
static void an_abrupt_close() {
    Service service = Service::open().value();
    Client app = service.join("app").value(), display = service.join("display").value();
    Token root = app.open_root("app").value();
    root.duplicate("display").value().give(display.id()).value();
    Collection mine = std::move(root).bind().value();
    EXPECT(!root);
    mine.set_constraints({2, 0, 4096}).value();
    Key theirs{};
    {
        Token token = std::get<Token>(*display.collect().value());
        theirs = token.key();
        EXPECT(service.live().value().size() == 2 && !*mine.check());
    }
    auto told = mine.check();
    EXPECT(!told && told.error().is(Cause::Lost) && told.error().origin == theirs);
    EXPECT(told.error().message().find("(display)") != std::string::npos);
    EXPECT(service.cause(mine.key())->second == theirs);
    EXPECT(service.live().value().empty());
#ifdef __cpp_exceptions
    try {
        (void)mine.take().value();
        EXPECT(false);
    } catch (const Failure &failure) {
        EXPECT(failure.error.is(Cause::Lost));
    }
#endif
}

// A release leaves the others alone, and pages stay as long as a handle does.
static void a_good_end() {
    Service service = Service::open().value();
    Client a = service.join().value(), b = service.join().value();
    std::optional<Handle> last;
    {
        Collection c = bound(a, {2, 0, 8192});
        std::vector<Handle> handles = *c.take().value();
        EXPECT(handles.size() == 2 && service.free_pages() == 12);
        std::move(handles[1]).give(b.id()).value();
        EXPECT(!handles[1]);
        std::move(c).release().value();
        EXPECT(!c && service.live().value().empty());
    }
    EXPECT(service.free_pages() == 14 && service.held().value().size() == 1);
    last.emplace(std::get<Handle>(*b.collect().value()));
    Handle more = last->duplicate().value();
    last.reset();
    EXPECT(service.free_pages() == 14);
    more.drop();
    EXPECT(service.free_pages() == 16);
}

// A client that vanishes lets go of what it has and of what waits for it; its values are dead.
static void a_vanishing() {
    Service service = Service::open().value();
    Client a = service.join().value();
    std::optional<Client> b = service.join().value();
    Token root = a.open_root().value();
    root.duplicate("parcel").value().give(b->id()).value();
    Collection kept = bound(*b, {1, 0, 4096});
    std::vector<Handle> handles = *kept.take().value();
    Token other = b->open_root().value();
    EXPECT(service.live().value().size() == 4 && service.free_pages() == 15);
    b.reset();
    EXPECT(service.live().value().empty() && service.free_pages() == 16);
    auto told = root.sync();
    EXPECT(!told && told.error().is(Cause::Lost) && told.error().label == "parcel");
    auto before = service.events();
    auto says = [](const auto &told, Refusal refusal) {
        return !told && told.error().is(refusal) && told.error().is_vanished && !told.error().is_spent &&
               told.error().message() == "refused: the client vanished";
    };
    EXPECT(says(kept.check(), Refusal::NoSuchEnd) && says(kept.wait_allocated(1h), Refusal::NoSuchEnd));
    EXPECT(says(kept.take(), Refusal::NoSuchEnd) && says(kept.attach_token(), Refusal::NoSuchEnd));
    EXPECT(says(kept.waits_for(), Refusal::NoSuchEnd) && says(kept.track_lifetime(0), Refusal::NoSuchEnd));
    EXPECT(says(other.sync(), Refusal::NoSuchEnd) && says(other.duplicate(), Refusal::NoSuchEnd));
    EXPECT(says(std::move(other).give(a.id()), Refusal::NoSuchEnd) && other);
    EXPECT(says(std::move(other).bind(), Refusal::NoSuchEnd) && other);
    EXPECT(says(handles[0].duplicate(), Refusal::NoSuchHandle) && says(handles[0].pages(), Refusal::NoSuchHandle));
    EXPECT(says(handles[0].open_handles(), Refusal::NoSuchHandle) && says(handles[0].on_idle(9), Refusal::NoSuchHandle));
    EXPECT(says(handles[0].wait_idle(9, 1h), Refusal::NoSuchHandle) && says(handles[0].track_weak(), Refusal::NoSuchHandle));
    EXPECT(says(std::move(handles[0]).give(a.id()), Refusal::NoSuchHandle) && handles[0]);
    EXPECT(service.events() == before); // a call on a dead value is none
    handles.clear();
    other.close();
    { Collection gone = std::move(kept); }
    EXPECT(service.events() == before);
    auto nobody = std::move(root).give(99);
    EXPECT(!nobody && nobody.error().is(Refusal::NoSuchClient) && root);
    EXPECT(a.shut().value() == 0 && !a.open_root() && a.open_root().error().is(Refusal::ClientShut));
}

#ifdef __cpp_exceptions
// An exception is a crash of what it leaves.
static void a_crash() {
    Service service = Service::open().value();
    Client app = service.join().value();
    Token root = app.open_root().value();
    try {
        Client display = service.join("display").value();
        root.duplicate("display").value().give(display.id()).value();
        Token theirs = std::get<Token>(*display.collect().value());
        throw 1;
    } catch (int) {
    }
    EXPECT(root.sync().error().label == "display");
}
#endif

// A value that is assigned to takes the other's place.
static void moves() {
    Service service = Service::open().value();
    std::optional<Client> a = service.join("a").value();
    Client b = service.join("b").value();
    Token one = a->open_root("one").value(), two = b.open_root("two").value();
    Key first = one.key(), second = two.key();
    one = std::move(two); // what `one` had is closed at once
    EXPECT(one.key() == second && one.client() == b.id() && !two);
    EXPECT(!service.is_live(first) && service.is_live(second));
    EXPECT(two.sync().error().is_spent && !std::move(two).bind() && !two.duplicate());
    a = std::move(b); // and a's client vanishes
    EXPECT(a->label() == "b" && a->id() == one.client() && !b && b.id() == 0);
    EXPECT(b.collect().error().is_spent && !b.open_root() && !b.shut() && service.is_live(second));
    a.reset();
    EXPECT(!service.is_live(second) && one.sync().error().is_vanished && !one.sync().error().is_spent);
    EXPECT(std::move(one).release().error().is_vanished && !one && one.sync().error().is_spent);
}

// Labels are of nodes; at most 4,096 are kept, and those of nodes that were forgotten go first.
static void labels() {
    Service service = Service::open().value();
    Client a = service.join("a").value();
    Token root = a.open_root("root").value();
    EXPECT(service.label(root.key()) == "root" && service.label({99, 0}).empty());
    service.set_label(root.key(), "camera");
    Key child = root.duplicate().value().key(); // and closed
    service.set_label(child, "child");
    for (std::uint32_t i = 0; i < 5000; i++) service.set_label({i + 2000, 7}, "nobody");
    EXPECT(service.label(root.key()) == "camera" && service.label({6999, 7}) == "nobody");
    EXPECT(service.label({2000, 7}).empty());
}

// A Result has what std::expected has.
static void results() {
    Service service = Service::open().value();
    Client a = service.join().value();
    EXPECT(a.shut().value_or(7) == 0 && service.join().value_or(std::move(a)).id() == 3);
    auto one = Service::open().and_then([](const Service &s) { return s.join("x"); });
    EXPECT(one->label() == "x" && (*one).id() == 1);
    auto shut = one->shut().transform([](std::uint64_t n) { return n + 1; });
    EXPECT(shut.value() == 1 && *shut == 1);
    auto bad = one->open_root().transform([](Token t) { return t.key(); });
    EXPECT(!bad.has_value() && bad.error().is(Refusal::ClientShut));
    EXPECT(one->open_root().and_then([](Token t) { return t.sync(); }).error().is(Refusal::ClientShut));
    EXPECT(bad.value_or(Key{3, 4}) == (Key{3, 4}));
    Result<std::string> some = std::string(99, 'x'), none = Error::fault(SYSMEM_NO_MEMORY), copy = some;
    EXPECT(*copy == *some && !none);
    copy = none;
    EXPECT(!copy && copy.error().is_no_memory());
    none = some;
    EXPECT(none && *none == *some);
    some = std::move(copy);
    EXPECT(!some && some.error().is_no_memory());
    none = std::move(some);
    copy = std::move(none);
    Result<std::string> last = std::move(copy);
    EXPECT(!last && last.error().is_no_memory());
    using Mine = Result<Token>;
    static_assert(!std::is_copy_constructible_v<Mine> && !std::is_copy_assignable_v<Mine>);
    static_assert(std::is_nothrow_move_constructible_v<Mine> && std::is_move_assignable_v<Mine>);
    static_assert(std::is_copy_constructible_v<Result<Waits>> && std::is_copy_assignable_v<Result<Waits>>);
    Result<void> done;
    EXPECT(*done.transform([] { return 5; }) == 5 && done.and_then([] { return Result<void>(); }));
    done.value();
    EXPECT(name(Cause::LateWeak) == "misused LateWeak" && name(Misuse::LateWeak) == "LateWeak");
}

// What was given away is not closed again: who vanishes then makes one event, its Shut.
static void what_was_given() {
    Service service = Service::open().value();
    Client a = service.join().value(), b = service.join().value();
    Collection c = bound(a, {1, 0, 4096});
    std::vector<Handle> handles = *c.take().value();
    std::move(handles[0]).give(b.id()).value();
    std::move(c).give(b.id()).value();
    Event before = service.events();
    a.vanish();
    EXPECT(service.events() == before + 1 && service.free_pages() == 15);
    EXPECT(std::holds_alternative<Handle>(*b.collect().value()));
    EXPECT(std::holds_alternative<Collection>(*b.collect().value()));
    EXPECT(service.free_pages() == 16);
}

// A refused value stays; misuses fail the node; faults change nothing.
static void what_is_refused() {
    Options few;
    few.nodes = 1;
    few.events = 40;
    Service service = Service::open(few).value();
    EXPECT(!Service::open({0, 1, 1, 1, 1, 1, {}}));
    Client a = service.join().value();
    Token root = a.open_root().value();
    auto full = root.duplicate();
    EXPECT(!full && full.error().is(Refusal::TooManyNodes));
    Collection c = std::move(root).bind().value();
    auto bad = c.set_constraints({65, 0, 4096});
    EXPECT(!bad && bad.error().kind == Error::Kind::Fault && bad.error().detail == SYSMEM_BAD_CALL);
    c.set_constraints({1, 0, 4096}).value();
    auto again = c.set_constraints({1, 0, 4096});
    EXPECT(!again && again.error().is(Misuse::SecondConstraints));
    EXPECT(!c.check() && c.check().error().is(Cause::SecondConstraints));
    while (a.shut()) {
    }
    EXPECT(service.events() == 40 && !service.join() && service.join().error().is_history_full());
}

// Trackers are polled, waited for, and told; callbacks may call the service.
static void trackers() {
    Options quiet;
    quiet.slow = 0ms; // or a wait that nobody wakes would look for itself as it says that it is slow
    Service service = Service::open(quiet).value();
    Client a = service.join().value(), b = service.join().value();
    Token root = a.open_root().value();
    root.duplicate().value().give(b.id()).value();
    Tracker node = root.track_node().value();
    Collection mine = std::move(root).bind().value();
    std::atomic<Event> heard{0};
    std::atomic<std::uint32_t> free_then{0};
    node.on_fired([&](Event event) {
        free_then = service.free_pages();
        heard = event;
    });
    EXPECT(!node.poll() && !node.wait_for(1ms));

    // Another thread brings its constraints; this one waits for the buffers, and checks at most three
    // times.
    mine.set_constraints({1, 0, 4096}).value();
    Event before = service.events();
    std::thread peer([&] {
        Collection theirs = std::get<Token>(*b.collect_for(60s).value()).bind().value();
        Raw::await_sleepers(service);
        theirs.set_constraints({1, 0, 8192}).value();
        std::move(theirs).release().value();
    });
    auto begin = std::chrono::steady_clock::now();
    auto given = mine.wait_allocated(60s);
    peer.join();
    EXPECT(std::chrono::steady_clock::now() - begin < 50s); // told, and not by the end of its time
    EXPECT(service.events() <= before + 4 + 3);
    EXPECT(given && *given && (*given)->count == 2 && (*given)->size == 8192);
    Tracker life = mine.track_lifetime(0).value();
#ifdef __linux__
    pollfd fds[] = {{life.fd(), POLLIN, 0}, {node.fd(), POLLIN, 0}};
    EXPECT(poll(fds, 2, 0) == 0);
#endif
    std::vector<Handle> handles = *mine.take().value();
    std::thread waits([&] { EXPECT(life.wait_for(60s) && life.wait() > 0 && !life.wait_for(1ns).is_cancelled()); });
    Raw::await_sleepers(service);
    mine.close();
    EXPECT(heard == *node.poll() && heard > 0 && free_then == 12);
    EXPECT(!life.poll());
    begin = std::chrono::steady_clock::now();
    handles.clear();
    waits.join();
    EXPECT(std::chrono::steady_clock::now() - begin < 50s);
#ifdef __linux__
    EXPECT(poll(fds, 2, 0) == 2 && life.fd() == fds[0].fd);
#endif
    EXPECT(life.poll() && service.fired().value().size() == 2);
    Event late = 0;
    life.on_fired([&](Event event) { late = event; });
    EXPECT(late == *life.poll());
#ifdef __linux__
    {
        Tracker copy = life;
        int fd = fds[0].fd;
        life = node;
        EXPECT(copy.fd() == fd && fcntl(fd, F_GETFD) >= 0);
        copy = node;
        EXPECT(fcntl(fd, F_GETFD) < 0);
    }
#endif

    // A wait for what does not come ends with its time, and with a failure where the node is gone.
    Collection alone = a.open_root().value().bind().value();
    EXPECT(!*alone.wait_allocated(5ms) && !*alone.wait_allocated(5ms));
    EXPECT(!*a.collect_for(1ms));
    // What a wait answers also is what it waits for.
    std::optional<Event> fired = life.wait_for(1ms);
    Result<std::optional<Allocation>> look = alone.wait_allocated(1ms), all = mine.wait_allocated(1ms);
    Result<std::optional<Parcel>> parcel = a.collect_for(1ms);
    EXPECT(fired == life.poll() && look && !*look && all.error().is_spent && parcel && !*parcel);
}

// A wait lasts as long as its time, in whatever unit that is; and not at all if it is negative or no number.
static void lasts_until(std::chrono::steady_clock::time_point then, std::function<Waited<Event>(const Cancel &)> wait) {
    Cancel cancel;
    auto begin = std::chrono::steady_clock::now();
    EXPECT(then > begin + 100h && then < begin + 2000000h);
    std::thread ends([&] {
        std::this_thread::sleep_for(2ms);
        cancel.cancel();
    });
    EXPECT(wait(cancel).is_cancelled() && std::chrono::steady_clock::now() >= begin + 2ms);
    ends.join();
}
template <class Time> static void lasts(const Tracker &never, Time time) {
    lasts_until(detail::after(time), [&](const Cancel &cancel) { return never.wait_for(time, cancel); });
}
template <class Time> static void is_over(const Tracker &never, Time time) {
    auto then = detail::after(time);
    EXPECT(then <= std::chrono::steady_clock::now());
    auto told = never.wait_for(time, Cancel());
    EXPECT(!told && !told.is_cancelled());
}
template <class... Unit> static void units(const Tracker &never) {
    (lasts(never, Unit::max()), ...);
    (is_over(never, Unit::min()), ...);
    (is_over(never, Unit::zero() - Unit(1)), ...);
    (is_over(never, Unit::zero()), ...);
    auto is_near = [](auto time) {
        auto begin = std::chrono::steady_clock::now(), then = detail::after(time);
        return then >= begin + 24h && then <= std::chrono::steady_clock::now() + 24h;
    };
    EXPECT((is_near(std::chrono::duration_cast<Unit>(24h)) && ...));
}
template <class Rep> static void floating(const Tracker &never) {
    using Time = std::chrono::duration<Rep>;
    using Limits = std::numeric_limits<Rep>;
    lasts(never, Time(Limits::infinity()));
    lasts(never, std::chrono::duration<Rep, std::ratio<86400>>::max());
    is_over(never, Time(-Limits::infinity()));
    is_over(never, Time(Limits::quiet_NaN()));
    is_over(never, Time(Limits::denorm_min()) - Time(1));
    units<Time>(never);
}
static void times() {
    using namespace std::chrono;
    using day = std::ratio<86400>;
    Service service = Service::open().value();
    Client a = service.join().value();
    Token root = a.open_root().value();
    const Tracker never = root.track_node().value();
    units<nanoseconds, microseconds, milliseconds, seconds, minutes, hours>(never);
    units<duration<int, day>, duration<std::int64_t, day>, duration<signed char, std::ratio<3600>>>(never);
    units<duration<std::int64_t, std::pico>, duration<std::int64_t, std::ratio<1, 3>>>(never);
    lasts(never, duration<std::uint64_t, day>::max());
    lasts(never, duration<int, std::ratio<31556952>>::max());
#if __cplusplus >= 202002L
    units<days>(never);
    lasts(never, weeks::max()), lasts(never, months::max()), lasts(never, years::max());
    is_over(never, weeks::min()), is_over(never, months::min()), is_over(never, years::min());
#endif
    floating<float>(never), floating<double>(never), floating<long double>(never);

    // And so by points of time.
    Cancel ended;
    ended.cancel();
    auto until = [&](auto then) { return never.wait_until(then, ended).is_cancelled(); };
    EXPECT(until(steady_clock::time_point::max()) && until(time_point<steady_clock, hours>::max()));
    EXPECT(until(system_clock::time_point::max()) && until(time_point<system_clock, hours>::max()));
    EXPECT(detail::after(detail::left(system_clock::time_point::max())) > steady_clock::now() + 100h);
    auto past = [&](auto then) { return never.wait_until(then) == std::nullopt; };
    EXPECT(past(steady_clock::time_point::min()) && past(time_point<steady_clock, hours>::min()));
    EXPECT(past(system_clock::time_point::min()) && past(system_clock::now() - 1s) && past(steady_clock::now() + 1ms));
    auto begin = steady_clock::now();
    EXPECT(past(system_clock::now() + 5ms) && past(begin + 20ms) && steady_clock::now() >= begin + 20ms);
}

// Of a tracker's callbacks the last one counts; those of one event run in the order of the trackers. One may
// own values: the call that it makes is another event.
static void callbacks() {
    Service service = Service::open().value();
    Client a = service.join().value();
    Token root = a.open_root().value();
    std::vector<int> heard;
    {
        Tracker first = root.track_node().value(), second = root.track_node().value();
        first.on_fired([&](Event) { heard.push_back(0); });
        first.on_fired([&](Event) { heard.push_back(1); });
        second.on_fired([&, other = std::make_shared<Token>(a.open_root().value())](Event) {
            heard.push_back(2);
            other->close();
        });
    }
    EXPECT(service.live().value().size() == 2);
    root.close();
    EXPECT((heard == std::vector<int>{1, 2}) && service.live().value().empty());

    // A callback that owns the Service keeps the core until it fires.
    std::optional<Service> own = Service::open().value();
    std::optional<Client> b = own->join().value();
    Token token = b->open_root().value();
    std::uint64_t events = 0;
    token.track_node().value().on_fired([&, service = *own](Event) { events = service.events(); });
    own.reset();
    b.reset();
    EXPECT(events == 5);
}

// A gift wakes the one who waits for it.
static void gifts() {
    Service service = Service::open().value();
    Client a = service.join().value(), b = service.join().value();
    Token root = a.open_root().value();
    auto begin = std::chrono::steady_clock::now();
    EXPECT(detail::after(std::chrono::hours::max()) > begin + std::chrono::hours(1000));
    std::thread peer([&] {
        EXPECT(std::holds_alternative<Token>(*b.collect_for(60s).value()));
        EXPECT(std::holds_alternative<Handle>(*b.collect_for(60s).value()));
    });
    Raw::await_sleepers(service);
    root.duplicate().value().give(b.id()).value();
    Raw::await_sleepers(service);
    Collection c = bound(a, {1, 0, 1});
    std::move((*c.take().value())[0]).give(b.id()).value();
    peer.join();
    EXPECT(std::chrono::steady_clock::now() - begin < 50s);
}

// A transcript has the program's labels where they fit. The label of a refused call stays free.
static void a_transcript() {
    std::string lines;
    Options options;
    options.record = [&](std::string_view two) { lines += two; };
    options.transcript = true;
    Service service = Service::open(options).value();
    Client app = service.join("app").value(), other = service.join("show").value();
    EXPECT(app.shut().value() == 0 && !app.open_root("root"));
    Token root = other.open_root("root").value();
    Token again = root.duplicate("root").value(), made = root.duplicate("n8").value();
    EXPECT(!std::move(again).give(99));
    Collection c = std::move(made).bind().value();
    c.set_weak_ok(true).value();
    c.set_constraints({65, 0, 4096}).error();
    EXPECT(lines == "app join\n  joined\nc2 join\n  joined\napp shut\n  shut 0\n"
                    "app open root\n  refused 2 ClientShut\nc2 open root\n  token root\n"
                    "c2 dup root n6\n  token n6\nc2 dup root n7\n  token n7\n"
                    "# c2 give n6 ?\n#   refused 1 NoSuchClient\nc2 bind n7\n  done\n"
                    "c2 weakok n7 children\n  done\n");
    EXPECT(service.transcript() == "# pages 16\n" + lines);
    EXPECT(Service::open().value().transcript().empty());
}

// The last events, with their labels; and at a failure those that were not written before.
static void a_ring() {
    std::FILE *file = std::tmpfile();
    LastEvents last = record_last(4, file), one = record_last(0);
    EXPECT(last.text() == "# events 1 to 0\n");
    EXPECT(Record([](std::string_view) {}) && !Record(nullptr) && !Record(std::function<void(std::string_view)>()));
    Options options;
    options.record = [last, one](std::string_view lines) { last(lines), one(lines); };
    Service service = Service::open(options).value();
    Client app = service.join("app").value();
    Token root = app.open_root("root").value();
    EXPECT(last.text() == "# events 1 to 2\napp join\n  joined\napp open root\n  token root\n");
    EXPECT(one.text() == "# events 2 to 2\napp open root\n  token root\n");
    Token child = root.duplicate("child").value(), other = root.duplicate().value();
    child.close();
    std::string told = "# events 2 to 5\napp open root\n  token root\napp dup root child\n  token child\n"
                       "app dup root n4\n  token n4\napp close child\n  done\n";
    EXPECT(last.text() == told);
    EXPECT(std::ftell(file) == 0 && !root.sync() && !other.sync());
    told = told.substr(told.find("app dup root child")) + "app sync root\n  closed lost child\n";
    std::string more = "# events 7 to 7\napp sync n4\n  closed lost child\n";
    std::string written(std::size_t(std::ftell(file)), '?');
    std::rewind(file);
    EXPECT(std::fread(&written[0], 1, written.size(), file) == written.size());
    EXPECT(written == "# events 3 to 6\n" + told + more);
    std::fclose(file);
}

#ifdef __cpp_exceptions
// A recorder that throws ends the transcript. What is kept stays.
static void a_transcript_that_ends() {
    Options options;
    options.pages = 8;
    options.transcript = true;
    options.record = [](std::string_view two) {
        if (two.find("open") != two.npos) throw std::runtime_error("no more");
    };
    Service service = Service::open(options).value();
    Client app = service.join("app").value();
    app.open_root("root").value().sync().value();
    EXPECT(service.transcript() == "# pages 8\napp join\n  joined\napp open root\n  token root\n");
    EXPECT(service.events() == 4);
}
#endif

// Several threads may call const members of one value at once.
static void const_members() {
    Service service = Service::open().value();
    const Client a = service.join().value();
    const Collection c = bound(a, {2, 0, 4096});
    const std::vector<Handle> handles = *c.take().value();
    const Tracker life = c.track_lifetime(0).value();
    std::vector<std::thread> all;
    for (int i = 0; i < 4; i++)
        all.emplace_back([&] {
            for (int round = 0; round < 100; round++) {
                EXPECT(c.sync() && *c.check() && c.take() && c.waits_for()->empty());
                EXPECT(c.attach_token().value().release() && a.open_root() && !*a.collect());
                EXPECT(handles[0].duplicate() && handles[0].pages() && handles[0].open_handles().value() > 0);
                EXPECT(c.wait_allocated(0ms)->has_value() && !life.poll() && service.nodes());
                EXPECT(handles[0].on_idle(0, [](Buffer) {}) && !*handles[1].wait_idle(0, 0ms));
#ifdef __linux__
                EXPECT(a.fd() >= 0 && a.pending());
#endif
            }
        });
    for (std::thread &one : all) one.join();
    EXPECT(handles[0].open_handles().value() == 1 && service.live().value().size() == 1);
}

// A weak holder is told to let go.
static void weak_handles() {
    Service service = Service::open().value();
    Client app = service.join().value(), eye = service.join().value();
    Token root = app.open_root().value();
    Token watcher = root.duplicate().value();
    watcher.set_weak().value();
    Collection strong = std::move(root).bind().value();
    std::move(watcher).give(eye.id()).value();
    Collection weak = std::get<Token>(*eye.collect().value()).bind().value();
    strong.set_constraints({1, 0, 4096}).value();
    weak.set_constraints({0, 0, 1}).value();
    std::vector<Handle> mine = *strong.take().value(), theirs = *weak.take().value();
    EXPECT(theirs[0].strength() == Strength::Weak);
    Tracker close_weak = theirs[0].track_weak().value();
    std::move(strong).release().value();
    EXPECT(!close_weak.poll());
    mine.clear();
    EXPECT(close_weak.poll() && service.free_pages() == 15);
    theirs.clear();
    EXPECT(service.free_pages() == 16);
}

// The core is there as long as a value of it is.
static void what_outlives_a_service() {
    std::optional<Service> service = Service::open().value();
    std::optional<Client> a = service->join("a").value();
    std::optional<Tracker> tracker = a->open_root().value().track_node().value();
    service.reset();
    EXPECT(tracker->poll());
    a.reset();
    EXPECT(tracker->poll());
}

int main() {
    an_abrupt_close();
    a_good_end();
    a_vanishing();
#ifdef __cpp_exceptions
    a_crash();
#endif
    moves();
    labels();
    results();
    what_was_given();
    what_is_refused();
    trackers();
    times();
    callbacks();
    gifts();
    a_transcript();
    a_ring();
#ifdef __cpp_exceptions
    a_transcript_that_ends();
#endif
    const_members();
    weak_handles();
    what_outlives_a_service();
    std::puts("each value does what it should");
    return 0;
}
