/// \file
/// The service as C++ values, over sysmem.h and libsysmem. C++17, headers only, no other dependency.
///
/// A Service is one core behind one mutex. All copies of a Service are the same service, and any
/// thread may use them. Tokens, Collections, Handles and Clients can be moved, but not copied. What
/// destructors do:
///
///   Token, Collection   closes the end without a release: the node fails, and all nodes that its
///                       failure reaches. To leave without a failure, call release().
///   Handle              drops the handle. A buffer gives its pages back with its last handle, if
///                       nothing else keeps it.
///   Client              makes the client vanish: it is shut, collects its parcels, closes all its
///                       ends and drops all its handles. From then on calls on its other values are
///                       refused, and their destructors do nothing.
///   Tracker             does nothing: the tracker fires also without a Tracker.
///   Service             does nothing. The last Service, Client, Token, Collection, Handle or Tracker
///                       of a core closes it.
///
/// No destructor throws, fails, or waits for anything but the mutex. If memory is refused to a
/// destructor, its call is made before the next call of any thread.
///
/// Any number of threads may use one Service, and different values. Of one Token, Collection, Handle, Client or
/// Tracker several threads may call const members at once; a call of any other member, the destructor
/// included, needs the value alone.
///
/// A callback runs in the thread whose call fired the tracker, or left few enough handles, after that call has
/// released the mutex: so it may call the service. It must not throw. One thread never runs a callback within
/// another: what falls due in a callback runs after it, in order.
///
/// A move takes the value's content, and leaves it spent; an assignment first does what the destructor does. A
/// value is spent too once it was given, released, closed, dropped, bound or has vanished. Calls on a spent value
/// answer an Error with `is_spent`, and make no event.
#ifndef SYSMEM_HPP
#define SYSMEM_HPP

#include "sysmem/state.hpp"

/// Lifetimes of shared buffers: the service as values. Its names stand in an inline namespace of the headers' version.
namespace sysmem {
inline namespace SYSMEM_INLINE {

/// A tracker, which fires once.
class Tracker {
public:
    /// A move is a copy, so that a Tracker always has a tracker.
    Tracker(const Tracker &) = default;
    /// The same tracker as the other.
    Tracker &operator=(const Tracker &) = default;
    /// Its number.
    TrackerId id() const { return watch().id; }
    /// The event at which the tracker fired, or nothing. Takes no lock.
    std::optional<Event> poll() const {
        Event event = watch().event.load(std::memory_order_acquire);
        return event == 0 ? std::nullopt : std::optional<Event>(event);
    }
    /// Waits until the tracker fires.
    Event wait() const {
        detail::Ends<> never(watch().bell);
        return *wait_to(detail::forever(), never);
    }
    /// Waits until the tracker fires, or the `stop` ends the wait: a Cancel or (C++20) a std::stop_token. So with all
    /// waits: their answer then has no value, and `is_cancelled`.
    template <class Stop> Waited<Event> wait(const Stop &stop) const {
        detail::Ends<Stop> ends(watch().bell, stop);
        return wait_to(detail::forever(), ends);
    }
    /// Waits likewise; nothing if the time is over first. A time that is negative or no number is over.
    template <class Rep, class Period, class... Stop>
    Waited<Event> wait_for(std::chrono::duration<Rep, Period> time, const Stop &...stop) const {
        detail::Ends<Stop...> ends(watch().bell, stop...);
        return wait_to(detail::after(time), ends);
    }
    /// Waits likewise, until then by any clock.
    template <class Clock, class Duration, class... Stop>
    Waited<Event> wait_until(std::chrono::time_point<Clock, Duration> until, const Stop &...stop) const {
        return wait_for(detail::left(until), stop...);
    }
    /// Sets the callback, in place of an earlier one. It is called once, with the event, without the
    /// mutex: in the thread whose call fires the tracker, or in this call if the tracker has fired.
    /// It stays when the Tracker is destroyed, and must not throw. Threads that wait for the tracker
    /// may return before or while the callback runs, so it must own what it uses.
    void on_fired(Callback<Event> then) {
        std::unique_lock<std::mutex> lock(reader->state->mutex);
        if (!poll()) {
            std::swap(watch().then, then);
            return lock.unlock(); // the earlier callback is destroyed without the mutex
        }
        lock.unlock();
        detail::Runner::call(std::move(then), *poll());
    }

#ifdef __linux__
    /// A file descriptor for poll() or epoll, which becomes readable when the tracker fires; -1 if
    /// the system gives none. The last copy of the Tracker closes it.
    int fd() {
        std::lock_guard<std::mutex> lock(reader->state->mutex);
        if (watch().fd < 0) watch().fd = eventfd(poll() ? 1 : 0, EFD_CLOEXEC | EFD_NONBLOCK);
        return watch().fd;
    }
#endif

private:
    friend class End;
    friend class Handle;
    explicit Tracker(std::shared_ptr<detail::Reader> reader) : reader(std::move(reader)) {}
    detail::Watch &watch() const { return *reader->watch; }
    Waited<Event> wait_to(std::chrono::steady_clock::time_point until, const detail::Ending &wait) const {
        detail::State &s = *reader->state;
        std::unique_lock<std::mutex> lock(s.mutex);
        bool is_fired = detail::sleep(s, lock, wait, until, [&] { return poll().has_value(); });
        return {poll(), !is_fired && wait.is_over};
    }
    static Result<Tracker> make(const detail::Account &a, const sysmem_call &call,
                                CollectionId tree) {
        detail::State &s = *a.state;
        auto reader = std::make_shared<detail::Reader>();
        reader->watch = std::make_shared<detail::Watch>();
        detail::Guard guard(s);
        reader->state = s.self;
        if (!detail::reserve(s.waiting, 1)) return Error::fault(SYSMEM_NO_MEMORY);
        if (s.is_short(a)) return Error::fault(SYSMEM_HISTORY_FULL);
        if (s.waiting.empty()) s.seen = s.fired_count();
        detail::Answer answer = s.ask(a, call, tree);
        if (!answer.is_good()) return s.why(answer);
        reader->watch->id = answer.reply.id;
        reader->watch->owner = a.id;
        s.waiting.emplace_back(answer.reply.id, reader->watch);
        s.is_eager = true;
        return Tracker(std::move(reader));
    }

    std::shared_ptr<detail::Reader> reader;
};

/// A handle, which keeps a buffer in use. The destructor drops it.
class Handle {
public:
    /// Takes the other's handle, and leaves it spent.
    Handle(Handle &&other) noexcept
        : account(std::exchange(other.account, nullptr)), tree(other.tree), bytes(other.bytes),
          row(other.row), index(other.index), how(other.how) {}
    /// Drops the handle that this value had, and takes the other's.
    Handle &operator=(Handle &&other) noexcept {
        if (this == &other) return *this;
        drop();
        account = std::exchange(other.account, nullptr);
        tree = other.tree;
        bytes = other.bytes;
        row = other.row;
        index = other.index;
        how = other.how;
        return *this;
    }
    /// Drops the handle.
    ~Handle() {
        if (account) drop();
    }
    /// Whether it is not spent.
    explicit operator bool() const noexcept { return account; }
    /// Its buffer: also once it is spent.
    Buffer buffer() const { return {tree, index}; }
    /// Whether it is strong: also once it is spent.
    Strength strength() const { return Strength(how); }
    /// The client that has it; 0 if it is spent.
    ClientId client() const { return account ? account->id : 0; }
    /// The buffer's pages in the pool. They are the buffer's as long as the handle is open.
    Result<Pages> pages() const {
        if (!account) return spent();
        detail::Guard guard(*account->state);
        detail::Cell *c = nullptr;
        if (!find(c)) return Error::fault(SYSMEM_NO_MEMORY);
        if (!c) return vanished();
        return c->at;
    }

    /// Does what the destructor does.
    void drop() noexcept {
        if (!account) return;
        detail::Account &a = *std::exchange(account, nullptr);
        detail::LastGuard guard(a);
        a.state->part(a, row);
    }
    /// Opens one more handle of this buffer and strength.
    Result<Handle> duplicate() const {
        if (!account) return spent();
        detail::State &s = *account->state;
        detail::Guard guard(s);
        if (!account->has_room()) return Error::fault(SYSMEM_NO_MEMORY);
        if (s.is_short(*account)) return Error::fault(SYSMEM_HISTORY_FULL);
        detail::Answer answer = s.ask(*account, words(SYSMEM_DUP_HANDLE));
        if (!answer.is_good()) return s.why(answer);
        detail::Cell *cell = account->rows[row].cell;
        if (cell) s.opened(cell);
        return Handle(*account, buffer(), strength(), cell);
    }
    /// Puts the handle into a parcel for the client. If that is refused, it stays in this value.
    Result<void> give(ClientId to) && {
        if (!account) return spent();
        detail::Account &a = *account;
        sysmem_call call = words(SYSMEM_GIVE_HANDLE);
        call.client = to;
        detail::LastGuard guard(a);
        detail::Answer answer = a.state->ask(a, call);
        if (!answer.is_good()) return guard.stay(), a.state->why(answer);
        a.erase(row);
        a.state->tell_gift(to, detail::Post(buffer(), strength()));
        account = nullptr;
        return {};
    }
    /// Makes a tracker that fires once no strong handle and no strong node keeps the buffer. Refused
    /// unless the client has a weak handle on the buffer.
    Result<Tracker> track_weak() const {
        if (!account) return spent();
        return Tracker::make(*account, words(SYSMEM_TRACK_WEAK), 0);
    }

    /// How many handles of this buffer are open: of either strength, of all clients and in parcels,
    /// this one included. Makes no event, as all that follows.
    Result<std::uint32_t> open_handles() const {
        if (!account) return spent();
        detail::Guard guard(*account->state);
        detail::Cell *c = nullptr;
        if (!find(c)) return Error::fault(SYSMEM_NO_MEMORY);
        if (!c) return vanished();
        return c->open;
    }
    /// Calls `then` once, as soon as at most `most` handles of this buffer are open, whoever gave up
    /// the others; at once if this is so now. It runs as a tracker's callback does, and stays when
    /// the Handle or its client is gone. Without `then` the client's pending() names the buffer, and
    /// its fd() becomes readable.
    Result<void> on_idle(std::uint32_t most, Callback<Buffer> then = nullptr) const {
        if (!account) return spent();
        auto idle = std::make_shared<detail::Idle>();
        idle->most = most;
        idle->owner = account->id;
        idle->buffer = buffer();
        idle->then = std::move(then);
        detail::Guard guard(*account->state);
        detail::Cell *c = nullptr;
        if (!find(c)) return Error::fault(SYSMEM_NO_MEMORY);
        if (!c) return vanished();
        idle->after = std::move(c->idle);
        c->idle = std::move(idle);
        account->state->tell_idle(*c);
        return {};
    }
    /// Waits for the same; false if the time is over first, or if a `stop` ends the wait: then it `is_cancelled`.
    template <class Rep, class Period, class... Stop>
    Result<Waited<void>> wait_idle(std::uint32_t most, std::chrono::duration<Rep, Period> time,
                                   const Stop &...stop) const {
        detail::Bell bell;
        detail::Ends<Stop...> ends(bell, stop...);
        return idle_to(most, detail::after(time), ends);
    }

private:
    friend class Client;
    friend class Collection;
    friend class Memory;
    /// Called under the mutex, with room for a row.
    Handle(detail::Account &a, Buffer buffer, Strength strength, detail::Cell *cell) noexcept
        : account(&a), tree(buffer.collection), row(a.add({buffer, strength, cell})),
          index(buffer.index), how(std::uint8_t(strength)) {
        a.values++;
        a.state->users++;
        if (cell && !cell->is_shut) bytes = std::uint64_t(cell->at.start) << 32 | cell->tree->size;
    }
    sysmem_call words(std::uint32_t kind) const { return detail::call(kind, buffer(), strength()); }
    static Error spent() { return Error::spent(Refusal::NoSuchHandle); }
    static Error vanished() { return Error::vanished(Refusal::NoSuchHandle); }
    // Removes a thread that waits from the list of the buffer, under the mutex.
    struct Forget {
        detail::State &state;
        const std::shared_ptr<detail::Idle> &idle;
        ~Forget() {
            if (idle->is_told) return;
            detail::Cell *c = state.cell_of(idle->buffer); // it is there: its list has this one
            std::shared_ptr<detail::Idle> *place = &c->idle;
            while (*place != idle) place = &(*place)->after;
            *place = std::move(idle->after);
        }
    };
    Result<Waited<void>> idle_to(std::uint32_t most, std::chrono::steady_clock::time_point until,
                                 const detail::Ending &wait) const {
        if (!account) return spent();
        auto idle = std::make_shared<detail::Idle>();
        idle->most = most;
        idle->bell = wait.bell;
        idle->buffer = buffer();
        std::shared_ptr<detail::State> s; // the handle's client may vanish in the meantime
        {
            detail::Guard guard(*account->state);
            detail::Cell *c = nullptr;
            if (!find(c)) return Error::fault(SYSMEM_NO_MEMORY);
            if (!c) return vanished();
            if (c->open <= most) return Waited<void>(true);
            s = account->state->self;
            idle->after = std::move(c->idle);
            c->idle = idle;
        }
        std::unique_lock<std::mutex> lock(s->mutex);
        Forget forget{*s, idle};
        bool is_so = detail::sleep(*s, lock, wait, until, [&] { return idle->is_told; });
        return Waited<void>(is_so, !is_so && wait.is_over);
    }
    /// Called under the mutex. Null if the client vanished; false if memory is refused.
    bool find(detail::Cell *&cell) const noexcept {
        if (account->is_leaving) return true;
        detail::Tree *placed = nullptr;
        if (!account->rows[row].cell && !account->state->place_tree(tree, placed)) return false;
        cell = account->rows[row].cell;
        return true;
    }

    detail::Account *account;
    CollectionId tree;
    std::uint64_t bytes = 0; // in the memory: the first page, and how many bytes, in 32 bits each
    std::uint32_t row;
    std::uint8_t index, how;
};

#ifdef __linux__
inline Bytes Memory::bytes(const Handle &h) const noexcept {
    if (!h.account || h.account->is_leaving.load(std::memory_order_relaxed) ||
        h.account->state->memory.get() != this)
        return {};
    return {start + (h.bytes >> 32) * page, std::uint32_t(h.bytes)};
}
#endif

/// What a Token and a Collection have in common: the client's end of a node.
class End {
    friend class Client;

public:
    /// Whether it is not spent.
    explicit operator bool() const noexcept { return account; }
    /// Its node: also once it is spent.
    Key key() const { return node; }
    /// Its collection: also once it is spent.
    CollectionId collection() const { return tree; }
    /// The client that has it; 0 if it is spent.
    ClientId client() const { return account ? account->id : 0; }

    /// Asks only whether the node has failed.
    Result<void> sync() const { return make(SYSMEM_SYNC); }
    /// Makes the node weak, and each child that it gets from now on.
    Result<void> set_weak() const { return make(SYSMEM_SET_WEAK); }
    /// Lets the node take weak handles; with `children` also each child that it gets from now on,
    /// and all nodes below these children.
    Result<void> set_weak_ok(bool children = false) const {
        sysmem_call call = detail::call(SYSMEM_SET_WEAK_OK, node);
        call.children = children;
        return make(call);
    }
    /// Makes a tracker that fires once the node is gone.
    Result<Tracker> track_node() const { return track(detail::call(SYSMEM_TRACK_NODE, node)); }
    /// Puts the end into a parcel for the client. If that is refused, it stays in this value.
    Result<void> give(ClientId to) && {
        if (!account) return spent();
        detail::Account &a = *account;
        sysmem_call call = detail::call(SYSMEM_GIVE, node);
        call.client = to;
        detail::LastGuard guard(a);
        detail::Answer answer = a.state->ask(a, call);
        if (!answer.is_good()) return guard.stay(), a.state->why(answer);
        a.state->erase(a, row);
        a.state->tell_gift(to, detail::Post(node));
        account = nullptr;
        return {};
    }
    /// Spends the end without a failure, whatever the answer. PeerClosed: the node had failed
    /// before. SYSMEM_NO_MEMORY: the release is made before the next call of any thread.
    Result<void> release() && {
        if (!account) return spent();
        detail::Account &a = *std::exchange(account, nullptr);
        detail::State &s = *a.state;
        detail::LastGuard guard(a);
        detail::Answer answer = s.ask(a, detail::call(SYSMEM_RELEASE, node), tree);
        if (!a.is_leaving) {
            a.rows[row].kind = SYSMEM_RELEASE;
            if (answer.code != SYSMEM_DONE && !s.is_lost(answer)) s.put_off(a, row);
            else s.erase(a, row);
        }
        if (!answer.is_good()) return s.why(answer);
        return {};
    }
    /// Does what the destructor does: the node fails.
    void close() noexcept {
        if (!account) return;
        detail::Account &a = *std::exchange(account, nullptr);
        detail::LastGuard guard(a);
        a.state->part(a, row);
    }

protected:
    /// \cond
    // Called under the mutex, with room for a row.
    End(detail::Account &a, Key node, CollectionId tree) noexcept
        : account(&a), row(a.add({node, tree})), node(node), tree(tree) {
        a.values++;
        a.state->users++;
        if (a.fd >= 0) a.state->sit(a, row);
    }
    static Error spent() { return Error::spent(Refusal::NoSuchEnd); }
    End(End &&other) noexcept
        : account(std::exchange(other.account, nullptr)), row(other.row), node(other.node),
          tree(other.tree) {}
    End &operator=(End &&other) noexcept {
        if (this == &other) return *this;
        close();
        account = std::exchange(other.account, nullptr);
        row = other.row;
        node = other.node;
        tree = other.tree;
        return *this;
    }
    ~End() {
        if (account) close();
    }

    SYSMEM_OFTEN Result<void> make(const sysmem_call &call) const {
        if (!account) return spent();
        detail::State &s = *account->state;
        detail::Guard guard(s);
        detail::Answer answer = s.ask(*account, call, tree);
        if (!answer.is_good()) return s.why(answer);
        return {};
    }
    Result<void> make(std::uint32_t kind) const { return make(detail::call(kind, node)); }
    Result<Tracker> track(const sysmem_call &call) const {
        if (!account) return spent();
        return Tracker::make(*account, call, tree);
    }
    /// Makes the call, and answers the new token.
    template <class T>
    static Result<T> born(detail::Account *account, const sysmem_call &call, std::string label) {
        if (!account) return spent();
        detail::Account &a = *account;
        detail::State &s = *a.state;
        detail::Guard guard(s);
        if (!a.has_room()) return Error::fault(SYSMEM_NO_MEMORY);
        if (s.is_short(a)) return Error::fault(SYSMEM_HISTORY_FULL);
        detail::Answer answer =
            a.is_leaving ? s.ask(a, call) : s.step_named(a.id, call, label);
        if (!answer.is_good()) return s.why(answer);
        Key key{answer.reply.slot, answer.reply.generation};
        if (!label.empty())
            s.set_label(key, std::move(label), call.kind == SYSMEM_OPEN_ROOT ? answer.reply.id : 0);
        return T(a, key, answer.reply.id);
    }

    detail::Account *account;
    std::uint32_t row;
    Key node;
    CollectionId tree;
    /// \endcond
};

class Token;

/// A bound end.
class Collection : public End {
public:
    /// Makes an attached child token: it heads a unit of its own, and its failure does not climb to
    /// this node.
    Result<Token> attach_token(std::string label = {}) const;
    /// Sends the node's constraints. An error says which number is out of its range.
    Result<void> set_constraints(Constraints wanted) const {
        sysmem_call call = detail::call(SYSMEM_SET_CONSTRAINTS, node);
        call.camping = wanted.camping;
        call.at_least = wanted.at_least;
        call.size = wanted.size;
        auto made = make(call);
        if (!made && made.error().is_bad_call()) return detail::outside(wanted);
        return made;
    }
    /// The allocation, or nothing if there is none yet.
    Result<std::optional<Allocation>> check() const {
        if (!account) return spent();
        detail::Guard guard(*account->state);
        return look();
    }
    /// Waits until the buffers are allocated or the node failed, and then makes one Check. Nothing, and no event,
    /// if the time is over first, or if a `stop` ends the wait: then it `is_cancelled`.
    template <class Rep, class Period, class... Stop>
    Result<Waited<Allocation>> wait_allocated(std::chrono::duration<Rep, Period> time, const Stop &...stop) const {
        detail::Bell bell;
        detail::Ends<Stop...> ends(bell, stop...);
        return allocated_to(detail::after(time), ends);
    }
    /// The nodes that keep this node's allocation waiting: those of its unit, and of the pending units
    /// above it, that are neither gone nor released and have no constraints, by birth. None once the
    /// node's unit is allocated, or the node failed. Makes no event.
    Result<std::vector<Waits>> waits_for() const {
        if (!account) return spent();
        detail::State &s = *account->state;
        detail::Guard guard(s);
        if (account->is_leaving) return Error::vanished(Refusal::NoSuchEnd);
        return waits(s);
    }
    /// Opens a handle on each buffer that something strong keeps; nothing if none is allocated yet.
    Result<std::optional<std::vector<Handle>>> take() const {
        using Taken = std::optional<std::vector<Handle>>;
        if (!account) return spent();
        std::vector<Handle> handles;
        detail::State &s = *account->state;
        detail::Guard guard(s);
        if (!detail::reserve(handles, most) || !detail::reserve(account->rows, most))
            return Error::fault(SYSMEM_NO_MEMORY);
        if (s.is_short(*account)) return Error::fault(SYSMEM_HISTORY_FULL);
        detail::Tree *t = nullptr;
        if (s.memory) {
            if (!s.place_tree(tree, t)) return Error::fault(SYSMEM_NO_MEMORY);
        } else if (!s.trees.empty()) {
            t = s.tree_of(tree);
        }
        detail::Answer answer = s.ask(*account, detail::call(SYSMEM_TAKE, node), tree);
        const sysmem_reply &r = answer.reply;
        if (answer.is_good() && r.kind == SYSMEM_TAKEN)
            for (std::uint8_t i = 0; i < 64 && r.set >> i; i++)
                if (r.set >> i & 1) {
                    detail::Cell *cell = t ? &t->cells[i] : nullptr;
                    if (cell) s.opened(cell);
                    handles.push_back(Handle(*account, Buffer{r.id, i}, Strength(r.detail), cell));
                }
        if (t && t->open == 0) s.forget_tree(tree);
        if (!answer.is_good()) return s.why(answer);
        if (r.kind == SYSMEM_PENDING) return Taken();
        return Taken(std::move(handles));
    }
    /// Makes a tracker that fires once the node's unit is allocated and at most `left` buffers of
    /// the collection hold pages, or once the node is gone before that allocation.
    Result<Tracker> track_lifetime(std::uint32_t left) const {
        sysmem_call call = detail::call(SYSMEM_TRACK_LIFETIME, node);
        call.left = left;
        return track(call);
    }

private:
    friend class Token;
    friend class Client;
    using End::End;
    explicit Collection(End &&end) noexcept : End(std::move(end)) {}
    Result<std::optional<Allocation>> look() const {
        detail::State &s = *account->state;
        detail::Answer answer = s.ask(*account, detail::call(SYSMEM_CHECK, node), tree);
        if (!answer.is_good()) return s.why(answer);
        if (answer.reply.kind == SYSMEM_PENDING) return std::optional<Allocation>();
        most = std::min(answer.reply.count, most);
        return std::optional<Allocation>(Allocation{answer.reply.count, answer.reply.size});
    }

    Result<Waited<Allocation>> allocated_to(std::chrono::steady_clock::time_point until,
                                            const detail::Ending &wait) const {
        if (!account) return spent();
        detail::State &s = *account->state;
        bool is_so = false;
        {
            std::unique_lock<std::mutex> lock(s.mutex);
            detail::Waiter waiter(s, tree, *wait.bell);
            auto sleeps = [&](std::chrono::steady_clock::time_point then) {
                return detail::sleep(s, lock, wait, then, [&] {
                    if (std::exchange(waiter.is_changed, false)) is_so = is_decided();
                    return is_so;
                });
            };
            auto first = s.slow.count() > 0 ? detail::after(s.slow) : until;
            if (!sleeps(std::min(first, until)) && first < until && !wait.is_over) {
                std::string line = slow_line(s);
                lock.unlock();
                std::fputs(line.c_str(), stderr);
                lock.lock();
                sleeps(until);
            }
        }
        if (!is_so) return Waited<Allocation>(std::nullopt, wait.is_over);
        detail::Guard guard(s);
        return look();
    }
    /// Called under the mutex: whether a Check would tell more than that nothing is allocated.
    bool is_decided() const noexcept {
        sysmem_node n;
        return account->is_leaving || !account->state->look_up(node, n) || detail::State::state_of(n) != 0;
    }
    static Waits waits(detail::State &s, const sysmem_node &n) {
        Waits w;
        w.node = {n.key.slot, n.key.generation};
        w.label = s.label(w.node);
        w.holder = n.holder;
        w.holder_label = s.client_label(n.holder);
        w.is_bound = (n.flags & SYSMEM_NODE_BOUND) != 0;
        w.is_in_parcel = (n.flags & SYSMEM_NODE_IN_TRANSIT) != 0;
        w.event = n.event;
        const detail::Account *to = w.is_in_parcel ? s.receiver_of(w.node) : nullptr;
        if (to) w.receiver = to->id, w.receiver_label = to->label;
        return w;
    }
    Result<std::vector<Waits>> waits(detail::State &s) const {
        auto kept = s.kept_nodes();
        if (!kept) return Error::fault(SYSMEM_NO_MEMORY);
        auto key_of = [](const sysmem_key &k) { return Key{k.slot, k.generation}; };
        auto find = [&](Key key) {
            auto at = std::find_if(kept->begin(), kept->end(), [&](const auto &n) { return key_of(n.key) == key; });
            return at == kept->end() ? nullptr : &*at;
        };
        std::vector<std::uint64_t> heads; // of the node's unit, and of the pending units above it
        const sysmem_node *n = find(node);
        while (n && detail::State::state_of(*n) == 0) {
            Key head = key_of(n->head);
            heads.push_back(detail::number_of(head));
            const sysmem_node *top = find(head);
            if (!top || key_of(top->parent) == head) break;
            n = find(key_of(top->parent));
        }
        std::sort(heads.begin(), heads.end());
        std::vector<Waits> all; // by birth, as the kept nodes of a collection are
        for (const sysmem_node &m : *kept)
            if (m.collection == tree && detail::has(heads, detail::number_of(key_of(m.head))) &&
                !(m.flags & (SYSMEM_NODE_GONE | SYSMEM_NODE_RELEASED | SYSMEM_NODE_CONSTRAINED)))
                all.push_back(waits(s, m));
        return all;
    }
    /// Called under the mutex. Empty if memory is refused: the wait goes on.
    SYSMEM_SELDOM std::string slow_line(detail::State &s) const noexcept {
        SYSMEM_TRY {
            return whom(s);
        } SYSMEM_CATCH {
            return {};
        }
    }
    std::string whom(detail::State &s) const {
        auto called = [](const std::string &label, const std::string &otherwise) {
            return label.empty() ? otherwise : label;
        };
        std::string line = "sysmem: " + called(account->label, "client " + std::to_string(account->id)) +
                           " waits for the allocation of " +
                           called(s.label(node), std::to_string(node.slot) + "." +
                                                     std::to_string(node.generation));
        auto all = waits(s);
        for (std::size_t i = 0; all && i < all->size(); i++) {
            const Waits &w = (*all)[i];
            line += i == 0 ? ": no constraints from " : ", ";
            line += called(w.label, std::to_string(w.node.slot) + "." + std::to_string(w.node.generation));
            line += w.receiver ? " (in a parcel for " : w.is_in_parcel ? " (in a parcel of "
                    : w.is_bound ? " (held by " : " (a token of ";
            line += called(w.receiver ? w.receiver_label : w.holder_label,
                           "client " + std::to_string(w.receiver ? w.receiver : w.holder)) + ")";
        }
        return line + "\n";
    }

    mutable std::uint32_t most = 64; // the collection has at most so many buffers; under the mutex
};

/// An end that is not bound.
class Token : public End {
public:
    /// Makes a child token.
    Result<Token> duplicate(std::string label = {}) const {
        return born<Token>(account, detail::call(SYSMEM_DUPLICATE, node), std::move(label));
    }
    /// From the allocation of the node's unit on, no failure climbs from the node to its parent.
    Result<void> set_dispensable() const { return make(SYSMEM_SET_DISPENSABLE); }
    /// Turns the token into a collection. If that is refused, it stays a token in this value.
    Result<Collection> bind() && {
        auto made = make(SYSMEM_BIND);
        if (!made) return std::move(made).error();
        return Collection(std::move(*this));
    }

private:
    friend class End;
    friend class Client;
    friend class Collection;
    using End::End;
};

inline Result<Token> Collection::attach_token(std::string label) const {
    return born<Token>(account, detail::call(SYSMEM_ATTACH_TOKEN, node), std::move(label));
}

/// The content of a parcel: one of the three, which std::visit and std::get_if read too.
class Parcel : public std::variant<Token, Collection, Handle> {
public:
    using std::variant<Token, Collection, Handle>::variant;
    /// Takes the token; else it answers the error WrongKind, and the content stays.
    Result<Token> token() { return take<Token>(); }
    /// Takes the collection; else it answers the error WrongKind, and the content stays.
    Result<Collection> collection() { return take<Collection>(); }
    /// Takes the handle; else it answers the error WrongKind, and the content stays.
    Result<Handle> handle() { return take<Handle>(); }

private:
    template <class T> Result<T> take() {
        if (T *it = std::get_if<T>(this)) return std::move(*it);
        return Error::of(Error::Kind::Refused, SYSMEM_WRONG_KIND);
    }
};

/// A participant, such as a thread. The destructor makes it vanish.
class Client {
public:
    /// Takes the other's client, and leaves it spent.
    Client(Client &&other) noexcept : account(std::exchange(other.account, nullptr)) {}
    /// Makes the client that this value had vanish, and takes the other's.
    Client &operator=(Client &&other) noexcept {
        if (this == &other) return *this;
        vanish();
        account = std::exchange(other.account, nullptr);
        return *this;
    }
    /// Makes the client vanish.
    ~Client() {
        if (account) vanish();
    }
    /// Whether it is not spent.
    explicit operator bool() const noexcept { return account; }
    /// Its number; 0 if it is spent.
    ClientId id() const { return account ? account->id : 0; }
    /// Its label; it may be empty.
    const std::string &label() const {
        static const std::string none;
        return account ? account->label : none;
    }

    /// Makes a collection, and answers its root token.
    Result<Token> open_root(std::string label = {}) const {
        return End::born<Token>(account, detail::call(SYSMEM_OPEN_ROOT), std::move(label));
    }
    /// Shuts the client: nobody can give it anything more, and it can make no more nodes and
    /// trackers. Answers how many parcels wait for it.
    Result<std::uint64_t> shut() const {
        if (!account) return spent();
        detail::State &s = *account->state;
        detail::Guard guard(s);
        detail::Answer answer = s.step(account->id, detail::call(SYSMEM_SHUT), 0);
        if (!answer.is_good()) return s.why(answer);
        return answer.reply.id;
    }
    /// Takes the first parcel that waits for the client, or nothing.
    Result<std::optional<Parcel>> collect() const {
        if (!account) return spent();
        detail::Guard guard(*account->state);
        return collect_one();
    }
    /// Waits for a parcel if there is none, and takes it. Nothing, and no event, if the time is over first, or if
    /// a `stop` ends the wait: then it `is_cancelled`.
    template <class Rep, class Period, class... Stop>
    Result<Waited<Parcel>> collect_for(std::chrono::duration<Rep, Period> time, const Stop &...stop) const {
        if (!account) return spent();
        detail::Ends<Stop...> ends(account->given, stop...);
        return collect_to(detail::after(time), ends);
    }

#ifdef __linux__
    /// A file descriptor for poll() or epoll; -1 if the system gives none, or no memory. It is
    /// readable exactly as long as pending() has something to tell. The client closes it when it
    /// vanishes.
    int fd() const {
        if (!account) return -1;
        detail::Account &a = *account;
        detail::State &s = *a.state;
        detail::Guard guard(s);
        if (a.fd >= 0) return a.fd;
        // There are at most so many ends of which the core knows; so no event needs memory for this.
        if (!detail::reserve(s.seats, 1025 - s.seats.size())) return -1;
        a.fd = eventfd(0, EFD_CLOEXEC | EFD_NONBLOCK);
        if (a.fd < 0) return -1;
        if (a.parcels > 0 || a.idle) s.light(a);
        for (std::uint32_t row = 0; row < a.rows.size(); row++)
            if (a.rows[row].kind == SYSMEM_CLOSE && !a.rows[row].is_late) s.sit(a, row);
        return a.fd;
    }
    /// What happened since the last call: the nodes whose ends this client holds and whose unit was
    /// allocated, or that failed, each once, also if that was before the end was collected; its
    /// trackers that fired, and the buffers of on_idle without a callback. And how many parcels wait:
    /// these until they are collected. Makes no event. Of nodes and trackers it tells only from the
    /// first call of fd() on.
    Result<Pending> pending() const {
        if (!account) return spent();
        detail::Account &a = *account;
        detail::State &s = *a.state;
        Pending told;
        detail::Guard guard(s);
        told.parcels = a.parcels;
        told.allocated.reserve(a.news); // if this throws, nothing is told
        told.failed.reserve(a.news);
        std::size_t fired = 0, idle = 0;
        for (const detail::Watch *w = a.fired.get(); w; w = w->told.get()) fired++;
        for (const detail::Idle *i = a.idle.get(); i; i = i->after.get()) idle++;
        told.fired.reserve(fired);
        told.idle.reserve(idle);
        for (detail::Row &row : a.rows) {
            if (a.fd < 0 || row.kind != SYSMEM_CLOSE || row.is == row.told) continue;
            std::uint8_t fresh = row.is & ~row.told;
            if (fresh & row.DECIDED) told.allocated.push_back({row.a, row.b});
            if (fresh & row.FAILED) told.failed.push_back({row.a, row.b});
            row.told = row.is;
            a.news--;
        }
        for (; a.fired; a.fired = std::move(a.fired->told)) told.fired.push_back(a.fired->id);
        for (; a.idle; a.idle = std::move(a.idle->after)) told.idle.push_back(a.idle->buffer);
        std::reverse(told.fired.begin(), told.fired.end());
        std::reverse(told.idle.begin(), told.idle.end());
        s.dim(a);
        return told;
    }
#endif
    /// Does what the destructor does.
    void vanish() noexcept {
        if (!account) return;
        detail::Account &a = *std::exchange(account, nullptr);
        detail::LastGuard guard(a);
        a.state->vanish(a);
    }

private:
    friend class Service;
    explicit Client(detail::Account *account) noexcept : account(account) {}
    static Error spent() { return Error::spent(Refusal::NoSuchClient); }
    Result<Waited<Parcel>> collect_to(std::chrono::steady_clock::time_point until,
                                      const detail::Ending &wait) const {
        detail::Account &a = *account;
        detail::State &s = *a.state;
        for (;;) {
            {
                detail::Guard guard(s);
                if (a.parcels > 0) return collect_one();
            }
            std::unique_lock<std::mutex> lock(s.mutex);
            if (!detail::sleep(s, lock, wait, until, [&] { return a.parcels > 0; }))
                return Waited<Parcel>(std::nullopt, wait.is_over);
        }
    }
    Result<std::optional<Parcel>> collect_one() const {
        using Got = std::optional<Parcel>;
        detail::Account &a = *account;
        detail::State &s = *a.state;
        if (!a.has_room()) return Error::fault(SYSMEM_NO_MEMORY);
        detail::Answer answer = s.step(a.id, detail::call(SYSMEM_COLLECT), 0);
        if (!answer.is_good()) return s.why(answer);
        const sysmem_reply &r = answer.reply;
        if (r.kind == SYSMEM_EMPTY) return Got();
        a.parcels--;
        if (a.is_lit) s.dim(a);
        if (r.kind == SYSMEM_COLLECTED_HANDLE) {
            Buffer buffer{r.id, r.index};
            a.take_post(detail::Post(buffer, Strength(r.detail)));
            return Got(Handle(a, buffer, Strength(r.detail), s.cell_of(buffer)));
        }
        Key key{r.slot, r.generation};
        a.take_post(detail::Post(key));
        if (r.detail == SYSMEM_TOKEN) return Got(Token(a, key, r.id));
        return Got(Collection(a, key, r.id));
    }

    detail::Account *account;
};

/// One core, which all copies share. It has no bytes of its own: those of its buffers are in Options::memory, or are the
/// program's, who then looks them up by their Buffer.
class Service {
    friend struct Raw; // any call as any client, for tests

public:
    /// A move is a copy, so that a Service always has a core.
    Service(const Service &) = default;
    /// The same service as the other.
    Service &operator=(const Service &) = default;
    /// Opens a core without an event. SYSMEM_BAD_LIMITS, with a note, if a number is out of its range, or if the
    /// library's version has another major number than this header, or is earlier.
    static Result<Service> open(const Options &o = {}) {
        constexpr std::uint32_t mine = 10000 * SYSMEM_VERSION_MAJOR + 100 * SYSMEM_VERSION_MINOR;
        constexpr std::uint32_t last = 10000 * (SYSMEM_VERSION_MAJOR + 1) - 1;
        if (std::uint32_t its = sysmem_version(); its < mine || its > last)
            return Error::outside(SYSMEM_BAD_LIMITS, "the library's version", its, mine, last);
        auto state = std::make_shared<detail::State>();
#ifdef __linux__
        if (o.memory && o.memory->pages() < o.pages)
            return Error::outside(SYSMEM_BAD_LIMITS, "the memory's pages", o.memory->pages(), o.pages, 1 << 20);
#endif
        Record record = o.record;
        const char *debug = record ? nullptr : std::getenv("SYSMEM_DEBUG");
        if (debug && std::string_view(debug) == "1") record = record_to(stderr);
        if (o.transcript) {
            state->transcript = "# pages " + std::to_string(o.pages) + "\n";
            record = detail::keep(state->transcript, std::move(record));
        }
        if (record) state->recorder = std::make_unique<detail::Recorder>(std::move(record));
        state->is_watched = state->recorder != nullptr;
        state->slow = o.slow;
        auto seed = o.seed.value_or(std::array<std::uint8_t, 16>{});
        std::uint32_t code =
            o.events ? sysmem_open_seeded(&state->core, o.pages, *o.events, o.nodes, o.collections,
                                          o.trackers, o.handles, seed.data())
                     : sysmem_open_lasting(&state->core, o.pages, o.nodes, o.collections,
                                           o.trackers, o.handles, seed.data());
        if (code == SYSMEM_BAD_LIMITS) return detail::outside(o);
        if (code != SYSMEM_DONE) return Error::fault(code);
        if (o.events) state->margin = std::min<std::uint32_t>(1 << 20, *o.events / 2);
#ifdef __linux__
        if (o.memory && o.memory->is_used.exchange(true)) return Error::fault(SYSMEM_ALREADY_OPEN);
#endif
        state->memory = o.memory;
        return Service(std::move(state));
    }
    /// Makes a client.
    Result<Client> join(std::string label = {}) const {
        auto account = std::make_unique<detail::Account>(*state, std::move(label));
        detail::Guard guard(*state);
        if (!detail::reserve(state->clients, 1)) return Error::fault(SYSMEM_NO_MEMORY);
        if (state->is_short()) return Error::fault(SYSMEM_HISTORY_FULL);
        detail::Answer answer = state->step_named(0, detail::call(SYSMEM_JOIN), account->label);
        if (!answer.is_good()) return state->why(answer);
        account->id = answer.reply.id;
        state->clients.push_back(account.get());
        if (state->users++ == 0) state->self = state;
        return Client(account.release());
    }

    /// The live nodes, by birth. Views make no event.
    Result<std::vector<Key>> live() const {
        return view<Key, sysmem_key>(sysmem_live, [](const auto &k) { return Key{k.slot, k.generation}; });
    }
    /// The buffers that hold pages, by page.
    Result<std::vector<Held>> held() const {
        return view<Held, sysmem_held_buffer>(sysmem_held, [](const auto &h) {
            return Held{{h.collection, std::uint8_t(h.index)}, h.start, h.pages};
        });
    }
    /// The trackers that fired, by event, without those that were forgotten.
    Result<std::vector<Fired>> fired() const {
        auto told = fired_from(0);
        if (!told) return std::move(told).error();
        return std::move(told->all);
    }
    /// The firings after the first n of all. Those that were forgotten are left out, at the front: when all
    /// firings were handed out to their Trackers, and the core keeps 4,096 or more, it forgets them.
    Result<Firings> fired_from(std::uint64_t n) const {
        detail::Guard guard(*state);
        std::uint64_t kept = state->fired_count(), count = 0;
        Firings told;
        told.first = std::min(std::max(n, state->forgotten), state->forgotten + kept);
        std::uint64_t from = told.first - state->forgotten;
        std::vector<sysmem_fired_tracker> words(std::size_t(kept - from) + 1);
        sysmem_fired_from(&state->core, from, words.data(), std::size_t(kept - from), &count);
        for (std::size_t i = 0; i < kept - from; i++)
            told.all.push_back({words[i].tracker, words[i].event});
        return told;
    }
    /// The kept nodes, collection by collection, the earliest first, and by birth within each.
    Result<std::vector<Node>> nodes() const {
        detail::Guard guard(*state);
        auto kept = state->kept_nodes();
        if (!kept) return Error::fault(SYSMEM_NO_MEMORY);
        std::vector<Node> all;
        all.reserve(kept->size());
        for (const sysmem_node &n : *kept) all.push_back(node_of(n));
        return all;
    }
    /// How many buffers the collection has, and of how many bytes; nothing if it is not allocated, or not kept.
    std::optional<Allocation> given(CollectionId collection) const {
        detail::Guard guard(*state);
        Allocation a;
        sysmem_given(&state->core, collection, &a.count, &a.size);
        return a.count == 0 ? std::nullopt : std::optional<Allocation>(a);
    }
    /// How many handles of this buffer and strength the client has open. Those in parcels are nobody's.
    std::uint32_t open_handles(ClientId client, Buffer buffer, Strength strength) const {
        detail::Guard guard(*state);
        std::uint32_t count = 0;
        sysmem_open_handles(&state->core, client, buffer.collection, buffer.index,
                            std::uint32_t(strength), &count);
        return count;
    }
    /// The clients that have handles on the buffer, or in whose parcels some wait. O(clients, and the parcels that
    /// wait).
    std::vector<Holder> holders(Buffer buffer) const {
        detail::Guard guard(*state);
        std::vector<Holder> all;
        state->each_account([&](const detail::Account &a) {
            Holder h = state->holder(a, buffer);
            if (h.strong + h.weak + h.parcels > 0) all.push_back(std::move(h));
        });
        return all;
    }
    /// How many handles on the buffer are open: of either strength, of all clients and in parcels. O(clients).
    std::uint32_t open_handles(Buffer buffer) const {
        detail::Guard guard(*state);
        std::uint32_t all = 0;
        for (std::uint32_t strength : {SYSMEM_STRONG, SYSMEM_WEAK}) {
            std::uint32_t some = 0;
            sysmem_handles_in_parcels(&state->core, buffer.collection, buffer.index, strength, &some);
            all += some;
            state->each_account([&](const detail::Account &a) {
                sysmem_open_handles(&state->core, a.id, buffer.collection, buffer.index, strength, &some);
                all += some;
            });
        }
        return all;
    }
    /// How many events the limit still allows.
    std::uint64_t remaining() const {
        detail::Guard guard(*state);
        std::uint64_t events = 0;
        sysmem_remaining(&state->core, &events);
        return events;
    }
    /// Whether the node is live: neither gone nor released.
    bool is_live(Key key) const {
        detail::Guard guard(*state);
        sysmem_key k{key.slot, key.generation};
        std::uint32_t live = 0;
        sysmem_is_live(&state->core, &k, &live);
        return live == 1;
    }
    /// Why the node failed, and the origin: the node whose loss reached it; nothing if the node has
    /// not failed, or was forgotten.
    std::optional<std::pair<Cause, Key>> cause(Key key) const {
        detail::Guard guard(*state);
        sysmem_key k{key.slot, key.generation}, origin;
        std::uint32_t why = 0;
        if (sysmem_cause(&state->core, &k, &why, &origin) != SYSMEM_DONE) return std::nullopt;
        return std::make_pair(Cause(why), Key{origin.slot, origin.generation});
    }
    /// How many pages no buffer holds.
    std::uint32_t free_pages() const {
        detail::Guard guard(*state);
        std::uint32_t pages = 0;
        sysmem_free_pages(&state->core, &pages);
        return pages;
    }
    /// How many events there were.
    std::uint64_t events() const {
        detail::Guard guard(*state);
        std::uint64_t events = 0;
        sysmem_events(&state->core, &events);
        return events;
    }
    /// The events so far as a transcript, after a remark with the number of pages; empty without
    /// Options::transcript. The program reads it: `sysmem explain` says what each event did and why, `sysmem draw`
    /// draws the trees as they are now. Makes no event. O(its length).
    std::string transcript() const {
        detail::Guard guard(*state);
        return state->transcript;
    }
    /// Labels are for people: an error has the label of its origin.
    void set_label(Key key, std::string text) const {
        detail::Guard guard(*state);
        state->set_label(key, std::move(text));
    }
    /// The node's label; it may be empty.
    std::string label(Key key) const {
        detail::Guard guard(*state);
        return state->label(key);
    }
    /// The name of a node or a buffer, as transcripts have it: "root" or "root.0". Of one that has no label, the
    /// numbers: "2.0" for a key, and the collection's number for its root.
    std::string name(Key key) const {
        std::string text = label(key);
        return text.empty() ? std::to_string(key.slot) + "." + std::to_string(key.generation) : text;
    }
    /// The name of a buffer.
    std::string name(Buffer buffer) const {
        detail::Guard guard(*state);
        auto at = state->roots.find(buffer.collection);
        std::string text = at == state->roots.end() ? std::string() : state->label(at->second);
        if (text.empty()) text = std::to_string(buffer.collection);
        return text + "." + std::to_string(buffer.index);
    }
    /// Whether all calls of destructors and releases are made: none is put off because memory was refused, and
    /// none was refused for good because the limit allows no further event.
    bool is_settled() const {
        detail::Guard guard(*state);
        return state->late == nullptr && state->lost == 0;
    }
    /// How many of these calls were refused for good.
    std::uint64_t lost() const {
        detail::Guard guard(*state);
        return state->lost;
    }

private:
    explicit Service(std::shared_ptr<detail::State> state) : state(std::move(state)) {}
    /// Called under the mutex.
    Node node_of(const sysmem_node &n) const {
        auto key_of = [](const sysmem_key &k) { return Key{k.slot, k.generation}; };
        auto is = [&](std::uint32_t flag) { return (n.flags & flag) != 0; };
        Node node;
        node.key = key_of(n.key);
        node.parent = key_of(n.parent);
        node.head = key_of(n.head);
        node.collection = n.collection;
        node.event = n.event;
        node.holder = n.holder;
        node.label = state->label(node.key);
        node.holder_label = state->client_label(n.holder);
        node.is_attached = is(SYSMEM_NODE_ATTACHED);
        node.is_allocated = is(SYSMEM_NODE_ALLOCATED);
        node.is_gone = is(SYSMEM_NODE_GONE);
        node.is_released = is(SYSMEM_NODE_RELEASED);
        node.is_dispensable = is(SYSMEM_NODE_DISPENSABLE);
        node.is_weak = is(SYSMEM_NODE_WEAK);
        node.is_weak_ok = is(SYSMEM_NODE_WEAK_OK);
        node.is_bound = is(SYSMEM_NODE_BOUND);
        node.is_in_parcel = is(SYSMEM_NODE_IN_TRANSIT);
        if (is(SYSMEM_NODE_CONSTRAINED)) node.constraints = Constraints{n.camping, n.at_least, n.size};
        if (is(SYSMEM_NODE_FAILED)) node.fault = std::make_pair(Cause(n.cause), key_of(n.origin));
        return node;
    }
    template <class T, class Words, class F, class Make>
    Result<std::vector<T>> view(F look, Make make) const {
        detail::Guard guard(*state);
        Words none;
        std::uint64_t count = 0;
        if (std::uint32_t code = look(&state->core, &none, 0, &count)) return Error::fault(code);
        std::vector<Words> words(std::size_t(count) + 1);
        if (std::uint32_t code = look(&state->core, words.data(), std::size_t(count), &count))
            return Error::fault(code);
        std::vector<T> made;
        made.reserve(std::size_t(count));
        for (std::size_t i = 0; i < count; i++) made.push_back(make(words[i]));
        return made;
    }

    std::shared_ptr<detail::State> state;
};

} // namespace SYSMEM_INLINE
} // namespace sysmem

#undef SYSMEM_SELDOM
#undef SYSMEM_OFTEN
#undef SYSMEM_TRY
#undef SYSMEM_CATCH

#endif
