// The state behind the values of sysmem.hpp: the core, its mutex, and an account for each client.
// Nothing here is for callers.
#ifndef SYSMEM_STATE_HPP
#define SYSMEM_STATE_HPP

#include "cancel.hpp"
#include "memory.hpp"
#include "record.hpp"
#include "words.hpp"

#include <algorithm>
#include <atomic>
#include <chrono>
#include <condition_variable>
#include <memory>
#include <mutex>
#include <vector>

// Functions that seldom run are compiled apart from those that each call runs.
#ifdef __GNUC__
#define SYSMEM_SELDOM __attribute__((noinline, cold))
#define SYSMEM_OFTEN __attribute__((always_inline)) inline
#else
#define SYSMEM_SELDOM
#define SYSMEM_OFTEN inline
#endif

namespace sysmem {
inline namespace SYSMEM_INLINE {
namespace detail {

struct State;

// A callback that is due, in a list.
struct Due {
    virtual ~Due() = default;
    virtual void run() = 0;
    std::shared_ptr<Due> next;
};

// The callbacks that are due in this thread. One thread never runs a callback inside another one:
// what falls due in a callback runs after it.
class Runner {
public:
    // Runs the callbacks of this list, or leaves them to the caller that already runs some.
    static void run(std::shared_ptr<Due> first) {
        if (!first) return;
        if (Runner *outer = mine()) return outer->append(std::move(first));
        Runner self;
        mine() = &self;
        self.append(std::move(first));
        self.run_all();
    }
    // Calls it at once, or after the callback that this thread runs. Takes memory only for that.
    static void call(Callback<Event> then, Event event) {
        struct Told : Due {
            Event event = 0;
            Callback<Event> then;
            void run() override { then(event); }
        };
        if (!then) return;
        if (Runner *outer = mine()) {
            auto due = std::make_shared<Told>();
            due->event = event;
            due->then = std::move(then);
            return outer->append(std::move(due));
        }
        Runner self;
        mine() = &self;
        then(event);
        self.run_all();
    }
    ~Runner() { mine() = nullptr; }

private:
    static Runner *&mine() noexcept {
        static thread_local Runner *runner = nullptr;
        return runner;
    }
    void run_all() {
        while (first) {
            std::shared_ptr<Due> now = first;
            now->run();
            if (last == now.get()) last = nullptr;
            first = std::move(now->next);
        }
    }
    void append(std::shared_ptr<Due> more) noexcept {
        Due *end = more.get();
        while (end->next) end = end->next.get();
        (last ? last->next : first) = std::move(more);
        last = end;
    }
    std::shared_ptr<Due> first;
    Due *last = nullptr;
};

// A tracker, and what happens when it fires.
struct Watch : Due {
    TrackerId id = 0;
    ClientId owner = 0;
    std::atomic<Event> event{0}; // 0: it has not fired yet
    Bell bell;
    Callback<Event> then;
    std::shared_ptr<Watch> told; // the next one that the owner's pending() will name
    void run() override {
        if (then) then(event.load(std::memory_order_relaxed));
    }
    int fd = -1; // an eventfd, from the first call of Tracker::fd on
};

// What the copies of a Tracker share.
struct Reader {
    std::shared_ptr<State> state;
    std::shared_ptr<Watch> watch;
    ~Reader();
};

// One who waits until at most so many handles of a buffer are open: a thread, a callback, or the
// client's pending().
struct Idle : Due {
    std::uint32_t most = 0;
    ClientId owner = 0;
    Buffer buffer;
    bool is_told = false;             // a thread waits, and may go on
    Bell *bell = nullptr;             // the thread's
    Callback<Buffer> then;            // if neither, pending() names the buffer
    std::shared_ptr<Idle> after;      // the next one of this buffer, or of this client
    void run() override {
        if (then) then(buffer);
    }
};

// Takes a chain apart one by one: destructors would call each other.
template <class T> void unchain(std::shared_ptr<T> &first, std::shared_ptr<T> T::*next) noexcept {
    while (first) first = std::move((*first).*next);
}

struct Tree;

// A buffer of which handles are open.
struct Cell {
    Tree *tree = nullptr;
    std::uint32_t open = 0; // handles of either strength, of all clients and in parcels
    Pages at;
    bool is_shut = true; // its bytes can't be read, as far as the memory is guarded
    std::shared_ptr<Idle> idle;
};

// A collection of which handles are open.
struct Tree {
    std::uint64_t open = 0; // handles
    std::uint32_t size = 0; // bytes of a buffer
    std::vector<Cell> cells;
};

// A thread that sleeps. It lies on the stack of that thread.
struct Sleeper {
    Bell *bell;
    Sleeper *next;
};

// A thread that waits for a change of a collection. It lies on the stack of that thread, and is in the state's list
// as long as it is there: it is made, and goes, under the mutex.
struct Waiter {
    Waiter(State &state, CollectionId tree, Bell &bell) noexcept;
    ~Waiter();
    State &state;
    CollectionId tree;
    Bell &bell;
    Waiter *next;
    bool is_changed = true; // the thread has not looked yet
};

inline sysmem_call call(std::uint32_t kind, Key key = {}) {
    sysmem_call c{};
    c.kind = kind;
    c.slot = key.slot;
    c.generation = key.generation;
    return c;
}
inline sysmem_call call(std::uint32_t kind, Buffer buffer, Strength strength) {
    sysmem_call c{};
    c.kind = kind;
    c.collection = buffer.collection;
    c.index = buffer.index;
    c.strength = std::uint32_t(strength);
    return c;
}

// An end or a handle that a client has, as the call that gives it up.
struct Row {
    enum : std::uint32_t { FREE = SYSMEM_JOIN };
    std::uint32_t kind = FREE; // SYSMEM_CLOSE, SYSMEM_RELEASE or SYSMEM_DROP_HANDLE
    bool is_late = false;      // its value is destroyed, and the call must still be made
    // Of an end whose client has a descriptor: what happened to its node, and what pending() told.
    enum : std::uint8_t { DECIDED = 1, FAILED = 2 };
    std::uint8_t is = 0, told = 0;
    std::uint32_t a = 0, b = 0; // an end's key, a handle's index and strength, the next free row
    CollectionId tree = 0;
    Cell *cell = nullptr; // of a handle

    Row(Key key, CollectionId tree)
        : kind(SYSMEM_CLOSE), a(key.slot), b(key.generation), tree(tree) {}
    Row(Buffer buffer, Strength strength, Cell *cell)
        : kind(SYSMEM_DROP_HANDLE), a(buffer.index), b(std::uint32_t(strength)),
          tree(buffer.collection), cell(cell) {}
    sysmem_call words() const {
        return kind == SYSMEM_DROP_HANDLE
                   ? call(kind, Buffer{tree, std::uint8_t(a)}, Strength(b))
                   : call(kind, Key{a, b});
    }
};

// An end or a handle in a parcel.
struct Post {
    bool is_handle;
    std::uint8_t index, strength; // of a handle
    Key node;                     // of an end
    CollectionId tree;            // of a handle's buffer
    explicit Post(Key node) : is_handle(false), index(0), strength(0), node(node), tree(0) {}
    Post(Buffer buffer, Strength strength)
        : is_handle(true), index(buffer.index), strength(std::uint8_t(strength)), tree(buffer.collection) {}
    bool is_of(Buffer buffer) const { return is_handle && tree == buffer.collection && index == buffer.index; }
    bool operator==(const Post &other) const {
        return is_handle == other.is_handle && index == other.index && strength == other.strength &&
               node == other.node && tree == other.tree;
    }
};

template <class T> bool reserve(std::vector<T> &list, std::uint64_t more) noexcept {
    std::uint64_t wanted = list.size() + more;
    if (wanted <= list.capacity()) return true;
    SYSMEM_TRY {
        list.reserve(std::size_t(std::max<std::uint64_t>(wanted, 2 * list.capacity())));
        return true;
    } SYSMEM_CATCH {
        return false;
    }
}

// The ends and handles of a client. An account lives as long as its Client, another value of the
// client, or a call that was put off. The mutex guards the members that change.
struct Account {
    enum : std::uint32_t { NONE = UINT32_MAX };
    Account(State &state, std::string label) : state(&state), label(std::move(label)) {}
    ~Account() {
        unchain(fired, &Watch::told);
        unchain(idle, &Idle::after);
    }

    State *const state;
    ClientId id = 0;
    const std::string label;
    std::vector<Row> rows;
    std::uint32_t free = NONE;      // the first free row
    std::size_t values = 1;         // the number of values, the Client included
    std::uint64_t parcels = 0;      // the number of parcels that wait for the client
    std::vector<Post> posted;       // what waits in them, the first first, as far as memory allowed to note it,
    std::size_t collected = 0;      // after so many that do not wait any more
    Bell given;                     // rings at each parcel
    std::atomic<bool> is_leaving{false}; // the client vanished
    bool is_shut = false;           // it vanished, and its Shut was made: `parcels` must be collected
    std::size_t own = 0;            // the number of rows at the Shut
    bool is_late = false;           // some call was put off
    Account *next_late = nullptr;
    int fd = -1;                    // from the first call of Client::fd on
    bool is_lit = false;            // the descriptor is readable
    std::uint32_t news = 0;         // the number of rows with something to tell
    std::shared_ptr<Watch> fired;   // what pending() will name
    std::shared_ptr<Idle> idle;

    // Room for one more row.
    bool has_room() noexcept { return free != NONE || reserve(rows, 1); }
    // Takes no memory if there is room for a row.
    std::uint32_t add(const Row &row) noexcept {
        if (free == NONE) {
            rows.push_back(row);
            return std::uint32_t(rows.size() - 1);
        }
        std::uint32_t at = free;
        free = rows[at].a;
        rows[at] = row;
        return at;
    }
    void post(const Post &one) noexcept {
        if (reserve(posted, 1)) posted.push_back(one);
    }
    // Notes that the first parcel was collected.
    void take_post(const Post &one) noexcept {
        if (collected == posted.size() || !(posted[collected] == one)) return; // it was not noted
        if (++collected < 64 && collected < posted.size()) return;
        posted.erase(posted.begin(), posted.begin() + std::ptrdiff_t(collected));
        collected = 0;
    }
    void erase(std::uint32_t at) noexcept {
        rows[at].kind = Row::FREE;
        rows[at].is_late = false;
        rows[at].a = free;
        free = at;
    }
};

// The row of an end whose client has a descriptor.
struct Seat {
    CollectionId tree;
    Account *account;
    std::uint32_t row;
};

// A reply, or a code that says why there is none.
struct Answer {
    enum : std::uint32_t { VANISHED = SYSMEM_ERRORS }; // the caller's client vanished, and there was no call
    std::uint32_t code;
    sysmem_reply reply;
    bool is_good() const { return code == SYSMEM_DONE && reply.kind < SYSMEM_REFUSED; }
    bool is_no_memory() const { return code == SYSMEM_NO_MEMORY; }
};

// The state that the mutex guards. Each function but the destructor is called under the mutex.
struct State : std::enable_shared_from_this<State> {
    std::mutex mutex;
    sysmem_core core{};
    std::size_t users = 0;                                // Clients, ends and handles
    std::shared_ptr<State> self;                          // set as long as there are users
    std::vector<Account *> clients;                       // those that have not vanished, by id
    std::vector<std::pair<TrackerId, std::shared_ptr<Watch>>> waiting; // by id
    std::uint64_t seen = 0;      // the number of firings passed on, of those that the core keeps
    std::uint64_t forgotten = 0; // the number of firings that the core was told to forget
    std::uint64_t margin = 0;    // with fewer events left, the binding opens nothing more
    std::uint64_t lost = 0;      // the number of calls of destructors that were refused for good
    std::chrono::milliseconds slow{0};
    Account *late = nullptr;                              // the accounts with calls put off
    Labels labels; // of nodes
    std::map<CollectionId, Tree> trees;
    std::map<CollectionId, Tree>::node_type spare; // of a collection that is gone: saves an allocation
    std::map<CollectionId, Key> roots;             // those that were born with a label
    std::vector<Seat> seats;                       // the ends of clients with a descriptor, by collection
    std::shared_ptr<Memory> memory;
    std::shared_ptr<Due> due; // callbacks of buffers that fell idle, the last first
    Waiter *waiters = nullptr;
    Sleeper *sleepers = nullptr;
    std::string transcript; // with Options::transcript
    std::unique_ptr<Recorder> recorder;
    bool is_eager = false;   // whether a tracker waits, or a callback is due
    bool is_watched = false; // whether there is a waiter or a recorder

    ~State() {
        leave_memory();
        sysmem_close(&core);
        for (auto &one : trees)
            for (Cell &cell : one.second.cells) unchain(cell.idle, &Idle::after);
        while (late) delete std::exchange(late, late->next_late);
    }

    // Makes one call, which may change this collection.
    Answer step(ClientId who, const sysmem_call &c, CollectionId tree) noexcept {
        Answer answer;
        answer.code = sysmem_step(&core, who, &c, &answer.reply);
        if (is_watched) tell(who, c, tree, answer);
        return answer;
    }
    // Wakes the threads that wait for a change of the event's collection, and records the event.
    SYSMEM_SELDOM void tell(ClientId who, const sysmem_call &c, CollectionId tree,
                            const Answer &answer) noexcept {
        if (answer.code != SYSMEM_DONE) return;
        if (may_change(c.kind, answer.reply.kind)) {
            wake(tree);
            look(tree);
        }
        if (!recorder) return;
        recorder->note(who, c, answer.reply);
        if (recorder->is_large()) recorder->forget(find_kept());
    }
    // Whether only those who let go get an event any more.
    bool is_short() noexcept { return margin > 0 && is_nearly_full(); }
    // Whether it is so, and the client might make one: after it vanished `ask` says so.
    bool is_short(const Account &a) noexcept { return is_short() && !a.is_leaving; }
    SYSMEM_SELDOM bool is_nearly_full() noexcept {
        std::uint64_t left = 0;
        sysmem_remaining(&core, &left);
        return left < margin;
    }
    // Makes a call, with this label for the client or node that it makes.
    Answer step_named(ClientId who, const sysmem_call &c, const std::string &label) noexcept {
        if (recorder) recorder->suggest(&label);
        Answer answer = step(who, c, 0);
        if (recorder) recorder->suggest(nullptr);
        return answer;
    }
    // Makes a call on a value of this client. Refuses it without an event if the client vanished.
    Answer ask(const Account &a, const sysmem_call &c, CollectionId tree = 0) noexcept {
        if (a.is_leaving) return vanished(c.kind);
        return step(a.id, c, tree);
    }
    SYSMEM_SELDOM static Answer vanished(std::uint32_t kind) noexcept {
        bool on_handle = kind == SYSMEM_DUP_HANDLE || kind == SYSMEM_GIVE_HANDLE ||
                         kind == SYSMEM_TRACK_WEAK;
        Answer answer{Answer::VANISHED, {}};
        answer.reply.detail = on_handle ? SYSMEM_NO_SUCH_HANDLE : SYSMEM_NO_SUCH_END;
        return answer;
    }
    // The error of an answer that is no success.
    SYSMEM_SELDOM Error why(const Answer &answer) const {
        const sysmem_reply &r = answer.reply;
        if (answer.code == Answer::VANISHED) return Error::vanished(Refusal(r.detail));
        if (answer.code != SYSMEM_DONE) return Error::fault(answer.code);
        if (r.kind == SYSMEM_REFUSED) return Error::of(Error::Kind::Refused, r.detail);
        if (r.kind == SYSMEM_MISUSED) return Error::of(Error::Kind::Misused, r.detail);
        Error error = Error::of(Error::Kind::PeerClosed, r.detail);
        error.origin = {r.slot, r.generation};
        error.label = label(error.origin);
        return error;
    }

    // Whether a call with this reply may cause an allocation or a failure.
    static bool may_change(std::uint32_t kind, std::uint32_t told) noexcept {
        if (told == SYSMEM_MISUSED) return true;
        return kind == SYSMEM_SET_CONSTRAINTS || kind == SYSMEM_SET_WEAK ||
               kind == SYSMEM_RELEASE || kind == SYSMEM_CLOSE || kind == SYSMEM_DROP_HANDLE;
    }
    void wake(CollectionId tree) noexcept {
        for (Waiter *w = waiters; w; w = w->next)
            if (w->tree == tree) {
                w->is_changed = true;
                w->bell.tell();
            }
    }

    // The collection's cells, made when a call first needs them, or with a memory before the first
    // Take; null if it is not allocated. False if memory is refused. It counts the handles that are
    // open by then: those of all accounts, and those in parcels.
    bool place_tree(CollectionId id, Tree *&tree) noexcept {
        tree = nullptr;
        auto at = trees.find(id);
        if (at != trees.end()) return tree = &at->second, true;
        std::uint32_t count = 0, size = 0;
        if (sysmem_given(&core, id, &count, &size) || count == 0) return true;
        SYSMEM_TRY {
            if (spare) {
                spare.key() = id;
                at = trees.insert(std::move(spare)).position;
            } else {
                at = trees.emplace(id, Tree()).first;
            }
            at->second.cells.assign(count, Cell());
        } SYSMEM_CATCH {
            if (at != trees.end()) trees.erase(at);
            return false;
        }
        tree = &at->second;
        tree->open = 0;
        tree->size = size;
        for (Cell &cell : tree->cells) cell.tree = tree;
        sysmem_held_buffer held[64];
        std::uint64_t all = 0;
        sysmem_held_of(&core, id, held, 64, &all);
        for (std::uint64_t i = 0; i < all; i++)
            tree->cells[held[i].index].at = {held[i].start, held[i].pages};
        each_account([&](Account &a) { seat_handles(a, id, *tree); });
        for (std::uint32_t i = 0; i < count; i++)
            for (std::uint32_t strength : {SYSMEM_STRONG, SYSMEM_WEAK}) {
                std::uint32_t open = 0;
                sysmem_handles_in_parcels(&core, id, std::uint8_t(i), strength, &open);
                tree->cells[i].open += open;
                tree->open += open;
            }
        return true;
    }
    void seat_handles(Account &a, CollectionId id, Tree &tree) noexcept {
        for (Row &row : a.rows)
            if (row.kind == SYSMEM_DROP_HANDLE && row.tree == id) {
                row.cell = &tree.cells[row.a];
                opened(row.cell);
            }
    }
    Cell *cell_of(Buffer buffer) noexcept {
        if (trees.empty()) return nullptr;
        auto at = trees.find(buffer.collection);
        return at == trees.end() ? nullptr : &at->second.cells[buffer.index];
    }
    // Notes that a handle of this buffer was opened. Whoever opens the first one knows that the pages
    // are the buffer's: after a failure they may be another one's.
    void opened(Cell *cell) noexcept {
        cell->open++;
        cell->tree->open++;
        if (cell->is_shut) open_bytes(*cell);
    }
    // Notes that a handle of this buffer was dropped.
    void dropped(Row &row) noexcept {
        Cell *cell = row.cell;
        cell->open--;
        if (cell->idle) tell_idle(*cell);
        if (cell->open == 0 && memory) shut_bytes(*cell);
        if (--cell->tree->open == 0) spare = trees.extract(row.tree);
    }
    SYSMEM_SELDOM void tell_idle(Cell &cell) noexcept {
        std::shared_ptr<Idle> *at = &cell.idle;
        while (*at) {
            if (cell.open > (*at)->most) {
                at = &(*at)->after;
                continue;
            }
            std::shared_ptr<Idle> one = std::move(*at);
            *at = std::move(one->after);
            tell_idle(std::move(one));
        }
    }
    void tell_idle(std::shared_ptr<Idle> one) noexcept {
        if (one->bell) {
            one->is_told = true;
            one->bell->tell();
        } else if (one->then) {
            one->next = std::move(due);
            due = std::move(one);
            is_eager = true;
        } else if (Account *a = account_of(one->owner)) {
            one->after = std::move(a->idle);
            a->idle = std::move(one);
            light(*a);
        }
    }
    Tree *tree_of(CollectionId id) noexcept {
        auto at = trees.find(id);
        return at == trees.end() ? nullptr : &at->second;
    }
    void forget_tree(CollectionId id) noexcept {
        auto at = trees.find(id);
        if (at->second.open == 0) spare = trees.extract(at);
    }
    inline void leave_memory() noexcept;
    inline void open_bytes(Cell &cell) noexcept;
    inline void shut_bytes(Cell &cell) noexcept;

    // The client's account, if it has not vanished.
    Account *account_of(ClientId id) noexcept {
        auto at = place(id);
        return at != clients.end() && (*at)->id == id ? *at : nullptr;
    }
    void light(Account &a) noexcept {
        if (a.fd < 0 || a.is_lit) return;
        a.is_lit = true;
#ifdef __linux__
        eventfd_write(a.fd, 1);
#endif
    }
    void dim(Account &a) noexcept {
        if (!a.is_lit || a.parcels > 0 || a.news > 0 || a.fired || a.idle) return;
        a.is_lit = false;
#ifdef __linux__
        eventfd_t count;
        eventfd_read(a.fd, &count);
#endif
    }
    // The node, if it is kept.
    bool look_up(Key key, sysmem_node &node) noexcept {
        sysmem_key k{key.slot, key.generation};
        std::uint32_t is_kept = 0;
        return sysmem_node_of(&core, &k, &is_kept, &node) == SYSMEM_DONE && is_kept == 1;
    }
    // The kept nodes; nothing if memory is refused.
    std::optional<std::vector<sysmem_node>> kept_nodes() {
        sysmem_node none;
        std::uint64_t count = 0;
        if (sysmem_nodes(&core, &none, 0, &count)) return std::nullopt;
        std::vector<sysmem_node> nodes(std::size_t(count) + 1);
        if (sysmem_nodes(&core, nodes.data(), std::size_t(count), &count)) return std::nullopt;
        nodes.pop_back();
        return nodes;
    }
    // Whether the node's unit is allocated, or the node failed.
    static std::uint8_t state_of(const sysmem_node &n) noexcept {
        return std::uint8_t((n.flags & SYSMEM_NODE_ALLOCATED ? Row::DECIDED : 0) |
                            (n.flags & SYSMEM_NODE_FAILED ? Row::FAILED : 0));
    }
    std::vector<Seat>::iterator seat(CollectionId tree) noexcept {
        return std::lower_bound(seats.begin(), seats.end(), tree,
                                [](const Seat &s, CollectionId t) { return s.tree < t; });
    }
    // Gives the end in this row a seat: its client has a descriptor. There is room: see Client::fd.
    void sit(Account &a, std::uint32_t row) noexcept {
        CollectionId tree = a.rows[row].tree;
        auto at = seat(tree);
        while (at != seats.end() && at->tree == tree) ++at;
        seats.insert(at, Seat{tree, &a, row});
        is_watched = true;
        look(tree);
    }
    void stand(Account &a, std::uint32_t row) noexcept {
        Row &r = a.rows[row];
        for (auto at = seat(r.tree); at != seats.end() && at->tree == r.tree; ++at)
            if (at->account == &a && at->row == row) {
                if (r.is != r.told) a.news--;
                r.is = r.told; // of an end that is given up late nothing more is told
                seats.erase(at);
                is_watched = waiters || recorder || !seats.empty();
                return dim(a);
            }
    }
    // Lights the descriptors of the clients to whose nodes in this collection something happened.
    void look(CollectionId tree) noexcept {
        for (auto at = seat(tree); at != seats.end() && at->tree == tree; ++at) {
            Row &row = at->account->rows[at->row];
            sysmem_node n;
            std::uint8_t now = look_up({row.a, row.b}, n) ? state_of(n) : row.is;
            if (now == row.is) continue;
            if (row.is == row.told) at->account->news++;
            row.is = now;
            light(*at->account);
        }
    }

    std::string label(Key key) const noexcept {
        auto at = labels.find(number_of(key));
        SYSMEM_TRY {
            return at == labels.end() ? std::string() : at->second;
        } SYSMEM_CATCH {
            return {};
        }
    }
    // At most 4,096 labels are kept. At that number those of nodes that are neither kept nor the origin of the
    // failure of a kept one are dropped. If memory is refused, the label is lost.
    void set_label(Key key, std::string text, CollectionId root_of = 0) noexcept {
        if (text.empty()) return;
        SYSMEM_TRY {
            if (labels.size() >= 4096 && labels.count(number_of(key)) == 0) drop_labels();
            labels[number_of(key)] = std::move(text);
            if (root_of != 0) roots[root_of] = key;
        } SYSMEM_CATCH {
        }
    }
    SYSMEM_SELDOM void drop_labels() {
        Kept kept = find_kept();
        if (!kept.is_known) return;
        keep_only(labels, kept.nodes);
        for (auto at = roots.begin(); at != roots.end();)
            at = has(kept.collections, at->first) ? std::next(at) : roots.erase(at);
    }
    SYSMEM_SELDOM Kept find_kept() noexcept {
        Kept kept;
        SYSMEM_TRY {
            auto nodes = kept_nodes();
            sysmem_held_buffer none;
            std::uint64_t count = 0;
            if (!nodes || sysmem_held(&core, &none, 0, &count)) return kept;
            std::vector<sysmem_held_buffer> held(std::size_t(count) + 1);
            if (sysmem_held(&core, held.data(), std::size_t(count), &count)) return kept;
            for (const sysmem_node &n : *nodes) {
                kept.nodes.push_back(number_of({n.key.slot, n.key.generation}));
                kept.collections.push_back(n.collection);
                if (n.flags & SYSMEM_NODE_FAILED)
                    kept.nodes.push_back(number_of({n.origin.slot, n.origin.generation}));
            }
            for (std::size_t i = 0; i < count; i++) kept.collections.push_back(held[i].collection);
            std::sort(kept.nodes.begin(), kept.nodes.end());
            std::sort(kept.collections.begin(), kept.collections.end());
            kept.is_known = true;
        } SYSMEM_CATCH {
        }
        return kept;
    }

    std::uint64_t fired_count() noexcept {
        std::uint64_t count = 0;
        sysmem_fired_tracker none;
        sysmem_fired_from(&core, 0, &none, 0, &count);
        return count;
    }
    // The watches of new firings, as a chain, the last firing first. Takes no memory.
    std::shared_ptr<Due> take_fired() noexcept {
        std::shared_ptr<Due> ready = std::move(due);
        is_eager = false;
        if (waiting.empty()) return ready;
        bool is_any = false;
        std::uint64_t count = seen;
        do {
            sysmem_fired_tracker some[16];
            sysmem_fired_from(&core, seen, some, 16, &count);
            for (std::size_t i = 0; i < 16 && seen < count; i++, seen++) {
                auto at = std::lower_bound(
                    waiting.begin(), waiting.end(), some[i].tracker,
                    [](const auto &w, TrackerId id) { return w.first < id; });
                if (at == waiting.end() || at->first != some[i].tracker) continue;
                std::shared_ptr<Watch> watch = std::move(at->second);
                watch->event.store(some[i].event, std::memory_order_release);
                watch->bell.tell();
                signal(*watch);
                if (Account *a = account_of(watch->owner); a && a->fd >= 0) {
                    watch->told = std::move(a->fired);
                    a->fired = watch;
                    light(*a);
                }
                watch->next = std::move(ready);
                ready = std::move(watch);
                is_any = true;
            }
        } while (seen < count);
        if (is_any)
            waiting.erase(std::remove_if(waiting.begin(), waiting.end(),
                                         [](const auto &w) { return !w.second; }),
                          waiting.end());
        is_eager = !waiting.empty();
        if (seen >= 4096 && sysmem_forget_fired(&core) == SYSMEM_DONE)
            forgotten += std::exchange(seen, 0);
        return ready;
    }
    static void signal(Watch &watch) noexcept {
#ifdef __linux__
        if (watch.fd >= 0) eventfd_write(watch.fd, 1);
#else
        (void)watch;
#endif
    }

    std::string client_label(ClientId id) {
        auto at = place(id);
        return at != clients.end() && (*at)->id == id ? (*at)->label : std::string();
    }
    std::vector<Account *>::iterator place(ClientId id) noexcept {
        return std::lower_bound(clients.begin(), clients.end(), id,
                                [](const Account *a, ClientId i) { return a->id < i; });
    }
    // Notes that this waits for the client in a parcel.
    void tell_gift(ClientId to, const Post &what) noexcept {
        auto at = place(to);
        if (at == clients.end() || (*at)->id != to) return;
        (*at)->parcels++;
        (*at)->post(what);
        (*at)->given.tell();
        light(**at);
    }
    // The accounts of all clients that have ends or handles.
    template <class F> void each_account(const F &look) {
        for (Account *a : clients) look(*a);
        for (Account *a = late; a; a = a->next_late)
            if (a->is_leaving) look(*a);
    }
    // The client in whose parcels the end waits; null if it waits in none, or was not noted.
    const Account *receiver_of(Key node) noexcept {
        for (const Account *a : clients)
            for (std::size_t i = a->collected; i < a->posted.size(); i++)
                if (a->posted[i] == Post(node)) return a;
        return nullptr;
    }
    // What this client has to do with the buffer. sysmem_holders does not tell whose parcels wait, takes memory, and
    // looks at all clients that ever joined.
    Holder holder(const Account &a, Buffer buffer) {
        Holder h;
        h.client = a.id;
        h.label = a.label;
        sysmem_open_handles(&core, a.id, buffer.collection, buffer.index, SYSMEM_STRONG, &h.strong);
        sysmem_open_handles(&core, a.id, buffer.collection, buffer.index, SYSMEM_WEAK, &h.weak);
        for (std::size_t i = a.collected; i < a.posted.size(); i++) h.parcels += a.posted[i].is_of(buffer);
        return h;
    }

    // Gives up the end or handle in this row, whose value is destroyed. If its client vanished,
    // there is no event.
    void part(Account &a, std::uint32_t row) noexcept {
        if (a.is_leaving) return;
        if (!give_up(a, row)) put_off(a, row);
    }
    // Makes the call that gives up the end or handle in this row, and frees the row; false if memory
    // is refused.
    SYSMEM_OFTEN bool give_up(Account &a, std::uint32_t row) noexcept {
        Answer answer = step(a.id, a.rows[row].words(), a.rows[row].tree);
        if (answer.code != SYSMEM_DONE) {
            if (answer.is_no_memory()) return false;
            lost++;
        } else if (a.rows[row].cell && answer.is_good()) {
            dropped(a.rows[row]);
        }
        erase(a, row);
        return true;
    }
    void erase(Account &a, std::uint32_t row) noexcept {
        if (a.fd >= 0 && a.rows[row].kind != SYSMEM_DROP_HANDLE) stand(a, row);
        a.erase(row);
    }
    SYSMEM_SELDOM void put_off(Account &a, std::uint32_t row) noexcept {
        a.rows[row].is_late = true;
        if (a.fd >= 0) stand(a, row);
        put_off(a);
    }
    SYSMEM_SELDOM void put_off(Account &a) noexcept {
        if (a.is_late) return;
        a.is_late = true;
        a.next_late = std::exchange(late, &a);
        for (Sleeper *s = sleepers; s; s = s->next) s->bell->tell(); // they try it again
    }
    // Makes the calls that were put off, as far as memory allows.
    SYSMEM_SELDOM void catch_up() noexcept {
        while (late && settle(*late)) {
            Account *done = std::exchange(late, late->next_late);
            done->is_late = false;
            forget_if_gone(done);
        }
    }
    // Makes the client vanish.
    void vanish(Account &a) noexcept {
        clients.erase(place(a.id));
        a.is_leaving = true;
        if (a.fd >= 0) close_fd(a);
        if (a.is_late || !settle(a)) put_off(a);
    }
    SYSMEM_SELDOM void close_fd(Account &a) noexcept {
        for (std::uint32_t row = 0; row < a.rows.size(); row++)
            if (a.rows[row].kind != Row::FREE && a.rows[row].kind != SYSMEM_DROP_HANDLE) stand(a, row);
#ifdef __linux__
        ::close(std::exchange(a.fd, -1));
#endif
        unchain(a.fired, &Watch::told);
        unchain(a.idle, &Idle::after);
    }
    // Makes the calls that were put off for this client, and those of its vanishing. False if
    // memory is refused: then it can be called again.
    bool settle(Account &a) noexcept {
        if (a.is_leaving && !collect_all(a)) return false;
        std::size_t count = a.rows.size();
        for (bool handles : {false, true})
            for (std::size_t i = 0; i < count; i++) {
                std::size_t at = (a.own + i) % count; // collected ends and handles come first
                Row &row = a.rows[at];
                if (row.kind == Row::FREE || (row.kind == SYSMEM_DROP_HANDLE) != handles ||
                    !(a.is_leaving || row.is_late))
                    continue;
                if (!give_up(a, std::uint32_t(at))) return false;
            }
        return true;
    }
    // Shuts a client that vanishes, and collects its parcels. False if memory is refused.
    bool collect_all(Account &a) noexcept {
        if (!a.is_shut) {
            Answer answer = step(a.id, call(SYSMEM_SHUT), 0);
            if (!answer.is_good()) return is_lost(answer);
            a.is_shut = true;
            a.parcels = answer.reply.id;
            a.posted.clear();
            a.collected = 0;
            a.own = a.rows.size();
        }
        for (; a.parcels > 0; a.parcels--) {
            if (!reserve(a.rows, a.parcels)) return false;
            Answer answer = step(a.id, call(SYSMEM_COLLECT), 0);
            const sysmem_reply &r = answer.reply;
            if (!answer.is_good()) return is_lost(answer);
            if (r.kind == SYSMEM_COLLECTED)
                a.rows.emplace_back(Key{r.slot, r.generation}, r.id);
            if (r.kind == SYSMEM_COLLECTED_HANDLE)
                a.rows.emplace_back(Buffer{r.id, r.index}, Strength(r.detail),
                                    cell_of({r.id, r.index}));
        }
        return true;
    }
    // Whether the call of a destructor was refused for good, and not for want of memory.
    SYSMEM_SELDOM bool is_lost(const Answer &answer) noexcept {
        if (answer.is_no_memory()) return false;
        if (answer.code != SYSMEM_DONE) lost++;
        return true;
    }
    void forget_if_gone(Account *a) noexcept {
        if (a->values == 0 && !a->is_late) delete a;
    }
};

#ifdef __linux__
inline void State::leave_memory() noexcept {
    if (memory) memory->is_used = false;
}
inline void State::open_bytes(Cell &cell) noexcept {
    cell.is_shut = memory && !memory->open_bytes(cell.at, cell.tree->size);
}
inline void State::shut_bytes(Cell &cell) noexcept {
    cell.is_shut = true;
    memory->shut_bytes(cell.at);
}
#else
inline void State::leave_memory() noexcept {}
inline void State::open_bytes(Cell &cell) noexcept { cell.is_shut = false; }
inline void State::shut_bytes(Cell &) noexcept {}
#endif

// The point of time so long from now; a century from now if it is later, and now if the time is negative or no
// number. A floating number holds any time, so that nothing overflows.
template <class Rep, class Period>
std::chrono::steady_clock::time_point after(std::chrono::duration<Rep, Period> time) {
    using Clock = std::chrono::steady_clock;
    const Clock::duration longest = std::chrono::hours(1 << 20);
    const std::chrono::duration<long double, Clock::period> ticks(time);
    if (!(ticks.count() > 0)) return Clock::now();
    if (ticks >= longest) return Clock::now() + longest;
    return Clock::now() + Clock::duration(Clock::rep(ticks.count() + 0.5L));
}

// How long it is until then.
template <class Clock, class Duration>
std::chrono::duration<long double, std::nano> left(std::chrono::time_point<Clock, Duration> until) {
    const std::chrono::duration<long double, std::nano> then(until.time_since_epoch());
    return then - Clock::now().time_since_epoch();
}

inline std::chrono::steady_clock::time_point forever() { return after(std::chrono::hours(1 << 20)); }

// Holds the mutex. Its destructor wakes the threads that wait for a fired tracker, releases the
// mutex, and runs the callbacks.
class Guard {
public:
    explicit Guard(State &state) : state(state) {
        state.mutex.lock();
        if (state.late) state.catch_up();
    }
    Guard(const Guard &) = delete;
    Guard &operator=(const Guard &) = delete;
    ~Guard() {
        if (!state.is_eager) state.mutex.unlock();
        else tell();
    }

private:
    SYSMEM_SELDOM void tell() {
        std::shared_ptr<Due> ready = state.take_fired(), first;
        state.mutex.unlock();
        while (ready) { // reversed: the first firing first
            std::shared_ptr<Due> next = std::exchange(ready->next, std::move(first));
            first = std::exchange(ready, std::move(next));
        }
        Runner::run(std::move(first));
    }

    State &state;
};

inline Waiter::Waiter(State &state, CollectionId tree, Bell &bell) noexcept
    : state(state), tree(tree), bell(bell), next(std::exchange(state.waiters, this)) {
    state.is_watched = true;
}
inline Waiter::~Waiter() {
    Waiter **at = &state.waiters;
    while (*at != this) at = &(*at)->next;
    *at = next;
    state.is_watched = state.waiters || state.recorder || !state.seats.empty();
}

// Sleeps until this is so, the time is over, or the wait is ended; whether this is so. Meanwhile calls that were put
// off are tried again, and callbacks that fall due by that run here. The lock is held, but not all the time.
template <class F>
bool sleep(State &state, std::unique_lock<std::mutex> &lock, const Ending &wait,
           std::chrono::steady_clock::time_point until, const F &is_so) {
    struct Place {
        State &state;
        Sleeper self;
        ~Place() {
            Sleeper **at = &state.sleepers;
            while (*at != &self) at = &(*at)->next;
            *at = self.next;
        }
    };
    Place place{state, {wait.bell, state.sleepers}};
    state.sleepers = &place.self;
    while (!is_so() && !wait.is_over) {
        if (state.late) {
            lock.unlock();
            { Guard tries(state); }
            lock.lock();
            if (is_so()) return true;
        }
        auto next = until;
        if (state.late) next = std::min(until, std::chrono::steady_clock::now() + std::chrono::milliseconds(10));
        if (!wait.bell->wait(lock, next, wait.is_over) && next == until) return is_so();
    }
    return is_so();
}

// A Guard for a call that uses up a value of this client. The last value of all closes the core.
class LastGuard {
public:
    explicit LastGuard(Account &account) : account(account), guard(*account.state) {}
    SYSMEM_OFTEN ~LastGuard() {
        if (stays) return;
        State &state = *account.state;
        if (--account.values == 0) state.forget_if_gone(&account);
        if (--state.users == 0) last = std::move(state.self);
    }
    // The call does not use up the value.
    void stay() noexcept { stays = true; }

private:
    Account &account;
    bool stays = false;
    std::shared_ptr<State> last; // outlives the guard
    Guard guard;
};

inline Reader::~Reader() {
#ifdef __linux__
    if (!watch || watch->fd < 0) return;
    std::lock_guard<std::mutex> lock(state->mutex);
    close(std::exchange(watch->fd, -1));
#endif
}

} // namespace detail
} // namespace SYSMEM_INLINE
} // namespace sysmem

#endif
