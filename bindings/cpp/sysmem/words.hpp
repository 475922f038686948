/// \file
/// The numbers of sysmem.h as types, what a call fails with, and results.
#ifndef SYSMEM_WORDS_HPP
#define SYSMEM_WORDS_HPP

#include "sysmem.h"

#include <algorithm>
#include <array>
#include <chrono>
#include <cstdint>
#include <cstdio>
#include <cstdlib>
#include <functional>
#include <iosfwd>
#include <memory>
#include <mutex>
#include <new>
#include <optional>
#include <stdexcept>
#include <string>
#include <string_view>
#include <type_traits>
#include <utility>
#include <variant>
#include <vector>

/// \cond
// The address sanitizer can poison memory.
#if defined(__SANITIZE_ADDRESS__)
#define SYSMEM_POISONS 1
#elif defined(__has_feature)
#if __has_feature(address_sanitizer)
#define SYSMEM_POISONS 1
#endif
#endif

// The inline namespace of these headers: other versions of them, and other ways to compile them, have other
// names, so that a program may contain several.
#define SYSMEM_JOINED(a, b, c, d, e) a##b##_##c##d##e
#define SYSMEM_JOIN_ALL(a, b, c, d, e) SYSMEM_JOINED(a, b, c, d, e)
#ifdef __cpp_exceptions
#define SYSMEM_WITH_EXCEPTIONS
#else
#define SYSMEM_WITH_EXCEPTIONS _plain
#endif
#ifdef SYSMEM_POISONS
#define SYSMEM_WITH_POISON _poison
#else
#define SYSMEM_WITH_POISON
#endif
#define SYSMEM_INLINE                                                                              \
    SYSMEM_JOIN_ALL(v, SYSMEM_VERSION_MAJOR, SYSMEM_VERSION_MINOR, SYSMEM_WITH_EXCEPTIONS,         \
                    SYSMEM_WITH_POISON)
/// \endcond

namespace sysmem {
inline namespace SYSMEM_INLINE {

/// The number of a client.
using ClientId = std::uint64_t;
/// The number of a collection.
using CollectionId = std::uint64_t;
/// The number of a tracker.
using TrackerId = std::uint64_t;
/// The number of an event, from 1 on.
using Event = std::uint64_t;

/// Whether a node or a handle keeps buffers alive.
enum class Strength : std::uint32_t {
    Strong = SYSMEM_STRONG, ///< it does
    Weak = SYSMEM_WEAK      ///< it does not
};

/// Why a call was refused.
enum class Refusal : std::uint32_t {
    /// The caller or the receiver never joined.
    NoSuchClient = SYSMEM_NO_SUCH_CLIENT,
    /// The receiver is shut; or the caller is, and the call makes a node or a tracker.
    ClientShut = SYSMEM_CLIENT_SHUT,
    /// The end was spent, or another client holds it.
    NoSuchEnd = SYSMEM_NO_SUCH_END,
    /// The end is in a parcel.
    InTransit = SYSMEM_IN_TRANSIT,
    /// The call is for the other kind of end, or the parcel has other content.
    WrongKind = SYSMEM_WRONG_KIND,
    /// The limit allows no more nodes.
    TooManyNodes = SYSMEM_TOO_MANY_NODES,
    /// The limit allows no more collections.
    TooManyCollections = SYSMEM_TOO_MANY_COLLECTIONS,
    /// The limit allows no more trackers that wait.
    TrackersFull = SYSMEM_TRACKERS_FULL,
    /// The caller has no such handle open.
    NoSuchHandle = SYSMEM_NO_SUCH_HANDLE,
    /// The limit allows no more handles of the buffer and strength.
    TooManyHandles = SYSMEM_TOO_MANY_HANDLES
};

/// A misuse: a call that fails the caller's own node.
enum class Misuse : std::uint32_t {
    /// set_constraints on a node that has constraints.
    SecondConstraints = SYSMEM_SECOND_CONSTRAINTS,
    /// set_weak on a collection that has constraints.
    LateWeak = SYSMEM_LATE_WEAK,
    /// set_weak_ok after a take that gave handles.
    LateWeakOk = SYSMEM_LATE_WEAK_OK,
    /// take on a weak node that does not take weak handles.
    WeakNotOk = SYSMEM_WEAK_NOT_OK,
    /// track_node on a node that has 64 such trackers.
    TooManyNodeTrackers = SYSMEM_TOO_MANY_NODE_TRACKERS
};

/// Why a node failed.
enum class Cause : std::uint32_t {
    /// An end was closed without a release.
    Lost = SYSMEM_LOST,
    /// Nothing strong keeps the buffers any more.
    NoStrong = SYSMEM_NO_STRONG,
    /// The misuse of this name.
    SecondConstraints = SYSMEM_BY_MISUSE + int(SYSMEM_SECOND_CONSTRAINTS),
    /// The misuse of this name.
    LateWeak = SYSMEM_BY_MISUSE + int(SYSMEM_LATE_WEAK),
    /// The misuse of this name.
    LateWeakOk = SYSMEM_BY_MISUSE + int(SYSMEM_LATE_WEAK_OK),
    /// The misuse of this name.
    WeakNotOk = SYSMEM_BY_MISUSE + int(SYSMEM_WEAK_NOT_OK),
    /// The misuse of this name.
    TooManyNodeTrackers = SYSMEM_BY_MISUSE + int(SYSMEM_TOO_MANY_NODE_TRACKERS),
    /// At the initial allocation no strong node of the collection was live.
    FailedNoStrong = SYSMEM_FAILED_NO_STRONG,
    /// Nobody asked for a buffer.
    FailedNoBuffers = SYSMEM_FAILED_NO_BUFFERS,
    /// More than 64 buffers were asked for.
    FailedTooManyBuffers = SYSMEM_FAILED_TOO_MANY_BUFFERS,
    /// Some buffer had no place in the pool.
    FailedPoolFull = SYSMEM_FAILED_POOL_FULL,
    /// The collection has too few buffers for an attached unit.
    FailedTooFew = SYSMEM_FAILED_TOO_FEW,
    /// The collection's buffers are too small for an attached unit.
    FailedTooSmall = SYSMEM_FAILED_TOO_SMALL
};

/// The name of a node. No two nodes of a service ever have the same key. It has a std::hash.
struct Key {
    std::uint32_t slot = 0;       ///< the node's place in the core's table, which later nodes have too
    std::uint32_t generation = 0; ///< how many nodes had the place before
    /// Whether the keys are the same.
    friend bool operator==(Key a, Key b) { return a.slot == b.slot && a.generation == b.generation; }
    /// Whether they are not.
    friend bool operator!=(Key a, Key b) { return !(a == b); }
    /// By slot, and then by generation.
    friend bool operator<(Key a, Key b) {
        return a.slot != b.slot ? a.slot < b.slot : a.generation < b.generation;
    }
};

/// One buffer of a collection. It has a std::hash.
struct Buffer {
    CollectionId collection = 0; ///< its collection
    std::uint8_t index = 0;      ///< its index in the collection, from 0 on
    /// Whether they are the same buffer.
    friend bool operator==(Buffer a, Buffer b) {
        return a.collection == b.collection && a.index == b.index;
    }
    /// Whether they are not.
    friend bool operator!=(Buffer a, Buffer b) { return !(a == b); }
    /// By collection, and then by index.
    friend bool operator<(Buffer a, Buffer b) {
        return a.collection != b.collection ? a.collection < b.collection : a.index < b.index;
    }
};

/// The number of a collection's buffers, and the size of each in bytes.
struct Allocation {
    std::uint32_t count = 0; ///< how many buffers
    std::uint32_t size = 0;  ///< bytes of each
};

/// What a participant asks for: the buffers that it camps on, the least number of buffers (each 0 to
/// 64), and their size in bytes (1 to 1 << 30).
struct Constraints {
    std::uint8_t camping = 0;  ///< the buffers that it camps on
    std::uint8_t at_least = 0; ///< the least number of buffers
    std::uint32_t size = 1;    ///< their size in bytes
};

/// A buffer that holds pages of the pool: the first page, and how many.
struct Held {
    Buffer buffer;           ///< the buffer
    std::uint32_t start = 0; ///< its first page
    std::uint32_t pages = 0; ///< how many pages
};

/// Pages of the pool: the first one, and how many.
struct Pages {
    std::uint32_t start = 0; ///< the first page
    std::uint32_t count = 0; ///< how many pages
    /// Whether they are the same pages.
    friend bool operator==(Pages a, Pages b) { return a.start == b.start && a.count == b.count; }
    /// Whether they are not.
    friend bool operator!=(Pages a, Pages b) { return !(a == b); }
};

/// A tracker that fired, and the event at which it fired.
struct Fired {
    TrackerId tracker = 0; ///< the tracker
    Event event = 0;       ///< the event at which it fired
};

/// Firings in their order.
struct Firings {
    std::uint64_t first = 0; ///< how many firings are left out, which were before these
    std::vector<Fired> all;  ///< the firings
};

/// What is called back, or nothing.
template <class... A> using Callback = std::function<void(A...)>;

/// A recorder: it is called with each event, as two lines of a transcript (docs/SCRIPT.md): the
/// call, and the reply, indented by two spaces.
using Record = Callback<std::string_view>;

/// A node that an allocation waits for: it has no constraints yet.
struct Waits {
    Key node;                  ///< the node
    std::string label;         ///< its label; it may be empty
    ClientId holder = 0;       ///< who holds its end, or who gave it away if it is in a parcel
    std::string holder_label;  ///< the label of its holder; it may be empty
    bool is_bound = false;     ///< whether its end is bound
    bool is_in_parcel = false; ///< whether its end is in a parcel
    Event event = 0;           ///< the event at which it was born
    /// Whose parcels its end waits in, and who must collect it; 0 if it is in none, or memory was refused to note it.
    ClientId receiver = 0;
    std::string receiver_label; ///< the label of its receiver; it may be empty
};

/// A client that has handles on a buffer, or in whose parcels some wait.
struct Holder {
    ClientId client = 0;       ///< the client
    std::string label;         ///< its label; it may be empty
    std::uint32_t strong = 0;  ///< how many strong handles on the buffer it has open
    std::uint32_t weak = 0;    ///< how many weak ones
    std::uint32_t parcels = 0; ///< how many of either strength wait for it in parcels
};

/// A kept node: one that is not gone, or whose end is not spent.
struct Node {
    Key key;                     ///< the node
    Key parent;                  ///< its parent; a root is its own
    Key head;                    ///< the head of its unit
    CollectionId collection = 0; ///< its collection
    Event event = 0;             ///< the event at which it was born
    ClientId holder = 0;         ///< who holds its end, or gave it away; 0 if it is spent
    std::string label;           ///< its label; it may be empty
    std::string holder_label;    ///< the label of its holder; it may be empty
    bool is_attached = false;    ///< whether it heads an attached unit
    bool is_allocated = false;   ///< whether its unit is allocated
    bool is_gone = false;        ///< whether it failed or ended
    bool is_released = false;    ///< whether it was released
    bool is_dispensable = false; ///< whether it is dispensable
    bool is_weak = false;        ///< whether it is weak
    bool is_weak_ok = false;     ///< whether it takes weak handles
    bool is_bound = false;       ///< whether its end is bound
    bool is_in_parcel = false;   ///< whether its end is in a parcel
    std::optional<Constraints> constraints;     ///< what it asked for, if it did
    std::optional<std::pair<Cause, Key>> fault; ///< why it failed, and the node whose loss reached it
};

/// What Client::pending tells.
struct Pending {
    std::uint64_t parcels = 0;    ///< how many parcels wait
    std::vector<Key> allocated;   ///< the nodes whose units were allocated
    std::vector<Key> failed;      ///< the nodes that failed
    std::vector<TrackerId> fired; ///< the trackers that fired
    std::vector<Buffer> idle;     ///< the buffers of Handle::on_idle without a callback
    /// Whether there is nothing to tell.
    bool empty() const {
        return parcels == 0 && allocated.empty() && failed.empty() && fired.empty() && idle.empty();
    }
};

class Memory;

/// The options of a new service: the pool's pages of 4,096 bytes, and the limits of sysmem_open.
struct Options {
    /// The pool's pages, 1 to 1,048,576.
    std::uint32_t pages = 16;
    /// How many events may be made; without a number as many as sysmem_open_lasting allows, which at a
    /// million a second is 285 years. With a number, the last 1,048,576 events, but at most half of all,
    /// are for those who let go: calls that join, bear, take or track answer SYSMEM_HISTORY_FULL then.
    std::optional<std::uint32_t> events = std::nullopt;
    std::uint32_t nodes = 1024;      ///< how many nodes may be kept, 1 to 1,024
    std::uint32_t collections = 256; ///< how many collections may be kept, 1 to 256
    std::uint32_t trackers = 4096;   ///< how many trackers may wait, 1 to 4,096
    /// How many handles of one buffer and strength may be open, in parcels too, from 1 on. A client that
    /// does not collect keeps a core from more.
    std::uint32_t handles = 65536;
    /// 16 random bytes, if clients may be hostile: see sysmem_open_seeded.
    std::optional<std::array<std::uint8_t, 16>> seed = std::nullopt;
    /// Called under the mutex, in the order of the events: it must be quick, and must neither call
    /// the service nor throw. record_to(file) and record_last(n) make recorders. Without one, and with
    /// SYSMEM_DEBUG=1 in the environment, the events are written to standard error.
    Record record = nullptr;
    /// Whether the service keeps its transcript for Service::transcript(): some 40 bytes an event.
    bool transcript = false;
    /// The pool's memory: see Memory::open. It has at least as many pages as the pool. Without one the service knows no
    /// bytes: a Buffer is a name, of pages that are numbers or of the program's own buffers (examples/own.cpp).
    std::shared_ptr<Memory> memory = nullptr;
    /// After so long in Collection::wait_allocated, a line on standard error says for whom it waits. With
    /// 0 none does.
    std::chrono::milliseconds slow = std::chrono::seconds(5);
};

/// A recorder that writes to the file, as far as the file's buffer: what is not flushed is lost if the program
/// ends by a signal. The caller keeps the file open as long as the service.
inline Record record_to(std::FILE *file) {
    return [file](std::string_view lines) { std::fwrite(lines.data(), 1, lines.size(), file); };
}

/// The last events of a service, which record_last keeps. Copies share them, and any thread may use them.
///
/// If no event was left out, text() is a transcript that the program reads. Else it is for people only: `sysmem explain`
/// and `sysmem check` play a transcript from the first event on, and refuse the first line with a label that they did not
/// see made. A label means the same as in the whole transcript; of a generated one the number is that of the event
/// that made what it names.
class LastEvents {
public:
    /// Notes one event: so this is a Record. Writes the events to the file, if there is one, where the reply says that
    /// a node failed: `closed` or `misused`; those that were written are not written again.
    void operator()(std::string_view lines) const {
        std::lock_guard<std::mutex> lock(ring->mutex);
        ring->events[std::size_t(ring->count++ % ring->events.size())] = lines;
        std::size_t reply = lines.find_first_not_of("# ", lines.find('\n') + 1);
        if (!ring->file || (lines.compare(reply, 7, "closed ") && lines.compare(reply, 8, "misused "))) return;
        std::fputs(ring->text(ring->written).c_str(), ring->file);
        std::fflush(ring->file);
        ring->written = ring->count;
    }
    /// The events, two lines each, after a remark that says which they are. O(its length).
    std::string text() const {
        std::lock_guard<std::mutex> lock(ring->mutex);
        return ring->text(0);
    }

private:
    friend LastEvents record_last(std::size_t count, std::FILE *at_failure);
    struct Ring {
        std::mutex mutex;
        std::vector<std::string> events;
        std::uint64_t count = 0, written = 0;
        std::FILE *file;
        // Those after the first so many.
        std::string text(std::uint64_t from) const {
            if (count - from > events.size()) from = count - events.size();
            std::string all = "# events " + std::to_string(from + 1) + " to " + std::to_string(count) + "\n";
            for (; from < count; from++) all += events[std::size_t(from % events.size())];
            return all;
        }
    };
    std::shared_ptr<Ring> ring = std::make_shared<Ring>();
};

/// A recorder that keeps the last so many events, at least one: some 100 bytes each, or as many as their two lines have.
/// With a file it writes them there when a call fails because its node did; the caller keeps the file open as long as the
/// service. The labels that a recorder needs are kept in any case: of each client, and of each node that had one.
inline LastEvents record_last(std::size_t count, std::FILE *at_failure = nullptr) {
    LastEvents made;
    made.ring->events.resize(std::max<std::size_t>(count, 1));
    made.ring->file = at_failure;
    return made;
}

namespace detail {
inline std::string name_of(std::uint32_t about, std::uint32_t number) {
    char text[33];
    std::uint64_t count = 0;
    bool named = sysmem_name(about, number, text, sizeof text, &count) == SYSMEM_DONE;
    return named ? std::string(text, std::size_t(count)) : std::string("?");
}
} // namespace detail

/// The name of the number, as `NoSuchEnd`.
inline std::string name(Refusal r) {
    return detail::name_of(SYSMEM_ABOUT_REFUSAL, std::uint32_t(r));
}
/// The name of the number.
inline std::string name(Misuse m) { return detail::name_of(SYSMEM_ABOUT_MISUSE, std::uint32_t(m)); }
/// The name of the number.
inline std::string name(Cause c) { return detail::name_of(SYSMEM_ABOUT_CAUSE, std::uint32_t(c)); }

/// Why a call did not succeed.
struct Error {
    /// What kind of error it is.
    enum class Kind {
        Refused,    ///< refusal(): nothing changed
        Misused,    ///< misuse(): the caller's own node failed
        PeerClosed, ///< cause(), origin, label: the node failed before
        Fault       ///< detail is a code of sysmem.h, as SYSMEM_NO_MEMORY: nothing changed
    };
    /// What kind of error it is.
    Kind kind = Kind::Fault;
    /// The number of the refusal, misuse or cause, or a code of sysmem.h.
    std::uint32_t detail = 0;
    /// The node whose loss reached the caller's, at PeerClosed.
    Key origin{};
    std::string label;     ///< of the origin, if it has one
    bool is_spent = false; ///< the value was moved from, given, released, closed or dropped: no event
    /// Of a Fault, and the end of its message(): which number is out of its range, and the range; in sysmem_remote.hpp also
    /// why the value does not reach the daemon.
    std::string note;
    bool is_vanished = false; ///< the value's client vanished: no event
    /// In sysmem_remote.hpp, at PeerClosed: the process that used the origin's end last; 0 if none is known.
    std::uint32_t process = 0;

    /// Why the call was refused, if the kind is Refused.
    Refusal refusal() const { return Refusal(detail); }
    /// What the misuse was, if the kind is Misused.
    Misuse misuse() const { return Misuse(detail); }
    /// Why the node had failed, if the kind is PeerClosed.
    Cause cause() const { return Cause(detail); }
    /// Whether the call was refused for this reason.
    bool is(Refusal r) const { return kind == Kind::Refused && refusal() == r; }
    /// Whether it is this misuse.
    bool is(Misuse m) const { return kind == Kind::Misused && misuse() == m; }
    /// Whether the node had failed for this reason.
    bool is(Cause c) const { return kind == Kind::PeerClosed && cause() == c; }
    /// Whether memory was refused; the same call may succeed later.
    bool is_no_memory() const { return kind == Kind::Fault && detail == SYSMEM_NO_MEMORY; }
    /// Whether a number is out of its range; `note` says which.
    bool is_bad_call() const { return kind == Kind::Fault && detail == SYSMEM_BAD_CALL; }
    /// Whether the limit allows no further event.
    bool is_history_full() const { return kind == Kind::Fault && detail == SYSMEM_HISTORY_FULL; }

    /// The error in words.
    std::string message() const {
        switch (kind) {
        case Kind::Refused:
            if (is_vanished) return "refused: the client vanished";
            return "refused: " + name(refusal()) + (is_spent ? " (the value was spent)" : "");
        case Kind::Misused: return "misused: " + name(misuse());
        case Kind::PeerClosed:
            return "closed: " + name(cause()) + ", by node " + std::to_string(origin.slot) + "." +
                   std::to_string(origin.generation) + (label.empty() ? "" : " (" + label + ")");
        case Kind::Fault: break;
        }
        return detail::name_of(SYSMEM_ABOUT_CODE, this->detail) + (note.empty() ? "" : ": ") + note;
    }
    /// The error of this kind and number.
    static Error of(Kind kind, std::uint32_t detail) {
        Error error;
        error.kind = kind;
        error.detail = detail;
        return error;
    }
    /// The error of a code.
    static Error fault(std::uint32_t code) { return of(Kind::Fault, code); }
    /// The refusal of a call on a spent value.
#ifdef __GNUC__
    __attribute__((noinline, cold))
#endif
    static Error spent(Refusal r) {
        Error error = of(Kind::Refused, std::uint32_t(r));
        error.is_spent = true;
        return error;
    }
    /// The refusal of a call on a value whose client vanished.
#ifdef __GNUC__
    __attribute__((noinline, cold))
#endif
    static Error vanished(Refusal r) {
        Error error = of(Kind::Refused, std::uint32_t(r));
        error.is_vanished = true;
        return error;
    }
    /// The error of a number that is out of its range: it `is` so much, and must be `least` to `most`.
#ifdef __GNUC__
    __attribute__((noinline, cold))
#endif
    static Error outside(std::uint32_t code, const char *what, std::uint64_t is, std::uint64_t least,
                         std::uint64_t most) {
        Error error = fault(code);
        error.note = std::string(what) + " is " + std::to_string(is) + ", and must be " +
                     std::to_string(least) + " to " + std::to_string(most);
        return error;
    }
};

/// Writes slot and generation, as "2.0". These are templates so that only who writes to a stream needs its header.
template <class Traits>
std::basic_ostream<char, Traits> &operator<<(std::basic_ostream<char, Traits> &out, Key k) {
    return out << k.slot << '.' << k.generation;
}
/// Writes the collection's number and the index, as "2.0".
template <class Traits>
std::basic_ostream<char, Traits> &operator<<(std::basic_ostream<char, Traits> &out, Buffer b) {
    return out << b.collection << '.' << unsigned(b.index);
}
/// Writes the first page and how many there are, as "3+2".
template <class Traits>
std::basic_ostream<char, Traits> &operator<<(std::basic_ostream<char, Traits> &out, Pages p) {
    return out << p.start << '+' << p.count;
}
/// Writes "strong" or "weak".
template <class Traits>
std::basic_ostream<char, Traits> &operator<<(std::basic_ostream<char, Traits> &out, Strength s) {
    return out << (s == Strength::Strong ? "strong" : "weak");
}
/// Writes its name.
template <class Traits>
std::basic_ostream<char, Traits> &operator<<(std::basic_ostream<char, Traits> &out, Refusal r) {
    return out << name(r);
}
/// Writes its name.
template <class Traits>
std::basic_ostream<char, Traits> &operator<<(std::basic_ostream<char, Traits> &out, Misuse m) {
    return out << name(m);
}
/// Writes its name.
template <class Traits>
std::basic_ostream<char, Traits> &operator<<(std::basic_ostream<char, Traits> &out, Cause c) {
    return out << name(c);
}
/// Writes its message.
template <class Traits>
std::basic_ostream<char, Traits> &operator<<(std::basic_ostream<char, Traits> &out, const Error &e) {
    return out << e.message();
}

namespace detail {
/// Which of the constraints is out of its range.
inline Error outside(Constraints c) {
    if (c.camping > 64) return Error::outside(SYSMEM_BAD_CALL, "camping", c.camping, 0, 64);
    if (c.at_least > 64) return Error::outside(SYSMEM_BAD_CALL, "at_least", c.at_least, 0, 64);
    return Error::outside(SYSMEM_BAD_CALL, "size", c.size, 1, 1 << 30);
}
/// Which of the limits is.
inline Error outside(const Options &o) {
    auto bad = [](const char *what, std::uint64_t is, std::uint64_t most) {
        return Error::outside(SYSMEM_BAD_LIMITS, what, is, 1, most);
    };
    if (o.pages < 1 || o.pages > 1 << 20) return bad("pages", o.pages, 1 << 20);
    if (o.events && *o.events < 1) return bad("events", *o.events, UINT32_MAX);
    if (o.nodes < 1 || o.nodes > 1024) return bad("nodes", o.nodes, 1024);
    if (o.collections < 1 || o.collections > 256) return bad("collections", o.collections, 256);
    if (o.trackers < 1 || o.trackers > 4096) return bad("trackers", o.trackers, 4096);
    return bad("handles", o.handles, UINT32_MAX);
}
} // namespace detail

/// The exception that value() throws. A program without exceptions aborts instead.
struct Failure : std::runtime_error {
    /// With this error, and its message.
    explicit Failure(Error e) : std::runtime_error(e.message()), error(std::move(e)) {}
    Error error; ///< why the call did not succeed
};

namespace detail {
[[noreturn]] inline void fail(const Error &error) {
#ifdef __cpp_exceptions
    throw Failure(error);
#else
    std::fprintf(stderr, "%s\n", error.message().c_str());
    std::abort();
#endif
}
} // namespace detail

namespace detail {
/// What has a value of such a type can't be copied either.
struct Unique {
    Unique() = default;
    Unique(const Unique &) = delete;
    Unique(Unique &&) = default;
    Unique &operator=(const Unique &) = delete;
    Unique &operator=(Unique &&) = default;
};
struct Copied {};

/// A value or an error. A std::variant of them would take the compiler a multiple of the time.
template <class T> struct Held {
    explicit Held(T &&value) : value(std::move(value)), has_value(true) {}
    explicit Held(Error &&error) noexcept : error(std::move(error)), has_value(false) {}
    Held(Held &&other) noexcept(std::is_nothrow_move_constructible_v<T>) : has_value(other.has_value) {
        if (has_value) ::new (static_cast<void *>(&value)) T(std::move(other.value));
        else ::new (static_cast<void *>(&error)) Error(std::move(other.error));
    }
    Held(const Held &other) : has_value(other.has_value) {
        if (has_value) ::new (static_cast<void *>(&value)) T(other.value);
        else ::new (static_cast<void *>(&error)) Error(other.error);
    }
    Held &operator=(const Held &other) { return *this = Held(other); }
    Held &operator=(Held &&other) {
        if (has_value && other.has_value) value = std::move(other.value);
        else if (has_value) put(std::move(other.error));
        else if (other.has_value) put(T(std::move(other.value)));
        else error = std::move(other.error);
        return *this;
    }
    ~Held() {
        if (has_value) value.~T();
        else error.~Error();
    }
    union {
        T value;
        Error error;
    };
    bool has_value;

private:
    void put(Error &&other) noexcept {
        value.~T();
        ::new (static_cast<void *>(&error)) Error(std::move(other));
        has_value = false;
    }
    void put(T &&other) noexcept {
        error.~Error();
        ::new (static_cast<void *>(&value)) T(std::move(other));
        has_value = true;
    }
};
} // namespace detail

/// A value or an Error, with members of std::expected.
template <class T>
class [[nodiscard]] Result
    : std::conditional_t<std::is_copy_constructible_v<T>, detail::Copied, detail::Unique> {
public:
    using value_type = T;     ///< the type of the value
    using error_type = Error; ///< the type of the error

    /// With this value.
    Result(T value) : held(std::move(value)) {}
    /// With this error.
    Result(Error error) noexcept : held(std::move(error)) {}
    /// With the other's value, as this type, or its error.
    template <class U, class = std::enable_if_t<std::is_convertible_v<U, T>>>
    Result(Result<U> other)
        : held(other ? detail::Held<T>(T(*std::move(other))) : detail::Held<T>(std::move(other).error())) {}
    /// Whether there is a value.
    bool has_value() const noexcept { return held.has_value; }
    /// Whether there is a value.
    explicit operator bool() const noexcept { return has_value(); }

    /// The value. Undefined behaviour if there is none.
    T &operator*() & { return held.value; }
    /// The value. Undefined behaviour if there is none.
    const T &operator*() const & { return held.value; }
    /// The value. Undefined behaviour if there is none.
    T &&operator*() && { return std::move(held.value); }
    /// The value. Undefined behaviour if there is none.
    T *operator->() { return &held.value; }
    /// The value. Undefined behaviour if there is none.
    const T *operator->() const { return &held.value; }
    /// The error. Undefined behaviour if there is none.
    Error &error() & { return held.error; }
    /// The error. Undefined behaviour if there is none.
    const Error &error() const & { return held.error; }
    /// The error. Undefined behaviour if there is none.
    Error &&error() && { return std::move(held.error); }

    /// The value. Throws Failure if there is none; without exceptions it ends the program.
    T &value() & { return check(), **this; }
    /// The value. Throws Failure if there is none; without exceptions it ends the program.
    const T &value() const & { return check(), **this; }
    /// The same, by value, so that the value may outlive a temporary Result.
    T value() && { return check(), std::move(**this); }
    /// The value, or the other one if there is none.
    template <class U> T value_or(U &&other) const & {
        return has_value() ? **this : static_cast<T>(std::forward<U>(other));
    }
    /// The value, or the other one if there is none.
    template <class U> T value_or(U &&other) && {
        return has_value() ? std::move(**this) : static_cast<T>(std::forward<U>(other));
    }

    /// f of the value, which is a Result; or the error.
    template <class F> auto and_then(F &&f) & { return after<T &>(*this, std::forward<F>(f)); }
    /// f of the value, which is a Result; or the error.
    template <class F> auto and_then(F &&f) const & {
        return after<const T &>(*this, std::forward<F>(f));
    }
    /// f of the value, which is a Result; or the error.
    template <class F> auto and_then(F &&f) && {
        return after<T &&>(std::move(*this), std::forward<F>(f));
    }
    /// A Result with f of the value; or the error.
    template <class F> auto transform(F &&f) & { return mapped<T &>(*this, std::forward<F>(f)); }
    /// A Result with f of the value; or the error.
    template <class F> auto transform(F &&f) const & {
        return mapped<const T &>(*this, std::forward<F>(f));
    }
    /// A Result with f of the value; or the error.
    template <class F> auto transform(F &&f) && {
        return mapped<T &&>(std::move(*this), std::forward<F>(f));
    }

private:
    void check() const {
        if (!has_value()) detail::fail(error());
    }
    template <class V, class Self, class F> static auto after(Self &&self, F &&f) {
        using Made = std::decay_t<std::invoke_result_t<F, V>>;
        if (!self.has_value()) return Made(std::forward<Self>(self).error());
        return std::invoke(std::forward<F>(f), *std::forward<Self>(self));
    }
    template <class V, class Self, class F> static auto mapped(Self &&self, F &&f);

    detail::Held<T> held;
};

/// What a wait answers: the value. Or nothing, because its time was over, or because a `stop` ended it.
template <class T> class Waited : public std::optional<T> {
public:
    using std::optional<T>::optional;
    /// The value; or nothing, and whether a `stop` ended the wait.
    Waited(std::optional<T> value, bool is_ended = false) : std::optional<T>(std::move(value)), is_ended(is_ended) {}
    /// Whether a `stop` ended the wait, so that there is no value.
    bool is_cancelled() const noexcept { return is_ended; }

private:
    bool is_ended = false;
};

/// What a wait without a value answers: a bool, whether what it waited for is so. If not, its time was over, or a
/// `stop` ended it.
template <> class Waited<void> {
public:
    /// Whether it is so; if not, whether a `stop` ended the wait.
    explicit Waited(bool is_so, bool is_ended = false) noexcept : is_so(is_so), is_ended(is_ended) {}
    /// Whether it is so.
    operator bool() const noexcept { return is_so; }
    /// Whether a `stop` ended the wait, before it was so.
    bool is_cancelled() const noexcept { return is_ended; }

private:
    bool is_so, is_ended;
};

/// Nothing, or an Error: what a call answers that has no value.
template <> class [[nodiscard]] Result<void> {
public:
    using value_type = void;  ///< there is no value
    using error_type = Error; ///< the type of the error

    /// Without an error.
    Result() = default;
    /// With this error.
    Result(Error error) : held(std::move(error)) {}
    /// Whether there is no error.
    bool has_value() const noexcept { return !held; }
    /// Whether there is no error.
    explicit operator bool() const noexcept { return has_value(); }
    /// Does nothing.
    void operator*() const noexcept {}
    /// The error. Undefined behaviour if there is none.
    Error &error() & { return *held; }
    /// The error. Undefined behaviour if there is none.
    const Error &error() const & { return *held; }
    /// The error. Undefined behaviour if there is none.
    Error &&error() && { return std::move(*held); }
    /// Throws Failure if there is an error; without exceptions it ends the program.
    void value() const {
        if (held) detail::fail(*held);
    }
    /// f of nothing, which is a Result; or the error.
    template <class F> auto and_then(F &&f) const {
        using Made = std::decay_t<std::invoke_result_t<F>>;
        if (held) return Made(*held);
        return std::forward<F>(f)();
    }
    /// A Result with f of nothing; or the error.
    template <class F> auto transform(F &&f) const {
        using Made = Result<std::remove_cv_t<std::invoke_result_t<F>>>;
        if (held) return Made(*held);
        if constexpr (std::is_void_v<std::invoke_result_t<F>>) {
            std::forward<F>(f)();
            return Made();
        } else {
            return Made(std::forward<F>(f)());
        }
    }

private:
    std::optional<Error> held;
};

template <class T>
template <class V, class Self, class F>
auto Result<T>::mapped(Self &&self, F &&f) {
    using Made = Result<std::remove_cv_t<std::invoke_result_t<F, V>>>;
    if (!self.has_value()) return Made(std::forward<Self>(self).error());
    if constexpr (std::is_void_v<std::invoke_result_t<F, V>>) {
        std::invoke(std::forward<F>(f), *std::forward<Self>(self));
        return Made();
    } else {
        return Made(std::invoke(std::forward<F>(f), *std::forward<Self>(self)));
    }
}

} // namespace SYSMEM_INLINE
} // namespace sysmem

/// \cond
template <> struct std::hash<sysmem::Key> {
    std::size_t operator()(sysmem::Key k) const noexcept {
        return std::hash<std::uint64_t>()(std::uint64_t(k.generation) << 32 | k.slot);
    }
};
template <> struct std::hash<sysmem::Buffer> {
    std::size_t operator()(sysmem::Buffer b) const noexcept {
        return std::hash<std::uint64_t>()(b.collection * 64 + b.index);
    }
};
/// \endcond

#endif
