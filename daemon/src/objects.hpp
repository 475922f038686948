// What the daemon keeps: its sockets, and the collections and cores that they are about.
#ifndef SYSMEMD_OBJECTS_HPP
#define SYSMEMD_OBJECTS_HPP

#include "sysmem/words.hpp"
#include "sysmemd_protocol.h"
#include "transcript.hpp"

#include <memory>
#include <unordered_map>
#include <vector>

namespace sysmemd {

using sysmem::Key;

struct Domain;
struct Tree;

// Who made or last used an end.
struct Who {
    char label[32] = {};
    std::uint32_t pid = 0, uid = 0;
};

// A Rest is a socket whose object is gone, while descriptors that went over it are unread.
enum class Is : std::uint8_t { Connection, End, Lease, Tracker, Rest };

// One socket, whose other side whoever has it may use. Five verbs end it, from the outside to the inside:
//  - cut: tells the peer why, and shuts the socket down; epoll then tells of a hangup
//  - hang_up: the socket is over, by the peer's close or a cut; it leaves, and gives up now or later
//  - leave: closes our side, so that no event finds the object any more
//  - give_up: makes the object's last call, of which the others learn
//  - destroy: frees an object of which the core has nothing
struct Object {
    explicit Object(Is is) : is(is) {}
    virtual ~Object() = default;
    const Is is;
    bool is_cut = false;     // no request of it is served any more
    bool is_choked = false;  // it is served again once its replies were read
    bool is_held = false;    // it is choked until the memory is there that its Take waits for
    std::uint32_t taking = 0; // the serial of that
    bool is_in_core = false; // an end with a node, a lease with a handle
    int fd = -1;             // our side of the socket
    std::uint32_t stamp = 0; // tells it from an earlier object with the same descriptor
    Domain *domain = nullptr; // null for a connection before its Hello
    std::uint64_t cookie = 0; // of the other side
    std::uint64_t offer = 0;  // what a claimant sent over this socket
    Who who;
    Object *next_late = nullptr;
    std::uint32_t aloft = 0; // descriptors that were sent, and may be unread
    Object *aloft_next = nullptr, *aloft_before = nullptr; // the uid's others with such
};

struct Connection : Object {
    Connection() : Object(Is::Connection) {}
    std::uint64_t deadline = 0; // of its Hello, in nanoseconds; 0 once it came
    Connection *next = nullptr, *before = nullptr; // of those without a Hello, in the order of their deadlines
};

struct End : Object {
    End() : Object(Is::End) {}
    enum : std::uint8_t { DECIDED = 1, FAILED = 2 };
    Tree *tree = nullptr;
    std::size_t place = 0; // in the tree's list
    Key key;
    bool is_bound = false;
    bool is_undelivered = false; // nobody got it: it is released, and does not fail
    std::uint8_t fate = 0;       // what was told of its node
};

struct Lease : Object {
    Lease() : Object(Is::Lease) {}
    Tree *tree = nullptr;
    std::size_t place = 0; // in the tree's list
    std::uint8_t index = 0;
    std::uint32_t strength = 0;
    bool waits_idle = false;
    std::uint32_t most = 0; // it waits until so few are open
    std::uint64_t wait = 0; // the number that its holder gave to this wait
};

struct Tracker : Object {
    Tracker() : Object(Is::Tracker) {}
    std::uint64_t number = 0;
    std::uint64_t fired = 0; // the event; 0 before
};

// A buffer of a collection.
struct Buffer {
    int memory = -1;           // its memfd, once somebody asked for it
    std::uint32_t open = 0;    // leases
    std::uint32_t waiting = 0; // those that wait until few are open
    std::uint64_t errand = 0;  // of the worker that takes its memory from the system
    enum : std::uint8_t { NONE, UNDER_WAY, THERE, REFUSED } reserved = NONE;
};

// A collection with an end or a lease.
struct Tree {
    std::uint64_t id = 0;
    std::uint32_t size = 0; // bytes of a buffer
    std::size_t bytes() const { return (std::size_t(size) + 4095) / 4096 * 4096; } // of its memory
    std::vector<End *> ends;
    std::vector<Lease *> leases;
    std::vector<Buffer> buffers;
    std::unordered_map<Key, Who> former; // nodes whose end is spent
};

// A uid with its core, in which the daemon is the one client.
struct Domain {
    Domain() = default;
    Domain(const Domain &) = delete;
    Domain &operator=(const Domain &) = delete;
    ~Domain() { sysmem_close(&core); }
    std::uint32_t uid = 0;
    sysmem_core core{};
    std::uint64_t client = 0;
    std::uint32_t descriptors = 0, memories = 0; // descriptors: of objects and memories
    std::size_t objects = 0;
    std::size_t aloft = 0;                        // the sum of its objects
    Object *aloft_first = nullptr, *aloft_last = nullptr; // those with some, the earliest first
    std::unordered_map<std::uint64_t, std::unique_ptr<Tree>> trees;
    std::unordered_map<std::uint64_t, Tracker *> trackers; // those that wait; null if nobody listens any more
    std::uint64_t round = 0, spent = 0; // nanoseconds in this round
    std::uint64_t passed = 0;           // firings that the core keeps and that were passed on
    Object *late = nullptr; // objects that are gone, while the core was refused the memory for their last call
    std::unique_ptr<Transcript> transcript;
};

// The core's reply, or why there is none.
struct Answer {
    std::uint32_t code = SYSMEM_DONE;
    sysmem_reply reply{};
    bool is(std::uint32_t kind) const { return code == SYSMEM_DONE && reply.kind == kind; }
};

inline Key key_of(const sysmem_key &k) { return {k.slot, k.generation}; }
inline sysmem_key words_of(Key k) { return {k.slot, k.generation}; }

} // namespace sysmemd

#endif
