// Which requests an object has, and those that all kinds of objects have: what it is, and a new socket for it.
#include "daemon.hpp"

#include <cstring>
#include <sys/socket.h>
#include <unistd.h>

namespace sysmemd {

sysmem_call call_on(std::uint32_t kind, Key key) {
    sysmem_call c{};
    c.kind = kind;
    c.slot = key.slot;
    c.generation = key.generation;
    return c;
}

sysmem_call call_on(std::uint32_t kind, const Lease &lease) {
    sysmem_call c{};
    c.kind = kind;
    c.collection = lease.tree->id;
    c.index = lease.index;
    c.strength = lease.strength;
    return c;
}

// The fields that an op reads beside op and serial. All others must be zero. LAST: nothing follows it in its message, since its
// reply is long, it is dear, or it ends the object.
enum : std::uint8_t { SIZE = 1, LEFT = 2, COUNTS = 4, CHILDREN = 8, COOKIE = 16, LABEL = 32, LAST = 64 };

struct Daemon::Op {
    std::uint32_t op;
    Is on;
    std::uint8_t reads;
    bool (*serve)(Daemon &, Object &, const sysmemd_request &);
};

static bool is_clean(const sysmemd_request &q, std::uint8_t reads) {
    if (q.zero || q.zero2 || q.label[sizeof q.label - 1]) return false;
    if (!(reads & LABEL))
        for (char c : q.label)
            if (c) return false;
    return ((reads & SIZE) || !q.size) && ((reads & LEFT) || !q.left) && ((reads & COUNTS) || (!q.camping && !q.at_least)) &&
           ((reads & CHILDREN) || !q.children) && ((reads & COOKIE) || !q.cookie);
}

// All requests of a message, once each of them is seen to be well-formed.
bool Daemon::serve(Object &o, const sysmemd_request *all, std::size_t count) {
    const Op *ops[SYSMEMD_AT_ONCE];
    for (std::size_t i = 0; i < count; i++) {
        ops[i] = find_op(all[i].op, o.is);
        if (!ops[i] || all[i].serial == 0 || !is_clean(all[i], ops[i]->reads)) return false;
        if ((!o.domain && all[i].op != SYSMEMD_HELLO) || ((ops[i]->reads & LAST) && i + 1 < count)) return false;
    }
    for (std::size_t i = 0; i < count && !o.is_cut; i++)
        if (!ops[i]->serve(*this, o, all[i])) return false;
    return true;
}

// A row's function, for its kind of object.
#define SERVE(T, f) [](Daemon &d, Object &o, const sysmemd_request &q) { return d.f(static_cast<T &>(o), q); }

const Daemon::Op *Daemon::find_op(std::uint32_t number, Is on) {
    static const Op all[] = {
        {SYSMEMD_HELLO, Is::Connection, SIZE | LEFT | LABEL | LAST, SERVE(Connection, greet)},
        {SYSMEM_OPEN_ROOT, Is::Connection, LABEL, SERVE(Connection, open_root)},
        {SYSMEMD_CLAIM, Is::Connection, SIZE | LEFT | COOKIE | LAST, SERVE(Connection, claim)},
        {SYSMEMD_STATUS, Is::Connection, 0, SERVE(Connection, tell_own_status)},
        {SYSMEMD_NODES, Is::Connection, LEFT | LAST, SERVE(Connection, list_nodes)},
        {SYSMEMD_INSPECT, Is::Connection, LEFT | LAST, SERVE(Connection, inspect)},
        {SYSMEMD_STATUS_OF, Is::Connection, LEFT, SERVE(Connection, tell_status_of)},
        {SYSMEMD_TRANSCRIPT, Is::Connection, LEFT, SERVE(Connection, send_transcript)},
        {SYSMEMD_OFFER, Is::Connection, SIZE | LEFT, SERVE(Object, offer)}, // no claim finds it: who adopts one's own keeps it
        {SYSMEM_DUPLICATE, Is::End, LABEL, SERVE(End, birth)},
        {SYSMEM_ATTACH_TOKEN, Is::End, LABEL, SERVE(End, birth)},
        {SYSMEM_SYNC, Is::End, 0, SERVE(End, call_on_end)},
        {SYSMEM_BIND, Is::End, 0, SERVE(End, call_on_end)},
        {SYSMEM_SET_DISPENSABLE, Is::End, 0, SERVE(End, call_on_end)},
        {SYSMEM_SET_WEAK, Is::End, 0, SERVE(End, call_on_end)},
        {SYSMEM_SET_WEAK_OK, Is::End, CHILDREN, SERVE(End, call_on_end)},
        {SYSMEM_SET_CONSTRAINTS, Is::End, SIZE | COUNTS, SERVE(End, call_on_end)},
        {SYSMEM_CHECK, Is::End, 0, SERVE(End, call_on_end)},
        {SYSMEM_TAKE, Is::End, LAST, SERVE(End, take)},
        {SYSMEM_RELEASE, Is::End, LAST, SERVE(End, release)},
        {SYSMEM_TRACK_NODE, Is::End, 0, SERVE(End, track_on_end)},
        {SYSMEM_TRACK_LIFETIME, Is::End, LEFT, SERVE(End, track_on_end)},
        {SYSMEMD_WAITS_FOR, Is::End, LEFT | LAST, SERVE(End, waits_for)},
        {SYSMEMD_DESCRIBE, Is::End, 0, SERVE(Object, describe)},
        {SYSMEMD_OFFER, Is::End, SIZE | LEFT, SERVE(Object, offer)},
        {SYSMEM_DUP_HANDLE, Is::Lease, 0, SERVE(Lease, duplicate)},
        {SYSMEM_TRACK_WEAK, Is::Lease, 0, SERVE(Lease, track_weak)},
        {SYSMEMD_MEMORY, Is::Lease, 0, SERVE(Lease, send_memory)},
        {SYSMEMD_OPEN_HANDLES, Is::Lease, 0, SERVE(Lease, count_open)},
        {SYSMEMD_ON_IDLE, Is::Lease, LEFT | COOKIE, SERVE(Lease, on_idle)},
        {SYSMEMD_DESCRIBE, Is::Lease, 0, SERVE(Object, describe)},
        {SYSMEMD_OFFER, Is::Lease, SIZE | LEFT, SERVE(Object, offer)},
        {SYSMEMD_DESCRIBE, Is::Tracker, 0, SERVE(Object, describe)},
        {SYSMEMD_OFFER, Is::Tracker, SIZE | LEFT, SERVE(Object, offer)}};
    for (const Op &one : all)
        if (one.op == number && one.on == on) return &one;
    return nullptr;
}

static std::uint64_t number_of(const sysmemd_request &q) { return std::uint64_t(q.left) << 32 | q.size; }

bool Daemon::offer(Object &o, const sysmemd_request &q) {
    o.offer = number_of(q);
    return true;
}

sysmemd_reply Daemon::description(const Object &to, const sysmemd_request &q, const Object &o) {
    sysmemd_reply r = empty_reply(to, q, SYSMEMD_DESCRIBED);
    if (o.is == Is::End) {
        auto &e = static_cast<const End &>(o);
        r.detail = e.is_bound ? SYSMEMD_COLLECTION : SYSMEMD_TOKEN;
        r.slot = e.key.slot;
        r.generation = e.key.generation;
        r.id = e.tree->id;
        r.count = e.fate;
        std::memcpy(r.label, e.who.label, sizeof r.label);
    } else if (o.is == Is::Lease) {
        auto &l = static_cast<const Lease &>(o);
        r.detail = SYSMEMD_LEASE;
        r.id = l.tree->id;
        r.index = l.index;
        r.set = l.strength;
        r.size = l.tree->size;
    } else {
        auto &t = static_cast<const Tracker &>(o);
        r.detail = SYSMEMD_TRACKER;
        r.id = t.number;
        r.count = t.fired != 0;
        r.set = t.fired;
    }
    return r;
}

bool Daemon::describe(Object &o, const sysmemd_request &q) {
    send(o, description(o, q, o));
    return true;
}

// The object that this claim may have; null if it must not, or not yet: then `found` is the object of the cookie, if there is
// one. The offer was sent before the claim, so it is there, behind what was sent before it. That is served first, unless
// much is unread there, for a share of time. A claimant asks again while there is more. An object that is cut ends soon, and is
// not found.
Object *Daemon::claimed(const sysmemd_request &q, Object *&found) {
    std::uint64_t number = number_of(q);
    auto look = [&] {
        auto at = by_cookie.find(q.cookie);
        found = at == by_cookie.end() || at->second->is_cut ? nullptr : at->second;
        return found && found->offer != number;
    };
    std::uint64_t from = now();
    for (int i = 0; look() && i < 16 && !found->is_choked && now() - from < options.share; i++) read_one(*found, false);
    return found && number != 0 && found->offer == number ? found : nullptr;
}

// Gives an object a new socket, whose other side the claimant alone has. It has shown that it has the former one: it sent a
// random number over it. The object keeps the former socket unless the new one is under way.
bool Daemon::claim(Connection &c, const sysmemd_request &q) {
    Object *found = nullptr, *o = claimed(q, found);
    if (!o) {
        sysmemd_reply r = empty_reply(c, q, SYSMEMD_DESCRIBED);
        r.count = found != nullptr;
        send(c, r);
        return true;
    }
    int two[2];
    std::uint64_t cookie = 0;
    std::uint32_t stamp = next_stamp();
    if (!pair(two, cookie, *o)) return fault(c, q, SYSMEM_NO_MEMORY);
    bool is_ready = listen_to(two[0], stamp);
    if (!is_ready) fault(c, q, SYSMEM_NO_MEMORY);
    if (!is_ready || !deliver(c, q, description(c, q, *o), &two[1], 1)) {
        by_cookie.erase(cookie);
        ::close(two[0]);
        ::close(two[1]);
        return true;
    }
    ::close(two[1]);
    move_to(*o, two[0], cookie, stamp);
    return true;
}

// Puts the object behind its new socket, and repeats what its former holder may have read.
void Daemon::move_to(Object &o, int fd, std::uint64_t cookie, std::uint32_t stamp) {
    sysmemd_reply r{};
    r.kind = SYSMEMD_ENDING;
    r.detail = SYSMEMD_CLAIMED;
    r.count = SYSMEMD_VERSION;
    // Not by send(), which would cut the object off if nobody reads its former socket.
    ::send(o.fd, &r, sizeof r, MSG_DONTWAIT | MSG_NOSIGNAL);
    by_cookie.erase(o.cookie);
    close_side(o);
    files++;
    o.domain->descriptors++;
    o.fd = fd;
    o.cookie = cookie;
    o.stamp = stamp;
    o.offer = 0;
    o.is_choked = o.is_held = false;
    o.taking = 0;
    by_fd[std::size_t(fd)] = &o;
    origin.is_known = false;
    if (o.is == Is::End && (static_cast<End &>(o).fate & End::FAILED)) tell_failed(static_cast<End &>(o));
    if (o.is == Is::Tracker && static_cast<Tracker &>(o).fired) tell_fired(static_cast<Tracker &>(o));
}

} // namespace sysmemd
