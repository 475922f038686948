// Leases, which are open handles, and the memory of their buffers.
#include "daemon.hpp"

#include <algorithm>
#include <fcntl.h>
#include <new>
#include <sys/mman.h>
#include <unistd.h>
#include <utility>

namespace sysmemd {

// What a Take may need, taken before its event, and what it hands out.
struct Daemon::Taking {
    std::uint64_t count = 0; // buffers that hold pages
    sysmem_held_buffer held[64];
    Lease *leases[64] = {}; // by index
    int theirs[64];
    int fds[128];
    std::size_t handed = 0;
};

// Room for all that a Take or a DupHandle adds to the tree's lists; false if memory is refused.
bool Daemon::make_room(Tree &t, std::uint32_t count, std::uint32_t size) {
    try {
        if (t.buffers.size() < count) t.buffers.resize(count), t.size = size;
        if (t.leases.capacity() < t.leases.size() + 64) t.leases.reserve(2 * t.leases.size() + 64);
        return true;
    } catch (const std::bad_alloc &) {
        return false;
    }
}

// Makes a lease, and the memory, of each buffer that the core may open a handle on.
bool Daemon::prepare(Domain &d, Tree &t, Taking &taking) {
    for (std::uint64_t i = 0; i < taking.count; i++) {
        std::uint32_t at = taking.held[i].index;
        taking.leases[at] = make<Lease>(d, taking.theirs[at]);
        if (!taking.leases[at] || !place_memory(d, t, t.buffers[at])) return false;
    }
    return true;
}

// Keeps the leases of the handles that were opened, and frees the others.
void Daemon::keep_taken(End &e, Taking &taking, const Answer &a) {
    Tree &t = *e.tree;
    std::uint64_t taken = a.is(SYSMEM_TAKEN) ? a.reply.set : 0;
    for (std::uint32_t i = 0; i < 64; i++) {
        if (!taking.leases[i]) continue;
        if (!(taken >> i & 1)) {
            destroy(taking.leases[i]);
            ::close(taking.theirs[i]);
            continue;
        }
        keep_lease(*taking.leases[i], t, std::uint8_t(i), a.reply.detail, e.who);
        taking.fds[taking.handed++] = taking.theirs[i];
        taking.fds[taking.handed++] = t.buffers[i].memory;
    }
}

bool Daemon::take(End &e, const sysmemd_request &q) {
    Domain &d = *e.domain;
    Tree &t = *e.tree;
    Taking taking;
    std::uint32_t count = 0, size = 0;
    if (d.late) catch_up(d); // before the look: such a call may allocate what this one takes
    sysmem_given(&d.core, t.id, &count, &size);
    if (count > 0) sysmem_held_of(&d.core, t.id, taking.held, 64, &taking.count);
    if (d.descriptors + taking.count > options.descriptors) return refuse(e, q, SYSMEM_TOO_MANY_HANDLES);
    if (!make_room(t, count, size) || !may_send(d, 2 * taking.count)) return fault(e, q, SYSMEM_NO_MEMORY);
    if (options.reserves) {
        auto is = reserve(d, t, taking);
        if (is == Buffer::REFUSED) return fault(e, q, SYSMEM_NO_MEMORY);
        if (is == Buffer::UNDER_WAY) return e.taking = q.serial, e.is_held = true, choke(e, true), true;
    }
    sysmem_call c = call_on(SYSMEM_TAKE, e.key);
    Answer a;
    if (prepare(d, t, taking)) a = raw_step(d, c);
    else a.code = SYSMEM_NO_MEMORY;
    keep_taken(e, taking, a);
    sysmemd_reply r = reply_of(e, &t, q, a);
    if (taking.handed > 0) r.size = t.size;
    deliver(e, q, r, taking.fds, taking.handed); // if this fails, our sockets hang up, and the handles are dropped
    for (std::size_t i = 0; i < taking.handed; i += 2) ::close(taking.fds[i]);
    settle(d, t, c, a);
    return true;
}

// Whether the memory of all buffers that may be taken is there. If not, the worker takes it from the system: memory of one that
// somebody has is there, so nobody else has the file. What was refused is tried again at the next Take.
std::uint8_t Daemon::reserve(Domain &d, Tree &t, Taking &taking) {
    std::uint8_t all = Buffer::THERE;
    for (std::uint64_t i = 0; i < taking.count; i++) {
        Buffer &b = t.buffers[taking.held[i].index];
        if (b.reserved == Buffer::REFUSED) b.reserved = Buffer::NONE, all = Buffer::REFUSED;
    }
    for (std::uint64_t i = 0; i < taking.count && all != Buffer::REFUSED; i++) {
        Buffer &b = t.buffers[taking.held[i].index];
        if (!place_memory(d, t, b)) return Buffer::REFUSED;
        if (b.reserved == Buffer::NONE) {
            b.errand = ++errands;
            if (!worker.reserve({b.errand, d.uid, t.id, b.memory, t.bytes()})) return Buffer::REFUSED;
            b.reserved = Buffer::UNDER_WAY;
        }
        if (b.reserved == Buffer::UNDER_WAY) all = Buffer::UNDER_WAY;
    }
    return all;
}

// Lets Takes go on that waited for memory, each in its uid's share of a round.
void Daemon::finish_errands() {
    for (Worker::Errand done; worker.next(done);) {
        auto d = domains.find(done.uid);
        if (d == domains.end()) continue;
        auto t = d->second->trees.find(done.tree);
        if (t == d->second->trees.end()) continue;
        bool is_more = false;
        for (Buffer &b : t->second->buffers) {
            if (b.errand == done.number && b.reserved == Buffer::UNDER_WAY)
                b.reserved = done.is_there ? Buffer::THERE : Buffer::REFUSED;
            is_more |= b.reserved == Buffer::UNDER_WAY;
        }
        if (is_more) continue;
        for (End *e : t->second->ends)
            if (std::exchange(e->is_held, false)) choke(*e, false);
    }
}

void Daemon::resume(End &e) {
    sysmemd_request q{};
    q.op = SYSMEM_TAKE;
    q.serial = std::exchange(e.taking, 0);
    choke(e, false);
    take(e, q);
}

bool Daemon::duplicate(Lease &l, const sysmemd_request &q) {
    Domain &d = *l.domain;
    Tree &t = *l.tree;
    Buffer &b = t.buffers[l.index];
    if (d.descriptors >= options.descriptors) return refuse(l, q, SYSMEM_TOO_MANY_HANDLES);
    int theirs = -1;
    Lease *made = make<Lease>(d, theirs);
    if (!made) return fault(l, q, SYSMEM_NO_MEMORY);
    if (!place_memory(d, t, b) || !make_room(t, 0, 0)) {
        destroy(made), ::close(theirs);
        return fault(l, q, SYSMEM_NO_MEMORY);
    }
    Answer a = step(d, call_on(SYSMEM_DUP_HANDLE, l));
    sysmemd_reply r = reply_of(l, nullptr, q, a);
    if (a.is(SYSMEM_OK)) {
        keep_lease(*made, t, l.index, l.strength, l.who);
        r.size = t.size;
        int fds[2] = {theirs, b.memory};
        deliver(l, q, r, fds, 2);
    } else {
        destroy(made);
        send(l, r);
    }
    ::close(theirs);
    return true;
}

void Daemon::keep_lease(Lease &l, Tree &t, std::uint8_t index, std::uint32_t strength, const Who &who) {
    l.is_in_core = true;
    l.tree = &t;
    l.index = index;
    l.strength = strength;
    l.place = t.leases.size();
    l.who = who;
    t.leases.push_back(&l);
    t.buffers[index].open++;
}

// The core would take any weak handle of its one client for the caller's.
bool Daemon::track_weak(Lease &l, const sysmemd_request &q) {
    if (l.strength != SYSMEM_WEAK) return refuse(l, q, SYSMEM_NO_SUCH_HANDLE);
    return track(l, *l.tree, q, call_on(q.op, l));
}

bool Daemon::send_memory(Lease &l, const sysmemd_request &q) {
    Buffer &b = l.tree->buffers[l.index];
    if (!may_send(*l.domain, 1) || !place_memory(*l.domain, *l.tree, b)) return fault(l, q, SYSMEM_NO_MEMORY);
    sysmemd_reply r = empty_reply(l, q, SYSMEM_OK);
    r.size = l.tree->size;
    deliver(l, q, r, &b.memory, 1);
    return true;
}

bool Daemon::count_open(Lease &l, const sysmemd_request &q) {
    sysmemd_reply r = empty_reply(l, q, SYSMEM_OK);
    r.count = l.tree->buffers[l.index].open;
    send(l, r);
    return true;
}

bool Daemon::on_idle(Lease &l, const sysmemd_request &q) {
    if (!l.waits_idle) l.tree->buffers[l.index].waiting++;
    l.waits_idle = true;
    l.most = q.left;
    l.wait = q.cookie;
    send(l, empty_reply(l, q, SYSMEM_OK));
    tell_idle(*l.tree, l.index);
    return true;
}

void Daemon::tell_idle(Tree &t, std::uint8_t index) {
    Buffer &b = t.buffers[index];
    if (b.waiting == 0) return;
    for (Lease *l : t.leases) {
        if (l->index != index || !l->waits_idle || b.open > l->most) continue;
        l->waits_idle = false;
        b.waiting--;
        sysmemd_reply r{};
        r.kind = SYSMEMD_IDLE;
        r.count = b.open;
        r.set = l->wait;
        send(*l, r);
    }
}

// A memfd of the buffer's own, which nobody can shrink under another's feet, nor seal others out of.
bool Daemon::place_memory(Domain &d, const Tree &t, Buffer &b) {
    if (b.memory >= 0) return true;
    if (d.descriptors >= options.descriptors || !has_room(d, 1)) return false;
    int file = memfd_create("sysmem buffer", MFD_CLOEXEC | MFD_ALLOW_SEALING);
    if (file < 0) return false;
    if (ftruncate(file, off_t(t.bytes())) || fcntl(file, F_ADD_SEALS, F_SEAL_SHRINK | F_SEAL_GROW | F_SEAL_SEAL)) {
        ::close(file);
        return false;
    }
    b.memory = file;
    d.memories++;
    d.descriptors++;
    files++;
    return true;
}

// Forgets a buffer's memory, which no later buffer gets. Its pages go with the last mapping; they are not punched out: that
// waits for the file's lock, which a holder who sits in write() has for as long as it likes, in a sleep that no signal ends.
// What is large goes by the worker: the last close of a gigabyte takes 40 ms.
void Daemon::forget_memory(Domain &d, const Tree &t, Buffer &b) {
    if (b.memory < 0) return;
    if (t.bytes() < (1 << 20) && b.reserved != Buffer::UNDER_WAY) ::close(b.memory);
    else worker.close(b.memory);
    b.memory = -1;
    b.reserved = Buffer::NONE;
    d.memories--;
    d.descriptors--;
    files--;
}

// Forgets the memory of buffers that hold no pages any more.
void Daemon::bring_home(Domain &d, Tree &t) {
    if (d.memories == 0 || t.buffers.empty()) return;
    sysmem_held_buffer held[64];
    std::uint64_t all = 0, set = 0;
    if (sysmem_held_of(&d.core, t.id, held, 64, &all)) return;
    for (std::uint64_t i = 0; i < all; i++) set |= std::uint64_t(1) << held[i].index;
    for (std::size_t i = 0; i < t.buffers.size(); i++)
        if (!(set >> i & 1)) forget_memory(d, t, t.buffers[i]);
}

} // namespace sysmemd
