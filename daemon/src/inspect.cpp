// What the daemon's own uid and root may see: all objects, of whatever uid. One request looks at a bounded part of the table.
#include "daemon.hpp"

#include <algorithm>
#include <cstring>
#include <unistd.h>

namespace sysmemd {

static bool may_inspect(const Connection &c) { return c.who.uid == 0 || c.who.uid == geteuid(); }

static void see_end(const End &e, sysmemd_seen &to) {
    sysmem_core *core = &e.domain->core;
    sysmem_key key = words_of(e.key);
    std::uint32_t is_kept = 0;
    sysmem_node n, head, above;
    to.is = e.is_bound ? SYSMEMD_COLLECTION : SYSMEMD_TOKEN;
    to.key = key;
    if (sysmem_node_of(core, &key, &is_kept, &n) || !is_kept) return;
    to.camping = n.camping;
    to.at_least = n.at_least;
    to.asked = n.size;
    to.cause = std::uint8_t(n.cause);
    to.flags = n.flags;
    to.parent = n.parent;
    to.head = to.above = n.head;
    to.origin = n.origin;
    if (sysmem_node_of(core, &n.head, &is_kept, &head) || !is_kept) return;
    if (sysmem_node_of(core, &head.parent, &is_kept, &above) == SYSMEM_DONE && is_kept) to.above = above.head;
}

static void see_buffers(Domain &d, const Tree &t, sysmemd_seen &to) {
    sysmem_held_buffer held[64];
    std::uint64_t all = 0;
    std::uint32_t count = 0;
    to.id = t.id;
    sysmem_given(&d.core, t.id, &count, &to.size);
    to.count = std::uint8_t(count);
    if (count == 0 || sysmem_held_of(&d.core, t.id, held, 64, &all)) return;
    for (std::uint64_t i = 0; i < all; i++) to.held |= std::uint64_t(1) << held[i].index;
}

static sysmemd_seen see(const Object &o) {
    sysmemd_seen to{};
    to.core = o.domain ? o.domain->uid : o.who.uid;
    to.pid = o.who.pid;
    to.uid = o.who.uid;
    std::memcpy(to.label, o.who.label, sizeof to.label);
    if (o.is_cut) to.state |= SYSMEMD_SEEN_ENDS;
    if (o.is_choked) to.state |= SYSMEMD_SEEN_UNREAD;
    if (o.is == Is::Connection) {
        to.is = SYSMEMD_CONNECTION;
        if (!o.domain) to.state |= SYSMEMD_SEEN_SILENT;
    } else if (o.is == Is::End) {
        auto &e = static_cast<const End &>(o);
        see_end(e, to);
        see_buffers(*e.domain, *e.tree, to);
    } else if (o.is == Is::Lease) {
        auto &l = static_cast<const Lease &>(o);
        to.is = SYSMEMD_LEASE;
        to.index = l.index;
        to.strength = std::uint8_t(l.strength);
        if (l.waits_idle) to.state |= SYSMEMD_SEEN_WAITS;
        see_buffers(*l.domain, *l.tree, to);
    } else if (o.is == Is::Tracker) {
        auto &t = static_cast<const Tracker &>(o);
        to.is = SYSMEMD_TRACKER;
        to.id = t.number;
        to.held = t.fired;
        if (t.fired == 0) to.state |= SYSMEMD_SEEN_WAITS;
    }
    return to;
}

bool Daemon::inspect(Connection &c, const sysmemd_request &q) {
    if (!may_inspect(c)) return refuse(c, q, SYSMEMD_NOT_ALLOWED);
    sysmemd_inspected m{};
    m.reply = empty_reply(c, q, SYSMEMD_OBJECTS);
    std::size_t at = q.left, end = std::min(by_fd.size(), at + 4096);
    for (; at < end && m.reply.count < SYSMEMD_SEEN_AT_ONCE; at++)
        if (by_fd[at]) m.seen[m.reply.count++] = see(*by_fd[at]);
    if (at < by_fd.size()) m.reply.set = at;
    send(c, m.reply, nullptr, 0, sizeof m.reply + m.reply.count * sizeof m.seen[0]);
    return true;
}

// The core that a request is about; null if it may not ask, or there is none: then that was answered.
Domain *Daemon::inspected(Connection &c, const sysmemd_request &q) {
    auto at = domains.find(q.left);
    if (may_inspect(c) && at != domains.end()) return at->second.get();
    refuse(c, q, may_inspect(c) ? SYSMEMD_NO_SUCH_CORE : SYSMEMD_NOT_ALLOWED);
    return nullptr;
}

bool Daemon::tell_status_of(Connection &c, const sysmemd_request &q) {
    Domain *d = inspected(c, q);
    return !d || tell_status(c, q, *d);
}

// A descriptor of its own, which can't write.
bool Daemon::send_transcript(Connection &c, const sysmemd_request &q) {
    Domain *d = inspected(c, q);
    if (!d) return true;
    if (!d->transcript) return refuse(c, q, SYSMEMD_NO_SUCH_CORE);
    d->transcript->flush();
    int file = may_send(*c.domain, 1) ? d->transcript->open_again() : -1;
    if (file < 0) return fault(c, q, SYSMEM_NO_MEMORY);
    deliver(c, q, empty_reply(c, q, SYSMEM_OK), &file, 1);
    ::close(file);
    return true;
}

} // namespace sysmemd
