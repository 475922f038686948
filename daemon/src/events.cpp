// Events of the core, and what one means for the others.
#include "daemon.hpp"

#include <cstring>

namespace sysmemd {

Answer Daemon::step(Domain &d, const sysmem_call &c, const std::string *label) {
    if (d.late) catch_up(d);
    return raw_step(d, c, label);
}

Answer Daemon::raw_step(Domain &d, const sysmem_call &c, const std::string *label) {
    Answer a;
    a.code = sysmem_step(&d.core, d.client, &c, &a.reply);
    if (d.transcript && a.code == SYSMEM_DONE) d.transcript->note(d.core, d.client, c, a.reply, label);
    return a;
}

// Whether such an event may have allocated a unit, failed a node or freed a buffer.
static bool may_change(std::uint32_t kind, std::uint32_t told) {
    if (told == SYSMEM_MISUSED) return true;
    return kind == SYSMEM_SET_CONSTRAINTS || kind == SYSMEM_SET_WEAK || kind == SYSMEM_RELEASE || kind == SYSMEM_CLOSE ||
           kind == SYSMEM_DROP_HANDLE;
}

// Tells the others what an event did.
void Daemon::settle(Domain &d, Tree &t, const sysmem_call &c, const Answer &a) {
    if (a.code != SYSMEM_DONE) return;
    if (may_change(c.kind, a.reply.kind)) {
        origin.is_known = false;
        for (End *e : t.ends) look_at(*e);
        origin.is_known = false;
        bring_home(d, t);
    }
    if (!d.trackers.empty()) fire(d);
}

void Daemon::look_at(End &e) {
    if (e.fate & End::FAILED) return;
    sysmem_key key = words_of(e.key);
    std::uint32_t is_kept = 0;
    sysmem_node n;
    if (sysmem_node_of(&e.domain->core, &key, &is_kept, &n) || !is_kept) return;
    if ((n.flags & SYSMEM_NODE_ALLOCATED) && !(e.fate & End::DECIDED)) {
        e.fate |= End::DECIDED;
        sysmemd_reply r{};
        r.kind = SYSMEMD_ALLOCATED;
        sysmem_events(&e.domain->core, &r.event);
        sysmem_given(&e.domain->core, e.tree->id, &r.count, &r.size);
        send(e, r);
    }
    if (n.flags & SYSMEM_NODE_FAILED) {
        e.fate |= End::FAILED;
        tell_failed(e);
    }
}

void Daemon::tell_failed(End &e) {
    sysmem_key key = words_of(e.key);
    std::uint32_t is_kept = 0;
    sysmem_node n;
    if (sysmem_node_of(&e.domain->core, &key, &is_kept, &n) || !is_kept) return;
    sysmemd_reply r{};
    r.kind = SYSMEMD_FAILED;
    sysmem_events(&e.domain->core, &r.event);
    r.detail = n.cause;
    r.slot = n.origin.slot;
    r.generation = n.origin.generation;
    if (!origin.is_known || origin.key != key_of(n.origin)) {
        sysmemd_reply named{};
        origin.key = key_of(n.origin);
        name_origin(*e.tree, origin.key, named);
        std::memcpy(origin.who.label, named.label, sizeof named.label);
        origin.who.pid = named.pid;
        origin.who.uid = named.uid;
        origin.is_known = true;
    }
    std::memcpy(r.label, origin.who.label, sizeof r.label);
    r.pid = origin.who.pid;
    r.uid = origin.who.uid;
    send(e, r);
}

// Puts label and process of a node into a reply.
void Daemon::name_origin(const Tree &t, Key origin, sysmemd_reply &r) {
    const Who *who = nullptr;
    for (const End *e : t.ends)
        if (e->key == origin) who = &e->who;
    auto at = t.former.find(origin);
    if (!who && at != t.former.end()) who = &at->second;
    if (!who) return;
    std::memcpy(r.label, who->label, sizeof r.label);
    r.pid = who->pid;
    r.uid = who->uid;
}

void Daemon::fire(Domain &d) {
    for (;;) {
        sysmem_fired_tracker some[32];
        std::uint64_t count = 0, from = d.passed;
        if (sysmem_fired_from(&d.core, from, some, 32, &count)) return;
        for (std::uint64_t i = 0; i < 32 && from + i < count; i++) {
            d.passed++;
            auto at = d.trackers.find(some[i].tracker);
            if (at == d.trackers.end()) continue;
            Tracker *t = at->second;
            d.trackers.erase(at);
            if (!t) continue;
            t->fired = some[i].event;
            tell_fired(*t);
        }
        if (d.passed < count) continue;
        if (d.passed >= 64 && sysmem_forget_fired(&d.core) == SYSMEM_DONE) d.passed = 0;
        return;
    }
}

// The tracker stays until its socket is closed, so that who claims it hears the same.
void Daemon::tell_fired(Tracker &t) {
    sysmemd_reply r{};
    r.kind = SYSMEMD_FIRED;
    r.id = t.number;
    r.set = t.fired;
    sysmem_events(&t.domain->core, &r.event);
    send(t, r);
}

} // namespace sysmemd
