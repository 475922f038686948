// The end of objects: a hangup is a Close of an end, and a DropHandle of a lease.
#include "daemon.hpp"

#include "log.hpp"

#include <new>

namespace sysmemd {

// Takes an object out of its tree's list.
template <class T> static void remove(std::vector<T *> &list, T &o) {
    list[o.place] = list.back();
    list[o.place]->place = o.place;
    list.pop_back();
}

void Daemon::hang_up(Object &o) {
    if (o.is == Is::Tracker) {
        Domain &d = *o.domain;
        auto at = d.trackers.find(static_cast<Tracker &>(o).number);
        if (at != d.trackers.end()) at->second = nullptr; // it still waits in the core
    }
    if (!o.is_in_core) return destroy(&o);
    leave(o);
    if (!give_up(o)) put_off(o);
}

void Daemon::put_off(Object &o) {
    o.next_late = o.domain->late;
    o.domain->late = &o;
}

// Makes the last call of an object whose socket is closed, and frees it; false if memory is refused.
bool Daemon::give_up(Object &o) {
    return o.is == Is::Lease ? give_up_lease(static_cast<Lease &>(o)) : give_up_end(static_cast<End &>(o));
}

bool Daemon::give_up_end(End &e) {
    Domain &d = *e.domain;
    Tree &t = *e.tree;
    sysmem_call c = call_on(e.is_undelivered ? SYSMEM_RELEASE : SYSMEM_CLOSE, e.key);
    Answer a = raw_step(d, c);
    if (a.code == SYSMEM_NO_MEMORY) return false;
    if (a.code != SYSMEM_DONE) say("uid %u: an end is lost, for code %u", d.uid, a.code);
    remember(t, e);
    remove(t.ends, e);
    destroy(&e);
    settle(d, t, c, a);
    drop_if_empty(d, t);
    return true;
}

bool Daemon::give_up_lease(Lease &l) {
    Domain &d = *l.domain;
    Tree &t = *l.tree;
    sysmem_call c = call_on(SYSMEM_DROP_HANDLE, l);
    Answer a = raw_step(d, c);
    if (a.code == SYSMEM_NO_MEMORY) return false;
    if (a.code != SYSMEM_DONE) say("uid %u: a handle is lost, for code %u", d.uid, a.code);
    std::uint8_t index = l.index;
    t.buffers[index].open--;
    if (l.waits_idle) t.buffers[index].waiting--;
    remove(t.leases, l);
    destroy(&l);
    tell_idle(t, index);
    settle(d, t, c, a);
    drop_if_empty(d, t);
    return true;
}

void Daemon::catch_up(Domain &d) {
    while (Object *o = d.late) {
        d.late = o->next_late;
        if (give_up(*o)) continue;
        put_off(*o);
        return;
    }
}

int Daemon::catch_up() {
    int wait = -1;
    for (auto &d : domains) {
        catch_up(*d.second);
        if (d.second->transcript) d.second->transcript->flush();
        if (d.second->late) wait = 10;
    }
    std::uint64_t time = first_waiting ? now() : 0;
    while (first_waiting && first_waiting->deadline <= time) {
        Connection &c = *first_waiting;
        forget_waiting(c);
        cut(c, SYSMEMD_LATE);
    }
    if (first_waiting && wait < 0) wait = int((first_waiting->deadline - time) / 1000000) + 1;
    sweep();
    return wait;
}

// Keeps the label of a node whose end is spent: it may be the origin of a failure.
void Daemon::remember(Tree &t, const End &e) {
    try {
        if (t.former.size() >= 64 + 2 * t.ends.size())
            for (auto at = t.former.begin(); at != t.former.end();) {
                sysmem_key key = words_of(at->first);
                std::uint32_t is_kept = 0;
                sysmem_node n;
                sysmem_node_of(&e.domain->core, &key, &is_kept, &n);
                at = is_kept ? std::next(at) : t.former.erase(at);
            }
        t.former[e.key] = e.who;
    } catch (const std::bad_alloc &) { // its label is lost
    }
}

void Daemon::drop_if_empty(Domain &d, Tree &t) {
    if (!t.ends.empty() || !t.leases.empty()) return;
    for (Buffer &b : t.buffers) forget_memory(d, t, b);
    d.trees.erase(t.id);
}

} // namespace sysmemd
