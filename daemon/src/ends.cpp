// Requests on ends, and those that make one.
#include "daemon.hpp"

#include <cstring>
#include <new>
#include <sys/socket.h>
#include <unistd.h>

namespace sysmemd {

// Room for one more, so that push_back takes no memory; false if it is refused.
template <class T> static bool has_place(std::vector<T> &list) {
    try {
        if (list.size() == list.capacity()) list.reserve(2 * list.size() + 4);
        return true;
    } catch (const std::bad_alloc &) {
        return false;
    }
}

// A place for a collection that gets its number after the event.
static bool has_place(Domain &d) {
    try {
        auto fresh = std::make_unique<Tree>();
        if (!has_place(fresh->ends)) return false;
        d.trees.reserve(d.trees.size() + 2);
        d.trees.emplace(0, std::move(fresh));
        return true;
    } catch (const std::bad_alloc &) {
        return false;
    }
}

bool Daemon::open_root(Connection &c, const sysmemd_request &q) {
    Domain &d = *c.domain;
    if (d.descriptors >= options.descriptors) return refuse(c, q, SYSMEM_TOO_MANY_NODES);
    int theirs = -1;
    End *made = make<End>(d, theirs);
    if (made && has_place(d)) return finish_birth(c, d, nullptr, q, made, theirs);
    if (made) destroy(made), ::close(theirs);
    return fault(c, q, SYSMEM_NO_MEMORY);
}

bool Daemon::birth(End &e, const sysmemd_request &q) {
    Domain &d = *e.domain;
    if (d.descriptors >= options.descriptors) return refuse(e, q, SYSMEM_TOO_MANY_NODES);
    int theirs = -1;
    End *made = make<End>(d, theirs);
    if (made && has_place(e.tree->ends)) return finish_birth(e, d, e.tree, q, made, theirs);
    if (made) destroy(made), ::close(theirs);
    return fault(e, q, SYSMEM_NO_MEMORY);
}

// Makes the event of a birth: of a root if there is no tree. The socket is there, and so is room for all that follows.
bool Daemon::finish_birth(Object &o, Domain &d, Tree *t, const sysmemd_request &q, End *made, int theirs) {
    std::string label;
    try {
        label = q.label;
    } catch (const std::bad_alloc &) { // then the transcript has another
    }
    sysmem_call c = call_on(q.op, t ? static_cast<End &>(o).key : Key{});
    Answer a = step(d, c, &label);
    sysmemd_reply r = reply_of(o, t, q, a);
    if (!a.is(SYSMEM_NEW_TOKEN)) {
        if (!t) d.trees.erase(0);
        destroy(made);
        ::close(theirs);
        send(o, r);
        return true;
    }
    if (!t) {
        auto place = d.trees.extract(0);
        t = place.mapped().get();
        t->id = place.key() = a.reply.id;
        d.trees.insert(std::move(place)); // takes no memory
    }
    made->is_in_core = true;
    made->key = {a.reply.slot, a.reply.generation};
    made->tree = t;
    made->place = t->ends.size();
    made->who = o.who;
    std::memcpy(made->who.label, q.label, sizeof q.label);
    t->ends.push_back(made);
    made->is_undelivered = !deliver(o, q, r, &theirs, 1);
    ::close(theirs); // if nobody has it now, the end hangs up
    return true;
}

bool Daemon::call_on_end(End &e, const sysmemd_request &q) {
    sysmem_call c = call_on(q.op, e.key);
    c.camping = q.camping;
    c.at_least = q.at_least;
    c.size = q.size;
    c.children = q.children;
    Answer a = step(*e.domain, c);
    if (c.kind == SYSMEM_BIND && a.is(SYSMEM_OK)) e.is_bound = true;
    send(e, reply_of(e, e.tree, q, a)); // before the events that it causes
    settle(*e.domain, *e.tree, c, a);
    return true;
}

bool Daemon::track_on_end(End &e, const sysmemd_request &q) {
    sysmem_call c = call_on(q.op, e.key);
    c.left = q.left;
    return track(e, *e.tree, q, c);
}

bool Daemon::track(Object &o, Tree &t, const sysmemd_request &q, const sysmem_call &c) {
    Domain &d = *o.domain;
    if (d.descriptors >= options.descriptors) return refuse(o, q, SYSMEM_TRACKERS_FULL);
    int theirs = -1;
    Tracker *made = make<Tracker>(d, theirs);
    try {
        if (!made) return fault(o, q, SYSMEM_NO_MEMORY);
        made->who = o.who;
        d.trackers.reserve(d.trackers.size() + 2);
        d.trackers.emplace(0, nullptr); // it gets its number after the event
    } catch (const std::bad_alloc &) {
        destroy(made), ::close(theirs);
        return fault(o, q, SYSMEM_NO_MEMORY);
    }
    Answer a = step(d, c);
    sysmemd_reply r = reply_of(o, &t, q, a);
    auto place = d.trackers.extract(0);
    if (a.is(SYSMEM_TRACKER)) {
        made->number = place.key() = a.reply.id;
        place.mapped() = made;
        d.trackers.insert(std::move(place)); // takes no memory
        deliver(o, q, r, &theirs, 1);        // if this fails, the tracker fires for nobody
    } else {
        destroy(made);
        send(o, r);
    }
    ::close(theirs);
    settle(d, t, c, a);
    return true;
}

bool Daemon::release(End &e, const sysmemd_request &q) {
    Domain &d = *e.domain;
    Tree &t = *e.tree;
    sysmem_call c = call_on(SYSMEM_RELEASE, e.key);
    Answer a = step(d, c);
    send(e, reply_of(e, &t, q, a));
    if (a.code != SYSMEM_DONE) {
        e.is_undelivered = true; // it is released once there is memory
        e.is_cut = true;
        shutdown(e.fd, SHUT_RDWR);
        return true;
    }
    remember(t, e);
    t.ends[e.place] = t.ends.back();
    t.ends[e.place]->place = e.place;
    t.ends.pop_back();
    destroy(&e);
    settle(d, t, c, a);
    drop_if_empty(d, t);
    return true;
}

} // namespace sysmemd
