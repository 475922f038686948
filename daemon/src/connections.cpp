// Connections, and the uids that have a core.
#include "daemon.hpp"

#include "log.hpp"

#include <cstring>
#include <new>
#include <sys/random.h>
#include <sys/socket.h>
#include <time.h>
#include <unistd.h>

namespace sysmemd {

std::uint64_t now() {
    timespec t;
    clock_gettime(CLOCK_MONOTONIC, &t);
    return std::uint64_t(t.tv_sec) * 1000000000 + std::uint64_t(t.tv_nsec);
}

Daemon::~Daemon() {
    for (Object *o : by_fd)
        if (o) ::close(o->fd), delete o;
    for (auto &d : domains) {
        while (Object *o = d.second->late) d.second->late = o->next_late, delete o;
        for (auto &t : d.second->trees)
            for (Buffer &b : t.second->buffers) forget_memory(*d.second, *t.second, b);
    }
}

void Daemon::turn_away(int fd) {
    sysmemd_reply r{};
    r.kind = SYSMEMD_ENDING;
    r.detail = SYSMEMD_CROWDED;
    r.count = SYSMEMD_VERSION;
    ::send(fd, &r, sizeof r, MSG_DONTWAIT | MSG_NOSIGNAL);
    ::close(fd);
}

void Daemon::accept(int fd) {
    ucred peer{};
    socklen_t length = sizeof peer;
    if (getsockopt(fd, SOL_SOCKET, SO_PEERCRED, &peer, &length)) return turn_away(fd);
    std::unique_ptr<Connection> made(new (std::nothrow) Connection);
    try {
        if (!made || files >= options.files || callers[peer.uid] >= options.connections) {
            say("uid %u, process %d: a connection is turned away", peer.uid, int(peer.pid));
            return turn_away(fd);
        }
    } catch (const std::bad_alloc &) {
        return turn_away(fd);
    }
    if (!enter(*made, fd)) return turn_away(fd);
    callers[peer.uid]++;
    made->who.pid = std::uint32_t(peer.pid);
    made->who.uid = peer.uid;
    made->deadline = now() + options.patience;
    made->before = last_waiting;
    (last_waiting ? last_waiting->next : first_waiting) = made.get();
    last_waiting = made.release();
}

void Daemon::forget_waiting(Connection &c) {
    if (c.deadline == 0) return;
    c.deadline = 0;
    (c.before ? c.before->next : first_waiting) = c.next;
    (c.next ? c.next->before : last_waiting) = c.before;
}

// Only now the uid gets a core: who connects and says nothing costs others nothing, and is cut off soon.
bool Daemon::greet(Connection &c, const sysmemd_request &q) {
    if (c.domain || q.size != SYSMEMD_MAGIC) return false;
    if (q.left != SYSMEMD_VERSION) return cut(c, SYSMEMD_VERSION_IS), true;
    // SO_PEERCRED, unlike the credentials of a message, is that of who connected.
    ucred peer{};
    socklen_t length = sizeof peer;
    Domain *d = nullptr;
    if (getsockopt(c.fd, SOL_SOCKET, SO_PEERCRED, &peer, &length) == 0) d = domain_of(peer.uid);
    if (!d || !has_room(*d, 1)) {
        say("uid %u: no room for a connection", peer.uid);
        return is_to_sweep = true, cut(c, SYSMEMD_CROWDED), true;
    }
    forget_waiting(c);
    c.domain = d;
    d->objects++;
    d->descriptors++;
    std::memcpy(c.who.label, q.label, sizeof q.label);
    sysmemd_reply r = empty_reply(c, q, SYSMEMD_WELCOME);
    r.detail = SYSMEMD_VERSION;
    send(c, r);
    return true;
}

bool Daemon::tell_own_status(Connection &c, const sysmemd_request &q) { return tell_status(c, q, *c.domain); }

bool Daemon::tell_status(Connection &c, const sysmemd_request &q, Domain &d) {
    sysmemd_reply r = empty_reply(c, q, SYSMEMD_STATE);
    std::uint64_t live = 0;
    sysmem_key no_key;
    sysmem_held_buffer no_buffer;
    if (sysmem_live(&d.core, &no_key, 0, &live) || sysmem_held(&d.core, &no_buffer, 0, &r.id))
        return fault(c, q, SYSMEM_NO_MEMORY);
    r.count = std::uint32_t(live);
    sysmem_events(&d.core, &r.event);
    sysmem_free_pages(&d.core, &r.size);
    r.set = d.descriptors;
    r.index = options.pages;
    r.detail = d.memories;
    send(c, r);
    return true;
}

Domain *Daemon::domain_of(std::uint32_t uid) {
    auto at = domains.find(uid);
    if (at != domains.end()) return at->second.get();
    if (domains.size() >= options.uids && uid != 0 && uid != geteuid()) return nullptr;
    try {
        auto made = make_domain(uid);
        if (!made) return nullptr;
        return domains.emplace(uid, std::move(made)).first->second.get();
    } catch (const std::bad_alloc &) {
        return nullptr;
    }
}

std::unique_ptr<Domain> Daemon::make_domain(std::uint32_t uid) {
    auto made = std::make_unique<Domain>();
    Domain &d = *made;
    d.uid = uid;
    std::uint8_t seed[16];
    if (getrandom(seed, sizeof seed, 0) != ssize_t(sizeof seed)) return nullptr;
    if (sysmem_open_lasting(&d.core, options.pages, options.nodes, options.collections, options.trackers, options.handles,
                            seed))
        return nullptr;
    if (!options.transcripts.empty()) {
        std::string name = options.transcripts + "/" + std::to_string(uid) + "." + std::to_string(getpid()) + "." +
                           std::to_string(transcripts++) + ".transcript";
        d.transcript = Transcript::begin(name, options.pages);
        if (!d.transcript) say("%s: no transcript", name.c_str());
    }
    std::string label = "daemon";
    Answer joined = raw_step(d, call_on(SYSMEM_JOIN), &label);
    if (!joined.is(SYSMEM_JOINED)) return nullptr;
    d.client = joined.reply.id;
    return made;
}

void Daemon::sweep() {
    if (!is_to_sweep) return;
    is_to_sweep = false;
    for (auto at = domains.begin(); at != domains.end();)
        at = at->second->objects == 0 && !at->second->late ? domains.erase(at) : std::next(at);
}

bool Daemon::has_room(Domain &d, std::size_t more) {
    std::uint64_t mine = files + worker.closing(), left = options.files > mine ? options.files - mine : 0;
    return d.descriptors + more <= left && may_send(d, 2);
}

} // namespace sysmemd
