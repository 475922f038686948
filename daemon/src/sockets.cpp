// Sockets as objects: how one enters the loop, is choked, cut, and leaves.
#include "daemon.hpp"

#include "listener.hpp"
#include "log.hpp"
#include "sysmem_remote/words.hpp"

#include <linux/sockios.h>
#include <new>
#include <sys/epoll.h>
#include <sys/ioctl.h>
#include <sys/socket.h>
#include <unistd.h>
#include <utility>

namespace sysmemd {

using sysmem::remote::Ending;

// How many bytes of memory our messages take that the other side did not receive.
static int unread(const Object &o) {
    int bytes = 0;
    return ioctl(o.fd, SIOCOUTQ, &bytes) ? 0 : bytes;
}
// While the kernel frees the last message it wakes us, and still counts a byte of it. A whole one has more than these.
static bool is_read(const Object &o) { return unread(o) < 256; }

static epoll_event watch(std::uint32_t events, int fd, std::uint32_t stamp) {
    epoll_event e{};
    e.events = events;
    e.data.u64 = std::uint64_t(stamp) << 32 | std::uint32_t(fd);
    return e;
}

void Daemon::wake(int fd, std::uint32_t stamp, std::uint32_t events) {
    Object *o = std::size_t(fd) < by_fd.size() ? by_fd[std::size_t(fd)] : nullptr;
    if (!o || o->stamp != stamp) return; // the event was of an earlier object
    bool is_over = events & (EPOLLHUP | EPOLLERR);
    if (o->is == Is::Rest) return is_read(*o) ? destroy(o) : void(), sweep();
    // Of a choked socket epoll tells once each time that something was read there, so this comes before the share.
    if (o->is_choked && !is_over && (o->is_held || is_full(*o))) return;
    if (is_over && o->is_held) o->is_held = false, o->taking = 0;
    if (o->is_choked) choke(*o, false);
    Domain *d = o->domain;
    std::uint64_t &last = d ? d->round : strangers_round, &spent = d ? d->spent : strangers_spent;
    if (last != round) last = round, spent = 0;
    if (spent >= options.share) return; // epoll tells again: others come first
    std::uint64_t from = now();
    read_one(*o, is_over);
    spent += now() - from;
    sweep();
}

// Prepares our side of a socket; false if memory or a descriptor is refused.
bool Daemon::listen_to(int fd, std::uint32_t stamp) {
    int on = 1, off = 0;
    setsockopt(fd, SOL_SOCKET, SO_PASSRIGHTS, &off, sizeof off); // the listener's reason; it said so if there is none
    try {
        if (by_fd.size() <= std::size_t(fd)) by_fd.resize(std::size_t(fd) * 2 + 64);
    } catch (const std::bad_alloc &) {
        return false;
    }
    epoll_event e = watch(EPOLLIN, fd, stamp);
    if (setsockopt(fd, SOL_SOCKET, SO_PASSCRED, &on, sizeof on) ||
        setsockopt(fd, SOL_SOCKET, SO_SNDBUF, &options.room, sizeof options.room) || epoll_ctl(epoll, EPOLL_CTL_ADD, fd, &e))
        return false;
    socklen_t length = sizeof room;
    if (room == 0) getsockopt(fd, SOL_SOCKET, SO_SNDBUF, &room, &length);
    return true;
}

// Puts the object behind this descriptor; false if memory or a descriptor is refused: then nothing happened.
bool Daemon::enter(Object &o, int fd) {
    o.stamp = next_stamp();
    if (!listen_to(fd, o.stamp)) return false;
    o.fd = fd;
    by_fd[std::size_t(fd)] = &o;
    files++;
    return true;
}

// A pair of sockets, by whose other side's cookie the object is found; false if they are refused. The daemon makes all
// pairs: a client's might be blocking, or no socket at all.
bool Daemon::pair(int (&two)[2], std::uint64_t &cookie, Object &o) {
    if (socketpair(AF_UNIX, SOCK_SEQPACKET | SOCK_CLOEXEC, 0, two)) return false;
    socklen_t length = sizeof cookie;
    try {
        if (getsockopt(two[1], SOL_SOCKET, SO_COOKIE, &cookie, &length) == 0) return by_cookie.emplace(cookie, &o), true;
    } catch (const std::bad_alloc &) {
    }
    ::close(two[0]);
    ::close(two[1]);
    return false;
}

bool Daemon::open_pair(Domain &d, Object &o, int &theirs) {
    int two[2];
    if (!has_room(d, 1) || !pair(two, o.cookie, o)) return false;
    if (!enter(o, two[0])) {
        by_cookie.erase(o.cookie);
        ::close(two[0]);
        ::close(two[1]);
        return false;
    }
    o.domain = &d;
    d.objects++;
    d.descriptors++;
    theirs = two[1];
    return true;
}

void Daemon::leave(Object &o) {
    if (o.fd < 0) return;
    if (o.cookie) by_cookie.erase(o.cookie);
    close_side(o);
    if (o.is != Is::Connection) return;
    forget_waiting(static_cast<Connection &>(o));
    auto at = callers.find(o.who.uid);
    if (--at->second == 0) callers.erase(at);
}

// Closes our side of an object's socket; what was sent over it can still be read. If descriptors are, it stays as a Rest, so that
// they count, until they are received or closed.
void Daemon::close_side(Object &o) {
    std::uint32_t count = o.aloft > 0 && !is_read(o) ? o.aloft : 0;
    land(o);
    by_fd[std::size_t(o.fd)] = nullptr;
    int fd = std::exchange(o.fd, -1);
    auto *rest = count > 0 ? new (std::nothrow) Object(Is::Rest) : nullptr;
    if (!rest) {
        ::close(fd);
        files--;
        if (o.domain) o.domain->descriptors--;
        return;
    }
    shutdown(fd, SHUT_RDWR);
    rest->fd = fd;
    rest->stamp = next_stamp();
    rest->domain = o.domain;
    rest->who = o.who;
    rest->is_cut = true;
    o.domain->objects++;
    by_fd[std::size_t(fd)] = rest;
    launch(*rest, count);
    choke(*rest, true);
}

void Daemon::destroy(Object *o) {
    leave(*o);
    if (o->domain && --o->domain->objects == 0) is_to_sweep = true;
    delete o;
}

void Daemon::cut(Object &o, std::uint32_t why) {
    if (o.is_cut || o.fd < 0) return;
    o.is_cut = true;
    if (o.is_choked) choke(o, false);
    if (why != SYSMEMD_CLAIMED) say("uid %u, process %u: cut off: %s", o.who.uid, o.who.pid, name(Ending(why)));
    sysmemd_reply r{};
    r.kind = SYSMEMD_ENDING;
    r.detail = why;
    r.count = SYSMEMD_VERSION;
    send(o, r);
    shutdown(o.fd, SHUT_RDWR);
}

// While it is choked, a socket waits, and not for requests. Each time that its peer reads, epoll tells once.
void Daemon::choke(Object &o, bool is_choked) {
    o.is_choked = is_choked;
    std::uint32_t reads = o.taking ? EPOLLIN | EPOLLOUT : EPOLLIN; // a Take whose memory is there goes on at once
    epoll_event e = watch(is_choked ? EPOLLOUT | EPOLLET : reads, o.fd, o.stamp);
    epoll_ctl(epoll, EPOLL_CTL_MOD, o.fd, &e);
}

// Whether a quarter of the socket's room is unread: the condition under which epoll tells of no EPOLLOUT. Or descriptors for
// a whole Take: they take no room.
bool Daemon::is_full(Object &o) {
    if (o.aloft > 0 && is_read(o)) land(o);
    return (unread(o) + 1) * 4 > room || o.aloft >= 64;
}

// Counts descriptors that were sent and are not received: they are the daemon's as long as that.
void Daemon::launch(Object &o, std::size_t count) {
    if (count == 0) return;
    Domain &d = *o.domain;
    if (o.aloft == 0) {
        o.aloft_before = d.aloft_last;
        o.aloft_next = nullptr;
        (d.aloft_last ? d.aloft_last->aloft_next : d.aloft_first) = &o;
        d.aloft_last = &o;
    }
    o.aloft += std::uint32_t(count);
    d.aloft += count;
    aloft += count;
}

void Daemon::land(Object &o) {
    if (o.aloft == 0) return;
    Domain &d = *o.domain;
    (o.aloft_before ? o.aloft_before->aloft_next : d.aloft_first) = o.aloft_next;
    (o.aloft_next ? o.aloft_next->aloft_before : d.aloft_last) = o.aloft_before;
    d.aloft -= o.aloft;
    aloft -= o.aloft;
    o.aloft = 0;
}

// Whether so many more may be sent. No uid has more under way than it leaves to the others, and than its limit. Only if it
// seems to have, the sockets are looked at, some at a time.
bool Daemon::may_send(Domain &d, std::size_t more) {
    auto is_in = [&] { return d.aloft + more <= options.descriptors && d.aloft + more + aloft <= options.files; };
    for (int i = 0; !is_in() && i < 256 && d.aloft_first; i++) {
        Object &o = *d.aloft_first;
        std::uint32_t count = is_read(o) ? 0 : o.aloft;
        land(o);
        launch(o, count); // to the end of the list
    }
    return is_in();
}

} // namespace sysmemd
