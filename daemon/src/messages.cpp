// One message in, one message out.
#include "daemon.hpp"

#include "log.hpp"
#include "sysmem_remote/envelope.hpp"

#include <cerrno>
#include <cstring>
#include <sys/socket.h>
#include <unistd.h>

namespace sysmemd {

using sysmem::remote::detail::Envelope;

// Reads and serves one message. With many replies unread it waits.
void Daemon::read_one(Object &o, bool is_over) {
    if (o.is_cut) return hang_up(o);
    if (!is_over && is_full(o)) return choke(o, true);
    if (o.taking) return resume(static_cast<End &>(o));
    sysmemd_request all[SYSMEMD_AT_ONCE];
    Envelope<0> came(all, sizeof all);
    ssize_t got = recvmsg(o.fd, &came.head, MSG_DONTWAIT | MSG_CMSG_CLOEXEC);
    if (got < 0 && (errno == EAGAIN || errno == EINTR || errno == ENOMEM || errno == ECONNRESET)) return; // then comes the end
    if (got <= 0) return hang_up(o); // also by an empty message
    Who who = o.who;
    bool is_good = got % ssize_t(sizeof *all) == 0 && !(came.head.msg_flags & (MSG_TRUNC | MSG_CTRUNC));
    came.each([&](int type, const unsigned char *what, std::size_t length) {
        ucred from;
        if (type == SCM_CREDENTIALS) std::memcpy(&from, what, sizeof from), who.pid = std::uint32_t(from.pid), who.uid = from.uid;
        for (int fd; type == SCM_RIGHTS && length >= sizeof fd; length -= sizeof fd, what += sizeof fd) {
            std::memcpy(&fd, what, sizeof fd); // there is no room for one beside the credentials, but who knows
            ::close(fd);
            is_good = false;
        }
    });
    // A connection keeps the uid that it counts for; its messages may come from others.
    o.who.pid = who.pid;
    if (o.is != Is::Connection) o.who.uid = who.uid;
    if (!is_good || !serve(o, all, std::size_t(got) / sizeof *all)) cut(o, SYSMEMD_MALFORMED);
}

// Sends it, or cuts off a client that would wait for it in vain: too much is unread, or the system has no memory. Descriptors
// may be refused: the error's number. Who is gone hangs up.
int Daemon::send(Object &o, const sysmemd_reply &r, const int *fds, std::size_t count, std::size_t length) {
    if (o.fd < 0) return 0;
    Envelope<128> goes(&r, length);
    goes.attach(fds, count);
    if (sendmsg(o.fd, &goes.head, MSG_DONTWAIT | MSG_NOSIGNAL) >= 0) return launch(o, count), 0;
    int why = errno;
    if (why == EPIPE || why == ECONNRESET) return why;
    if (why == EAGAIN || count == 0) cut(o, SYSMEMD_UNREAD);
    return why;
}

// Sends a reply with descriptors; if they can't go, a fault in its place, and false.
bool Daemon::deliver(Object &o, const sysmemd_request &q, const sysmemd_reply &r, const int *fds, std::size_t count) {
    int why = send(o, r, fds, count);
    if (why == 0) return true;
    if (why == EAGAIN || why == EPIPE || why == ECONNRESET) return false;
    say("uid %u, process %u: descriptors can't be sent: %s", o.who.uid, o.who.pid, std::strerror(why));
    fault(o, q, SYSMEM_NO_MEMORY);
    return false;
}

sysmemd_reply Daemon::empty_reply(const Object &o, const sysmemd_request &q, std::uint32_t kind) {
    sysmemd_reply r{};
    r.kind = kind;
    r.serial = q.serial;
    if (o.domain) sysmem_events(&o.domain->core, &r.event);
    return r;
}

bool Daemon::fault(Object &o, const sysmemd_request &q, std::uint32_t code) {
    sysmemd_reply r = empty_reply(o, q, SYSMEMD_FAULT);
    r.detail = code;
    send(o, r);
    return true;
}

bool Daemon::refuse(Object &o, const sysmemd_request &q, std::uint32_t why) {
    sysmemd_reply r = empty_reply(o, q, SYSMEM_REFUSED);
    r.detail = why;
    send(o, r);
    return true;
}

// The core's answer to a request; the tree, if there is one, has the label of an origin.
sysmemd_reply Daemon::reply_of(Object &o, const Tree *t, const sysmemd_request &q, const Answer &a) {
    sysmemd_reply r = empty_reply(o, q, a.code == SYSMEM_DONE ? a.reply.kind : std::uint32_t(SYSMEMD_FAULT));
    r.detail = a.code;
    if (a.code != SYSMEM_DONE) return r;
    r.detail = a.reply.detail;
    r.slot = a.reply.slot;
    r.generation = a.reply.generation;
    r.count = a.reply.count;
    r.size = a.reply.size;
    r.index = a.reply.index;
    r.id = a.reply.id;
    r.set = a.reply.set;
    if (t && a.reply.kind == SYSMEM_PEER_CLOSED) name_origin(*t, {r.slot, r.generation}, r);
    return r;
}

} // namespace sysmemd
