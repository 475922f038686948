/// \file
/// The service of sysmemd as C++ values, with the names of sysmem.hpp. C++17, headers only; Linux.
///
/// A program moves between the two by the place where it opens: in sysmem.hpp `Service::open().value().join("camera")`
/// is a Client of a core in this process, here `remote::Service::open().value().join("camera")` one of the daemon.
/// Connection is another name of Client. Constraints, Error, Result, Key, Buffer, Pending and the other words are the same
/// types. docs/DAEMON.md has what differs.
///
/// Tokens, Collections and Handles are descriptors. What closes the last copy does what a destructor does: also the
/// death of the process. Several threads may call const members of one value at once.
#ifndef SYSMEM_REMOTE_HPP
#define SYSMEM_REMOTE_HPP

#include "sysmem_remote/ends.hpp"

#include <cstdlib>

namespace sysmem {
inline namespace SYSMEM_INLINE {
namespace remote {

/// What came over a socket: one of the three.
class Parcel : public std::variant<Token, Collection, Handle> {
public:
    using std::variant<Token, Collection, Handle>::variant;
    Result<Token> token() { return take<Token>(); }                ///< Takes the token; else WrongKind.
    Result<Collection> collection() { return take<Collection>(); } ///< Takes the collection; else WrongKind.
    Result<Handle> handle() { return take<Handle>(); }             ///< Takes the handle; else WrongKind.

private:
    template <class T> Result<T> take() {
        if (T *it = std::get_if<T>(this)) return std::move(*it);
        return detail::refused(Refusal::WrongKind);
    }
};

/// A connection to the daemon. What it made stays when it goes.
class Client {
public:
    /// Opens a connection; without a path at $SYSMEM_SOCKET, or $XDG_RUNTIME_DIR/sysmem-0. Labels are for people. With a
    /// deadline, each call on this value, and on what it makes, answers Ending::TimeOver after so long; its event may still be
    /// made, and what comes then is closed. Waits with a time of their own have that.
    static Result<Client> open(std::string path = {}, std::string label = {},
                               std::chrono::nanoseconds deadline = std::chrono::nanoseconds::max()) {
        if (path.empty()) {
            const char *own = std::getenv("SYSMEM_SOCKET"), *run = std::getenv("XDG_RUNTIME_DIR");
            path = own ? own : run ? std::string(run) + "/sysmem-0" : std::string();
        }
        auto hub = std::make_shared<detail::Hub>(deadline);
        int fd = connect(path, deadline);
        if (fd < 0) return unserved(path, errno);
        Client made(fd, hub, label);
        sysmemd_request q = detail::request(SYSMEMD_HELLO, label);
        q.size = SYSMEMD_MAGIC;
        q.left = SYSMEMD_VERSION;
        auto said = detail::ask(made.link, q, Refusal::NoSuchClient);
        if (!said) return std::move(said).error();
        made.daemon = said->sender;
        int off = 0;
        setsockopt(fd, SOL_SOCKET, SO_PASSCRED, &off, sizeof off);
        return made;
    }
    explicit operator bool() const noexcept { return bool(link); } ///< Whether it is not spent.
    const std::string &label() const { return name; }              ///< Its label; it may be empty.
    /// Makes a collection, and answers its root token.
    Result<Token> open_root(std::string label = {}) const {
        return End::born<Token>(link, SYSMEM_OPEN_ROOT, label, Refusal::NoSuchClient);
    }
    /// Waits for what another process gives over this socket, and asks the daemon what it is. Nothing if the time is over
    /// first; Ending::NoGiver if the socket ended. What came stays for the next call if it can't be received or adopted now, by
    /// a fault.
    template <class Rep, class Period>
    Result<std::optional<Parcel>> collect_for(int socket, std::chrono::duration<Rep, Period> time) const {
        if (!link) return Error::spent(Refusal::NoSuchClient);
        int fd = inbox->take(socket);
        if (fd < 0) fd = detail::receive_fd(socket, detail::after(time));
        if (fd == -3) return Error::fault(SYSMEM_NO_MEMORY);
        if (fd == -1) return detail::ended(Ending::NoGiver);
        if (fd == -2) return std::optional<Parcel>();
        auto got = adopt(fd);
        if (got) return std::optional<Parcel>(std::move(*got));
        if (got.error().kind == Error::Kind::Fault) inbox->keep(socket, fd);
        return std::move(got).error();
    }
    /// Waits likewise, as long as it takes.
    Result<std::optional<Parcel>> collect(int socket) const {
        return collect_for(socket, std::chrono::hours(1 << 21));
    }
    /// The value of a descriptor that some process passed, whom nobody needs to trust: over this connection the daemon
    /// exchanges it for a new one, which this process alone has; all other copies end. If it is none of the daemon's, the
    /// answer is WrongKind, and the descriptor is closed. At a Fault, e.g. if this process can have no more descriptors, it
    /// stays open and the caller's, who may try again.
    Result<Parcel> adopt(int fd) const {
        auto got = claim(fd);
        if (!got) return std::move(got).error();
        const sysmemd_reply &r = got->reply();
        Key key{r.slot, r.generation};
        int its = got->fds.take(0);
        if (r.detail == SYSMEMD_LEASE)
            return Parcel(Handle(its, -1, link->hub, {r.id, std::uint8_t(r.index)}, Strength(r.set), r.size));
        if (r.detail == SYSMEMD_TOKEN) return Parcel(known<Token>(its, key, r));
        if (r.detail == SYSMEMD_COLLECTION) return Parcel(known<Collection>(its, key, r));
        if (its >= 0) ::close(its);
        return detail::refused(Refusal::WrongKind);
    }
    /// As adopt, for a token.
    Result<Token> adopt_token(int fd) const {
        return adopt(fd).and_then([](Parcel &&p) { return p.token(); });
    }
    /// As adopt, for a collection.
    Result<Collection> adopt_collection(int fd) const {
        return adopt(fd).and_then([](Parcel &&p) { return p.collection(); });
    }
    /// As adopt, for a handle.
    Result<Handle> adopt_handle(int fd) const {
        return adopt(fd).and_then([](Parcel &&p) { return p.handle(); });
    }
    /// As adopt, for a tracker, also if it fired before.
    Result<Tracker> adopt_tracker(int fd) const {
        auto got = claim(fd);
        if (!got) return std::move(got).error();
        const sysmemd_reply &r = got->reply();
        int its = got->fds.take(0);
        if (r.detail == SYSMEMD_TRACKER)
            return Tracker(detail::Link::make(its, link->hub, {{}, r.id, 0, SYSMEMD_TRACKER}));
        if (its >= 0) ::close(its);
        return detail::refused(Refusal::WrongKind);
    }
    /// Numbers of the core of this process's uid.
    Result<Status> status() const { return ask_status(SYSMEMD_STATUS, 0); }
    /// The kept nodes of the same.
    Result<std::vector<Node>> nodes() const { return detail::read_nodes(link, SYSMEMD_NODES, Refusal::NoSuchClient); }
    /// All objects of the daemon, of whatever uid. Refused, as the two that follow, to all but root and the daemon's own uid.
    Result<std::vector<sysmemd_seen>> objects() const {
        std::vector<sysmemd_seen> all;
        sysmemd_request q = detail::request(SYSMEMD_INSPECT);
        do {
            auto got = detail::ask(link, q, Refusal::NoSuchClient);
            if (!got) return std::move(got).error();
            sysmemd_inspected some;
            std::memcpy(&some, &got->words, sizeof some);
            all.insert(all.end(), some.seen, some.seen + std::min<std::uint32_t>(some.reply.count, SYSMEMD_SEEN_AT_ONCE));
            q.left = std::uint32_t(some.reply.set);
        } while (q.left != 0);
        return all;
    }
    /// As status(), of the core of this uid.
    Result<Status> status_of(std::uint32_t uid) const { return ask_status(SYSMEMD_STATUS_OF, uid); }
    /// The transcript of this core so far, as a file open for reading, which the caller closes.
    Result<int> transcript_of(std::uint32_t uid) const {
        sysmemd_request q = detail::request(SYSMEMD_TRANSCRIPT);
        q.left = uid;
        auto got = detail::ask(link, q, Refusal::NoSuchClient);
        if (!got) return std::move(got).error();
        return got->fds.take(0);
    }
    /// One descriptor for an event loop: readable as long as pending() has something to tell of the values that this
    /// connection made or adopted, or the daemon is gone; at times also when there is nothing. -1 if the system gives none.
    int fd() const { return link ? link->hub->open() : -1; }
    /// What happened since the last call, without a wait: the nodes whose unit was allocated, and those that failed or whose
    /// end no longer reaches the daemon; the trackers that fired; the buffers that fell idle by on_idle. Each once. Makes
    /// no event. It tells only from the first call of fd() on, and then also what was before.
    Result<Pending> pending() const {
        if (!link) return Error::spent(Refusal::NoSuchClient);
        Pending told;
        for (auto &one : link->hub->collect()) tell(*one, told);
        return told;
    }
    /// Why this value no longer reaches the daemon.
    Ending ending() const {
        if (!link) return Ending::None;
        link->drain();
        std::lock_guard<std::mutex> lock(link->mutex);
        return link->end;
    }
    /// Closes the connection.
    void vanish() noexcept { link.reset(); }

private:
    // What came and could not be adopted yet, with the socket that it came over.
    struct Inbox {
        std::mutex mutex;
        std::vector<std::pair<int, int>> all;
        ~Inbox() {
            for (auto &one : all) ::close(one.second);
        }
        int take(int socket) {
            std::lock_guard<std::mutex> lock(mutex);
            for (std::size_t i = 0; i < all.size(); i++) {
                if (all[i].first != socket) continue;
                int fd = all[i].second;
                all.erase(all.begin() + std::ptrdiff_t(i));
                all.reserve(all.size() + 1); // so that keep takes no memory
                return fd;
            }
            all.reserve(all.size() + 16);
            return -1;
        }
        void keep(int socket, int fd) {
            std::lock_guard<std::mutex> lock(mutex);
            all.emplace_back(socket, fd);
        }
    };
    Client(int fd, const std::shared_ptr<detail::Hub> &hub, std::string label)
        : link(detail::Link::make(fd, hub, {{}, 0, 0, SYSMEMD_CONNECTION})), inbox(std::make_unique<Inbox>()),
          name(std::move(label)) {}
    static Error unserved(const std::string &path, int why) {
        if (path.empty()) return detail::ended(Ending::NoService, "neither SYSMEM_SOCKET nor XDG_RUNTIME_DIR is set");
        return detail::ended(why == EAGAIN ? Ending::TimeOver : Ending::NoService, path + ": " + std::strerror(why));
    }
    static int connect(const std::string &path, std::chrono::nanoseconds deadline) {
        sockaddr_un at{};
        at.sun_family = AF_UNIX;
        if (path.empty() || path.size() >= sizeof at.sun_path) return errno = ENAMETOOLONG, -1;
        std::memcpy(at.sun_path, path.c_str(), path.size());
        int fd = socket(AF_UNIX, SOCK_SEQPACKET | SOCK_CLOEXEC, 0), on = 1;
        if (fd < 0) return -1;
        timeval limit{};
        if (deadline != std::chrono::nanoseconds::max()) {
            limit.tv_sec = time_t(deadline.count() / 1000000000);
            limit.tv_usec = suseconds_t(deadline.count() / 1000 % 1000000);
        }
        setsockopt(fd, SOL_SOCKET, SO_SNDTIMEO, &limit, sizeof limit); // of connect, if the daemon accepts nothing
        setsockopt(fd, SOL_SOCKET, SO_PASSCRED, &on, sizeof on);       // who the daemon is
        int is;
        do is = ::connect(fd, reinterpret_cast<sockaddr *>(&at), sizeof at);
        while (is != 0 && errno == EINTR);
        if (is == 0) return fd;
        int why = errno;
        ::close(fd);
        errno = why;
        return -1;
    }
    Result<Status> ask_status(std::uint32_t op, std::uint32_t uid) const {
        sysmemd_request q = detail::request(op);
        q.left = uid;
        auto got = detail::ask(link, q, Refusal::NoSuchClient);
        if (!got) return std::move(got).error();
        const sysmemd_reply &r = got->reply();
        return Status{r.count, r.index, r.size, r.id, r.set, r.detail, r.event};
    }
    static void tell(detail::Link &link, Pending &told) {
        std::unique_lock<std::mutex> lock(link.mutex);
        const detail::Link::Subject &its = link.subject;
        bool is_over = link.failure || link.end != Ending::None;
        if (its.is == SYSMEMD_COLLECTION && link.is_allocated && !std::exchange(link.is_told_allocated, true))
            told.allocated.push_back(its.node);
        if (its.is == SYSMEMD_COLLECTION && is_over && !std::exchange(link.is_told_failed, true))
            told.failed.push_back(its.node);
        if (its.is == SYSMEMD_TRACKER && link.fired && !std::exchange(link.is_told_fired, true)) told.fired.push_back(its.id);
        if (its.is == SYSMEMD_LEASE && link.is_idle && !std::exchange(link.is_told_idle, true))
            told.idle.push_back({its.id, its.index});
        bool is_to_arm = link.is_to_arm;
        lock.unlock();
        if (is_to_arm) (void)link.arm();
    }
    // Whether the socket's other side is our daemon: only then it is written to.
    bool is_daemons(int fd) const {
        int domain = 0, kind = 0;
        ucred peer{};
        socklen_t length = sizeof domain, more = sizeof peer;
        if (getsockopt(fd, SOL_SOCKET, SO_DOMAIN, &domain, &length) || domain != AF_UNIX) return false;
        if (getsockopt(fd, SOL_SOCKET, SO_TYPE, &kind, &length) || kind != SOCK_SEQPACKET) return false;
        if (getsockopt(fd, SOL_SOCKET, SO_PEERCRED, &peer, &more)) return false;
        return peer.pid == daemon.pid && peer.uid == daemon.uid;
    }
    // Exchanges the descriptor. It is closed unless the answer is a Fault.
    Result<detail::Message> claim(int fd) const {
        if (!link) return ::close(fd), Error::spent(Refusal::NoSuchClient);
        auto got = try_claim(fd);
        if (got || got.error().kind != Error::Kind::Fault) ::close(fd);
        return got;
    }
    Result<detail::Message> try_claim(int fd) const {
        sysmemd_request offer = detail::request(SYSMEMD_OFFER), q = detail::request(SYSMEMD_CLAIM);
        socklen_t length = sizeof q.cookie;
        std::uint32_t number[2] = {};
        if (!is_daemons(fd) || getsockopt(fd, SOL_SOCKET, SO_COOKIE, &q.cookie, &length))
            return detail::refused(Refusal::WrongKind);
        // The new socket comes before the old one can be closed: without room for it the object would be lost.
        if (!detail::has_room(fd) || getrandom(number, sizeof number, 0) != ssize_t(sizeof number))
            return Error::fault(SYSMEM_NO_MEMORY);
        offer.serial = 1;
        offer.size = q.size = number[0];
        offer.left = q.left = number[1] | (number[0] == 0);
        if (::send(fd, &offer, sizeof offer, MSG_NOSIGNAL | MSG_DONTWAIT) != ssize_t(sizeof offer))
            return detail::refused(Refusal::WrongKind);
        for (int tries = 0;; tries++) {
            auto got = detail::ask(link, q, Refusal::NoSuchClient);
            if (!got) return got;
            if (got->reply().detail != SYSMEMD_NOTHING) return got;
            // Each try serves some more of what its giver had sent before.
            if (got->reply().count == 0 || tries == 100) return detail::refused(Refusal::WrongKind);
        }
    }
    template <class T> T known(int fd, Key key, const sysmemd_reply &r) const {
        T end(fd, link->hub, key, r.id);
        std::lock_guard<std::mutex> lock(end.link->mutex);
        end.link->is_allocated = (r.count & 1) != 0; // what an earlier holder may have read
        end.link->is_news = end.link->is_allocated;
        if (end.link->is_news) link->hub->light();
        return end;
    }
    std::shared_ptr<detail::Link> link;
    std::unique_ptr<Inbox> inbox;
    std::string name;
    ucred daemon{};
};

/// The same, by its nature.
using Connection = Client;

/// The daemon at a path.
class Service {
public:
    /// Checks that somebody serves this path.
    static Result<Service> open(std::string path = {},
                                std::chrono::nanoseconds deadline = std::chrono::nanoseconds::max()) {
        auto one = Client::open(path, {}, deadline);
        if (!one) return std::move(one).error();
        return Service(std::move(path), deadline);
    }
    /// Opens a connection.
    Result<Client> join(std::string label = {}) const { return Client::open(path, std::move(label), deadline); }

private:
    Service(std::string path, std::chrono::nanoseconds deadline) : path(std::move(path)), deadline(deadline) {}
    std::string path;
    std::chrono::nanoseconds deadline;
};

} // namespace remote
} // namespace SYSMEM_INLINE
} // namespace sysmem

#endif
