// One socket of the daemon as its calls and events, and what a program's event loop is told of all sockets of a
// connection. Nothing here is for callers.
#ifndef SYSMEM_REMOTE_LINK_HPP
#define SYSMEM_REMOTE_LINK_HPP

#include "socket.hpp"

#include <algorithm>
#include <array>
#include <atomic>
#include <condition_variable>
#include <map>
#include <memory>
#include <mutex>
#include <sys/epoll.h>
#include <sys/eventfd.h>
#include <sys/random.h>

namespace sysmem {
inline namespace SYSMEM_INLINE {
namespace remote {
namespace detail {

class Link;

// What the values of one connection have in common: the deadline of their calls, and the descriptor that is readable as
// long as one of them has something to tell. It is an epoll of their sockets, and of an eventfd for what calls read.
class Hub {
public:
    explicit Hub(Clock::duration deadline) : deadline(deadline) {}
    Hub(const Hub &) = delete;
    Hub &operator=(const Hub &) = delete;
    ~Hub() {
        if (epoll >= 0) ::close(epoll);
        if (news >= 0) ::close(news);
    }
    Clock::time_point until() const {
        return deadline == Clock::duration::max() ? Clock::time_point::max() : Clock::now() + deadline;
    }
    // A link is watched from its first moment to its last.
    void add(Link &link);
    void remove(Link &link) noexcept;
    void unwatch(Link &link) noexcept;
    int open();
    void light() {
        if (news >= 0) eventfd_write(news, 1);
    }
    // Reads what is there on all sockets, and answers the links of which something is untold.
    std::vector<std::shared_ptr<Link>> collect();

    const Clock::duration deadline;

private:
    bool watch(Link &link);
    std::mutex mutex;
    int epoll = -1;
    std::atomic<int> news{-1};
    std::map<Link *, std::weak_ptr<Link>> links;
};

// One socket. Of several threads one reads, and tells the others.
class Link : public std::enable_shared_from_this<Link> {
public:
    // What it is, for those who are told of many.
    struct Subject {
        Key node;
        std::uint64_t id = 0; // of the collection, or the tracker
        std::uint8_t index = 0;
        std::uint32_t is = SYSMEMD_NOTHING;
    };
    static std::shared_ptr<Link> make(int fd, const std::shared_ptr<Hub> &hub, Subject subject) {
        auto made = std::make_shared<Link>(fd, hub, subject);
        hub->add(*made);
        return made;
    }
    Link(int fd, std::shared_ptr<Hub> hub, Subject subject) : subject(subject), hub(std::move(hub)), fd(fd) {
        std::uint32_t first = 0; // not a number that an earlier holder of this socket may have used just now
        (void)!getrandom(&first, sizeof first, GRND_NONBLOCK);
        serial = first;
        armed = std::uint64_t(first) << 32;
    }
    Link(const Link &) = delete;
    Link &operator=(const Link &) = delete;
    ~Link() {
        hub->remove(*this);
        if (fd >= 0) ::close(fd);
    }

    // Sends a request, and waits for its reply. A list that comes is copied there.
    Result<Message> ask(sysmemd_request q) {
        Slot slot;
        if (auto none = ask(&q, &slot, 1, [] { return true; })) return std::move(*none);
        return std::move(slot.got);
    }
    // Sends several in one message, and waits for all replies.
    template <std::size_t N> Result<std::array<Message, N>> ask(std::array<sysmemd_request, N> all) {
        Slot slots[N];
        if (auto none = ask(all.data(), slots, N, [] { return true; })) return std::move(*none);
        std::array<Message, N> got;
        for (std::size_t i = 0; i < N; i++) got[i] = std::move(slots[i].got);
        return got;
    }
    // Waits until the events that came make this true; false if the time is over first, or the socket ended.
    template <class F> bool wait(Clock::time_point until, const F &is_so) {
        std::unique_lock<std::mutex> lock(mutex);
        return read_until(lock, until, is_so);
    }
    // Reads what is there, and answers whether something is untold since the last call.
    bool dispatch() {
        drain();
        std::lock_guard<std::mutex> lock(mutex);
        return std::exchange(is_untold, false);
    }
    // The same for the hub, which knows whether it is readable. A socket that ended would be readable for ever.
    bool tell() {
        if (is_readable.exchange(false)) drain();
        std::unique_lock<std::mutex> lock(mutex);
        bool is_over = end != Ending::None, is_any = std::exchange(is_news, false);
        lock.unlock();
        if (is_over) hub->unwatch(*this);
        return is_any;
    }
    void drain() {
        std::unique_lock<std::mutex> lock(mutex);
        read_until(lock, Clock::now(), [] { return false; });
    }
    int detach() {
        hub->remove(*this);
        return std::exchange(fd, -1);
    }

    // One thread that waits until few handles of a buffer are open.
    struct Idle {
        std::uint32_t most = 0;
        bool is_done = false;
        Idle *next = nullptr;
    };
    // Asks the daemon to tell of the first of those who wait. A lease has one such wait there.
    Result<void> arm() {
        sysmemd_request q = request(SYSMEMD_ON_IDLE);
        Slot slot;
        bool is_any = false;
        auto none = ask(&q, &slot, 1, [&] {
            is_to_arm = false;
            is_any = asked && !is_idle;
            q.left = is_any ? *asked : 0;
            for (Idle *i = idles; i; i = i->next)
                if (!i->is_done) q.left = std::max(q.left, i->most), is_any = true;
            if (is_any) q.cookie = ++armed;
            return is_any;
        });
        if (none) return std::move(*none);
        if (is_any && !is_good(slot.got.reply())) return why(slot.got.reply());
        return {};
    }

    const Subject subject;
    const std::shared_ptr<Hub> hub;
    int fd;
    std::atomic<bool> is_readable{false}; // as the hub saw it
    // What events told; under the mutex.
    std::mutex mutex;
    bool is_allocated = false, is_idle = false;
    bool is_told_allocated = false, is_told_failed = false, is_told_idle = false, is_told_fired = false;
    bool is_untold = false, is_news = false; // for dispatch(), and for the hub
    bool is_to_arm = false;
    std::uint64_t fired = 0; // the event
    std::optional<std::uint32_t> asked; // by on_idle
    Idle *idles = nullptr;
    Ending end = Ending::None;
    std::optional<sysmemd_reply> failure;

private:
    struct Slot {
        std::uint32_t serial = 0;
        bool is_done = false;
        Message got;
        Slot *next = nullptr;
    };
    // An error if not all came. Under the mutex under which they are sent, prepare() may change them, and says whether they are
    // still to be sent: so its numbers come to the daemon in their order.
    template <class F> std::optional<Error> ask(sysmemd_request *all, Slot *its, std::size_t count, const F &prepare) {
        auto until = hub->until();
        std::unique_lock<std::mutex> lock(mutex);
        for (bool is_sent = false; !is_sent;) {
            if (!prepare()) return std::nullopt;
            if (end != Ending::None) return ended(end);
            for (std::size_t i = 0; i < count; i++) {
                while (++serial == 0) {}
                all[i].serial = its[i].serial = serial;
            }
            int error = ::send(fd, all, count * sizeof *all, MSG_NOSIGNAL | MSG_DONTWAIT) < 0 ? errno : 0;
            if (error == ENOBUFS || error == ENOMEM) return Error::fault(SYSMEM_NO_MEMORY);
            is_sent = error != EINTR && error != EAGAIN; // if the daemon is gone, what came before that is read
            if (is_sent) continue;
            if (Clock::now() >= until) return ended(Ending::TimeOver);
            if (error == EAGAIN) read_one(lock, until, true); // the daemon takes no more from who leaves replies unread
        }
        for (std::size_t i = 0; i < count; i++) its[i].next = std::exchange(slots, &its[i]);
        auto are_done = [&] { return std::all_of(its, its + count, [](const Slot &s) { return s.is_done; }); };
        read_until(lock, until, are_done);
        for (Slot **at = &slots; *at;)
            if (std::any_of(its, its + count, [&](Slot &s) { return &s == *at; })) *at = (*at)->next;
            else at = &(*at)->next;
        if (!are_done()) return ended(end == Ending::None ? Ending::TimeOver : end);
        return std::nullopt;
    }
    template <class F>
    bool read_until(std::unique_lock<std::mutex> &lock, Clock::time_point until, const F &is_so) {
        for (;;) {
            if (is_so()) return true;
            if (end != Ending::None) return false;
            if (!read_one(lock, until, false)) return is_so();
        }
    }
    // Reads one message, or waits until another thread has read one; false if the time is over. With `or_room` it also comes
    // back when the socket may take a message.
    bool read_one(std::unique_lock<std::mutex> &lock, Clock::time_point until, bool or_room) {
        if (is_reading) {
            if (or_room) until = std::min(until, Clock::now() + std::chrono::milliseconds(10)); // who reads tells of no room
            if (until != Clock::time_point::max()) return changed.wait_until(lock, until) != std::cv_status::timeout;
            changed.wait(lock);
            return true;
        }
        is_reading = true;
        lock.unlock();
        Message m;
        int is = read_message(fd, m, until, or_room);
        lock.lock();
        is_reading = false;
        if (is > 0) take(m);
        if (is < 0) end_by(Ending::Gone);
        changed.notify_all();
        return is != 0;
    }
    void take(Message &m) {
        const sysmemd_reply &r = m.reply();
        if (r.serial == 0) return take_event(r);
        for (Slot *s = slots; s; s = s->next)
            if (s->serial == r.serial) {
                s->got = std::move(m);
                s->is_done = true;
                return;
            }
    }
    void take_event(const sysmemd_reply &r) {
        if (r.kind == SYSMEMD_ALLOCATED) is_allocated = true;
        if (r.kind == SYSMEMD_FAILED) failure = r;
        if (r.kind == SYSMEMD_FIRED) fired = r.set;
        if (r.kind == SYSMEMD_ENDING) return end_by(Ending(r.detail));
        if (r.kind == SYSMEMD_IDLE && !take_idle(r)) return;
        note();
    }
    void end_by(Ending why) {
        end = why;
        note();
    }
    void note() {
        is_untold = is_news = true;
        hub->light();
    }
    // False if it is of an earlier wait. Those who still wait arm again.
    bool take_idle(const sysmemd_reply &r) {
        if (r.set != armed) return false;
        for (Idle *i = idles; i; i = i->next) {
            if (r.count <= i->most) i->is_done = true;
            is_to_arm |= !i->is_done;
        }
        if (!asked || is_idle) return true;
        is_idle = r.count <= *asked;
        is_told_idle = !is_idle;
        is_to_arm |= !is_idle;
        return true;
    }
    std::condition_variable changed;
    bool is_reading = false;
    std::uint32_t serial = 0;
    std::uint64_t armed = 0; // the number of the last ON_IDLE
    Slot *slots = nullptr;
};

inline bool Hub::watch(Link &link) {
    epoll_event e{};
    e.events = EPOLLIN;
    e.data.ptr = &link;
    return epoll_ctl(epoll, EPOLL_CTL_ADD, link.fd, &e) == 0;
}
inline void Hub::add(Link &link) {
    std::lock_guard<std::mutex> lock(mutex);
    links.emplace(&link, link.weak_from_this());
    if (epoll >= 0) watch(link);
}
inline void Hub::remove(Link &link) noexcept {
    std::lock_guard<std::mutex> lock(mutex);
    if (links.erase(&link) > 0 && epoll >= 0) epoll_ctl(epoll, EPOLL_CTL_DEL, link.fd, nullptr);
}
inline void Hub::unwatch(Link &link) noexcept {
    std::lock_guard<std::mutex> lock(mutex);
    if (epoll >= 0) epoll_ctl(epoll, EPOLL_CTL_DEL, link.fd, nullptr);
}
inline int Hub::open() {
    std::lock_guard<std::mutex> lock(mutex);
    if (epoll >= 0) return epoll;
    int made = epoll_create1(EPOLL_CLOEXEC), word = eventfd(1, EFD_CLOEXEC | EFD_NONBLOCK); // lit: pending() looks at all
    epoll_event e{};
    e.events = EPOLLIN;
    if (made < 0 || word < 0 || epoll_ctl(made, EPOLL_CTL_ADD, word, &e)) {
        if (made >= 0) ::close(made);
        if (word >= 0) ::close(word);
        return -1;
    }
    epoll = made;
    news = word;
    for (auto &one : links) watch(*one.first);
    return epoll;
}
inline std::vector<std::shared_ptr<Link>> Hub::collect() {
    std::vector<std::shared_ptr<Link>> all;
    {
        std::lock_guard<std::mutex> lock(mutex);
        if (epoll < 0) return all;
        eventfd_t word;
        eventfd_read(news, &word); // before the look, so that what comes meanwhile lights it again
        std::vector<epoll_event> some(links.size() + 1);
        all.reserve(links.size()); // so that no link ends here, under the mutex
        int n = epoll_wait(epoll, some.data(), int(some.size()), 0);
        for (int i = 0; i < n; i++)
            if (some[std::size_t(i)].data.ptr) static_cast<Link *>(some[std::size_t(i)].data.ptr)->is_readable = true;
        for (auto &one : links)
            if (auto link = one.second.lock()) all.push_back(std::move(link));
    }
    std::size_t kept = 0;
    for (auto &link : all)
        if (link->tell()) std::swap(all[kept++], link);
    all.resize(kept);
    return all;
}

inline Result<Message> ask(const std::shared_ptr<Link> &link, const sysmemd_request &q, Refusal if_spent) {
    if (!link) return Error::spent(if_spent);
    auto got = link->ask(q);
    if (got && !is_good(got->reply())) return why(got->reply());
    return got;
}
inline Result<void> make(const std::shared_ptr<Link> &link, const sysmemd_request &q, Refusal if_spent) {
    auto got = ask(link, q, if_spent);
    if (!got) return std::move(got).error();
    return {};
}
// The nodes of a list, message by message. If it changed meanwhile, it begins anew.
inline Result<std::vector<Node>> read_nodes(const std::shared_ptr<Link> &link, std::uint32_t op, Refusal if_spent) {
    std::vector<Node> all;
    std::uint64_t event = 0;
    for (int changes = 0;;) {
        sysmemd_request q = request(op);
        q.left = std::uint32_t(all.size());
        auto got = ask(link, q, if_spent);
        if (!got) return std::move(got).error();
        const sysmemd_list &m = got->words;
        if (!all.empty() && m.reply.event != event && changes++ < 100) {
            all.clear();
            continue;
        }
        event = m.reply.event;
        for (std::uint32_t i = 0; i < std::min<std::uint32_t>(m.reply.count, SYSMEMD_NODES_AT_ONCE); i++) {
            const sysmemd_node &n = m.nodes[i];
            Node one{{n.node.key.slot, n.node.key.generation}, label_of(n.label), n.pid, n.uid,
                     (n.node.flags & SYSMEM_NODE_BOUND) != 0, n.node.collection, n.node.flags, {}};
            if (n.node.flags & SYSMEM_NODE_FAILED)
                one.fault.emplace(Cause(n.node.cause), Key{n.node.origin.slot, n.node.origin.generation});
            all.push_back(std::move(one));
        }
        if (all.size() >= m.reply.set || m.reply.count == 0) return all;
    }
}

} // namespace detail
} // namespace remote
} // namespace SYSMEM_INLINE
} // namespace sysmem

#endif
