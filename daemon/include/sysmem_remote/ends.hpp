/// \file
/// Ends of nodes of sysmemd: tokens and collections.
#ifndef SYSMEM_REMOTE_ENDS_HPP
#define SYSMEM_REMOTE_ENDS_HPP

#include "handle.hpp"

namespace sysmem {
inline namespace SYSMEM_INLINE {
namespace remote {

/// What a Token and a Collection have in common: the end of a node.
class End {
public:
    explicit operator bool() const noexcept { return bool(link); } ///< Whether it is not spent.
    Key key() const { return node; }                ///< Its node: also once it is spent.
    CollectionId collection() const { return tree; } ///< Its collection: also once it is spent.
    /// Asks only whether the node has failed.
    Result<void> sync() const { return make(SYSMEM_SYNC); }
    /// Makes the node weak, and each child that it gets from now on.
    Result<void> set_weak() const { return make(SYSMEM_SET_WEAK); }
    /// Lets the node take weak handles; with `children` also its later children, and all below them.
    Result<void> set_weak_ok(bool children = false) const {
        sysmemd_request q = detail::request(SYSMEM_SET_WEAK_OK);
        q.children = children;
        return detail::make(link, q, Refusal::NoSuchEnd);
    }
    /// Makes a tracker that fires once the node is gone.
    Result<Tracker> track_node() const {
        return Tracker::make(link, detail::request(SYSMEM_TRACK_NODE), Refusal::NoSuchEnd);
    }
    /// Sends the end over this socket; waits while that is full, unless it is O_NONBLOCK. If that fails, it stays in this value.
    Result<void> give(int socket) && {
        if (!link) return Error::spent(Refusal::NoSuchEnd);
        auto sent = detail::send_fd(socket, link->fd, link->hub->until());
        if (sent) link.reset();
        return sent;
    }
    /// Spends the end without a failure, whatever the answer.
    Result<void> release() && {
        auto made = make(SYSMEM_RELEASE);
        link.reset();
        return made;
    }
    /// Does what the destructor does: the node fails.
    void close() noexcept { link.reset(); }
    /// Reads what is there, without a wait, and answers whether there is news since the last call: see failure(),
    /// is_allocated() and ending(). Makes no event.
    bool dispatch() const { return link && link->dispatch(); }
    /// Whether it was told that the node's unit is allocated. Makes no event.
    bool is_allocated() const {
        if (!link) return false;
        link->drain();
        std::lock_guard<std::mutex> lock(link->mutex);
        return link->is_allocated;
    }
    /// Why the node failed, if that was told. Makes no event.
    std::optional<Error> failure() const {
        if (!link) return std::nullopt;
        link->drain();
        std::lock_guard<std::mutex> lock(link->mutex);
        if (!link->failure) return std::nullopt;
        return detail::why(*link->failure);
    }
    /// Why the end no longer reaches the daemon.
    Ending ending() const {
        if (!link) return Ending::None;
        link->drain();
        std::lock_guard<std::mutex> lock(link->mutex);
        return link->end;
    }
    /// Waits until the node failed, and tells why; nothing if the time is over first, or the daemon is gone.
    template <class Rep, class Period>
    std::optional<Error> wait_failed(std::chrono::duration<Rep, Period> time) const {
        if (!link) return std::nullopt;
        if (!link->wait(detail::after(time), [&] { return link->failure.has_value(); })) return std::nullopt;
        std::lock_guard<std::mutex> lock(link->mutex);
        return detail::why(*link->failure);
    }
    /// Readable when there is something to read, or the daemon is gone. A call may have read it before: dispatch() before
    /// you wait. Also to be sent to another process.
    int fd() const { return link ? link->fd : -1; }
    /// The descriptor, which the caller has now; the value is spent.
    int detach() && {
        int fd = link ? link->detach() : -1;
        link.reset();
        return fd;
    }

protected:
    End(int fd, const std::shared_ptr<detail::Hub> &hub, Key node, CollectionId tree)
        : link(detail::Link::make(fd, hub, {node, tree, 0, SYSMEMD_COLLECTION})), node(node), tree(tree) {}
    End(End &&) noexcept = default;
    End &operator=(End &&) noexcept = default;
    ~End() = default;
    Result<void> make(std::uint32_t op) const { return detail::make(link, detail::request(op), Refusal::NoSuchEnd); }
    template <class T>
    static Result<T> born(const std::shared_ptr<detail::Link> &link, std::uint32_t op, const std::string &label,
                          Refusal spent) {
        if (link && !detail::has_room(link->fd)) return Error::fault(SYSMEM_NO_MEMORY); // or its node would fail
        auto got = detail::ask(link, detail::request(op, label), spent);
        if (!got) return std::move(got).error();
        const sysmemd_reply &r = got->reply();
        return T(got->fds.take(0), link->hub, {r.slot, r.generation}, r.id);
    }
    friend class Client;
    std::shared_ptr<detail::Link> link;
    Key node;
    CollectionId tree = 0;
};

class Token;

/// A bound end.
class Collection : public End {
public:
    /// Handles, by index, or nothing before the allocation.
    using Taken = std::optional<std::vector<Handle>>;
    /// Makes an attached child token.
    Result<Token> attach_token(std::string label = {}) const;
    /// Sends the node's constraints.
    Result<void> set_constraints(Constraints wanted) const {
        auto made = detail::make(link, request(wanted), Refusal::NoSuchEnd);
        if (!made && made.error().is_bad_call()) return sysmem::detail::outside(wanted);
        return made;
    }
    /// The allocation, or nothing if there is none yet.
    Result<std::optional<Allocation>> check() const {
        auto got = detail::ask(link, detail::request(SYSMEM_CHECK), Refusal::NoSuchEnd);
        if (!got) return std::move(got).error();
        if (got->reply().kind == SYSMEM_PENDING) return std::optional<Allocation>();
        return std::optional<Allocation>(Allocation{got->reply().count, got->reply().size});
    }
    /// Waits until the buffers are allocated or the node failed, and then makes one Check. Nothing if the time is over.
    template <class Rep, class Period>
    Result<std::optional<Allocation>> wait_allocated(std::chrono::duration<Rep, Period> time) const {
        if (!link) return Error::spent(Refusal::NoSuchEnd);
        bool is_so =
            link->wait(detail::after(time), [&] { return link->is_allocated || link->failure.has_value(); });
        if (!is_so) {
            std::lock_guard<std::mutex> lock(link->mutex);
            if (link->end == Ending::None) return std::optional<Allocation>();
        }
        return check();
    }
    /// The nodes that keep this node's allocation waiting. Makes no event.
    Result<std::vector<Node>> waits_for() const {
        return detail::read_nodes(link, SYSMEMD_WAITS_FOR, Refusal::NoSuchEnd);
    }
    /// Opens a handle on each buffer that something strong keeps; nothing if none is allocated yet.
    Result<Taken> take() const {
        auto got = detail::ask(link, detail::request(SYSMEM_TAKE), Refusal::NoSuchEnd);
        if (!got) return std::move(got).error();
        return taken(*got);
    }
    /// Makes a tracker that fires once the unit is allocated and at most `left` buffers hold pages, or the node is
    /// gone before.
    Result<Tracker> track_lifetime(std::uint32_t left) const {
        sysmemd_request q = detail::request(SYSMEM_TRACK_LIFETIME);
        q.left = left;
        return Tracker::make(link, q, Refusal::NoSuchEnd);
    }

private:
    friend class Token;
    friend class Client;
    friend class End;
    using End::End;
    explicit Collection(End &&end) noexcept : End(std::move(end)) {}
    static sysmemd_request request(Constraints wanted) {
        sysmemd_request q = detail::request(SYSMEM_SET_CONSTRAINTS);
        q.camping = wanted.camping;
        q.at_least = wanted.at_least;
        q.size = wanted.size;
        return q;
    }
    Taken taken(detail::Message &got) const {
        const sysmemd_reply &r = got.reply();
        if (r.kind == SYSMEM_PENDING) return Taken();
        std::vector<Handle> handles;
        handles.reserve(64);
        std::size_t n = 0;
        for (std::uint8_t i = 0; i < 64; i++)
            if (r.set >> i & 1) {
                int lease = got.fds.take(n++), file = got.fds.take(n++);
                handles.push_back(Handle(lease, file, link->hub, {r.id, i}, Strength(r.detail), r.size));
            }
        return Taken(std::move(handles));
    }
};

/// An end that is not bound.
class Token : public End {
public:
    /// Makes a child token.
    Result<Token> duplicate(std::string label = {}) const {
        return born<Token>(link, SYSMEM_DUPLICATE, label, Refusal::NoSuchEnd);
    }
    /// From the allocation of the node's unit on, no failure climbs from the node to its parent.
    Result<void> set_dispensable() const { return make(SYSMEM_SET_DISPENSABLE); }
    /// Turns the token into a collection. If that is refused, it stays a token in this value.
    Result<Collection> bind() && {
        auto made = make(SYSMEM_BIND);
        if (!made) return std::move(made).error();
        return Collection(std::move(*this));
    }
    /// bind(), set_constraints() and take() in one message. If the first is refused, it stays a token in this value; if another
    /// is, there are no handles.
    Result<std::pair<Collection, Result<Collection::Taken>>> bind_and_take(Constraints wanted) && {
        if (!link) return Error::spent(Refusal::NoSuchEnd);
        auto got = link->ask(std::array<sysmemd_request, 3>{detail::request(SYSMEM_BIND), Collection::request(wanted),
                                                            detail::request(SYSMEM_TAKE)});
        if (!got) return std::move(got).error();
        if (!detail::is_good((*got)[0].reply())) return detail::why((*got)[0].reply());
        using Both = std::pair<Collection, Result<Collection::Taken>>;
        Collection mine(std::move(*this));
        for (std::size_t i : {1, 2}) {
            if (detail::is_good((*got)[i].reply())) continue;
            Error error = detail::why((*got)[i].reply());
            return Both(std::move(mine), error.is_bad_call() ? sysmem::detail::outside(wanted) : std::move(error));
        }
        auto handles = mine.taken((*got)[2]);
        return Both(std::move(mine), std::move(handles));
    }

private:
    friend class End;
    friend class Client;
    friend class Collection;
    using End::End;
};

inline Result<Token> Collection::attach_token(std::string label) const {
    return born<Token>(link, SYSMEM_ATTACH_TOKEN, label, Refusal::NoSuchEnd);
}

} // namespace remote
} // namespace SYSMEM_INLINE
} // namespace sysmem

#endif
