/// \file
/// Trackers and handles of sysmemd.
#ifndef SYSMEM_REMOTE_HANDLE_HPP
#define SYSMEM_REMOTE_HANDLE_HPP

#include "link.hpp"

#include <sys/mman.h>

namespace sysmem {
inline namespace SYSMEM_INLINE {
namespace remote {

/// A tracker, which fires once. Copies of the value share one socket.
class Tracker {
public:
    /// Its number.
    TrackerId id() const { return number; }
    /// The event at which it fired, or nothing.
    std::optional<Event> poll() const {
        if (!link) return std::nullopt;
        link->drain();
        return event();
    }
    /// Waits so long at most; nothing if the time is over, or the daemon is gone.
    template <class Rep, class Period> std::optional<Event> wait_for(std::chrono::duration<Rep, Period> time) const {
        if (!link) return std::nullopt;
        link->wait(detail::after(time), [&] { return link->fired != 0; });
        return event();
    }
    /// Waits until it fires; nothing if the daemon goes first.
    std::optional<Event> wait() const { return wait_for(std::chrono::hours(1 << 21)); }
    /// Readable when there is something to read, or the daemon is gone. A call may have read it before: poll() before you wait.
    int fd() const { return link ? link->fd : -1; }
    /// Whether its socket ended before it fired.
    bool is_orphan() const {
        if (!link) return true;
        link->drain();
        std::lock_guard<std::mutex> lock(link->mutex);
        return link->end != Ending::None && link->fired == 0;
    }

private:
    friend class End;
    friend class Collection;
    friend class Handle;
    friend class Client;
    explicit Tracker(std::shared_ptr<detail::Link> link) : link(std::move(link)), number(this->link->subject.id) {}
    std::optional<Event> event() const {
        std::lock_guard<std::mutex> lock(link->mutex);
        return link->fired ? std::optional<Event>(link->fired) : std::nullopt;
    }
    static Result<Tracker> make(const std::shared_ptr<detail::Link> &of, const sysmemd_request &q, Refusal spent) {
        auto got = detail::ask(of, q, spent);
        if (!got) return std::move(got).error();
        detail::Link::Subject subject{{}, got->reply().id, 0, SYSMEMD_TRACKER};
        return Tracker(detail::Link::make(got->fds.take(0), of->hub, subject));
    }
    std::shared_ptr<detail::Link> link;
    TrackerId number;
};

/// A handle, which keeps a buffer in use. The destructor drops it.
class Handle {
public:
    Handle(Handle &&) noexcept = default;        ///< Takes the other's handle, and leaves it spent.
    Handle &operator=(Handle &&other) noexcept { ///< Drops the handle that this value had, and takes the other's.
        if (this == &other) return *this;
        drop();
        link = std::move(other.link);
        memory = std::move(other.memory);
        its = other.its, size = other.size, how = other.how;
        return *this;
    }
    ~Handle() { drop(); }                                          ///< Drops the handle.
    explicit operator bool() const noexcept { return bool(link); } ///< Whether it is not spent.
    Buffer buffer() const { return its; }                          ///< Its buffer: also once it is spent.
    Strength strength() const { return how; }                      ///< Whether it is strong: also once it is spent.
    /// Does what the destructor does.
    void drop() noexcept {
        memory.reset(); // first the mapping: who hears that the buffer is idle may write
        link.reset();
    }
    /// Opens one more handle of this buffer and strength.
    Result<Handle> duplicate() const {
        auto got = detail::ask(link, detail::request(SYSMEM_DUP_HANDLE), Refusal::NoSuchHandle);
        if (!got) return std::move(got).error();
        int lease = got->fds.take(0), file = got->fds.take(1);
        return Handle(lease, file, link->hub, its, how, size);
    }
    /// Sends the handle over this socket, as `give` of an end does. If that fails, it stays in this value.
    Result<void> give(int socket) && {
        if (!link) return Error::spent(Refusal::NoSuchHandle);
        auto sent = detail::send_fd(socket, link->fd, link->hub->until());
        if (sent) drop();
        return sent;
    }
    /// Makes a tracker that fires once no strong handle and no strong node keeps the buffer. Refused unless this handle
    /// is weak (in sysmem.hpp: unless the client has a weak one).
    Result<Tracker> track_weak() const {
        return Tracker::make(link, detail::request(SYSMEM_TRACK_WEAK), Refusal::NoSuchHandle);
    }
    /// How many handles of this buffer are open, of whatever process, this one included.
    Result<std::uint32_t> open_handles() const {
        auto got = detail::ask(link, detail::request(SYSMEMD_OPEN_HANDLES), Refusal::NoSuchHandle);
        if (!got) return std::move(got).error();
        return got->reply().count;
    }
    /// is_idle() becomes true, and Client::pending() names the buffer, once at most so many handles of this buffer are open.
    Result<void> on_idle(std::uint32_t most) const {
        if (!link) return Error::spent(Refusal::NoSuchHandle);
        {
            std::lock_guard<std::mutex> lock(link->mutex);
            link->asked = most;
            link->is_idle = false;
            link->is_told_idle = true;
        }
        return link->arm();
    }
    /// Whether this was told since the last on_idle.
    bool is_idle() const {
        if (!link) return false;
        link->drain();
        std::unique_lock<std::mutex> lock(link->mutex);
        if (!link->is_to_arm || link->is_idle) return link->is_idle;
        lock.unlock(); // another wait on this handle took its place
        (void)link->arm();
        lock.lock();
        return link->is_idle;
    }
    /// Waits until at most so many handles of this buffer are open; false if the time is over first. Several threads may wait
    /// on one handle.
    template <class Rep, class Period>
    Result<bool> wait_idle(std::uint32_t most, std::chrono::duration<Rep, Period> time) const {
        if (!link) return Error::spent(Refusal::NoSuchHandle);
        auto until = detail::after(time);
        detail::Link &l = *link;
        detail::Link::Idle mine{most, false, nullptr};
        struct Leaves {
            detail::Link &l;
            detail::Link::Idle &mine;
            ~Leaves() {
                std::lock_guard<std::mutex> lock(l.mutex);
                detail::Link::Idle **at = &l.idles;
                while (*at != &mine) at = &(*at)->next;
                *at = mine.next;
            }
        };
        {
            std::lock_guard<std::mutex> lock(l.mutex);
            mine.next = std::exchange(l.idles, &mine);
        }
        Leaves leaves{l, mine};
        for (;;) {
            auto made = l.arm();
            if (!made) return std::move(made).error();
            if (!l.wait(until, [&] { return mine.is_done || l.is_to_arm; })) return false;
            std::lock_guard<std::mutex> lock(l.mutex);
            if (mine.is_done) return true;
        }
    }
    /// The buffer's bytes, mapped at the first call, until the handle is dropped; empty if they can't be mapped.
    Bytes bytes() const {
        int file = memory_fd();
        if (file < 0) return {};
        std::lock_guard<std::mutex> lock(link->mutex);
        Memory &m = *memory;
        if (!m.at) {
            void *at = mmap(nullptr, size, PROT_READ | PROT_WRITE, MAP_SHARED, file, 0);
            if (at == MAP_FAILED) return {};
            m.at = static_cast<std::byte *>(at);
            m.length = size;
        }
        return {m.at, m.length};
    }
    /// The buffer's memfd, which this value closes; -1 if there is none.
    int memory_fd() const {
        if (!link) return -1;
        {
            std::lock_guard<std::mutex> lock(link->mutex);
            if (memory->file >= 0) return memory->file;
        }
        auto got = detail::ask(link, detail::request(SYSMEMD_MEMORY), Refusal::NoSuchHandle);
        if (!got) return -1;
        std::lock_guard<std::mutex> lock(link->mutex);
        if (memory->file < 0) memory->file = got->fds.take(0);
        return memory->file;
    }
    /// Readable when there is something to read, or the daemon is gone. A call may have read it before: is_idle() before you
    /// wait. Also to be sent to another process.
    int fd() const { return link ? link->fd : -1; }
    /// The descriptor, which the caller has now; the value is spent.
    int detach() && {
        int fd = link ? link->detach() : -1;
        drop();
        return fd;
    }

private:
    friend class Collection;
    friend class Client;
    struct Memory {
        int file = -1;
        std::byte *at = nullptr;
        std::size_t length = 0;
        ~Memory() {
            if (at) munmap(at, length);
            if (file >= 0) ::close(file);
        }
    };
    Handle(int lease, int file, const std::shared_ptr<detail::Hub> &hub, Buffer its, Strength how, std::uint32_t size)
        : link(detail::Link::make(lease, hub, {{}, its.collection, its.index, SYSMEMD_LEASE})),
          memory(std::make_unique<Memory>()), its(its), how(how), size(size) {
        memory->file = file;
    }
    std::shared_ptr<detail::Link> link;
    std::unique_ptr<Memory> memory;
    Buffer its;
    Strength how = Strength::Strong;
    std::uint32_t size = 0;
};

} // namespace remote
} // namespace SYSMEM_INLINE
} // namespace sysmem

#endif
