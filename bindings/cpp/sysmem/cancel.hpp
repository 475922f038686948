/// \file
/// How a wait is ended from another thread.
#ifndef SYSMEM_CANCEL_HPP
#define SYSMEM_CANCEL_HPP

#include "words.hpp"

#include <atomic>
#include <chrono>
#include <condition_variable>
#include <mutex>
#if __cplusplus >= 202002L && __has_include(<stop_token>)
#include <stop_token>
#endif
#ifdef __linux__
#include <sys/eventfd.h>
#include <unistd.h>
#endif

namespace sysmem {
inline namespace SYSMEM_INLINE {

namespace detail {
template <class... Stop> class Ends;

/// What threads wait for. A thread that waits has a service's mutex, and gives it up while it sleeps, when it holds the
/// bell's own. So that who wakes it need not have the service's mutex, nor be without it.
class Bell {
public:
    /// Wakes all who wait. What they look at is set by then.
    void ring() noexcept {
        { std::lock_guard<std::mutex> lock(mutex); } // they sleep by now, or have not looked yet
        rung.notify_all();
    }
    /// Wakes all who wait. Called under the service's mutex.
    void tell() noexcept {
        if (waiting > 0) ring();
    }
    /// Sleeps until it rings, or the time is over: then false. True at once if this is over.
    bool wait(std::unique_lock<std::mutex> &service, std::chrono::steady_clock::time_point until,
              const std::atomic<bool> &is_over) {
        struct Sleep {
            Bell &bell;
            std::unique_lock<std::mutex> &service, own;
            ~Sleep() {
                if (own) own.unlock();
                service.lock();
                bell.waiting--;
            }
        };
        std::unique_lock<std::mutex> own(mutex);
        if (is_over) return true;
        waiting++;
        service.unlock();
        Sleep sleep{*this, service, std::move(own)};
        return rung.wait_until(sleep.own, until) == std::cv_status::no_timeout;
    }

private:
    std::mutex mutex;
    std::condition_variable rung;
    std::size_t waiting = 0; // the service's mutex guards it
};

/// A wait that may be ended. It lies on the stack of the thread that waits.
struct Ending {
    explicit Ending(Bell &bell) noexcept : bell(&bell) {}
    Ending(const Ending &) = delete;
    Ending &operator=(const Ending &) = delete;
    void end() noexcept {
        is_over = true;
        bell->ring();
    }
    Bell *bell;
    Ending *next = nullptr;
    std::atomic<bool> is_over{false};
};
} // namespace detail

/// Ends waits. Copies are the same, and any thread may use them.
class Cancel {
public:
    /// One that has not ended anything.
    Cancel() : shared(std::make_shared<Shared>()) {}
    /// The same as the other.
    Cancel(const Cancel &) = default;
    /// From now on the same as the other.
    Cancel &operator=(const Cancel &) = default;
    /// Ends each wait that was given this value, and each that will be: it answers nothing, and that it
    /// `is_cancelled`. Takes no service's mutex: a recorder may call it.
    void cancel() const {
        std::lock_guard<std::mutex> lock(shared->mutex);
        shared->is_over = true;
        for (detail::Ending *e = shared->waits; e; e = e->next) e->end();
#ifdef __linux__
        if (shared->fd >= 0) eventfd_write(shared->fd, 1);
#endif
    }
    /// Whether cancel() was called.
    bool is_cancelled() const noexcept { return shared->is_over; }
#ifdef __linux__
    /// A file descriptor for poll() or epoll, which becomes readable when cancel() is called, and stays so; -1 if the
    /// system gives none. The last copy closes it.
    int fd() const {
        std::lock_guard<std::mutex> lock(shared->mutex);
        if (shared->fd < 0) shared->fd = eventfd(shared->is_over ? 1 : 0, EFD_CLOEXEC | EFD_NONBLOCK);
        return shared->fd;
    }
#endif

private:
    template <class... Stop> friend class detail::Ends;
    struct Shared {
#ifdef __linux__
        ~Shared() {
            if (fd >= 0) ::close(fd);
        }
        int fd = -1; // an eventfd, from the first call of fd() on
#endif
        std::mutex mutex;
        std::atomic<bool> is_over{false};
        detail::Ending *waits = nullptr;
    };
    std::shared_ptr<Shared> shared;
};

namespace detail {

/// What may end a wait: nothing, a Cancel, or a std::stop_token. It is made before a service's mutex is locked, and
/// goes after that is released.
template <> class Ends<> : public Ending {
public:
    using Ending::Ending;
};

template <> class Ends<Cancel> : public Ending {
public:
    Ends(Bell &bell, const Cancel &by) : Ending(bell), shared(by.shared) {
        std::lock_guard<std::mutex> lock(shared->mutex);
        is_over = shared->is_over.load();
        next = std::exchange(shared->waits, this);
    }
    ~Ends() {
        std::lock_guard<std::mutex> lock(shared->mutex);
        Ending **at = &shared->waits;
        while (*at != this) at = &(*at)->next;
        *at = next;
    }

private:
    std::shared_ptr<Cancel::Shared> shared;
};

#ifdef __cpp_lib_jthread
template <> class Ends<std::stop_token> : public Ending {
public:
    Ends(Bell &bell, const std::stop_token &by) : Ending(bell), callback(by, End{this}) {}

private:
    struct End {
        Ending *wait;
        void operator()() const noexcept { wait->end(); }
    };
    std::stop_callback<End> callback;
};
#endif

} // namespace detail
} // namespace SYSMEM_INLINE
} // namespace sysmem

#endif
