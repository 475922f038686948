// Waits, messages and descriptors on sockets. Nothing here is for callers.
#ifndef SYSMEM_REMOTE_SOCKET_HPP
#define SYSMEM_REMOTE_SOCKET_HPP

#include "envelope.hpp"
#include "words.hpp"

#include <cerrno>
#include <fcntl.h>
#include <poll.h>
#include <sys/un.h>
#include <unistd.h>

namespace sysmem {
inline namespace SYSMEM_INLINE {
namespace remote {
namespace detail {

// 1: ready, 0: the time is over, -1: it can't be.
inline int await(int fd, short events, Clock::time_point until) {
    for (;;) {
        auto left = std::chrono::duration_cast<std::chrono::nanoseconds>(until - Clock::now()).count();
        if (left < 0) left = 0;
        timespec time{time_t(left / 1000000000), long(left % 1000000000)};
        pollfd one{fd, events, 0};
        int n = ppoll(&one, 1, until == Clock::time_point::max() ? nullptr : &time, nullptr);
        if (n >= 0) return n;
        if (errno != EINTR) return -1;
    }
}

// Whether this process can have one more descriptor. The kernel would close what comes without room.
inline bool has_room(int fd) {
    int spare = fcntl(fd, F_DUPFD_CLOEXEC, 0);
    if (spare >= 0) ::close(spare);
    return spare >= 0;
}

// Descriptors that came along, at most as many as a message of the daemon has. Those that nobody takes are closed.
class Fds {
public:
    Fds() = default;
    Fds(Fds &&other) noexcept { *this = std::move(other); }
    Fds &operator=(Fds &&other) noexcept {
        close();
        std::memcpy(all, other.all, sizeof(int) * other.count);
        count = std::exchange(other.count, 0);
        return *this;
    }
    ~Fds() { close(); }
    int take(std::size_t i) { return i < count ? std::exchange(all[i], -1) : -1; }
    void read(const void *fds, std::size_t length) {
        close();
        count = std::min<std::size_t>(128, length / sizeof(int));
        std::memcpy(all, fds, sizeof(int) * count);
    }

private:
    void close() {
        for (std::size_t i = 0; i < count; i++)
            if (all[i] >= 0) ::close(all[i]);
        count = 0;
    }
    int all[128];
    std::size_t count = 0;
};

// A message of the daemon: a reply, and what follows if it is a list.
struct Message {
    Message() = default;
    Message(Message &&other) noexcept { *this = std::move(other); }
    Message &operator=(Message &&other) noexcept {
        length = other.length;
        if (length > 0) std::memcpy(&words, &other.words, std::size_t(length)); // most have no list
        fds = std::move(other.fds);
        sender = other.sender;
        return *this;
    }
    sysmemd_list words;
    ssize_t length = 0;
    Fds fds;
    ucred sender{}; // if the socket has SO_PASSCRED
    const sysmemd_reply &reply() const { return words.reply; }
};

// Reads one message. 1: there is one, 0: the time is over, or with `or_room` the socket may take a message, -1: it ended.
inline int read_message(int fd, Message &m, Clock::time_point until, bool or_room) {
    // Then recvmsg waits, unless the program's event loop set O_NONBLOCK.
    bool is_patient = until == Clock::time_point::max() && !or_room;
    for (int resets = 0;;) {
        int is = is_patient ? 1 : await(fd, or_room ? POLLIN | POLLOUT : POLLIN, until);
        if (is <= 0) return is;
        Envelope<128> came(&m.words, sizeof m.words);
        m.length = recvmsg(fd, &came.head, MSG_CMSG_CLOEXEC | (is_patient ? 0 : MSG_DONTWAIT));
        if (m.length < 0 && errno == EAGAIN && or_room) return 0;
        if (m.length < 0 && errno == EAGAIN) is_patient = false;
        if (m.length < 0 && (errno == EINTR || errno == EAGAIN)) continue;
        if (m.length < 0 && errno == ECONNRESET && resets++ == 0) continue; // what was sent before it follows
        if (m.length <= 0) return -1;
        came.each([&](int type, const unsigned char *what, std::size_t length) {
            if (type == SCM_RIGHTS) m.fds.read(what, length);
            if (type == SCM_CREDENTIALS) std::memcpy(&m.sender, what, sizeof m.sender);
        });
        if (m.length < ssize_t(sizeof m.words.reply)) return -1; // no daemon of this version
        if (came.head.msg_flags & MSG_CTRUNC) {                  // this process has no descriptor left
            m.words.reply.kind = SYSMEMD_FAULT;
            m.words.reply.detail = SYSMEM_NO_MEMORY;
        }
        return 1;
    }
}

// Sends one descriptor over a socket of whatever kind.
inline Result<void> send_fd(int socket, int fd, Clock::time_point until = Clock::time_point::max()) {
    char byte = 's';
    Envelope<1> goes(&byte, 1);
    goes.attach(&fd, 1);
    bool is_patient = until == Clock::time_point::max(); // then sendmsg waits, unless the socket is O_NONBLOCK
    for (;;) {
        if (sendmsg(socket, &goes.head, MSG_NOSIGNAL | (is_patient ? 0 : MSG_DONTWAIT)) == 1) return {};
        int why = errno, is = 1;
        bool is_full = why == EAGAIN && !is_patient && (fcntl(socket, F_GETFL) & O_NONBLOCK) == 0;
        if (is_full) is = await(socket, POLLOUT, until);
        else if (why != EINTR) return ended(Ending::NoReceiver, std::strerror(why));
        if (is == 0) return ended(Ending::TimeOver);
    }
}

// A descriptor that came over a socket; -1 if the socket ended, -2 if the time is over, -3 if there is no room: it stays there.
inline int receive_fd(int socket, Clock::time_point until) {
    for (int bytes = 0;;) {
        if (bytes++ > 0 && Clock::now() >= until) return -2; // also if the peer sends bytes without end
        int is = await(socket, POLLIN, until);
        if (is <= 0) return is == 0 ? -2 : -1;
        if (!has_room(socket)) return -3;
        char byte = 0;
        Envelope<1> came(&byte, 1);
        ssize_t n = recvmsg(socket, &came.head, MSG_CMSG_CLOEXEC | MSG_DONTWAIT);
        if (n < 0 && (errno == EINTR || errno == EAGAIN)) continue;
        if (n <= 0) return -1;
        Fds fds; // more than one would be closed
        came.each([&](int type, const unsigned char *what, std::size_t length) {
            if (type == SCM_RIGHTS) fds.read(what, length);
        });
        int fd = fds.take(0);
        if (fd >= 0) return fd;
    }
}

} // namespace detail
} // namespace remote
} // namespace SYSMEM_INLINE
} // namespace sysmem

#endif
