// One message for sendmsg and recvmsg, with what comes along. Nothing here is for callers.
#ifndef SYSMEM_REMOTE_ENVELOPE_HPP
#define SYSMEM_REMOTE_ENVELOPE_HPP

#include "sysmem/words.hpp"

#include <cstring>
#include <sys/socket.h>

namespace sysmem {
inline namespace SYSMEM_INLINE {
namespace remote {
namespace detail {

// With room for so many descriptors, and for the sender's credentials.
template <std::size_t Most> struct Envelope {
    Envelope(const void *bytes, std::size_t length) : part{const_cast<void *>(bytes), length} {
        head.msg_iov = &part;
        head.msg_iovlen = 1;
        head.msg_control = space;
        head.msg_controllen = sizeof space;
    }
    Envelope(const Envelope &) = delete;
    Envelope &operator=(const Envelope &) = delete;
    // To be sent with these.
    void attach(const int *fds, std::size_t count) {
        head.msg_controllen = count > 0 ? CMSG_SPACE(sizeof(int) * count) : 0;
        cmsghdr *c = CMSG_FIRSTHDR(&head);
        if (!c) return;
        c->cmsg_level = SOL_SOCKET;
        c->cmsg_type = SCM_RIGHTS;
        c->cmsg_len = CMSG_LEN(sizeof(int) * count);
        std::memcpy(CMSG_DATA(c), fds, sizeof(int) * count);
    }
    // Calls f(type, bytes, length) for each thing that came along.
    template <class F> void each(const F &f) {
        for (cmsghdr *c = CMSG_FIRSTHDR(&head); c; c = CMSG_NXTHDR(&head, c))
            if (c->cmsg_level == SOL_SOCKET) f(c->cmsg_type, CMSG_DATA(c), c->cmsg_len - CMSG_LEN(0));
    }
    iovec part;
    alignas(cmsghdr) char space[(Most > 0 ? CMSG_SPACE(sizeof(int) * Most) : 0) + CMSG_SPACE(sizeof(ucred))];
    msghdr head{};
};

} // namespace detail
} // namespace remote
} // namespace SYSMEM_INLINE
} // namespace sysmem

#endif
