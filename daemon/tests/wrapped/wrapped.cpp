// What the daemon's calls of the core and of the system answer, if the test asks for another answer. Each send must be one
// that neither waits nor raises a signal.
//
//   SYSMEMD_LATE=N      the core is refused the memory for each Close, Release and DropHandle N times
//   SYSMEMD_FULL=N      each Nth message finds its socket full
//   SYSMEMD_OLD=1       there is no SO_PASSRIGHTS
//   SYSMEMD_MEMORY=N    fallocate has memory N times
//   SYSMEMD_GATE=FILE   it waits until there is this file
//   SYSMEMD_ACCEPT=N    accept4 fails by error N until there is the file $SYSMEMD_GATE
#include "sysmem.h"

#include <cerrno>
#include <cstdio>
#include <cstdlib>
#include <sys/socket.h>
#include <sys/types.h>
#include <unistd.h>

extern "C" {
uint32_t __real_sysmem_step(sysmem_core *, uint64_t, const sysmem_call *, sysmem_reply *);
ssize_t __real_send(int, const void *, size_t, int);
ssize_t __real_sendmsg(int, const msghdr *, int);
int __real_setsockopt(int, int, int, const void *, socklen_t);
int __real_fallocate(int, int, off_t, off_t);
int __real_accept4(int, sockaddr *, socklen_t *, int);
int __wrap_accept4(int, sockaddr *, socklen_t *, int);
uint32_t __wrap_sysmem_step(sysmem_core *, uint64_t, const sysmem_call *, sysmem_reply *);
ssize_t __wrap_send(int, const void *, size_t, int);
ssize_t __wrap_sendmsg(int, const msghdr *, int);
int __wrap_setsockopt(int, int, int, const void *, socklen_t);
int __wrap_fallocate(int, int, off_t, off_t);
}

static long number(const char *name) {
    const char *text = std::getenv(name);
    return text ? std::atol(text) : 0;
}

uint32_t __wrap_sysmem_step(sysmem_core *core, uint64_t client, const sysmem_call *call, sysmem_reply *reply) {
    static long tries = 0;
    bool is_last = call->kind == SYSMEM_CLOSE || call->kind == SYSMEM_RELEASE || call->kind == SYSMEM_DROP_HANDLE;
    if (is_last && number("SYSMEMD_LATE") && tries++ % (number("SYSMEMD_LATE") + 1) != number("SYSMEMD_LATE"))
        return SYSMEM_NO_MEMORY;
    return __real_sysmem_step(core, client, call, reply);
}

static bool is_full(int flags) {
    static long messages = 0;
    if ((flags & (MSG_DONTWAIT | MSG_NOSIGNAL)) != (MSG_DONTWAIT | MSG_NOSIGNAL)) {
        std::fputs("sysmemd: a send that may wait\n", stderr);
        std::abort();
    }
    if (!number("SYSMEMD_FULL") || ++messages % number("SYSMEMD_FULL") != 0) return false;
    errno = EAGAIN;
    return true;
}
ssize_t __wrap_send(int fd, const void *bytes, size_t length, int flags) {
    return is_full(flags) ? -1 : __real_send(fd, bytes, length, flags);
}
ssize_t __wrap_sendmsg(int fd, const msghdr *message, int flags) {
    return is_full(flags) ? -1 : __real_sendmsg(fd, message, flags);
}

int __wrap_setsockopt(int fd, int level, int name, const void *value, socklen_t length) {
    if (number("SYSMEMD_OLD") && level == SOL_SOCKET && name == 83) return errno = ENOPROTOOPT, -1;
    return __real_setsockopt(fd, level, name, value, length);
}

static bool is_gate_shut() { return std::getenv("SYSMEMD_GATE") && access(std::getenv("SYSMEMD_GATE"), F_OK) != 0; }

int __wrap_accept4(int fd, sockaddr *to, socklen_t *length, int flags) {
    if (number("SYSMEMD_ACCEPT") && is_gate_shut()) return errno = int(number("SYSMEMD_ACCEPT")), -1;
    return __real_accept4(fd, to, length, flags);
}

int __wrap_fallocate(int fd, int mode, off_t from, off_t length) {
    while (is_gate_shut()) usleep(1000);
    static long times = 0;
    if (std::getenv("SYSMEMD_MEMORY") && times++ >= number("SYSMEMD_MEMORY")) return errno = ENOSPC, -1;
    return __real_fallocate(fd, mode, from, length);
}
