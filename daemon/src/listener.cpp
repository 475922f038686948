#include "listener.hpp"

#include <cerrno>
#include <cstddef>
#include <cstdio>
#include <cstdlib>
#include <cstring>
#include <fcntl.h>
#include <sys/file.h>
#include <sys/socket.h>
#include <sys/stat.h>
#include <sys/un.h>
#include <unistd.h>

namespace sysmemd {

[[noreturn]] static void fail(const std::string &what, const char *why = std::strerror(errno)) {
    std::fprintf(stderr, "sysmemd: %s: %s\n", what.c_str(), why);
    std::exit(1);
}

// The socket at the path, and its lock, which another daemon would have.
static int listen_at(const std::string &path, mode_t mode) {
    sockaddr_un name{};
    name.sun_family = AF_UNIX;
    if (path.size() >= sizeof name.sun_path) {
        errno = ENAMETOOLONG;
        fail(path);
    }
    std::memcpy(name.sun_path, path.c_str(), path.size());
    int lock = open((path + ".lock").c_str(), O_RDWR | O_CREAT | O_CLOEXEC | O_NOFOLLOW, 0600);
    if (lock < 0) fail(path + ".lock");
    if (flock(lock, LOCK_EX | LOCK_NB)) fail(path, errno == EWOULDBLOCK ? "another daemon serves it" : std::strerror(errno));
    struct stat is;
    if (lstat(path.c_str(), &is) == 0 && !S_ISSOCK(is.st_mode)) {
        errno = EEXIST;
        fail(path);
    }
    unlink(path.c_str());
    int fd = socket(AF_UNIX, SOCK_SEQPACKET | SOCK_CLOEXEC | SOCK_NONBLOCK, 0);
    mode_t before = umask(0777 & ~mode); // so that the socket never has other rights
    if (fd < 0 || bind(fd, reinterpret_cast<sockaddr *>(&name), sizeof name) || listen(fd, 1024)) fail(path);
    umask(before);
    return fd;
}

static int option_of(int fd, int which) {
    int is = 0;
    socklen_t length = sizeof is;
    return getsockopt(fd, SOL_SOCKET, which, &is, &length) ? -1 : is;
}

// Descriptor 3, and no other, as systemd passes them.
static int take_given(int count) {
    for (int other = 4; other < 3 + count; other++) close(other);
    if (option_of(3, SO_DOMAIN) != AF_UNIX || option_of(3, SO_TYPE) != SOCK_SEQPACKET || option_of(3, SO_ACCEPTCONN) != 1) {
        std::fputs("sysmemd: descriptor 3 is no SOCK_SEQPACKET socket that listens\n", stderr);
        std::exit(1);
    }
    fcntl(3, F_SETFD, FD_CLOEXEC);
    fcntl(3, F_SETFL, fcntl(3, F_GETFL) | O_NONBLOCK);
    return 3;
}

Listener open_listener(const Options &options) {
    Listener made;
    const char *pid = std::getenv("LISTEN_PID"), *fds = std::getenv("LISTEN_FDS");
    bool is_given = pid && fds && std::strtol(pid, nullptr, 10) == getpid() && std::atoi(fds) >= 1;
    if (!is_given && options.path.empty()) {
        std::fputs("sysmemd: no --socket, and XDG_RUNTIME_DIR is not set\n", stderr);
        std::exit(2);
    }
    made.fd = is_given ? take_given(std::atoi(fds)) : listen_at(options.path, options.mode);
    made.is_ours = !is_given;
    unsetenv("LISTEN_PID"), unsetenv("LISTEN_FDS");
    // A descriptor that we are sent can be the last copy of a file whose close blocks us, e.g. by SO_LINGER. Accepted sockets
    // inherit the option, so that there is no moment in between.
    int off = 0;
    if (setsockopt(made.fd, SOL_SOCKET, SO_PASSRIGHTS, &off, sizeof off) == 0) return made;
    std::fprintf(stderr, "sysmemd: no SO_PASSRIGHTS (Linux 6.16): a client that sends a descriptor can stop the service%s\n",
                 options.is_old_ok ? "" : "; --allow-old-kernel starts it all the same");
    if (options.is_old_ok) return made;
    if (made.is_ours) unlink(options.path.c_str());
    std::exit(1);
}

void notify_ready() {
    const char *path = std::getenv("NOTIFY_SOCKET");
    sockaddr_un name{};
    name.sun_family = AF_UNIX;
    if (!path || std::strlen(path) >= sizeof name.sun_path) return;
    std::memcpy(name.sun_path, path, std::strlen(path));
    if (name.sun_path[0] == '@') name.sun_path[0] = 0;
    int fd = socket(AF_UNIX, SOCK_DGRAM | SOCK_CLOEXEC, 0);
    if (fd < 0) return;
    sendto(fd, "READY=1", 7, MSG_NOSIGNAL, reinterpret_cast<sockaddr *>(&name),
           socklen_t(offsetof(sockaddr_un, sun_path) + std::strlen(path)));
    close(fd);
}

} // namespace sysmemd
