// sysmemd: the service for clients in other processes. See docs/DAEMON.md and sysmemd(1).
#include "daemon.hpp"
#include "listener.hpp"
#include "log.hpp"

#include <cerrno>
#include <csignal>
#include <cstdio>
#include <cstdlib>
#include <cstring>
#include <fcntl.h>
#include <sys/epoll.h>
#include <sys/resource.h>
#include <sys/signalfd.h>
#include <sys/socket.h>
#include <unistd.h>

namespace {

using sysmemd::say;

[[noreturn]] void fail(const char *what) {
    std::fprintf(stderr, "sysmemd: %s: %s\n", what, std::strerror(errno));
    std::exit(1);
}

struct Loop {
    int epoll = -1, listener = -1, signals = -1;
    int spare = -1; // given up where a connection must be turned away
    bool is_paused = false; // the listener, for a moment after an error

    void watch(int fd) {
        epoll_event e{};
        e.events = EPOLLIN;
        e.data.u64 = std::uint32_t(fd); // stamp 0
        if (epoll_ctl(epoll, EPOLL_CTL_ADD, fd, &e)) fail("epoll");
    }
    void open(int fd) {
        listener = fd;
        sigset_t stops;
        sigemptyset(&stops);
        sigaddset(&stops, SIGTERM);
        sigaddset(&stops, SIGINT);
        sigprocmask(SIG_BLOCK, &stops, nullptr);
        std::signal(SIGPIPE, SIG_IGN);
        signals = signalfd(-1, &stops, SFD_CLOEXEC | SFD_NONBLOCK);
        epoll = epoll_create1(EPOLL_CLOEXEC);
        spare = ::open("/dev/null", O_RDONLY | O_CLOEXEC);
        if (signals < 0 || epoll < 0 || spare < 0) fail("start");
        watch(listener);
        watch(signals);
    }
    // Without a descriptor for a connection: turns one away; false if even that is refused.
    bool turn_one_away() {
        say("no descriptor for a connection");
        close(spare);
        int one = accept4(listener, nullptr, nullptr, SOCK_CLOEXEC);
        if (one >= 0) sysmemd::Daemon::turn_away(one);
        spare = ::open("/dev/null", O_RDONLY | O_CLOEXEC);
        return one >= 0;
    }
    void take_connections(sysmemd::Daemon &daemon) {
        for (int i = 0; i < 16; i++) {
            int one = accept4(listener, nullptr, nullptr, SOCK_CLOEXEC);
            if (one >= 0) {
                daemon.accept(one);
                continue;
            }
            if (errno == EAGAIN || errno == EINTR || errno == ECONNABORTED) return;
            if ((errno == EMFILE || errno == ENFILE) && turn_one_away()) return;
            say("accept: %s", std::strerror(errno)); // e.g. ENOMEM: it would be told again at once
            epoll_ctl(epoll, EPOLL_CTL_DEL, listener, nullptr);
            is_paused = true;
            return;
        }
    }
    // Serves one round; false at the end.
    bool serve(sysmemd::Daemon &daemon, int wait) {
        static epoll_event some[1024];
        int n = epoll_wait(epoll, some, 1024, is_paused && (wait < 0 || wait > 10) ? 10 : wait);
        if (n < 0 && errno != EINTR) fail("epoll");
        if (is_paused) watch(listener), is_paused = false;
        daemon.begin_round();
        for (int i = 0; i < n; i++) {
            int fd = int(std::uint32_t(some[i].data.u64));
            std::uint32_t stamp = std::uint32_t(some[i].data.u64 >> 32);
            if (stamp != 0) daemon.wake(fd, stamp, some[i].events);
            else if (fd == signals) return false;
            else if (fd == daemon.errands_fd()) daemon.finish_errands();
            else take_connections(daemon);
        }
        return true;
    }
};

} // namespace

int main(int count, char **words) {
    sysmemd::Options options = sysmemd::read_options(count, words);
    if (!options.transcripts.empty() && access(options.transcripts.c_str(), W_OK | X_OK)) fail(options.transcripts.c_str());
    rlimit files;
    if (getrlimit(RLIMIT_NOFILE, &files) == 0) {
        files.rlim_cur = files.rlim_max;
        setrlimit(RLIMIT_NOFILE, &files);
        options.files = files.rlim_cur;
    }
    sysmemd::Listener listener = sysmemd::open_listener(options);
    Loop loop;
    loop.open(listener.fd);
    {
        sysmemd::Daemon daemon(options, loop.epoll);
        loop.watch(daemon.errands_fd());
        sysmemd::notify_ready();
        while (loop.serve(daemon, daemon.catch_up())) {}
    }
    if (listener.is_ours) unlink(options.path.c_str());
    return 0;
}
