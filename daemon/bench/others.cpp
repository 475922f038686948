// What others take for an empty call: an echo over the same kind of socket, a call of D-Bus's bus, Wayland's wl_display.sync.
// Their libraries are opened at run time; where there are none, the row is left out.
#include "measure.hpp"

#include <dlfcn.h>
#include <sys/epoll.h>
#include <sys/ioctl.h>

// 64 bytes there, 96 back. By epoll: as the daemon reads, with the sender's credentials.
static void answer(int fd, bool by_epoll) {
    char in[64], out[96] = {};
    int epoll = epoll_create1(0), on = 1;
    epoll_event e{};
    e.events = EPOLLIN;
    epoll_ctl(epoll, EPOLL_CTL_ADD, fd, &e);
    if (by_epoll) setsockopt(fd, SOL_SOCKET, SO_PASSCRED, &on, sizeof on);
    for (;;) {
        if (by_epoll) {
            epoll_event some[64];
            epoll_wait(epoll, some, 64, -1);
            int unread = 0;
            ioctl(fd, 0x5411, &unread);
        }
        sysmem::remote::detail::Envelope<0> came(in, sizeof in);
        if (recvmsg(fd, &came.head, 0) <= 0) _exit(0);
        if (send(fd, out, sizeof out, MSG_NOSIGNAL) < 0) _exit(0);
    }
}
static void echo(const char *what, bool by_epoll) {
    int two[2];
    CHECK(socketpair(AF_UNIX, SOCK_SEQPACKET | SOCK_CLOEXEC, 0, two) == 0);
    Child child([&](int) { ::close(two[0]), answer(two[1], by_epoll); });
    ::close(two[1]);
    char out[64] = {}, in[96];
    measure(what, 20000, [&] {
        CHECK(send(two[0], out, sizeof out, 0) == 64);
        CHECK(recv(two[0], in, sizeof in, 0) == 96);
    });
    ::close(two[0]);
    child.end();
}

// A function of a library; null if it has none.
template <class F> static F *find(void *library, const char *name) {
    return library ? reinterpret_cast<F *>(dlsym(library, name)) : nullptr;
}

// The bus answers its own id: a daemon of the bench's own, as a session has it.
static void bus() {
    struct Error { // of dbus_error_init
        const char *name = nullptr, *message = nullptr;
        unsigned bits = 1;
        void *more = nullptr;
    } error;
    void *all = dlopen("libdbus-1.so.3", RTLD_NOW);
    auto *open = find<void *(const char *, Error *)>(all, "dbus_connection_open_private");
    auto *enter = find<int(void *, Error *)>(all, "dbus_bus_register");
    auto *call = find<void *(const char *, const char *, const char *, const char *)>(all, "dbus_message_new_method_call");
    auto *ask = find<void *(void *, void *, int, Error *)>(all, "dbus_connection_send_with_reply_and_block");
    auto *drop = find<void(void *)>(all, "dbus_message_unref");
    if (!open || !enter || !call || !ask || !drop) return void(std::puts("no libdbus"));
    std::string path = "unix:path=/tmp/sysmemd-bench-" + std::to_string(getpid());
    Child daemon([&](int) {
        std::string words = "--address=" + path;
        execlp("dbus-daemon", "dbus-daemon", "--session", "--nofork", "--nopidfile", words.c_str(), nullptr);
        _exit(127);
    });
    void *line = nullptr;
    for (int i = 0; i < 500 && !line; i++) usleep(10000), error = {}, line = open(path.c_str(), &error);
    if (!line || !enter(line, &error)) return void(std::puts("no dbus-daemon"));
    measure("a call of D-Bus's bus (GetId)", 5000, [&] {
        void *asked = call("org.freedesktop.DBus", "/org/freedesktop/DBus", "org.freedesktop.DBus", "GetId");
        void *told = ask(line, asked, -1, &error);
        CHECK(told);
        drop(asked), drop(told);
    });
    daemon.end(SIGTERM);
}

static void display() {
    void *server = dlopen("libwayland-server.so.0", RTLD_NOW), *client = dlopen("libwayland-client.so.0", RTLD_NOW);
    auto *make = find<void *()>(server, "wl_display_create");
    auto *add = find<void *(void *, int)>(server, "wl_client_create");
    auto *run = find<void(void *)>(server, "wl_display_run");
    auto *join = find<void *(int)>(client, "wl_display_connect_to_fd");
    auto *sync = find<int(void *)>(client, "wl_display_roundtrip");
    if (!make || !add || !run || !join || !sync) return void(std::puts("no libwayland"));
    int two[2];
    CHECK(socketpair(AF_UNIX, SOCK_STREAM | SOCK_CLOEXEC, 0, two) == 0);
    Child compositor([&](int) {
        ::close(two[0]);
        void *its = make();
        if (its && add(its, two[1])) run(its);
    });
    ::close(two[1]);
    void *mine = join(two[0]);
    CHECK(mine && sync(mine) >= 0);
    measure("wl_display.sync", 20000, [&] { CHECK(sync(mine) >= 0); });
    compositor.end(SIGKILL);
}

void measure_others() {
    echo("an echo of 64 and 96 bytes over SOCK_SEQPACKET", false);
    echo("the same by epoll, with credentials and SIOCOUTQ", true);
    bus();
    display();
}
