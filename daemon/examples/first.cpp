#include <sysmem_remote.hpp>
#include <cstdio>
#include <cstring>
#include <sys/wait.h>

namespace api = sysmem::remote;
using namespace std::chrono_literals;

static int display(int socket) {
    auto daemon = api::Connection::open({}, "display").value();
    auto mine = daemon.collect(socket).value()->token().value().bind().value();
    mine.set_constraints({1, 0, 6000}).value();
    auto frame = daemon.collect(socket).value()->handle().value();
    std::printf("display: %s\n", reinterpret_cast<char *>(frame.bytes().data()));
    std::abort();                               // with a frame in its hands
}

int main() {
    std::setvbuf(stdout, nullptr, _IOLBF, 0);
    int sockets[2];
    socketpair(AF_UNIX, SOCK_SEQPACKET | SOCK_CLOEXEC, 0, sockets);
    if (fork() == 0) return display(sockets[1]);
    close(sockets[1]);

    auto daemon = api::Connection::open({}, "camera").value();   // in a process: Service::open, join
    auto root = daemon.open_root("camera").value();
    root.duplicate("display").value().give(sockets[0]).value();
    auto mine = std::move(root).bind().value();
    mine.set_constraints({2, 0, 4096}).value();
    std::printf("camera: %u buffers\n", mine.wait_allocated(10s).value()->count);

    auto handles = mine.take().value();
    std::strcpy(reinterpret_cast<char *>((*handles)[0].bytes().data()), "a frame");
    (*handles)[0].duplicate().value().give(sockets[0]).value();
    bool is_back = (*handles)[0].wait_idle(1, 10s).value();
    std::printf("camera: %s\n", is_back ? "the buffer is mine" : "nobody gave it back");
    std::printf("camera: %s\n", mine.wait_failed(10s)->message().c_str());
    wait(nullptr);
}
