// A camera, an encoder and a display in processes of their own share buffers through sysmemd. The camera writes frames
// and passes a handle on each to the two others, who check every byte. The display is killed with a frame in its hands:
// the app learns it, and the camera gets the buffer back. Then the encoder is killed, and all learn who failed.
//
//   three ROLE FD..     is what the app starts; without words it is the app. The daemon is that of $SYSMEM_SOCKET.
#include "sysmem_remote.hpp"

#include <csignal>
#include <cstdio>
#include <string>
#include <sys/wait.h>

namespace api = sysmem::remote; // sysmem.hpp has the same classes for clients in threads
using namespace std::chrono_literals;

constexpr std::uint32_t size = 30000;

static void write(api::Bytes to, std::uint32_t number) {
    std::memset(to.data(), int(number % 251), to.size());
    std::memcpy(to.data(), &number, sizeof number);
}
static std::uint32_t read(api::Bytes from) {
    std::uint32_t number = 0;
    std::memcpy(&number, from.data(), sizeof number);
    for (std::size_t i = sizeof number; i < from.size(); i++)
        if (from[i] != std::byte(number % 251)) std::printf("frame %u is torn at byte %zu\n", number, i), std::abort();
    return number;
}
static api::Collection take_part(const api::Connection &daemon, int from, api::Constraints wanted) {
    api::Token token = daemon.collect_for(from, 60s).value().value().token().value();
    api::Collection mine = std::move(token).bind().value();
    mine.set_constraints(wanted).value();
    (void)mine.wait_allocated(60s).value().value();
    return mine;
}
static void say(const std::string &line) {
    std::puts(line.c_str());
    std::fflush(stdout);
}

// The socket to the app, and those to the two who watch.
static int camera(int app, int encoder, int display) {
    api::Connection daemon = api::Connection::open({}, "camera").value();
    api::Collection mine = take_part(daemon, app, {3, 0, size});
    std::vector<api::Handle> all = *mine.take().value();
    std::vector<bool> is_free(all.size(), true);
    say("camera: " + std::to_string(all.size()) + " buffers");
    std::uint32_t number = 0;
    for (bool is_paused = false;;) {
        for (std::size_t i = 0; i < all.size() && !is_paused; i++) {
            if (!is_free[i]) continue;
            write(all[i].bytes(), ++number);
            for (int to : {encoder, display}) // refused once that process is gone
                (void)all[i].duplicate().value().give(to);
            all[i].on_idle(1).value();
            is_free[i] = false;
        }
        std::vector<pollfd> waits{{mine.fd(), POLLIN, 0}, {app, POLLIN, 0}};
        for (const api::Handle &one : all) waits.push_back({one.fd(), POLLIN, 0});
        if (!mine.dispatch()) poll(waits.data(), waits.size(), -1); // a call may have read the event
        for (std::size_t i = 0; i < all.size(); i++)
            if (!is_free[i] && waits[i + 2].revents) is_free[i] = all[i].is_idle();
        if (waits[1].revents) { // the app asks whether all came back
            char word;
            if (recv(app, &word, 1, 0) != 1) return 1; // it is gone
            for (std::size_t i = 0; i < all.size(); i++)
                if (!is_free[i]) is_free[i] = all[i].wait_idle(1, 60s).value();
            std::size_t back = std::size_t(std::count(is_free.begin(), is_free.end(), true));
            say("camera: " + std::to_string(back) + " buffers came back");
            send(app, "d", 1, MSG_NOSIGNAL);
        }
        if (auto why = mine.failure()) {
            say("camera: closed " + name(why->cause()) + " by " + why->label);
            for (std::size_t i = 0; i < all.size(); i++)
                if (!is_free[i]) is_free[i] = all[i].wait_idle(1, 60s).value();
            say("camera: " + std::to_string(std::count(is_free.begin(), is_free.end(), true)) + " buffers are mine alone");
            return 0;
        }
    }
}
// Checks frames. With the 20th in its hands, or with one after the app said so, it tells the app, and waits to be killed.
static int watcher(const std::string &name, int app, int frames) {
    api::Connection daemon = api::Connection::open({}, name).value();
    api::Collection mine = take_part(daemon, app, {1, 0, 4096});
    for (std::uint32_t seen = 0;;) {
        auto got = daemon.collect(frames);
        if (!got && api::ending(got.error()) == api::Ending::NoGiver) return 0;
        api::Handle frame = got.value()->handle().value();
        std::uint32_t number = read(frame.bytes());
        if (++seen != number) say(name + ": a frame is missing");
        char word;
        if (name == "display" ? seen < 20 : recv(app, &word, 1, MSG_DONTWAIT) != 1) continue;
        send(app, "h", 1, MSG_NOSIGNAL);
        recv(app, &word, 1, 0);
        return 1;
    }
}

static pid_t start(const char *self, std::vector<std::string> words, const std::vector<int> &fds) {
    pid_t child = fork();
    if (child != 0) return child;
    for (int fd : fds) fcntl(fd, F_SETFD, 0); // only its own sockets pass the exec
    std::vector<char *> all{const_cast<char *>(self)};
    for (int fd : fds) words.push_back(std::to_string(fd));
    for (std::string &word : words) all.push_back(word.data());
    all.push_back(nullptr);
    execv("/proc/self/exe", all.data());
    _exit(127);
}

int main(int count, char **words) {
    std::string role = count > 1 ? words[1] : "";
    if (role == "camera") return camera(std::atoi(words[2]), std::atoi(words[3]), std::atoi(words[4]));
    if (!role.empty()) return watcher(role, std::atoi(words[2]), std::atoi(words[3]));

    signal(SIGPIPE, SIG_IGN);
    api::Connection daemon = api::Connection::open({}, "app").value();
    api::Token root = daemon.open_root("app").value();
    api::Token cam = root.duplicate("camera").value(), enc = root.duplicate("encoder").value();
    api::Token dis = root.duplicate("display").value();
    dis.set_dispensable().value();
    api::Tracker gone = dis.track_node().value();
    int to_cam[2], to_enc[2], to_dis[2], cam_enc[2], cam_dis[2];
    for (int *pair : {to_cam, to_enc, to_dis, cam_enc, cam_dis})
        if (socketpair(AF_UNIX, SOCK_SEQPACKET | SOCK_CLOEXEC, 0, pair)) return 1;
    start(words[0], {"camera"}, {to_cam[1], cam_enc[0], cam_dis[0]});
    pid_t encoder = start(words[0], {"encoder"}, {to_enc[1], cam_enc[1]});
    pid_t display = start(words[0], {"display"}, {to_dis[1], cam_dis[1]});
    for (int *pair : {to_cam, to_enc, to_dis}) close(pair[1]);
    for (int fd : {cam_enc[0], cam_enc[1], cam_dis[0], cam_dis[1]}) close(fd);
    std::move(cam).give(to_cam[0]).value();
    std::move(enc).give(to_enc[0]).value();
    std::move(dis).give(to_dis[0]).value();
    api::Collection mine = std::move(root).bind().value();
    mine.set_constraints({0, 0, 1}).value();

    char word;
    recv(to_dis[0], &word, 1, 0); // it has its 20th frame
    kill(display, SIGKILL);
    say(gone.wait_for(60s) ? "app: the display is gone" : "app: nobody told of the display");
    say(mine.sync() ? "app: the others go on" : "app: failed with it");
    send(to_cam[0], "w", 1, 0); // whether all buffers come back: the encoder keeps none for long
    recv(to_cam[0], &word, 1, 0);
    send(to_enc[0], "s", 1, 0);
    recv(to_enc[0], &word, 1, 0); // it has a frame
    kill(encoder, SIGKILL);
    if (auto why = mine.wait_failed(60s)) say("app: closed " + name(why->cause()) + " by " + why->label);
    while (wait(nullptr) > 0) {}
    mine.close();
    api::Status now = daemon.status().value();
    while (now.free_pages != now.pages || now.memories != 0) usleep(2000), now = daemon.status().value();
    std::printf("app: %u live nodes, %llu buffers held, %u memories\n", now.live, (unsigned long long)now.held,
                now.memories);
}
