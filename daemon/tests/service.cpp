// The daemon as a program.
#include "rig.hpp"

TEST(restarted) {
    Daemon d;
    Client c = d.join();
    Token root = c.open_root("r").value();
    Collection k = c.open_root("k").value().bind().value();
    k.set_constraints({1, 0, 4096}).value();
    auto handles = *k.take().value();
    handles[0].bytes()[0] = std::byte(5);
    Tracker t = root.track_node().value();
    // Another one for the same path does not start.
    pid_t second = fork();
    if (second == 0) {
        dup2(::open((d.folder + "/log").c_str(), O_WRONLY | O_APPEND), 2);
        execl(program(), "sysmemd", "--socket", d.path.c_str(), nullptr);
        _exit(0);
    }
    int is = 0;
    CHECK(waitpid(second, &is, 0) == second && WIFEXITED(is) && WEXITSTATUS(is) == 1);
    CHECK(d.says("s: another daemon serves it") && root.sync());
    d.stop(SIGKILL);
    pollfd waits[] = {{root.fd(), POLLIN, 0}, {k.fd(), POLLIN, 0}, {handles[0].fd(), POLLIN, 0}, {t.fd(), POLLIN, 0},
                      {c.fd(), POLLIN, 0}};
    CHECK(comes([&] { return poll(waits, 5, 1000) == 5; })); // all that waits is told
    for (auto *e : {static_cast<End *>(&root), static_cast<End *>(&k)}) {
        auto none = e->sync();
        CHECK(!none && none.error().kind == Error::Kind::Fault && none.error().detail == SYSMEM_NOT_OPEN);
    }
    CHECK(!t.poll() && t.is_orphan() && !t.wait_for(1s));
    CHECK(!c.open_root("x") && !handles[0].duplicate());
    auto waited = k.wait_allocated(1s);
    CHECK(!waited);
    CHECK(handles[0].bytes()[0] == std::byte(5)); // a mapping stays; nobody accounts for it any more
    d.start();                                    // over the socket that is left
    CHECK(!root.sync());
    Client again = d.join();
    CHECK(again.open_root("r"));
    CHECK(is_whole(again));
}

// Starts the daemon as systemd does, with these as descriptors 3 and so on.
static pid_t activate(const std::vector<int> &fds, std::vector<const char *> words = {}, pid_t whose = 0) {
    pid_t pid = fork();
    if (pid != 0) return pid;
    prctl(PR_SET_PDEATHSIG, SIGKILL);
    std::vector<int> high;
    for (int fd : fds) high.push_back(fcntl(fd, F_DUPFD, 100));
    for (std::size_t i = 0; i < high.size(); i++) dup2(high[i], 3 + int(i)), ::close(high[i]);
    setenv("LISTEN_PID", std::to_string(whose ? whose : getpid()).c_str(), 1);
    setenv("LISTEN_FDS", std::to_string(fds.size()).c_str(), 1);
    unsetenv("XDG_RUNTIME_DIR");
    words.insert(words.begin(), "sysmemd");
    words.push_back(nullptr);
    execv(program(), const_cast<char **>(words.data()));
    _exit(127);
}
static int ended(pid_t pid, int by = 0) {
    if (by) kill(pid, by);
    int is = 0;
    CHECK(waitpid(pid, &is, 0) == pid);
    return WIFEXITED(is) ? WEXITSTATUS(is) : -1;
}

TEST(activated) {
    char name[] = "/tmp/sysmemd-test-XXXXXX";
    CHECK(mkdtemp(name));
    std::string path = std::string(name) + "/s", own = path + "2";
    sockaddr_un at{};
    at.sun_family = AF_UNIX;
    std::memcpy(at.sun_path, path.c_str(), path.size());
    int fd = socket(AF_UNIX, SOCK_SEQPACKET, 0);
    CHECK(bind(fd, reinterpret_cast<sockaddr *>(&at), sizeof at) == 0);
    CHECK(ended(activate({fd})) == 1); // it does not listen
    CHECK(listen(fd, 10) == 0);
    int early = raw_connect(path), two[2]; // before there is a daemon
    CHECK(early >= 0 && pipe2(two, O_CLOEXEC) == 0);
    CHECK(ended(activate({two[0]})) == 1 && ended(activate({})) == 2);
    pid_t pid = activate({fd, two[1], two[1]}); // those that it did not ask for are closed
    ::close(two[1]);
    auto q = words_of(SYSMEMD_HELLO);
    CHECK(raw_send(early, &q, sizeof q) && raw_receive(early));
    char none;
    CHECK(read(two[0], &none, 1) == 0);
    Client c = Client::open(path).value();
    CHECK(c.open_root("r"));
    CHECK(ended(pid, SIGKILL) == -1);
    int between = raw_connect(path); // waits at the socket, which systemd kept
    CHECK(between >= 0);
    pid = activate({fd});
    CHECK(raw_send(between, &q, sizeof q) && raw_receive(between));
    CHECK(ended(pid, SIGTERM) == 0);
    CHECK(access(path.c_str(), F_OK) == 0); // not the daemon's to remove
    pid = activate({fd}, {"--socket", own.c_str()}, 1); // meant for another process
    CHECK(comes([&] { return bool(Client::open(own)); }));
    CHECK(ended(pid, SIGTERM) == 0 && access(own.c_str(), F_OK) != 0);
    (void)!system((std::string("rm -rf ") + name).c_str());
}

TEST(options) {
    auto status = [](std::vector<const char *> words) {
        pid_t pid = fork();
        if (pid == 0) {
            ::close(1), ::close(2);
            unsetenv("XDG_RUNTIME_DIR");
            words.insert(words.begin(), "sysmemd");
            words.push_back(nullptr);
            execv(program(), const_cast<char **>(words.data()));
            _exit(127);
        }
        int is = 0;
        waitpid(pid, &is, 0);
        return WIFEXITED(is) ? WEXITSTATUS(is) : -1;
    };
    CHECK(status({"--help"}) == 0 && status({}) == 2 && status({"--pages", "0"}) == 2 && status({"--nope"}) == 2);
    CHECK(status({"--pages", "1048577"}) == 2 && status({"x"}) == 2 && status({"--socket", "/nowhere/s"}) == 1);
    CHECK(status({"--socket", std::string(200, 'x').c_str()}) == 1);
    char name[] = "/tmp/sysmemd-test-XXXXXX"; // a file at the path stays
    int file = mkstemp(name);
    struct stat s;
    CHECK(file >= 0 && write(file, "thesis", 6) == 6 && status({"--socket", name}) == 1);
    CHECK(stat(name, &s) == 0 && S_ISREG(s.st_mode) && s.st_size == 6);
    unlink(name), unlink((name + std::string(".lock")).c_str()), ::close(file);
}
