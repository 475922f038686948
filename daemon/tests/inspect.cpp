// What root and the daemon's own uid may see, and sysmemctl.
#include "rig.hpp"

static std::vector<sysmemd_seen> of_kind(const std::vector<sysmemd_seen> &all, std::uint32_t is) {
    std::vector<sysmemd_seen> some;
    for (auto &one : all)
        if (one.is == is) some.push_back(one);
    return some;
}
static const sysmemd_seen &named(const std::vector<sysmemd_seen> &all, std::uint32_t is, const std::string &label) {
    for (auto &one : all)
        if (one.is == is && one.label == label) return one;
    std::fprintf(stderr, "no %s of kind %u\n", label.c_str(), is);
    _exit(1);
}
// What sysmemctl prints, and its status behind that.
static std::string ctl(const Daemon &d, const std::string &words) {
    std::string all;
    std::FILE *out = popen((std::string(std::getenv("SYSMEMCTL")) + " --socket " + d.path + " " + words + " 2>&1").c_str(), "re");
    CHECK(out);
    for (int c; (c = std::fgetc(out)) != EOF;) all += char(c);
    return all + "status " + std::to_string(WEXITSTATUS(pclose(out))) + "\n";
}
static bool has(const std::string &all, const std::string &words) {
    if (all.find(words) != std::string::npos) return true;
    return std::fprintf(stderr, "lacks '%s':\n%s", words.c_str(), all.c_str()), false;
}

// A camera that has a buffer which an encoder keeps, and a display that keeps both waiting.
struct Scene {
    Daemon &d;
    Client camera = d.join("camera"), encoder = d.join("encoder");
    Token root = camera.open_root("camera").value();
    Collection enc = encoder.adopt_token(std::move(root.duplicate("encoder").value()).detach()).value().bind().value();
    Collection cam = std::move(root).bind().value();
    explicit Scene(Daemon &d) : d(d) {}
};

TEST(inspected) {
    Daemon d({"--mode", "666", "--uids", "1"});
    Scene s(d);
    Token display = s.cam.attach_token("display").value();
    Collection below = std::move(display.duplicate("below").value()).bind().value();
    s.cam.set_constraints({2, 0, 5000}).value();
    below.set_constraints({1, 0, 100}).value();
    auto all = s.camera.objects().value();
    CHECK(of_kind(all, SYSMEMD_CONNECTION).size() == 2 && of_kind(all, SYSMEMD_TOKEN).size() == 1);
    const auto &enc = named(all, SYSMEMD_COLLECTION, "encoder"), &cam = named(all, SYSMEMD_COLLECTION, "camera");
    const auto &dis = named(all, SYSMEMD_TOKEN, "display"), &low = named(all, SYSMEMD_COLLECTION, "below");
    auto is_same = [](sysmem_key a, sysmem_key b) { return a.slot == b.slot && a.generation == b.generation; };
    CHECK(cam.camping == 2 && cam.asked == 5000 && (cam.flags & SYSMEM_NODE_CONSTRAINED) && !(enc.flags & SYSMEM_NODE_CONSTRAINED));
    CHECK(is_same(enc.parent, cam.key) && is_same(enc.head, cam.key) && is_same(enc.above, cam.key));
    CHECK(is_same(low.head, dis.key) && is_same(low.above, cam.key) && (dis.flags & SYSMEM_NODE_ATTACHED));
    CHECK(cam.core == getuid() && cam.pid == std::uint32_t(getpid()) && cam.uid == getuid() && cam.id == s.cam.collection());
    CHECK(cam.count == 0 && cam.held == 0);
    std::string waits = ctl(d, "waits");
    CHECK(has(waits, "its constraints") && has(waits, "encoder") && has(waits, "display") && has(waits, "status 0"));
    s.enc.set_constraints({1, 0, 1}).value();
    auto handles = *s.cam.take().value(), others = *s.enc.take().value();
    handles[1].on_idle(1).value();
    Tracker t = s.enc.track_node().value();
    all = s.camera.objects().value();
    CHECK(of_kind(all, SYSMEMD_LEASE).size() == 6 && named(all, SYSMEMD_TRACKER, "encoder").state == SYSMEMD_SEEN_WAITS);
    for (auto &one : of_kind(all, SYSMEMD_LEASE)) {
        CHECK(one.count == 3 && one.size == 5000 && one.held == 7 && one.id == s.cam.collection());
        CHECK(!(one.state & SYSMEMD_SEEN_WAITS) == !(one.index == 1 && std::string(one.label) == "camera"));
    }
    std::string told = ctl(d, "buffers");
    CHECK(has(told, "node 0.0") && has(told, " handle") && has(told, "encoder"));
    CHECK(has(ctl(d, "waits"), "its handle of buffer 1"));
    others.clear();
    s.enc.close();
    CHECK(comes([&] { return s.cam.failure().has_value(); }));
    CHECK(has(ctl(d, "nodes"), "failed: lost, by "));
    { // a silent connection, and one that does not read
        int silent = -1;
        auto anew = [&] { ::close(std::exchange(silent, raw_connect(d.path))); }; // it is cut off after five seconds
        auto q = words_of(SYSMEM_SYNC);
        CHECK(comes([&] {
            anew();
            while (raw_send(s.cam.fd(), &q, sizeof q, {}, MSG_DONTWAIT)) {}
            std::uint32_t states = 0;
            for (auto &one : s.camera.objects().value()) states |= one.state;
            return (states & SYSMEMD_SEEN_SILENT) && (states & SYSMEMD_SEEN_UNREAD);
        }));
        CHECK(comes([&] { return anew(), ctl(d, "clients").find("silent") != std::string::npos; }));
        ::close(silent);
    }
    // Many objects come some at a time.
    s.cam.close();
    handles.clear();
    below.close(), display.close();
    std::vector<Token> many;
    for (int i = 0; i < 200; i++) many.push_back(s.camera.open_root("many").value());
    CHECK(of_kind(s.camera.objects().value(), SYSMEMD_TOKEN).size() == 200);
    many.clear();
    CHECK(s.camera.status_of(getuid()).value().pages == 65536);
    auto none = s.camera.status_of(77);
    CHECK(!none && none.error().detail == SYSMEMD_NO_SUCH_CORE && !s.camera.transcript_of(getuid()));
}

TEST(inspectors) {
    if (getuid() != 0) return void(std::puts("  not run: not root"));
    Daemon d({"--mode", "666", "--uids", "1"}, 0, {}, 65534);
    as(65534, [&] { // the daemon's own
        Client its = d.join("its");
        Token t = its.open_root("its").value();
        CHECK(its.objects().value().size() == 2);
    });
    Client c = d.join("root");
    CHECK(c.objects() && c.status_of(0));
    Token mine = c.open_root("secret").value();
    Daemon all({"--mode", "666"}, 0, {}, 65534);
    as(1, [&] { // nobody else
        Client its = all.join("other");
        for (auto none : {its.status_of(1).error(), its.transcript_of(1).error(), its.objects().error()})
            CHECK(none.kind == Error::Kind::Refused && none.detail == SYSMEMD_NOT_ALLOWED);
        CHECK(its.status() && its.nodes());
        CHECK(has(ctl(all, "nodes"), "may ask") && has(ctl(all, "nodes"), "status 1"));
    });
}

TEST(ctl) {
    char folder[] = "/tmp/sysmemd-test-XXXXXX";
    CHECK(mkdtemp(folder));
    Daemon d({"--transcripts", folder});
    Client c = d.join("\x1b[31m\"quoted\"\\");
    Token t = c.open_root("caf\xe9").value();
    std::string json = ctl(d, "--json"), uid = std::to_string(getuid());
    CHECK(has(json, "\"nodes\": [\n  {\"core\": " + uid) && has(json, "\"label\": \"caf\\u00e9\"") && has(json, "\"buffers\": []"));
    CHECK(has(json, "\\u001b[31m\\u0022quoted\\u0022\\u005c") && has(ctl(d, ""), "?[31m\"quoted\"\\"));
    CHECK(has(ctl(d, "transcript " + uid), "daemon open") && has(ctl(d, "transcript " + uid), "# pages 65536"));
    CHECK(has(ctl(d, "transcript 77"), "status 1"));
    for (const char *bad : {"nope", "transcript", "transcript x", "nodes nodes", "--nope", "transcript 99999999999"})
        CHECK(has(ctl(d, bad), "status 2"));
    CHECK(has(ctl(d, "--help"), "status 0") && has(ctl(d, "--version"), "protocol 1"));
    int file = c.transcript_of(getuid()).value();
    CHECK(write(file, "x", 1) < 0); // for reading alone
    ::close(file);
    Child follows([&](int m) {
        dup2(m, 1);
        std::string path = d.path;
        execl(std::getenv("SYSMEMCTL"), "sysmemctl", "--socket", path.c_str(), "--follow", "transcript", uid.c_str(), nullptr);
        _exit(127);
    });
    std::string told;
    auto reads = [&](const char *words) {
        while (told.find(words) == std::string::npos) {
            char one = follows.await();
            CHECK(one != 0);
            told += one;
        }
        return true;
    };
    CHECK(reads("daemon open"));
    t.sync().value();
    CHECK(reads("sync"));
    d.stop(SIGTERM);
    while (follows.await() != 0) {}
    CHECK(WEXITSTATUS(follows.end()) == 0);
    d.start();
    d.stop(SIGKILL);
    CHECK(has(ctl(d, "nodes"), "status 1"));
    (void)!system((std::string("rm -rf ") + folder).c_str());
}
