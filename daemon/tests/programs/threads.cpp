// Several threads on the same values, under the sanitizer of threads: one reads a socket for all.
#include "rig.hpp"

#include <thread>

int main() {
    signal(SIGPIPE, SIG_IGN);
    Daemon d;
    Client c = d.join("app");
    { // many threads, one client, one end
        Token root = c.open_root("root").value();
        std::vector<std::thread> all;
        std::atomic<int> good{0};
        for (int i = 0; i < 8; i++)
            all.emplace_back([&] {
                for (int n = 0; n < 200; n++) {
                    if (root.sync()) good++;
                    Token one = c.open_root("x").value();
                    Token kid = one.duplicate("y").value();
                    std::move(kid).release().value();
                }
            });
        for (std::thread &one : all) one.join();
        CHECK(good == 1600);
    }
    { // some wait on a value while others call on it
        Token root = c.open_root("root").value();
        Token other = root.duplicate("other").value();
        Collection mine = std::move(root).bind().value();
        Tracker gone = mine.track_node().value();
        std::vector<std::thread> all;
        std::atomic<int> allocated{0}, failed{0}, fired{0};
        for (int i = 0; i < 4; i++)
            all.emplace_back([&] {
                if (mine.wait_allocated(soon).value()) allocated++;
                if (mine.wait_failed(soon)) failed++;
                if (gone.wait_for(soon)) fired++;
            });
        all.emplace_back([&] {
            for (int n = 0; n < 500; n++) (void)mine.check();
        });
        all.emplace_back([&] { // short waits leave the reading to the others
            for (int n = 0; n < 100; n++) (void)mine.wait_failed(1ms);
        });
        Collection its = std::move(other).bind().value();
        mine.set_constraints({1, 0, 4096}).value();
        its.set_constraints({1, 0, 4096}).value();
        auto handles = *mine.take().value();
        std::vector<std::thread> more;
        std::atomic<int> idle{0};
        Handle second = handles[0].duplicate().value();
        more.emplace_back([&] { idle += handles[0].wait_idle(1, soon).value(); });
        more.emplace_back([&] {
            for (int n = 0; n < 200; n++) (void)handles[0].open_handles(), (void)handles[0].bytes();
        });
        usleep(100000);
        second.drop();
        for (std::thread &one : more) one.join();
        CHECK(idle == 1);
        its.close();
        for (std::thread &one : all) one.join();
        CHECK(allocated == 4 && failed == 4 && fired == 4);
    }
    CHECK(is_whole(c));
    { // the daemon goes while threads wait
        Token root = c.open_root("root").value();
        Collection mine = c.open_root("m").value().bind().value();
        std::vector<std::thread> all;
        std::atomic<int> ended{0};
        for (int i = 0; i < 4; i++)
            all.emplace_back([&] {
                if (!mine.wait_allocated(60s)) ended++;
                while (root.sync()) {}
                ended++;
            });
        usleep(50000);
        d.stop(SIGKILL);
        for (std::thread &one : all) one.join();
        CHECK(ended == 8);
    }
    std::puts("threads ok");
    return 0;
}
