// The jobs of the typed calls, by sysmem_step and by the values of sysmem.hpp.
//
//   calls c|cpp sync|open|life|frame|frame_idle|frame_fd THREADS TURNS
//
// It writes the nanoseconds that the turns took, and the events. By sysmem_step there is one thread and no
// lock.
#include "sysmem.hpp"

#include <cstdio>
#include <cstdlib>
#include <string>
#include <thread>

using namespace sysmem;

// A frame goes from one client to another as a handle, and is dropped there: 4 calls. With idle, the first one is
// told that it has the only handle again; with fd, both ask their descriptors' `pending` each time.
static void pass_frames(const Client &client, const Client &other, const std::string &job, long turns) {
    Collection all = client.open_root().value().bind().value();
    all.set_constraints({5, 0, 4096}).value();
    std::vector<Handle> handles = *all.take().value();
#ifdef __linux__
    bool with_fd = job == "frame_fd", with_idle = job == "frame_idle";
    if (with_fd) client.fd(), other.fd();
#endif
    for (long i = 0; i < turns; i++) {
        handles[0].duplicate().value().give(other.id()).value();
#ifdef __linux__
        if (with_idle) handles[0].on_idle(1, [](Buffer) {}).value();
        if (with_fd) handles[0].on_idle(1).value(), (void)other.pending().value();
#endif
        { auto parcel = other.collect().value(); }
#ifdef __linux__
        if (with_fd) (void)client.pending().value();
#endif
    }
}

// One turn of another job makes 1, 2 or 7 calls.
static void play(const Client &client, const std::string &job, long turns) {
    if (job == "sync") {
        Token root = client.open_root().value();
        for (long i = 0; i < turns; i++) root.sync().value();
        return;
    }
    bool is_life = job == "life";
    for (long i = 0; i < turns; i++) {
        Token root = client.open_root().value();
        if (!is_life) continue;
        Collection all = std::move(root).bind().value();
        all.set_constraints({1, 0, 4096}).value();
        (void)all.check().value();
        (void)all.take().value();
    }
}

static double by_values(const std::string &job, int threads, long turns, unsigned long long &events) {
    Options options;
    options.pages = 4096;
    Service service = Service::open(options).value();
    std::vector<Client> clients;
    for (int i = 0; i < threads; i++) clients.push_back(service.join().value());
    std::vector<Client> others;
    for (int i = 0; i < threads; i++) others.push_back(service.join().value());
    bool is_frame = job.compare(0, 5, "frame") == 0;
    auto work = [&](int i) {
        if (is_frame) pass_frames(clients[i], others[i], job, turns);
        else play(clients[i], job, turns);
    };
    auto begin = std::chrono::steady_clock::now();
    if (threads == 1) {
        work(0);
    } else {
        std::vector<std::thread> all;
        for (int i = 0; i < threads; i++) all.emplace_back(work, i);
        for (std::thread &one : all) one.join();
    }
    auto time = std::chrono::steady_clock::now() - begin;
    events = service.events() - 2 * std::uint64_t(threads);
    return std::chrono::duration<double, std::nano>(time).count();
}

static double by_steps(const std::string &job, long turns, unsigned long long &events) {
    sysmem_core core{};
    sysmem_open(&core, 4096, UINT32_MAX, 1024, 256, 4096, UINT32_MAX);
    sysmem_call call{};
    sysmem_reply reply;
    sysmem_step(&core, 0, &call, &reply);
    std::uint64_t client = reply.id;
    auto ask = [&](std::uint32_t kind) {
        call.kind = kind;
        sysmem_step(&core, client, &call, &reply);
    };
    auto open = [&] {
        ask(SYSMEM_OPEN_ROOT);
        call.slot = reply.slot;
        call.generation = reply.generation;
        call.collection = reply.id;
    };
    call.camping = 1;
    call.size = 4096;
    bool is_life = job == "life";
    auto begin = std::chrono::steady_clock::now();
    if (job == "frame") {
        open();
        ask(SYSMEM_BIND);
        call.camping = 5;
        ask(SYSMEM_SET_CONSTRAINTS);
        ask(SYSMEM_TAKE);
        call.client = client;
        for (long i = 0; i < turns; i++)
            for (std::uint32_t kind : {SYSMEM_DUP_HANDLE, SYSMEM_GIVE_HANDLE, SYSMEM_COLLECT, SYSMEM_DROP_HANDLE})
                ask(kind);
    } else if (job == "sync") {
        open();
        for (long i = 0; i < turns; i++) ask(SYSMEM_SYNC);
        ask(SYSMEM_CLOSE);
    } else {
        for (long i = 0; i < turns; i++) {
            open();
            if (is_life)
                for (std::uint32_t kind : {SYSMEM_BIND, SYSMEM_SET_CONSTRAINTS, SYSMEM_CHECK,
                                           SYSMEM_TAKE, SYSMEM_DROP_HANDLE})
                    ask(kind);
            ask(SYSMEM_CLOSE);
        }
    }
    auto time = std::chrono::steady_clock::now() - begin;
    std::uint64_t count = 0;
    sysmem_events(&core, &count);
    sysmem_close(&core);
    events = count - 1;
    return std::chrono::duration<double, std::nano>(time).count();
}

int main(int count, char **words) {
    if (count != 5) return 2;
    std::string side = words[1], job = words[2];
    unsigned long long events = 0;
    long turns = std::atol(words[4]);
    double time = side == "c" ? by_steps(job, turns, events)
                              : by_values(job, std::atoi(words[3]), turns, events);
    std::printf("%.0f %llu\n", time, events);
    return 0;
}
