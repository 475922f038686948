// A camera, an encoder and a display, each in a thread of its own with one descriptor, pass real frames on: the
// camera writes a buffer, and gives a handle on it to each of the others; they check every byte, and close the
// handle. The camera writes a buffer again as soon as it has the only handle. The display crashes with a frame
// in its hands, and is started again.
#include "sysmem.hpp"

#include <cstdio>
#include <cstring>
#include <poll.h>
#include <thread>

using namespace sysmem;
using namespace std::chrono_literals;

constexpr std::uint32_t size = 30000;
static std::shared_ptr<Memory> memory;
static std::atomic<ClientId> screen{0}; // the display of the moment
static std::atomic<std::uint32_t> last{UINT32_MAX}; // the number of the last frame

// Sleeps until something happens to this client, and says what.
static Pending wait_for(const Client &client) {
    pollfd one{client.fd(), POLLIN, 0}; // and sockets, timers, ..
    if (poll(&one, 1, 20000) != 1) std::fprintf(stderr, "%s waits in vain\n", client.label().c_str()), std::abort();
    return client.pending().value();
}
static Collection take_part(const Client &client, Constraints wanted) {
    Pending now;
    while (now.parcels == 0) now = wait_for(client);
    Collection mine = client.collect().value().value().token().value().bind().value();
    mine.set_constraints(wanted).value();
    while (now.allocated.empty()) now = wait_for(client);
    return mine;
}
static void write(Bytes to, std::uint32_t number) {
    std::memset(to.data(), int(number % 251), to.size());
    std::memcpy(to.data(), &number, sizeof number);
}
// The number of the frame, of which each byte is as the camera wrote it.
static std::uint32_t read(Bytes from) {
    std::uint32_t number = 0;
    std::memcpy(&number, from.data(), sizeof number);
    for (std::size_t i = sizeof number; i < from.size(); i++)
        if (from[i] != std::byte(number % 251)) std::printf("frame %u is torn at byte %zu\n", number, i), std::abort();
    return number;
}

static void camera(Client client, ClientId encoder) {
    Collection mine = take_part(client, {3, 0, size});
    std::vector<Handle> all = *mine.take().value();
    std::vector<Buffer> free;
    for (const Handle &one : all) free.push_back(one.buffer());
    std::uint32_t number = 0;
    while (number < last) {
        while (!free.empty() && number < last) {
            const Handle &frame = all[free.back().index];
            free.pop_back();
            if (frame.open_handles().value() != 1) std::puts("a buffer is written while others read it"), std::abort();
            write(memory->bytes(frame), ++number);
            for (ClientId to : {encoder, screen.load()}) // refused while the display is gone
                (void)frame.duplicate().value().give(to);
            frame.on_idle(1).value(); // pending() names it
        }
        for (Buffer buffer : wait_for(client).idle) free.push_back(buffer);
    }
    for (const Handle &one : all) (void)one.wait_idle(1, 20s).value();
    std::move(mine).release().value();
}

// Checks so many frames, or until the last one; answers the number of the last one that it saw.
static std::uint32_t watch(const Client &client, std::uint32_t count) {
    for (std::uint32_t seen = 0;;) {
        std::uint64_t parcels = wait_for(client).parcels;
        for (; parcels > 0; parcels--) {
            Handle frame = client.collect().value().value().handle().value();
            std::uint32_t number = read(memory->bytes(frame));
            if (++seen == count || number == last) return number;
        } // the handle goes, and perhaps the camera learns that it has the only one
    }
}
static void encoder(Client client) {
    Collection mine = take_part(client, {1, 0, 4096});
    for (std::uint32_t number = 0; number != last;)
        if (watch(client, 1) != ++number) std::puts("a frame is missing"), std::abort();
    std::move(mine).release().value();
}
static void display(Client client, bool crashes) {
    Collection mine = take_part(client, {1, 0, 4096});
    screen = client.id();
    std::uint32_t number = watch(client, 100);
    if (crashes) return; // the client vanishes, with a node, parcels and perhaps handles
    last = number + 20;  // at most 5 are on their way
    watch(client, UINT32_MAX);
    std::move(mine).release().value();
}

int main() {
    Options options;
    options.pages = 64;
    options.memory = memory = Memory::open(64, true).value(); // guarded
    Service service = Service::open(options).value();
    Client app = service.join("app").value();
    Token root = app.open_root("app").value(), shown = root.duplicate("display").value();
    shown.set_dispensable().value();
    Client cam = service.join("camera").value(), enc = service.join("encoder").value();
    Client dis = service.join("display").value();
    (void)app.fd(); // from now on pending() tells
    TrackerId gone = shown.track_node().value().id();
    root.duplicate("camera").value().give(cam.id()).value();
    root.duplicate("encoder").value().give(enc.id()).value();
    std::move(shown).give(dis.id()).value();
    Collection mine = std::move(root).bind().value();
    for (const Waits &one : mine.waits_for().value())
        std::printf("the allocation waits for %s, %s %s\n", one.label.c_str(), one.receiver ? "in a parcel for" : "held by",
                    (one.receiver ? one.receiver_label : one.holder_label).c_str());
    screen = dis.id();

    std::vector<std::thread> threads;
    threads.emplace_back(camera, std::move(cam), enc.id());
    threads.emplace_back(encoder, std::move(enc));
    threads.emplace_back(display, std::move(dis), true);
    mine.set_constraints({0, 0, 1}).value();
    for (bool is_gone = false; !is_gone;)
        for (TrackerId one : wait_for(app).fired) is_gone |= one == gone;
    std::puts("app: the display crashed, here is another");
    Client next = service.join("display").value();
    mine.attach_token("again").value().give(next.id()).value();
    threads.emplace_back(display, std::move(next), false);
    for (std::thread &one : threads) one.join();
    std::puts("all frames were whole, and came back");
    std::move(mine).release().value();
    std::printf("%u pages free, %zu nodes live\n", service.free_pages(), service.live().value().size());
}
