// Buffers of one's own, as dma-bufs of V4L2 or DRM: the service names them, counts their handles and says when one
// comes back; their bytes are the program's. A buffer has a size of 1 and so a page of the pool, and its name is the
// key of a table of descriptors. A camera writes frames; a display shows them on a device, which reads a frame after
// the display was told of it, and has a fence: a descriptor that is readable once the device is done. The display
// crashes while the device reads, and is started again.
//
// Here the buffers are memfds, or dma-bufs of memfds where there is /dev/udmabuf (with the word `memfd`: never), and
// a fence is an eventfd. Of V4L2 a buffer comes from VIDIOC_EXPBUF, of DRM from DRM_IOCTL_PRIME_HANDLE_TO_FD, and its
// fence from DMA_BUF_IOCTL_EXPORT_SYNC_FILE.
#include "sysmem.hpp"

#include <cerrno>
#include <cstdio>
#include <cstring>
#include <fcntl.h>
#include <linux/dma-buf.h>
#include <linux/udmabuf.h>
#include <poll.h>
#include <sys/ioctl.h>
#include <thread>
#include <unordered_map>

using namespace sysmem;
using namespace std::chrono_literals;

constexpr std::size_t length = 64 * 1024; // of a buffer: the service need not know
constexpr std::uint32_t last = 150;       // the number of the last frame
static bool is_dma = true;                // whether /dev/udmabuf is tried

static void need(bool is_so, const char *what) {
    if (!is_so) std::perror(what), std::abort();
}
static int new_buffer() {
    int file = memfd_create("frame", MFD_CLOEXEC | MFD_ALLOW_SEALING);
    need(file >= 0 && ftruncate(file, length) == 0 && fcntl(file, F_ADD_SEALS, F_SEAL_SHRINK) == 0, "memfd");
    int device = is_dma ? open("/dev/udmabuf", O_RDWR | O_CLOEXEC) : -1;
    if (device < 0) return file;
    udmabuf_create wanted{};
    wanted.memfd = std::uint32_t(file);
    wanted.flags = UDMABUF_FLAGS_CLOEXEC;
    wanted.size = length;
    int buffer = ioctl(device, UDMABUF_CREATE, &wanted);
    need(buffer >= 0, "udmabuf");
    close(device), close(file);
    return buffer;
}

// What the program knows of a buffer.
struct Frame {
    int fd = new_buffer();
    int fence = eventfd(1, EFD_CLOEXEC | EFD_NONBLOCK); // readable: no device reads
    void *bytes = mmap(nullptr, length, PROT_READ | PROT_WRITE, MAP_SHARED, fd, 0);
    Frame() { need(bytes != MAP_FAILED, "mmap"); }
    Frame(const Frame &) = delete;
    Frame &operator=(const Frame &) = delete;
    ~Frame() { munmap(bytes, length), close(fence), close(fd); }
};
// Filled before the first gift of a handle, and emptied after the last: both synchronise memory.
static std::unordered_map<Buffer, Frame> table;

static bool is_done(int fence, int time) {
    pollfd one{fence, POLLIN, 0};
    return poll(&one, 1, time) == 1;
}
// Brackets what the processor does to the bytes of a dma-buf; a memfd knows nothing of it.
static void sync_bytes(const Frame &frame, std::uint64_t what) {
    dma_buf_sync sync{what};
    need(ioctl(frame.fd, DMA_BUF_IOCTL_SYNC, &sync) == 0 || errno == ENOTTY, "sync");
}

// Reads a frame slowly, by the descriptor alone, and then signals the fence. It outlives the display.
class Device {
public:
    void show(const Frame &frame) {
        std::uint64_t none;
        need(read(frame.fence, &none, sizeof none) == sizeof none, "the fence of a frame that is shown twice");
        threads.emplace_back([fd = frame.fd, fence = frame.fence] {
            void *at = mmap(nullptr, length, PROT_READ, MAP_SHARED, fd, 0);
            need(at != MAP_FAILED, "mmap");
            const auto *bytes = static_cast<const unsigned char *>(at);
            for (std::size_t i = 0; i < length; i++) {
                if (i % (length / 2) == 0) std::this_thread::sleep_for(500us);
                if (bytes[i] != bytes[0]) std::printf("a frame is torn at byte %zu\n", i), std::abort();
            }
            munmap(at, length);
            eventfd_write(fence, 1);
        });
    }
    ~Device() {
        for (std::thread &one : threads) one.join();
    }

private:
    std::vector<std::thread> threads;
};

// Shows frames until it crashes after so many, or it is over. A handle stays until the fence of its frame is readable.
static void show(const Client &client, Device &device, std::uint32_t crash, const Cancel &over) {
    std::vector<Handle> shown;
    for (std::uint32_t seen = 0; seen < crash;) {
        std::vector<pollfd> all{{client.fd(), POLLIN, 0}, {over.fd(), POLLIN, 0}};
        for (const Handle &one : shown) all.push_back({table.at(one.buffer()).fence, POLLIN, 0});
        need(poll(all.data(), all.size(), 20000) > 0, "the display waits");
        if (all[1].revents) return;
        for (std::size_t i = shown.size(); i-- > 0;) // the camera may have it again
            if (all[i + 2].revents) shown.erase(shown.begin() + std::ptrdiff_t(i));
        for (auto parcels = client.pending().value().parcels; parcels > 0 && seen < crash; parcels--, seen++) {
            shown.push_back(client.collect().value().value().handle().value());
            device.show(table.at(shown.back().buffer()));
        }
    }
}

// What the camera has: a handle of each buffer, those that it may write, and the number of the next frame.
struct Camera {
    Client client;
    std::vector<Handle> all;
    std::vector<Buffer> free;
    std::uint32_t number = 1;
    // Sends frames to this client, until the last one or until it is gone.
    void send(ClientId to) {
        while (number <= last) {
            if (free.empty()) {
                need(is_done(client.fd(), 20000), "the camera waits");
                free = client.pending().value().idle;
                continue;
            }
            const Handle &handle = all[free.back().index];
            write(table.at(handle.buffer()));
            if (!handle.duplicate().value().give(to)) return;
            handle.on_idle(1).value(); // pending() names it when it comes back
            free.pop_back();
            number++;
        }
        for (const Handle &one : all) (void)one.wait_idle(1, 20s).value();
    }
    // Nobody else has a handle of this buffer. But those of a display that crashed went at once: its device may still read.
    void write(const Frame &frame) const {
        need(is_done(frame.fence, 20000), "the fence");
        sync_bytes(frame, DMA_BUF_SYNC_START | DMA_BUF_SYNC_WRITE);
        std::memset(frame.bytes, int(number % 251), length);
        sync_bytes(frame, DMA_BUF_SYNC_END | DMA_BUF_SYNC_WRITE);
    }
};

int main(int count, char **words) {
    is_dma = count < 2 || std::strcmp(words[1], "memfd") != 0;
    Options options;
    options.pages = 64; // as many buffers at most; there is no Options::memory
    Service service = Service::open(options).value();
    Camera camera{service.join("camera").value(), {}, {}};
    Collection mine = camera.client.open_root("frames").value().bind().value();
    mine.set_constraints({4, 0, 1}).value(); // four buffers, with a page each
    camera.all = *mine.take().value();
    for (const Handle &one : camera.all) table[one.buffer()], camera.free.push_back(one.buffer());
    std::printf("%zu buffers of the program's own\n", table.size());
    {
        Device device;
        for (std::uint32_t crash : {last / 3, UINT32_MAX}) {
            Client display = service.join("display").value();
            ClientId to = display.id();
            Cancel over;
            std::thread thread([&device, crash, over, display = std::move(display)] { show(display, device, crash, over); });
            camera.send(to);
            if (camera.number <= last) std::puts("the display crashed, here is another");
            over.cancel();
            thread.join();
        }
    }
    std::puts("no frame was torn, and all came back");
    // Once no buffer of the collection is in use the descriptors can go.
    Tracker unused = mine.track_lifetime(0).value();
    std::move(mine).release().value();
    camera.all.clear();
    unused.wait();
    table.clear();
    std::printf("%u pages free\n", service.free_pages());
}
