#include "worker.hpp"

#include <algorithm>
#include <cerrno>
#include <fcntl.h>
#include <new>
#include <sys/eventfd.h>
#include <unistd.h>

namespace sysmemd {

constexpr std::size_t slice = 16 << 20; // bytes: some milliseconds

Worker::Worker() : told(eventfd(0, EFD_CLOEXEC | EFD_NONBLOCK)), thread([this] { run(); }) {}

Worker::~Worker() {
    {
        std::lock_guard<std::mutex> lock(mutex);
        is_over = true;
    }
    wakes.notify_one();
    thread.join();
    for (int file : files) ::close(file);
    ::close(told);
}

void Worker::close(int file) noexcept {
    std::lock_guard<std::mutex> lock(mutex);
    bool has_errand = false;
    for (auto &one : errands)
        for (const Errand &e : one.second) has_errand |= e.file == file;
    try {
        files.reserve(files.size() + 1 + (has_errand ? 0 : count)); // those of errands have a place for sure
        files.push_back(file);
        wakes.notify_one();
    } catch (const std::bad_alloc &) { // then we wait for it
        ::close(file);
    }
}

bool Worker::reserve(const Errand &errand) noexcept {
    std::lock_guard<std::mutex> lock(mutex);
    try {
        finished.reserve(finished.size() + count + 1);
        files.reserve(files.size() + count + 1);
        errands[errand.uid].push_back(errand);
    } catch (const std::bad_alloc &) {
        auto at = errands.find(errand.uid);
        if (at != errands.end() && at->second.empty()) errands.erase(at);
        return false;
    }
    count++;
    wakes.notify_one();
    return true;
}

bool Worker::next(Errand &done) {
    std::lock_guard<std::mutex> lock(mutex);
    eventfd_t word;
    if (finished.empty()) return eventfd_read(told, &word), false;
    done = finished.back();
    finished.pop_back();
    return true;
}

std::size_t Worker::closing() const {
    std::lock_guard<std::mutex> lock(mutex);
    return files.size();
}

void Worker::run() {
    std::unique_lock<std::mutex> lock(mutex);
    for (;;) {
        wakes.wait(lock, [&] { return is_over || !files.empty() || !errands.empty(); });
        if (is_over) return;
        if (!files.empty()) close_all(lock);
        else take_slice(lock);
    }
}

void Worker::close_all(std::unique_lock<std::mutex> &lock) {
    while (!files.empty()) {
        int file = files.back();
        for (auto at = errands.begin(); at != errands.end();) {
            auto its = at++;
            for (std::size_t i = its->second.size(); i-- > 0;)
                if (its->second[i].file == file && finish(its->first, i, false)) break;
        }
        lock.unlock();
        ::close(file);
        lock.lock();
        files.erase(std::find(files.begin(), files.end(), file)); // until now it counts
    }
}

// Tells that an errand is done; true if it was the last of its uid.
bool Worker::finish(std::uint32_t uid, std::size_t number, bool is_there) {
    auto at = errands.find(uid);
    Errand &e = at->second[number];
    e.is_there = is_there;
    finished.push_back(e);
    count--;
    eventfd_write(told, 1);
    at->second.erase(at->second.begin() + std::ptrdiff_t(number));
    if (!at->second.empty()) return false;
    errands.erase(at);
    return true;
}

void Worker::take_slice(std::unique_lock<std::mutex> &lock) {
    auto at = errands.upper_bound(turn);
    if (at == errands.end()) at = errands.begin();
    turn = at->first;
    Errand &e = at->second.front(); // stays: this thread alone takes errands away, and a deque's front does not move
    std::size_t length = std::min(slice, e.length - e.from);
    int file = e.file;
    off_t from = off_t(e.from);
    lock.unlock();
    int is;
    do is = fallocate(file, 0, from, off_t(length));
    while (is != 0 && errno == EINTR); // by a stop
    lock.lock();
    e.from += length;
    if (is != 0 || e.from == e.length) finish(turn, 0, is == 0);
}

} // namespace sysmemd
