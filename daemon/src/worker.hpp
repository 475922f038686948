// What takes long: memory of buffers is given back to the system, and taken from it, by a thread of its own.
#ifndef SYSMEMD_WORKER_HPP
#define SYSMEMD_WORKER_HPP

#include <condition_variable>
#include <cstdint>
#include <deque>
#include <map>
#include <mutex>
#include <thread>
#include <vector>

namespace sysmemd {

class Worker {
public:
    // The memory of one buffer.
    struct Errand {
        std::uint64_t number = 0;
        std::uint32_t uid = 0;
        std::uint64_t tree = 0;
        int file = -1;
        std::size_t length = 0, from = 0; // from: what is there
        bool is_there = false;            // once it is done; false: refused, or the file was closed
    };
    Worker();
    Worker(const Worker &) = delete;
    Worker &operator=(const Worker &) = delete;
    ~Worker();
    int fd() const { return told; } // readable once an errand is done
    // Closes a memfd some time; an errand for it is done then.
    void close(int file) noexcept;
    // Takes the memory of a memfd from the system; false if the errand can't be noted. The uids take turns, slice by slice.
    bool reserve(const Errand &errand) noexcept;
    // The next errand that is done; false if there is none.
    bool next(Errand &done);
    // How many memfds it has that nobody else counts.
    std::size_t closing() const;

private:
    void run();
    void close_all(std::unique_lock<std::mutex> &lock);
    void take_slice(std::unique_lock<std::mutex> &lock);
    bool finish(std::uint32_t uid, std::size_t number, bool is_there);
    int told = -1;
    mutable std::mutex mutex;
    std::condition_variable wakes;
    bool is_over = false;
    std::vector<int> files; // to be closed
    std::map<std::uint32_t, std::deque<Errand>> errands; // no list is empty
    std::size_t count = 0; // of errands
    std::uint32_t turn = 0; // the uid that had the last slice
    std::vector<Errand> finished; // with room for all errands
    std::thread thread; // the last: it uses all others
};

} // namespace sysmemd

#endif
