/// \file
/// The memory of a pool.
#ifndef SYSMEM_MEMORY_HPP
#define SYSMEM_MEMORY_HPP

#include "words.hpp"

#include <atomic>
#include <cstddef>
#if __cplusplus >= 202002L && __has_include(<span>)
#include <span>
#endif
#ifdef __linux__
#include <sys/mman.h>
#include <unistd.h>
#endif

#ifdef SYSMEM_POISONS
#include <sanitizer/asan_interface.h>
#endif

namespace sysmem {
inline namespace SYSMEM_INLINE {

class Handle;
class Service;

namespace detail {
struct State;
}

/// The bytes of a buffer. Where there is std::span, they are one.
struct Bytes {
    std::byte *start = nullptr; ///< the first byte; null if there is none
    std::size_t length = 0;     ///< how many bytes
    /// The first byte; null if there is none.
    std::byte *data() const noexcept { return start; }
    /// How many bytes.
    std::size_t size() const noexcept { return length; }
    /// Whether there is none.
    bool empty() const noexcept { return length == 0; }
    /// The first byte.
    std::byte *begin() const noexcept { return start; }
    /// Behind the last byte.
    std::byte *end() const noexcept { return start + length; }
    /// Byte i, which must be less than `length`.
    std::byte &operator[](std::size_t i) const noexcept { return start[i]; }
#ifdef __cpp_lib_span
    /// The same bytes.
    operator std::span<std::byte>() const noexcept { return {start, length}; }
#endif
};

#ifdef __linux__
/// The memory of a pool: a memfd, mapped once. A Service that has it in its Options keeps it; it is of one
/// Service at a time.
///
/// With a guard the bytes of a buffer can be read and written exactly while a handle on it is open, in
/// whatever client or parcel, and what stands there stays. The address sanitizer reports any other access, also
/// one behind the last byte of the buffer; where it is compiled in, there always is a guard. Without it such an
/// access ends the program (SIGSEGV), and the rest of a buffer's last page is as open as the buffer; each
/// buffer then costs two calls of mprotect, and at most one mapping of the process (vm.max_map_count).
class Memory {
public:
    /// The bytes of a page.
    static constexpr std::size_t page = 4096;
    /// Memory of so many pages, 1 to 1,048,576, all zeros.
    static Result<std::shared_ptr<Memory>> open(std::uint32_t pages, bool guard = false) {
        if (pages == 0 || pages > (1u << 20))
            return Error::outside(SYSMEM_BAD_LIMITS, "pages", pages, 1, 1u << 20);
#ifdef SYSMEM_POISONS
        guard = true;
#endif
        if (guard && std::size_t(sysconf(_SC_PAGESIZE)) > page)
            return Error::outside(SYSMEM_BAD_LIMITS, "the system's page for a guard",
                                  std::uint64_t(sysconf(_SC_PAGESIZE)), 1, page);
        auto made = std::shared_ptr<Memory>(new Memory(pages, guard));
        made->file = memfd_create("sysmem", MFD_CLOEXEC);
        if (made->file < 0 || ftruncate(made->file, off_t(made->length()))) return none();
        void *at = mmap(nullptr, made->length(), PROT_READ | PROT_WRITE, MAP_SHARED, made->file, 0);
        if (at == MAP_FAILED) return none();
        made->start = static_cast<std::byte *>(at);
        if (guard) made->shut_bytes({0, pages});
        return made;
    }
    /// Memory is neither copied nor moved.
    Memory(const Memory &) = delete;
    /// Memory is neither copied nor moved.
    Memory &operator=(const Memory &) = delete;
    /// Ends the mapping, and closes the descriptor.
    ~Memory() {
#ifdef SYSMEM_POISONS
        if (start) ASAN_UNPOISON_MEMORY_REGION(start, length()); // for the next mapping there
#endif
        if (start) munmap(start, length());
        if (file >= 0) close(file);
    }
    /// For other mappings, for a graphics or video API, and for other programs: page n of the pool is at byte
    /// n * 4,096. The Memory closes it.
    int fd() const noexcept { return file; }
    /// How many pages it has.
    std::uint32_t pages() const noexcept { return count; }
    /// Its first byte.
    std::byte *data() const noexcept { return start; }
    /// The bytes of the handle's buffer, which are its own as long as the handle is open; empty if the handle
    /// is not open, or of a service with another memory. Takes no lock.
    inline Bytes bytes(const Handle &handle) const noexcept;

private:
    friend struct detail::State;
    friend class Service;
    Memory(std::uint32_t count, bool guard) : count(count), guard(guard) {}
    static Error none() { return Error::fault(SYSMEM_NO_MEMORY); }
    std::size_t length() const noexcept { return count * page; }
    /// Called under the mutex. The bytes after `size` in the last page stay shut where the sanitizer
    /// can tell.
    bool open_bytes(Pages at, std::size_t size) noexcept {
        if (!guard) return true;
#ifdef SYSMEM_POISONS
        ASAN_UNPOISON_MEMORY_REGION(start + at.start * page, size);
        return true;
#else
        (void)size;
        return mprotect(start + at.start * page, at.count * page, PROT_READ | PROT_WRITE) == 0;
#endif
    }
    void shut_bytes(Pages at) noexcept {
        if (!guard) return;
#ifdef SYSMEM_POISONS
        ASAN_POISON_MEMORY_REGION(start + at.start * page, at.count * page);
#else
        mprotect(start + at.start * page, at.count * page, PROT_NONE);
#endif
    }

    std::uint32_t count;
    bool guard;
    int file = -1;
    std::atomic<bool> is_used{false}; // a service has it
    std::byte *start = nullptr;
};
#endif

} // namespace SYSMEM_INLINE
} // namespace sysmem

#endif
