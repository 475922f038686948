/// \file
/// The words of sysmem_remote.hpp: what a list has, and why a socket ended.
#ifndef SYSMEM_REMOTE_WORDS_HPP
#define SYSMEM_REMOTE_WORDS_HPP

#include "sysmem/memory.hpp"
#include "sysmem/words.hpp"
#include "sysmemd_protocol.h"

#include <chrono>
#include <cstring>

namespace sysmem {
inline namespace SYSMEM_INLINE {
namespace remote {

// The words of sysmem.hpp, so that `namespace api = sysmem::remote` has all.
using sysmem::Allocation;
using sysmem::Buffer;
using sysmem::Bytes;
using sysmem::Cause;
using sysmem::CollectionId;
using sysmem::Constraints;
using sysmem::Error;
using sysmem::Event;
using sysmem::Key;
using sysmem::Misuse;
using sysmem::Pending;
using sysmem::Refusal;
using sysmem::Result;
using sysmem::Strength;
using sysmem::TrackerId;

/// A node whose constraints an allocation waits for, or that is kept.
struct Node {
    Key key;                     ///< the node
    std::string label;           ///< its label; it may be empty
    std::uint32_t pid = 0;       ///< of the process that sent the last message on its end; 0: none did
    std::uint32_t uid = 0;       ///< of the same
    bool is_bound = false;       ///< whether its end is bound
    CollectionId collection = 0; ///< its collection
    std::uint32_t flags = 0;     ///< bits of sysmem_node_flag
    std::optional<std::pair<Cause, Key>> fault; ///< why it failed, and the node whose loss reached it
};

/// Numbers of the caller's core.
struct Status {
    std::uint32_t live = 0;        ///< live nodes
    std::uint32_t pages = 0;       ///< pages of the pool
    std::uint32_t free_pages = 0;  ///< pages that no buffer holds
    std::uint64_t held = 0;        ///< buffers that hold pages
    std::uint64_t descriptors = 0; ///< the daemon's for this uid
    std::uint32_t memories = 0;    ///< memfds of the daemon for this uid
    std::uint64_t events = 0;      ///< events so far
};

/// Why a value no longer reaches the daemon. The calls on it answer Error::fault(SYSMEM_NOT_OPEN), whose note begins with
/// the words of the ending.
enum class Ending : std::uint32_t {
    None = 0,                          ///< it does, or the error is another one
    Malformed = SYSMEMD_MALFORMED,     ///< the daemon cut it off for a malformed message
    Claimed = SYSMEMD_CLAIMED,         ///< somebody adopted a copy of its descriptor
    WrongVersion = SYSMEMD_VERSION_IS, ///< the daemon speaks another version of the protocol
    Crowded = SYSMEMD_CROWDED,         ///< the daemon takes no more connections
    Late = SYSMEMD_LATE,               ///< no Hello came in time
    Unread = SYSMEMD_UNREAD,           ///< a reply could not be sent: the daemon's system had no memory for it
    Gone = 64,                         ///< the daemon is gone
    NoService = 65,                    ///< nobody serves the path, or it may not be used
    TimeOver = 66,                     ///< the deadline of a call is over; its event may still be made, but for `give`
    NoReceiver = 67,                   ///< what should be given could not be sent; the value is as it was
    NoGiver = 68                       ///< the socket over which something should come has ended
};

/// The words of an ending.
inline const char *name(Ending ending) {
    switch (ending) {
    case Ending::None: break;
    case Ending::Malformed: return "a message was malformed";
    case Ending::Claimed: return "another one claimed it";
    case Ending::WrongVersion: return "the daemon has another version";
    case Ending::Crowded: return "the daemon takes no more";
    case Ending::Late: return "no Hello came in time";
    case Ending::Unread: return "a reply could not be sent";
    case Ending::Gone: return "the daemon is gone";
    case Ending::NoService: return "nobody serves this path";
    case Ending::TimeOver: return "the deadline is over";
    case Ending::NoReceiver: return "it can't be sent";
    case Ending::NoGiver: return "the giver is gone";
    }
    return "";
}

/// The ending that an error tells.
inline Ending ending(const Error &error) {
    if (error.kind != Error::Kind::Fault || error.detail != SYSMEM_NOT_OPEN) return Ending::None;
    for (std::uint32_t i = 1; i <= std::uint32_t(Ending::NoGiver); i++) {
        const char *words = name(Ending(i));
        if (*words && error.note.compare(0, std::strlen(words), words) == 0) return Ending(i);
    }
    return Ending::None;
}

namespace detail {

using Clock = std::chrono::steady_clock;

inline Error ended(Ending why, const std::string &more = {}) {
    Error error = Error::fault(SYSMEM_NOT_OPEN);
    error.note = name(why);
    if (!more.empty()) error.note += ": " + more;
    return error;
}
inline std::string label_of(const char (&text)[32]) { return std::string(text, strnlen(text, 32)); }
inline bool is_good(const sysmemd_reply &r) {
    return r.kind < SYSMEM_REFUSED || (r.kind > SYSMEMD_FAULT && r.kind <= SYSMEMD_OBJECTS);
}
inline Error why(const sysmemd_reply &r) {
    if (r.kind == SYSMEM_REFUSED) return Error{Error::Kind::Refused, r.detail, {}, {}, false, {}};
    if (r.kind == SYSMEM_MISUSED) return Error{Error::Kind::Misused, r.detail, {}, {}, false, {}};
    if (r.kind != SYSMEM_PEER_CLOSED && r.kind != SYSMEMD_FAILED) return Error::fault(r.detail);
    Error e{Error::Kind::PeerClosed, r.detail, {r.slot, r.generation}, label_of(r.label), false, {}};
    e.process = r.pid;
    return e;
}
inline Error refused(Refusal why) { return Error{Error::Kind::Refused, std::uint32_t(why), {}, {}, false, {}}; }
template <class Rep, class Period> Clock::time_point after(std::chrono::duration<Rep, Period> time) {
    if (time > std::chrono::hours(1 << 20)) return Clock::time_point::max();
    return Clock::now() + std::chrono::duration_cast<Clock::duration>(time);
}
inline sysmemd_request request(std::uint32_t op, const std::string &label = {}) {
    sysmemd_request q{};
    q.op = op;
    std::memcpy(q.label, label.data(), std::min(label.size(), sizeof q.label - 1));
    return q;
}

} // namespace detail
} // namespace remote
} // namespace SYSMEM_INLINE
} // namespace sysmem

#endif
