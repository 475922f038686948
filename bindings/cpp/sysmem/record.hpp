// A transcript of the events, in the language of docs/SCRIPT.md. Nothing here is for callers: a
// program sets Options::record.
#ifndef SYSMEM_RECORD_HPP
#define SYSMEM_RECORD_HPP

#include "words.hpp"

#include <algorithm>
#include <map>
#include <set>

#ifdef __cpp_exceptions
#define SYSMEM_TRY try
#define SYSMEM_CATCH catch (...)
#else
#define SYSMEM_TRY if (true)
#define SYSMEM_CATCH else
#endif

namespace sysmem {
inline namespace SYSMEM_INLINE {
namespace detail {

// Labels of clients or collections, by their number, or of nodes. (Each further type of a map would take the compiler
// as long as a tenth of these headers.)
using Labels = std::map<std::uint64_t, std::string>;

// A node as a number.
inline std::uint64_t number_of(Key key) noexcept { return std::uint64_t(key.slot) << 32 | key.generation; }

// Whether a list in order has it.
inline bool has(const std::vector<std::uint64_t> &list, std::uint64_t number) {
    return std::binary_search(list.begin(), list.end(), number);
}

// The nodes that are kept or that made a kept one fail, and the collections that have a kept node or a buffer
// with pages; each by number.
struct Kept {
    bool is_known = false; // false if memory was refused
    std::vector<std::uint64_t> nodes, collections;
};

// Drops all labels but these.
inline void keep_only(Labels &labels, const std::vector<std::uint64_t> &kept) {
    for (auto at = labels.begin(); at != labels.end();)
        at = has(kept, at->first) ? std::next(at) : labels.erase(at);
}

// A recorder that adds the lines to this text, and hands them on if there is another recorder.
inline Record keep(std::string &text, Record then) {
    return [&text, then = std::move(then)](std::string_view lines) {
        text += lines;
        if (then) then(lines);
    };
}

// Writes the events of one core. A client or a node has the label that the program gave it, if this
// is a label of the language, unique, and not of the form of generated labels: c, n or t and the
// number of the event that made it. Otherwise it has a generated label. The labels of clients, and the
// program's labels of nodes that were used, are kept; those of forgotten nodes are dropped now and then.
class Recorder {
public:
    explicit Recorder(Record to) : to(std::move(to)) {}

    // Suggests a label for the client or node that the next event makes; null for none.
    void suggest(const std::string *label) noexcept { wanted = label; }

    // Writes one event. If memory is refused, the transcript ends.
    void note(ClientId who, const sysmem_call &call, const sysmem_reply &reply) noexcept {
        if (is_over) return;
        event++;
        SYSMEM_TRY {
            is_known = true;
            std::string asked = line(who, call, reply), told = answer(reply);
            to(is_known ? asked + "\n  " + told + "\n" : "# " + asked + "\n#   " + told + "\n");
        } SYSMEM_CATCH {
            is_over = true;
        }
    }

    // Whether it is time to forget the nodes that the core forgot.
    bool is_large() const noexcept { return size() >= most; }
    // How many labels of nodes and roots it keeps.
    std::size_t size() const noexcept { return nodes.size() + roots.size(); }
    void forget(const Kept &kept) noexcept {
        if (kept.is_known) {
            keep_only(nodes, kept.nodes);
            keep_only(roots, kept.collections);
        }
        most = 4096 + 2 * size();
    }

private:
    static const char *verb(std::uint32_t kind) {
        static const char *const verbs[SYSMEM_KINDS] = {
            "join",      "shut",    "open",      "dup",   "attach", "sync",    "give",  "collect",
            "bind",      "dispensable", "weak",  "weakok", "constrain", "check", "take", "release",
            "close",     "duph",    "droph",     "giveh", "tracknode", "tracklife", "trackweak"};
        return verbs[kind];
    }
    static bool is_generated(const std::string &label, char first) {
        return label.size() > 1 && label[0] == first &&
               label.find_first_not_of("0123456789", 1) == std::string::npos;
    }
    static bool is_label(const std::string &label) {
        if (label.empty() || label.size() > 16 || label[0] < 'a' || label[0] > 'z') return false;
        for (char c : label)
            if ((c < 'a' || c > 'z') && (c < '0' || c > '9')) return false;
        return true;
    }
    std::string by_event(char kind) const { return kind + std::to_string(event); }
    // The label of what this event makes, or would have made if it was refused.
    std::string fresh(char kind, const std::set<std::string> &used) const {
        bool fits = wanted && is_label(*wanted) && !is_generated(*wanted, kind) &&
                    (kind != 'c' || *wanted != "show") && used.count(*wanted) == 0;
        return fits ? *wanted : by_event(kind);
    }
    std::string find(const Labels &in, std::uint64_t number) {
        auto at = in.find(number);
        if (at != in.end()) return at->second;
        is_known = false;
        return "?";
    }
    std::string client(ClientId id) { return find(clients, id); }
    std::string node(const sysmem_call &c) { return find(nodes, number_of({c.slot, c.generation})); }
    std::string buffer(CollectionId tree, unsigned index) {
        return find(roots, tree) + "." + std::to_string(index);
    }
    static const char *strength(std::uint32_t number) {
        return number == SYSMEM_STRONG ? "strong" : "weak";
    }
    static bool is_on_handle(std::uint32_t kind) {
        return (kind >= SYSMEM_DUP_HANDLE && kind <= SYSMEM_GIVE_HANDLE) ||
               kind == SYSMEM_TRACK_WEAK;
    }

    // The label of the client that joins.
    const std::string &join(const sysmem_reply &r) {
        made = fresh('c', client_labels);
        if (r.kind == SYSMEM_JOINED) {
            if (!is_generated(made, 'c')) client_labels.insert(made);
            clients.emplace(r.id, made);
        }
        return made;
    }
    // The label of the new node, or of the node that a refused call would have made.
    const std::string &birth(bool is_root, const sysmem_reply &r) {
        made = fresh('n', node_labels);
        if (r.kind == SYSMEM_NEW_TOKEN) {
            if (!is_generated(made, 'n')) node_labels.insert(made);
            nodes.emplace(number_of({r.slot, r.generation}), made);
            if (is_root) roots.emplace(r.id, made);
        }
        return made;
    }
    // The line of the call. What the event makes gets its label here.
    std::string line(ClientId who, const sysmem_call &c, const sysmem_reply &r) {
        if (c.kind == SYSMEM_JOIN) return join(r) + " join";
        std::string text = client(who) + " " + verb(c.kind);
        if (is_on_handle(c.kind)) text += " " + buffer(c.collection, c.index);
        else if (c.kind != SYSMEM_SHUT && c.kind != SYSMEM_OPEN_ROOT && c.kind != SYSMEM_COLLECT)
            text += " " + node(c);
        switch (c.kind) {
        case SYSMEM_GIVE: return text + " " + client(c.client);
        case SYSMEM_DUP_HANDLE:
        case SYSMEM_DROP_HANDLE: return text + " " + strength(c.strength);
        case SYSMEM_GIVE_HANDLE: return text + " " + strength(c.strength) + " " + client(c.client);
        case SYSMEM_SET_WEAK_OK: return c.children ? text + " children" : text;
        case SYSMEM_SET_CONSTRAINTS:
            return text + " " + std::to_string(c.camping) + " " + std::to_string(c.at_least) + " " +
                   std::to_string(c.size);
        case SYSMEM_TRACK_LIFETIME:
            text += " " + std::to_string(c.left);
            [[fallthrough]];
        case SYSMEM_TRACK_NODE:
        case SYSMEM_TRACK_WEAK: return text + " " + by_event('t');
        case SYSMEM_COLLECT: return text + " " + by_event('n');
        case SYSMEM_OPEN_ROOT:
        case SYSMEM_DUPLICATE:
        case SYSMEM_ATTACH_TOKEN: return text + " " + birth(c.kind == SYSMEM_OPEN_ROOT, r);
        default: return text;
        }
    }
    std::string answer(const sysmem_reply &r) {
        std::string detail = std::to_string(r.detail) + " ";
        switch (r.kind) {
        case SYSMEM_JOINED: return "joined";
        case SYSMEM_IS_SHUT: return "shut " + std::to_string(r.id);
        case SYSMEM_NEW_TOKEN: return "token " + made;
        case SYSMEM_COLLECTED:
            return (r.detail == SYSMEM_TOKEN ? "token " : "collection ") + by_event('n');
        case SYSMEM_COLLECTED_HANDLE:
            return "handle " + buffer(r.id, r.index) + " " + strength(r.detail);
        case SYSMEM_EMPTY: return "empty";
        case SYSMEM_PENDING: return "pending";
        case SYSMEM_ALLOCATED:
            return "allocated " + std::to_string(r.count) + " " + std::to_string(r.size);
        case SYSMEM_TAKEN: {
            std::string text = std::string("taken ") + strength(r.detail);
            for (unsigned i = 0; i < 64; i++)
                if (r.set >> i & 1) text += " " + buffer(r.id, i);
            return text;
        }
        case SYSMEM_TRACKER: return "tracker " + by_event('t');
        case SYSMEM_REFUSED: return "refused " + detail + name(Refusal(r.detail));
        case SYSMEM_MISUSED: return "misused " + detail + name(Misuse(r.detail));
        case SYSMEM_PEER_CLOSED:
            return "closed " + name(Cause(r.detail)) + " " +
                   find(nodes, number_of({r.slot, r.generation}));
        default: return "done";
        }
    }

    Record to;
    std::size_t most = 4096; // so many nodes and roots
    Event event = 0;
    bool is_over = false, is_known = true;
    const std::string *wanted = nullptr;
    std::string made;
    Labels clients, nodes, roots;
    std::set<std::string> client_labels, node_labels;
};

} // namespace detail
} // namespace SYSMEM_INLINE
} // namespace sysmem

#endif
