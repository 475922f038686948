// A client that makes what calls it likes, gives what it has to whoever is there, and ends in one way or
// another.
#include "sysmem.hpp"

#include <cstdio>
#include <cstdlib>
#include <functional>
#include <poll.h>
#include <random>
#include <thread>

namespace sysmem {
inline namespace SYSMEM_INLINE {
// What the binding keeps, against the core.
struct Raw {
    // Whether the binding keeps nothing of buffers, and of ends that have a seat.
    static bool is_clean(Service &service) {
        detail::Guard guard(*service.state);
        return service.state->trees.empty() && service.state->seats.empty() && !service.state->due;
    }
    // Whether the binding knows of no thread that waits.
    static bool is_awaited_by_none(Service &service) {
        detail::State &s = *service.state;
        detail::Guard guard(s);
        bool is_none = !s.waiters && !s.sleepers && s.is_watched == (s.recorder || !s.seats.empty());
        for (auto &tree : s.trees)
            for (detail::Cell &cell : tree.second.cells) is_none = is_none && !cell.idle;
        return is_none;
    }
    // What waits in the parcels of each client is what the core has in parcels: all ends whose nodes say so, each once,
    // and as many handles on each buffer.
    static bool are_posted_rightly(Service &service) {
        detail::State &s = *service.state;
        detail::Guard guard(s);
        std::map<Key, int> ends;
        std::map<std::pair<Buffer, std::uint8_t>, std::uint32_t> handles;
        for (detail::Account *a : s.clients) {
            if (a->posted.size() - a->collected != a->parcels) return false;
            for (std::size_t i = a->collected; i < a->posted.size(); i++) {
                const detail::Post &p = a->posted[i];
                if (p.is_handle) handles[{{p.tree, p.index}, p.strength}]++;
                else if (ends[p.node]++ || s.receiver_of(p.node) != a) return false;
            }
        }
        auto kept = s.kept_nodes();
        for (const sysmem_node &n : *kept)
            if (((n.flags & SYSMEM_NODE_IN_TRANSIT) != 0) != (ends.count({n.key.slot, n.key.generation}) == 1))
                return false;
        for (auto &one : handles) {
            Buffer buffer = one.first.first;
            std::uint32_t count = 0;
            sysmem_handles_in_parcels(&s.core, buffer.collection, buffer.index, one.first.second, &count);
            if (count != one.second) return false;
        }
        return true;
    }
    // Each descriptor is readable exactly where there is something to tell, and each end's state is the core's.
    static bool are_lit_rightly(Service &service, std::uint64_t &lit, std::uint64_t &dark) {
        detail::State &s = *service.state;
        detail::Guard guard(s);
        for (detail::Account *a : s.clients) {
            if (a->fd < 0) continue;
            std::uint32_t news = 0;
            for (detail::Row &row : a->rows) {
                if (row.kind != SYSMEM_CLOSE || row.is_late) continue;
                news += row.is != row.told;
                sysmem_node n;
                if (s.look_up({row.a, row.b}, n) && s.state_of(n) != row.is) return false;
            }
            bool has = a->parcels > 0 || news > 0 || a->fired || a->idle;
            pollfd one{a->fd, POLLIN, 0};
            if ((poll(&one, 1, 0) == 1) != has || news != a->news || a->is_lit != has) return false;
            (has ? lit : dark)++;
        }
        return true;
    }
    // The bytes of a handle lie at its buffer's pages.
    static bool are_there(const std::shared_ptr<Memory> &memory, const Handle &h) {
        auto pages = h.pages();
        Bytes bytes = memory->bytes(h);
        return !pages ? bytes.empty()
                      : bytes.data() == memory->data() + pages->start * Memory::page && !bytes.empty() &&
                            (bytes.size() - 1) / Memory::page + 1 == pages->count;
    }
    // Each buffer has as many handles as the core counts, and its pages.
    static bool are_counted_rightly(Service &service) {
        detail::State &s = *service.state;
        detail::Guard guard(s);
        for (auto &tree : s.trees) {
            std::uint64_t count = 0;
            for (std::size_t i = 0; i < tree.second.cells.size(); i++) {
                std::uint32_t all = 0, one = 0;
                for (std::uint32_t strength : {SYSMEM_STRONG, SYSMEM_WEAK}) {
                    for (detail::Account *a : s.clients) {
                        sysmem_open_handles(&s.core, a->id, tree.first, std::uint8_t(i), strength, &one);
                        all += one;
                    }
                    sysmem_handles_in_parcels(&s.core, tree.first, std::uint8_t(i), strength, &one);
                    all += one;
                }
                if (all != tree.second.cells[i].open) return false;
                count += all;
            }
            sysmem_held_buffer held[64];
            std::uint64_t all = 0;
            sysmem_held_of(&s.core, tree.first, held, 64, &all);
            for (std::uint64_t i = 0; i < all; i++)
                if (tree.second.cells[held[i].index].at != Pages{held[i].start, held[i].pages}) return false;
            if (count != tree.second.open || count == 0) return false;
        }
        return true;
    }
};
} // namespace SYSMEM_INLINE
} // namespace sysmem

using namespace sysmem;

static std::mutex board_mutex;
static std::vector<ClientId> board; // who was seen last
static std::atomic<std::uint64_t> told{0}, made{0}, idle_told{0}, idle_made{0};

static ClientId someone(std::mt19937 &dice) {
    std::lock_guard<std::mutex> lock(board_mutex);
    return board.empty() ? 0 : board[dice() % board.size()];
}

struct Life {
    Service service;
    std::mt19937 &dice;
    std::optional<Client> client;
    std::vector<Token> tokens;
    std::vector<Collection> collections;
    std::vector<Handle> handles;

    std::uint32_t upto(std::uint32_t n) { return std::uint32_t(dice() % n); }
    template <class T> T take_out(std::vector<T> &all) {
        std::size_t i = upto(std::uint32_t(all.size()));
        T one = std::move(all[i]);
        all[i] = std::move(all.back());
        all.pop_back();
        return one;
    }
    void keep(Result<Token> token) {
        if (token) tokens.push_back(std::move(*token));
    }
    void track(Result<Tracker> tracker) {
        if (!tracker) return;
        std::function<void(Event)> then = [service = service](Event event) {
            told++;
            if (event % 16 == 0) (void)service.free_pages();
        };
        made++;
        tracker->on_fired(std::move(then));
    }
    Result<std::optional<Parcel>> collect() {
        if (upto(2) == 0) return client->collect();
        if (upto(2) == 0) return client->collect_for(an_hour, over());
        return client->collect_for(std::chrono::microseconds(upto(50)));
    }
    // Ends every wait at once.
    static const Cancel &over() {
        static const Cancel cancel = [] {
            Cancel made;
            made.cancel();
            return made;
        }();
        return cancel;
    }
    static constexpr std::chrono::hours an_hour{1};
    void look() {
        (void)service.nodes();
        if (!collections.empty()) (void)service.given(collections.back().collection());
        if (handles.empty()) return;
        Buffer buffer = handles.back().buffer();
        (void)handles.back().pages();
        (void)handles.back().open_handles();
        (void)service.open_handles(client->id(), buffer, Strength::Strong);
        (void)service.name(buffer);
    }
    void step() {
        switch (upto(25)) {
        case 24: return look();
        case 20: return (void)client->fd();
        case 21: return (void)client->pending();
        case 22:
            if (handles.empty()) return;
            if (upto(2) == 0) return (void)handles.back().on_idle(upto(3));
            if (handles.back().on_idle(upto(3), [service = service](Buffer) {
                    idle_told++;
                    (void)service.free_pages();
                }))
                idle_made++;
            if (upto(4) == 0) return (void)handles.back().wait_idle(upto(2), an_hour, over());
            return (void)handles.back().wait_idle(upto(2), std::chrono::microseconds(upto(50)));
        case 23:
            if (!collections.empty()) (void)collections.back().waits_for();
            return;
        case 0: return keep(client->open_root("root"));
        case 1:
        case 2:
            if (auto got = collect(); got && *got) {
                if (Token *t = std::get_if<Token>(&**got)) tokens.push_back(std::move(*t));
                if (Collection *c = std::get_if<Collection>(&**got)) collections.push_back(std::move(*c));
                if (Handle *h = std::get_if<Handle>(&**got)) handles.push_back(std::move(*h));
            }
            return;
        case 3:
            if (!tokens.empty()) keep(tokens.back().duplicate("child"));
            return;
        case 4:
            if (!tokens.empty()) (void)take_out(tokens).give(someone(dice));
            return;
        case 5:
        case 6:
            if (!tokens.empty())
                if (auto bound = take_out(tokens).bind()) collections.push_back(std::move(*bound));
            return;
        case 7:
            if (!collections.empty()) keep(collections.back().attach_token());
            return;
        case 8:
        case 9:
        case 10:
            if (!collections.empty())
                (void)collections[upto(std::uint32_t(collections.size()))].set_constraints(
                    {std::uint8_t(upto(3)), 0, 1 + upto(8192)});
            return;
        case 11:
        case 12:
            if (!collections.empty())
                if (auto taken = collections[upto(std::uint32_t(collections.size()))].take(); taken && *taken)
                    for (Handle &h : **taken) handles.push_back(std::move(h));
            return;
        case 13:
            if (!handles.empty()) (void)take_out(handles).give(someone(dice));
            return;
        case 14:
            if (!handles.empty())
                if (auto more = handles.back().duplicate()) handles.push_back(std::move(*more));
            return;
        case 15:
            if (!handles.empty()) take_out(handles).drop();
            return;
        case 16:
            if (!collections.empty()) (void)take_out(collections).release();
            return;
        case 17:
            if (!tokens.empty()) (void)take_out(tokens).release();
            return;
        case 18:
            if (!collections.empty()) {
                track(collections.back().track_node());
                track(collections.back().track_lifetime(upto(3)));
            }
            return;
        case 19:
            if (!collections.empty())
                (void)(upto(4) == 0 ? collections.back().wait_allocated(an_hour, over())
                                    : collections.back().wait_allocated(std::chrono::microseconds(upto(50))));
            if (!tokens.empty() && upto(3) == 0) (void)tokens.back().set_weak();
            return;
        }
    }
    void try_step() {
        try {
            step();
        } catch (const std::bad_alloc &) { // before the call took effect
        }
    }
    // In which order a client and its values go is all one.
    void end() {
        if (upto(2) == 0) client.reset();
        handles.clear();
        tokens.clear();
        if (upto(2) == 0)
            for (Collection &c : collections) (void)std::move(c).release();
        collections.clear();
        client.reset();
    }
};

// A client that others may give to.
static std::unique_ptr<Life> begin(Service &service, std::mt19937 &dice) {
    auto life = std::make_unique<Life>(Life{service, dice, {}, {}, {}, {}});
    auto client = service.join("client");
    if (!client) return nullptr;
    life->client = std::move(*client);
    std::lock_guard<std::mutex> lock(board_mutex);
    if (board.size() < 16) board.push_back(life->client->id());
    else board[dice() % 16] = life->client->id();
    return life;
}

template <class F>
static void come(Service &service, std::mt19937 &dice, int steps, F before_the_end) {
    std::unique_ptr<Life> life;
    try {
        life = begin(service, dice);
    } catch (const std::bad_alloc &) {
    }
    if (!life) return;
    for (int s = 0; s < steps; s++) life->try_step();
    before_the_end();
    life->end();
}

static bool is_nothing_left(Service &service, std::uint32_t pages) {
    return service.live().value().empty() && service.held().value().empty() &&
           service.free_pages() == pages && service.is_settled() && told == made &&
           idle_told == idle_made && Raw::is_clean(service);
}
