// Makes random calls and looks at every view after each; to be built with the sanitizers on. Most calls are such as their
// client can make: on a node whose end it holds, or on a handle that it has.
#include "sysmem.h"

#include <cstdio>
#include <cstdlib>
#include <random>
#include <vector>

static std::mt19937 dice(7);
static uint32_t upto(uint32_t n) { return static_cast<uint32_t>(dice() % n); }

static void expect(bool holds, const char *what) {
    if (!holds) {
        std::fprintf(stderr, "%s\n", what);
        std::exit(1);
    }
}

// What calls are chosen among: the clients that joined, the nodes, and the buffers that hold pages.
struct Seen {
    std::vector<uint64_t> clients;
    std::vector<sysmem_node> nodes;
    std::vector<sysmem_held_buffer> held;
};
static uint64_t handles_seen = 0, parcels_seen = 0;

template <class T> static T one_of(const std::vector<T> &all) {
    return all.empty() ? T{} : all[upto(static_cast<uint32_t>(all.size()))];
}

static uint32_t some_kind() {
    static const std::vector<uint32_t> likely = {
        SYSMEM_JOIN, SYSMEM_OPEN_ROOT, SYSMEM_OPEN_ROOT, SYSMEM_DUPLICATE, SYSMEM_DUPLICATE, SYSMEM_DUPLICATE,
        SYSMEM_ATTACH_TOKEN, SYSMEM_ATTACH_TOKEN, SYSMEM_SYNC, SYSMEM_GIVE, SYSMEM_GIVE, SYSMEM_COLLECT,
        SYSMEM_COLLECT, SYSMEM_COLLECT, SYSMEM_BIND, SYSMEM_BIND, SYSMEM_BIND, SYSMEM_BIND, SYSMEM_SET_DISPENSABLE,
        SYSMEM_SET_WEAK, SYSMEM_SET_WEAK_OK, SYSMEM_SET_WEAK_OK, SYSMEM_SET_CONSTRAINTS, SYSMEM_SET_CONSTRAINTS,
        SYSMEM_SET_CONSTRAINTS, SYSMEM_SET_CONSTRAINTS, SYSMEM_CHECK, SYSMEM_TAKE, SYSMEM_TAKE, SYSMEM_TAKE,
        SYSMEM_RELEASE, SYSMEM_CLOSE, SYSMEM_DUP_HANDLE, SYSMEM_DROP_HANDLE, SYSMEM_DROP_HANDLE, SYSMEM_DROP_HANDLE,
        SYSMEM_GIVE_HANDLE, SYSMEM_GIVE_HANDLE, SYSMEM_TRACK_NODE, SYSMEM_TRACK_LIFETIME, SYSMEM_TRACK_WEAK};
    if (upto(20) != 0) return one_of(likely);
    return upto(3) == 0 ? dice() : upto(24);
}

// Names a handle in the call, and a client that has it, if that is found in a few looks.
static void name_handle(sysmem_core &core, const Seen &seen, sysmem_call &call, uint64_t &client) {
    sysmem_held_buffer buffer = one_of(seen.held);
    call.collection = buffer.collection;
    call.index = static_cast<uint8_t>(buffer.index);
    for (int look = 0; look < 6; look++) {
        uint32_t found = 0;
        client = one_of(seen.clients);
        call.strength = call.kind == SYSMEM_TRACK_WEAK || upto(3) == 0 ? SYSMEM_WEAK : SYSMEM_STRONG;
        expect(sysmem_open_handles(&core, client, call.collection, call.index, call.strength, &found) == SYSMEM_DONE,
               "open handles");
        if (found > 0) return;
    }
}

static sysmem_call some_call(sysmem_core &core, const Seen &seen, uint64_t &client) {
    sysmem_call call{};
    call.kind = some_kind();
    if (call.kind == SYSMEM_JOIN && seen.clients.size() > 5 && upto(20) != 0) call.kind = SYSMEM_COLLECT;
    sysmem_node node = one_of(seen.nodes);
    bool is_on_node = !seen.nodes.empty() && call.kind != SYSMEM_OPEN_ROOT && call.kind != SYSMEM_COLLECT;
    client = is_on_node && upto(10) != 0 ? node.holder : one_of(seen.clients);
    call.slot = upto(20) == 0 ? dice() : node.key.slot;
    call.generation = upto(20) == 0 ? dice() : node.key.generation;
    call.client = upto(20) == 0 ? dice() : one_of(seen.clients);
    call.size = upto(20) == 0 ? dice() : 1 + upto(20000);
    call.left = upto(4);
    call.camping = static_cast<uint8_t>(upto(20) == 0 ? upto(256) : upto(4));
    call.at_least = static_cast<uint8_t>(upto(4));
    call.children = static_cast<uint8_t>(upto(3));
    bool is_on_handle = (call.kind >= SYSMEM_DUP_HANDLE && call.kind <= SYSMEM_GIVE_HANDLE) ||
                        call.kind == SYSMEM_TRACK_WEAK;
    if (is_on_handle && upto(10) != 0) {
        name_handle(core, seen, call, client);
    } else {
        call.strength = upto(3);
        call.collection = node.collection;
        call.index = static_cast<uint8_t>(upto(5));
    }
    if (call.kind == SYSMEM_JOIN) client = 0;
    return call;
}

// Opens a core, every second time with a seed of its own.
static uint32_t open_one(sysmem_core &core, uint32_t events) {
    uint32_t nodes = 1 + upto(24), collections = 1 + upto(6);
    uint32_t trackers = 1 + upto(12), handles = 1 + upto(4);
    if (upto(2) == 0) return sysmem_open(&core, 64, events, nodes, collections, trackers, handles);
    uint8_t seed[16];
    for (uint8_t &byte : seed) byte = static_cast<uint8_t>(upto(256));
    return sysmem_open_seeded(&core, 64, events, nodes, collections, trackers, handles, seed);
}

// Who has handles on a buffer: the parcels and each client, with what their counts say.
static void look_at_holders(sysmem_core &core, const Seen &seen, uint64_t id, uint8_t index) {
    sysmem_holder told[4];
    uint64_t count = 0, place = 0;
    expect(sysmem_holders(&core, id, index, told, 4, &count) == SYSMEM_DONE, "holders");
    std::vector<uint64_t> all{0};
    all.insert(all.end(), seen.clients.begin(), seen.clients.end());
    for (uint64_t client : all) {
        uint32_t strong = 0, weak = 0;
        if (client == 0) {
            sysmem_handles_in_parcels(&core, id, index, SYSMEM_STRONG, &strong);
            sysmem_handles_in_parcels(&core, id, index, SYSMEM_WEAK, &weak);
        } else {
            sysmem_open_handles(&core, client, id, index, SYSMEM_STRONG, &strong);
            sysmem_open_handles(&core, client, id, index, SYSMEM_WEAK, &weak);
        }
        if (strong + weak == 0) continue;
        expect(place >= 4 || (told[place].client == client && told[place].strong == strong && told[place].weak == weak),
               "a holder");
        place++;
    }
    expect(place == count, "each holder");
}

// Reads the nodes, what their collections were given, and the handles on the buffers that hold
// pages: they agree with the other views.
static void look_at_nodes(sysmem_core &core, Seen &seen) {
    sysmem_node nodes[32];
    sysmem_key live[32];
    sysmem_held_buffer held[32];
    uint64_t count = 0, living = 0, holding = 0;
    expect(sysmem_nodes(&core, nodes, 32, &count) == SYSMEM_DONE, "nodes");
    expect(sysmem_live(&core, live, 32, &living) == SYSMEM_DONE, "live");
    expect(living <= count, "live nodes are nodes");
    uint64_t found = 0;
    for (uint64_t i = 0; i < count && i < 32; i++) {
        const sysmem_node &node = nodes[i];
        uint32_t is = 0, buffers = 0, size = 0;
        expect(sysmem_is_live(&core, &node.key, &is) == SYSMEM_DONE, "is live");
        bool over = node.flags & (SYSMEM_NODE_GONE | SYSMEM_NODE_RELEASED);
        expect((is == 1) == !over, "a live node is neither gone nor released");
        expect(node.cause == 0 || (node.flags & SYSMEM_NODE_FAILED), "a cause without a failure");
        expect(node.size == 0 || (node.flags & SYSMEM_NODE_CONSTRAINED), "a size without constraints");
        expect(sysmem_given(&core, node.collection, &buffers, &size) == SYSMEM_DONE, "given");
        expect(!(node.flags & SYSMEM_NODE_ALLOCATED) || buffers > 0, "allocated without buffers");
        found += is;
        sysmem_node same{};
        uint32_t is_kept = 0;
        expect(sysmem_node_of(&core, &node.key, &is_kept, &same) == SYSMEM_DONE && is_kept == 1, "a kept node");
        expect(same.key.slot == node.key.slot && same.key.generation == node.key.generation &&
                   same.event == node.event && same.flags == node.flags && same.holder == node.holder &&
                   same.collection == node.collection && same.size == node.size, "it is the same node");
        sysmem_key other{node.key.slot, node.key.generation + 1000};
        expect(sysmem_node_of(&core, &other, &is_kept, &same) == SYSMEM_DONE && is_kept == 0, "no node");
    }
    expect(count > 32 || found == living, "each live node is told");
    expect(sysmem_held(&core, held, 32, &holding) == SYSMEM_DONE, "held");
    seen.nodes.assign(nodes, nodes + (count < 32 ? count : 32));
    seen.held.assign(held, held + (holding < 32 ? holding : 32));
    for (uint64_t i = 0; i < holding && i < 32; i++) {
        uint32_t buffers = 0, size = 0, found = 0;
        uint64_t id = held[i].collection, client = one_of(seen.clients);
        uint8_t index = static_cast<uint8_t>(held[i].index);
        expect(sysmem_given(&core, id, &buffers, &size) == SYSMEM_DONE, "given");
        expect(held[i].index < buffers, "a held buffer was given");
        expect(held[i].pages == (size + 4095) / 4096, "its pages have room for its bytes");
        sysmem_held_buffer its[64];
        uint64_t all = 0, place = 0;
        expect(sysmem_held_of(&core, id, its, 64, &all) == SYSMEM_DONE && all <= buffers, "held of");
        while (place < all && its[place].index != held[i].index) place++;
        expect(place < all && its[place].collection == id && its[place].start == held[i].start &&
                   its[place].pages == held[i].pages, "it is among those of its collection");
        for (uint32_t strength = 0; strength < 3; strength++) {
            uint32_t wanted = strength < 2 ? SYSMEM_DONE : SYSMEM_BAD_CALL;
            expect(sysmem_open_handles(&core, client, id, index, strength, &found) == wanted,
                   "open handles");
            handles_seen += found;
            found = 0;
            expect(sysmem_handles_in_parcels(&core, id, index, strength, &found) == wanted,
                   "handles in parcels");
            parcels_seen += found;
        }
        look_at_holders(core, seen, id, index);
    }
}

static void look(sysmem_core &core, Seen &seen) {
    sysmem_key live[5], key{upto(30), upto(3)};
    sysmem_held_buffer held[5];
    sysmem_fired_tracker fired[5];
    uint64_t count = 0, events = 0;
    uint32_t pages = 0, is = 0, cause = 0;
    expect(sysmem_live(&core, live, 5, &count) == SYSMEM_DONE, "live");
    for (uint64_t i = 0; i < count && i < 5; i++)
        expect(sysmem_is_live(&core, &live[i], &is) == SYSMEM_DONE && is == 1, "is live");
    expect(sysmem_held(&core, held, 5, &count) == SYSMEM_DONE, "held");
    expect(sysmem_free_pages(&core, &pages) == SYSMEM_DONE, "free pages");
    uint32_t taken = 0;
    for (uint64_t i = 0; i < count && i < 5; i++) taken += held[i].pages;
    expect(taken + pages <= 64 && (count > 5 || taken + pages == 64), "pages");
    expect(sysmem_fired(&core, fired, upto(6), &count) == SYSMEM_DONE, "fired");
    uint64_t all = 0, from = upto(8);
    expect(sysmem_fired_from(&core, from, fired, 5, &all) == SYSMEM_DONE && all == count, "fired from");
    uint64_t left = 0;
    expect(sysmem_events(&core, &events) == SYSMEM_DONE, "events");
    expect(sysmem_remaining(&core, &left) == SYSMEM_DONE && events + left >= 200 && events + left < 2200, "remaining");
    if (upto(50) == 0) {
        expect(sysmem_forget_fired(&core) == SYSMEM_DONE, "forget fired");
        expect(sysmem_fired(&core, fired, 5, &count) == SYSMEM_DONE && count == 0, "no firings are left");
    }
    uint32_t code = sysmem_cause(&core, &key, &cause, &live[0]);
    expect(code == SYSMEM_DONE || code == SYSMEM_NOT_FAILED, "cause");
    look_at_nodes(core, seen);
}

// A name is cut so that a zero ends it.
static void look_at_names() {
    expect(sysmem_version() == SYSMEM_VERSION_MAJOR * 10000 + SYSMEM_VERSION_MINOR * 100 + SYSMEM_VERSION_PATCH, "version");
    for (size_t room = 0; room < 40; room++) {
        char text[40];
        uint64_t count = 0;
        for (char &byte : text) byte = '!';
        expect(sysmem_name(SYSMEM_ABOUT_REFUSAL, SYSMEM_NO_SUCH_CLIENT, text, room, &count) == SYSMEM_DONE, "name");
        size_t end = room < 13 ? room - 1 : 12;
        expect(count == 12 && (room == 0 || text[end] == 0), "a zero");
        for (size_t i = 0; room > 0 && i < end; i++) expect(text[i] == "NoSuchClient"[i], "its letters");
        expect(text[room] == '!' || room == 40, "nothing behind it");
    }
}

// A collection of two buffers. The giver takes a strong and a weak handle on each, and gives some to the taker.
struct Handover {
    sysmem_core core{};
    sysmem_call call{};
    uint64_t giver = 0, taker = 0, id = 0;
    sysmem_reply ends[2] = {};

    sysmem_reply made(uint64_t client, uint32_t kind) {
        sysmem_reply reply{};
        call.kind = kind;
        expect(sysmem_step(&core, client, &call, &reply) == SYSMEM_DONE && reply.kind < SYSMEM_REFUSED, "a call is made");
        return reply;
    }
    sysmem_reply made_on(int end, uint32_t kind) {
        call.slot = ends[end].slot;
        call.generation = ends[end].generation;
        return made(giver, kind);
    }
    void with_handle(uint32_t kind, uint32_t strength) {
        call.strength = strength;
        made(giver, kind);
    }
    void take() {
        giver = made(0, SYSMEM_JOIN).id;
        taker = made(0, SYSMEM_JOIN).id;
        ends[0] = made(giver, SYSMEM_OPEN_ROOT);
        call.collection = id = ends[0].id;
        call.client = taker;
        ends[1] = made_on(0, SYSMEM_DUPLICATE);
        made_on(1, SYSMEM_SET_WEAK);
        for (int end : {0, 1}) made_on(end, SYSMEM_BIND);
        made_on(1, SYSMEM_SET_WEAK_OK);
        call.size = 1;
        call.camping = 2;
        made_on(0, SYSMEM_SET_CONSTRAINTS);
        call.camping = 0;
        made_on(1, SYSMEM_SET_CONSTRAINTS);
        expect(has(id, 0, {}), "nobody took a handle");
        for (int end : {0, 1}) made_on(end, SYSMEM_TAKE);
    }
    // Whether these alone have handles on the buffer; an array that is too short has the first ones.
    bool has(uint64_t collection, uint8_t index, const std::vector<sysmem_holder> &wanted) {
        for (size_t room = 0; room < 5; room++) {
            const sysmem_holder blank{7, 7, 7};
            sysmem_holder told[5] = {blank, blank, blank, blank, blank};
            uint64_t count = 7;
            expect(sysmem_holders(&core, collection, index, told, room, &count) == SYSMEM_DONE, "holders");
            if (count != wanted.size()) return false;
            for (size_t i = 0; i < 5; i++) {
                const sysmem_holder &one = i < room && i < wanted.size() ? wanted[i] : blank;
                if (told[i].client != one.client || told[i].strong != one.strong || told[i].weak != one.weak) return false;
            }
        }
        return true;
    }
};

static void hand_over() {
    Handover it;
    sysmem_holder none{7, 7, 7};
    uint64_t count = 7;
    expect(sysmem_holders(&it.core, 0, 0, &none, 1, &count) == SYSMEM_NOT_OPEN, "not open");
    expect(none.client == 7 && count == 7, "nothing is written");
    expect(sysmem_open(&it.core, 16, 100, 8, 2, 8, 8) == SYSMEM_DONE, "open");
    it.take();
    it.with_handle(SYSMEM_DUP_HANDLE, SYSMEM_STRONG);
    expect(it.has(it.id, 0, {{it.giver, 2, 1}}), "the giver has all");
    it.with_handle(SYSMEM_GIVE_HANDLE, SYSMEM_WEAK);
    expect(it.has(it.id, 0, {{0, 0, 1}, {it.giver, 2, 0}}), "a parcel has the weak one");
    it.made(it.taker, SYSMEM_COLLECT);
    it.with_handle(SYSMEM_GIVE_HANDLE, SYSMEM_STRONG);
    expect(it.has(it.id, 0, {{0, 1, 0}, {it.giver, 1, 0}, {it.taker, 0, 1}}), "a parcel and both clients");
    expect(it.has(it.id, 1, {{it.giver, 1, 1}}), "the other buffer");
    expect(it.has(it.id, 2, {}) && it.has(it.id + 1, 0, {}), "no buffer");
    expect(sysmem_close(&it.core) == SYSMEM_DONE, "close");
}

// Parts with each client, unless the history is full before: nothing is left.
static void part(sysmem_core &core, const Seen &seen) {
    sysmem_key live[1];
    sysmem_held_buffer held[1];
    uint64_t made = 0, count = 1;
    uint32_t pages = 0;
    uint32_t nobody = sysmem_vanish(&core, UINT64_MAX, &made);
    expect(nobody == SYSMEM_HISTORY_FULL || (nobody == SYSMEM_NO_CLIENT && made == 1), "nobody vanishes");
    for (uint64_t client : seen.clients) {
        uint32_t code = sysmem_vanish(&core, client, &made);
        if (code == SYSMEM_HISTORY_FULL) return;
        expect(code == SYSMEM_DONE && made > 0, "vanish");
    }
    expect(sysmem_live(&core, live, 1, &count) == SYSMEM_DONE && count == 0, "nothing is live");
    expect(sysmem_held(&core, held, 1, &count) == SYSMEM_DONE && count == 0, "nothing is held");
    expect(sysmem_free_pages(&core, &pages) == SYSMEM_DONE && pages == 64, "the pool is free");
}

int main(int count, char **words) {
    long calls = count > 1 ? std::atol(words[1]) : 10000;
    look_at_names();
    hand_over();
    uint64_t codes[SYSMEM_ERRORS] = {}, replies[SYSMEM_PEER_CLOSED + 1] = {};
    for (long left = calls; left > 0;) {
        sysmem_core core{};
        uint64_t events = 200 + upto(2000);
        expect(open_one(core, static_cast<uint32_t>(events)) == SYSMEM_DONE, "open");
        Seen seen;
        while (left > 0) {
            left--;
            uint64_t client = 0;
            sysmem_call call = some_call(core, seen, client);
            sysmem_reply reply{};
            uint32_t code = sysmem_step(&core, client, &call, &reply);
            expect(code == SYSMEM_DONE || code == SYSMEM_BAD_CALL || code == SYSMEM_HISTORY_FULL,
                   "code");
            expect(code != SYSMEM_BAD_CALL || call.kind > 22 || call.strength > 1 ||
                       call.kind == SYSMEM_SET_CONSTRAINTS, "a call that is one");
            codes[code]++;
            if (code == SYSMEM_HISTORY_FULL || upto(1000) == 0) break;
            if (code == SYSMEM_DONE) replies[reply.kind]++;
            if (code == SYSMEM_DONE && reply.kind == SYSMEM_JOINED) seen.clients.push_back(reply.id);
            look(core, seen);
        }
        part(core, seen);
        expect(sysmem_close(&core) == SYSMEM_DONE, "close");
        expect(sysmem_close(&core) == SYSMEM_NOT_OPEN, "close once more");
    }
    expect(codes[SYSMEM_DONE] > 0 && codes[SYSMEM_BAD_CALL] > 0, "both codes are seen");
    if (calls < 20000) return 0;
    for (uint64_t told : replies) expect(told > 0, "each kind of reply is seen");
    expect(handles_seen > 0 && parcels_seen > 0, "handles are seen, open and in parcels");
    return 0;
}
