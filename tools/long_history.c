/* A lasting core goes on past 2^32 events: it counts each, says how many are left, and answers as a young core does.
 *
 *   long_history [EVENTS]      4,294,967,000 by default: some five minutes
 *
 * The events are calls of a client that nobody joined, which are refused. Then this core makes random calls of all kinds; so
 * does a young one, which made all but the refused calls. Its numbers of clients, collections, trackers and events are so much
 * lower; else replies, firings and free pages must be the same. The status is 1 if anything is not as it must be. */
#include "sysmem.h"

#include <stdio.h>
#include <stdlib.h>

enum { CALLS = 20000, KEPT = 64 };

static const uint64_t MOST = 9007199254740991u;

static sysmem_core longer, young;
/* The events of the young core, and how many more the longer one has made from event FIRST on. */
static uint64_t events, more, first = UINT64_MAX;

static void need(int holds, const char *what) {
    if (holds) return;
    fprintf(stderr, "long_history: %s, after %llu events\n", what, (unsigned long long)(events + more));
    exit(1);
}

static uint32_t upto(uint32_t n) {
    static uint64_t state = 7;
    state = state * 6364136223846793005u + 1442695040888963407u;
    return (uint32_t)(state >> 33) % n;
}

/* What the longer core calls the client, collection or tracker of this number, or its event. */
static uint64_t later(uint64_t number) { return number < first ? number : number + more; }

static sysmem_reply step(sysmem_core *core, uint64_t client, const sysmem_call *call) {
    sysmem_reply reply = {0};
    need(sysmem_step(core, client, call, &reply) == SYSMEM_DONE, "a call has no reply");
    return reply;
}

/* Whether calls are answered with the number of something that an event made. */
static int is_numbered(uint32_t kind) {
    return kind == SYSMEM_JOINED || (kind >= SYSMEM_NEW_TOKEN && kind <= SYSMEM_COLLECTED_HANDLE) || kind == SYSMEM_TAKEN ||
           kind == SYSMEM_TRACKER;
}

/* Makes the call on both cores. */
static sysmem_reply make(uint64_t client, sysmem_call call) {
    sysmem_reply reply = step(&young, client, &call);
    call.client = later(call.client);
    call.collection = later(call.collection);
    sysmem_reply other = step(&longer, later(client), &call);
    events++;
    need(other.kind == reply.kind && other.slot == reply.slot && other.generation == reply.generation &&
             other.detail == reply.detail && other.set == reply.set && other.count == reply.count && other.size == reply.size &&
             other.index == reply.index && other.id == (is_numbered(reply.kind) ? later(reply.id) : reply.id),
         "a reply differs");
    return reply;
}

static void is_counted(void) {
    uint64_t made = 0, left = 0;
    need(sysmem_events(&longer, &made) == SYSMEM_DONE && made == events + more, "the events are not those that were made");
    need(sysmem_remaining(&longer, &left) == SYSMEM_DONE && left == MOST - made, "other events are left");
}

static void are_alike(void) {
    uint32_t free = 0, pages = 0;
    uint64_t count = 0, fired = 0;
    sysmem_fired_tracker ours[KEPT], others[KEPT];
    need(sysmem_free_pages(&young, &free) == SYSMEM_DONE && sysmem_free_pages(&longer, &pages) == SYSMEM_DONE && free == pages,
         "other pages are free");
    need(sysmem_fired(&young, ours, KEPT, &fired) == SYSMEM_DONE, "fired");
    need(sysmem_fired(&longer, others, KEPT, &count) == SYSMEM_DONE && fired == count && fired <= KEPT, "others fired");
    for (uint64_t i = 0; i < fired; i++)
        need(others[i].tracker == later(ours[i].tracker) && others[i].event == later(ours[i].event), "a firing differs");
    if (fired < KEPT / 2) return;
    need(sysmem_forget_fired(&young) == SYSMEM_DONE && sysmem_forget_fired(&longer) == SYSMEM_DONE, "firings are kept");
}

/* A random call on the nodes, clients and buffers of the young core. */
static sysmem_call some_call(const uint64_t *clients, uint32_t joined, uint64_t *client) {
    sysmem_node nodes[KEPT];
    sysmem_held_buffer held[KEPT];
    uint64_t count = 0, buffers = 0;
    need(sysmem_nodes(&young, nodes, KEPT, &count) == SYSMEM_DONE, "nodes");
    need(sysmem_held(&young, held, KEPT, &buffers) == SYSMEM_DONE, "held");
    sysmem_call call = {.kind = 1 + upto(SYSMEM_KINDS - 1), .client = clients[upto(joined)], .strength = upto(3) == 0,
                        .size = 1 + upto(9000), .left = upto(3), .camping = (uint8_t)upto(3), .children = (uint8_t)upto(2)};
    if (call.kind == SYSMEM_SHUT && upto(20) != 0) call.kind = SYSMEM_COLLECT;
    *client = clients[upto(joined)];
    if (count > 0) {
        const sysmem_node *node = &nodes[upto((uint32_t)(count < KEPT ? count : KEPT))];
        call.slot = node->key.slot;
        call.generation = node->key.generation;
        int is_on_node = call.kind != SYSMEM_OPEN_ROOT && call.kind != SYSMEM_COLLECT && call.kind != SYSMEM_SHUT;
        if (is_on_node && node->holder != 0) *client = node->holder;
    }
    if (buffers > 0) {
        const sysmem_held_buffer *buffer = &held[upto((uint32_t)(buffers < KEPT ? buffers : KEPT))];
        call.collection = buffer->collection;
        call.index = (uint8_t)buffer->index;
    }
    return call;
}

int main(int argc, char **argv) {
    uint64_t wanted = argc > 1 ? strtoull(argv[1], NULL, 10) : 4294967000u;
    uint8_t seed[16] = {0};
    uint64_t clients[CALLS], made = 0, replies[SYSMEM_PEER_CLOSED + 1] = {0};
    uint32_t joined = 0, pages = 0;
    need(sysmem_open_lasting(&longer, 64, 64, 8, 64, 64, seed) == SYSMEM_DONE, "no core was opened");
    need(sysmem_open_lasting(&young, 64, 64, 8, 64, 64, seed) == SYSMEM_DONE, "no core was opened");
    is_counted();

    /* A client with a handle of before. */
    clients[joined++] = make(0, (sysmem_call){.kind = SYSMEM_JOIN}).id;
    sysmem_reply root = make(clients[0], (sysmem_call){.kind = SYSMEM_OPEN_ROOT});
    sysmem_call on_root = {.slot = root.slot, .generation = root.generation, .camping = 1, .size = 4096};
    for (uint32_t kind = 0; kind < 3; kind++) {
        on_root.kind = (uint32_t[]){SYSMEM_BIND, SYSMEM_SET_CONSTRAINTS, SYSMEM_TAKE}[kind];
        sysmem_reply reply = make(clients[0], on_root);
        need(reply.kind == (kind == 2 ? SYSMEM_TAKEN : SYSMEM_OK), "no handle was taken");
    }

    first = events + 1;
    for (; events + more < wanted; more++) step(&longer, clients[0] + 1, &(sysmem_call){.kind = SYSMEM_SHUT});
    is_counted();

    for (int call = 0; call < CALLS; call++) {
        uint64_t client = 0;
        sysmem_call next = some_call(clients, joined, &client);
        if (joined < 4 || upto(200) == 0) {
            clients[joined++] = make(0, (sysmem_call){.kind = SYSMEM_JOIN}).id;
        } else {
            replies[make(client, next).kind]++;
        }
        are_alike();
    }
    for (uint32_t kind = 0; kind <= SYSMEM_PEER_CLOSED; kind++)
        need(kind == SYSMEM_JOINED || replies[kind] > 0, "a kind of reply is not seen");
    for (uint32_t i = 0; i < joined; i++) {
        uint64_t fewer = 0;
        need(sysmem_vanish(&young, clients[i], &fewer) == SYSMEM_DONE, "a client stays");
        need(sysmem_vanish(&longer, later(clients[i]), &made) == SYSMEM_DONE && made == fewer, "a client stays");
        events += made;
    }
    is_counted();
    are_alike();
    need(sysmem_free_pages(&longer, &pages) == SYSMEM_DONE && pages == 64, "a page is held");
    printf("%llu events\n", (unsigned long long)(events + more));
    return sysmem_close(&longer) != SYSMEM_DONE || sysmem_close(&young) != SYSMEM_DONE;
}
