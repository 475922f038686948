/* Measures what a core keeps, by malloc's own count: for each kind of thing, how many were made, the bytes that they take, and
 * the bytes for each. docs/LIMITS.md has the figures. A list that grows doubles its room, so a figure may be up to twice that of
 * the thing itself. */
#include "sysmem.h"

#include <malloc.h>
#include <stdio.h>
#include <stdlib.h>

enum { PAGES = 1048576, NODES = 1024, COLLECTIONS = 256, TRACKERS = 4096, HANDLES = 65536, CLIENTS = 65535, GIVEN = 65000 };

static sysmem_core core;
static size_t before;

static size_t used(void) {
    struct mallinfo2 all = mallinfo2();
    return all.uordblks + all.hblkhd;
}

static void tell(const char *what, size_t count) {
    size_t bytes = used() - before;
    printf("%-44s %8zu %10zu %10.1f\n", what, count, bytes, (double)bytes / (double)count);
    before = used();
}

static void need(int holds, const char *what) {
    if (holds) return;
    fprintf(stderr, "kept_bytes: %s\n", what);
    exit(1);
}

static sysmem_reply make(uint64_t client, sysmem_call call, uint32_t wanted) {
    sysmem_reply reply;
    need(sysmem_step(&core, client, &call, &reply) == SYSMEM_DONE, "a call has no reply");
    need(reply.kind == wanted, "a call has another reply");
    return reply;
}

static sysmem_reply on_node(uint64_t client, uint32_t kind, sysmem_reply node, uint32_t wanted) {
    return make(client, (sysmem_call){.kind = kind, .slot = node.slot, .generation = node.generation}, wanted);
}

/* Makes a core with one client, and answers the client. */
static uint64_t open_core(void) {
    static const uint8_t seed[16];
    need(sysmem_open_lasting(&core, PAGES, NODES, COLLECTIONS, TRACKERS, HANDLES, seed) == SYSMEM_DONE, "no core");
    uint64_t client = make(0, (sysmem_call){.kind = SYSMEM_JOIN}, SYSMEM_JOINED).id;
    before = used();
    return client;
}

/* A collection of 64 buffers, allocated. */
static sysmem_reply collection(uint64_t client) {
    sysmem_reply root = make(client, (sysmem_call){.kind = SYSMEM_OPEN_ROOT}, SYSMEM_NEW_TOKEN);
    on_node(client, SYSMEM_BIND, root, SYSMEM_OK);
    make(client, (sysmem_call){.kind = SYSMEM_SET_CONSTRAINTS, .slot = root.slot, .generation = root.generation, .camping = 64,
                               .size = 4096}, SYSMEM_OK);
    return root;
}

static void clients_and_nodes(void) {
    uint64_t client = open_core();
    for (int at = 0; at < CLIENTS; at++) make(0, (sysmem_call){.kind = SYSMEM_JOIN}, SYSMEM_JOINED);
    tell("clients", CLIENTS);
    sysmem_reply root = make(client, (sysmem_call){.kind = SYSMEM_OPEN_ROOT}, SYSMEM_NEW_TOKEN);
    tell("a collection and its first node", 1);
    for (int at = 1; at < NODES; at++) on_node(client, SYSMEM_DUPLICATE, root, SYSMEM_NEW_TOKEN);
    tell("further nodes", NODES - 1);
    sysmem_close(&core);
}

static void trackers_and_parcels(void) {
    uint64_t client = open_core(), other = make(0, (sysmem_call){.kind = SYSMEM_JOIN}, SYSMEM_JOINED).id;
    sysmem_reply root = collection(client);
    before = used();
    for (int at = 0; at < TRACKERS; at++) on_node(client, SYSMEM_TRACK_LIFETIME, root, SYSMEM_TRACKER);
    tell("waiting trackers", TRACKERS);
    sysmem_call call = {.collection = on_node(client, SYSMEM_TAKE, root, SYSMEM_TAKEN).id, .client = other};
    before = used();
    for (int at = 0; at < GIVEN; at++) {
        call.kind = SYSMEM_DUP_HANDLE;
        make(client, call, SYSMEM_OK);
        call.kind = SYSMEM_GIVE_HANDLE;
        make(client, call, SYSMEM_OK);
    }
    tell("handles in parcels", GIVEN);
    sysmem_close(&core);
}

static void collections_and_handles(void) {
    static sysmem_reply roots[COLLECTIONS];
    uint64_t client = open_core();
    for (int at = 0; at < COLLECTIONS; at++) roots[at] = collection(client);
    tell("collections of 64 buffers", COLLECTIONS);
    for (int at = 0; at < COLLECTIONS; at++) on_node(client, SYSMEM_TAKE, roots[at], SYSMEM_TAKEN);
    tell("handles of a client", COLLECTIONS * 64);
    sysmem_close(&core);
}

int main(void) {
    printf("%-44s %8s %10s %10s\n", "of", "count", "bytes", "each");
    clients_and_nodes();
    trackers_and_parcels();
    collections_and_handles();
    return 0;
}
