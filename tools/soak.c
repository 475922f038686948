/* A compositor's day in miniature, over the C library: programs come, share buffers with the compositor by tokens and handles in
 * parcels, are recorded by attached consumers, are watched by trackers, and end or crash at any step. The core is a lasting one,
 * and forgets firings as the bindings do.
 *
 *   soak EVENTS [steady]
 *
 * Writes a line for each tenth of the events: events, programs so far, resident memory in kB, ns an event. The status is 1 if at
 * the end memory has grown since the first tenth by more than CLIENT_BYTES for each client that joined since and SLACK_BYTES; if
 * `steady` is there, also if an event of the last tenth takes more than twice as long as one of the second; and if a node lives or
 * a page is held after all clients have vanished. */
#include "sysmem.h"

#include <stdio.h>
#include <stdlib.h>
#include <string.h>
#include <time.h>
#include <unistd.h>

enum { PAGES = 65536, NODES = 1024, COLLECTIONS = 256, TRACKERS = 4096, HANDLES = 65536 };
enum { PROGRAMS = 24, FRAMES = 40, KEPT_FIRINGS = 4096 };
/* A client's row, and the room that a list which grows by doubling keeps in advance. */
enum { CLIENT_BYTES = 48, SLACK_BYTES = 1 << 20 };

static sysmem_core core;
static uint64_t events, clients, firings_forgotten, refused;
static uint64_t dice_state = 88172645463325252u;

static uint32_t upto(uint32_t n) {
    dice_state ^= dice_state << 13;
    dice_state ^= dice_state >> 7;
    dice_state ^= dice_state << 17;
    return (uint32_t)(dice_state >> 33) % n;
}

static void need(int holds, const char *what) {
    if (holds) return;
    fprintf(stderr, "soak: %s, after %llu events\n", what, (unsigned long long)events);
    exit(1);
}

static sysmem_reply make(uint64_t client, sysmem_call call) {
    sysmem_reply reply;
    need(sysmem_step(&core, client, &call, &reply) == SYSMEM_DONE, "a call has no reply");
    events++;
    refused += reply.kind == SYSMEM_REFUSED;
    return reply;
}

static sysmem_reply plain(uint64_t client, uint32_t kind) {
    return make(client, (sysmem_call){.kind = kind});
}

static sysmem_reply on_node(uint64_t client, uint32_t kind, sysmem_key key) {
    return make(client, (sysmem_call){.kind = kind, .slot = key.slot, .generation = key.generation});
}

static sysmem_reply on_handle(uint64_t client, uint32_t kind, uint64_t collection, uint32_t index) {
    return make(client, (sysmem_call){.kind = kind, .collection = collection, .index = (uint8_t)index});
}

static uint64_t join(void) {
    clients++;
    return plain(0, SYSMEM_JOIN).id;
}

static void give(uint64_t client, sysmem_key key, uint64_t receiver) {
    make(client, (sysmem_call){.kind = SYSMEM_GIVE, .slot = key.slot, .generation = key.generation, .client = receiver});
}

static void constrain(uint64_t client, sysmem_key key, uint32_t camping, uint32_t size) {
    make(client, (sysmem_call){.kind = SYSMEM_SET_CONSTRAINTS, .slot = key.slot, .generation = key.generation,
                               .camping = (uint8_t)camping, .size = size});
}

static void vanish(uint64_t client) {
    uint64_t made = 0;
    need(sysmem_vanish(&core, client, &made) == SYSMEM_DONE, "a client can't vanish");
    events += made;
}

static sysmem_key key_of(const sysmem_reply *reply) { return (sysmem_key){reply->slot, reply->generation}; }

static int is_same(sysmem_key a, sysmem_key b) { return a.slot == b.slot && a.generation == b.generation; }

/* A program and its collection. `client` is 0 where there is none. The compositor's end is `theirs`. */
struct program {
    uint64_t client, collection, set, compositor_set, recorder, tracker;
    sysmem_key root, theirs;
    int step, is_bound, frames;
};

static struct program programs[PROGRAMS];
static uint64_t compositor;

static void drop_all(uint64_t client, uint64_t collection, uint64_t *set) {
    for (; *set != 0; *set &= *set - 1)
        on_handle(client, SYSMEM_DROP_HANDLE, collection, (uint32_t)__builtin_ctzll(*set));
}

/* The compositor takes what waits for it: it binds the token of a program that is there, and closes any other end. */
static void take_parcels(void) {
    for (;;) {
        sysmem_reply parcel = plain(compositor, SYSMEM_COLLECT);
        if (parcel.kind == SYSMEM_EMPTY) return;
        if (parcel.kind == SYSMEM_COLLECTED_HANDLE) {
            on_handle(compositor, SYSMEM_DROP_HANDLE, parcel.id, parcel.index);
            continue;
        }
        sysmem_key key = key_of(&parcel);
        struct program *its = NULL;
        for (int at = 0; at < PROGRAMS; at++)
            if (programs[at].client != 0 && is_same(programs[at].theirs, key)) its = &programs[at];
        if (its == NULL || on_node(compositor, SYSMEM_BIND, key).kind != SYSMEM_OK) {
            on_node(compositor, SYSMEM_CLOSE, key);
            continue;
        }
        its->is_bound = 1;
        constrain(compositor, key, 2, 16384);
    }
}

/* The program ends, or crashes; the compositor then gives up what it has of it. */
static void end(struct program *it, int crashes) {
    if (!crashes) {
        drop_all(it->client, it->collection, &it->set);
        if (it->step > 1) on_node(it->client, upto(2) ? SYSMEM_RELEASE : SYSMEM_CLOSE, it->root);
    }
    vanish(it->client);
    if (it->recorder != 0) vanish(it->recorder);
    drop_all(compositor, it->collection, &it->compositor_set);
    if (it->is_bound) on_node(compositor, SYSMEM_CLOSE, it->theirs);
    memset(it, 0, sizeof *it);
}

/* A consumer is attached to the collection, takes its buffers, and keeps them until it vanishes. */
static void record(struct program *it) {
    it->recorder = join();
    sysmem_reply token = on_node(it->client, SYSMEM_ATTACH_TOKEN, it->root);
    if (token.kind != SYSMEM_NEW_TOKEN) return;
    give(it->client, key_of(&token), it->recorder);
    sysmem_reply parcel = plain(it->recorder, SYSMEM_COLLECT);
    sysmem_key key = key_of(&parcel);
    on_node(it->recorder, SYSMEM_BIND, key);
    constrain(it->recorder, key, 1, 4096);
    on_node(it->recorder, SYSMEM_TAKE, key);
}

static void show_frame(struct program *it) {
    uint32_t index = (uint32_t)__builtin_ctzll(it->set);
    if (on_handle(it->client, SYSMEM_DUP_HANDLE, it->collection, index).kind != SYSMEM_OK) return;
    make(it->client, (sysmem_call){.kind = SYSMEM_GIVE_HANDLE, .collection = it->collection, .index = (uint8_t)index,
                                   .client = compositor});
    if (upto(3) == 0) take_parcels();
}

static void go_on(struct program *it) {
    sysmem_reply reply;
    if (it->client != 0 && upto(300) == 0) {
        end(it, 1);
        return;
    }
    switch (it->step++) {
    case 0: it->client = join(); break;
    case 1:
        reply = plain(it->client, SYSMEM_OPEN_ROOT);
        it->root = key_of(&reply);
        it->collection = reply.id;
        break;
    case 2:
        reply = on_node(it->client, SYSMEM_DUPLICATE, it->root);
        it->theirs = key_of(&reply);
        give(it->client, it->theirs, compositor);
        break;
    case 3: on_node(it->client, SYSMEM_BIND, it->root); break;
    case 4: on_node(it->client, SYSMEM_TRACK_NODE, it->root); break;
    case 5: take_parcels(); break;
    case 6: constrain(it->client, it->root, 1, 4096); break;
    case 7:
        if (on_node(it->client, SYSMEM_CHECK, it->root).kind != SYSMEM_ALLOCATED) end(it, 0);
        break;
    case 8:
        reply = on_node(it->client, SYSMEM_TAKE, it->root);
        it->set = reply.kind == SYSMEM_TAKEN ? reply.set : 0;
        reply = on_node(compositor, SYSMEM_TAKE, it->theirs);
        it->compositor_set = reply.kind == SYSMEM_TAKEN ? reply.set : 0;
        make(it->client, (sysmem_call){.kind = SYSMEM_TRACK_LIFETIME, .slot = it->root.slot,
                                       .generation = it->root.generation});
        it->frames = 1 + (int)upto(FRAMES);
        if (upto(10) == 0) record(it);
        break;
    default:
        if (it->frames-- > 0 && it->set != 0) show_frame(it);
        else end(it, 0);
    }
}

static void forget(void) {
    uint64_t fired;
    need(sysmem_fired(&core, NULL, 0, &fired) == SYSMEM_DONE, "no firings are told");
    if (fired < KEPT_FIRINGS) return;
    need(sysmem_forget_fired(&core) == SYSMEM_DONE, "firings are not forgotten");
    firings_forgotten += fired;
}

static uint64_t resident(void) {
    unsigned long long all = 0, pages = 0;
    FILE *file = fopen("/proc/self/statm", "r");
    need(file != NULL && fscanf(file, "%llu %llu", &all, &pages) == 2, "/proc/self/statm can't be read");
    fclose(file);
    return pages * (uint64_t)sysconf(_SC_PAGESIZE);
}

static double now(void) {
    struct timespec time;
    clock_gettime(CLOCK_MONOTONIC, &time);
    return (double)time.tv_sec * 1e9 + (double)time.tv_nsec;
}

int main(int count, char **words) {
    uint64_t most = count > 1 ? strtoull(words[1], NULL, 10) : 0;
    int is_steady = count > 2 && strcmp(words[2], "steady") == 0;
    if (most < 100000) {
        fprintf(stderr, "usage: soak EVENTS [steady]     EVENTS is at least 100000\n");
        return 2;
    }
    static const uint8_t seed[16] = {1};
    need(sysmem_open_lasting(&core, PAGES, NODES, COLLECTIONS, TRACKERS, HANDLES, seed) == SYSMEM_DONE, "no core opens");
    compositor = join();
    uint64_t first_bytes = 0, first_clients = 0;
    double second_time = 0, last_time = 0;
    for (int tenth = 1; tenth <= 10; tenth++) {
        double began = now();
        uint64_t before = events;
        while (events < most / 10 * (uint64_t)tenth) {
            go_on(&programs[upto(PROGRAMS)]);
            if (upto(512) == 0) forget();
        }
        last_time = (now() - began) / (double)(events - before);
        if (tenth == 1) first_bytes = resident(), first_clients = clients;
        if (tenth == 2) second_time = last_time;
        printf("%llu events, %llu clients, %llu kB, %.0f ns an event\n", (unsigned long long)events,
               (unsigned long long)clients, (unsigned long long)(resident() >> 10), last_time);
        fflush(stdout);
    }
    uint64_t allowed = first_bytes + (clients - first_clients) * CLIENT_BYTES + SLACK_BYTES;
    need(resident() <= allowed, "memory has grown");
    need(!is_steady || last_time < 2 * second_time, "an event takes longer than at the beginning");
    for (int at = 0; at < PROGRAMS; at++)
        if (programs[at].client != 0) end(&programs[at], 1);
    vanish(compositor);
    uint64_t live;
    uint32_t free_pages;
    need(sysmem_live(&core, NULL, 0, &live) == SYSMEM_DONE && live == 0, "a node lives when all clients have vanished");
    need(sysmem_free_pages(&core, &free_pages) == SYSMEM_DONE && free_pages == PAGES, "a page is held at the end");
    printf("%llu firings forgotten, %llu calls refused; no node lives, all pages are free\n",
           (unsigned long long)firings_forgotten, (unsigned long long)refused);
    sysmem_close(&core);
    return 0;
}
