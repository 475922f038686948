/* A camera, an encoder and a display share buffers; the display fails, and takes them along. */
#include "sysmem.h"

#include <stdio.h>
#include <stdlib.h>

static sysmem_core core;

static const char *name(uint32_t about, uint32_t number) {
    static char text[40];
    uint64_t count = 0;
    return sysmem_name(about, number, text, sizeof text, &count) == SYSMEM_DONE ? text : "?";
}

static const char *code(uint32_t number) { return name(SYSMEM_ABOUT_CODE, number); }

static void tell(const char *who, const char *what, const sysmem_reply *reply) {
    printf("%s %s: ", who, what);
    switch (reply->kind) {
    case SYSMEM_OK: printf("done\n"); break;
    case SYSMEM_JOINED: printf("client %llu\n", (unsigned long long)reply->id); break;
    case SYSMEM_NEW_TOKEN: printf("token %u.%u\n", reply->slot, reply->generation); break;
    case SYSMEM_COLLECTED: printf("collected %u.%u\n", reply->slot, reply->generation); break;
    case SYSMEM_ALLOCATED: printf("%u buffers of %u bytes\n", reply->count, reply->size); break;
    case SYSMEM_TAKEN: printf("handles on the set %llx\n", (unsigned long long)reply->set); break;
    case SYSMEM_TRACKER: printf("tracker %llu\n", (unsigned long long)reply->id); break;
    case SYSMEM_REFUSED: printf("refused, %s\n", name(SYSMEM_ABOUT_REFUSAL, reply->detail)); break;
    case SYSMEM_PEER_CLOSED:
        printf("failed, %s, at node %u.%u\n", name(SYSMEM_ABOUT_CAUSE, reply->detail), reply->slot,
               reply->generation);
        break;
    default: printf("reply %u\n", reply->kind);
    }
}

static sysmem_reply step(const char *who, uint64_t client, const char *what, sysmem_call call) {
    sysmem_reply reply;
    uint32_t answer = sysmem_step(&core, client, &call, &reply);
    if (answer != SYSMEM_DONE) {
        printf("%s %s: %s\n", who, what, code(answer));
        exit(1);
    }
    tell(who, what, &reply);
    return reply;
}

static sysmem_reply on(const char *who, uint64_t client, const char *what, uint32_t kind,
                       sysmem_key key) {
    sysmem_call call = {0};
    call.kind = kind;
    call.slot = key.slot;
    call.generation = key.generation;
    return step(who, client, what, call);
}

static sysmem_reply plain(const char *who, uint64_t client, const char *what, uint32_t kind) {
    sysmem_key none = {0, 0};
    return on(who, client, what, kind, none);
}

static sysmem_key key_of(sysmem_reply reply) {
    sysmem_key key;
    key.slot = reply.slot;
    key.generation = reply.generation;
    return key;
}

static void show(void) {
    sysmem_key live[8];
    sysmem_held_buffer held[8];
    sysmem_fired_tracker fired[8];
    uint64_t lives = 0, helds = 0, fires = 0, events = 0, i;
    uint32_t pages = 0;
    sysmem_live(&core, live, 8, &lives);
    sysmem_held(&core, held, 8, &helds);
    sysmem_fired(&core, fired, 8, &fires);
    sysmem_free_pages(&core, &pages);
    sysmem_events(&core, &events);
    printf("after event %llu: live nodes %llu, held buffers %llu, free pages %u, fired",
           (unsigned long long)events, (unsigned long long)lives, (unsigned long long)helds, pages);
    for (i = 0; i < fires && i < 8; i++)
        printf(" tracker %llu at event %llu", (unsigned long long)fired[i].tracker,
               (unsigned long long)fired[i].event);
    printf(fires ? "\n" : " nothing\n");
}

static void look(uint64_t collection, uint64_t client) {
    sysmem_node nodes[8];
    sysmem_holder holders[8];
    uint64_t count = 0, i;
    uint32_t buffers = 0, size = 0, open = 0, parcels = 0;
    sysmem_nodes(&core, nodes, 8, &count);
    for (i = 0; i < count && i < 8; i++)
        printf("node %u.%u below %u.%u: flags %x, holder %llu, camps on %u\n", nodes[i].key.slot,
               nodes[i].key.generation, nodes[i].parent.slot, nodes[i].parent.generation,
               nodes[i].flags, (unsigned long long)nodes[i].holder, nodes[i].camping);
    sysmem_given(&core, collection, &buffers, &size);
    sysmem_open_handles(&core, client, collection, 0, SYSMEM_STRONG, &open);
    sysmem_handles_in_parcels(&core, collection, 0, SYSMEM_STRONG, &parcels);
    printf("given %u buffers of %u bytes; handles on the first: client %llu %u, parcels %u\n",
           buffers, size, (unsigned long long)client, open, parcels);
    sysmem_holders(&core, collection, 0, holders, 8, &count);
    for (i = 0; i < count && i < 8; i++)
        printf("who has the first: client %llu, %u strong, %u weak\n",
               (unsigned long long)holders[i].client, holders[i].strong, holders[i].weak);
}

static void ask(const char *who, sysmem_key key) {
    uint32_t live = 0, cause = 0, answer;
    sysmem_key origin;
    sysmem_is_live(&core, &key, &live);
    answer = sysmem_cause(&core, &key, &cause, &origin);
    if (answer == SYSMEM_DONE)
        printf("the %s: live %u, %s, at node %u.%u\n", who, live, name(SYSMEM_ABOUT_CAUSE, cause),
               origin.slot, origin.generation);
    else
        printf("the %s: live %u, %s\n", who, live, code(answer));
}

static void odd_uses(void) {
    sysmem_call odd = {0};
    sysmem_reply reply;
    odd.kind = 4000000000u;
    printf("a call before open: %s\n", code(sysmem_step(&core, 0, &odd, &reply)));
    printf("a pool of no page: %s\n", code(sysmem_open(&core, 0, 1000, 64, 8, 64, 64)));
    if (sysmem_open(&core, 16, 1000, 64, 8, 64, 64) != SYSMEM_DONE) exit(1);
    printf("open once more: %s\n", code(sysmem_open(&core, 16, 1000, 64, 8, 64, 64)));
    printf("a kind that is none: %s\n", code(sysmem_step(&core, 0, &odd, &reply)));
    odd.kind = SYSMEM_DROP_HANDLE;
    odd.strength = 2;
    printf("a strength that is none: %s\n", code(sysmem_step(&core, 0, &odd, &reply)));
}

int main(void) {
    static const char *const names[] = {"camera", "encoder", "display"};
    static const uint8_t camping[] = {2, 1, 1};
    static const uint32_t size[] = {4096, 4096, 6000};
    uint64_t who[3], app;
    sysmem_key end[3], root;
    sysmem_reply reply;
    sysmem_call call = {0};
    uint8_t i;

    odd_uses();
    app = plain("app", 0, "joins", SYSMEM_JOIN).id;
    for (i = 0; i < 3; i++) who[i] = plain(names[i], 0, "joins", SYSMEM_JOIN).id;
    reply = plain("app", app, "opens a collection", SYSMEM_OPEN_ROOT);
    root = key_of(reply);
    call.collection = reply.id;
    for (i = 0; i < 3; i++) {
        sysmem_call give = {0};
        sysmem_key token = key_of(on("app", app, "duplicates", SYSMEM_DUPLICATE, root));
        give.kind = SYSMEM_GIVE;
        give.slot = token.slot;
        give.generation = token.generation;
        give.client = who[i];
        step("app", app, "gives", give);
    }
    on("app", app, "releases", SYSMEM_RELEASE, root);
    for (i = 0; i < 3; i++) {
        sysmem_call asks = {0};
        end[i] = key_of(plain(names[i], who[i], "collects", SYSMEM_COLLECT));
        on(names[i], who[i], "binds", SYSMEM_BIND, end[i]);
        asks.kind = SYSMEM_SET_CONSTRAINTS;
        asks.slot = end[i].slot;
        asks.generation = end[i].generation;
        asks.camping = camping[i];
        asks.size = size[i];
        step(names[i], who[i], "constrains", asks);
    }
    on("camera", who[0], "checks", SYSMEM_CHECK, end[0]);
    on("camera", who[0], "takes", SYSMEM_TAKE, end[0]);
    show();
    look(call.collection, who[0]);

    on("display", who[2], "tracks its node", SYSMEM_TRACK_NODE, end[2]);
    on("display", who[2], "closes", SYSMEM_CLOSE, end[2]);
    for (i = 0; i < 2; i++) on(names[i], who[i], "checks", SYSMEM_CHECK, end[i]);
    for (i = 0; i < 3; i++) ask(names[i], end[i]);
    show();
    call.kind = SYSMEM_DROP_HANDLE;
    call.strength = SYSMEM_STRONG;
    for (i = 0; i < 4; i++) {
        call.index = i;
        step("camera", who[0], "drops a handle", call);
    }
    show();
    printf("close: %s\n", code(sysmem_close(&core)));
    printf("close once more: %s\n", code(sysmem_close(&core)));
    return 0;
}
