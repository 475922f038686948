/* A client of sysmemd in C over sysmemd_protocol.h alone: it opens a collection for itself, takes its two buffers, writes
 * into the second, learns how many handles are open, passes one of them by a fork, and learns that it came back. */
#define _GNU_SOURCE
#include "sysmemd_protocol.h"

#include <stdio.h>
#include <stdlib.h>
#include <string.h>
#include <sys/mman.h>
#include <sys/socket.h>
#include <sys/un.h>
#include <sys/wait.h>
#include <unistd.h>

static void fail(const char *what) {
    perror(what);
    exit(1);
}

/* A connection to the daemon of this path. */
static int connect_to(const char *path) {
    struct sockaddr_un name = {.sun_family = AF_UNIX};
    int fd = socket(AF_UNIX, SOCK_SEQPACKET | SOCK_CLOEXEC, 0);
    if (fd < 0 || strlen(path) >= sizeof name.sun_path) fail(path);
    strcpy(name.sun_path, path);
    if (connect(fd, (struct sockaddr *)&name, sizeof name)) fail(path);
    return fd;
}

/* The next message of this object; the descriptors that come along, of `room` at most, are the caller's. */
static sysmemd_reply receive(int fd, int *fds, size_t room, size_t *count) {
    sysmemd_reply reply;
    struct iovec part = {&reply, sizeof reply};
    union {
        struct cmsghdr align;
        char bytes[CMSG_SPACE(sizeof(int) * 128)];
    } space;
    struct msghdr m = {.msg_iov = &part, .msg_iovlen = 1, .msg_control = &space, .msg_controllen = sizeof space};
    struct cmsghdr *c;
    *count = 0;
    if (recvmsg(fd, &m, MSG_CMSG_CLOEXEC) != (ssize_t)sizeof reply) fail("receive");
    c = CMSG_FIRSTHDR(&m);
    if (c && c->cmsg_type == SCM_RIGHTS) {
        *count = (c->cmsg_len - CMSG_LEN(0)) / sizeof(int);
        if (*count > room) fail("too many descriptors");
        memcpy(fds, CMSG_DATA(c), *count * sizeof(int));
    }
    return reply;
}

/* Sends a request, and waits for its reply; events that come before are told. */
static sysmemd_reply ask(int fd, sysmemd_request q, int *fds, size_t room, size_t *count) {
    static uint32_t serial = 0;
    q.serial = ++serial;
    if (send(fd, &q, sizeof q, MSG_NOSIGNAL) != (ssize_t)sizeof q) fail("send");
    for (;;) {
        sysmemd_reply reply = receive(fd, fds, room, count);
        if (reply.serial == q.serial) {
            if (reply.kind == SYSMEMD_FAULT || (reply.kind >= SYSMEM_REFUSED && reply.kind <= SYSMEM_PEER_CLOSED)) {
                fprintf(stderr, "op %u: reply %u, detail %u\n", q.op, reply.kind, reply.detail);
                exit(1);
            }
            return reply;
        }
        if (reply.kind == SYSMEMD_ALLOCATED) printf("allocated: %u buffers of %u bytes\n", reply.count, reply.size);
    }
}

/* A request that brings so many descriptors. */
static sysmemd_reply call(int fd, sysmemd_request q, int *fds, size_t wanted) {
    size_t count;
    sysmemd_reply reply = ask(fd, q, fds, wanted, &count);
    if (count != wanted) fail("descriptors");
    return reply;
}

int main(void) {
    const char *path = getenv("SYSMEM_SOCKET");
    int daemon, node, fds[4], none[1]; /* a lease and a memfd for each buffer */
    sysmemd_request q = {.op = SYSMEMD_HELLO, .size = SYSMEMD_MAGIC, .left = SYSMEMD_VERSION, .label = "raw"};
    sysmemd_reply reply;
    char *bytes;
    pid_t child;

    daemon = connect_to(path ? path : "/run/sysmem-0");
    reply = call(daemon, q, none, 0);
    printf("protocol %u\n", reply.detail);

    call(daemon, (sysmemd_request){.op = SYSMEM_OPEN_ROOT, .label = "raw"}, &node, 1);
    call(node, (sysmemd_request){.op = SYSMEM_BIND}, none, 0);
    call(node, (sysmemd_request){.op = SYSMEM_SET_CONSTRAINTS, .camping = 2, .size = 8192}, none, 0);
    reply = call(node, (sysmemd_request){.op = SYSMEM_TAKE}, fds, 4);
    printf("taken: set %llu\n", (unsigned long long)reply.set);
    bytes = mmap(NULL, reply.size, PROT_READ | PROT_WRITE, MAP_SHARED, fds[3], 0);
    if (bytes == MAP_FAILED) fail("mmap");
    strcpy(bytes, "a frame");

    /* A second handle on that buffer, for a child, which has it by birth and dies with it. */
    {
        int more[2];
        call(fds[2], (sysmemd_request){.op = SYSMEM_DUP_HANDLE}, more, 2);
        fflush(stdout);
        child = fork();
        if (child == 0) {
            close(fds[2]);
            bytes = mmap(NULL, reply.size, PROT_READ, MAP_SHARED, more[1], 0);
            printf("the child reads: %s\n", bytes);
            fflush(stdout);
            abort();
        }
        close(more[0]);
        close(more[1]);
    }
    call(fds[2], (sysmemd_request){.op = SYSMEMD_ON_IDLE, .left = 1, .cookie = 7}, none, 0);
    reply = receive(fds[2], none, 0, &(size_t){0});
    if (reply.kind == SYSMEMD_IDLE) printf("idle: %u handle open, wait %llu\n", reply.count, (unsigned long long)reply.set);
    waitpid(child, NULL, 0);

    call(node, (sysmemd_request){.op = SYSMEM_RELEASE}, none, 0);
    close(fds[0]); /* drops the handle */
    close(fds[2]);
    printf("released\n");
    return 0;
}
