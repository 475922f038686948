/** \file
 * What goes over the sockets of sysmemd: structs over AF_UNIX SOCK_SEQPACKET, in the machine's own byte order.
 *
 * A client sends messages of one sysmemd_request, or of several, SYSMEMD_AT_ONCE at most, one behind the other. The daemon
 * answers each request but OFFER by one message, a sysmemd_reply with its serial, in their order, and sends events,
 * which are replies with serial 0. What one request is answered does not stop those behind it. No message of a client
 * carries a descriptor, and none names another object: a request is about the object whose socket it comes on. A message of
 * another length, with a descriptor, with a field that is not zero although its op does not read it, or with an op that the
 * object does not have, ends the socket, and nothing of it is done.
 *
 * Objects are sockets: a connection (the path), an end (a token, then a collection), a lease (an open handle), a
 * tracker. To close the last copy of a descriptor is SYSMEM_CLOSE of an end, SYSMEM_DROP_HANDLE of a lease. */
#ifndef SYSMEMD_PROTOCOL_H
#define SYSMEMD_PROTOCOL_H

#include "sysmem.h"

#ifdef __cplusplus
extern "C" {
#endif

/** The version of the protocol, which a client says in its first message, and the daemon in its reply. */
#define SYSMEMD_VERSION 1
/** "sysm", in a Hello's field `size`. */
#define SYSMEMD_MAGIC 0x6d737973u
/** How many requests a message has at most. TAKE, RELEASE, HELLO, CLAIM, and those that are answered by a list, are its last. */
#define SYSMEMD_AT_ONCE 16

/** The ops beside those numbers of sysmem_kind that go over a socket: OPEN_ROOT (label) on a connection; DUPLICATE and
 * ATTACH_TOKEN (label), SYNC, BIND, SET_DISPENSABLE, SET_WEAK, SET_WEAK_OK (children), SET_CONSTRAINTS (camping, at_least,
 * size), CHECK, TAKE, RELEASE, TRACK_NODE, TRACK_LIFETIME (left) on an end; DUP_HANDLE, TRACK_WEAK on a lease. */
enum sysmemd_op {
    SYSMEMD_HELLO = 64,        /**< connection, the first message, within some seconds; size: the magic, left: the version,
                                    label */
    SYSMEMD_CLAIM = 65,        /**< connection; cookie: SO_COOKIE of a socket on which size and left were offered. The
                                    object of that socket gets a new one, which comes along; all copies of the former end */
    SYSMEMD_STATUS = 66,       /**< connection: numbers of the peer's own core */
    SYSMEMD_NODES = 67,        /**< connection: the kept nodes of the peer's own core, from the one with number `left` on */
    SYSMEMD_WAITS_FOR = 68,    /**< end: the nodes whose constraints are missing, from the one with number `left` on */
    SYSMEMD_DESCRIBE = 69,     /**< end, lease, tracker: what it is */
    SYSMEMD_MEMORY = 70,       /**< lease: the buffer's memfd */
    SYSMEMD_OPEN_HANDLES = 71, /**< lease: how many leases of this buffer are open */
    SYSMEMD_ON_IDLE = 72,      /**< lease; left: tell once at most so many leases of this buffer are open; cookie: a
                                    number that the event repeats, so that one of an earlier wait is known as such */
    SYSMEMD_OFFER = 73,        /**< end, lease, tracker; size, left: a random number, not 0 both, for CLAIM. It has no
                                    reply */
    SYSMEMD_INSPECT = 74,      /**< connection of the daemon's own uid, or root: the objects of all uids, from number `left` on */
    SYSMEMD_STATUS_OF = 75,    /**< the same: numbers of the core of the uid `left` */
    SYSMEMD_TRANSCRIPT = 76    /**< the same: the transcript of this core, open for reading */
};

/** A request: 64 bytes. What an op does not read is zero. */
typedef struct sysmemd_request {
    uint32_t op;      /**< a sysmem_kind, or a sysmemd_op */
    uint32_t serial;  /**< not 0; the reply has it */
    uint32_t size;    /**< SET_CONSTRAINTS; HELLO, OFFER, CLAIM */
    uint32_t left;    /**< TRACK_LIFETIME, ON_IDLE, NODES, WAITS_FOR; HELLO, OFFER, CLAIM */
    uint8_t camping;  /**< SET_CONSTRAINTS */
    uint8_t at_least; /**< SET_CONSTRAINTS */
    uint8_t children; /**< SET_WEAK_OK */
    uint8_t zero;     /**< 0 */
    uint32_t zero2;   /**< 0 */
    uint64_t cookie;  /**< CLAIM, ON_IDLE */
    char label[32];   /**< of what is made, for people; its last byte is 0 */
} sysmemd_request;
SYSMEM_SIZE(sysmemd_request, 64);

/** The kinds of replies beside those of sysmem_reply_kind, and of events. */
enum sysmemd_reply_kind {
    SYSMEMD_FAULT = 64,      /**< detail: a sysmem_code; no event was made */
    SYSMEMD_DESCRIBED = 65,  /**< detail: a sysmemd_object. Of an end: key, id, label, count 1 if its unit is allocated and
                                2 if it failed. Of a lease: id, index, set: the strength, size: bytes. Of a tracker: id,
                                count 1 if it fired, set: at which event. NOTHING: there is no such object, or (count 1)
                                the number was not offered, or not yet read */
    SYSMEMD_STATE = 66,      /**< count: live nodes, size: free pages, id: held buffers, set: descriptors of the
                                core's objects, index: pages, event: events so far, detail: memfds */
    SYSMEMD_LIST = 67,       /**< count: how many sysmemd_node follow in this message, SYSMEMD_NODES_AT_ONCE at most; set: how
                                many there are in all; event: while it is the same, so is the list */
    SYSMEMD_WELCOME = 68,    /**< to HELLO; detail: the daemon's version of the protocol */
    SYSMEMD_OBJECTS = 69,    /**< count: how many sysmemd_seen follow in this message, SYSMEMD_SEEN_AT_ONCE at most; set: the
                                number to begin with next, 0 at the end. Objects that come or go meanwhile may be missing */
    SYSMEMD_ALLOCATED = 128, /**< event on an end: its unit is allocated; count buffers of size bytes */
    SYSMEMD_FAILED = 129,    /**< event on an end: detail: cause; key, label, pid: the origin */
    SYSMEMD_IDLE = 130,      /**< event on a lease: count leases are open, as few as ON_IDLE asked; set: its number */
    SYSMEMD_FIRED = 131,     /**< event on a tracker; id: the tracker, set: the event at which it fired */
    SYSMEMD_ENDING = 132     /**< event on any socket, which then ends; detail: a sysmemd_ending, count: the daemon's
                                version of the protocol. A socket that ends without it: the daemon is gone */
};

/** A refusal beside those of sysmem_refusal. */
enum sysmemd_refusal {
    SYSMEMD_NOT_ALLOWED = 64, /**< only the daemon's own uid and root may ask this */
    SYSMEMD_NO_SUCH_CORE = 65 /**< the uid has no core, or that has no transcript */
};

/** Why the daemon ends a socket. */
enum sysmemd_ending {
    SYSMEMD_MALFORMED = 1, /**< a message was malformed */
    SYSMEMD_CLAIMED = 2,   /**< somebody claimed the object, and has its new socket */
    SYSMEMD_VERSION_IS = 3, /**< the daemon does not speak the version of the Hello */
    SYSMEMD_CROWDED = 4,   /**< a limit allows no more connections, uids or descriptors */
    SYSMEMD_LATE = 5,      /**< no Hello came */
    SYSMEMD_UNREAD = 6     /**< a reply could not be sent: the system had no memory for it; this may be missing, too */
};

/** What a socket is. */
enum sysmemd_object {
    SYSMEMD_NOTHING = 0,    /**< no object of this daemon */
    SYSMEMD_CONNECTION = 1, /**< a connection */
    SYSMEMD_TOKEN = 2,      /**< an end that is not bound */
    SYSMEMD_COLLECTION = 3, /**< a bound end */
    SYSMEMD_LEASE = 4,      /**< an open handle */
    SYSMEMD_TRACKER = 5     /**< a tracker */
};

/** A reply or an event: 96 bytes. Descriptors come along: one with NEW_TOKEN, TRACKER, the OK of MEMORY and TRANSCRIPT and a
 * CLAIM that succeeded; a lease and a memfd for each buffer of TAKEN, by index, and the same two with the OK of DUP_HANDLE. */
typedef struct sysmemd_reply {
    uint32_t kind;       /**< a sysmem_reply_kind, or a sysmemd_reply_kind */
    uint32_t serial;     /**< of the request; 0: an event */
    uint32_t detail;     /**< as in sysmem_reply, or as said above */
    uint32_t slot;       /**< of the node's key, or of the origin's */
    uint32_t generation; /**< of the node's key, or of the origin's */
    uint32_t count;      /**< how many buffers, or as said above */
    uint32_t size;       /**< bytes of each buffer */
    uint32_t index;      /**< of the buffer */
    uint64_t id;         /**< a collection or a tracker */
    uint64_t set;        /**< bit i stands for buffer i */
    uint64_t event;      /**< of the core so far */
    char label[32];      /**< of the origin */
    uint32_t pid;        /**< of the process that sent the last message on the origin's end; 0: none did */
    uint32_t uid;        /**< of the same */
} sysmemd_reply;
SYSMEM_SIZE(sysmemd_reply, 96);

/** An element of a LIST. */
typedef struct sysmemd_node {
    sysmem_node node; /**< as sysmem_nodes writes it; all have one holder, the daemon */
    char label[32];   /**< its label */
    uint32_t pid;     /**< of the process that sent the last message on its end; 0: none did */
    uint32_t uid;     /**< of the same */
} sysmemd_node;
SYSMEM_SIZE(sysmemd_node, 112);

/** How many elements a message has at most. */
#define SYSMEMD_NODES_AT_ONCE 32

/** The bits of a sysmemd_seen's state. */
enum sysmemd_seen_state {
    SYSMEMD_SEEN_SILENT = 1, /**< a connection that said no Hello yet */
    SYSMEMD_SEEN_UNREAD = 2, /**< its replies are unread: its requests wait */
    SYSMEMD_SEEN_WAITS = 4,  /**< a lease whose holder waits until few are open; a tracker that did not fire */
    SYSMEMD_SEEN_ENDS = 8    /**< it was cut off */
};

/** An element of OBJECTS: an object of the daemon. What its kind does not have is zero. */
typedef struct sysmemd_seen {
    uint8_t is;          /**< a sysmemd_object */
    uint8_t state;       /**< bits of sysmemd_seen_state */
    uint8_t camping;     /**< of an end: the buffers that its node camps on */
    uint8_t at_least;    /**< of an end: the least number of buffers that it asked for */
    uint8_t cause;       /**< of an end whose node failed: why */
    uint8_t index;       /**< of a lease: its buffer */
    uint8_t strength;    /**< of a lease */
    uint8_t count;       /**< of an end, a lease: buffers of the collection; 0: not allocated */
    uint32_t core;       /**< the uid whose core it is of */
    uint32_t pid;        /**< of the process that sent the last message on it; 0: none did */
    uint32_t uid;        /**< of the same */
    uint32_t flags;      /**< of an end: bits of sysmem_node_flag */
    char label[32];      /**< its label */
    sysmem_key key;      /**< of an end: its node */
    sysmem_key parent;   /**< of an end: the node's parent; a root is its own */
    sysmem_key head;     /**< of an end: the head of its unit */
    sysmem_key above;    /**< of an end: the head of the unit above; its own if there is none */
    sysmem_key origin;   /**< of an end whose node failed: the node whose loss reached it */
    uint64_t id;         /**< its collection, or the tracker */
    uint64_t held;       /**< of an end, a lease: bit i: buffer i of the collection holds pages. Of a tracker: the event at
                              which it fired */
    uint32_t asked;      /**< of an end: bytes of each buffer that it asked for */
    uint32_t size;       /**< of an end, a lease: bytes of each buffer of the collection */
} sysmemd_seen;
SYSMEM_SIZE(sysmemd_seen, 120);

/** How many of them a message has at most. */
#define SYSMEMD_SEEN_AT_ONCE 29

/** A message of OBJECTS. */
typedef struct sysmemd_inspected {
    sysmemd_reply reply;                     /**< OBJECTS */
    sysmemd_seen seen[SYSMEMD_SEEN_AT_ONCE]; /**< `count` of them are sent */
} sysmemd_inspected;
SYSMEM_SIZE(sysmemd_inspected, 96 + 120 * SYSMEMD_SEEN_AT_ONCE);

/** The longest message of the daemon. */
typedef struct sysmemd_list {
    sysmemd_reply reply;                       /**< a LIST */
    sysmemd_node nodes[SYSMEMD_NODES_AT_ONCE]; /**< `count` of them are sent */
} sysmemd_list;
SYSMEM_SIZE(sysmemd_list, 96 + 112 * SYSMEMD_NODES_AT_ONCE);

#ifdef __cplusplus
}
#endif

#endif
