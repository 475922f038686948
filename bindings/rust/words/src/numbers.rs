//! The numbers of `sysmem.h`.
#![allow(missing_docs)]

/// Calls.
pub mod kind {
    pub const JOIN: u32 = 0;
    pub const SHUT: u32 = 1;
    pub const OPEN_ROOT: u32 = 2;
    pub const DUPLICATE: u32 = 3;
    pub const ATTACH_TOKEN: u32 = 4;
    pub const SYNC: u32 = 5;
    pub const GIVE: u32 = 6;
    pub const COLLECT: u32 = 7;
    pub const BIND: u32 = 8;
    pub const SET_DISPENSABLE: u32 = 9;
    pub const SET_WEAK: u32 = 10;
    pub const SET_WEAK_OK: u32 = 11;
    pub const SET_CONSTRAINTS: u32 = 12;
    pub const CHECK: u32 = 13;
    pub const TAKE: u32 = 14;
    pub const RELEASE: u32 = 15;
    pub const CLOSE: u32 = 16;
    pub const DUP_HANDLE: u32 = 17;
    pub const DROP_HANDLE: u32 = 18;
    pub const GIVE_HANDLE: u32 = 19;
    pub const TRACK_NODE: u32 = 20;
    pub const TRACK_LIFETIME: u32 = 21;
    pub const TRACK_WEAK: u32 = 22;
}

/// Replies.
pub mod reply {
    pub const OK: u32 = 0;
    pub const JOINED: u32 = 1;
    pub const IS_SHUT: u32 = 2;
    pub const NEW_TOKEN: u32 = 3;
    pub const COLLECTED: u32 = 4;
    pub const COLLECTED_HANDLE: u32 = 5;
    pub const EMPTY: u32 = 6;
    pub const PENDING: u32 = 7;
    pub const ALLOCATED: u32 = 8;
    pub const TAKEN: u32 = 9;
    pub const TRACKER: u32 = 10;
    pub const REFUSED: u32 = 11;
    pub const MISUSED: u32 = 12;
    pub const PEER_CLOSED: u32 = 13;
}

/// The bits of a node's flags.
pub mod flag {
    pub const ATTACHED: u32 = 1;
    pub const ALLOCATED: u32 = 2;
    pub const GONE: u32 = 4;
    pub const FAILED: u32 = 8;
    pub const RELEASED: u32 = 16;
    pub const DISPENSABLE: u32 = 32;
    pub const WEAK: u32 = 64;
    pub const WEAK_OK: u32 = 128;
    pub const CONSTRAINED: u32 = 256;
    pub const BOUND: u32 = 512;
    pub const IN_TRANSIT: u32 = 1024;
}
