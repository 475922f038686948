//! The messages of `sysmemd_protocol.h`.
use crate::sys::{Process, Received};
use crate::words::{Ending, Error, Node};
use std::os::unix::io::OwnedFd;
use sysmem_words::numbers::{flag, reply};
use sysmem_words::{Cause, Constraints, Key, Misuse, OutOfRange, Refusal};

pub(crate) const VERSION: u32 = 1;
pub(crate) const MAGIC: u32 = 0x6d73_7973;

/// Requests beside those calls of the core that go over a socket.
pub(crate) mod op {
    pub const HELLO: u32 = 64;
    pub const CLAIM: u32 = 65;
    pub const STATUS: u32 = 66;
    pub const NODES: u32 = 67;
    pub const WAITS_FOR: u32 = 68;
    pub const MEMORY: u32 = 70;
    pub const OPEN_HANDLES: u32 = 71;
    pub const ON_IDLE: u32 = 72;
    pub const OFFER: u32 = 73;
}

/// Replies and events beside those of the core.
pub(crate) mod told {
    pub const FAULT: u32 = 64;
    pub const WELCOME: u32 = 68;
    pub const ALLOCATED: u32 = 128;
    pub const FAILED: u32 = 129;
    pub const IDLE: u32 = 130;
    pub const FIRED: u32 = 131;
    pub const ENDING: u32 = 132;
}

/// Codes of a fault.
const BAD_CALL: u32 = 4;
const HISTORY_FULL: u32 = 5;
const NO_MEMORY: u32 = 6;

/// What a socket is.
pub(crate) mod object {
    pub const NOTHING: u32 = 0;
    pub const TOKEN: u32 = 2;
    pub const COLLECTION: u32 = 3;
    pub const LEASE: u32 = 4;
    pub const TRACKER: u32 = 5;
}

/// A request. What an op does not read is zero.
#[derive(Clone, Copy, Default)]
pub(crate) struct Request {
    pub op: u32,
    pub serial: u32,
    pub size: u32,
    pub left: u32,
    pub camping: u8,
    pub at_least: u8,
    pub children: u8,
    pub cookie: u64,
    pub label: [u8; 32],
}

pub(crate) fn request(op: u32) -> Request {
    Request { op, ..Request::default() }
}

impl Request {
    /// With a label, or as many of its bytes as there is room for.
    pub fn named(op: u32, label: &str) -> Request {
        let mut made = request(op);
        let mut length = label.len().min(made.label.len() - 1);
        while !label.is_char_boundary(length) {
            length -= 1;
        }
        made.label[..length].copy_from_slice(&label.as_bytes()[..length]);
        made
    }

    pub fn bytes(&self) -> [u8; 64] {
        let mut all = [0; 64];
        for (place, word) in [self.op, self.serial, self.size, self.left].iter().enumerate() {
            all[4 * place..4 * place + 4].copy_from_slice(&word.to_ne_bytes());
        }
        all[16..19].copy_from_slice(&[self.camping, self.at_least, self.children]);
        all[24..32].copy_from_slice(&self.cookie.to_ne_bytes());
        all[32..].copy_from_slice(&self.label);
        all
    }
}

/// The bytes of a reply, of an element of a list, and how many elements a message has at most.
const REPLY: usize = 96;
const NODE: usize = 112;
const NODES_AT_ONCE: usize = 32;
/// The longest message.
pub(crate) const LONGEST: usize = REPLY + NODES_AT_ONCE * NODE;

/// A reply or an event, and what came along.
#[derive(Debug)]
pub(crate) struct Message {
    pub kind: u32,
    pub serial: u32,
    pub detail: u32,
    pub key: Key,
    pub count: u32,
    pub size: u32,
    pub index: u32,
    pub id: u64,
    pub set: u64,
    pub event: u64,
    /// All of it, at least as many bytes as a reply has.
    bytes: Vec<u8>,
    pub fds: Vec<OwnedFd>,
    /// If the socket tells it.
    pub sender: Option<Process>,
}

fn word(bytes: &[u8], at: usize) -> u32 {
    u32::from_ne_bytes([bytes[at], bytes[at + 1], bytes[at + 2], bytes[at + 3]])
}

fn long(bytes: &[u8], at: usize) -> u64 {
    let mut long = [0; 8];
    long.copy_from_slice(&bytes[at..at + 8]);
    u64::from_ne_bytes(long)
}

fn key(bytes: &[u8], at: usize) -> Key {
    Key { slot: word(bytes, at), generation: word(bytes, at + 4) }
}

fn label(bytes: &[u8], at: usize) -> Option<String> {
    let text = bytes[at..at + 32].split(|byte| *byte == 0).next()?;
    Some(String::from_utf8_lossy(text).into_owned()).filter(|label| !label.is_empty())
}

impl Message {
    /// `None` if it is too short: then the other side is no daemon of this version.
    pub fn of(bytes: &[u8], got: Received) -> Option<Message> {
        let bytes = bytes[..got.length].to_vec();
        if bytes.len() < REPLY {
            return None;
        }
        let b = &bytes;
        let mut made = Message {
            kind: word(b, 0),
            serial: word(b, 4),
            detail: word(b, 8),
            key: key(b, 12),
            count: word(b, 20),
            size: word(b, 24),
            index: word(b, 28),
            id: long(b, 32),
            set: long(b, 40),
            event: long(b, 48),
            bytes,
            fds: got.fds,
            sender: got.sender,
        };
        if got.is_cut {
            (made.kind, made.detail) = (told::FAULT, NO_MEMORY); // this process has no descriptor left
        }
        Some(made)
    }

    /// Why the call did not succeed, if it did not.
    pub fn error(&self, asked: &Request) -> Option<Error> {
        let Request { camping, at_least, size, .. } = *asked;
        let known = match self.kind {
            reply::REFUSED => Refusal::at(self.detail).map(Error::Refused),
            reply::MISUSED => Misuse::at(self.detail).map(Error::Misused),
            reply::PEER_CLOSED | told::FAILED => Cause::at(self.detail).map(|cause| {
                let (label, process) = (label(&self.bytes, 56), word(&self.bytes, 88));
                Error::PeerClosed { cause, origin: self.key, label, process }
            }),
            told::FAULT => match self.detail {
                BAD_CALL => Some(Error::BadCall(OutOfRange::of_constraints(camping, at_least, size))),
                HISTORY_FULL => Some(Error::HistoryFull),
                NO_MEMORY => Some(Error::NoMemory),
                _ => None,
            },
            kind if kind < reply::REFUSED || (kind > told::FAULT && kind <= told::WELCOME) => {
                return None;
            }
            _ => None,
        };
        Some(known.unwrap_or(Error::Ended(Ending::WrongVersion)))
    }

    /// The nodes of a list.
    pub fn nodes(&self) -> impl Iterator<Item = Node> + '_ {
        self.bytes[REPLY..].chunks_exact(NODE).take(self.count as usize).map(node_of)
    }
}

fn node_of(b: &[u8]) -> Node {
    let flags = word(b, 48);
    let is = |bit: u32| flags & bit != 0;
    let constraints = Constraints { camping: b[64], at_least: b[65], size: word(b, 68) };
    let fault = Cause::at(word(b, 52)).map(|cause| (cause, key(b, 56)));
    Node {
        key: key(b, 0),
        parent: key(b, 8),
        head: key(b, 16),
        collection: long(b, 24),
        event: long(b, 32),
        label: label(b, 72),
        process: word(b, 104),
        user: word(b, 108),
        is_attached: is(flag::ATTACHED),
        is_allocated: is(flag::ALLOCATED),
        is_gone: is(flag::GONE),
        is_released: is(flag::RELEASED),
        is_dispensable: is(flag::DISPENSABLE),
        is_weak: is(flag::WEAK),
        is_weak_ok: is(flag::WEAK_OK),
        is_bound: is(flag::BOUND),
        constraints: is(flag::CONSTRAINED).then_some(constraints),
        fault: fault.filter(|_| is(flag::FAILED)),
    }
}

#[cfg(test)]
mod tests {
    use super::*;

    #[test]
    fn numbers_are_the_header_s() {
        let header = concat!(env!("CARGO_MANIFEST_DIR"), "/../include/sysmemd_protocol.h");
        let header = std::fs::read_to_string(header).unwrap();
        let ops = [
            ("HELLO", op::HELLO),
            ("CLAIM", op::CLAIM),
            ("STATUS", op::STATUS),
            ("NODES", op::NODES),
            ("WAITS_FOR", op::WAITS_FOR),
            ("MEMORY", op::MEMORY),
            ("OPEN_HANDLES", op::OPEN_HANDLES),
            ("ON_IDLE", op::ON_IDLE),
            ("OFFER", op::OFFER),
        ];
        let replies = [
            ("FAULT", told::FAULT),
            ("WELCOME", told::WELCOME),
            ("ALLOCATED", told::ALLOCATED),
            ("FAILED", told::FAILED),
            ("IDLE", told::IDLE),
            ("FIRED", told::FIRED),
            ("ENDING", told::ENDING),
            ("MALFORMED", Ending::Malformed as u32),
            ("CLAIMED", Ending::Claimed as u32),
            ("VERSION_IS", Ending::WrongVersion as u32),
            ("CROWDED", Ending::Crowded as u32),
            ("LATE", Ending::Late as u32),
            ("UNREAD", Ending::Unread as u32),
        ];
        let objects = [
            ("NOTHING", object::NOTHING),
            ("TOKEN", object::TOKEN),
            ("COLLECTION", object::COLLECTION),
            ("LEASE", object::LEASE),
            ("TRACKER", object::TRACKER),
        ];
        for (name, number) in ops.iter().chain(&replies).chain(&objects) {
            let line = format!(" SYSMEMD_{name} = {number}");
            assert!(header.lines().any(|l| l.contains(&line)), "the header lacks{line}");
        }
        for (name, number) in [("VERSION", VERSION), ("NODES_AT_ONCE", NODES_AT_ONCE as u32)] {
            assert!(header.contains(&format!("#define SYSMEMD_{name} {number}\n")), "{name}");
        }
        assert!(header.contains(&format!("#define SYSMEMD_MAGIC {MAGIC:#x}u")));
        for (name, size) in [("request", 64), ("reply", REPLY), ("node", NODE)] {
            assert!(header.contains(&format!("SYSMEM_SIZE(sysmemd_{name}, {size})")), "{name}");
        }
    }
}
