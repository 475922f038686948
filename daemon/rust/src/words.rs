//! What calls answer, and why they don't succeed.
use std::fmt;
use std::io::ErrorKind;
use std::path::PathBuf;
use std::time::Duration;
#[doc(inline)]
pub use sysmem_words::{
    Allocation, Buffer, Cancel, Cause, CollectionId, Constraints, Descriptor, Event, Key, Misuse, OutOfRange, Patience,
    Pending, Refusal, Strength, TrackerId, Waited,
};

/// Where the daemon is, and how long a call may take.
#[derive(Clone, Debug, Default, PartialEq, Eq)]
pub struct Options {
    /// The path of its socket; without one that of `$SYSMEM_SOCKET`, or `$XDG_RUNTIME_DIR/sysmem-0`.
    pub path: Option<PathBuf>,
    /// After so long a call answers `TimeOver`. Its event may still be made, and what comes then is closed.
    /// Waits have a time of their own.
    pub deadline: Option<Duration>,
}

/// A kept node: one that is not gone, or whose end is not spent.
#[derive(Clone, Debug, PartialEq, Eq)]
#[non_exhaustive]
pub struct Node {
    /// The node.
    pub key: Key,
    /// Its parent; a root is its own.
    pub parent: Key,
    /// The head of its unit.
    pub head: Key,
    /// Its collection.
    pub collection: CollectionId,
    /// The event at which it was born.
    pub event: Event,
    /// Its label, if it has one.
    pub label: Option<String>,
    /// The process that used its end last, or made it.
    pub process: u32,
    /// The user of that process.
    pub user: u32,
    /// Whether it heads an attached unit.
    pub is_attached: bool,
    /// Whether its unit is allocated.
    pub is_allocated: bool,
    /// Whether it failed or ended.
    pub is_gone: bool,
    /// Whether it was released.
    pub is_released: bool,
    /// Whether it is dispensable.
    pub is_dispensable: bool,
    /// Whether it is weak.
    pub is_weak: bool,
    /// Whether it takes weak handles.
    pub is_weak_ok: bool,
    /// Whether its end is bound.
    pub is_bound: bool,
    /// What it asked for.
    pub constraints: Option<Constraints>,
    /// Why it failed, and the node whose loss reached it.
    pub fault: Option<(Cause, Key)>,
}

/// A node that an allocation waits for: it has no constraints yet.
#[derive(Clone, Debug, PartialEq, Eq)]
#[non_exhaustive]
pub struct Waits {
    /// The node.
    pub node: Key,
    /// Its label, if it has one.
    pub label: Option<String>,
    /// Whether its end is bound.
    pub is_bound: bool,
    /// The event at which it was born.
    pub event: Event,
    /// The process that used its end last, or made it.
    pub process: u32,
}

impl From<Node> for Waits {
    fn from(of: Node) -> Waits {
        let Node { key: node, label, is_bound, event, process, .. } = of;
        Waits { node, label, is_bound, event, process }
    }
}

impl fmt::Display for Waits {
    fn fmt(&self, f: &mut fmt::Formatter<'_>) -> fmt::Result {
        match &self.label {
            Some(label) => f.write_str(label)?,
            None => self.node.fmt(f)?,
        }
        let how = if self.is_bound { "held by" } else { "a token of" };
        write!(f, " ({how} process {})", self.process)
    }
}

/// Numbers of the core that the daemon keeps for the caller's user.
#[derive(Clone, Copy, Debug, Default, PartialEq, Eq, Hash)]
#[non_exhaustive]
pub struct Status {
    /// The live nodes.
    pub live: u32,
    /// The pages of the pool.
    pub pages: u32,
    /// The pages that no buffer holds.
    pub free_pages: u32,
    /// The buffers that hold pages.
    pub held: u64,
    /// The descriptors that the daemon has open for this user.
    pub descriptors: u64,
    /// The memories that the daemon has open for this user.
    pub memories: u32,
    /// How many events there were.
    pub events: u64,
}

/// Why a value no longer reaches the daemon.
#[derive(Clone, Copy, Debug, PartialEq, Eq, PartialOrd, Ord, Hash)]
#[non_exhaustive]
#[repr(u32)]
pub enum Ending {
    /// The daemon cut it off for a malformed message.
    Malformed = 1,
    /// Somebody adopted a copy of its descriptor.
    Claimed = 2,
    /// The daemon speaks another version of the protocol.
    WrongVersion = 3,
    /// The daemon takes no more connections.
    Crowded = 4,
    /// The daemon heard no greeting in time.
    Late = 5,
    /// A reply could not be sent: the daemon's system had no memory for it.
    Unread = 6,
    /// The daemon is gone.
    Gone = 64,
}

impl Ending {
    pub(crate) fn of(number: u32) -> Ending {
        use Ending::*;
        let all = [Malformed, Claimed, WrongVersion, Crowded, Late, Unread];
        all.into_iter().find(|one| *one as u32 == number).unwrap_or(WrongVersion)
    }
}

impl fmt::Display for Ending {
    fn fmt(&self, f: &mut fmt::Formatter<'_>) -> fmt::Result {
        f.write_str(match self {
            Ending::Malformed => "a message was malformed",
            Ending::Claimed => "another one claimed it",
            Ending::WrongVersion => "the daemon has another version",
            Ending::Crowded => "the daemon takes no more",
            Ending::Late => "no Hello came in time",
            Ending::Unread => "a reply could not be sent",
            Ending::Gone => "the daemon is gone",
        })
    }
}

/// Why a call did not succeed.
#[derive(Clone, Debug, PartialEq, Eq, Hash)]
#[non_exhaustive]
pub enum Error {
    /// The call was refused, and nothing changed.
    Refused(Refusal),
    /// The caller's own node failed by this call.
    Misused(Misuse),
    /// The node had failed.
    #[non_exhaustive]
    PeerClosed {
        /// Why.
        cause: Cause,
        /// The node whose loss reached it.
        origin: Key,
        /// The label of the origin, if it has one.
        label: Option<String>,
        /// The process that used the origin's end last, or made it; 0 if it is not known any more.
        process: u32,
    },
    /// Constraints are out of range.
    BadCall(OutOfRange),
    /// The limit allows no further event.
    HistoryFull,
    /// Memory or a descriptor was refused, here or in the daemon; the same call may succeed later.
    NoMemory,
    /// The value no longer reaches the daemon. No event.
    Ended(Ending),
    /// Nobody serves the path, or it may not be used.
    NoService(ErrorKind),
    /// The deadline of the call is over.
    TimeOver,
    /// What should be given could not be sent, and is as it was.
    NoReceiver(ErrorKind),
    /// The socket over which something should come has ended.
    NoGiver,
}

sysmem_words::errors!(f:
    Error::Ended(ending) => ending.fmt(f),
    Error::NoService(kind) => write!(f, "nobody serves this path: {kind}"),
    Error::TimeOver => f.write_str("the deadline is over"),
    Error::NoReceiver(kind) => write!(f, "it can't be sent: {kind}"),
    Error::NoGiver => f.write_str("the giver is gone"),
);
