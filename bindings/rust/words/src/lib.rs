//! The words of the crates `sysmem`, whose clients are threads, and `sysmem_remote`, whose clients are
//! processes: both have these types, so that a value of one crate goes into the other, and one [`Cancel`] ends
//! waits of both. This crate links nothing. Programs have its items by those two.
#![warn(rust_2018_idioms)]
#![deny(missing_docs)]

mod descriptor;
mod ends;
#[doc(hidden)]
pub mod numbers;
mod waits;

pub use descriptor::Descriptor;
pub use waits::{Cancel, Patience, Waited};
#[doc(hidden)]
pub use waits::{Ring, Waiting};

use std::fmt;

/// The number of a collection.
pub type CollectionId = u64;
/// The number of a tracker.
pub type TrackerId = u64;
/// The number of an event, from 1 on.
pub type Event = u64;

macro_rules! numbers {
    ($(#[$doc:meta])* $kind:ident, $($(#[$of:meta])* $name:ident = $number:expr),+) => {
        $(#[$doc])*
        #[derive(Clone, Copy, Debug, PartialEq, Eq, PartialOrd, Ord, Hash)]
        #[repr(u32)]
        pub enum $kind { $($(#[$of])* $name = $number),+ }

        impl $kind {
            /// All of them.
            #[doc(hidden)]
            pub const ALL: &'static [$kind] = &[$($kind::$name),+];

            /// The one with this number, if there is one.
            #[doc(hidden)]
            pub fn at(number: u32) -> Option<$kind> {
                $kind::ALL.iter().copied().find(|one| *one as u32 == number)
            }

            /// The one with this number, which there is.
            #[doc(hidden)]
            pub fn of(number: u32) -> $kind {
                let one = $kind::at(number);
                one.unwrap_or_else(|| unreachable!("no {} {number}", stringify!($kind)))
            }
        }
    };
}

numbers!(
    /// Why a call was refused. A refused call changes nothing but the number of events.
    Refusal,
    /// The caller or the receiver never joined.
    NoSuchClient = 1,
    /// The receiver is shut; or the caller is, and the call makes a node or a tracker.
    ClientShut = 2,
    /// The end was spent, or another client holds it.
    NoSuchEnd = 3,
    /// The end is in a parcel.
    InTransit = 4,
    /// The call is for the other kind of end.
    WrongKind = 5,
    /// The limit allows no more nodes.
    TooManyNodes = 6,
    /// The limit allows no more collections.
    TooManyCollections = 7,
    /// The limit allows no more trackers that wait.
    TrackersFull = 8,
    /// The caller has no such handle open.
    NoSuchHandle = 9,
    /// The limit allows no more handles of the buffer and strength.
    TooManyHandles = 10
);

numbers!(
    /// The misuses: calls that fail the caller's own node.
    Misuse,
    /// `set_constraints` on a node that has constraints.
    SecondConstraints = 1,
    /// `set_weak` on a collection that has constraints.
    LateWeak = 2,
    /// `set_weak_ok` after a `take` that gave handles.
    LateWeakOk = 3,
    /// `take` on a weak node that does not take weak handles.
    WeakNotOk = 4,
    /// `track_node` on a node that has 64 such trackers.
    TooManyNodeTrackers = 5
);

numbers!(
    /// Why a node failed.
    Cause,
    /// An end was closed without a release.
    Lost = 0,
    /// Nothing strong keeps the buffers any more.
    NoStrong = 1,
    /// The misuse of this name.
    SecondConstraints = 11,
    /// The misuse of this name.
    LateWeak = 12,
    /// The misuse of this name.
    LateWeakOk = 13,
    /// The misuse of this name.
    WeakNotOk = 14,
    /// The misuse of this name.
    TooManyNodeTrackers = 15,
    /// At the initial allocation no strong node of the collection was live.
    FailedNoStrong = 20,
    /// Nobody asked for a buffer.
    FailedNoBuffers = 21,
    /// More than 64 buffers were asked for.
    FailedTooManyBuffers = 22,
    /// Some buffer had no place in the pool.
    FailedPoolFull = 23,
    /// The collection has too few buffers for an attached unit.
    FailedTooFew = 24,
    /// The collection's buffers are too small for an attached unit.
    FailedTooSmall = 25
);

impl fmt::Display for Refusal {
    fn fmt(&self, f: &mut fmt::Formatter<'_>) -> fmt::Result {
        fmt::Debug::fmt(self, f)
    }
}

impl fmt::Display for Misuse {
    fn fmt(&self, f: &mut fmt::Formatter<'_>) -> fmt::Result {
        fmt::Debug::fmt(self, f)
    }
}

impl fmt::Display for Cause {
    fn fmt(&self, f: &mut fmt::Formatter<'_>) -> fmt::Result {
        let name = format!("{self:?}");
        match name.strip_prefix("Failed") {
            Some(name) => write!(f, "failed {name}"),
            None if *self as u32 > 10 => write!(f, "misused {name}"),
            None => f.write_str(&name.to_lowercase()),
        }
    }
}

/// Whether a node or a handle keeps buffers alive.
#[derive(Clone, Copy, Debug, PartialEq, Eq, PartialOrd, Ord, Hash)]
#[repr(u32)]
pub enum Strength {
    /// It does.
    Strong = 0,
    /// It does not.
    Weak = 1,
}

impl fmt::Display for Strength {
    fn fmt(&self, f: &mut fmt::Formatter<'_>) -> fmt::Result {
        f.write_str(if *self == Strength::Strong { "strong" } else { "weak" })
    }
}

impl Strength {
    /// That of this number.
    #[doc(hidden)]
    pub fn of(number: u32) -> Strength {
        if number == 0 {
            Strength::Strong
        } else {
            Strength::Weak
        }
    }
}

/// The name of a node. No two nodes of a service ever have the same key.
#[derive(Clone, Copy, Debug, PartialEq, Eq, PartialOrd, Ord, Hash)]
pub struct Key {
    /// The node's place in the core's table, which later nodes have too.
    pub slot: u32,
    /// How many nodes had the place before.
    pub generation: u32,
}

impl fmt::Display for Key {
    fn fmt(&self, f: &mut fmt::Formatter<'_>) -> fmt::Result {
        write!(f, "{}.{}", self.slot, self.generation)
    }
}

/// One of a collection's buffers.
#[derive(Clone, Copy, Debug, PartialEq, Eq, PartialOrd, Ord, Hash)]
pub struct Buffer {
    /// Its collection.
    pub collection: CollectionId,
    /// Its index in the collection, from 0 on.
    pub index: u8,
}

impl fmt::Display for Buffer {
    fn fmt(&self, f: &mut fmt::Formatter<'_>) -> fmt::Result {
        write!(f, "{}.{}", self.collection, self.index)
    }
}

/// The number of a collection's buffers, and the size of each in bytes.
#[derive(Clone, Copy, Debug, PartialEq, Eq, Hash)]
pub struct Allocation {
    /// How many buffers.
    pub count: u32,
    /// Bytes of each.
    pub size: u32,
}

/// What a participant asks for: the buffers that it camps on, the least number of buffers (each 0
/// to 64), and their size in bytes (1 to 1 << 30).
#[derive(Clone, Copy, Debug, PartialEq, Eq, Hash)]
pub struct Constraints {
    /// The buffers that it camps on.
    pub camping: u8,
    /// The least number of buffers.
    pub at_least: u8,
    /// Their size in bytes.
    pub size: u32,
}

/// What `Client::pending` tells.
#[derive(Clone, Debug, Default, PartialEq, Eq)]
pub struct Pending {
    /// How many parcels wait; of processes none, since what they give waits in their sockets.
    pub parcels: u64,
    /// The nodes whose units were allocated.
    pub allocated: Vec<Key>,
    /// The nodes that failed.
    pub failed: Vec<Key>,
    /// The trackers that fired.
    pub fired: Vec<TrackerId>,
    /// The buffers of `Handle::tell_idle`.
    pub idle: Vec<Buffer>,
}

impl Pending {
    /// Whether there is nothing to tell.
    pub fn is_empty(&self) -> bool {
        *self == Pending::default()
    }
}

/// A number that is out of its range.
#[derive(Clone, Copy, Debug, PartialEq, Eq, Hash)]
pub struct OutOfRange {
    /// Which number.
    pub what: &'static str,
    /// What it is.
    pub is: u64,
    /// The least that it may be.
    pub least: u64,
    /// The most that it may be.
    pub most: u64,
}

impl OutOfRange {
    /// Which of the constraints it is.
    #[doc(hidden)]
    pub fn of_constraints(camping: u8, at_least: u8, size: u32) -> OutOfRange {
        let few = |what, is: u8| OutOfRange { what, is: is.into(), least: 0, most: 64 };
        match (camping, at_least) {
            (65..=u8::MAX, _) => few("camping", camping),
            (_, 65..=u8::MAX) => few("at_least", at_least),
            _ => OutOfRange { what: "size", is: size.into(), least: 1, most: 1 << 30 },
        }
    }
}

impl fmt::Display for OutOfRange {
    fn fmt(&self, f: &mut fmt::Formatter<'_>) -> fmt::Result {
        let OutOfRange { what, is, least, most } = self;
        write!(f, "{what} is {is}, and must be {least} to {most}")
    }
}

/// The content of a parcel.
#[derive(Debug)]
pub enum Parcel<T, C, H> {
    /// An end that is not bound.
    Token(T),
    /// A bound end.
    Collection(C),
    /// A handle.
    Handle(H),
}

impl<T, C, H> Parcel<T, C, H> {
    /// The content, if it is of this kind; else the parcel comes back.
    pub fn token(self) -> Result<T, Self> {
        match self {
            Parcel::Token(token) => Ok(token),
            other => Err(other),
        }
    }

    /// The content, if it is of this kind; else the parcel comes back.
    pub fn collection(self) -> Result<C, Self> {
        match self {
            Parcel::Collection(collection) => Ok(collection),
            other => Err(other),
        }
    }

    /// The content, if it is of this kind; else the parcel comes back.
    pub fn handle(self) -> Result<H, Self> {
        match self {
            Parcel::Handle(handle) => Ok(handle),
            other => Err(other),
        }
    }
}

/// A value that a refused call would have spent, and the error.
#[derive(Debug)]
pub struct Back<T, E> {
    /// Why the call was refused.
    pub error: E,
    /// What it would have spent.
    pub value: T,
}

impl<T, E: fmt::Display> fmt::Display for Back<T, E> {
    fn fmt(&self, f: &mut fmt::Formatter<'_>) -> fmt::Result {
        self.error.fmt(f)
    }
}

impl<T: fmt::Debug, E: fmt::Debug + fmt::Display> std::error::Error for Back<T, E> {}
