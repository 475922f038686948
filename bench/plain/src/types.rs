//! Names, numbers, calls and replies.

pub type ClientId = u64;
pub type CollectionId = u64;
pub type TrackerId = u64;

#[derive(Clone, Copy, PartialEq, Eq, Debug, Hash, PartialOrd, Ord)]
pub struct NodeKey {
    pub slot: u32,
    pub generation: u32,
}

#[derive(Clone, Copy, PartialEq, Eq, Debug, Hash, PartialOrd, Ord)]
pub struct BufferName {
    pub collection: CollectionId,
    pub index: u8,
}

#[derive(Clone, Copy, PartialEq, Eq, Debug, Hash, PartialOrd, Ord)]
#[repr(u8)]
pub enum Strength {
    Strong = 0,
    Weak = 1,
}

impl Strength {
    pub fn word(self) -> &'static str {
        match self {
            Strength::Strong => "strong",
            Strength::Weak => "weak",
        }
    }
}

#[derive(Clone, Copy, PartialEq, Eq, Debug)]
pub enum Kind {
    Token,
    Collection,
}

#[derive(Clone, Copy, PartialEq, Eq, Debug)]
pub struct Constraints {
    camping: u8,
    at_least: u8,
    size: u32,
}

impl Constraints {
    pub fn new(camping: u32, at_least: u32, size: u32) -> Option<Constraints> {
        if camping <= 64 && at_least <= 64 && (1..=1_073_741_824).contains(&size) {
            Some(Constraints { camping: camping as u8, at_least: at_least as u8, size })
        } else {
            None
        }
    }
    #[inline]
    pub fn camping(self) -> u8 {
        self.camping
    }
    #[inline]
    pub fn at_least(self) -> u8 {
        self.at_least
    }
    #[inline]
    pub fn size(self) -> u32 {
        self.size
    }
}

#[derive(Clone, Copy, PartialEq, Eq, Debug)]
pub struct Limits {
    pub(crate) events: u64,
    pub(crate) nodes: u32,
    pub(crate) collections: u32,
    pub(crate) trackers: u32,
    pub(crate) handles: u32,
}

impl Limits {
    pub fn full() -> Limits {
        Limits { events: u32::MAX.into(), nodes: 1024, collections: 256, trackers: 4096, handles: u32::MAX }
    }
    pub fn lasting(self) -> Limits {
        Limits { events: (1 << 53) - 1, ..self }
    }
    pub fn new(events: u32, nodes: u32, collections: u32, trackers: u32, handles: u32) -> Option<Limits> {
        let f = Limits::full();
        let ok = events >= 1
            && (1..=f.nodes).contains(&nodes)
            && (1..=f.collections).contains(&collections)
            && (1..=f.trackers).contains(&trackers)
            && handles >= 1;
        ok.then_some(Limits { events: events.into(), nodes, collections, trackers, handles })
    }
}

#[derive(Clone, Copy, PartialEq, Eq, Debug)]
pub enum Failure {
    NoStrong,
    NoBuffers,
    TooManyBuffers,
    PoolFull,
    TooFew,
    TooSmall,
}

impl Failure {
    pub fn name(self) -> &'static str {
        match self {
            Failure::NoStrong => "NoStrong",
            Failure::NoBuffers => "NoBuffers",
            Failure::TooManyBuffers => "TooManyBuffers",
            Failure::PoolFull => "PoolFull",
            Failure::TooFew => "TooFew",
            Failure::TooSmall => "TooSmall",
        }
    }
}

#[derive(Clone, Copy, PartialEq, Eq, Debug)]
#[repr(u8)]
pub enum Misuse {
    SecondConstraints = 1,
    LateWeak = 2,
    LateWeakOk = 3,
    WeakNotOk = 4,
    TooManyNodeTrackers = 5,
}

impl Misuse {
    pub fn name(self) -> &'static str {
        match self {
            Misuse::SecondConstraints => "SecondConstraints",
            Misuse::LateWeak => "LateWeak",
            Misuse::LateWeakOk => "LateWeakOk",
            Misuse::WeakNotOk => "WeakNotOk",
            Misuse::TooManyNodeTrackers => "TooManyNodeTrackers",
        }
    }
}

#[derive(Clone, Copy, PartialEq, Eq, Debug)]
pub enum Cause {
    Lost,
    Misused(Misuse),
    Failed(Failure),
    NoStrong,
}

#[derive(Clone, Copy, PartialEq, Eq, Debug)]
#[repr(u8)]
pub enum Refusal {
    NoSuchClient = 1,
    ClientShut = 2,
    NoSuchEnd = 3,
    InTransit = 4,
    WrongKind = 5,
    TooManyNodes = 6,
    TooManyCollections = 7,
    TrackersFull = 8,
    NoSuchHandle = 9,
    TooManyHandles = 10,
}

impl Refusal {
    pub fn name(self) -> &'static str {
        match self {
            Refusal::NoSuchClient => "NoSuchClient",
            Refusal::ClientShut => "ClientShut",
            Refusal::NoSuchEnd => "NoSuchEnd",
            Refusal::InTransit => "InTransit",
            Refusal::WrongKind => "WrongKind",
            Refusal::TooManyNodes => "TooManyNodes",
            Refusal::TooManyCollections => "TooManyCollections",
            Refusal::TrackersFull => "TrackersFull",
            Refusal::NoSuchHandle => "NoSuchHandle",
            Refusal::TooManyHandles => "TooManyHandles",
        }
    }
}

#[derive(Clone, Copy, PartialEq, Eq, Debug)]
pub enum StepFault {
    HistoryFull,
    /// Never answered here: this baseline aborts where the allocator refuses.
    NoMemory,
}

#[derive(Clone, Copy, PartialEq, Eq, Debug)]
pub enum Call {
    Join,
    Shut,
    OpenRoot,
    Duplicate(NodeKey),
    AttachToken(NodeKey),
    Sync(NodeKey),
    Give(NodeKey, ClientId),
    Collect,
    Bind(NodeKey),
    SetDispensable(NodeKey),
    SetWeak(NodeKey),
    SetWeakOk(NodeKey, bool),
    SetConstraints(NodeKey, Constraints),
    Check(NodeKey),
    Take(NodeKey),
    Release(NodeKey),
    Close(NodeKey),
    DupHandle(BufferName, Strength),
    DropHandle(BufferName, Strength),
    TrackNode(NodeKey),
    TrackLifetime(NodeKey, u32),
    TrackWeak(BufferName),
    GiveHandle(BufferName, Strength, ClientId),
}

#[derive(Clone, Copy, PartialEq, Eq, Debug)]
pub enum Reply {
    Done,
    Joined(ClientId),
    Shut(u64),
    Token { key: NodeKey, collection: CollectionId },
    Collected { key: NodeKey, kind: Kind, collection: CollectionId },
    CollectedHandle { buffer: BufferName, strength: Strength },
    Empty,
    Pending,
    Allocated { count: u32, size: u32 },
    Taken { collection: CollectionId, strength: Strength, set: u64 },
    Tracker(TrackerId),
    Refused(Refusal),
    Misused(Misuse),
    PeerClosed { cause: Cause, origin: NodeKey },
}

#[derive(Clone, Copy, PartialEq, Eq, Debug)]
pub struct Fired {
    pub tracker: TrackerId,
    pub event: u64,
}

#[derive(Clone, Copy, PartialEq, Eq, Debug)]
pub struct HeldBuffer {
    pub buffer: BufferName,
    pub start: u32,
    pub pages: u32,
}
