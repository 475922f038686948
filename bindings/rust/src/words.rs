//! Names, numbers and errors.
use crate::ffi::KeyWords;
use std::collections::VecDeque;
use std::fmt;
use std::fs::File;
use std::io::{BufWriter, Write};
use std::sync::{Arc, Mutex, MutexGuard, PoisonError};
use std::time::Duration;
#[doc(inline)]
pub use sysmem_words::{
    Allocation, Buffer, Cause, CollectionId, Constraints, Event, Key, Misuse, OutOfRange, Pending,
    Refusal, Strength, TrackerId,
};

/// The number of a client.
pub type ClientId = u64;

impl From<Key> for KeyWords {
    fn from(key: Key) -> KeyWords {
        KeyWords { slot: key.slot, generation: key.generation }
    }
}

impl From<KeyWords> for Key {
    fn from(words: KeyWords) -> Key {
        Key { slot: words.slot, generation: words.generation }
    }
}

/// A buffer that holds pages of the pool: the first page, and how many.
#[derive(Clone, Copy, Debug, PartialEq, Eq, Hash)]
pub struct Held {
    /// The buffer.
    pub buffer: Buffer,
    /// Its first page.
    pub start: u32,
    /// How many pages.
    pub pages: u32,
}

/// Pages of the pool.
#[derive(Clone, Copy, Debug, Default, PartialEq, Eq, Hash)]
pub struct Pages {
    /// The first page.
    pub start: u32,
    /// How many pages.
    pub count: u32,
}

/// A tracker that fired.
#[derive(Clone, Copy, Debug, PartialEq, Eq, Hash)]
pub struct Fired {
    /// The tracker.
    pub tracker: TrackerId,
    /// The event at which it fired.
    pub event: Event,
}

/// Firings in their order.
#[derive(Clone, Debug, Default, PartialEq, Eq)]
pub struct Firings {
    /// How many firings are left out, which were before these.
    pub first: u64,
    /// The firings.
    pub all: Vec<Fired>,
}

/// A kept node: one that is not gone, or whose end is not spent.
#[derive(Clone, Debug, PartialEq, Eq)]
#[non_exhaustive]
pub struct Node {
    /// The node.
    pub key: Key,
    /// Its parent; a root is its own.
    pub parent: Key,
    /// The head of its unit.
    pub head: Key,
    /// Its collection.
    pub collection: CollectionId,
    /// The event at which it was born.
    pub event: Event,
    /// Who holds its end, or gave it away; 0 if it is spent.
    pub holder: ClientId,
    /// Its label, if it has one.
    pub label: Option<String>,
    /// The label of its holder, if this has one.
    pub holder_label: Option<String>,
    /// Whether it heads an attached unit.
    pub is_attached: bool,
    /// Whether its unit is allocated.
    pub is_allocated: bool,
    /// Whether it failed or ended.
    pub is_gone: bool,
    /// Whether it was released.
    pub is_released: bool,
    /// Whether it is dispensable.
    pub is_dispensable: bool,
    /// Whether it is weak.
    pub is_weak: bool,
    /// Whether it takes weak handles.
    pub is_weak_ok: bool,
    /// Whether its end is bound.
    pub is_bound: bool,
    /// Whether its end is in a parcel.
    pub is_in_parcel: bool,
    /// What it asked for.
    pub constraints: Option<Constraints>,
    /// Why it failed, and the node whose loss reached it.
    pub fault: Option<(Cause, Key)>,
}

/// A node that an allocation waits for: it has no constraints yet.
#[derive(Clone, Debug, PartialEq, Eq)]
pub struct Waits {
    /// The node.
    pub node: Key,
    /// Its label, if it has one.
    pub label: Option<String>,
    /// Who holds its end, or who gave it away if it is in a parcel.
    pub holder: ClientId,
    /// The label of its holder, if this has one.
    pub holder_label: Option<String>,
    /// Whether its end is bound.
    pub is_bound: bool,
    /// Whether its end is in a parcel.
    pub is_in_parcel: bool,
    /// The event at which it was born.
    pub event: Event,
    /// Whose parcels its end waits in, and who must collect it.
    pub receiver: Option<ClientId>,
    /// The label of its receiver, if this has one.
    pub receiver_label: Option<String>,
}

/// A client that has handles on a buffer, or in whose parcels some wait.
#[derive(Clone, Debug, PartialEq, Eq)]
#[non_exhaustive]
pub struct Holder {
    /// The client.
    pub client: ClientId,
    /// Its label, if it has one.
    pub label: Option<String>,
    /// How many strong handles on the buffer it has open.
    pub strong: u32,
    /// How many weak ones.
    pub weak: u32,
    /// How many of either strength wait for it in parcels.
    pub parcels: u32,
}

impl fmt::Display for Waits {
    fn fmt(&self, f: &mut fmt::Formatter<'_>) -> fmt::Result {
        match &self.label {
            Some(label) => f.write_str(label)?,
            None => self.node.fmt(f)?,
        }
        let (how, client, label) = match (self.receiver, self.is_in_parcel, self.is_bound) {
            (Some(receiver), ..) => ("in a parcel for", receiver, &self.receiver_label),
            (_, true, _) => ("in a parcel of", self.holder, &self.holder_label),
            (_, _, true) => ("held by", self.holder, &self.holder_label),
            _ => ("a token of", self.holder, &self.holder_label),
        };
        match label {
            Some(label) => write!(f, " ({how} {label})"),
            None => write!(f, " ({how} client {client})"),
        }
    }
}

/// A recorder: it is called with each event, as two lines of a transcript (`docs/SCRIPT.md`): the
/// call, and the reply, indented by two spaces.
pub type Record = Arc<dyn Fn(&str) + Send + Sync>;

/// A recorder that writes to the file, through a buffer: what is not yet written is lost if the program
/// ends without dropping the service's last value. It leaves out what it can't write.
pub fn record_to(file: File) -> Record {
    let to = Mutex::new(BufWriter::new(file));
    Arc::new(move |lines| {
        if let Ok(mut to) = to.lock() {
            let _ = to.write_all(lines.as_bytes());
        }
    })
}

/// The last events of a service, which [`record_last`] keeps. Clones share them.
///
/// If no event was left out, [`text`](LastEvents::text) is a transcript that the program reads. Else it is
/// for people only: `sysmem explain` and `sysmem check` play a transcript from the first event on, and
/// refuse the first line with a label that they did not see made. A label means the same as in the whole
/// transcript; of a generated one the number is that of the event that made what it names.
#[derive(Clone)]
pub struct LastEvents(Arc<Mutex<Ring>>);

struct Ring {
    events: VecDeque<String>,
    most: usize,
    /// How many events there were, and were when some were written to the file.
    count: u64,
    written: u64,
    file: Option<File>,
}

impl Ring {
    /// Those after the first so many.
    fn text(&self, from: u64) -> String {
        let left_out = (self.count - self.events.len() as u64).max(from);
        let mut all = format!("# events {} to {}\n", left_out + 1, self.count);
        all.extend(
            self.events.range(self.events.len() - (self.count - left_out) as usize..).cloned(),
        );
        all
    }

    fn note(&mut self, lines: &str) {
        let mut line = String::new();
        if self.events.len() == self.most {
            line = self.events.pop_front().unwrap_or_default();
            line.clear();
        }
        line.push_str(lines);
        self.events.push_back(line);
        self.count += 1;
        let reply = lines.lines().nth(1).unwrap_or("").trim_start_matches(&['#', ' '][..]);
        if !(reply.starts_with("closed ") || reply.starts_with("misused ")) {
            return;
        }
        let text = self.text(self.written);
        if let Some(file) = &mut self.file {
            let _ = file.write_all(text.as_bytes());
            self.written = self.count;
        }
    }
}

impl LastEvents {
    fn ring(&self) -> MutexGuard<'_, Ring> {
        self.0.lock().unwrap_or_else(PoisonError::into_inner)
    }

    /// The recorder, for [`Options::record`].
    pub fn record(&self) -> Record {
        let last = self.clone();
        Arc::new(move |lines| last.ring().note(lines))
    }

    /// The events, two lines each, after a remark that says which they are. O(its length).
    pub fn text(&self) -> String {
        self.ring().text(0)
    }
}

impl fmt::Debug for LastEvents {
    fn fmt(&self, f: &mut fmt::Formatter<'_>) -> fmt::Result {
        f.debug_struct("LastEvents").field("count", &self.ring().count).finish_non_exhaustive()
    }
}

/// Keeps the last so many events, at least one: some 100 bytes each, or as many as their two lines have.
/// With a file it writes them there when the reply says that a node failed, `closed` or `misused`; those
/// that were written are not written again. The labels that a recorder needs are kept in any case: of each
/// client, and of each node that had one.
pub fn record_last(count: usize, at_failure: Option<File>) -> LastEvents {
    let (events, most) = (VecDeque::new(), count.max(1));
    LastEvents(Arc::new(Mutex::new(Ring { events, most, count: 0, written: 0, file: at_failure })))
}

/// A recorder that adds the lines to this text, and hands them on if there is another recorder.
pub(crate) fn keep(text: Arc<Mutex<String>>, then: Option<Record>) -> Record {
    Arc::new(move |lines| {
        if let Ok(mut text) = text.lock() {
            text.push_str(lines);
        }
        if let Some(then) = &then {
            then(lines);
        }
    })
}

/// Writes the events to standard error.
pub(crate) fn record_to_error() -> Record {
    Arc::new(|lines| {
        let _ = std::io::stderr().write_all(lines.as_bytes());
    })
}

/// The options of a new service: the pool's pages of 4,096 bytes, and the limits of `sysmem_open`.
#[derive(Clone)]
pub struct Options {
    /// The pool's pages, 1 to 1,048,576.
    pub pages: u32,
    /// How many events may be made; without a number as many as `sysmem_open_lasting` allows, which
    /// at a million a second is 285 years. With a number, the last 1,048,576 events, but at most half of
    /// all, are for those who let go: calls that join, bear, take or track answer `HistoryFull` then.
    pub events: Option<u32>,
    /// How many nodes may be kept, 1 to 1,024.
    pub nodes: u32,
    /// How many collections may be kept, 1 to 256.
    pub collections: u32,
    /// How many trackers may wait, 1 to 4,096.
    pub trackers: u32,
    /// How many handles of one buffer and strength may be open, in parcels too, from 1 on. A client that
    /// does not collect keeps a core from more.
    pub handles: u32,
    /// 16 random bytes, if clients may be hostile: see `sysmem_open_seeded`.
    pub seed: Option<[u8; 16]>,
    /// Called under the lock, in the order of the events: it must be quick, and must not call the
    /// service. Where it panics, the transcript ends. [`record_to`] and [`record_last`] make recorders.
    /// Without one, and with SYSMEM_DEBUG=1 in the environment, the events are written to standard error.
    pub record: Option<Record>,
    /// Whether the service keeps its transcript for [`Service::transcript`](crate::Service::transcript):
    /// some 40 bytes an event.
    pub transcript: bool,
    /// The pool's memory. It has at least as many pages as the pool. Without one the service knows no bytes: a
    /// [`Buffer`] is a name, of pages that are numbers or of the program's own buffers (`examples/own.rs`).
    #[cfg(target_os = "linux")]
    pub memory: Option<Arc<crate::Memory>>,
    /// After so long in `Collection::wait_allocated`, a line on standard error says for whom it waits.
    /// With 0 none does.
    pub slow: Duration,
}

impl fmt::Debug for Options {
    fn fmt(&self, f: &mut fmt::Formatter<'_>) -> fmt::Result {
        f.debug_struct("Options")
            .field("pages", &self.pages)
            .field("events", &self.events)
            .field("nodes", &self.nodes)
            .field("collections", &self.collections)
            .field("trackers", &self.trackers)
            .field("handles", &self.handles)
            .field("seed", &self.seed.is_some())
            .field("record", &self.record.is_some())
            .field("transcript", &self.transcript)
            .field("slow", &self.slow)
            .finish_non_exhaustive()
    }
}

impl Default for Options {
    fn default() -> Options {
        Options {
            pages: 16,
            events: None,
            nodes: 1024,
            collections: 256,
            trackers: 4096,
            handles: 65_536,
            seed: None,
            record: None,
            transcript: false,
            #[cfg(target_os = "linux")]
            memory: None,
            slow: Duration::from_secs(5),
        }
    }
}

impl Options {
    /// Which limit is out of its range.
    pub(crate) fn outside(&self) -> OutOfRange {
        let events = self.events.unwrap_or(1);
        let all = [
            ("pages", self.pages, 1 << 20),
            ("events", events, u32::MAX),
            ("nodes", self.nodes, 1024),
            ("collections", self.collections, 256),
            ("trackers", self.trackers, 4096),
        ];
        let one = all.iter().find(|(_, is, most)| *is < 1 || is > most);
        let (what, is, most) = one.copied().unwrap_or(("handles", self.handles, u32::MAX));
        OutOfRange { what, is: is.into(), least: 1, most: most.into() }
    }
}

/// Whether the library's version is one for this crate, of which these are the major and the minor number.
pub(crate) fn expect_version(is: u32, major: &str, minor: &str) -> Result<(), Error> {
    let number = |text: &str| text.parse::<u64>().unwrap_or(0);
    let (major, is) = (10_000 * number(major), u64::from(is));
    let (least, most) = (major + 100 * number(minor), major + 9_999);
    if (least..=most).contains(&is) {
        return Ok(());
    }
    Err(Error::BadLimits(OutOfRange { what: "the library's version", is, least, most }))
}

/// Why a call did not succeed.
#[derive(Clone, Debug, PartialEq, Eq, Hash)]
pub enum Error {
    /// The call was refused, and nothing changed.
    Refused(Refusal),
    /// The caller's own node failed by this call.
    Misused(Misuse),
    /// The node had failed.
    PeerClosed {
        /// Why.
        cause: Cause,
        /// The node whose loss reached it.
        origin: Key,
        /// The label of the origin, if it has one.
        label: Option<String>,
    },
    /// A limit is out of its range.
    BadLimits(OutOfRange),
    /// Constraints are out of range.
    BadCall(OutOfRange),
    /// The memory is of another service.
    MemoryInUse,
    /// The value's client vanished. No event.
    Vanished,
    /// The limit allows no further event.
    HistoryFull,
    /// Memory was refused; the same call may succeed later.
    NoMemory,
}

impl Error {
    pub(crate) fn of(code: u32) -> Error {
        match code {
            5 => Error::HistoryFull,
            6 => Error::NoMemory,
            _ => unreachable!("the core is open: code {code}"),
        }
    }
}

sysmem_words::errors!(f:
    Error::BadLimits(range) => write!(f, "bad limits: {range}"),
    Error::MemoryInUse => f.write_str("the memory is of another service"),
    Error::Vanished => f.write_str("refused: the client vanished"),
);
