//! Lifetimes of shared buffers: who still needs a buffer, whom a failure takes along, and when the
//! pages of a buffer are free. This is the lifetime half of `fuchsia.sysmem2`.
//!
//! A [`Service`] is one proved core behind one lock. All clones of a service are the same service,
//! and any thread may use them. The other values belong to a client:
//!
//! | value | what its drop does |
//! |---|---|
//! | [`Token`], [`Collection`] | closes the end without a release: the node fails, and all nodes that its failure reaches. To leave without a failure, call [`End::release`] |
//! | [`Handle`] | drops the handle. A buffer gives its pages back with its last handle, if nothing else keeps it |
//! | [`Client`] | makes the client vanish: it is shut, collects its parcels, closes all its ends and drops all its handles. From then on calls on its other values are refused, and their drops do nothing |
//! | [`Tracker`] | nothing: the tracker fires also without a `Tracker` |
//! | [`Service`] | nothing. The last value of a core closes it |
//!
//! No drop fails. If memory is refused to a drop, its call is made before the next call of any
//! thread. A callback runs in the thread whose call fired the tracker, after that call has released
//! the lock.
//!
//! ```
//! use sysmem::{Cause, Constraints, Error, Options, Service};
//!
//! # fn main() -> Result<(), Box<dyn std::error::Error>> {
//! let service = Service::open(Options::default())?;
//! let (app, display) = (service.join()?, service.join()?);
//!
//! let root = app.open_root("app")?;
//! root.duplicate("display")?.give(display.id())?;
//! let mine = root.bind()?;
//! mine.set_constraints(Constraints { camping: 2, at_least: 0, size: 4096 })?;
//!
//! let theirs = display.collect()?.unwrap().token().unwrap().bind()?;
//! theirs.set_constraints(Constraints { camping: 1, at_least: 0, size: 6000 })?;
//! assert_eq!(mine.check()?.unwrap().count, 3);
//!
//! // The display crashes: its client vanishes, and the app learns whose failure reached it.
//! drop(display);
//! let told = mine.check().unwrap_err();
//! assert!(matches!(told, Error::PeerClosed { cause: Cause::Lost, .. }));
//! assert!(told.to_string().ends_with("(display)"));
//! assert_eq!(service.free_pages(), 16);
//! # Ok(())
//! # }
//! ```
#![warn(rust_2018_idioms)]
#![deny(missing_docs)]

#[cfg(test)]
extern crate self as sysmem;

mod account;
mod buffers;
mod callbacks;
mod calls;
mod cancel;
mod descriptors;
mod ends;
mod ffi;
mod handle;
#[cfg(target_os = "linux")]
mod memory;
#[cfg(test)]
mod memory_tests;
mod record;
#[cfg(test)]
mod record_tests;
#[cfg(test)]
mod script_tests;
mod state;
#[cfg(all(test, target_os = "linux"))]
mod told_tests;
mod tracker;
mod words;

pub use ends::{Collection, End, OfCollection, OfToken, Token};
pub use handle::Handle;
#[cfg(target_os = "linux")]
pub use memory::Memory;
#[cfg(target_os = "linux")]
#[doc(inline)]
pub use sysmem_words::Descriptor;
#[doc(inline)]
pub use sysmem_words::{Cancel, Patience, Waited};
pub use tracker::Tracker;
pub use words::*;

use ends::Kind;
use ffi::flag;
use ffi::{CallWords, Core};
use state::{kind, of_kind, reply, Owner, Shared, State, Waiter, Watch};
use std::fmt;
use std::marker::PhantomData;
use std::sync::{Arc, Mutex};

/// One core, which all clones share. It has no bytes of its own: those of its buffers are in
/// `Options::memory`, or are the program's, who then looks them up by their [`Buffer`].
#[derive(Clone)]
pub struct Service(Arc<Shared>);

impl Owner {
    pub(crate) fn make(&self, call: &CallWords, collection: CollectionId) -> Result<(), Error> {
        self.shared.lock().ask(self, call, collection).map(|_| ())
    }

    pub(crate) fn track(
        &self,
        call: &CallWords,
        collection: CollectionId,
    ) -> Result<Tracker, Error> {
        let mut state = self.shared.lock();
        state.may_open(self)?;
        if state.waiting.is_empty() {
            state.seen = state.core.fired_at(u64::MAX).1;
        }
        let id = state.ask(self, call, collection)?.id;
        let watch = Arc::new(Watch::default());
        state
            .waiting
            .insert(id, Waiter { watch: watch.clone(), owner: self.client, then: None, fd: None });
        Ok(Tracker { shared: self.shared.clone(), watch, id })
    }

    pub(crate) fn birth<K: Kind>(&self, call: &CallWords, label: &str) -> Result<End<K>, Error> {
        let mut state = self.shared.lock();
        state.may_open(self)?;
        let told = state.ask_named(self, call, label)?;
        let key = Key { slot: told.slot, generation: told.generation };
        state.set_label(key, label);
        if call.kind == kind::OPEN_ROOT && !label.is_empty() {
            state.roots.insert(told.id, key);
        }
        Ok(self.end(&mut state, key, told.id))
    }

    pub(crate) fn end<K: Kind>(
        &self,
        state: &mut State,
        key: Key,
        collection: CollectionId,
    ) -> End<K> {
        let row = state.add_end(self.place, key, collection);
        End { owner: self.clone(), row, key, collection, is_here: true, kind: PhantomData }
    }

    pub(crate) fn handle(&self, state: &mut State, buffer: Buffer, strength: Strength) -> Handle {
        let bytes = state.bytes_of(buffer);
        let row = state.add_handle(self.place, buffer, strength);
        Handle { owner: self.clone(), row, buffer, strength, bytes, is_here: true }
    }
}

const VERSION_MAJOR: &str = env!("CARGO_PKG_VERSION_MAJOR");
const VERSION_MINOR: &str = env!("CARGO_PKG_VERSION_MINOR");

impl Service {
    /// Opens a core without an event. `BadLimits` if a number is out of its range, or if the library's
    /// version has another major number than this crate, or is earlier.
    pub fn open(options: Options) -> Result<Service, Error> {
        words::expect_version(ffi::version(), VERSION_MAJOR, VERSION_MINOR)?;
        let Options { pages, events, nodes, collections, trackers, handles, seed, .. } = options;
        #[cfg(target_os = "linux")]
        if let Some(memory) = options.memory.as_ref().filter(|memory| memory.pages() < pages) {
            let (is, least) = (memory.pages().into(), pages.into());
            let what = "the memory's pages";
            return Err(Error::BadLimits(OutOfRange { what, is, least, most: 1 << 20 }));
        }
        let core = Core::open(pages, events, [nodes, collections, trackers, handles], seed);
        let core = core.map_err(|code| match code {
            3 => Error::BadLimits(options.outside()),
            code => Error::of(code),
        })?;
        let is_debug = || std::env::var_os("SYSMEM_DEBUG").map_or(false, |word| word == "1");
        let mut record = options.record.or_else(|| is_debug().then(record_to_error));
        let first = if options.transcript { format!("# pages {pages}\n") } else { String::new() };
        let transcript = Arc::new(Mutex::new(first));
        if options.transcript {
            record = Some(words::keep(transcript.clone(), record));
        }
        let mut state = State::new(core, record);
        state.transcript = transcript;
        state.slow = options.slow;
        if let Some(events) = events {
            state.set_margin(events);
        }
        #[cfg(target_os = "linux")]
        if let Some(memory) = options.memory {
            if memory.is_used.swap(true, std::sync::atomic::Ordering::AcqRel) {
                return Err(Error::MemoryInUse);
            }
            state.memory = Some(memory);
        }
        Ok(Service(Arc::new(Shared(Mutex::new(state)))))
    }

    /// Makes a client.
    pub fn join(&self) -> Result<Client, Error> {
        self.join_as("")
    }

    /// Makes a client with a label, for people and transcripts.
    pub fn join_as(&self, label: &str) -> Result<Client, Error> {
        let mut state = self.0.lock();
        if state.is_short() {
            return Err(Error::HistoryFull);
        }
        let client = state.ask_anybody(&of_kind(kind::JOIN), label)?.id;
        let place = state.open_account(client, label);
        Ok(Client { owner: Owner { shared: self.0.clone(), client, place } })
    }

    /// The live nodes, by birth. Views make no event.
    pub fn live(&self) -> Result<Vec<Key>, Error> {
        let live = self.0.lock().core.live().map_err(Error::of)?;
        Ok(live.into_iter().map(Key::from).collect())
    }

    /// The buffers that hold pages, by page.
    pub fn held(&self) -> Result<Vec<Held>, Error> {
        let held = self.0.lock().core.held().map_err(Error::of)?;
        let of = |h: ffi::HeldWords| Held {
            buffer: Buffer { collection: h.collection, index: h.index as u8 },
            start: h.start,
            pages: h.pages,
        };
        Ok(held.into_iter().map(of).collect())
    }

    /// The trackers that fired, by event, without those that were forgotten.
    pub fn fired(&self) -> Result<Vec<Fired>, Error> {
        Ok(self.fired_from(0).all)
    }

    /// The firings after the first n of all. Those that were forgotten are left out, at the front: when
    /// all firings were handed out to their trackers, and the core keeps 4,096 or more, it forgets them.
    pub fn fired_from(&self, n: u64) -> Firings {
        let mut state = self.0.lock();
        let forgotten = state.forgotten;
        let kept = state.core.fired_at(u64::MAX).1;
        let first = n.max(forgotten).min(forgotten + kept);
        let fired = state.core.fired_from(first - forgotten).into_iter();
        let all = fired.map(|f| Fired { tracker: f.tracker, event: f.event }).collect();
        Firings { first, all }
    }

    /// The kept nodes, collection by collection, the earliest first, and by birth within each.
    pub fn nodes(&self) -> Result<Vec<Node>, Error> {
        let mut state = self.0.lock();
        let all = state.core.nodes().map_err(Error::of)?;
        Ok(all.into_iter().map(|words| node_of(&mut state, &words)).collect())
    }

    /// What the collection was given; `None` if it is not allocated, or not kept.
    pub fn given(&self, collection: CollectionId) -> Option<Allocation> {
        let (count, size) = self.0.lock().core.given(collection);
        (count > 0).then_some(Allocation { count, size })
    }

    /// How many handles of this buffer and strength the client has open. Those in parcels are nobody's.
    pub fn open_handles(&self, client: ClientId, buffer: Buffer, strength: Strength) -> u32 {
        let Buffer { collection, index } = buffer;
        self.0.lock().core.open_handles(client, collection, index, strength as u32)
    }

    /// The clients that have handles on the buffer, or in whose parcels some wait, by number. O(clients,
    /// and the parcels that wait).
    pub fn holders(&self, buffer: Buffer) -> Vec<Holder> {
        self.0.lock().holders(buffer)
    }

    /// How many handles on the buffer are open: of either strength, of all clients and in parcels.
    /// O(clients, and the parcels that wait).
    pub fn all_open_handles(&self, buffer: Buffer) -> u32 {
        let mut state = self.0.lock();
        let open: u32 = state.holders(buffer).iter().map(|one| one.strong + one.weak).sum();
        let Buffer { collection, index } = buffer;
        let in_parcels = |strength| state.core.handles_in_parcels(collection, index, strength);
        open + [0, 1].map(in_parcels).iter().sum::<u32>()
    }

    /// How many events the limit still allows.
    pub fn remaining(&self) -> u64 {
        self.0.lock().core.remaining()
    }

    /// How many pages no buffer holds.
    pub fn free_pages(&self) -> u32 {
        self.0.lock().core.free_pages()
    }

    /// How many events there were.
    pub fn events(&self) -> u64 {
        self.0.lock().core.events()
    }

    /// Whether the node is live: neither gone nor released.
    pub fn is_live(&self, key: Key) -> bool {
        self.0.lock().core.is_live(key.into())
    }

    /// Why the node failed, and the origin: the node whose loss reached it. `None` if the node has
    /// not failed, or was forgotten.
    pub fn cause(&self, key: Key) -> Option<(Cause, Key)> {
        let (cause, origin) = self.0.lock().core.cause(key.into())?;
        Some((Cause::of(cause), Key::from(origin)))
    }

    /// The events so far as a transcript, after a remark with the number of pages; empty without
    /// [`Options::transcript`]. The program reads it: `sysmem explain` says what each event did and why,
    /// `sysmem draw` draws the trees as they are now. Makes no event. O(its length).
    pub fn transcript(&self) -> String {
        let state = self.0.lock();
        let text = state.transcript.lock();
        text.map_or_else(|_| String::new(), |text| text.clone())
    }

    /// Sets the node's label. An error has the label of its origin.
    pub fn set_label(&self, key: Key, label: &str) {
        self.0.lock().set_label(key, label);
    }

    /// The node's label, if it has one.
    pub fn label(&self, key: Key) -> Option<String> {
        self.0.lock().labels.get(&key).cloned()
    }

    /// The name of a node, as transcripts have it: its label, or if it has none, its numbers.
    pub fn name(&self, key: Key) -> String {
        self.label(key).unwrap_or_else(|| key.to_string())
    }

    /// The name of a buffer, as transcripts have it: "root.0" where the root's label is "root", and if it
    /// has none, the collection's number and the index.
    pub fn buffer_name(&self, buffer: Buffer) -> String {
        let state = self.0.lock();
        let root = state.roots.get(&buffer.collection).and_then(|key| state.labels.get(key));
        root.map_or_else(|| buffer.to_string(), |root| format!("{root}.{}", buffer.index))
    }

    /// Whether all calls of drops and releases are made: none is put off because memory was refused,
    /// and none was refused for good because the limit allows no further event.
    pub fn is_settled(&self) -> bool {
        self.0.lock().is_settled()
    }

    /// How many of these calls were refused for good.
    pub fn lost(&self) -> u64 {
        self.0.lock().lost
    }
}

fn node_of(state: &mut State, words: &ffi::NodeWords) -> Node {
    let key = Key::from(words.key);
    let is = |bit: u32| words.flags & bit != 0;
    let ffi::NodeWords { camping, at_least, size, .. } = *words;
    Node {
        key,
        parent: words.parent.into(),
        head: words.head.into(),
        collection: words.collection,
        event: words.event,
        holder: words.holder,
        label: state.labels.get(&key).cloned(),
        holder_label: state.client_label(words.holder).map(|label| label.to_string()),
        is_attached: is(flag::ATTACHED),
        is_allocated: is(flag::ALLOCATED),
        is_gone: is(flag::GONE),
        is_released: is(flag::RELEASED),
        is_dispensable: is(flag::DISPENSABLE),
        is_weak: is(flag::WEAK),
        is_weak_ok: is(flag::WEAK_OK),
        is_bound: is(flag::BOUND),
        is_in_parcel: is(flag::IN_TRANSIT),
        constraints: is(flag::CONSTRAINED).then_some(Constraints { camping, at_least, size }),
        fault: is(flag::FAILED).then(|| (Cause::of(words.cause), words.origin.into())),
    }
}

/// A participant, such as a thread. Its drop makes it vanish.
pub struct Client {
    owner: Owner,
}

/// The content of a parcel.
pub type Parcel = sysmem_words::Parcel<Token, Collection, Handle>;

impl Client {
    /// The client's number.
    pub fn id(&self) -> ClientId {
        self.owner.client
    }

    /// The client's label; it may be empty.
    pub fn label(&self) -> Arc<str> {
        self.owner.shared.raw().account(self.owner.place).label.clone()
    }

    /// Makes a collection, and answers its root token. The label may be empty.
    pub fn open_root(&self, label: &str) -> Result<Token, Error> {
        self.owner.birth(&of_kind(kind::OPEN_ROOT), label)
    }

    /// Shuts the client: nobody can give it anything more, and it can make no more nodes and
    /// trackers. Answers how many parcels wait for it.
    pub fn shut(&self) -> Result<u64, Error> {
        Ok(self.owner.shared.lock().ask(&self.owner, &of_kind(kind::SHUT), 0)?.id)
    }

    /// Takes the first parcel that waits for the client; `None` if there is none.
    pub fn collect(&self) -> Result<Option<Parcel>, Error> {
        self.collect_one(&mut self.owner.shared.lock())
    }

    fn collect_one(&self, state: &mut State) -> Result<Option<Parcel>, Error> {
        let told = state.ask(&self.owner, &of_kind(kind::COLLECT), 0)?;
        if told.kind == reply::EMPTY {
            return Ok(None);
        }
        let account = state.account(self.owner.place);
        account.parcels -= 1;
        account.posted.pop_front();
        account.dim();
        let key = Key { slot: told.slot, generation: told.generation };
        Ok(Some(match (told.kind, told.detail) {
            (reply::COLLECTED_HANDLE, strength) => {
                let buffer = Buffer { collection: told.id, index: told.index };
                Parcel::Handle(self.owner.handle(state, buffer, Strength::of(strength)))
            }
            (_, 0) => Parcel::Token(self.owner.end(state, key, told.id)),
            (_, _) => Parcel::Collection(self.owner.end(state, key, told.id)),
        }))
    }

    /// Waits for a parcel if there is none, and takes it. No event if the wait ends first.
    pub fn collect_for<'a>(&self, time: impl Into<Patience<'a>>) -> Result<Waited<Parcel>, Error> {
        let (place, shared) = (self.owner.place, &self.owner.shared);
        let given = shared.raw().account(place).given.clone();
        let waiting = time.into().begin(&given);
        let has_some = |state: &mut State| state.account(place).parcels > 0;
        loop {
            let mut state = shared.lock();
            if has_some(&mut state) {
                if let Some(parcel) = self.collect_one(&mut state)? {
                    return Ok(Waited::Done(parcel));
                }
            }
            drop(state);
            if !shared.sleep(shared.raw(), &waiting, waiting.until, has_some).1 {
                return Ok(waiting.none());
            }
        }
    }

    /// A file descriptor for `poll` or `epoll`. It is readable exactly as long as
    /// [`pending`](Client::pending) has something to tell. Each call answers a clone of one descriptor.
    #[cfg(target_os = "linux")]
    pub fn fd(&self) -> std::io::Result<Descriptor> {
        let mut state = self.owner.shared.lock();
        if let Some(fd) = &state.account(self.owner.place).news.fd {
            return Ok(fd.clone());
        }
        let fd = Descriptor::new()?;
        state.watch(self.owner.place, fd.clone());
        Ok(fd)
    }

    /// What happened since the last call: the nodes whose ends this client holds and whose unit was
    /// allocated, or that failed, each once, also if that was before the end was collected; its trackers
    /// that fired, and the buffers of [`Handle::tell_idle`]. And how many parcels wait: these until they
    /// are collected. Makes no event. Of nodes and trackers it tells only from the first call of `fd` on.
    pub fn pending(&self) -> Pending {
        self.owner.shared.lock().account(self.owner.place).pending()
    }
}

impl Drop for Client {
    fn drop(&mut self) {
        self.owner.shared.lock().vanish(self.owner.place);
    }
}

impl fmt::Debug for Client {
    fn fmt(&self, f: &mut fmt::Formatter<'_>) -> fmt::Result {
        write!(f, "Client({})", self.owner.client)
    }
}

impl fmt::Debug for Service {
    fn fmt(&self, f: &mut fmt::Formatter<'_>) -> fmt::Result {
        f.write_str("Service")
    }
}
