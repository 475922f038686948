//! The core: every call on one state.
//!
//! Everything is incremental. Nodes sit in a slab with generations; a node that
//! fell is unlinked at once and stays only as a husk (cause and origin) until
//! its end is spent. The children of a node are a doubly linked list.
//! A unit has the index of its head's slot. Before a unit is
//! allocated a loss in it takes all of it, so its sums only grow until then and
//! need no undoing; after that only the reserved sum of the collection matters.
use crate::map::{Map, Slot};
use crate::pool::Pool;
use crate::types::*;
use std::cmp::Reverse;
use std::collections::{BinaryHeap, VecDeque};
use std::sync::Arc;
use std::sync::atomic::{AtomicU64, Ordering};

mod snapshot;

pub use snapshot::Fate;

const NONE: u32 = u32::MAX;

const COLLECTION: u16 = 1;
const ATTACHED: u16 = 1 << 1;
const DISPENSABLE: u16 = 1 << 2;
const WEAK: u16 = 1 << 3;
const WEAK_OK: u16 = 1 << 4;
/// Children born now, and all their descendants, are WeakOk.
const COVERS: u16 = 1 << 5;
const CONSTRAINED: u16 = 1 << 6;
/// A Take on the node answered Taken.
const TAKEN: u16 = 1 << 7;
const RELEASED: u16 = 1 << 8;
const GONE: u16 = 1 << 9;
const TRANSIT: u16 = 1 << 10;
const SPENT: u16 = 1 << 11;

const NODE_TRACKERS: u8 = 64;
const FIRED: u64 = 1 << 63;

const _: () = assert!(size_of::<Node>() == 64);

/// One cache line.
#[derive(Clone)]
#[repr(align(64))]
struct Node {
    birth: u64,
    origin: NodeKey,
    generation: u32,
    holder: u32,
    unit: u32,
    parent: u32,
    child: u32,
    next: u32,
    prev: u32,
    trackers: u32,
    coll: u32,
    flags: u16,
    cause: Cause,
    camping: u8,
    tracked: u8,
}

#[derive(Clone)]
struct Unit {
    /// The unit above, NONE for the root unit.
    above: u32,
    /// Nodes neither released nor with constraints.
    unready: u32,
    /// Live nodes of the unit, and units right below with a live node at or
    /// below them: zero exactly where no node at or below the head is live.
    busy: u32,
    camping: u32,
    at_least: u32,
    size: u32,
    /// Lifetime trackers, until the unit is allocated.
    life: u32,
    /// Ready units right below that wait for this one's allocation.
    waiting: u32,
    wait_next: u32,
    wait_prev: u32,
    queued: bool,
    allocated: bool,
}

#[derive(Clone)]
struct Coll {
    id: u64,
    /// NONE once the root is gone (and with it every node).
    root: u32,
    /// Kept nodes.
    kept: u32,
    live_strong: u32,
    reserved: u32,
    count: u32,
    size: u32,
    pages: u32,
    allocated: bool,
    full: u64,
    not_home: u64,
    /// Buffers with an open handle, in parcels or not, by strength.
    open: [u64; 2],
    /// Buffers with weak trackers; numbers N with lifetime trackers.
    weak_tracked: u64,
    life_tracked: u64,
}

impl Coll {
    #[inline]
    fn doomed(&self) -> u64 {
        if self.live_strong == 0 { self.full & !self.open[0] } else { 0 }
    }
}

/// Per buffer of a collection. The lists are valid where the masks say so, and
/// the totals are all zero when a collection is forgotten.
#[derive(Clone)]
struct Buffers {
    total: [[u32; 64]; 2],
    start: [u32; 64],
    weak: [u32; 64],
    life: [u32; 64],
}

/// The open handles of one client on one collection.
#[derive(Clone)]
struct Holding {
    count: [[u32; 64]; 2],
    mask: [u64; 2],
    coll: u32,
}

/// Where the holding is of a client on a collection. An event number may have
/// 53 bits.
#[derive(Clone, Copy)]
struct Held {
    coll: CollectionId,
    client: u32,
    holding: u32,
}

impl Slot for Held {
    type Key = (u32, CollectionId);
    const EMPTY: Held = Held { coll: 0, client: 0, holding: 0 };
    #[inline]
    fn is_empty(self) -> bool {
        self.coll == 0
    }
    #[inline]
    fn key(self) -> (u32, CollectionId) {
        (self.client, self.coll)
    }
    #[inline]
    fn is_of(self, (client, coll): (u32, CollectionId)) -> bool {
        (self.coll ^ coll) | (self.client ^ client) as u64 == 0
    }
    #[inline]
    fn mix((client, coll): (u32, CollectionId)) -> u64 {
        (client as u64) << 32 ^ coll
    }
}

#[derive(Clone, Copy)]
enum Parcel {
    End(u32),
    Handle(u32, u8, Strength),
}

#[derive(Clone)]
struct Client {
    id: ClientId,
    shut: bool,
    parcels: VecDeque<Parcel>,
}

#[derive(Clone)]
struct Track {
    id: TrackerId,
    next: u32,
    n: u32,
    cell: Option<Arc<AtomicU64>>,
}

/// Reads one firing, outside of any lock.
pub struct Tracker {
    id: TrackerId,
    event: u64,
    cell: Option<Arc<AtomicU64>>,
}

impl Tracker {
    pub fn id(&self) -> TrackerId {
        self.id
    }
    pub fn poll(&mut self) -> Option<Fired> {
        if let Some(c) = &self.cell {
            let e = c.load(Ordering::Acquire);
            if e == 0 {
                return None;
            }
            self.event = e;
            self.cell = None;
        }
        Some(Fired { tracker: self.id, event: self.event })
    }
}

#[derive(Clone)]
pub struct Core {
    limits: Limits,
    events: u64,

    clients: Vec<Client>,
    /// Only clients whose id is not their index and one.
    client_map: Map<(u64, u64)>,

    nodes: Vec<Node>,
    units: Vec<Unit>,
    free_nodes: Vec<u32>,
    kept: u32,

    colls: Vec<Coll>,
    buffers: Vec<Buffers>,
    free_colls: Vec<u32>,

    holdings: Vec<Holding>,
    free_holdings: Vec<u32>,
    holding_map: Map<Held>,

    tracks: Vec<Track>,
    free_tracks: Vec<u32>,
    /// Trackers that nobody took: slot, or FIRED and the event.
    untaken: Map<(u64, u64)>,
    fired: Vec<Fired>,
    /// Fired in this event, until `finish` notes them.
    now: Vec<TrackerId>,

    pool: Pool,
    starts: [u32; 64],
    stack: Vec<u32>,
    /// Attached units that are ready below an allocated one, by birth.
    eligible: BinaryHeap<Reverse<(u64, u32)>>,
}

/// Handlers answer the type of `step` itself, so that a reply is written once.
type Answer = Result<Reply, StepFault>;

/// Why a key's end does not serve.
#[derive(Clone, Copy)]
enum No {
    NoSuchEnd,
    InTransit,
    Gone,
    WrongKind,
}

#[inline]
fn refused(r: Refusal) -> Answer {
    Ok(Reply::Refused(r))
}

/// The node of an end, or the answer that says why not.
macro_rules! end {
    ($core:ident, $key:expr, $found:expr) => {
        match $found {
            Ok(n) => n,
            Err(no) => return $core.no(no, $key),
        }
    };
}

#[inline]
fn bits(mut mask: u64) -> impl Iterator<Item = usize> {
    std::iter::from_fn(move || {
        if mask == 0 {
            return None;
        }
        let i = mask.trailing_zeros() as usize;
        mask &= mask - 1;
        Some(i)
    })
}

impl Core {
    pub fn new(pages: u32, limits: Limits) -> Core {
        Core {
            limits,
            events: 0,
            clients: Vec::new(),
            client_map: Map::new(),
            nodes: Vec::new(),
            units: Vec::new(),
            free_nodes: Vec::new(),
            kept: 0,
            colls: Vec::new(),
            buffers: Vec::new(),
            free_colls: Vec::new(),
            holdings: Vec::new(),
            free_holdings: Vec::new(),
            holding_map: Map::new(),
            tracks: Vec::new(),
            free_tracks: Vec::new(),
            untaken: Map::new(),
            fired: Vec::new(),
            now: Vec::new(),
            pool: Pool::new(pages),
            starts: [0; 64],
            stack: Vec::new(),
            eligible: BinaryHeap::new(),
        }
    }

    /// Counts so many more events, as if these calls had been refused (for tests).
    pub fn refuse(&mut self, calls: u64) {
        self.events += calls;
    }

    // ---- views ----

    pub fn events(&self) -> u64 {
        self.events
    }

    pub fn free_pages(&self) -> u32 {
        self.pool.free_pages()
    }

    pub fn holes(&self) -> usize {
        self.pool.holes()
    }

    pub fn fired(&self) -> &[Fired] {
        &self.fired
    }

    pub fn kept_nodes(&self) -> u32 {
        self.kept
    }

    pub fn kept_collections(&self) -> usize {
        self.colls.len() - self.free_colls.len()
    }

    pub fn unfired(&self) -> usize {
        self.tracks.len() - self.free_tracks.len()
    }

    pub fn is_live(&self, key: NodeKey) -> bool {
        match self.nodes.get(key.slot as usize) {
            Some(n) => n.generation == key.generation && n.flags & (GONE | RELEASED) == 0,
            None => false,
        }
    }

    pub fn cause(&self, key: NodeKey) -> Option<(Cause, NodeKey)> {
        let n = self.nodes.get(key.slot as usize)?;
        (n.generation == key.generation && n.flags & (GONE | SPENT) == GONE).then_some((n.cause, n.origin))
    }

    /// Live nodes by birth.
    pub fn live(&self) -> Vec<NodeKey> {
        let mut v: Vec<(u64, u32)> = Vec::new();
        for (i, n) in self.nodes.iter().enumerate() {
            if n.flags & (GONE | RELEASED) == 0 {
                v.push((n.birth, i as u32));
            }
        }
        v.sort_unstable();
        v.into_iter().map(|(_, slot)| NodeKey { slot, generation: self.nodes[slot as usize].generation }).collect()
    }

    /// Held buffers by page.
    pub fn held(&self) -> Vec<HeldBuffer> {
        let mut v: Vec<u64> = Vec::new();
        for (c, coll) in self.colls.iter().enumerate() {
            for i in bits(coll.not_home) {
                v.push((self.buffers[c].start[i] as u64) << 32 | (c as u64) << 8 | i as u64);
            }
        }
        v.sort_unstable();
        v.into_iter()
            .map(|x| {
                let c = &self.colls[(x >> 8 & 0xFF_FFFF) as usize];
                let buffer = BufferName { collection: c.id, index: x as u8 };
                HeldBuffer { buffer, start: (x >> 32) as u32, pages: c.pages }
            })
            .collect()
    }

    /// Some once for each attached id.
    pub fn take_tracker(&mut self, id: TrackerId) -> Option<Tracker> {
        if id == 0 {
            return None;
        }
        let (_, v) = self.untaken.remove(id)?;
        if v & FIRED != 0 {
            return Some(Tracker { id, event: v & !FIRED, cell: None });
        }
        let cell = Arc::new(AtomicU64::new(0));
        self.tracks[v as usize].cell = Some(cell.clone());
        Some(Tracker { id, event: 0, cell: Some(cell) })
    }

    // ---- steps ----

    pub fn run(&mut self, calls: &[(ClientId, Call)]) -> Result<Vec<Reply>, (Vec<Reply>, StepFault)> {
        let mut out = Vec::with_capacity(calls.len());
        for &(client, call) in calls {
            match self.step(client, call) {
                Ok(r) => out.push(r),
                Err(f) => return Err((out, f)),
            }
        }
        Ok(out)
    }

    pub fn step(&mut self, client: ClientId, call: Call) -> Result<Reply, StepFault> {
        if self.events >= self.limits.events {
            return Err(StepFault::HistoryFull);
        }
        self.events += 1;
        self.answer(client, call)
    }

    #[inline]
    fn answer(&mut self, client: ClientId, call: Call) -> Answer {
        if let Call::Join = call {
            return self.join(client);
        }
        let Some(me) = self.client(client) else {
            return refused(Refusal::NoSuchClient);
        };
        match call {
            Call::Join => unreachable!(),
            Call::Shut => {
                let c = &mut self.clients[me as usize];
                c.shut = true;
                Ok(Reply::Shut(c.parcels.len() as u64))
            }
            Call::OpenRoot => self.open_root(me),
            Call::Duplicate(key) => self.child(me, key, false),
            Call::AttachToken(key) => self.child(me, key, true),
            Call::Sync(key) => {
                end!(self, key, self.present(me, key));
                Ok(Reply::Done)
            }
            Call::Give(key, to) => self.give(me, key, to),
            Call::Collect => self.collect(me),
            Call::Bind(key) => {
                let n = end!(self, key, self.of_kind(me, key, 0));
                self.nodes[n as usize].flags |= COLLECTION;
                Ok(Reply::Done)
            }
            Call::SetDispensable(key) => {
                let n = end!(self, key, self.of_kind(me, key, 0));
                self.nodes[n as usize].flags |= DISPENSABLE;
                Ok(Reply::Done)
            }
            Call::SetWeak(key) => self.set_weak(me, key),
            Call::SetWeakOk(key, children) => {
                let n = end!(self, key, self.present(me, key));
                let node = &mut self.nodes[n as usize];
                if node.flags & TAKEN != 0 {
                    return self.misuse(n, Misuse::LateWeakOk);
                }
                node.flags |= if children { WEAK_OK | COVERS } else { WEAK_OK };
                Ok(Reply::Done)
            }
            Call::SetConstraints(key, c) => self.set_constraints(me, key, c),
            Call::Check(key) => {
                let n = end!(self, key, self.of_kind(me, key, COLLECTION));
                let node = &self.nodes[n as usize];
                if !self.units[node.unit as usize].allocated {
                    return Ok(Reply::Pending);
                }
                let c = &self.colls[node.coll as usize];
                Ok(Reply::Allocated { count: c.count, size: c.size })
            }
            Call::Take(key) => self.take(me, key),
            Call::Release(key) => self.release(me, key),
            Call::Close(key) => self.close(me, key),
            Call::DupHandle(b, s) => self.dup_handle(me, b, s),
            Call::DropHandle(b, s) => self.drop_handle(me, b, s),
            Call::TrackNode(key) => self.track_node(me, key),
            Call::TrackLifetime(key, n) => self.track_lifetime(me, key, n),
            Call::TrackWeak(b) => self.track_weak(me, b),
            Call::GiveHandle(b, s, to) => self.give_handle(me, b, s, to),
        }
    }

    // ---- clients and ends ----

    #[inline]
    fn client(&self, id: ClientId) -> Option<u32> {
        let guess = id.wrapping_sub(1);
        match self.clients.get(guess as usize) {
            Some(c) if c.id == id => Some(guess as u32),
            _ if id == 0 => None,
            _ => self.client_map.get(id).map(|slot| slot.1 as u32),
        }
    }

    #[inline(never)]
    fn join(&mut self, client: ClientId) -> Answer {
        if client != 0 {
            return refused(Refusal::NoSuchClient);
        }
        let id = self.events;
        let index = self.clients.len() as u64;
        if index + 1 != id {
            self.client_map.put((id, index));
        }
        self.clients.push(Client { id, shut: false, parcels: VecDeque::new() });
        Ok(Reply::Joined(id))
    }

    #[inline]
    fn key(&self, n: u32) -> NodeKey {
        NodeKey { slot: n, generation: self.nodes[n as usize].generation }
    }

    /// Items 3 and 4 of the order of answers.
    #[inline]
    fn end(&self, me: u32, key: NodeKey) -> Result<u32, No> {
        let Some(n) = self.nodes.get(key.slot as usize) else {
            return Err(No::NoSuchEnd);
        };
        if n.generation != key.generation || n.flags & SPENT != 0 {
            return Err(No::NoSuchEnd);
        }
        if n.flags & TRANSIT != 0 {
            return Err(No::InTransit);
        }
        if n.holder != me {
            return Err(No::NoSuchEnd);
        }
        Ok(key.slot)
    }

    /// Items 3, 4 and 6.
    #[inline]
    fn present(&self, me: u32, key: NodeKey) -> Result<u32, No> {
        let n = self.end(me, key)?;
        if self.nodes[n as usize].flags & GONE != 0 {
            return Err(No::Gone);
        }
        Ok(n)
    }

    /// Items 3, 4, 6 and 7; `kind` is COLLECTION or 0.
    #[inline]
    fn of_kind(&self, me: u32, key: NodeKey, kind: u16) -> Result<u32, No> {
        let n = self.end(me, key)?;
        let flags = self.nodes[n as usize].flags;
        if flags & (GONE | COLLECTION) != kind {
            return Err(if flags & GONE != 0 { No::Gone } else { No::WrongKind });
        }
        Ok(n)
    }

    #[inline(never)]
    fn no(&self, no: No, key: NodeKey) -> Answer {
        refused(match no {
            No::NoSuchEnd => Refusal::NoSuchEnd,
            No::InTransit => Refusal::InTransit,
            No::WrongKind => Refusal::WrongKind,
            No::Gone => {
                let node = &self.nodes[key.slot as usize];
                return Ok(Reply::PeerClosed { cause: node.cause, origin: node.origin });
            }
        })
    }

    #[inline]
    fn is_shut(&self, me: u32) -> bool {
        self.clients[me as usize].shut
    }

    #[inline(never)]
    fn give(&mut self, me: u32, key: NodeKey, to: ClientId) -> Answer {
        let Some(to) = self.client(to) else { return refused(Refusal::NoSuchClient) };
        if self.is_shut(to) {
            return refused(Refusal::ClientShut);
        }
        let n = end!(self, key, self.present(me, key));
        self.nodes[n as usize].flags |= TRANSIT;
        self.clients[to as usize].parcels.push_back(Parcel::End(n));
        Ok(Reply::Done)
    }

    #[inline(never)]
    fn give_handle(&mut self, me: u32, b: BufferName, s: Strength, to: ClientId) -> Answer {
        let Some(to) = self.client(to) else { return refused(Refusal::NoSuchClient) };
        if self.is_shut(to) {
            return refused(Refusal::ClientShut);
        }
        let Some((c, h)) = self.find_handle(me, b, s) else { return refused(Refusal::NoSuchHandle) };
        self.lift(me, b.collection, h, b.index, s);
        self.clients[to as usize].parcels.push_back(Parcel::Handle(c, b.index, s));
        Ok(Reply::Done)
    }

    #[inline(never)]
    fn collect(&mut self, me: u32) -> Answer {
        match self.clients[me as usize].parcels.pop_front() {
            None => Ok(Reply::Empty),
            Some(Parcel::End(n)) => {
                let node = &mut self.nodes[n as usize];
                node.flags &= !TRANSIT;
                node.holder = me;
                let kind = if node.flags & COLLECTION != 0 { Kind::Collection } else { Kind::Token };
                let collection = self.colls[node.coll as usize].id;
                Ok(Reply::Collected { key: self.key(n), kind, collection })
            }
            Some(Parcel::Handle(c, index, strength)) => {
                let h = self.holding(me, c);
                let h = &mut self.holdings[h as usize];
                h.count[strength as usize][index as usize] += 1;
                h.mask[strength as usize] |= 1 << index;
                let buffer = BufferName { collection: self.colls[c as usize].id, index };
                Ok(Reply::CollectedHandle { buffer, strength })
            }
        }
    }

    // ---- births ----

    fn birth(&mut self, me: u32, parent: u32, coll: u32, flags: u16) -> u32 {
        let head = parent == NONE || flags & ATTACHED != 0;
        let n = match self.free_nodes.pop() {
            Some(n) => n,
            None => {
                let n = self.nodes.len() as u32;
                self.nodes.push(Node {
                    birth: 0,
                    origin: NodeKey { slot: 0, generation: 0 },
                    generation: 0,
                    holder: 0,
                    unit: 0,
                    parent: NONE,
                    child: NONE,
                    next: NONE,
                    prev: NONE,
                    trackers: NONE,
                    coll: 0,
                    flags: 0,
                    cause: Cause::Lost,
                    camping: 0,
                    tracked: 0,
                });
                self.units.push(Unit {
                    above: NONE,
                    unready: 0,
                    busy: 0,
                    camping: 0,
                    at_least: 0,
                    size: 0,
                    life: NONE,
                    waiting: NONE,
                    wait_next: NONE,
                    wait_prev: NONE,
                    queued: false,
                    allocated: false,
                });
                n
            }
        };
        let (mut next, mut above) = (NONE, NONE);
        if parent != NONE {
            let p = &mut self.nodes[parent as usize];
            above = p.unit;
            next = p.child;
            p.child = n;
            if next != NONE {
                self.nodes[next as usize].prev = n;
            }
        }
        let unit = if head { n } else { above };
        let node = &mut self.nodes[n as usize];
        node.birth = self.events;
        node.holder = me;
        node.unit = unit;
        node.parent = parent;
        node.child = NONE;
        node.next = next;
        node.prev = NONE;
        node.trackers = NONE;
        node.coll = coll;
        node.flags = flags;
        node.camping = 0;
        node.tracked = 0;
        if head {
            let u = &mut self.units[n as usize];
            u.above = above;
            u.unready = 1;
            u.busy = 1;
            u.camping = 0;
            u.at_least = 0;
            u.size = 0;
            u.life = NONE;
            u.waiting = NONE;
            u.queued = false;
            u.allocated = false;
            if above != NONE {
                self.units[above as usize].busy += 1;
            }
        } else {
            let u = &mut self.units[unit as usize];
            u.unready += 1;
            u.busy += 1;
        }
        let c = &mut self.colls[coll as usize];
        c.kept += 1;
        c.live_strong += (flags & WEAK == 0) as u32;
        self.kept += 1;
        n
    }

    #[inline(never)]
    fn open_root(&mut self, me: u32) -> Answer {
        if self.is_shut(me) {
            return refused(Refusal::ClientShut);
        }
        if self.kept >= self.limits.nodes {
            return refused(Refusal::TooManyNodes);
        }
        if self.kept_collections() >= self.limits.collections as usize {
            return refused(Refusal::TooManyCollections);
        }
        let id = self.events;
        let fresh = Coll {
            id,
            root: NONE,
            kept: 0,
            live_strong: 0,
            reserved: 0,
            count: 0,
            size: 0,
            pages: 0,
            allocated: false,
            full: 0,
            not_home: 0,
            open: [0; 2],
            weak_tracked: 0,
            life_tracked: 0,
        };
        let c = match self.free_colls.pop() {
            Some(c) => {
                self.colls[c as usize] = fresh;
                c
            }
            None => {
                self.colls.push(fresh);
                self.buffers.push(Buffers { total: [[0; 64]; 2], start: [0; 64], weak: [0; 64], life: [0; 64] });
                (self.colls.len() - 1) as u32
            }
        };
        let n = self.birth(me, NONE, c, 0);
        self.colls[c as usize].root = n;
        Ok(Reply::Token { key: self.key(n), collection: id })
    }

    #[inline(never)]
    fn child(&mut self, me: u32, key: NodeKey, attached: bool) -> Answer {
        if self.is_shut(me) {
            return refused(Refusal::ClientShut);
        }
        let p = end!(self, key, self.of_kind(me, key, if attached { COLLECTION } else { 0 }));
        if self.kept >= self.limits.nodes {
            return refused(Refusal::TooManyNodes);
        }
        let parent = &self.nodes[p as usize];
        let coll = parent.coll;
        let mut flags = parent.flags & (WEAK | COVERS);
        if flags & COVERS != 0 {
            flags |= WEAK_OK;
        }
        if attached {
            flags |= ATTACHED;
        }
        let n = self.birth(me, p, coll, flags);
        Ok(Reply::Token { key: self.key(n), collection: self.colls[coll as usize].id })
    }

    // ---- calls on a node ----

    #[inline(never)]
    fn misuse(&mut self, n: u32, m: Misuse) -> Answer {
        let c = self.nodes[n as usize].coll;
        let check = self.fall(n, Cause::Misused(m));
        self.settle(c, check);
        Ok(Reply::Misused(m))
    }

    #[inline(never)]
    fn set_weak(&mut self, me: u32, key: NodeKey) -> Answer {
        let n = end!(self, key, self.present(me, key));
        let node = &mut self.nodes[n as usize];
        if node.flags & CONSTRAINED != 0 {
            return self.misuse(n, Misuse::LateWeak);
        }
        let was = node.flags;
        node.flags |= WEAK | WEAK_OK;
        if was & WEAK == 0 {
            let c = node.coll;
            let coll = &mut self.colls[c as usize];
            coll.live_strong -= 1;
            if coll.live_strong == 0 && coll.allocated {
                self.settle(c, NONE);
            }
        }
        Ok(Reply::Done)
    }

    #[inline(never)]
    fn set_constraints(&mut self, me: u32, key: NodeKey, k: Constraints) -> Answer {
        let n = end!(self, key, self.of_kind(me, key, COLLECTION));
        let node = &mut self.nodes[n as usize];
        if node.flags & CONSTRAINED != 0 {
            return self.misuse(n, Misuse::SecondConstraints);
        }
        node.flags |= CONSTRAINED;
        node.camping = k.camping();
        let (u, c) = (node.unit, node.coll);
        let unit = &mut self.units[u as usize];
        // An allocated unit has no token and no node without constraints but
        // released ones, so it gains neither nodes nor constraints.
        debug_assert!(!unit.allocated);
        unit.unready -= 1;
        unit.camping += k.camping() as u32;
        unit.at_least = unit.at_least.max(k.at_least() as u32);
        unit.size = unit.size.max(k.size());
        if unit.unready == 0 {
            self.unit_ready(u);
            self.settle(c, NONE);
        }
        Ok(Reply::Done)
    }

    #[inline(never)]
    fn take(&mut self, me: u32, key: NodeKey) -> Answer {
        let n = end!(self, key, self.of_kind(me, key, COLLECTION));
        let node = &self.nodes[n as usize];
        if node.flags & (WEAK | WEAK_OK) == WEAK {
            return self.misuse(n, Misuse::WeakNotOk);
        }
        if !self.units[node.unit as usize].allocated {
            return Ok(Reply::Pending);
        }
        let strength = if node.flags & WEAK != 0 { Strength::Weak } else { Strength::Strong };
        let s = strength as usize;
        let c = node.coll;
        let coll = &self.colls[c as usize];
        let collection = coll.id;
        let set = coll.full & !coll.doomed();
        if set != 0 {
            let limit = self.limits.handles;
            let all = set == coll.full;
            let count = coll.count as usize;
            let total = &self.buffers[c as usize].total[s];
            let at_limit = if all {
                total[..count].iter().fold(false, |a, &t| a | (t >= limit))
            } else {
                bits(set).any(|i| total[i] >= limit)
            };
            if at_limit {
                return refused(Refusal::TooManyHandles);
            }
            let h = self.holding(me, c);
            let h = &mut self.holdings[h as usize];
            let total = &mut self.buffers[c as usize].total[s];
            if all {
                for (t, o) in total[..count].iter_mut().zip(&mut h.count[s][..count]) {
                    *t += 1;
                    *o += 1;
                }
            } else {
                for i in bits(set) {
                    total[i] += 1;
                    h.count[s][i] += 1;
                }
            }
            h.mask[s] |= set;
            self.colls[c as usize].open[s] |= set;
        }
        self.nodes[n as usize].flags |= TAKEN;
        Ok(Reply::Taken { collection, strength, set })
    }

    #[inline(never)]
    fn release(&mut self, me: u32, key: NodeKey) -> Answer {
        let n = end!(self, key, self.end(me, key));
        let node = &mut self.nodes[n as usize];
        if node.flags & GONE != 0 {
            let closed = Reply::PeerClosed { cause: node.cause, origin: node.origin };
            self.spend_husk(n);
            return Ok(closed);
        }
        node.flags |= RELEASED | SPENT;
        let (u, c, flags) = (node.unit, node.coll, node.flags);
        self.colls[c as usize].live_strong -= (flags & WEAK == 0) as u32;
        self.less_busy(u, 1);
        if flags & CONSTRAINED == 0 {
            let unit = &mut self.units[u as usize];
            debug_assert!(!unit.allocated);
            unit.unready -= 1;
            if unit.unready == 0 {
                self.unit_ready(u);
            }
        }
        self.settle(c, u);
        Ok(Reply::Done)
    }

    #[inline(never)]
    fn close(&mut self, me: u32, key: NodeKey) -> Answer {
        let n = end!(self, key, self.end(me, key));
        let node = &mut self.nodes[n as usize];
        if node.flags & GONE != 0 {
            self.spend_husk(n);
            return Ok(Reply::Done);
        }
        node.flags |= SPENT;
        let c = node.coll;
        let check = self.fall(n, Cause::Lost);
        self.settle(c, check);
        Ok(Reply::Done)
    }

    /// Spends the end of a gone node, which is forgotten with it.
    fn spend_husk(&mut self, n: u32) {
        let node = &mut self.nodes[n as usize];
        node.flags |= SPENT;
        let c = node.coll;
        if node.generation != u32::MAX {
            node.generation += 1;
            self.free_nodes.push(n);
        }
        self.kept -= 1;
        self.colls[c as usize].kept -= 1;
        self.forget_if_done(c);
    }

    #[inline]
    fn forget_if_done(&mut self, c: u32) {
        let coll = &mut self.colls[c as usize];
        if coll.kept == 0 && coll.not_home == 0 {
            coll.id = 0;
            self.free_colls.push(c);
        }
    }

    // ---- handles ----

    /// The holding of the client on the collection, made if there is none.
    #[inline]
    fn holding(&mut self, me: u32, c: u32) -> u32 {
        let coll = self.colls[c as usize].id;
        if let Some(held) = self.holding_map.get((me, coll)) {
            return held.holding;
        }
        let h = match self.free_holdings.pop() {
            Some(h) => h,
            None => {
                self.holdings.push(Holding { count: [[0; 64]; 2], mask: [0; 2], coll: 0 });
                (self.holdings.len() - 1) as u32
            }
        };
        self.holdings[h as usize].coll = c;
        self.holding_map.put(Held { coll, client: me, holding: h });
        h
    }

    /// The collection's slot and the holding, if the client has such a handle.
    #[inline]
    fn find_handle(&self, me: u32, b: BufferName, s: Strength) -> Option<(u32, u32)> {
        if b.collection == 0 || b.index >= 64 {
            return None;
        }
        let h = self.holding_map.get((me, b.collection))?.holding;
        let holding = &self.holdings[h as usize];
        (holding.mask[s as usize] >> b.index & 1 != 0).then_some((holding.coll, h))
    }

    /// Takes one handle from the client's holding; the totals stay.
    #[inline(always)]
    fn lift(&mut self, me: u32, coll: CollectionId, h: u32, index: u8, s: Strength) {
        let holding = &mut self.holdings[h as usize];
        let left = &mut holding.count[s as usize][index as usize];
        *left -= 1;
        if *left == 0 {
            holding.mask[s as usize] &= !(1 << index);
            if holding.mask == [0; 2] {
                self.holding_map.remove((me, coll));
                self.free_holdings.push(h);
            }
        }
    }

    #[inline(never)]
    fn dup_handle(&mut self, me: u32, b: BufferName, s: Strength) -> Answer {
        let Some((c, h)) = self.find_handle(me, b, s) else { return refused(Refusal::NoSuchHandle) };
        let total = &mut self.buffers[c as usize].total[s as usize][b.index as usize];
        if *total >= self.limits.handles {
            return refused(Refusal::TooManyHandles);
        }
        *total += 1;
        self.holdings[h as usize].count[s as usize][b.index as usize] += 1;
        Ok(Reply::Done)
    }

    #[inline(never)]
    fn drop_handle(&mut self, me: u32, b: BufferName, s: Strength) -> Answer {
        let Some((c, h)) = self.find_handle(me, b, s) else { return refused(Refusal::NoSuchHandle) };
        self.lift(me, b.collection, h, b.index, s);
        let total = &mut self.buffers[c as usize].total[s as usize][b.index as usize];
        *total -= 1;
        if *total == 0 {
            let coll = &mut self.colls[c as usize];
            coll.open[s as usize] &= !(1 << b.index);
            if coll.live_strong == 0 {
                self.settle(c, NONE);
            }
        }
        Ok(Reply::Done)
    }

    // ---- trackers ----

    fn track(&mut self, next: u32, n: u32) -> u32 {
        let id = self.events;
        let t = match self.free_tracks.pop() {
            Some(t) => {
                let track = &mut self.tracks[t as usize];
                track.id = id;
                track.next = next;
                track.n = n;
                t
            }
            None => {
                self.tracks.push(Track { id, next, n, cell: None });
                (self.tracks.len() - 1) as u32
            }
        };
        self.untaken.put((id, t as u64));
        t
    }

    /// A tracker whose condition holds at its own event.
    fn track_fired(&mut self) {
        let event = self.events;
        self.untaken.put((event, FIRED | event));
        self.fired.push(Fired { tracker: event, event });
    }

    #[inline]
    fn trackers_full(&self) -> bool {
        self.unfired() >= self.limits.trackers as usize
    }

    #[inline(never)]
    fn track_node(&mut self, me: u32, key: NodeKey) -> Answer {
        if self.is_shut(me) {
            return refused(Refusal::ClientShut);
        }
        let n = end!(self, key, self.present(me, key));
        let node = &self.nodes[n as usize];
        if node.tracked >= NODE_TRACKERS {
            return self.misuse(n, Misuse::TooManyNodeTrackers);
        }
        if self.trackers_full() {
            return refused(Refusal::TrackersFull);
        }
        let t = self.track(self.nodes[n as usize].trackers, 0);
        let node = &mut self.nodes[n as usize];
        node.trackers = t;
        node.tracked += 1;
        Ok(Reply::Tracker(self.events))
    }

    #[inline(never)]
    fn track_lifetime(&mut self, me: u32, key: NodeKey, limit: u32) -> Answer {
        if self.is_shut(me) {
            return refused(Refusal::ClientShut);
        }
        let n = end!(self, key, self.of_kind(me, key, COLLECTION));
        if self.trackers_full() {
            return refused(Refusal::TrackersFull);
        }
        let node = &self.nodes[n as usize];
        let (u, c) = (node.unit as usize, node.coll as usize);
        if !self.units[u].allocated {
            let t = self.track(self.units[u].life, limit);
            self.units[u].life = t;
        } else if self.colls[c].not_home.count_ones() <= limit {
            self.track_fired();
        } else {
            let t = self.track(NONE, limit);
            self.await_count(c, t);
        }
        Ok(Reply::Tracker(self.events))
    }

    /// Puts a lifetime tracker with a number below the count of buffers that
    /// are not home into the collection's lists.
    fn await_count(&mut self, c: usize, t: u32) {
        let track = &mut self.tracks[t as usize];
        let n = track.n as usize;
        let coll = &mut self.colls[c];
        let list = &mut self.buffers[c].life[n];
        track.next = if coll.life_tracked >> n & 1 != 0 { *list } else { NONE };
        *list = t;
        coll.life_tracked |= 1 << n;
    }

    #[inline(never)]
    fn track_weak(&mut self, me: u32, b: BufferName) -> Answer {
        if self.is_shut(me) {
            return refused(Refusal::ClientShut);
        }
        let Some((c, _)) = self.find_handle(me, b, Strength::Weak) else { return refused(Refusal::NoSuchHandle) };
        if self.trackers_full() {
            return refused(Refusal::TrackersFull);
        }
        let (c, i) = (c as usize, b.index as usize);
        if self.colls[c].doomed() >> i & 1 != 0 {
            self.track_fired();
        } else {
            let next = if self.colls[c].weak_tracked >> i & 1 != 0 { self.buffers[c].weak[i] } else { NONE };
            let t = self.track(next, 0);
            self.buffers[c].weak[i] = t;
            self.colls[c].weak_tracked |= 1 << i;
        }
        Ok(Reply::Tracker(self.events))
    }

    /// Fires a whole list.
    fn fire(&mut self, mut t: u32) {
        while t != NONE {
            let track = &mut self.tracks[t as usize];
            let next = track.next;
            self.now.push(track.id);
            match track.cell.take() {
                Some(cell) => cell.store(self.events, Ordering::Release),
                None => self.untaken.put((track.id, FIRED | self.events)),
            }
            self.free_tracks.push(t);
            t = next;
        }
    }

    #[inline(never)]
    fn note_fired(&mut self) {
        if self.now.len() > 1 {
            self.now.sort_unstable();
        }
        let event = self.events;
        self.fired.extend(self.now.iter().map(|&tracker| Fired { tracker, event }));
        self.now.clear();
    }

    // ---- losses ----

    #[inline]
    fn less_busy(&mut self, mut u: u32, mut by: u32) {
        loop {
            let unit = &mut self.units[u as usize];
            unit.busy -= by;
            if unit.busy != 0 || unit.above == NONE {
                return;
            }
            u = unit.above;
            by = 1;
        }
    }

    /// A loss at a node takes its reach: the climb ends at the first
    /// blocked link, and everything below that node falls. Answers the unit
    /// that the fallen part hung from, or NONE.
    fn fall(&mut self, n: u32, cause: Cause) -> u32 {
        let origin = self.key(n);
        let unit = self.nodes[n as usize].unit;
        let top = if !self.units[unit as usize].allocated {
            unit
        } else {
            let mut top = n;
            loop {
                let node = &self.nodes[top as usize];
                if top == unit || node.flags & DISPENSABLE != 0 {
                    break top;
                }
                top = node.parent;
            }
        };
        self.take_down(top, cause, origin)
    }

    fn take_down(&mut self, top: u32, cause: Cause, origin: NodeKey) -> u32 {
        let node = &self.nodes[top as usize];
        let (c, parent, next, prev, unit) = (node.coll, node.parent, node.next, node.prev, node.unit);
        let head = unit == top;
        let survivor;
        let mut less = 0;
        if parent == NONE {
            survivor = NONE;
            self.colls[c as usize].root = NONE;
        } else {
            if prev == NONE {
                self.nodes[parent as usize].child = next;
            } else {
                self.nodes[prev as usize].next = next;
            }
            if next != NONE {
                self.nodes[next as usize].prev = prev;
            }
            if head {
                let u = &self.units[top as usize];
                survivor = u.above;
                less = (u.busy > 0) as u32;
                if u.queued {
                    self.unwait(top);
                }
            } else {
                survivor = unit;
            }
        }
        let (mut strong, mut reserved, mut forgotten) = (0, 0, 0);
        let mut v = top;
        self.stack.clear();
        loop {
            let node = &mut self.nodes[v as usize];
            let (child, mut next, flags, u, trackers) = (node.child, node.next, node.flags, node.unit, node.trackers);
            if v == top {
                next = NONE;
            }
            node.trackers = NONE;
            node.flags = flags | GONE;
            node.cause = cause;
            node.origin = origin;
            if flags & SPENT != 0 {
                if node.generation != u32::MAX {
                    node.generation += 1;
                    self.free_nodes.push(v);
                }
                forgotten += 1;
            }
            if flags & RELEASED == 0 {
                strong += (flags & WEAK == 0) as u32;
                less += (!head && u == unit) as u32;
            }
            if flags & CONSTRAINED != 0 && self.units[u as usize].allocated {
                reserved += node.camping as u32;
            }
            if u == v {
                let w = &mut self.units[v as usize];
                if !head && w.above == unit && w.busy > 0 {
                    less += 1;
                }
                if !w.allocated && w.life != NONE {
                    let life = std::mem::replace(&mut w.life, NONE);
                    self.fire(life);
                }
            }
            if trackers != NONE {
                self.fire(trackers);
            }
            if child != NONE {
                if next != NONE {
                    self.stack.push(next);
                }
                v = child;
            } else if next != NONE {
                v = next;
            } else if let Some(s) = self.stack.pop() {
                v = s;
            } else {
                break;
            }
        }
        self.kept -= forgotten;
        let coll = &mut self.colls[c as usize];
        coll.kept -= forgotten;
        coll.live_strong -= strong;
        coll.reserved -= reserved;
        if less > 0 && survivor != NONE {
            self.less_busy(survivor, less);
        }
        survivor
    }

    // ---- units ----

    /// Unit `u` has just become ready and is not allocated.
    fn unit_ready(&mut self, u: u32) {
        let above = self.units[u as usize].above;
        if above == NONE {
            return; // The root unit is looked at by itself.
        }
        if self.units[above as usize].allocated {
            self.eligible.push(Reverse((self.nodes[u as usize].birth, u)));
            return;
        }
        let first = self.units[above as usize].waiting;
        if first != NONE {
            self.units[first as usize].wait_prev = u;
        }
        let unit = &mut self.units[u as usize];
        unit.queued = true;
        unit.wait_next = first;
        unit.wait_prev = NONE;
        self.units[above as usize].waiting = u;
    }

    /// Takes a waiting unit out of the list of the unit above.
    fn unwait(&mut self, u: u32) {
        let unit = &mut self.units[u as usize];
        unit.queued = false;
        let (next, prev, above) = (unit.wait_next, unit.wait_prev, unit.above);
        if next != NONE {
            self.units[next as usize].wait_prev = prev;
        }
        if prev != NONE {
            self.units[prev as usize].wait_next = next;
        } else {
            self.units[above as usize].waiting = next;
        }
    }

    /// The Allocated mark of a unit.
    fn allocated(&mut self, c: u32, u: u32) {
        let unit = &mut self.units[u as usize];
        unit.allocated = true;
        let mut wait = std::mem::replace(&mut unit.waiting, NONE);
        let mut life = std::mem::replace(&mut unit.life, NONE);
        let coll = &mut self.colls[c as usize];
        coll.reserved += unit.camping;
        let left = coll.not_home.count_ones();
        while wait != NONE {
            let w = &mut self.units[wait as usize];
            w.queued = false;
            self.eligible.push(Reverse((self.nodes[wait as usize].birth, wait)));
            wait = w.wait_next;
        }
        while life != NONE {
            let track = &mut self.tracks[life as usize];
            let next = track.next;
            if track.n >= left {
                track.next = NONE;
                self.fire(life);
            } else {
                self.await_count(c as usize, life);
            }
            life = next;
        }
    }

    /// The root unit is ready.
    fn allocate(&mut self, c: u32, root: u32) -> Result<(), Failure> {
        let unit = &self.units[root as usize];
        let coll = &mut self.colls[c as usize];
        if coll.live_strong == 0 {
            return Err(Failure::NoStrong);
        }
        let count = unit.camping.max(unit.at_least);
        if count == 0 {
            return Err(Failure::NoBuffers);
        }
        if count > 64 {
            return Err(Failure::TooManyBuffers);
        }
        let size = unit.size;
        let pages = size.div_ceil(4096);
        if !self.pool.place(count, pages, &mut self.starts) {
            return Err(Failure::PoolFull);
        }
        self.buffers[c as usize].start[..count as usize].copy_from_slice(&self.starts[..count as usize]);
        coll.count = count;
        coll.size = size;
        coll.pages = pages;
        coll.full = u64::MAX >> (64 - count);
        coll.not_home = coll.full;
        coll.allocated = true;
        self.allocated(c, root);
        Ok(())
    }

    /// The logical allocation of a unit.
    fn allocate_below(&mut self, c: u32, u: u32) -> Result<(), Failure> {
        let unit = &self.units[u as usize];
        let coll = &self.colls[c as usize];
        if coll.reserved + unit.camping > coll.count || unit.at_least > coll.count {
            return Err(Failure::TooFew);
        }
        if unit.size > coll.size {
            return Err(Failure::TooSmall);
        }
        self.allocated(c, u);
        Ok(())
    }

    /// What is forced, until nothing is; then pages come back, trackers fire and the
    /// collection is forgotten if nothing of it is kept. `check` is the one
    /// unit that may have lost its last live node at or below it.
    fn settle(&mut self, c: u32, mut check: u32) {
        loop {
            let root = self.colls[c as usize].root;
            if root == NONE {
                self.eligible.clear();
                break;
            }
            // A subtree in which nothing is live ends.
            if check != NONE {
                if self.units[check as usize].busy == 0 {
                    let mut top = check;
                    loop {
                        let above = self.units[top as usize].above;
                        if above == NONE || self.units[above as usize].busy != 0 {
                            break;
                        }
                        top = above;
                    }
                    check = NONE;
                    self.end_at(top);
                    continue;
                }
                check = NONE;
            }
            let coll = &self.colls[c as usize];
            if !coll.allocated {
                // The root unit is allocated once it is ready.
                if self.units[root as usize].unready != 0 {
                    break;
                }
                if let Err(f) = self.allocate(c, root) {
                    let origin = self.key(root);
                    self.take_down(root, Cause::Failed(f), origin);
                }
                continue;
            }
            // A collection that nothing strong keeps fails.
            if coll.live_strong == 0 && coll.open[0] == 0 {
                let origin = self.key(root);
                self.take_down(root, Cause::NoStrong, origin);
                continue;
            }
            // The first-born unit that is ready below an allocated one is allocated.
            let Some(Reverse((birth, u))) = self.eligible.pop() else { break };
            let head = &self.nodes[u as usize];
            if head.flags & GONE != 0 || head.birth != birth || self.units[u as usize].allocated {
                continue;
            }
            if let Err(f) = self.allocate_below(c, u) {
                let origin = self.key(u);
                check = self.take_down(u, Cause::Failed(f), origin);
            }
        }
        self.finish(c);
    }

    /// The mark Ended: no node at or below `top` is live, so every end there is
    /// spent and no call will ask for the cause.
    fn end_at(&mut self, top: u32) {
        let origin = self.key(top);
        self.take_down(top, Cause::Lost, origin);
    }

    fn finish(&mut self, c: u32) {
        let coll = &self.colls[c as usize];
        let doomed = coll.doomed();
        if doomed != 0 {
            let told = doomed & coll.weak_tracked;
            let home = doomed & !coll.open[1] & coll.not_home;
            if told != 0 {
                self.colls[c as usize].weak_tracked &= !told;
                for i in bits(told) {
                    let list = self.buffers[c as usize].weak[i];
                    self.fire(list);
                }
            }
            if home != 0 {
                self.go_home(c as usize, home);
            }
        }
        self.forget_if_done(c);
        if !self.now.is_empty() {
            self.note_fired();
        }
    }

    fn go_home(&mut self, c: usize, home: u64) {
        let coll = &mut self.colls[c];
        coll.not_home &= !home;
        let left = coll.not_home.count_ones();
        let pages = coll.pages;
        let starts = &self.buffers[c].start;
        let (mut at, mut len) = (0, 0);
        for i in bits(home) {
            let s = starts[i];
            if len > 0 && s == at + len {
                len += pages;
            } else {
                if len > 0 {
                    self.pool.give_back(at, len);
                }
                (at, len) = (s, pages);
            }
        }
        self.pool.give_back(at, len);
        if left < 64 {
            let now = coll.life_tracked >> left << left;
            if now != 0 {
                coll.life_tracked &= !now;
                for n in bits(now) {
                    let list = self.buffers[c].life[n];
                    self.fire(list);
                }
            }
        }
    }
}

#[cfg(test)]
mod tests {
    use super::*;
    use crate::rng::Rng;

    const PAST: u64 = u32::MAX as u64 - 100;

    /// What calls can name, each as the young core knows it: the last ones.
    struct Seen {
        clients: Vec<ClientId>,
        ends: Vec<(NodeKey, ClientId)>,
        handles: Vec<(CollectionId, ClientId)>,
    }

    fn one_of<T: Copy>(all: &[T], rng: &mut Rng) -> T {
        let last = &all[all.len().saturating_sub(4)..];
        last[rng.below(last.len() as u64) as usize]
    }

    fn some_call(seen: &Seen, rng: &mut Rng) -> (ClientId, Call) {
        let (me, to) = (one_of(&seen.clients, rng), one_of(&seen.clients, rng));
        let ((key, holder), (collection, taker)) = (one_of(&seen.ends, rng), one_of(&seen.handles, rng));
        let buffer = BufferName { collection, index: rng.below(2) as u8 };
        let strength = if rng.below(3) == 0 { Strength::Weak } else { Strength::Strong };
        let call = match rng.below(42) {
            0 if seen.clients.len() < 4 => return (0, Call::Join),
            1..4 => Call::OpenRoot,
            4 => Call::Duplicate(key),
            5 => Call::AttachToken(key),
            6 => Call::Give(key, to),
            7..12 => Call::Collect,
            12..18 => Call::Bind(key),
            18 => Call::SetWeakOk(key, true),
            19 => Call::SetWeak(key),
            20..25 => Call::SetConstraints(key, Constraints::new(1, 0, 4096).unwrap()),
            25..30 => Call::Take(key),
            30 => Call::Release(key),
            31 => Call::Close(key),
            32..34 => Call::DupHandle(buffer, strength),
            34..37 => Call::DropHandle(buffer, strength),
            37 => Call::GiveHandle(buffer, strength, to),
            38 => Call::TrackNode(key),
            39 => Call::TrackLifetime(key, 0),
            40 => Call::TrackWeak(buffer),
            _ => Call::SetDispensable(key),
        };
        match call {
            Call::Bind(_) | Call::SetConstraints(..) | Call::Take(_) | Call::Give(..) => (holder, call),
            Call::DupHandle(..) | Call::GiveHandle(..) | Call::TrackWeak(_) => (taker, call),
            _ => (me, call),
        }
    }

    /// The number of the event in a core that is PAST older from event 8 on.
    fn older(event: u64) -> u64 {
        if event < 8 { event } else { event + PAST }
    }

    fn older_call(call: Call) -> Call {
        let of = |buffer: BufferName| BufferName { collection: older(buffer.collection), ..buffer };
        match call {
            Call::Give(key, to) => Call::Give(key, older(to)),
            Call::DupHandle(buffer, strength) => Call::DupHandle(of(buffer), strength),
            Call::DropHandle(buffer, strength) => Call::DropHandle(of(buffer), strength),
            Call::GiveHandle(buffer, strength, to) => Call::GiveHandle(of(buffer), strength, older(to)),
            Call::TrackWeak(buffer) => Call::TrackWeak(of(buffer)),
            call => call,
        }
    }

    fn older_reply(reply: Reply) -> Reply {
        match reply {
            Reply::Joined(id) => Reply::Joined(older(id)),
            Reply::Tracker(id) => Reply::Tracker(older(id)),
            Reply::Token { key, collection } => Reply::Token { key, collection: older(collection) },
            Reply::Collected { key, kind, collection } => Reply::Collected { key, kind, collection: older(collection) },
            Reply::Taken { collection, strength, set } => Reply::Taken { collection: older(collection), strength, set },
            Reply::CollectedHandle { buffer, strength } => {
                let buffer = BufferName { collection: older(buffer.collection), ..buffer };
                Reply::CollectedHandle { buffer, strength }
            }
            reply => reply,
        }
    }

    /// A core with more events than 32 bits count answers as a young one does.
    #[test]
    fn is_the_same_past_32_bits() {
        let (mut taken, mut collected) = (0, 0);
        for seed in 0..40 {
            let mut rng = Rng(seed);
            let (mut young, mut old) = (Core::new(64, Limits::full().lasting()), Core::new(64, Limits::full().lasting()));
            let root = NodeKey { slot: 0, generation: 0 };
            let mut seen = Seen { clients: vec![1, 2], ends: vec![(root, 1)], handles: vec![(3, 1)] };
            let asks = Constraints::new(2, 0, 4096).unwrap();
            let begin = [Call::OpenRoot, Call::Bind(root), Call::SetConstraints(root, asks), Call::Take(root), Call::OpenRoot];
            let begin = [(0, Call::Join); 2].into_iter().chain(begin.map(|call| (1, call)));
            let mut made = begin.collect::<VecDeque<_>>();
            for turn in 0..1000 {
                if turn == 7 {
                    old.refuse(PAST);
                }
                let (client, call) = made.pop_front().unwrap_or_else(|| some_call(&seen, &mut rng));
                let reply = young.step(client, call).unwrap();
                assert_eq!(old.step(older(client), older_call(call)), Ok(older_reply(reply)));
                match reply {
                    Reply::Joined(id) if id > 2 => seen.clients.push(id),
                    Reply::Token { key, .. } | Reply::Collected { key, .. } => seen.ends.push((key, client)),
                    Reply::CollectedHandle { buffer, .. } => {
                        seen.handles.push((buffer.collection, client));
                        collected += (buffer.collection > 108) as u32;
                    }
                    Reply::Taken { collection, .. } => {
                        seen.handles.push((collection, client));
                        taken += (collection > 108) as u32;
                    }
                    _ => {}
                }
                assert_eq!(young.free_pages(), old.free_pages());
            }
            let fired = young.fired().iter().map(|fired| Fired { tracker: older(fired.tracker), event: older(fired.event) });
            assert_eq!(fired.collect::<Vec<_>>(), old.fired());
        }
        assert!(taken > 100 && collected > 20, "{taken} {collected}");
    }
}
