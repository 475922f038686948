//! A fixed stream of calls, recorded while the plain core answers it.
use std::collections::HashMap;
use std::sync::atomic::{AtomicU64, Ordering::Relaxed};
use plain_core::*;

/// How many refused calls each core has seen before its stream.
pub static START: AtomicU64 = AtomicU64::new(0);

pub struct Stream {
    pub pages: u32,
    /// Of nodes, collections, trackers and handles.
    pub limits: [u32; 4],
    pub calls: Vec<(ClientId, Call)>,
    /// The birth of the node that the call names, counted from 0.
    pub births: Vec<Option<u32>>,
    pub replies: Vec<Reply>,
    /// Where stretches end: one that is not timed first, then one that is, and so on by turns.
    pub ends: Vec<u64>,
    /// How many events the timed stretches stand for.
    pub events: u64,
}

impl Stream {
    fn limits(&self) -> Limits {
        let [n, c, t, h] = self.limits;
        Limits::new(u32::MAX, n, c, t, h).unwrap().lasting()
    }
    /// A plain core that is to play it.
    pub fn core(&self) -> Core {
        let mut core = Core::new(self.pages, self.limits());
        core.refuse(START.load(Relaxed));
        core
    }
}

pub fn demand(camping: u32, at_least: u32, size: u32) -> Constraints {
    Constraints::new(camping, at_least, size).unwrap()
}

/// Makes calls and writes them down.
pub struct Driver {
    pub core: Core,
    pub me: ClientId,
    pub of_key: HashMap<NodeKey, u32>,
    born: u32,
    s: Stream,
}

pub const FULL: [u32; 4] = [1024, 256, 4096, u32::MAX];

impl Driver {
    pub fn new(pages: u32, limits: [u32; 4]) -> Driver {
        let s = Stream {
            pages,
            limits,
            calls: Vec::new(),
            births: Vec::new(),
            replies: Vec::new(),
            ends: Vec::new(),
            events: 0,
        };
        let core = s.core();
        let mut d = Driver { core, me: 0, of_key: HashMap::new(), born: 0, s };
        d.me = d.join();
        d
    }
    pub fn join(&mut self) -> ClientId {
        match self.by(0, Call::Join) {
            Reply::Joined(id) => id,
            r => panic!("{r:?}"),
        }
    }
    pub fn by(&mut self, who: ClientId, c: Call) -> Reply {
        let key = match c {
            Call::Duplicate(k) | Call::AttachToken(k) | Call::Sync(k) | Call::Give(k, _) | Call::Bind(k) => Some(k),
            Call::SetDispensable(k) | Call::SetWeak(k) | Call::SetWeakOk(k, _) | Call::SetConstraints(k, _) => Some(k),
            Call::Check(k) | Call::Take(k) | Call::Release(k) | Call::Close(k) => Some(k),
            Call::TrackNode(k) | Call::TrackLifetime(k, _) => Some(k),
            _ => None,
        };
        let r = self.core.step(who, c).unwrap();
        if let Reply::Token { key, .. } = r {
            self.of_key.insert(key, self.born);
            self.born += 1;
        }
        self.s.calls.push((who, c));
        self.s.births.push(key.map(|k| self.of_key[&k]));
        self.s.replies.push(r);
        r
    }
    pub fn call(&mut self, c: Call) -> Reply {
        self.by(self.me, c)
    }
    pub fn token(&mut self, c: Call) -> (NodeKey, CollectionId) {
        match self.call(c) {
            Reply::Token { key, collection } => (key, collection),
            r => panic!("{c:?}: {r:?}"),
        }
    }
    pub fn done(&mut self, c: Call) {
        assert_eq!(self.call(c), Reply::Done);
    }
    /// A root that is bound and allocated.
    pub fn allocated(&mut self, c: Constraints) -> (NodeKey, CollectionId) {
        let (key, coll) = self.token(Call::OpenRoot);
        self.done(Call::Bind(key));
        self.done(Call::SetConstraints(key, c));
        assert!(matches!(self.call(Call::Check(key)), Reply::Allocated { .. }));
        (key, coll)
    }
    /// These calls are timed.
    pub fn timed<T>(&mut self, f: impl FnOnce(&mut Driver) -> T) -> T {
        let from = self.s.calls.len() as u64;
        let out = f(self);
        let to = self.s.calls.len() as u64;
        self.s.ends.extend([from, to]);
        self.s.events += to - from;
        out
    }
    /// These calls are timed, and stand for so many events.
    pub fn timed_as<T>(&mut self, events: u64, f: impl FnOnce(&mut Driver) -> T) -> T {
        let before = self.s.events;
        let out = self.timed(f);
        self.s.events = before + events;
        out
    }
    pub fn end(mut self) -> Stream {
        self.s.ends.push(self.s.calls.len() as u64);
        self.s
    }
}
