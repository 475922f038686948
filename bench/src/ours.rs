//! The proved core, through two exported functions that play calls in numbers.
use crate::clock;
use crate::stream::{START, Stream};
use plain_core::*;
use std::sync::atomic::Ordering::Relaxed;

#[repr(C)]
#[derive(Clone, Copy)]
pub struct Asked {
    client: u64,
    kind: u32,
    slot: u32,
    generation: u32,
    flag: u32,
    first: u64,
    to: u64,
}

#[repr(C)]
#[derive(Clone, Copy, Default, PartialEq, Eq, Debug)]
pub struct Told {
    pub kind: u32,
    pub slot: u32,
    pub generation: u32,
    pub flag: u32,
    pub first: u64,
    pub second: u64,
}

#[rustfmt::skip]
unsafe extern "C" {
    fn core_calls_by_birth(pages: u32, nodes: u32, collections: u32, trackers: u32, handles: u32, start: u64,
        asked: *const Asked, count: usize, told: *mut Told, room: usize) -> u64;
    fn core_calls_timed(pages: u32, nodes: u32, collections: u32, trackers: u32, handles: u32, start: u64,
        asked: *const Asked, count: usize, ends: *const u64, stretches: usize, told: *mut Told, room: usize) -> u64;
}

#[unsafe(no_mangle)]
extern "C" fn bench_tick() {
    clock::tick();
}

fn asked(client: ClientId, call: Call) -> Asked {
    let mut a = Asked { client, kind: 0, slot: 0, generation: 0, flag: 0, first: 0, to: 0 };
    let key = |a: &mut Asked, kind, key: NodeKey| {
        (a.kind, a.slot, a.generation) = (kind, key.slot, key.generation);
    };
    let handle = |a: &mut Asked, kind, b: BufferName, s: Strength| {
        (a.kind, a.first, a.flag) = (kind, b.collection, (b.index as u32) << 8 | s as u32);
    };
    match call {
        Call::Join => a.kind = 0,
        Call::Shut => a.kind = 1,
        Call::OpenRoot => a.kind = 2,
        Call::Duplicate(k) => key(&mut a, 3, k),
        Call::AttachToken(k) => key(&mut a, 4, k),
        Call::Sync(k) => key(&mut a, 5, k),
        Call::Give(k, to) => (key(&mut a, 6, k), a.to = to).1,
        Call::Collect => a.kind = 7,
        Call::Bind(k) => key(&mut a, 8, k),
        Call::SetDispensable(k) => key(&mut a, 9, k),
        Call::SetWeak(k) => key(&mut a, 10, k),
        Call::SetWeakOk(k, f) => (key(&mut a, 11, k), a.flag = f as u32).1,
        Call::SetConstraints(k, c) => {
            key(&mut a, 12, k);
            (a.first, a.to, a.flag) = (c.camping() as u64, c.at_least() as u64, c.size());
        }
        Call::Check(k) => key(&mut a, 13, k),
        Call::Take(k) => key(&mut a, 14, k),
        Call::Release(k) => key(&mut a, 15, k),
        Call::Close(k) => key(&mut a, 16, k),
        Call::DupHandle(b, s) => handle(&mut a, 17, b, s),
        Call::DropHandle(b, s) => handle(&mut a, 18, b, s),
        Call::TrackNode(k) => key(&mut a, 19, k),
        Call::TrackLifetime(k, n) => (key(&mut a, 20, k), a.flag = n).1,
        Call::TrackWeak(b) => handle(&mut a, 21, b, Strength::Weak),
        Call::GiveHandle(b, s, to) => (handle(&mut a, 22, b, s), a.to = to).1,
    }
    a
}

/// The reply in the numbers that the proved core gives.
pub fn told(r: &Reply) -> Told {
    let t = |kind, flag, first, second| Told { kind, flag, first, second, ..Told::default() };
    let n = |kind, k: NodeKey, flag, first, second| Told { kind, slot: k.slot, generation: k.generation, flag, first, second };
    match *r {
        Reply::Done => t(0, 0, 0, 0),
        Reply::Joined(id) => t(1, 0, id, 0),
        Reply::Shut(n) => t(2, 0, n, 0),
        Reply::Token { key, collection } => n(3, key, 0, collection, 0),
        Reply::Collected { key, kind, collection } => n(4, key, (kind == Kind::Collection) as u32, collection, 0),
        Reply::CollectedHandle { buffer, strength } => t(5, strength as u32, buffer.collection, buffer.index as u64),
        Reply::Empty => t(6, 0, 0, 0),
        Reply::Pending => t(7, 0, 0, 0),
        Reply::Allocated { count, size } => t(8, count, size as u64, 0),
        Reply::Taken { collection, strength, set } => t(9, strength as u32, collection, set),
        Reply::Tracker(id) => t(10, 0, id, 0),
        Reply::Refused(x) => t(11, x as u32, 0, 0),
        Reply::Misused(x) => t(12, x as u32, 0, 0),
        Reply::PeerClosed { cause, origin } => {
            let cause = match cause {
                Cause::Lost => 0,
                Cause::NoStrong => 1,
                Cause::Misused(m) => 10 + m as u64,
                Cause::Failed(f) => 30 + f as u64,
            };
            n(13, origin, 0, cause, 0)
        }
    }
}

/// The calls of the stream with the keys that the proved core gives, and the replies.
pub struct Ours {
    asked: Vec<Asked>,
    pub told: Vec<Told>,
}

impl Ours {
    pub fn new(s: &Stream) -> Ours {
        let mut calls: Vec<Asked> = s.calls.iter().map(|&(who, c)| asked(who, c)).collect();
        for (a, birth) in calls.iter_mut().zip(&s.births) {
            if let Some(birth) = birth {
                a.slot = *birth;
            }
        }
        let mut told = vec![Told::default(); calls.len()];
        let [n, c, t, h] = s.limits;
        let made = unsafe {
            core_calls_by_birth(
                s.pages, n, c, t, h, START.load(Relaxed), calls.as_ptr(), calls.len(), told.as_mut_ptr(), told.len(),
            )
        };
        assert_eq!(made as usize, calls.len(), "the proved core stopped at {:?}", s.calls.get(made as usize));
        let births: Vec<Told> = told.iter().filter(|t| t.kind == 3).copied().collect();
        for (a, birth) in calls.iter_mut().zip(&s.births) {
            if let Some(birth) = birth {
                let at = births[*birth as usize];
                (a.slot, a.generation) = (at.slot, at.generation);
            }
        }
        Ours { asked: calls, told }
    }

    /// Plays the stream. These are the nanoseconds and allocations of its timed stretches.
    pub fn play(&self, s: &Stream, out: &mut [Told]) -> (f64, f64) {
        let [n, c, t, h] = s.limits;
        clock::begin();
        let made = unsafe {
            core_calls_timed(
                s.pages, n, c, t, h, START.load(Relaxed), self.asked.as_ptr(), self.asked.len(), s.ends.as_ptr(), s.ends.len(),
                out.as_mut_ptr(), out.len(),
            )
        };
        assert_eq!(made as usize, self.asked.len());
        clock::timed()
    }
}
