//! The pool: room in holes and past them, no room, and pages that go home.
use super::*;
use plain_core::rng::Rng;

const WHOLE: u32 = 1_048_576;

/// Buffers of 4 pages at the start of the pool, every second one of which went home: so many holes,
/// which is a multiple of 32, and what is held.
fn filled(pool: u32, holes: u32) -> (Driver, Vec<BufferName>) {
    let mut d = Driver::new(pool, FULL);
    let mut held = Vec::new();
    for _ in 0..holes / 32 {
        let (r, collection) = d.allocated(k(64, 0, 4 * 4096));
        d.call(Call::Take(r));
        d.done(Call::Release(r));
        held.extend((0..64).map(|index| BufferName { collection, index }));
    }
    for &b in held.iter().step_by(2) {
        d.done(Call::DropHandle(b, Strength::Strong));
    }
    let held = held.into_iter().skip(1).step_by(2).collect();
    (d, held)
}

/// Cycles of open, bind, constrain, close; an event is one of the four.
fn cycles(d: &mut Driver, count: u32, pages: u32, turns: u32) {
    d.timed(|d| {
        for _ in 0..turns {
            let (r, _) = d.token(Call::OpenRoot);
            d.done(Call::Bind(r));
            d.done(Call::SetConstraints(r, k(count, 0, pages * 4096)));
            d.call(Call::Close(r));
        }
    });
}

/// Places so many buffers of so many pages, where the pool has holes of 4.
pub fn holes(count: u32, pages: u32, holes: u32, turns: u32) -> Stream {
    let (mut d, _) = filled(WHOLE, holes);
    cycles(&mut d, count, pages, turns);
    d.end()
}

/// Asks for one buffer that fits into no hole, where there is nothing but holes.
pub fn full(holes: u32) -> Stream {
    let (mut d, _) = filled(holes * 8, holes);
    cycles(&mut d, 1, 5, 400);
    d.end()
}

/// Gives back 128 buffers at random of those that are held.
pub fn give_back(holes: u32) -> Stream {
    let (mut d, mut held) = filled(WHOLE, holes);
    let mut r = Rng(1);
    for i in (1..held.len()).rev() {
        held.swap(i, r.below(i as u64 + 1) as usize);
    }
    held.truncate(128);
    d.timed(|d| {
        for b in held {
            d.done(Call::DropHandle(b, Strength::Strong));
        }
    });
    d.end()
}

/// A collection that was asked for, with those of its handles that were taken.
struct Asked {
    root: NodeKey,
    taken: Vec<BufferName>,
}

/// Asks for 1 to 8 buffers of 1 to 8 pages.
fn ask(d: &mut Driver, r: &mut Rng) -> Asked {
    let (root, collection) = d.token(Call::OpenRoot);
    d.done(Call::Bind(root));
    let (count, pages) = (1 + r.below(8) as u32, 1 + r.below(8) as u32);
    d.done(Call::SetConstraints(root, k(count, 0, pages * 4096)));
    let taken = match d.call(Call::Take(root)) {
        Reply::Taken { set, .. } => {
            (0..64).filter(|i| set >> i & 1 != 0).map(|index| BufferName { collection, index }).collect()
        }
        _ => Vec::new(),
    };
    Asked { root, taken }
}

/// A pool that so many collections all but fill: by turns one of them goes, and another is asked for,
/// for which there may be no room.
pub fn refill(collections: u32) -> Stream {
    let mut r = Rng(collections as u64);
    let mut d = Driver::new(collections * 19, FULL);
    let mut all: Vec<Asked> = (0..collections).map(|_| ask(&mut d, &mut r)).collect();
    d.timed(|d| {
        for _ in 0..2_000 {
            let i = r.below(all.len() as u64) as usize;
            let Asked { root, taken } = all.swap_remove(i);
            for b in taken {
                d.done(Call::DropHandle(b, Strength::Strong));
            }
            d.call(Call::Close(root));
            all.push(ask(d, &mut r));
        }
    });
    d.end()
}
