//! Handles that are taken, doubled, dropped, given and collected.
use super::*;

pub fn turns(count: u32) -> Stream {
    let mut d = Driver::new(64, FULL);
    let (r, collection) = d.allocated(k(count, 0, 4096));
    d.timed(|d| {
        for _ in 0..(8_000 / count).min(5_000) {
            d.call(Call::Take(r));
            for index in 0..count as u8 {
                let b = BufferName { collection, index };
                d.call(Call::DupHandle(b, Strength::Strong));
                d.call(Call::DropHandle(b, Strength::Strong));
                d.call(Call::DropHandle(b, Strength::Strong));
            }
        }
    });
    d.end()
}

pub fn take(count: u32) -> Stream {
    let mut d = Driver::new(64, FULL);
    let (r, _) = d.allocated(k(count, 0, 4096));
    d.timed_as(3_000 * count as u64, |d| {
        for _ in 0..3_000 {
            d.call(Call::Take(r));
        }
    });
    d.end()
}

/// Opens one more handle on one of the buffers and drops it, so many times.
pub fn dup_and_drop(d: &mut Driver, collection: CollectionId, buffers: u8, turns: u32) {
    d.timed(|d| {
        for i in 0..turns {
            let b = BufferName { collection, index: i as u8 % buffers };
            d.done(Call::DupHandle(b, Strength::Strong));
            d.done(Call::DropHandle(b, Strength::Strong));
        }
    });
}

/// So many handles are open on buffers that are not touched.
pub fn dup_drop_among(handles: u32) -> Stream {
    let mut d = Driver::new(64 * 256, FULL);
    for _ in 0..handles / 64 - 1 {
        let (r, _) = d.allocated(k(64, 0, 4096));
        d.call(Call::Take(r));
        d.done(Call::Release(r));
    }
    let (r, collection) = d.allocated(k(64, 0, 4096));
    d.call(Call::Take(r));
    dup_and_drop(&mut d, collection, 4, 5_000);
    d.end()
}

/// So many clients have a handle on the buffer, of which one more is opened and dropped.
pub fn dup_drop_beside(clients: u32) -> Stream {
    let mut d = Driver::new(64, FULL);
    let (r, collection) = d.allocated(k(1, 0, 4096));
    d.call(Call::Take(r));
    let me = d.me;
    let b = BufferName { collection, index: 0 };
    for _ in 1..clients {
        let other = d.join();
        d.done(Call::DupHandle(b, Strength::Strong));
        d.done(Call::GiveHandle(b, Strength::Strong, other));
        d.by(other, Call::Collect);
    }
    d.me = me;
    dup_and_drop(&mut d, collection, 1, 5_000);
    d.end()
}

/// A handle is given to oneself and collected, while so many parcels wait.
pub fn parcels(waiting: u32) -> Stream {
    let mut d = Driver::new(64, FULL);
    let (r, collection) = d.allocated(k(4, 0, 4096));
    d.call(Call::Take(r));
    let me = d.me;
    let give = |d: &mut Driver, i: u32| {
        let b = BufferName { collection, index: i as u8 % 4 };
        d.done(Call::GiveHandle(b, Strength::Strong, me));
    };
    for i in 0..waiting {
        d.done(Call::DupHandle(BufferName { collection, index: i as u8 % 4 }, Strength::Strong));
        give(&mut d, i);
    }
    d.timed(|d| {
        for i in 0..8_000 {
            give(d, i);
            d.call(Call::Collect);
        }
    });
    d.end()
}

/// An end is given to oneself, and the first of those that wait is collected.
pub fn give_collect(waiting: u32) -> Stream {
    let mut d = Driver::new(64, FULL);
    let (mut x, mut all) = wide(&mut d, waiting);
    let me = d.me;
    for n in all.drain(..) {
        d.done(Call::Give(n, me));
    }
    d.timed(|d| {
        for _ in 0..5_000 {
            d.done(Call::Give(x, me));
            let Reply::Collected { key, .. } = d.call(Call::Collect) else { panic!("nothing to collect") };
            x = key;
        }
    });
    d.end()
}
