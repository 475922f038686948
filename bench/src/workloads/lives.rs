//! Short lives, and calls that change one node.
use super::*;

pub fn open_close() -> Stream {
    let mut d = Driver::new(16, [2, 256, 4096, u32::MAX]);
    d.timed(|d| {
        for _ in 0..20_000 {
            let (r, _) = d.token(Call::OpenRoot);
            d.call(Call::Close(r));
        }
    });
    d.end()
}

pub fn short_life() -> Stream {
    let mut d = Driver::new(64, [4, 4, 16, u32::MAX]);
    d.timed(|d| {
        for _ in 0..3_000 {
            let (r, collection) = d.allocated(k(4, 0, 4096));
            d.call(Call::Take(r));
            for index in 0..4 {
                d.call(Call::DropHandle(BufferName { collection, index }, Strength::Strong));
            }
            d.call(Call::Close(r));
        }
    });
    d.end()
}

/// Two nodes that are bound, allocated, taken from and released, and two handles.
pub fn two_nodes() -> Stream {
    let mut d = Driver::new(4096, FULL);
    d.timed(|d| {
        for _ in 0..2_000 {
            let (r, collection) = d.token(Call::OpenRoot);
            let (c, _) = d.token(Call::Duplicate(r));
            d.done(Call::Bind(r));
            d.done(Call::Bind(c));
            d.done(Call::SetConstraints(r, k(1, 0, 4096)));
            d.done(Call::SetConstraints(c, k(1, 0, 4096)));
            d.call(Call::Check(r));
            d.call(Call::Take(c));
            d.done(Call::Release(c));
            d.done(Call::Release(r));
            for index in 0..2 {
                d.done(Call::DropHandle(BufferName { collection, index }, Strength::Strong));
            }
        }
    });
    d.end()
}

pub fn sync(others: u32) -> Stream {
    let mut d = Driver::new(16, FULL);
    let (r, _) = wide(&mut d, others);
    let (x, _) = d.token(Call::Duplicate(r));
    d.timed(|d| {
        for _ in 0..20_000 {
            d.done(Call::Sync(x));
        }
    });
    d.end()
}

/// A call that changes one node, and forces nothing.
pub fn weak_ok(others: u32) -> Stream {
    let mut d = Driver::new(16, FULL);
    let (r, _) = wide(&mut d, others);
    d.timed(|d| {
        for _ in 0..4_000 {
            d.done(Call::SetWeakOk(r, false));
        }
    });
    d.end()
}
