//! Births, losses and units that wait, in wide trees and in chains.
use super::*;

/// How many turns make some 4,000 events of so many each.
fn turns(n: u32) -> u32 {
    (4_000 / n).max(2)
}

pub fn wide_births(n: u32) -> Stream {
    let mut d = Driver::new(16, FULL);
    for _ in 0..turns(n) {
        let (r, children) = d.timed(|d| wide(d, n));
        d.call(Call::Close(r));
        for x in children {
            d.call(Call::Close(x));
        }
    }
    d.end()
}

pub fn wide_loss(n: u32) -> Stream {
    let mut d = Driver::new(16, FULL);
    for _ in 0..turns(n) {
        let (r, children) = wide(&mut d, n);
        d.timed_as(n as u64 + 1, |d| d.call(Call::Close(children[n as usize / 2])));
        for x in children {
            d.call(Call::Close(x));
        }
        d.call(Call::Close(r));
    }
    d.end()
}

/// The ends of nodes that fell are closed.
pub fn husks(n: u32) -> Stream {
    let mut d = Driver::new(16, FULL);
    for _ in 0..turns(n) {
        let (r, children) = wide(&mut d, n);
        d.call(Call::Close(r));
        d.timed(|d| {
            for x in children {
                d.call(Call::Close(x));
            }
        });
    }
    d.end()
}

/// Beside a root with so many children, which are allocated, the same again and again.
fn among(n: u32, again: fn(&mut Driver, NodeKey)) -> Stream {
    let mut d = Driver::new(16, FULL);
    let (r, children) = wide(&mut d, n);
    for x in children {
        d.done(Call::Bind(x));
        d.done(Call::SetConstraints(x, k(0, 0, 1)));
    }
    d.done(Call::Bind(r));
    d.done(Call::SetConstraints(r, k(1, 0, 1)));
    d.timed(|d| (0..500).for_each(|_| again(d, r)));
    d.end()
}

pub fn attach_among(n: u32) -> Stream {
    among(n, |d, r| {
        let (x, _) = d.token(Call::AttachToken(r));
        d.done(Call::Close(x));
    })
}

/// Two nodes of an attached unit.
fn pair(d: &mut Driver, r: NodeKey) -> (NodeKey, NodeKey) {
    let (x, _) = d.token(Call::AttachToken(r));
    let (y, _) = d.token(Call::Duplicate(x));
    (x, y)
}

/// The upper one is closed, and then what is left of the other.
pub fn pairs_closed(n: u32) -> Stream {
    among(n, |d, r| {
        let (x, y) = pair(d, r);
        d.done(Call::Close(x));
        d.call(Call::Close(y));
    })
}

/// They leave one after the other.
pub fn pairs_released(n: u32) -> Stream {
    among(n, |d, r| {
        let (x, y) = pair(d, r);
        d.done(Call::Bind(x));
        d.done(Call::Bind(y));
        d.done(Call::Release(x));
        d.done(Call::Release(y));
    })
}

fn chain(d: &mut Driver, n: u32) -> Vec<NodeKey> {
    let mut v = vec![d.token(Call::OpenRoot).0];
    for i in 0..n as usize {
        v.push(d.token(Call::Duplicate(v[i])).0);
    }
    v
}

pub fn chain_births(n: u32) -> Stream {
    let mut d = Driver::new(16, FULL);
    for _ in 0..turns(n) {
        let v = d.timed(|d| chain(d, n));
        for x in v {
            d.call(Call::Close(x));
        }
    }
    d.end()
}

pub fn chain_loss(n: u32) -> Stream {
    let mut d = Driver::new(16, FULL);
    for _ in 0..turns(n) {
        let v = chain(&mut d, n);
        d.timed_as(n as u64 + 1, |d| d.call(Call::Close(v[n as usize])));
        for x in &v[..n as usize] {
            d.call(Call::Close(*x));
        }
    }
    d.end()
}

/// Attached units that are allocated, or fail for want of buffers.
pub fn attached(at_least: u32) -> Stream {
    let mut d = Driver::new(64, FULL);
    let (r, _) = d.allocated(k(1, at_least, 4096));
    d.timed(|d| {
        for _ in 0..3_000 {
            let (t, _) = d.token(Call::AttachToken(r));
            d.call(Call::Bind(t));
            d.call(Call::SetConstraints(t, k(2, 0, 4096)));
            d.call(Call::Check(t));
            d.call(Call::Close(t));
        }
    });
    d.end()
}

/// An attached unit that is allocated, and goes, among attached units that have their buffers.
pub fn allocated_among(n: u32) -> Stream {
    let mut d = Driver::new(64, FULL);
    let (r, _) = attached_units(&mut d, n);
    d.timed(|d| {
        for _ in 0..200 {
            let (t, _) = d.token(Call::AttachToken(r));
            d.call(Call::Bind(t));
            d.call(Call::SetConstraints(t, k(1, 0, 4096)));
            d.call(Call::Check(t));
            d.call(Call::Close(t));
        }
    });
    d.end()
}

/// A root that has its buffers, and so many attached units that have them too.
fn attached_units(d: &mut Driver, n: u32) -> (NodeKey, Vec<NodeKey>) {
    let (r, _) = d.allocated(k(2, 8, 4096));
    let mut units = Vec::new();
    for _ in 0..n {
        let (x, _) = d.token(Call::AttachToken(r));
        d.done(Call::Bind(x));
        d.done(Call::SetConstraints(x, k(0, 0, 1)));
        units.push(x);
    }
    (r, units)
}

/// An attached unit that asks for too many buffers, and fails, among others.
pub fn failing_among(n: u32) -> Stream {
    let mut d = Driver::new(64, FULL);
    let (r, _) = attached_units(&mut d, n);
    d.timed(|d| {
        for _ in 0..200 {
            let (t, _) = d.token(Call::AttachToken(r));
            d.call(Call::Bind(t));
            d.call(Call::SetConstraints(t, k(9, 0, 4096)));
            d.call(Call::Check(t));
            d.call(Call::Close(t));
        }
    });
    d.end()
}

/// An attached unit that becomes ready with one below it that is, and goes with that, among others.
pub fn pairs_among(n: u32) -> Stream {
    let mut d = Driver::new(64, FULL);
    let (r, _) = attached_units(&mut d, n);
    d.timed(|d| {
        for _ in 0..200 {
            let (t, _) = d.token(Call::AttachToken(r));
            d.call(Call::Bind(t));
            let (u, _) = d.token(Call::AttachToken(t));
            d.call(Call::Bind(u));
            d.call(Call::SetConstraints(u, k(1, 0, 4096)));
            d.call(Call::SetConstraints(t, k(1, 0, 4096)));
            d.call(Call::Check(u));
            d.call(Call::Close(t));
            d.call(Call::Close(u));
        }
    });
    d.end()
}

/// An attached unit that becomes ready with two below it that are: one is allocated with it, and the other one refused, among
/// others.
pub fn contest_among(n: u32) -> Stream {
    let mut d = Driver::new(64, FULL);
    let (r, _) = attached_units(&mut d, n);
    d.timed(|d| {
        for _ in 0..200 {
            let (t, _) = d.token(Call::AttachToken(r));
            d.call(Call::Bind(t));
            let (u, _) = d.token(Call::AttachToken(t));
            let (v, _) = d.token(Call::AttachToken(t));
            d.call(Call::Bind(u));
            d.call(Call::Bind(v));
            d.call(Call::SetConstraints(u, k(3, 0, 4096)));
            d.call(Call::SetConstraints(v, k(3, 0, 4096)));
            d.call(Call::SetConstraints(t, k(1, 0, 4096)));
            d.call(Call::Check(u));
            d.call(Call::Check(v));
            d.call(Call::Close(t));
            d.call(Call::Close(u));
            d.call(Call::Close(v));
        }
    });
    d.end()
}

/// Units below one, which wait for it: every other one is allocated with it, and the others are refused, since they ask for greater
/// buffers.
pub fn contest(n: u32) -> Stream {
    let mut d = Driver::new(64, FULL);
    for _ in 0..2 {
        let (r, _) = d.allocated(k(2, 8, 4096));
        let (t, _) = d.token(Call::AttachToken(r));
        d.done(Call::Bind(t));
        let mut all = Vec::new();
        for i in 0..n {
            let (x, _) = d.token(Call::AttachToken(t));
            d.done(Call::Bind(x));
            d.done(Call::SetConstraints(x, k(0, 0, 4096 + i % 2)));
            all.push(x);
        }
        d.timed_as(n as u64 + 1, |d| d.done(Call::SetConstraints(t, k(1, 0, 4096))));
        for x in all.iter().chain([&t, &r]) {
            d.call(Call::Close(*x));
        }
    }
    d.end()
}

/// Attached units below a released root that end one after another, half of so many.
pub fn ends_below_released(n: u32) -> Stream {
    let mut d = Driver::new(64, FULL);
    for _ in 0..turns(n) {
        let (r, units) = attached_units(&mut d, n);
        d.done(Call::Release(r));
        let (first, rest) = units.split_at(n as usize / 2);
        d.timed(|d| {
            for x in first {
                d.call(Call::Release(*x));
            }
        });
        for x in first.iter().chain(rest).chain([&r]) {
            d.call(Call::Close(*x));
        }
    }
    d.end()
}

/// Units that all fail by the one event for which they wait: each asks for too many buffers.
pub fn failing(n: u32) -> Stream {
    let mut d = Driver::new(64, FULL);
    for _ in 0..2 {
        let (r, _) = d.token(Call::OpenRoot);
        d.done(Call::Bind(r));
        let mut all = Vec::new();
        for _ in 0..n {
            let (x, _) = d.token(Call::AttachToken(r));
            d.done(Call::Bind(x));
            d.done(Call::SetConstraints(x, k(2, 0, 1)));
            all.push(x);
        }
        d.timed_as(n as u64 + 1, |d| d.done(Call::SetConstraints(r, k(1, 1, 1))));
        d.call(Call::Close(r));
        for x in all {
            d.call(Call::Close(x));
        }
    }
    d.end()
}

/// Units that are all allocated by the one event for which they wait.
pub fn waiting(n: u32) -> Stream {
    let mut d = Driver::new(64, FULL);
    for _ in 0..2 {
        let (r, _) = d.token(Call::OpenRoot);
        d.done(Call::Bind(r));
        let mut all = Vec::new();
        for i in 0..n {
            let (x, _) = d.token(Call::AttachToken(r));
            d.done(Call::Bind(x));
            d.done(Call::SetConstraints(x, k(if i < 40 { 1 } else { 0 }, 0, 1)));
            all.push(x);
        }
        d.timed_as(n as u64 + 1, |d| d.done(Call::SetConstraints(r, k(1, 41, 1))));
        d.call(Call::Close(r));
        for x in all {
            d.call(Call::Close(x));
        }
    }
    d.end()
}

/// Attached heads that are released, each with a live child, while calls change one node.
pub fn released_heads(heads: u32) -> Stream {
    let mut d = Driver::new(64, FULL);
    let (r, _) = d.allocated(k(1, 0, 1));
    for _ in 0..heads {
        let (x, _) = d.token(Call::AttachToken(r));
        d.token(Call::Duplicate(x));
        d.done(Call::Bind(x));
        d.done(Call::Release(x));
    }
    d.timed(|d| {
        for _ in 0..2_000 {
            d.done(Call::SetWeakOk(r, false));
        }
    });
    d.end()
}
