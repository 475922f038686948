//! Trackers that wait while events don't touch what they wait for, and trackers that fire.
use super::handles::dup_and_drop;
use super::*;

pub fn unrelated(trackers: u32) -> Stream {
    let mut d = Driver::new(64, FULL);
    let mut left = trackers;
    while left > 0 {
        let (r, _) = d.token(Call::OpenRoot);
        for _ in 0..left.min(64) {
            assert!(matches!(d.call(Call::TrackNode(r)), Reply::Tracker(_)));
            left -= 1;
        }
    }
    live(&mut d, 4_000);
    d.end()
}

/// So many lifetimes of one node, with four numbers, none of which is reached.
pub fn lifetimes(trackers: u32) -> Stream {
    let mut d = Driver::new(64, FULL);
    let (r, collection) = d.allocated(k(4, 0, 4096));
    d.call(Call::Take(r));
    for i in 0..trackers {
        assert!(matches!(d.call(Call::TrackLifetime(r, i % 4)), Reply::Tracker(_)));
    }
    dup_and_drop(&mut d, collection, 4, 500);
    d.end()
}

/// A collection of 64 buffers, so many nodes of it, and for each node lifetimes with so many numbers
/// of buffers, none of which has ended.
fn tracked(nodes: u32, numbers: u32) -> (Driver, NodeKey, CollectionId) {
    let mut d = Driver::new(64, FULL);
    let (r, collection) = d.token(Call::OpenRoot);
    let all: Vec<NodeKey> = (1..nodes).map(|_| d.token(Call::Duplicate(r)).0).collect();
    for &n in &all {
        d.done(Call::Bind(n));
        d.done(Call::SetConstraints(n, k(0, 0, 4096)));
    }
    d.done(Call::Bind(r));
    d.done(Call::SetConstraints(r, k(64, 0, 4096)));
    d.call(Call::Take(r));
    for n in all.into_iter().chain([r]) {
        for most in 0..numbers {
            assert!(matches!(d.call(Call::TrackLifetime(n, most)), Reply::Tracker(_)));
        }
    }
    (d, r, collection)
}

pub fn lifetimes_of(nodes: u32, numbers: u32) -> Stream {
    let (mut d, _, collection) = tracked(nodes, numbers);
    dup_and_drop(&mut d, collection, 64, 500);
    d.end()
}

pub fn lifetimes_more(nodes: u32) -> Stream {
    let (mut d, r, _) = tracked(nodes, 4);
    d.timed(|d| {
        for most in 0..64 {
            assert!(matches!(d.call(Call::TrackLifetime(r, most)), Reply::Tracker(_)));
        }
    });
    d.end()
}

/// A node is tracked and closed, after so many trackers have fired.
pub fn fire_after(fired: u32) -> Stream {
    let mut d = Driver::new(64, FULL);
    let turn = |d: &mut Driver| {
        let (r, _) = d.token(Call::OpenRoot);
        assert!(matches!(d.call(Call::TrackNode(r)), Reply::Tracker(_)));
        d.done(Call::Close(r));
    };
    for _ in 0..fired {
        turn(&mut d);
    }
    d.timed(|d| {
        for _ in 0..1_000 {
            turn(d);
        }
    });
    d.end()
}
