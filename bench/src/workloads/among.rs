//! Short lives beside nodes, collections and clients that they don't touch.
use super::*;
use plain_core::rng::Rng;

pub fn nodes(n: u32) -> Stream {
    let mut d = Driver::new(64, FULL);
    wide(&mut d, n - 1);
    live(&mut d, 1_000);
    d.end()
}

/// The others are allocated and held.
pub fn collections(n: u32) -> Stream {
    let mut d = Driver::new(1024, FULL);
    for _ in 0..n {
        let (r, _) = d.allocated(k(1, 0, 4096));
        d.call(Call::Take(r));
    }
    live(&mut d, 1_000);
    d.end()
}

pub fn clients(n: u32) -> Stream {
    let mut d = Driver::new(64, FULL);
    for _ in 1..n {
        d.me = d.join();
    }
    live(&mut d, 1_000);
    d.end()
}

/// A token goes from client to client at random.
pub fn passed_on(n: u32) -> Stream {
    let mut d = Driver::new(64, FULL);
    let mut all = vec![d.me];
    for _ in 1..n {
        all.push(d.join());
    }
    let mut r = Rng(n as u64);
    let (mut x, _) = d.token(Call::OpenRoot);
    let mut who = d.me;
    d.timed(|d| {
        for _ in 0..5_000 {
            let next = all[r.below(all.len() as u64) as usize];
            assert_eq!(d.by(who, Call::Give(x, next)), Reply::Done);
            let Reply::Collected { key, .. } = d.by(next, Call::Collect) else { panic!("nothing to collect") };
            (x, who) = (key, next);
        }
    });
    d.end()
}
