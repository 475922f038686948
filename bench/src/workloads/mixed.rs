//! Pseudo-random calls.
use super::*;
use plain_core::rng::Rng;

/// Pseudo-random calls by 64 clients over 256 collections.
pub fn mixed(seed: u64, n: u64) -> Stream {
    let mut r = Rng(seed);
    let mut d = Driver::new(65_536, FULL);
    for _ in 1..64 {
        d.join();
    }
    d.timed(|d| mix(d, &mut r, n));
    d.end()
}

struct N {
    key: NodeKey,
    who: ClientId,
    bound: bool,
    set: bool,
    depth: u32,
}

fn mix(d: &mut Driver, r: &mut Rng, n: u64) {
    let mut nodes: Vec<N> = Vec::new();
    let mut handles: Vec<(ClientId, BufferName, Strength)> = Vec::new();
    for _ in 0..n {
        let pick = r.below(100);
        if nodes.is_empty() || d.core.kept_collections() < 256 && pick < 20 {
            let who = 1 + r.below(64);
            if let Reply::Token { key, .. } = d.by(who, Call::OpenRoot) {
                nodes.push(N { key, who, bound: false, set: false, depth: 0 });
            }
            continue;
        }
        if pick < 45 && !handles.is_empty() || handles.len() > 4000 {
            let i = r.below(handles.len() as u64) as usize;
            let (who, b, s) = handles[i];
            if r.below(4) == 0 && handles.len() < 4000 {
                if d.by(who, Call::DupHandle(b, s)) == Reply::Done {
                    handles.push((who, b, s));
                }
            } else {
                d.by(who, Call::DropHandle(b, s));
                handles.swap_remove(i);
            }
            continue;
        }
        let i = r.below(nodes.len() as u64) as usize;
        let N { key, who, bound, set, depth } = nodes[i];
        if !d.core.is_live(key) {
            d.by(who, Call::Close(key));
            nodes.swap_remove(i);
            continue;
        }
        let pick = r.below(100);
        let mut spent = false;
        let born = |d: &mut Driver, nodes: &mut Vec<N>, c: Call| {
            if let Reply::Token { key, .. } = d.by(who, c) {
                nodes.push(N { key, who, bound: false, set: false, depth: depth + 1 });
            }
        };
        match (bound, set, pick) {
            (false, _, 0..=29) if depth < 5 => {
                let w = 1 + r.below(64);
                if let Reply::Token { key, .. } = d.by(who, Call::Duplicate(key)) {
                    d.by(who, Call::Give(key, w));
                    d.by(w, Call::Collect);
                    nodes.push(N { key, who: w, bound: false, set: false, depth: depth + 1 });
                }
            }
            (false, _, 30..=36) => drop(d.by(who, Call::SetDispensable(key))),
            (false, _, 37..=38) if depth > 0 => drop(d.by(who, Call::SetWeak(key))),
            (false, _, 39..=41) => drop(d.by(who, Call::SetWeakOk(key, true))),
            (false, _, _) => {
                d.by(who, Call::Bind(key));
                nodes[i].bound = true;
            }
            (true, false, 0..=4) => drop(d.by(who, Call::TrackLifetime(key, 1))),
            (true, false, 5..=9) if depth < 5 => born(d, &mut nodes, Call::AttachToken(key)),
            (true, false, _) => {
                let c = k(r.below(3) as u32, r.below(4) as u32, 1 + r.below(32_768) as u32);
                d.by(who, Call::SetConstraints(key, c));
                nodes[i].set = true;
            }
            (true, true, 0..=14) if depth < 5 => born(d, &mut nodes, Call::AttachToken(key)),
            (true, true, 15..=29) => drop(d.by(who, Call::Check(key))),
            (true, true, 30..=59) => {
                if let Reply::Taken { collection, strength, set } = d.by(who, Call::Take(key)) {
                    for index in (0..64).filter(|i| set >> i & 1 != 0) {
                        handles.push((who, BufferName { collection, index }, strength));
                    }
                }
            }
            (true, true, 60..=64) => drop(d.by(who, Call::TrackNode(key))),
            (true, true, 65..=79) => drop(d.by(who, Call::Sync(key))),
            (true, true, 80..=89) => {
                d.by(who, Call::Release(key));
                spent = true;
            }
            (true, true, 90..=94) => {
                d.by(who, Call::Close(key));
                spent = true;
            }
            _ => {}
        }
        if spent {
            nodes.swap_remove(i);
        }
    }
}
