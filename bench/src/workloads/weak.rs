//! Events among weak nodes, whose buffer an open strong handle keeps.
use super::*;

/// A weak root that has its buffer, with so many weak children. The strong child that took the
/// buffer is released, and its handle stays open.
fn kept(d: &mut Driver, n: u32) -> NodeKey {
    let (r, _) = d.token(Call::OpenRoot);
    let (s, _) = d.token(Call::Duplicate(r));
    d.done(Call::SetWeak(r));
    let children: Vec<NodeKey> = (0..n).map(|_| d.token(Call::Duplicate(r)).0).collect();
    for x in children {
        d.done(Call::Bind(x));
        d.done(Call::SetConstraints(x, k(0, 0, 1)));
    }
    for x in [r, s] {
        d.done(Call::Bind(x));
        d.done(Call::SetConstraints(x, k(1, 0, 1)));
    }
    d.call(Call::Take(s));
    d.done(Call::Release(s));
    r
}

pub fn weak_ok(n: u32) -> Stream {
    let mut d = Driver::new(16, FULL);
    let r = kept(&mut d, n);
    d.timed(|d| {
        for _ in 0..500 {
            d.done(Call::SetWeakOk(r, false));
        }
    });
    d.end()
}

/// An attached token that comes and goes.
pub fn attach(n: u32) -> Stream {
    let mut d = Driver::new(16, FULL);
    let r = kept(&mut d, n);
    d.timed(|d| {
        for _ in 0..500 {
            let (x, _) = d.token(Call::AttachToken(r));
            d.done(Call::Close(x));
        }
    });
    d.end()
}
