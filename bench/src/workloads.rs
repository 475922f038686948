//! The rows of the table, and the streams of calls behind them.
mod among;
mod handles;
mod lives;
mod mixed;
mod pool;
mod trackers;
mod trees;
mod weak;

use crate::stream::{Driver, FULL, Stream, demand as k};
use plain_core::*;

/// A row, or one for each of its sizes, which stand in its name in the place of `{}`.
pub struct Row {
    pub name: &'static str,
    pub sizes: &'static [u32],
    /// What the size counts: what an event does not touch, or what divides its cost. The cost is not
    /// to grow with it.
    pub what: &'static str,
    pub make: fn(u32) -> Stream,
}

const fn one(name: &'static str, make: fn(u32) -> Stream) -> Row {
    Row { name, sizes: &[0], what: "", make }
}

const fn sized(name: &'static str, what: &'static str, sizes: &'static [u32], make: fn(u32) -> Stream) -> Row {
    Row { name, sizes, what, make }
}

const SIBLINGS: &str = "nodes of the collection";
const WEAK: &str = "weak nodes of the collection";
const PARCELS: &str = "parcels that wait";
const FALL: &str = "nodes that fall, which divide";
const HOLES: &str = "holes";

pub const ALL: &[Row] = &[
    one("a1 open, close", |_| lives::open_close()),
    one("a2 short life, 4 buffers", |_| lives::short_life()),
    one("a3 short life, two nodes", |_| lives::two_nodes()),
    sized("a4 sync among {}", SIBLINGS, &[0, 30, 1000], lives::sync),
    sized("a5 weakok among {}", SIBLINGS, &[0, 30, 1000], lives::weak_ok),
    sized("b1 wide births {}", SIBLINGS, &[10, 100, 1000], trees::wide_births),
    sized("b2 wide loss {} /node", FALL, &[10, 100, 1000], trees::wide_loss),
    sized("b3 husks closed {}", SIBLINGS, &[10, 100, 1000], trees::husks),
    sized("b4 attach, close among {}", SIBLINGS, &[10, 100, 900], trees::attach_among),
    sized("b5 pairs closed among {}", SIBLINGS, &[10, 100, 900], trees::pairs_closed),
    sized("b6 pairs released among {}", SIBLINGS, &[10, 100, 900], trees::pairs_released),
    sized("c1 chain births {}", SIBLINGS, &[10, 100, 1000], trees::chain_births),
    sized("c2 chain loss {} /node", FALL, &[10, 100, 1000], trees::chain_loss),
    sized("d1 take dup drop x{}", "buffers of a Take", &[1, 4, 64], handles::turns),
    sized("d2 take of {} /buffer", "buffers of the Take, which divide", &[1, 8, 64], handles::take),
    sized("d3 dup, drop among {}", "handles on other buffers", &[64, 1024, 16_320], handles::dup_drop_among),
    sized("d4 dup, drop beside {}", "clients with handles on the buffer", &[1, 30, 1000], handles::dup_drop_beside),
    sized("d5 handle parcels among {}", PARCELS, &[0, 100, 10_000], handles::parcels),
    sized("d6 give, collect among {}", PARCELS, &[0, 30, 900], handles::give_collect),
    one("e mixed, 256 collections", |_| mixed_row()),
    one("f1 attached cycles", |_| trees::attached(8)),
    one("f2 attached failing", |_| trees::attached(1)),
    sized("f3 {} waiting units /unit", "units allocated at once, which divide", &[10, 100, 900], trees::waiting),
    sized("f4 {} released heads", "released heads with a live child", &[5, 50, 400], trees::released_heads),
    sized("f5 allocated among {}", "attached units that have their buffers", &[10, 100, 900], trees::allocated_among),
    sized("f6 {} failing units /unit", "units that fail at once, which divide", &[10, 100, 900], trees::failing),
    sized("f7 failing among {}", "attached units that have their buffers", &[10, 100, 900], trees::failing_among),
    sized("f8 pairs among {}", "attached units that have their buffers", &[10, 100, 900], trees::pairs_among),
    sized("f9 ends of {}, root released", "attached units below the root", &[10, 100, 900], trees::ends_below_released),
    sized("g1 short life beside {}", "trackers on others", &[0, 64, 4096], trackers::unrelated),
    sized("g2 {} lifetimes, same", "lifetimes of one node", &[4, 64, 4096], trackers::lifetimes),
    sized("g3 {} numbers on 64 nodes", "lifetimes, each with a number", &[64, 512, 4096], |n| {
        trackers::lifetimes_of(64, n / 64)
    }),
    sized("g4 4 numbers on {}", "nodes with lifetimes", &[10, 100, 1000], |n| trackers::lifetimes_of(n, 4)),
    sized("g5 lifetimes among {}", "nodes with lifetimes", &[10, 100, 1000], trackers::lifetimes_more),
    sized("g6 track, fire after {}", "trackers that have fired", &[100, 10_000, 100_000], trackers::fire_after),
    sized("h1 place 64 in {} holes", HOLES, &[128, 1024, 8160], |n| pool::holes(64, 4, n, 100)),
    sized("h2 place 64 past {} holes", HOLES, &[128, 1024, 8160], |n| pool::holes(64, 5, n, 100)),
    sized("h3 place 1 past {} holes", HOLES, &[128, 1024, 8160], |n| pool::holes(1, 5, n, 400)),
    sized("h4 no room past {} holes", HOLES, &[128, 1024, 8160], pool::full),
    sized("h5 give back beside {}", "buffers held", &[128, 1024, 8160], pool::give_back),
    sized("h6 refill of {} at random", "collections that stay", &[10, 50, 250], pool::refill),
    sized("i1 short life beside {}", "nodes of another collection", &[10, 100, 1000], among::nodes),
    sized("i2 short life beside {}", "collections", &[1, 16, 250], among::collections),
    sized("i3 short life beside {}", "clients", &[1, 100, 10_000], among::clients),
    sized("i4 passed on among {}", "clients", &[2, 100, 10_000], among::passed_on),
    sized("j1 contest among {}", "attached units that have their buffers", &[10, 100, 900], trees::contest_among),
    sized("j2 {} in a contest /unit", "units that are allocated or refused at once, which divide", &[10, 100, 900], trees::contest),
    sized("k1 weakok among {} weak", WEAK, &[10, 100, 1000], weak::weak_ok),
    sized("k2 attach, close, {} weak", WEAK, &[10, 100, 900], weak::attach),
];

/// Pseudo-random calls.
pub fn mixed_row() -> Stream {
    mixed::mixed(1, 60_000)
}

impl Row {
    /// The name of the row of this size.
    pub fn named(&self, size: u32) -> String {
        self.name.replace("{}", &with_commas(size))
    }
}

pub fn with_commas(n: u32) -> String {
    if n < 1000 { n.to_string() } else { format!("{},{:03}", with_commas(n / 1000), n % 1000) }
}

/// A root with so many children.
fn wide(d: &mut Driver, n: u32) -> (NodeKey, Vec<NodeKey>) {
    let (r, _) = d.token(Call::OpenRoot);
    let children = (0..n).map(|_| d.token(Call::Duplicate(r)).0).collect();
    (r, children)
}

/// A collection of one buffer: 7 events.
fn live_once(d: &mut Driver) {
    let (r, collection) = d.allocated(k(1, 0, 4096));
    d.call(Call::Take(r));
    d.done(Call::DropHandle(BufferName { collection, index: 0 }, Strength::Strong));
    d.call(Call::Close(r));
}

/// Such collections, one after another.
fn live(d: &mut Driver, turns: u32) {
    d.timed(|d| {
        for _ in 0..turns {
            live_once(d);
        }
    });
}
