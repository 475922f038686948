//! The proved core and the plain one, side by side on the same streams of calls.
//!
//!     core-bench [--rounds N] [--only ours|plain] [--count] [--keep FILE] [--from EVENTS] [NAME..]
//!     core-bench --table SECONDS [INSTRUCTIONS]
//!
//! Names are prefixes of rows. `--count` is for callgrind: each row's instructions go into a file of
//! their own, under its name. `--keep` writes the rows into a file, from which `--table` makes TABLE.md.
//! `--from` starts each core after so many events, and leaves out the rows of threads.
mod clock;
mod count;
mod latency;
mod locks;
mod ours;
mod stream;
mod table;
mod valgrind;
mod workloads;

use ours::{Ours, Told, told};
use plain_core::*;
use std::collections::HashMap;
use std::fmt::Write;
use std::hint::black_box;
use std::sync::atomic::Ordering::Relaxed;
use stream::{START, Stream};

/// Plays the stream on the plain core. These are the nanoseconds and allocations of its timed stretches.
fn play(s: &Stream, out: &mut Vec<Reply>) -> (f64, f64) {
    out.clear();
    let mut core = s.core();
    let mut from = 0;
    clock::begin();
    clock::tick();
    for (i, &end) in s.ends.iter().enumerate() {
        let calls = &s.calls[from..end as usize];
        if i % 2 == 1 { play_timed(&mut core, calls, out) } else { stretch(&mut core, calls, out) }
        clock::tick();
        from = end as usize;
    }
    black_box(&core);
    clock::timed()
}

/// A stretch that is timed: a profiler knows them by this name.
#[inline(never)]
fn play_timed(core: &mut Core, calls: &[(ClientId, Call)], out: &mut Vec<Reply>) {
    stretch(core, calls, out);
    black_box(out);
}

#[inline(always)]
fn stretch(core: &mut Core, calls: &[(ClientId, Call)], out: &mut Vec<Reply>) {
    for &(client, call) in calls {
        let Ok(reply) = core.step(client, call) else { return };
        out.push(reply);
    }
}

pub fn median(mut v: Vec<f64>) -> f64 {
    v.sort_by(f64::total_cmp);
    v[v.len() / 2]
}

/// Holds the replies of the two against each other, but for the numbers in keys: a key is told by
/// the birth that gave it.
fn agree(name: &str, s: &Stream, ours: &[Told]) {
    let births = |all: &[Told]| -> HashMap<(u32, u32), usize> {
        all.iter().filter(|t| t.kind == 3).enumerate().map(|(i, t)| ((t.slot, t.generation), i)).collect()
    };
    let plain: Vec<Told> = s.replies.iter().map(told).collect();
    let (a, b) = (births(&plain), births(ours));
    for (i, (x, y)) in plain.iter().zip(ours).enumerate() {
        let by_birth = |t: &Told, births: &HashMap<(u32, u32), usize>| {
            let at = matches!(t.kind, 3 | 4 | 13).then(|| births[&(t.slot, t.generation)]);
            (t.kind, t.flag, t.first, t.second, at)
        };
        assert_eq!(by_birth(x, &a), by_birth(y, &b), "{name}: call {i} of {}, {:?}", plain.len(), s.calls[i]);
    }
}

#[derive(Default)]
struct Options {
    rounds: usize,
    only: Option<String>,
    counts: bool,
    keep: Option<String>,
    names: Vec<String>,
}

impl Options {
    fn wants(&self, name: &str) -> bool {
        self.names.is_empty() || self.names.iter().any(|n| name.starts_with(n.as_str()))
    }
    fn plays(&self, side: &str) -> bool {
        self.only.as_deref().is_none_or(|it| it == side)
    }
}

/// Nanoseconds an event of both sides, and allocations.
fn measure(o: &Options, name: &str, s: &Stream) -> Option<[f64; 4]> {
    let ours = Ours::new(s);
    agree(name, s, &ours.told);
    let mut out = vec![Told::default(); s.calls.len()];
    let mut plain = Vec::with_capacity(s.calls.len());
    let (mut a, mut b) = (Vec::new(), Vec::new());
    for _ in 0..o.rounds {
        if o.plays("ours") {
            a.push(ours.play(s, &mut out));
            assert!(out == ours.told, "{name}: the second run differs");
        }
        if o.plays("plain") {
            b.push(play(s, &mut plain));
            assert!(plain == s.replies);
        }
    }
    if o.counts {
        valgrind::write_as(&format!("{name}|{}", s.events));
    }
    let first = |v: &[(f64, f64)]| v.first().map(|v| v.1 / s.events as f64);
    let allocated = [first(&a)?, first(&b)?];
    let ns = |v: Vec<(f64, f64)>| median(v.iter().map(|v| v.0).collect()) / s.events as f64;
    Some([ns(a), ns(b), allocated[0], allocated[1]])
}

fn main() {
    let mut o = Options { rounds: 9, ..Options::default() };
    let mut args = std::env::args().skip(1);
    while let Some(a) = args.next() {
        match a.as_str() {
            "--rounds" => o.rounds = args.next().unwrap().parse().unwrap(),
            "--only" => o.only = args.next(),
            "--count" => (o.counts, o.rounds) = (true, 1),
            "--keep" => o.keep = args.next(),
            "--from" => START.store(args.next().unwrap().parse().unwrap(), Relaxed),
            "--table" => return print!("{}", table::table(&args.collect::<Vec<_>>())),
            n => o.names.push(n.to_string()),
        }
    }
    let mut kept = format!("rounds|{}\n", o.rounds);
    let counts = cfg!(feature = "count");
    let more = if counts { "   allocations: ours, plain" } else { "" };
    println!("{:<30} {:>10} {:>10} {:>7}{more}", "ns an event, median", "ours", "plain", "ratio");
    for row in workloads::ALL {
        for &size in row.sizes {
            let name = row.named(size);
            if !o.wants(&name) {
                continue;
            }
            let s = (row.make)(size);
            let Some([x, y, allocated, plainly]) = measure(&o, &name, &s) else { continue };
            let more = if counts { format!("   {allocated:8.2} {plainly:8.2}") } else { String::new() };
            println!("{name:<30} {x:>10.1} {y:>10.1} {:>7.1}{more}", x / y);
            writeln!(kept, "{name}|{x}|{y}").unwrap();
        }
    }
    if !o.counts && !counts && o.only.is_none() && START.load(Relaxed) == 0 {
        for (name, x, y, z) in locks::measure(o.rounds, |name| o.wants(name)) {
            println!("{name:<30} {x:>10.1} {y:>10.1} {:>7.1}   {z:.1} without the lists", x / y);
            writeln!(kept, "{name}|{x}|{y}|{z}").unwrap();
        }
        if o.wants(latency::NAME) {
            let [x, y] = latency::measure(o.rounds);
            for ((share, _), (x, y)) in latency::SHARES.iter().zip(x.iter().zip(&y)) {
                println!("{:<30} {x:>10.1} {y:>10.1} {:>7.1}", format!("{}, {share}", latency::NAME), x / y);
            }
            let all: Vec<String> = x.iter().chain(&y).map(f64::to_string).collect();
            writeln!(kept, "{}|{}", latency::NAME, all.join("|")).unwrap();
        }
    }
    if let Some(file) = o.keep {
        std::fs::write(file, kept).unwrap();
    }
}
