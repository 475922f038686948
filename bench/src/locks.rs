//! Typed calls in threads at one lock: the proved service in a program of its own, and the plain core
//! under a `Mutex`, once with the lists that the service keeps and once without.
use crate::median;
use plain_core::*;
use std::io::Write;
use std::process::{Command, Stdio};
use std::sync::Mutex;
use std::time::Instant;

/// Name, the job's word, and turns of each thread.
const JOBS: &[(&str, &str, u64)] =
    &[("t1 sync", "sync", 100_000), ("t2 open, close", "open", 50_000), ("t3 life", "life", 10_000)];

const THREADS: &[usize] = &[1, 4];

#[derive(Clone, Copy)]
struct Own {
    #[allow(dead_code)]
    event: u64,
    #[allow(dead_code)]
    call: Call,
    reply: Reply,
}

struct Shared {
    core: Core,
    log: Vec<(ClientId, Call, Reply)>,
}

struct Client<'a> {
    service: &'a Mutex<Shared>,
    id: ClientId,
    lists: bool,
    own: Vec<Own>,
    sum: u64,
}

/// What was told of a job: nanoseconds, events, those that clients count as their own, and the sum of
/// their replies.
type Line = (f64, [u64; 3]);

fn kind_of(r: &Reply) -> u64 {
    match *r {
        Reply::Done => 1,
        Reply::Token { .. } => 2,
        Reply::Allocated { count, size } => 3 + count as u64 + size as u64,
        Reply::Taken { set, .. } => 4 ^ set,
        _ => 5,
    }
}

impl Client<'_> {
    fn ask(&mut self, call: Call) -> Reply {
        let mut s = self.service.lock().unwrap();
        let reply = s.core.step(self.id, call).unwrap();
        if self.lists {
            s.log.push((self.id, call, reply));
            self.own.push(Own { event: s.core.events(), call, reply });
        } else {
            drop(s);
            self.sum = self.sum.wrapping_mul(31).wrapping_add(kind_of(&reply));
        }
        reply
    }
    fn done(&mut self, call: Call) {
        assert_eq!(self.ask(call), Reply::Done);
    }
    fn root(&mut self) -> (NodeKey, CollectionId) {
        match self.ask(Call::OpenRoot) {
            Reply::Token { key, collection } => (key, collection),
            r => panic!("{r:?}"),
        }
    }
    fn play(&mut self, job: &str, turns: u64) {
        if job == "sync" {
            let (r, _) = self.root();
            for _ in 0..turns {
                self.done(Call::Sync(r));
            }
            return self.done(Call::Close(r));
        }
        for _ in 0..turns {
            let (r, collection) = self.root();
            if job == "life" {
                self.done(Call::Bind(r));
                self.done(Call::SetConstraints(r, Constraints::new(1, 0, 4096).unwrap()));
                assert!(matches!(self.ask(Call::Check(r)), Reply::Allocated { .. }));
                assert!(matches!(self.ask(Call::Take(r)), Reply::Taken { .. }));
                self.done(Call::DropHandle(BufferName { collection, index: 0 }, Strength::Strong));
            }
            self.done(Call::Close(r));
        }
    }
}

fn plain(job: &str, threads: usize, turns: u64, lists: bool) -> Line {
    let limits = Limits::new(u32::MAX, 1024, 256, 4096, u32::MAX).unwrap();
    let service = Mutex::new(Shared { core: Core::new(4096, limits), log: Vec::new() });
    let mut clients: Vec<Client> = (0..threads)
        .map(|_| {
            let mut s = service.lock().unwrap();
            let Reply::Joined(id) = s.core.step(0, Call::Join).unwrap() else { panic!("not joined") };
            s.log.push((0, Call::Join, Reply::Joined(id)));
            Client { service: &service, id, lists, own: Vec::new(), sum: 0 }
        })
        .collect();
    let start = Instant::now();
    if let [client] = &mut clients[..] {
        client.play(job, turns);
    } else {
        std::thread::scope(|s| {
            for client in &mut clients {
                s.spawn(move || client.play(job, turns));
            }
        });
    }
    let ns = start.elapsed().as_secs_f64() * 1e9;
    let s = service.lock().unwrap();
    let events = s.core.events();
    assert!(!lists || s.log.len() as u64 == events);
    let own = events - threads as u64;
    assert!(!lists || clients.iter().map(|c| c.own.len() as u64).sum::<u64>() == own);
    let sum_of = |c: &Client| c.own.iter().fold(c.sum, |n, o| n.wrapping_mul(31).wrapping_add(kind_of(&o.reply)));
    (ns, [events, own, clients.iter().map(sum_of).fold(0, u64::wrapping_add)])
}

fn ours(job: &str, threads: usize, turns: u64) -> Line {
    let program = concat!(env!("CARGO_MANIFEST_DIR"), "/out/lock_calls");
    let mut child = Command::new(program).stdin(Stdio::piped()).stdout(Stdio::piped()).spawn().expect(program);
    writeln!(child.stdin.take().unwrap(), "{job} {threads} {turns}").unwrap();
    let told = String::from_utf8(child.wait_with_output().unwrap().stdout).unwrap();
    let words: Vec<u64> = told.split_whitespace().filter_map(|w| w.parse().ok()).collect();
    let &[ns, events, own, sum] = &words[..] else { panic!("{job} {threads} {turns}: {told}") };
    (ns as f64, [events, own, sum])
}

/// Of each row its name, and the nanoseconds an event: ours, plain with the lists, and plain without.
pub fn measure(rounds: usize, wants: impl Fn(&str) -> bool) -> Vec<(String, f64, f64, f64)> {
    let mut rows = Vec::new();
    for &(name, job, turns) in JOBS {
        for &threads in THREADS {
            let name = format!("{name}, {threads} thread{}", if threads == 1 { "" } else { "s" });
            if !wants(&name) {
                continue;
            }
            let mut all = [Vec::new(), Vec::new(), Vec::new()];
            for _ in 0..rounds {
                let plainly = |lists| plain(job, threads, turns, lists);
                let three = [ours(job, threads, turns), plainly(true), plainly(false)];
                assert!(three.iter().all(|it| it.1 == three[0].1), "{name}: {three:?}");
                for (v, line) in all.iter_mut().zip(three) {
                    v.push(line.0 / line.1[1] as f64);
                }
            }
            let [x, y, z] = all.map(median);
            rows.push((name, x, y, z));
        }
    }
    rows
}
