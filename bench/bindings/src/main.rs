//! The jobs of the typed calls, by the values of the crate `sysmem`, and by the plain core under a
//! `Mutex`.
//!
//!     binding-calls rust sync|open|life|frame|frame_idle|frame_fd THREADS TURNS
//!     binding-calls plain sync|open|life THREADS TURNS
//!
//! It writes the nanoseconds that the turns took, and the events.
use plain_core as p;
use std::sync::Mutex;
use std::time::Instant;
use sysmem::{Client, Constraints, Options, Service};

/// A frame goes from one client to another as a handle, and is dropped there: 4 calls. With idle, the
/// first one is told that it has the only handle again; with fd, both ask their descriptors' `pending`
/// each time.
fn pass_frames(client: &Client, other: &Client, job: &str, turns: u64) {
    let all = client.open_root("").unwrap().bind().unwrap();
    all.set_constraints(Constraints { camping: 5, at_least: 0, size: 4096 }).unwrap();
    let handles = all.take().unwrap().unwrap();
    let (with_idle, with_fd) = (job == "frame_idle", job == "frame_fd");
    let _fds = with_fd.then(|| (client.fd().unwrap(), other.fd().unwrap()));
    for _ in 0..turns {
        handles[0].duplicate().unwrap().give(other.id()).unwrap();
        if with_idle {
            handles[0].on_idle(1, |_| {}).unwrap();
        }
        if with_fd {
            handles[0].tell_idle(1).unwrap();
            other.pending();
        }
        drop(other.collect().unwrap());
        if with_fd {
            client.pending();
        }
    }
}

/// One turn of another job makes 1, 2 or 7 calls.
fn play(client: &Client, job: &str, turns: u64) {
    if job == "sync" {
        let root = client.open_root("").unwrap();
        (0..turns).for_each(|_| root.sync().unwrap());
        return;
    }
    let is_life = job == "life";
    for _ in 0..turns {
        let root = client.open_root("").unwrap();
        if is_life {
            let all = root.bind().unwrap();
            all.set_constraints(Constraints { camping: 1, at_least: 0, size: 4096 }).unwrap();
            all.check().unwrap().unwrap();
            drop(all.take().unwrap());
        }
    }
}

/// The same on the plain core.
fn play_plain(service: &Mutex<p::Core>, id: u64, job: &str, turns: u64) {
    let ask = |call| service.lock().unwrap().step(id, call).unwrap();
    let open = || match ask(p::Call::OpenRoot) {
        p::Reply::Token { key, collection } => (key, collection),
        reply => panic!("{reply:?}"),
    };
    if job == "sync" {
        let (root, _) = open();
        for _ in 0..turns {
            ask(p::Call::Sync(root));
        }
        ask(p::Call::Close(root));
        return;
    }
    let is_life = job == "life";
    for _ in 0..turns {
        let (root, collection) = open();
        if is_life {
            ask(p::Call::Bind(root));
            ask(p::Call::SetConstraints(root, p::Constraints::new(1, 0, 4096).unwrap()));
            ask(p::Call::Check(root));
            ask(p::Call::Take(root));
            let buffer = p::BufferName { collection, index: 0 };
            ask(p::Call::DropHandle(buffer, p::Strength::Strong));
        }
        ask(p::Call::Close(root));
    }
}

/// The time that all take, each in a thread of its own, or here if it is one.
fn timed<T: Sync>(all: &[T], play: impl Fn(&T) + Sync) -> u128 {
    let start = Instant::now();
    if let [one] = all {
        play(one);
    } else {
        std::thread::scope(|scope| {
            for one in all {
                scope.spawn(|| play(one));
            }
        });
    }
    start.elapsed().as_nanos()
}

fn main() {
    let words: Vec<String> = std::env::args().collect();
    let (job, threads) = (words[2].as_str(), words[3].parse::<u64>().unwrap());
    let turns = words[4].parse().unwrap();
    let (time, events) = if words[1] == "rust" {
        let service = Service::open(Options { pages: 4096, ..Options::default() }).unwrap();
        let clients: Vec<Client> = (0..threads).map(|_| service.join().unwrap()).collect();
        let others: Vec<Client> = (0..threads).map(|_| service.join().unwrap()).collect();
        let all: Vec<_> = clients.iter().zip(&others).collect();
        let time = timed(&all, |(client, other)| match job {
            "frame" | "frame_idle" | "frame_fd" => pass_frames(client, other, job, turns),
            _ => play(client, job, turns),
        });
        (time, service.events() - threads)
    } else {
        let limits = p::Limits::new(u32::MAX, 1024, 256, 4096, u32::MAX).unwrap();
        let service = Mutex::new(p::Core::new(4096, limits));
        let join = |_| match service.lock().unwrap().step(0, p::Call::Join).unwrap() {
            p::Reply::Joined(id) => id,
            reply => panic!("{reply:?}"),
        };
        let ids: Vec<u64> = (0..threads).map(join).collect();
        let time = timed(&ids, |&id| play_plain(&service, id, job, turns));
        let events = service.lock().unwrap().events();
        (time, events)
    };
    println!("{time} {}", events - threads);
}
