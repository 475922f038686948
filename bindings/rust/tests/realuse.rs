//! Pages and bytes of handles, idle buffers, one descriptor per client, waits without events, whom an
//! allocation waits for, and callbacks that make callbacks.
#![cfg(target_os = "linux")]
use std::os::raw::{c_int, c_short, c_ulong};
use std::os::unix::io::AsRawFd;
use std::process::Stdio;
use std::sync::atomic::{AtomicBool, AtomicU32, Ordering};
use std::sync::{Arc, Mutex};
use std::thread;
use std::time::{Duration, Instant};
use sysmem::*;

const LONG: Duration = Duration::from_secs(60);
const SHORT: Duration = Duration::from_millis(1);

#[repr(C)]
struct PollFd(c_int, c_short, c_short);

extern "C" {
    fn poll(all: *mut PollFd, count: c_ulong, time: c_int) -> c_int;
}

fn is_readable(fd: &impl AsRawFd) -> bool {
    let mut one = PollFd(fd.as_raw_fd(), 1, 0);
    unsafe { poll(&mut one, 1, 0) == 1 }
}

fn asks(camping: u8, size: u32) -> Constraints {
    Constraints { camping, at_least: 0, size }
}

fn allocated(client: &Client, wanted: Constraints) -> Collection {
    let collection = client.open_root("root").unwrap().bind().unwrap();
    collection.set_constraints(wanted).unwrap();
    collection
}

fn take(collection: &Collection) -> Vec<Handle> {
    collection.take().unwrap().unwrap()
}

#[test]
fn handle_has_pages_and_bytes() {
    let memory = Memory::open(16).unwrap();
    let with = |pages| Options { pages, memory: Some(memory.clone()), ..Options::default() };
    assert!(matches!(Memory::open(0), Err(Error::BadLimits(_))));
    assert!(matches!(Service::open(with(17)), Err(Error::BadLimits(_))));
    drop(Service::open(with(16)).unwrap());
    let service = Service::open(with(16)).unwrap();
    assert_eq!(Service::open(with(16)).err(), Some(Error::MemoryInUse));
    let (a, b) = (service.join().unwrap(), service.join().unwrap());
    let _first = allocated(&a, asks(1, 4096));
    let c = allocated(&a, asks(3, 5000));
    let mut all = take(&c);
    let held = service.held().unwrap();
    for (i, handle) in all.iter().enumerate() {
        assert_eq!(handle.pages(), Ok(Pages { start: held[i + 1].start, count: 2 }));
        let bytes = memory.bytes(handle);
        assert_eq!(bytes.len(), 5000);
        bytes.iter().for_each(|byte| byte.store(i as u8 + 1, Ordering::Relaxed));
    }
    all.remove(1).give(b.id()).unwrap();
    let there = b.collect().unwrap().unwrap().handle().unwrap();
    assert_eq!(there.pages(), Ok(Pages { start: held[2].start, count: 2 }));
    assert_eq!(memory.bytes(&there)[4999].load(Ordering::Relaxed), 2);
    // SAFETY: this is the only handle, in the only thread.
    unsafe {
        assert_eq!(memory.slice(&there)[..2], [2, 2]);
        memory.slice_mut(&there)[0] = 9;
        assert_eq!(memory.slice(&there)[..2], [9, 2]);
    }
    assert_eq!(there.open_handles(), Ok(1));
    let more = there.duplicate().unwrap();
    assert_eq!(there.open_handles(), Ok(2));
    assert_eq!(memory.bytes(&more).as_ptr(), memory.bytes(&there).as_ptr());
    let other = Memory::open(16).unwrap();
    assert!(other.bytes(&more).is_empty());
    drop(b);
    assert!(memory.bytes(&there).is_empty() && there.open_handles().is_err());
    assert!(there.pages().is_err() && there.tell_idle(0).is_err());
}

#[test]
fn pages_are_told_without_a_memory() {
    let service = Service::open(Options::default()).unwrap();
    let a = service.join().unwrap();
    let c = allocated(&a, asks(2, 5000));
    let (all, twice) = (take(&c), take(&c));
    assert_eq!(all[1].pages(), Ok(Pages { start: 2, count: 2 }));
    assert_eq!((all[0].open_handles(), twice[1].open_handles()), (Ok(2), Ok(2)));
    assert_eq!(service.open_handles(a.id(), all[0].buffer(), Strength::Strong), 2);
    assert_eq!(service.given(c.collection()), Some(Allocation { count: 2, size: 5000 }));
    drop(twice);
    assert_eq!(all[0].open_handles(), Ok(1));
    assert_eq!(service.buffer_name(all[1].buffer()), "root.1");
    assert_eq!(
        (service.name(c.key()).as_str(), all[1].buffer().to_string()),
        ("root", format!("{}.1", c.collection()))
    );
}

#[test]
fn buffer_falls_idle() {
    let service = Service::open(Options::default()).unwrap();
    let (camera, b) = (service.join().unwrap(), service.join().unwrap());
    let crashes = service.join().unwrap();
    let c = allocated(&camera, asks(1, 4096));
    let frame = take(&c).pop().unwrap();
    let calls = Arc::new(AtomicU32::new(0));
    let count = |calls: &Arc<AtomicU32>| {
        let calls = calls.clone();
        move |_| {
            calls.fetch_add(1, Ordering::SeqCst);
        }
    };
    let called = || calls.load(Ordering::SeqCst);
    frame.on_idle(1, count(&calls)).unwrap();
    assert_eq!(called(), 1); // at once
    frame.duplicate().unwrap().give(b.id()).unwrap();
    frame.duplicate().unwrap().give(crashes.id()).unwrap();
    frame.on_idle(1, count(&calls)).unwrap();
    frame.on_idle(2, count(&calls)).unwrap();
    assert_eq!((called(), frame.open_handles()), (1, Ok(3)));
    assert_eq!(frame.wait_idle(2, SHORT), Ok(Waited::TimeOver));
    let events = service.events();
    drop(b.collect().unwrap().unwrap().handle().unwrap());
    assert_eq!((called(), frame.wait_idle(2, SHORT)), (2, Ok(Waited::Done(()))));
    assert_eq!(service.events(), events + 2);
    thread::scope(|scope| {
        scope.spawn(|| {
            thread::sleep(Duration::from_millis(5));
            drop(crashes); // with the handle in its parcel
        });
        assert_eq!(frame.wait_idle(1, LONG), Ok(Waited::Done(())));
    });
    assert_eq!((called(), frame.open_handles()), (3, Ok(1)));
    let fd = camera.fd().unwrap(); // its node is allocated
    assert!(is_readable(&fd) && camera.pending().allocated == [c.key()]);
    frame.tell_idle(0).unwrap();
    assert!(!is_readable(&fd));
    let buffer = frame.buffer();
    drop(frame);
    assert!(is_readable(&fd) && camera.pending().idle == [buffer]);
    assert!(!is_readable(&fd) && camera.pending().is_empty());
    let late = service.join().unwrap(); // its descriptor comes after the news
    let other = allocated(&late, asks(1, 4096));
    take(&other)[0].tell_idle(0).unwrap();
    let fd = late.fd().unwrap();
    assert!(is_readable(&fd) && late.pending().idle.len() == 1 && !is_readable(&fd));
}

#[test]
fn descriptor_tells_of_everything() {
    let service = Service::open(Options::default()).unwrap();
    let (a, b) = (service.join_as("a").unwrap(), service.join_as("b").unwrap());
    let root = a.open_root("root").unwrap();
    let (fd, other) = (a.fd().unwrap(), b.fd().unwrap());
    assert_eq!((a.fd().unwrap().as_raw_fd(), is_readable(&fd)), (fd.as_raw_fd(), false));
    root.duplicate("kid").unwrap().give(b.id()).unwrap();
    assert!(is_readable(&other) && b.pending().parcels == 1 && is_readable(&other));
    let kid = b.collect().unwrap().unwrap().token().unwrap().bind().unwrap();
    assert!(!is_readable(&other));
    let mine = root.bind().unwrap();
    let waits = mine.waits_for().unwrap();
    assert_eq!(waits.len(), 2);
    assert_eq!(waits[1].to_string(), "kid (held by b)");
    mine.set_constraints(asks(1, 4096)).unwrap();
    assert!(mine.waits_for().unwrap().len() == 1 && !is_readable(&fd));
    let events = service.events();
    assert_eq!(mine.wait_allocated(SHORT), Ok(Waited::TimeOver));
    assert!(matches!(a.collect_for(SHORT), Ok(Waited::TimeOver)));
    assert_eq!(service.events(), events);
    kid.set_constraints(asks(1, 4096)).unwrap();
    assert!(is_readable(&fd) && is_readable(&other) && mine.waits_for().unwrap().is_empty());
    let now = a.pending();
    assert!(now.allocated == [mine.key()] && now.failed.is_empty() && !is_readable(&fd));
    assert_eq!(b.pending().allocated, [kid.key()]);
    let attached = mine.attach_token("late").unwrap().bind().unwrap();
    attached.set_constraints(asks(9, 4096)).unwrap(); // TooFew: it fails
    let now = a.pending();
    assert!(now.failed == [attached.key()] && now.allocated.is_empty());
    let gone = mine.track_node().unwrap();
    let its = gone.fd().unwrap();
    assert!(!is_readable(&its));
    let nodes = service.nodes().unwrap();
    assert_eq!(nodes.iter().filter(|node| node.is_allocated && node.fault.is_none()).count(), 2);
    assert_eq!(nodes[1].holder_label.as_deref(), Some("b"));
    drop(b);
    assert!(is_readable(&fd) && is_readable(&its) && is_readable(&gone.fd().unwrap()));
    let now = a.pending();
    assert_eq!((now.failed, now.fired), (vec![mine.key()], vec![gone.id()]));
    assert!(!is_readable(&fd));
    assert!(matches!(mine.wait_allocated(LONG), Err(Error::PeerClosed { cause: Cause::Lost, .. })));
    let c = service.join().unwrap();
    let third = c.fd().unwrap();
    let again = a.open_root("again").unwrap();
    again.duplicate("twin").unwrap().give(c.id()).unwrap();
    drop(again);
    let got = c.collect().unwrap().unwrap().token().unwrap(); // its node failed in the parcel
    assert!(is_readable(&third) && c.pending().failed == [got.key()]);
    drop(a.open_root("again").unwrap());
    assert!(!is_readable(&fd) && a.pending().is_empty()); // it has no ends any more
}

/// A recorder may end waits, which runs under the lock.
fn wait_is_cancelled_by(recorder: bool) {
    let cancel = Cancel::new();
    let is_time = Arc::new(AtomicBool::new(false));
    let (ends, now) = (cancel.clone(), is_time.clone());
    let record: Record = Arc::new(move |_| {
        if now.load(Ordering::SeqCst) {
            ends.cancel();
        }
    });
    let service = Service::open(Options { record: Some(record), ..Options::default() }).unwrap();
    let a = service.join().unwrap();
    let alone = a.open_root("").unwrap();
    let gone = alone.track_node().unwrap();
    let alone = alone.bind().unwrap();
    let c = allocated(&a, asks(1, 1));
    let (frame, _other) = (take(&c).pop().unwrap(), take(&c));
    let events = service.events();
    let start = Instant::now();
    thread::scope(|scope| {
        let all = [
            scope.spawn(|| a.collect_for(&cancel).unwrap().is_cancelled()),
            scope.spawn(|| alone.wait_allocated(cancel.within(LONG)) == Ok(Waited::Cancelled)),
            scope.spawn(|| gone.wait_for(&cancel).is_cancelled()),
            scope.spawn(|| frame.wait_idle(1, cancel.within(LONG)) == Ok(Waited::Cancelled)),
        ];
        thread::sleep(Duration::from_millis(20));
        if recorder {
            is_time.store(true, Ordering::SeqCst);
            c.sync().unwrap();
        } else {
            cancel.clone().cancel();
        }
        all.into_iter().for_each(|one| assert!(one.join().unwrap()));
    });
    assert!(start.elapsed() < LONG && cancel.is_cancelled());
    assert!(matches!(a.collect_for(&cancel), Ok(Waited::Cancelled))); // and those that come later
    assert_eq!(service.events(), events + u64::from(recorder));
    assert_eq!(frame.wait_idle(2, &cancel), Ok(Waited::Done(()))); // it is so
    alone.close();
    assert!(gone.wait_for(&cancel).is_done());
}

#[test]
fn wait_is_cancelled() {
    wait_is_cancelled_by(false);
    wait_is_cancelled_by(true);
}

#[test]
fn cancel_has_a_descriptor() {
    let cancel = Cancel::new();
    let fd = cancel.fd().unwrap();
    assert_eq!(
        (cancel.clone().fd().unwrap().as_raw_fd(), is_readable(&fd)),
        (fd.as_raw_fd(), false)
    );
    thread::scope(|scope| {
        scope.spawn(|| {
            thread::sleep(Duration::from_millis(5));
            cancel.cancel();
        });
        let mut one = PollFd(fd.as_raw_fd(), 1, 0);
        assert_eq!(unsafe { poll(&mut one, 1, 30_000) }, 1);
    });
    cancel.cancel();
    assert!(is_readable(&fd));
    let late = Cancel::new();
    late.cancel();
    assert!(is_readable(&late.fd().unwrap()));
}

#[test]
fn receiver_of_a_parcel_is_named() {
    let service = Service::open(Options::default()).unwrap();
    let (a, b) = (service.join_as("a").unwrap(), service.join_as("b").unwrap());
    let root = a.open_root("root").unwrap();
    a.open_root("").unwrap().give(b.id()).unwrap(); // two parcels come before
    take(&allocated(&a, asks(1, 1))).pop().unwrap().give(b.id()).unwrap();
    root.duplicate("kid").unwrap().give(b.id()).unwrap();
    let root = root.bind().unwrap();
    let waits = || root.waits_for().unwrap().pop().unwrap();
    let told = waits();
    assert_eq!((told.holder, told.receiver), (a.id(), Some(b.id()))); // b must collect it
    assert_eq!(told.to_string(), "kid (in a parcel for b)");
    assert!(b.collect().unwrap().unwrap().token().is_ok());
    assert!(b.collect().unwrap().unwrap().handle().is_ok());
    assert_eq!(waits(), told);
    let kid = b.collect().unwrap().unwrap().token().unwrap();
    assert_eq!((waits().holder, waits().receiver), (b.id(), None));
    let c = service.join().unwrap();
    kid.give(c.id()).unwrap();
    drop(b);
    assert_eq!(waits().to_string(), format!("kid (in a parcel for client {})", c.id()));
}

#[test]
fn holders_of_a_buffer_are_named() {
    let service = Service::open(Options::default()).unwrap();
    let (a, b) = (service.join_as("a").unwrap(), service.join_as("b").unwrap());
    let c = service.join().unwrap();
    let root = a.open_root("").unwrap();
    let watcher = root.duplicate("").unwrap();
    watcher.set_weak().unwrap();
    let (strong, weak) = (root.bind().unwrap(), watcher.bind().unwrap());
    strong.set_constraints(asks(2, 1)).unwrap();
    weak.set_constraints(asks(0, 1)).unwrap();
    let (all, mut eyes) = (take(&strong), take(&weak));
    let (first, second) = (all[0].buffer(), all[1].buffer());
    let nobodys = Buffer { collection: 99, index: 0 };
    assert_eq!((service.holders(nobodys), service.all_open_handles(nobodys)), (vec![], 0));
    let more = all[0].duplicate().unwrap();
    all[0].duplicate().unwrap().give(b.id()).unwrap();
    eyes.remove(0).give(c.id()).unwrap();
    let holders = |buffer| {
        let all = service.holders(buffer).into_iter();
        all.map(|h| (h.client, h.label, h.strong, h.weak, h.parcels)).collect::<Vec<_>>()
    };
    let (called_a, called_b) = (Some("a".to_string()), Some("b".to_string()));
    let mut told = vec![
        (a.id(), called_a.clone(), 2, 0, 0),
        (b.id(), called_b, 0, 0, 1),
        (c.id(), None, 0, 0, 1),
    ];
    assert_eq!((holders(first), service.all_open_handles(first)), (told.clone(), 4));
    assert_eq!(more.open_handles(), Ok(4));
    let _there = c.collect().unwrap().unwrap().handle().unwrap();
    told[2] = (c.id(), None, 0, 1, 0);
    assert_eq!((holders(first), service.all_open_handles(first)), (told, 4));
    assert_eq!(holders(second), [(a.id(), called_a, 1, 1, 0)]);
    drop(c);
    assert_eq!((holders(first).len(), service.all_open_handles(first)), (2, 3));
}

#[test]
fn callbacks_do_not_recurse() {
    struct All(Mutex<Client>, AtomicU32, AtomicBool);
    fn again(all: Arc<All>) {
        assert!(!all.2.swap(true, Ordering::SeqCst));
        if all.1.fetch_add(1, Ordering::SeqCst) < 100_000 {
            let root = all.0.lock().unwrap().open_root("").unwrap();
            let next = all.clone();
            root.track_node().unwrap().on_fired(move |_| again(next));
        } // closed: it fires
        all.2.store(false, Ordering::SeqCst);
    }
    let service = Service::open(Options::default()).unwrap();
    let client = Mutex::new(service.join().unwrap());
    let all = Arc::new(All(client, AtomicU32::new(0), AtomicBool::new(false)));
    let (first, root) = (all.clone(), all.0.lock().unwrap().open_root("").unwrap());
    root.track_node().unwrap().on_fired(move |_| again(first));
    drop(root);
    assert_eq!(all.1.load(Ordering::SeqCst), 100_001);
    assert!(service.fired().unwrap().len() < 4096);
    let told = service.fired_from(5);
    assert_eq!((told.first + told.all.len() as u64, told.first > 5), (100_001, true));
    assert_eq!(service.fired_from(100_000).all.len(), 1);
    assert!(service.fired_from(u64::MAX).all.is_empty());
}

#[test]
fn parcel_of_another_kind_is_kept() {
    let service = Service::open(Options::default()).unwrap();
    let a = service.join().unwrap();
    let root = a.open_root("root").unwrap();
    root.duplicate("kid").unwrap().give(a.id()).unwrap();
    let parcel = a.collect().unwrap().unwrap();
    let parcel = parcel.handle().unwrap_err().collection().unwrap_err();
    assert!(parcel.token().unwrap().sync().is_ok());
}

#[test]
fn few_events_are_left_for_those_who_let_go() {
    let service = Service::open(Options { events: Some(40), ..Options::default() }).unwrap();
    let (a, b) = (service.join().unwrap(), service.join().unwrap());
    let c = allocated(&a, asks(2, 1));
    let mut all = take(&c);
    while service.remaining() >= 20 {
        c.sync().unwrap();
    }
    assert!(matches!(service.join(), Err(Error::HistoryFull)));
    assert_eq!(c.take().err(), Some(Error::HistoryFull));
    assert_eq!(all[0].duplicate().err(), Some(Error::HistoryFull));
    assert!(matches!(c.track_node(), Err(Error::HistoryFull)));
    assert!(matches!(a.open_root(""), Err(Error::HistoryFull)));
    all.pop().unwrap().give(b.id()).unwrap();
    drop(a);
    assert_eq!(
        (c.take().err(), all[0].duplicate().err()),
        (Some(Error::Vanished), Some(Error::Vanished))
    );
    assert!(matches!(c.track_node(), Err(Error::Vanished)));
    drop((b, c, all));
    assert!(service.is_settled() && service.live() == Ok(vec![]) && service.free_pages() == 16);

    let service = Service::open(Options { events: Some(8), ..Options::default() }).unwrap();
    let a = service.join().unwrap();
    let root = a.open_root("").unwrap();
    while root.sync().is_ok() {}
    drop(root);
    assert_eq!((service.lost(), service.is_settled(), service.remaining()), (1, false, 0));
}

#[test]
fn last_core_lasts() {
    let service = Service::open(Options::default()).unwrap();
    assert_eq!(service.remaining(), (1 << 53) - 1);
}

#[test]
fn labels_of_kept_nodes_stay() {
    let service = Service::open(Options::default()).unwrap();
    let a = service.join().unwrap();
    let root = a.open_root("preview").unwrap();
    let key = root.key();
    let child = root.duplicate("child").unwrap();
    root.release().unwrap();
    for slot in 2000..9000 {
        service.set_label(Key { slot, generation: 7 }, "nobody");
    }
    assert_eq!(service.label(key).as_deref(), Some("preview"));
    let child = child.bind().unwrap();
    child.set_constraints(asks(0, 1)).unwrap(); // NoBuffers, by the root
    assert!(child.check().unwrap_err().to_string().ends_with("(preview)"));
}

#[test]
fn recorder_that_panics_ends_the_transcript() {
    let calls = Arc::new(AtomicU32::new(0));
    let count = calls.clone();
    let record: Record = Arc::new(move |_| {
        if count.fetch_add(1, Ordering::SeqCst) == 1 {
            std::panic::resume_unwind(Box::new("no more"));
        }
    });
    let options = Options { record: Some(record), transcript: true, ..Options::default() };
    let service = Service::open(options).unwrap();
    let a = service.join().unwrap();
    let root = a.open_root("").unwrap(); // its recording panics
    assert_eq!(service.live(), Ok(vec![root.key()]));
    drop((root, a));
    assert_eq!((service.live(), service.is_settled()), (Ok(vec![]), true));
    assert_eq!(calls.load(Ordering::SeqCst), 2);
    let kept = "# pages 16\nc1 join\n  joined\nc1 open n2\n  token n2\n";
    assert_eq!(service.transcript(), kept);
}

/// Run again as a program of its own: what it writes to standard error, also where nobody reads it.
#[test]
fn standard_error_says_what_happens() {
    if std::env::var_os("SYSMEM_CHILD").is_some() {
        let slow = SHORT;
        let service = Service::open(Options { slow, ..Options::default() }).unwrap();
        let app = service.join_as("app").unwrap();
        let view = app.open_root("view").unwrap().bind().unwrap();
        assert_eq!(view.wait_allocated(10 * SHORT), Ok(Waited::TimeOver));
        assert_eq!(view.wait_allocated(10 * SHORT), Ok(Waited::TimeOver));
        return;
    }
    let words = ["--exact", "standard_error_says_what_happens", "--nocapture"];
    let run = |is_read: bool| {
        let mut child = std::process::Command::new(std::env::current_exe().unwrap());
        child.args(words).env("SYSMEM_CHILD", "1").env("SYSMEM_DEBUG", "1");
        child.stdout(Stdio::null()).stderr(Stdio::piped());
        let mut child = child.spawn().unwrap();
        if !is_read {
            drop(child.stderr.take());
        }
        child.wait_with_output().unwrap()
    };
    assert!(run(false).status.success());
    let ran = run(true);
    let said = String::from_utf8(ran.stderr).unwrap();
    assert!(ran.status.success(), "{said}");
    assert!(said.contains("app join\n  joined\napp open view\n  token view\n"), "{said}");
    let line =
        "sysmem: app waits for the allocation of view: no constraints from view (held by app)\n";
    assert!(said.contains(line), "{said}");
}
