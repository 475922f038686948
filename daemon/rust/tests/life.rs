//! What each call answers.
mod rig;
use rig::*;
use std::sync::atomic::Ordering::Relaxed;
use sysmem_remote::*;

fn wants(camping: u8, size: u32) -> Constraints {
    Constraints { camping, at_least: 0, size }
}

#[test]
fn a_whole_life() {
    let daemon = Daemon::new(&[]);
    let service = daemon.service();
    let (app, nobody) = (service.join_as("app").unwrap(), service.join().unwrap());
    assert_eq!((&*app.label(), &*nobody.label()), ("app", ""));
    let root = app.open_root("root").unwrap();
    let kid = root.duplicate("kid, whose label is longer than the daemon has room for").unwrap();
    assert!(root.key() != kid.key() && root.collection() == kid.collection());
    kid.set_dispensable().unwrap();
    let (a, b) = (root.bind().unwrap(), kid.bind().unwrap());
    a.set_constraints(wants(2, 5000)).unwrap();
    assert_eq!((a.check(), a.take().unwrap().is_none()), (Ok(None), true));
    let waits = a.waits_for().unwrap();
    assert_eq!((waits.len(), waits[0].node, waits[0].is_bound), (1, b.key(), true));
    assert_eq!(waits[0].process, std::process::id());
    let label = "kid, whose label is longer than";
    assert_eq!(waits[0].to_string(), format!("{label} (held by process {})", std::process::id()));
    b.set_constraints(wants(1, 6000)).unwrap();
    let given = Allocation { count: 3, size: 6000 };
    assert_eq!(a.wait_allocated(LONG), Ok(Waited::Done(given)));
    assert_eq!(b.check(), Ok(Some(given)));
    assert!(a.waits_for().unwrap().is_empty());

    let (mine, theirs) = (a.take().unwrap().unwrap(), b.take().unwrap().unwrap());
    assert_eq!((mine.len(), theirs.len()), (3, 3));
    let frame = &mine[1];
    assert_eq!(frame.buffer(), Buffer { collection: a.collection(), index: 1 });
    assert_eq!(frame.strength(), Strength::Strong);
    let bytes = frame.bytes().unwrap();
    assert_eq!((bytes.len(), bytes[5999].load(Relaxed)), (6000, 0));
    bytes[5999].store(7, Relaxed);
    assert_eq!(theirs[1].bytes().unwrap()[5999].load(Relaxed), 7);
    assert_eq!(theirs[0].bytes().unwrap()[5999].load(Relaxed), 0);
    assert!(std::ptr::eq(bytes, frame.bytes().unwrap()), "it is mapped once");
    // SAFETY: this thread alone has the buffer, and the two slices are used one after the other.
    unsafe {
        frame.slice_mut().unwrap()[0] = 9;
        assert_eq!(theirs[1].slice().unwrap()[0], 9);
    }
    let memory = std::fs::File::from(frame.memory_fd().unwrap());
    assert_eq!(memory.metadata().unwrap().len(), 8192);
    assert!(memory.set_len(0).is_err(), "it is sealed");
    let more = frame.duplicate().unwrap();
    assert_eq!((more.buffer(), more.open_handles()), (frame.buffer(), Ok(3)));
    assert_eq!(more.bytes().unwrap()[5999].load(Relaxed), 7);

    let gone = b.track_node().unwrap();
    let left = a.track_lifetime(0).unwrap();
    assert!(gone.id() != left.id());
    assert_eq!((gone.poll(), gone.wait_for(SHORT)), (None, Ok(Waited::TimeOver)));
    b.close();
    assert_eq!(gone.wait(), Ok(service.status().unwrap().events));
    assert_eq!(gone.clone().poll(), Some(gone.wait().unwrap()));
    a.sync().unwrap();
    drop((mine, theirs, more));
    assert_eq!(left.poll(), None, "the nodes keep the buffers");
    a.close();
    assert!(left.wait_for(LONG).unwrap().is_done());
    comes(|| is_whole(&service));
}

#[test]
fn refusals() {
    let daemon = Daemon::new(&["--nodes", "3"]);
    let app = daemon.join();
    let root = app.open_root("root").unwrap();
    let weak = root.duplicate("weak").unwrap();
    weak.set_weak().unwrap();
    assert_eq!(root.duplicate("").map(drop), Ok(()));
    comes(|| root.sync().is_err());
    let told = root.sync().unwrap_err();
    assert_eq!(closed(&told), Some((Cause::Lost, "", std::process::id())));
    let back = root.bind().unwrap_err();
    assert!(back.to_string().starts_with("closed: lost, by node ") && back.error == told);
    back.value.close();
    assert_eq!(Error::from(weak.bind().unwrap_err()), told);

    // A closed end's node is kept until the daemon saw its socket close.
    let (one, kids) = until_ok(|| {
        let one = app.open_root("one")?;
        let kids = [one.duplicate("a")?, one.duplicate("b")?];
        Ok((one, kids))
    });
    assert_eq!(one.duplicate("c").unwrap_err(), Error::Refused(Refusal::TooManyNodes));
    let [kid, other] = kids;
    kid.set_dispensable().unwrap();
    kid.set_weak_ok(true).unwrap();
    let (one, kid) = (one.bind().unwrap(), kid.bind().unwrap());
    let far = one.set_constraints(wants(65, 1)).unwrap_err();
    let range = OutOfRange { what: "camping", is: 65, least: 0, most: 64 };
    assert_eq!(far, Error::BadCall(range));
    assert_eq!(far.to_string(), "bad call: camping is 65, and must be 0 to 64");
    kid.set_constraints(wants(1, 1)).unwrap();
    assert_eq!(kid.set_constraints(wants(1, 1)), Err(Error::Misused(Misuse::SecondConstraints)));
    let told = kid.sync().unwrap_err();
    assert_eq!(told.to_string(), format!("closed: misused SecondConstraints, by node {} (a)", kid.key()));
    assert_eq!(closed(&told).unwrap().2, std::process::id());
    drop((one, other));
}

#[test]
fn weak_handles() {
    let daemon = Daemon::new(&[]);
    let app = daemon.join();
    let root = app.open_root("root").unwrap();
    let weak = root.duplicate("weak").unwrap();
    weak.set_weak().unwrap();
    weak.set_weak_ok(false).unwrap();
    let (strong, weak) = (root.bind().unwrap(), weak.bind().unwrap());
    strong.set_constraints(wants(1, 1)).unwrap();
    weak.set_constraints(wants(0, 1)).unwrap();
    let (mine, theirs) = (strong.take().unwrap().unwrap(), weak.take().unwrap().unwrap());
    assert_eq!((theirs[0].strength(), theirs[0].open_handles()), (Strength::Weak, Ok(2)));
    assert_eq!(mine[0].track_weak().unwrap_err(), Error::Refused(Refusal::NoSuchHandle));
    let soon = theirs[0].track_weak().unwrap();
    assert_eq!(soon.poll(), None);
    drop((mine, strong));
    assert!(is_readable(soon.fd().unwrap(), 60_000));
    assert!(soon.poll().is_some());
    assert!(is_readable(soon.fd().unwrap(), 0), "it stays so");
}

// More nodes than a message has.
#[test]
fn lists() {
    let daemon = Daemon::new(&[]);
    let service = daemon.service();
    let root = service.join().unwrap().open_root("root").unwrap();
    let kids: Vec<Token> = (0..100).map(|i| root.duplicate(&format!("kid {i}")).unwrap()).collect();
    let root = root.bind().unwrap();
    root.set_constraints(wants(1, 8)).unwrap();
    let nodes = service.nodes().unwrap();
    assert_eq!(nodes.len(), 101);
    let mine = &nodes[0];
    assert_eq!((mine.key, mine.parent, mine.head), (root.key(), root.key(), root.key()));
    assert_eq!((mine.label.as_deref(), mine.constraints), (Some("root"), Some(wants(1, 8))));
    assert!(mine.is_bound && !mine.is_allocated && mine.fault.is_none());
    assert_eq!((mine.process, mine.collection), (std::process::id(), root.collection()));
    assert_eq!(
        (nodes[100].key, nodes[100].parent, nodes[100].process),
        (kids[99].key(), root.key(), std::process::id())
    );
    assert_eq!(root.waits_for().unwrap().len(), 100);
    assert_eq!(
        root.waits_for().unwrap()[99].to_string(),
        format!("kid 99 (a token of process {})", std::process::id())
    );
}
