//! Waits that time, a `Cancel` or the daemon ends, and several at once.
mod rig;
use rig::*;
use std::thread;
use std::time::{Duration, Instant};
use sysmem_remote::*;

// A wait that nothing ends but a `Cancel`, while another thread reads the same socket, and while none does.
#[test]
fn cancels() {
    let daemon = Daemon::new(&[]);
    let app = daemon.join();
    let root = app.open_root("root").unwrap();
    let _kid = root.duplicate("kid").unwrap();
    let one = root.bind().unwrap();
    let gone = one.track_node().unwrap();
    let (cancel, other) = (Cancel::new(), Cancel::new());
    let (_to, from) = std::os::unix::net::UnixStream::pair().unwrap();
    let done = app.open_root("other").unwrap().bind().unwrap();
    done.set_constraints(Constraints { camping: 1, at_least: 0, size: 1 }).unwrap();
    let frame = done.take().unwrap().unwrap().remove(0);
    thread::scope(|scope| {
        // It reads the socket for the others, and stays.
        let last = scope.spawn(|| one.wait_allocated(other.within(4 * LONG)).unwrap().is_cancelled());
        thread::sleep(SHORT);
        let ends = [
            scope.spawn(|| one.wait_allocated(cancel.within(LONG)).unwrap().is_cancelled()),
            scope.spawn(|| one.wait_allocated(cancel.within(2 * LONG)).unwrap().is_cancelled()),
            scope.spawn(|| gone.wait_for(cancel.within(LONG)).unwrap().is_cancelled()),
            scope.spawn(|| gone.clone().wait_for(cancel.within(LONG)).unwrap().is_cancelled()),
            scope.spawn(|| frame.wait_idle(0, cancel.within(LONG)).unwrap().is_cancelled()),
            scope.spawn(|| app.collect_for(&from, cancel.within(LONG)).unwrap().is_cancelled()),
        ];
        thread::sleep(SHORT);
        assert!(ends.iter().all(|end| !end.is_finished()) && !is_readable(cancel.fd().unwrap(), 0));
        let since = Instant::now();
        cancel.cancel();
        for (place, end) in ends.into_iter().enumerate() {
            assert!(end.join().unwrap(), "wait {place}");
        }
        assert!(since.elapsed() < LONG / 2 && is_readable(cancel.fd().unwrap(), 0));
        thread::sleep(SHORT);
        assert!(!last.is_finished(), "another one's wait goes on");
        other.cancel();
        assert!(last.join().unwrap());
    });
    assert!(one.wait_allocated(&cancel).unwrap().is_cancelled(), "and each later one");
    assert_eq!(frame.wait_idle(1, &cancel), Ok(Waited::Done(())), "what is so is so");
    one.sync().unwrap();
}

// Each of several threads that ask one value different things gets its own answer.
#[test]
fn many_ask() {
    let daemon = Daemon::new(&[]);
    let app = daemon.join();
    let (one, handles) = allocate(&app, 2);
    let frame = &handles[1];
    thread::scope(|scope| {
        for _ in 0..2 {
            scope.spawn(|| (0..200).for_each(|_| assert!(frame.open_handles().unwrap() >= 1)));
            scope.spawn(|| {
                for _ in 0..200 {
                    assert_eq!(frame.duplicate().unwrap().buffer(), frame.buffer());
                }
            });
            scope.spawn(|| {
                for _ in 0..200 {
                    assert_eq!(one.check().unwrap().unwrap().count, 2);
                    assert_eq!(one.attach_token("kid").unwrap().release(), Ok(()));
                }
            });
        }
    });
    comes(|| frame.open_handles() == Ok(1));
}

#[test]
fn times() {
    let daemon = Daemon::new(&[]);
    let app = daemon.join();
    let root = app.open_root("root").unwrap();
    let _kid = root.duplicate("kid").unwrap();
    let one = root.bind().unwrap();
    let (_to, from) = std::os::unix::net::UnixStream::pair().unwrap();
    let events = daemon.service().status().unwrap().events;
    let since = Instant::now();
    assert_eq!(one.wait_allocated(SHORT), Ok(Waited::TimeOver));
    assert!(matches!(app.collect_for(&from, SHORT), Ok(Waited::TimeOver)));
    assert!(app.collect(&from).unwrap().is_none());
    assert!(since.elapsed() >= 2 * SHORT);
    assert_eq!(one.wait_allocated(Duration::ZERO), Ok(Waited::TimeOver));
    assert_eq!(daemon.service().status().unwrap().events, events, "a wait makes no event");
}

// A lease has one wait in the daemon; here there are many, for different numbers.
#[test]
fn many_wait_for_one_buffer() {
    let daemon = Daemon::new(&[]);
    let app = daemon.join();
    let fd = app.fd().unwrap();
    let (_one, handles) = allocate(&app, 1);
    let frame = &handles[0];
    let mut more: Vec<Handle> = (0..8).map(|_| frame.duplicate().unwrap()).collect();
    frame.tell_idle(3).unwrap();
    while !app.pending().is_empty() {}
    let mut told = Vec::new();
    let mut are_told = |count| {
        comes(|| {
            let _ = is_readable(&fd, 10);
            told.extend(app.pending().idle);
            told.len() == count
        });
        assert!(told.iter().all(|buffer| *buffer == frame.buffer()));
    };
    thread::scope(|scope| {
        let waits = [1, 2, 4, 6].map(|most| {
            scope.spawn(move || {
                assert!(frame.wait_idle(most, LONG).unwrap().is_done());
                assert!(frame.open_handles().unwrap() <= most);
            })
        });
        thread::sleep(SHORT);
        while more.pop().is_some() {
            thread::sleep(Duration::from_millis(3));
        }
        are_told(1); // it arms the others' waits again
        waits.into_iter().for_each(|wait| wait.join().unwrap());
    });
    // The event of an earlier wait, still unread, answers no later one.
    let other = frame.duplicate().unwrap();
    let second = other.duplicate().unwrap();
    assert_eq!(frame.wait_idle(2, SHORT), Ok(Waited::TimeOver));
    drop(second);
    comes(|| other.open_handles() == Ok(2));
    let _third = other.duplicate().unwrap();
    assert_eq!(frame.wait_idle(2, SHORT), Ok(Waited::TimeOver));
    // `pending` names a buffer once for each call.
    frame.tell_idle(3).unwrap();
    frame.tell_idle(9).unwrap();
    are_told(3);
    thread::sleep(SHORT);
    assert!(app.pending().is_empty());
}

#[test]
fn pending() {
    let mut daemon = Daemon::new(&[]);
    let app = daemon.join();
    let root = app.open_root("root").unwrap();
    let kid = root.duplicate("kid").unwrap();
    let (a, b) = (root.bind().unwrap(), kid.bind().unwrap());
    let (early, _frames) = allocate(&app, 1);
    assert_eq!(app.pending(), Pending::default(), "it tells from the first call of `fd` on");
    let fd = app.fd().unwrap();
    assert!(is_readable(&fd, 0) && app.pending().allocated == [early.key()]);
    assert!(app.pending().is_empty() && !is_readable(&fd, 0));
    let wanted = Constraints { camping: 1, at_least: 0, size: 1 };
    a.set_constraints(wanted).unwrap();
    b.set_constraints(wanted).unwrap();
    assert!(a.wait_allocated(LONG).unwrap().is_done() && b.wait_allocated(LONG).unwrap().is_done());
    assert!(is_readable(&fd, 0), "what a call reads is told as well");
    let told = app.pending();
    assert!(told.allocated.len() == 2 && told.failed.is_empty() && told.parcels == 0);
    assert!(app.pending().is_empty() && !is_readable(&fd, 0));
    let gone = b.track_node().unwrap();
    b.close();
    let mut told = Pending::default();
    comes(|| {
        assert!(told.fired.len() + told.failed.len() < 2 || !is_readable(&fd, 0));
        let more = app.pending();
        told.failed.extend(more.failed);
        told.fired.extend(more.fired);
        told.failed.len() == 1 && told.fired.len() == 1
    });
    assert_eq!((told.failed[0], told.fired[0]), (a.key(), gone.id()));
    comes(|| app.pending().is_empty() && !is_readable(&fd, 0));
    let last = app.open_root("last").unwrap();
    daemon.kill();
    let mut failed = Vec::new();
    comes(|| {
        failed.extend(app.pending().failed);
        failed.len() == 2
    });
    assert!(failed.contains(&last.key()) && failed.contains(&early.key()));
    comes(|| app.pending().is_empty() && !is_readable(&fd, 0)); // what ended is readable no longer
}

// A socket that is full both ways: who sends reads the replies there, of calls whose deadline was over or of another
// process, or the daemon would take no more. While another thread reads, the room is found too, of offers without replies.
#[test]
fn full_both_ways() {
    let daemon = Daemon::new(&[]);
    let app = Service::open(Options { deadline: Some(LONG), ..daemon.options.clone() }).unwrap().join().unwrap();
    for (op, is_read) in [(5_u32, false), (73, true)] {
        let one = app.open_root("root").unwrap().bind().unwrap();
        let cancel = Cancel::new();
        let mut asked = [0; 64];
        asked[..4].copy_from_slice(&op.to_ne_bytes());
        asked[4] = 7;
        asked[8] = u8::from(is_read);
        thread::scope(|scope| {
            let reads = is_read.then(|| scope.spawn(|| one.wait_allocated(cancel.within(LONG)).unwrap()));
            thread::sleep(SHORT);
            daemon.pause();
            fill(&one, &asked);
            let asks = scope.spawn(|| one.sync());
            thread::sleep(SHORT);
            assert!(!asks.is_finished());
            daemon.signal("CONT");
            assert_eq!(asks.join().unwrap(), Ok(()));
            cancel.cancel();
            assert!(reads.map_or(true, |reads| reads.join().unwrap().is_cancelled()));
        });
    }
}

// With a deadline a daemon that does not answer stops nobody, and a late reply is no other call's.
#[test]
fn deadlines() {
    let daemon = Daemon::new(&[]);
    let quick = Options { deadline: Some(Duration::from_millis(60)), ..daemon.options.clone() };
    let patient = Options { deadline: Some(LONG), ..daemon.options.clone() };
    let open = |options: &Options| Service::open(options.clone());
    let quick_one = loop {
        match open(&quick).and_then(|service| service.join()?.open_root("quick")) {
            Ok(one) => break one,
            Err(error) => assert_eq!(error, Error::TimeOver), // the machine is slow
        }
    };
    let slow = open(&patient).unwrap().join().unwrap().open_root("patient").unwrap();
    daemon.pause();
    for _ in 0..3 {
        assert_eq!(quick_one.sync(), Err(Error::TimeOver));
    }
    assert_eq!(quick_one.duplicate("lost").unwrap_err(), Error::TimeOver);
    assert_eq!(open(&quick).unwrap_err(), Error::TimeOver);
    thread::scope(|scope| {
        let waits = scope.spawn(|| slow.sync());
        thread::sleep(SHORT);
        daemon.signal("CONT");
        assert_eq!(waits.join().unwrap(), Ok(()));
    });
    // The kid that nobody got is closed, and so its tree fails.
    comes(|| matches!(quick_one.sync(), Err(Error::PeerClosed { cause: Cause::Lost, .. })));
    assert_eq!(slow.sync(), Ok(()));
}
