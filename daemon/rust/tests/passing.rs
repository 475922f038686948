//! Descriptors that pass from process to process, also by those who mean harm.
mod rig;
use rig::*;
use std::io::{Read, Write};
use std::os::unix::net::{UnixDatagram, UnixStream};
use std::process::{Command, Stdio};
use std::thread;
use std::time::Instant;
use sysmem_remote::*;

const STRANGE: Error = Error::Refused(Refusal::WrongKind);

#[test]
fn what_is_given_is_collected() {
    let daemon = Daemon::new(&[]);
    let service = daemon.service();
    let (app, display) = (service.join().unwrap(), service.join().unwrap());
    let (to, from) = UnixStream::pair().unwrap();
    assert!(display.collect(&from).unwrap().is_none());
    let root = app.open_root("root").unwrap();
    let (key, tree) = (root.key(), root.collection());
    let kid = root.duplicate("kid").unwrap();
    let kid_key = kid.key();
    kid.give(&to).unwrap();
    let one = root.bind().unwrap();
    one.give(&to).unwrap();
    let kid = display.collect(&from).unwrap().unwrap().collection().unwrap_err().token().unwrap();
    assert_eq!((kid.key(), kid.collection()), (kid_key, tree));
    let one = display.collect(&from).unwrap().unwrap().token().unwrap_err().handle().unwrap_err();
    let one = one.collection().unwrap();
    assert_eq!((one.key(), one.collection()), (key, tree));
    kid.release().unwrap();
    one.set_constraints(Constraints { camping: 1, at_least: 0, size: 100 }).unwrap();
    let frame = one.take().unwrap().unwrap().remove(0);
    frame.bytes().unwrap()[99].store(5, std::sync::atomic::Ordering::Relaxed);
    let buffer = frame.buffer();
    frame.give(&to).unwrap();
    to.try_clone().unwrap().write_all(b"bytes without a descriptor").unwrap();
    thread::scope(|scope| {
        let late = scope.spawn(|| app.collect_for(&from, LONG).unwrap().unwrap().handle().unwrap());
        let frame = late.join().unwrap();
        assert_eq!((frame.buffer(), frame.strength()), (buffer, Strength::Strong));
        let bytes = frame.bytes().unwrap();
        assert_eq!((bytes.len(), bytes[99].load(std::sync::atomic::Ordering::Relaxed)), (100, 5));
        assert_eq!(frame.duplicate().unwrap().open_handles(), Ok(2));
    });
    assert_eq!(one.sync(), Ok(()));
    // An end that comes late tells what was before.
    let app_fd = app.fd().unwrap();
    one.give(&to).unwrap();
    let one = app.collect(&from).unwrap().unwrap().collection().unwrap();
    assert!(is_readable(&app_fd, 60_000) && app.pending().allocated == [one.key()]);
    drop(to);
    comes(|| app.collect(&from).map_or_else(|error| error == Error::NoGiver, |_| false)); // forks have copies until they exec
    assert_eq!(app.collect_for(&from, LONG).unwrap_err(), Error::NoGiver);
    let back = one.give(&from).unwrap_err();
    assert!(matches!(back.error, Error::NoReceiver(_)) && back.value.sync().is_ok());
}

#[test]
fn descriptors_are_exchanged() {
    let daemon = Daemon::new(&[]);
    let service = daemon.service();
    let (app, other) = (service.join().unwrap(), service.join().unwrap());
    let root = app.open_root("root").unwrap();
    let kid = root.duplicate("kid").unwrap();
    let thief = copy(&kid);
    let mine = other.adopt(kid.detach().unwrap()).unwrap().token().unwrap();
    mine.sync().unwrap();
    let back = app.adopt(thief).unwrap_err();
    assert_eq!(back.error, STRANGE, "a copy of what was adopted is nobody's");
    let stale = mine;
    let mine = app.adopt(copy(&stale)).unwrap().token().unwrap();
    comes(|| stale.sync() == Err(Error::Ended(Ending::Claimed)));
    assert_eq!(Error::Ended(Ending::Claimed).to_string(), "another one claimed it");
    drop(stale);
    mine.sync().unwrap();

    let gone = mine.track_node().unwrap();
    let seen = other.adopt_tracker(copy(&gone)).unwrap();
    assert_eq!((seen.id(), seen.poll()), (gone.id(), None));
    assert_eq!(gone.wait_for(LONG), Err(Error::Ended(Ending::Claimed)));
    assert_eq!(other.adopt(copy(&seen)).unwrap_err().error, STRANGE);
    assert_eq!(other.adopt_tracker(copy(&mine)).unwrap_err().error, STRANGE);
    drop((mine, root));
    comes(|| is_whole(&service));
}

// A stranger's socket gets nothing from us, and what is not a socket is none.
#[test]
fn strangers() {
    let daemon = Daemon::new(&[]);
    let app = daemon.join();
    let (a, b) = UnixStream::pair().unwrap();
    assert_eq!(app.adopt(a.into()).unwrap_err().error, STRANGE);
    assert_eq!((&b).read(&mut [0]).unwrap(), 0, "something was written to a stranger");
    let (a, _b) = UnixDatagram::pair().unwrap();
    assert_eq!(app.adopt(a.into()).unwrap_err().error, STRANGE);
    let file = std::fs::File::open("/dev/null").unwrap();
    assert_eq!(app.adopt(file.into()).unwrap_err().error, STRANGE);
    let (to, from) = UnixStream::pair().unwrap();
    let another = Daemon::new(&[]);
    let theirs = another.join().open_root("theirs").unwrap();
    theirs.give(&to).unwrap();
    assert_eq!(app.collect(&from).unwrap_err(), STRANGE);
    comes(|| is_whole(&another.service()));
    // A connection is no value.
    assert_eq!(app.adopt(another.join().open_root("x").unwrap().detach().unwrap()).unwrap_err().error, STRANGE);
}

// Who has no descriptor left is refused, and loses nothing: also not what waits in a socket.
#[test]
fn no_room() {
    if role().is_some() {
        let app = Service::open(Options::default()).unwrap().join().unwrap();
        let root = app.open_root("root").unwrap();
        let one = app.open_root("one").unwrap().bind().unwrap();
        one.set_constraints(Constraints { camping: 3, at_least: 0, size: 1 }).unwrap();
        let gone = one.track_node().unwrap();
        let (to, from) = UnixStream::pair().unwrap();
        let (_other, empty) = UnixStream::pair().unwrap();
        root.duplicate("given").unwrap().give(&to).unwrap();
        let kid = root.duplicate("adopted").unwrap().detach().unwrap();
        let mut full = Vec::new();
        while let Ok(file) = std::fs::File::open("/dev/null") {
            full.push(file);
        }
        assert_eq!(root.duplicate("none").unwrap_err(), Error::NoMemory);
        assert_eq!(app.collect(&from).unwrap_err(), Error::NoMemory);
        assert!(app.collect(&empty).unwrap().is_none(), "nothing came");
        let back = app.adopt(kid).unwrap_err();
        assert_eq!(back.error, Error::NoMemory);
        full.pop();
        assert_eq!(app.collect_for(&from, LONG).unwrap_err(), Error::NoMemory, "there is room for one");
        assert_eq!(one.take().unwrap_err(), Error::NoMemory);
        assert!(std::fs::File::open("/dev/null").is_err(), "what came stays"); // a wait without one for its Cancel
        let cancel = Cancel::new();
        assert_eq!(gone.wait_for(cancel.within(SHORT)), Ok(Waited::TimeOver));
        thread::scope(|scope| {
            let waits = scope.spawn(|| gone.wait_for(&cancel));
            thread::sleep(SHORT);
            cancel.cancel();
            assert_eq!(waits.join().unwrap(), Ok(Waited::Cancelled));
        });
        full.clear();
        let given = app.collect_for(&from, LONG).unwrap().unwrap().token().unwrap();
        let kid = app.adopt(back.value).unwrap().token().unwrap();
        kid.sync().unwrap();
        given.sync().unwrap();
        root.sync().unwrap();
        assert_eq!(one.take().unwrap().unwrap().len(), 3);
        one.release().unwrap();
        return root.release().unwrap();
    }
    let daemon = Daemon::new(&[]);
    let (here, there) = UnixStream::pair().unwrap();
    let mut child = peer("no_room", "full", &daemon, there.into(), 40);
    assert!(child.wait().unwrap().success());
    drop(here);
    comes(|| is_whole(&daemon.service()));
}

// Over a full socket `give` takes as long as its deadline, and no time if the socket is O_NONBLOCK; the value comes back. It
// goes on once somebody reads.
#[test]
fn full_receiver() {
    let daemon = Daemon::new(&[]);
    let patient = Options { deadline: Some(LONG), ..daemon.options.clone() };
    let quick = Options { deadline: Some(SHORT), ..daemon.options.clone() };
    let patient = Service::open(patient).unwrap().join().unwrap();
    let quick = until_ok(|| Service::open(quick.clone())?.join()); // some tries may be too late
    let (_one, frames) = allocate(&patient, 1);
    let root = || patient.open_root("root").unwrap().detach().unwrap();
    let late = until_ok(|| Ok(quick.adopt(root())?)).token().unwrap();
    let frame = until_ok(|| Ok(quick.adopt(frames[0].duplicate()?.detach()?)?)).handle().unwrap();
    let (to, from) = UnixStream::pair().unwrap();
    fill(&to, &[0; 4096]);
    fill(&to, &[0]);
    let since = Instant::now();
    let (late, frame) = (late.give(&to).unwrap_err(), frame.give(&to).unwrap_err());
    assert!(late.error == Error::TimeOver && frame.error == Error::TimeOver && since.elapsed() >= 2 * SHORT);
    let mine = patient.adopt(late.value.detach().unwrap()).unwrap().token().unwrap();
    to.set_nonblocking(true).unwrap();
    let mine = mine.give(&to).unwrap_err();
    assert_eq!(mine.error, Error::NoReceiver(std::io::ErrorKind::WouldBlock));
    to.set_nonblocking(false).unwrap();
    thread::scope(|scope| {
        let gives = scope.spawn(|| mine.value.give(&to).is_ok());
        thread::sleep(SHORT);
        assert!(!gives.is_finished());
        patient.collect_for(&from, LONG).unwrap().unwrap().token().unwrap().sync().unwrap();
        assert!(gives.join().unwrap());
    });
}

#[test]
fn endings() {
    let open = |path: &str| {
        let options = Options { path: Some(path.into()), ..Options::default() };
        Service::open(options).unwrap_err()
    };
    assert_eq!(open("/nowhere/s"), Error::NoService(std::io::ErrorKind::NotFound));
    assert!(open("/nowhere/s").to_string().starts_with("nobody serves this path: "));
    assert_eq!(open(&"long".repeat(30)), Error::NoService(std::io::ErrorKind::InvalidInput));
    let daemon = Daemon::new(&["--connections", "2"]);
    let service = until_ok(|| Service::open(daemon.options.clone())); // those of the rig end first
    let app = until_ok(|| service.join());
    let crowded = service.join().unwrap_err();
    assert_eq!(crowded, Error::Ended(Ending::Crowded));
    let token = app.open_root("cut").unwrap();
    let mut cat = Command::new("sh");
    cat.args(["-c", "printf x"]).stdout(Stdio::from(copy(&token)));
    assert!(cat.status().unwrap().success());
    comes(|| token.sync() == Err(Error::Ended(Ending::Malformed)));
}
