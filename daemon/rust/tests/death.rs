//! Processes that are killed, and a daemon that is.
mod rig;
use rig::*;
use std::io::{Read, Write};
use std::os::unix::net::UnixStream;
use std::time::Duration;
use sysmem_remote::*;

/// What a peer does up to so many steps; then it says so, and waits for its death.
fn live(steps: usize) -> Result<(), Error> {
    let app = Service::open(Options::default())?.join_as("peer")?;
    let says = |step: usize| {
        if step == steps {
            (&UnixStream::from(copy(mine()))).write_all(b"s").unwrap();
            std::thread::sleep(LONG);
        }
    };
    says(0);
    let token = app.collect_for(mine(), LONG)?.unwrap().token().unwrap();
    says(1);
    let kid = token.duplicate("kid")?;
    says(2);
    let one = token.bind()?;
    says(3);
    one.set_constraints(Constraints { camping: 1, at_least: 0, size: 9000 })?;
    says(4);
    kid.release()?;
    says(5);
    one.wait_allocated(LONG)?.unwrap();
    says(6);
    let frames = one.take()?.unwrap();
    says(7);
    let more = frames[0].duplicate()?;
    frames[0].bytes()?[8999].store(3, std::sync::atomic::Ordering::Relaxed);
    says(8);
    let gone = one.track_node()?;
    says(9);
    drop(frames);
    says(10);
    one.close();
    gone.wait()?;
    says(11);
    drop(more);
    says(12);
    Ok(())
}

// After each step of a peer: its ends fail, its handles go, and the others learn who it was.
#[test]
fn killed_at_each_step() {
    if let Some(steps) = role() {
        return live(steps.parse().unwrap()).unwrap();
    }
    let daemon = Daemon::new(&[]);
    let service = daemon.service();
    for steps in 0..=12 {
        let app = service.join().unwrap();
        let root = app.open_root("root").unwrap();
        let token = root.duplicate("theirs").unwrap();
        let gone = token.track_node().unwrap();
        let one = root.bind().unwrap();
        one.set_constraints(Constraints { camping: 1, at_least: 0, size: 1 }).unwrap();
        let (here, there) = UnixStream::pair().unwrap();
        let mut child = peer("killed_at_each_step", &steps.to_string(), &daemon, there.into(), 256);
        token.give(&here).unwrap();
        assert_eq!((&here).read(&mut [0]).unwrap(), 1, "step {steps}");
        let frames = if steps < 10 { one.take().unwrap() } else { None };
        let id = child.id();
        child.kill().unwrap();
        child.wait().unwrap();
        assert!(gone.wait_for(LONG).unwrap().is_done(), "step {steps}");
        comes(|| one.sync().is_err());
        let told = one.check().unwrap_err();
        let (cause, label, process) = closed(&told).unwrap();
        assert!(cause == Cause::Lost && ["theirs", "kid"].contains(&label), "step {steps}: {told}");
        assert!([id, std::process::id()].contains(&process), "step {steps}: process {process}");
        for frame in frames.iter().flatten() {
            assert!(frame.wait_idle(1, LONG).unwrap().is_done(), "step {steps}");
        }
        drop((frames, one));
        comes(|| is_whole(&service));
    }
}

// A buffer of a dead process is another process's no more, and its memory is never another buffer's.
#[test]
fn stale_mappings() {
    let daemon = Daemon::new(&[]);
    let app = daemon.join();
    let (one, mut frames) = allocate(&app, 1);
    let kept = std::fs::File::from(frames[0].memory_fd().unwrap());
    frames[0].bytes().unwrap()[0].store(1, std::sync::atomic::Ordering::Relaxed);
    frames.clear();
    drop(one);
    comes(|| is_whole(&daemon.service()));
    let (_one, frames) = allocate(&app, 1);
    std::os::unix::fs::FileExt::write_at(&kept, b"stale", 0).unwrap();
    let bytes = frames[0].bytes().unwrap();
    assert!(bytes.iter().all(|byte| byte.load(std::sync::atomic::Ordering::Relaxed) == 0));
}

#[test]
fn the_daemon_is_killed() {
    let mut daemon = Daemon::new(&[]);
    let app = daemon.join();
    let root = app.open_root("root").unwrap();
    let _kid = root.duplicate("kid").unwrap();
    let one = root.bind().unwrap();
    let gone = one.track_node().unwrap();
    let (_other, frames) = allocate(&app, 1);
    let more = frames[0].duplicate().unwrap();
    frames[0].bytes().unwrap()[1].store(4, std::sync::atomic::Ordering::Relaxed);
    let over = Error::Ended(Ending::Gone);
    let (_to, from) = UnixStream::pair().unwrap();
    std::thread::scope(|scope| {
        let waits = [
            scope.spawn(|| one.wait_allocated(LONG).map(drop)),
            scope.spawn(|| gone.wait().map(drop)),
            scope.spawn(|| frames[0].wait_idle(1, LONG).map(drop)),
        ];
        std::thread::sleep(Duration::from_millis(50));
        daemon.kill();
        for wait in waits {
            assert_eq!(wait.join().unwrap(), Err(over.clone()));
        }
    });
    assert_eq!((one.sync(), more.open_handles()), (Err(over.clone()), Err(over.clone())));
    assert_eq!(app.open_root("none").unwrap_err(), over);
    assert_eq!(over.to_string(), "the daemon is gone");
    assert_eq!((gone.poll(), gone.wait_for(LONG)), (None, Err(over.clone())));
    assert!(is_readable(gone.fd().unwrap(), 0));
    assert!(app.collect(&from).unwrap().is_none());
    let byte = &frames[0].bytes().unwrap()[1];
    assert_eq!(byte.load(std::sync::atomic::Ordering::Relaxed), 4, "what is mapped stays");
    assert_eq!(
        Service::open(daemon.options.clone()).unwrap_err(),
        Error::NoService(std::io::ErrorKind::ConnectionRefused)
    );
    daemon.restart();
    let again = daemon.join().open_root("again").unwrap();
    again.sync().unwrap();
    assert_eq!(one.sync(), Err(over));
}
