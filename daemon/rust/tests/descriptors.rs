//! No descriptor is left over, here or in the daemon, whatever happened. Alone in its process, which it counts.
mod rig;
use rig::*;
use std::os::unix::net::UnixStream;
use sysmem_remote::*;

fn use_all(daemon: &Daemon) -> Result<(), Error> {
    let service = daemon.service();
    let (app, other) = (service.join()?, service.join()?);
    app.fd().unwrap();
    let (to, from) = UnixStream::pair().unwrap();
    let root = app.open_root("root")?;
    root.duplicate("given")?.give(&to)?;
    root.duplicate("left there")?.give(&to)?;
    let given = other.collect(&from)?.unwrap().token().unwrap();
    let mine = app.adopt(given.detach()?)?.token().unwrap();
    let stale = app.adopt(copy(&root))?;
    drop((mine, stale, root, to, from));

    let (one, frames) = allocate(&app, 5);
    let more = frames[0].duplicate()?;
    let gone = one.track_node()?;
    let (fd, cancel) = (gone.fd().unwrap(), Cancel::new());
    assert_eq!(gone.wait_for(cancel.within(SHORT)), Ok(Waited::TimeOver));
    let copies = (copy(&frames[1]), frames[1].memory_fd()?, other.adopt_tracker(copy(&gone))?);
    let taken = other.adopt(frames.into_iter().next().unwrap().detach()?)?.handle().unwrap();
    assert_eq!(taken.bytes()?.len(), 6000);
    app.pending();
    let refused = other.adopt(std::fs::File::open("/dev/null").unwrap().into());
    drop((refused.unwrap_err(), fd, copies, more));
    one.release()
}

#[test]
fn none_is_left() {
    let daemon = Daemon::new(&[]);
    use_all(&daemon).unwrap();
    comes(|| is_whole(&daemon.service()));
    let count = |of: &str| {
        let mut least = usize::MAX;
        for _ in 0..100 {
            least = least.min(files(of)); // what was closed just now may still be there
            std::thread::sleep(std::time::Duration::from_millis(1));
        }
        least
    };
    let before = (count("self"), count(&daemon.id().to_string()));
    for _ in 0..20 {
        use_all(&daemon).unwrap();
    }
    comes(|| is_whole(&daemon.service()));
    comes(|| (count("self"), count(&daemon.id().to_string())) == before);
    let mapped = std::fs::read_to_string("/proc/self/maps").unwrap();
    assert!(!mapped.contains("memfd"), "a mapping is left:\n{mapped}");
}
