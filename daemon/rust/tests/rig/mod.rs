//! What the tests share: daemons that they start, and processes that are killed.
#![allow(dead_code)]
use std::fs;
use std::io::Write;
use std::os::raw::{c_int, c_short, c_ulong};
use std::os::unix::io::{AsFd, AsRawFd, BorrowedFd, OwnedFd};
use std::os::unix::net::UnixStream;
use std::path::PathBuf;
use std::process::{Child, Command, Stdio};
use std::sync::atomic::{AtomicU32, Ordering};
use std::time::{Duration, Instant};
use sysmem_remote::*;

/// No test fails because the machine is slow: what must come is waited for so long.
pub const LONG: Duration = Duration::from_secs(60);
pub const SHORT: Duration = Duration::from_millis(30);

/// Waits until this is so.
#[track_caller]
pub fn comes(mut is_so: impl FnMut() -> bool) {
    let until = Instant::now() + LONG;
    while !is_so() {
        assert!(Instant::now() < until, "it does not come");
        std::thread::sleep(Duration::from_millis(2));
    }
}

/// What this answers as soon as it succeeds.
pub fn until_ok<T>(mut tried: impl FnMut() -> Result<T, Error>) -> T {
    let mut is = None;
    comes(|| {
        is = tried().ok();
        is.is_some()
    });
    is.unwrap()
}

#[repr(C)]
struct PollFd(c_int, c_short, c_short);
extern "C" {
    fn poll(all: *mut PollFd, count: c_ulong, time: c_int) -> c_int;
}

/// Whether it becomes readable in so many milliseconds.
pub fn is_readable(fd: impl AsFd, time: c_int) -> bool {
    let mut one = PollFd(fd.as_fd().as_raw_fd(), 1, 0);
    // SAFETY: there is one.
    unsafe { poll(&mut one, 1, time) == 1 }
}

pub fn copy(of: impl AsFd) -> OwnedFd {
    of.as_fd().try_clone_to_owned().unwrap()
}

/// How many descriptors a process has.
pub fn files(process: impl std::fmt::Display) -> usize {
    fs::read_dir(format!("/proc/{process}/fd")).unwrap().count()
}

/// A daemon of the test's own. It ends with the value.
pub struct Daemon {
    child: Child,
    folder: PathBuf,
    words: Vec<&'static str>,
    pub options: Options,
}

impl Daemon {
    pub fn new(words: &[&'static str]) -> Daemon {
        static LAST: AtomicU32 = AtomicU32::new(0);
        let number = LAST.fetch_add(1, Ordering::Relaxed);
        let name = format!("sysmem-rust-{}-{number}", std::process::id());
        let folder = std::env::temp_dir().join(name);
        fs::create_dir(&folder).unwrap();
        let path = folder.join("s");
        let options = Options { path: Some(path), ..Options::default() };
        let child = start(&options, words);
        Daemon { child, folder, words: words.to_vec(), options }
    }

    pub fn service(&self) -> Service {
        Service::open(self.options.clone()).unwrap()
    }

    pub fn join(&self) -> Client {
        self.service().join().unwrap()
    }

    pub fn id(&self) -> u32 {
        self.child.id()
    }

    /// Sends it a signal.
    pub fn signal(&self, name: &str) {
        let word = format!("kill -{name} {}", self.child.id());
        assert!(Command::new("sh").args(["-c", &word]).status().unwrap().success());
    }

    /// Stops it, so that it answers nothing.
    pub fn pause(&self) {
        self.signal("STOP");
        let stat = format!("/proc/{}/stat", self.child.id());
        comes(|| fs::read_to_string(&stat).unwrap().contains(") T "));
    }

    pub fn kill(&mut self) {
        self.child.kill().unwrap();
        self.child.wait().unwrap();
    }

    pub fn restart(&mut self) {
        self.child = start(&self.options, &self.words);
    }
}

fn start(options: &Options, words: &[&str]) -> Child {
    let program = std::env::var_os("SYSMEMD").expect("SYSMEMD is the daemon's program");
    let path = options.path.as_ref().unwrap();
    let log = fs::File::create(path.with_extension("log")).unwrap();
    let mut command = Command::new(program);
    let child = command.arg("--socket").arg(path).args(words).stderr(log).spawn().unwrap();
    comes(|| Service::open(options.clone()).is_ok());
    child
}

impl Drop for Daemon {
    fn drop(&mut self) {
        if self.child.try_wait().map_or(true, |ended| ended.is_none()) {
            self.signal("CONT");
            self.signal("TERM");
            let status = self.child.wait().unwrap();
            if !std::thread::panicking() {
                assert!(status.success(), "the daemon ended by {status}"); // also: no sanitizer complained
            }
        }
        let _ = fs::remove_dir_all(&self.folder);
    }
}

/// Whether nothing is left in the daemon: no live node, no memory, no descriptor but those of the connections.
pub fn is_whole(service: &Service) -> bool {
    let now = service.status().unwrap();
    now.live == 0 && now.held == 0 && now.free_pages == now.pages && now.memories == 0
}

/// The test of this name in a process of its own, with this as its standard input, and at most so many
/// descriptors. It does what `role` says.
pub fn peer(test: &str, role: &str, daemon: &Daemon, socket: OwnedFd, most: u32) -> Child {
    let mut command = Command::new("sh");
    command.args(["-c", &format!("ulimit -n {most}; exec \"$0\" \"$@\"")]);
    command.arg(std::env::current_exe().unwrap());
    command.args(["--exact", test, "--nocapture", "--test-threads=1"]).env("ROLE", role);
    command.env("SYSMEM_SOCKET", daemon.options.path.as_ref().unwrap());
    command.stdin(Stdio::from(socket)).stdout(Stdio::null()).spawn().unwrap()
}

/// Sends this until the socket takes no more.
pub fn fill(socket: impl AsFd, bytes: &[u8]) {
    let mut socket = UnixStream::from(copy(socket)); // of whatever kind
    socket.set_nonblocking(true).unwrap();
    while socket.write(bytes).is_ok() {}
    socket.set_nonblocking(false).unwrap();
}

/// What this process is to do, if it is a peer.
pub fn role() -> Option<String> {
    std::env::var("ROLE").ok()
}

/// The socket of a peer, its standard input.
pub fn mine() -> BorrowedFd<'static> {
    // SAFETY: nobody closes it.
    unsafe { BorrowedFd::borrow_raw(0) }
}

/// The cause, the label and the process that the error tells, if it is that of a node that failed.
pub fn closed(told: &Error) -> Option<(Cause, &str, u32)> {
    match told {
        Error::PeerClosed { cause, label, process, .. } => Some((*cause, label.as_deref().unwrap_or(""), *process)),
        _ => None,
    }
}

/// A collection with so many buffers, and its handles.
pub fn allocate(client: &Client, camping: u8) -> (Collection, Vec<Handle>) {
    let one = client.open_root("root").unwrap().bind().unwrap();
    one.set_constraints(Constraints { camping, at_least: 0, size: 6000 }).unwrap();
    assert!(one.wait_allocated(LONG).unwrap().is_done());
    let handles = one.take().unwrap().unwrap();
    (one, handles)
}
