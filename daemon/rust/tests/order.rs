//! The order in which requests are sent. Alone in its process, whose `sendmsg` it is.
mod rig;
use rig::*;
use std::os::raw::{c_char, c_int, c_void};
use std::sync::atomic::{AtomicUsize, Ordering::SeqCst};
use std::thread;
use std::time::{Duration, Instant};

/// How many messages were sent since it was last set to 0.
static SENT: AtomicUsize = AtomicUsize::new(usize::MAX / 2);

extern "C" {
    fn dlsym(of: *mut c_void, name: *const c_char) -> *mut c_void;
}

/// The system's, but that the first message is held up until another one was sent, or for 0.3 s.
///
/// # Safety
/// As the system's.
#[no_mangle]
pub unsafe extern "C" fn sendmsg(fd: c_int, message: *const c_void, flags: c_int) -> isize {
    static HELD: AtomicUsize = AtomicUsize::new(0);
    let next = dlsym(-1_isize as *mut c_void, b"sendmsg\0".as_ptr().cast());
    let next: unsafe extern "C" fn(c_int, *const c_void, c_int) -> isize = std::mem::transmute(next);
    if SENT.load(SeqCst) == 0 && HELD.fetch_add(1, SeqCst) == 0 {
        for _ in 0..300 {
            if SENT.load(SeqCst) == 0 {
                thread::sleep(Duration::from_millis(1));
            }
        }
    }
    let sent = next(fd, message, flags);
    SENT.fetch_add(1, SeqCst);
    sent
}

// Two threads arm one lease. The daemon keeps the wait of the request that comes last, which has to be the one whose
// event is waited for.
#[test]
fn waits_come_in_their_order() {
    let daemon = Daemon::new(&[]);
    let app = daemon.join();
    let (_one, handles) = allocate(&app, 1);
    let frame = &handles[0];
    let others = (frame.duplicate().unwrap(), frame.duplicate().unwrap());
    let since = Instant::now();
    SENT.store(0, SeqCst);
    thread::scope(|scope| {
        let waits = [2, 1].map(|most| scope.spawn(move || frame.wait_idle(most, LONG).unwrap().is_done()));
        comes(|| SENT.load(SeqCst) >= 2);
        drop(others);
        assert!(waits.into_iter().all(|wait| wait.join().unwrap()));
    });
    assert!(since.elapsed() < LONG, "a wait that is over asks how many are open");
}
