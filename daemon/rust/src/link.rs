//! One socket of the daemon as its calls and events.
use crate::hub::Hub;
use crate::sys;
use crate::wire::{op, request, told, Message, Request, LONGEST};
use crate::words::*;
use std::fmt;
use std::io::ErrorKind;
use std::os::unix::io::{AsFd, BorrowedFd, OwnedFd};
use std::sync::{Arc, Condvar, Mutex, MutexGuard, PoisonError};
use std::time::{Duration, Instant};
use sysmem_words::{Ring, Waiting};

/// What the other side of a socket is, for those who are told of many.
#[derive(Clone, Copy)]
pub(crate) enum Subject {
    Connection,
    Node(Key),
    Tracker(TrackerId),
    Buffer(Buffer),
}

/// One who waits until at most so many handles of a buffer are open: a thread, or the client's `pending`.
struct Idle {
    number: u64,
    most: u32,
    is_done: bool,
    is_pending: bool,
}

/// What events told, and who waits.
#[derive(Default)]
pub(crate) struct State {
    pub end: Option<Ending>,
    pub is_allocated: bool,
    pub is_failed: bool,
    /// The event at which a tracker fired; 0 before.
    pub fired: Event,
    /// What `pending` told of these three.
    told: [bool; 3],
    /// Whether something came since the last `pending`.
    pub is_news: bool,
    /// Whether the hub's epoll was told that nothing more is read.
    pub is_unwatched: bool,
    /// Whether a thread reads the socket. It wakes the others when it has read something, or stops.
    is_reading: bool,
    /// The last request's number.
    serial: u32,
    /// The requests whose replies threads wait for.
    asked: Vec<(u32, Option<Message>)>,
    idles: Vec<Idle>,
    /// The number of the last ON_IDLE, of which a lease has one.
    armed: u64,
    /// Whether its event came, and some still wait.
    pub is_to_arm: bool,
}

impl State {
    /// Takes what came; whether it is an event of which there is something to tell.
    fn take(&mut self, message: Message) -> bool {
        if message.serial != 0 {
            let mut waits = self.asked.iter_mut();
            if let Some(slot) = waits.find(|slot| slot.0 == message.serial) {
                slot.1 = Some(message);
            }
            return false; // a reply that nobody waits for any more goes, with its descriptors
        }
        match message.kind {
            told::ALLOCATED => self.is_allocated = true,
            told::FAILED => self.is_failed = true,
            told::FIRED => self.fired = message.set,
            told::ENDING => self.end = Some(Ending::of(message.detail)),
            told::IDLE if message.set != self.armed => return false, // of an earlier wait
            told::IDLE => {
                for idle in &mut self.idles {
                    idle.is_done |= message.count <= idle.most;
                }
                self.is_to_arm = self.idles.iter().any(|idle| !idle.is_done);
            }
            _ => {}
        }
        true
    }

    /// Whether nothing more is read.
    pub fn is_over(&self) -> bool {
        self.end.is_some() || self.fired != 0
    }

    pub fn is_idle(&self, number: u64) -> bool {
        self.idles.iter().any(|idle| idle.number == number && idle.is_done)
    }

    /// Adds what was not yet told.
    pub fn tell(&mut self, subject: Subject, pending: &mut Pending) {
        let is = [self.is_allocated, self.is_failed || self.end.is_some(), self.fired != 0];
        let fresh = |i: usize| is[i] && !self.told[i];
        match subject {
            Subject::Connection => {}
            Subject::Node(key) => {
                pending.allocated.extend(fresh(0).then_some(key));
                pending.failed.extend(fresh(1).then_some(key));
            }
            Subject::Tracker(id) => pending.fired.extend(fresh(2).then_some(id)),
            Subject::Buffer(buffer) => self.idles.retain(|idle| {
                let is_told = idle.is_pending && idle.is_done;
                pending.idle.extend(is_told.then_some(buffer));
                !is_told
            }),
        }
        self.told = is;
    }
}

/// How long one sleeps who waits for room to send while another reads, who does not tell of it.
const ROOM_COMES: Duration = Duration::from_millis(10);

pub(crate) struct Link {
    fd: OwnedFd,
    pub hub: Arc<Hub>,
    /// Its number in the hub.
    pub number: u64,
    pub subject: Subject,
    state: Mutex<State>,
    changed: Condvar,
}

/// Sleeps until there is something to read, or with `or_room` room to send; false if the time is over first, perhaps
/// earlier than it should be, or somebody ends the wait.
pub(crate) fn wait_to_read(
    fd: BorrowedFd<'_>,
    mut until: Instant,
    cancel: Option<&Cancel>,
    or_room: bool,
) -> std::io::Result<bool> {
    let ends = cancel.and_then(|cancel| cancel.fd().ok());
    if cancel.is_some() && ends.is_none() {
        until = until.min(Instant::now() + Duration::from_millis(10)); // no descriptor is left
    }
    let events = if or_room { sys::POLLIN | sys::POLLOUT } else { sys::POLLIN };
    sys::wait(fd, events, ends.as_ref().map(|fd| fd.as_fd()), until)
}

impl Link {
    pub fn new(fd: OwnedFd, hub: &Arc<Hub>, subject: Subject) -> Arc<Link> {
        // An earlier holder of the socket may have used other numbers just now.
        let first = sys::random().unwrap_or(0);
        let state = State { serial: first as u32, armed: first << 32, ..State::default() };
        let (state, changed) = (Mutex::new(state), Condvar::new());
        let (number, hub) = (hub.number(), hub.clone());
        let made = Arc::new(Link { fd, hub, number, subject, state, changed });
        made.hub.add(&made);
        made
    }

    pub fn lock(&self) -> MutexGuard<'_, State> {
        self.state.lock().unwrap_or_else(PoisonError::into_inner)
    }

    /// Sends a request, and answers its reply if it is a success.
    pub fn ask(&self, asked: Request) -> Result<Message, Error> {
        let told = self.ask_if(asked, |_, _| true)?;
        told.ok_or(Error::TimeOver)
    }

    /// Sends the request that `prepare` has made of this one under the lock under which it is sent, so that its numbers
    /// come to the daemon in their order; nothing if it says so.
    fn ask_if(
        &self,
        mut asked: Request,
        mut prepare: impl FnMut(&mut State, &mut Request) -> bool,
    ) -> Result<Option<Message>, Error> {
        let until = self.hub.until();
        let mut state = self.lock();
        loop {
            if !prepare(&mut state, &mut asked) {
                return Ok(None);
            }
            if let Some(end) = state.end {
                return Err(Error::Ended(end));
            }
            state.serial = state.serial.wrapping_add(1).max(1);
            asked.serial = state.serial;
            let sent = sys::send(self.as_fd(), &asked.bytes(), None, false);
            match sent.map_err(|error| (error.kind(), error.raw_os_error())) {
                Err((ErrorKind::WouldBlock, _)) if Instant::now() >= until => return Err(Error::TimeOver),
                // The daemon takes no more from who leaves replies unread.
                Err((ErrorKind::WouldBlock, _)) => state = self.read_one(state, until, None, true).0,
                Err((_, Some(12 | 105))) => return Err(Error::NoMemory), // ENOMEM, ENOBUFS
                _ => break, // if the other side is gone, what came before that is to be read
            }
        }
        state.asked.push((asked.serial, None));
        let is_there = |slot: &(u32, Option<Message>)| slot.0 == asked.serial && slot.1.is_some();
        state = self.wait(state, until, None, &mut |state| state.asked.iter().any(is_there)).0;
        let place = state.asked.iter().position(|slot| slot.0 == asked.serial);
        let got = place.and_then(|place| state.asked.swap_remove(place).1);
        let end = state.end;
        drop(state);
        let got = got.ok_or_else(|| end.map_or(Error::TimeOver, Error::Ended))?;
        match got.error(&asked) {
            None => Ok(Some(got)),
            Some(error) => Err(error),
        }
    }

    /// Asks, and drops what a success tells.
    pub fn make(&self, asked: Request) -> Result<(), Error> {
        self.ask(asked).map(|_| ())
    }

    /// Waits until this is so; false if the time is over first, the wait is ended, or the socket has ended. The lock
    /// is held, but not all the time. Of several threads one reads.
    pub fn wait<'a>(
        &'a self,
        mut state: MutexGuard<'a, State>,
        until: Instant,
        cancel: Option<&Cancel>,
        is_so: &mut dyn FnMut(&State) -> bool,
    ) -> (MutexGuard<'a, State>, bool) {
        loop {
            let is_now = is_so(&state);
            if is_now || state.is_over() || cancel.map_or(false, Cancel::is_cancelled) {
                return (state, is_now);
            }
            let (then, is_over) = self.read_one(state, until, cancel, false);
            state = then;
            if is_over {
                let is_now = is_so(&state);
                return (state, is_now);
            }
        }
    }

    /// Reads one message, or sleeps until another thread has read one; whether the time is over. It may come back
    /// earlier, with `or_room` as soon as the socket may take a message.
    fn read_one<'a>(
        &'a self,
        mut state: MutexGuard<'a, State>,
        until: Instant,
        cancel: Option<&Cancel>,
        or_room: bool,
    ) -> (MutexGuard<'a, State>, bool) {
        if state.is_reading {
            let left = until.saturating_duration_since(Instant::now());
            let most = if or_room { ROOM_COMES } else { left };
            if left > Duration::ZERO {
                let slept = self.changed.wait_timeout(state, left.min(most));
                state = slept.unwrap_or_else(PoisonError::into_inner).0;
            }
            return (state, left == Duration::ZERO);
        }
        state.is_reading = true;
        drop(state);
        let read = self.read(until, cancel, or_room);
        state = self.lock();
        state.is_reading = false;
        self.changed.notify_all();
        let is_over = matches!(read, Ok(None)) && Instant::now() >= until;
        let is_news = match read {
            Ok(Some(message)) => state.take(message),
            Ok(None) => false,
            Err(ending) => {
                state.end = Some(ending);
                true
            }
        };
        if is_news {
            self.tell(&mut state);
        }
        (state, is_over)
    }

    /// Has the client's descriptor tell that there is news.
    pub fn tell(&self, state: &mut State) {
        state.is_news = true;
        self.hub.light();
    }

    /// The same with a wait that somebody may end.
    pub fn wait_for(
        &self,
        waiting: &Waiting<'_, Link>,
        is_so: &mut dyn FnMut(&State) -> bool,
    ) -> (MutexGuard<'_, State>, bool) {
        self.wait(self.lock(), waiting.until, waiting.cancel(), is_so)
    }

    /// Reads what is there.
    pub fn drain(&self) -> MutexGuard<'_, State> {
        self.wait(self.lock(), Instant::now(), None, &mut |_| false).0
    }

    /// The next message; nothing if the time is over first, somebody ends the wait, or with `or_room` the socket may
    /// take a message.
    fn read(&self, until: Instant, cancel: Option<&Cancel>, or_room: bool) -> Result<Option<Message>, Ending> {
        let (mut bytes, mut resets) = ([0; LONGEST], 0);
        let stays = matches!(self.subject, Subject::Tracker(_)); // so that its socket can be read from then on
        loop {
            match wait_to_read(self.as_fd(), until, cancel, or_room) {
                Ok(true) => {}
                Ok(false) => return Ok(None),
                Err(_) => return Err(Ending::Gone),
            }
            let got = match sys::receive(self.as_fd(), &mut bytes, stays) {
                Ok(got) if got.length > 0 => got,
                Err(error) if error.kind() == ErrorKind::WouldBlock && or_room => return Ok(None),
                Err(error) if error.kind() == ErrorKind::WouldBlock => continue,
                Err(error) if error.kind() == ErrorKind::Interrupted => continue,
                Err(error) if error.kind() == ErrorKind::ConnectionReset && resets == 0 => {
                    resets = 1; // what was sent before it follows
                    continue;
                }
                _ => return Err(Ending::Gone),
            };
            return Message::of(&bytes, got).map(Some).ok_or(Ending::WrongVersion);
        }
    }

    /// Whether there is room for another descriptor: one that this process has no room for would be closed by the
    /// kernel, and its node fail.
    pub fn has_room(&self) -> Result<(), Error> {
        self.as_fd().try_clone_to_owned().map(drop).map_err(|_| Error::NoMemory)
    }

    /// Adds one who waits, and answers its number.
    pub fn add_idle(&self, most: u32, is_pending: bool) -> u64 {
        let mut state = self.lock();
        let number = state.idles.last().map_or(0, |idle| idle.number + 1);
        state.idles.push(Idle { number, most, is_done: false, is_pending });
        number
    }

    pub fn remove_idle(&self, number: u64) {
        self.lock().idles.retain(|idle| idle.number != number);
    }

    /// Asks the daemon to tell of the first of those who wait.
    pub fn arm(&self) -> Result<(), Error> {
        let made = self.ask_if(request(op::ON_IDLE), |state, asked| {
            state.is_to_arm = false;
            let waits = state.idles.iter().filter(|idle| !idle.is_done);
            match waits.map(|idle| idle.most).max() {
                None => return false,
                Some(most) => asked.left = most,
            }
            state.armed += 1;
            asked.cookie = state.armed;
            true
        });
        made.map(drop)
    }
}

impl Ring for Link {
    fn ring(&self) {
        drop(self.lock()); // they sleep by now, or have not looked yet
        self.changed.notify_all();
    }
}

impl AsFd for Link {
    fn as_fd(&self) -> BorrowedFd<'_> {
        self.fd.as_fd()
    }
}

impl Drop for Link {
    fn drop(&mut self) {
        self.hub.remove(self);
    }
}

impl fmt::Debug for Link {
    fn fmt(&self, f: &mut fmt::Formatter<'_>) -> fmt::Result {
        match self.subject {
            Subject::Connection => f.write_str("Client"),
            Subject::Node(key) => write!(f, "End({key})"),
            Subject::Tracker(id) => write!(f, "Tracker({id})"),
            Subject::Buffer(buffer) => write!(f, "Handle({buffer})"),
        }
    }
}
