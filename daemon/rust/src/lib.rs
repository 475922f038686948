//! Lifetimes of buffers that processes share: the client of `sysmemd`, with the types and names of the crate
//! `sysmem`, whose clients are threads of one process. Linux only; no C library.
//!
//! Tokens, collections and handles are descriptors. They go to any process by any way; when the last copy is
//! closed, also by the death of its process, the daemon does what the drop does. `docs/DAEMON.md` has the rest.
//!
//! ```no_run
//! use std::{io::Read, os::unix::net::UnixStream, time::Duration};
//! use sysmem_remote::{Constraints, Options, Service};
//!
//! # fn main() -> Result<(), Box<dyn std::error::Error>> {
//! # let (to_display, from_camera) = UnixStream::pair()?;
//! // The camera.
//! let service = Service::open(Options::default())?;
//! let camera = service.join_as("camera")?;
//! let root = camera.open_root("camera")?;
//! root.duplicate("display")?.give(&to_display)?;
//! let mine = root.bind()?;
//! mine.set_constraints(Constraints { camping: 2, at_least: 0, size: 4096 })?;
//! println!("{} buffers", mine.wait_allocated(Duration::from_secs(10))?.unwrap().count);
//!
//! // The display, another process.
//! let display = Service::open(Options::default())?.join_as("display")?;
//! let theirs = display.collect_for(&from_camera, Duration::from_secs(10))?.unwrap();
//! let theirs = theirs.token().unwrap().bind()?;
//! theirs.set_constraints(Constraints { camping: 1, at_least: 0, size: 6000 })?;
//! # Ok(())
//! # }
//! ```
//!
//! A program moves from threads to processes by where it opens. What differs:
//!
//! | | `sysmem` | `sysmem_remote` |
//! |---|---|---|
//! | `Options` | the core's | where the daemon is, and a deadline for calls |
//! | `give`, `collect`, `collect_for` | to a client; what it was given | over a socket, the argument; [`End::detach`], [`AsFd`], [`Client::adopt`] for other ways |
//! | the drop of a [`Client`] | it vanishes, with all that it has | its connection closes; what it made stays until its descriptors close |
//! | other drops | make their event at once | a moment later; the last copy of the descriptor counts |
//! | memory | one for the pool | [`Handle::bytes`], `slice`, `slice_mut`, `memory_fd`: one for each buffer |
//! | `track_weak` | asks for a weak handle of the client | this handle must be weak |
//! | a tracker's `wait`, `wait_for` | answer | may answer [`Error::Ended`] |
//! | callbacks, `id`, `shut`, transcripts, views but `nodes` | yes | no; [`Client::pending`], [`Service::status`] |
#![warn(rust_2018_idioms)]
#![deny(missing_docs, unsafe_code)]
#[cfg(not(target_os = "linux"))]
compile_error!("sysmemd is a service of Linux");

mod ends;
mod handle;
mod hub;
mod link;
mod sys;
mod tracker;
mod wire;
mod words;

pub use ends::{Collection, End, OfCollection, OfToken, Token};
pub use handle::Handle;
pub use tracker::Tracker;
pub use words::*;

use hub::Hub;
use link::{wait_to_read, Link, Subject};
use std::io::ErrorKind;
use std::os::unix::io::{AsFd, BorrowedFd, OwnedFd};
use std::sync::{Arc, Mutex, PoisonError};
use std::time::Instant;
use sysmem_words::numbers::kind;
use wire::{object, op, request, Message, Request};

/// The daemon at a path, and a connection for what is asked about it. Clones share it.
#[derive(Clone, Debug)]
pub struct Service(Arc<(Options, Client)>);

impl Service {
    /// Opens a connection. `NoService` if nobody serves the path.
    pub fn open(options: Options) -> Result<Service, Error> {
        let client = Client::connect(&options, "")?;
        Ok(Service(Arc::new((options, client))))
    }

    /// Makes a client: a connection of its own.
    pub fn join(&self) -> Result<Client, Error> {
        self.join_as("")
    }

    /// Makes a client with a label, for people.
    pub fn join_as(&self, label: &str) -> Result<Client, Error> {
        Client::connect(&self.0 .0, label)
    }

    /// The kept nodes of the core of this process's user, collection by collection, the earliest first, and by birth
    /// within each. Makes no event.
    pub fn nodes(&self) -> Result<Vec<Node>, Error> {
        list_of(&self.0 .1.link, op::NODES)
    }

    /// Numbers of the same core. Makes no event.
    pub fn status(&self) -> Result<Status, Error> {
        let told = self.0 .1.link.ask(request(op::STATUS))?;
        Ok(Status {
            live: told.count,
            pages: told.index,
            free_pages: told.size,
            held: told.id,
            descriptors: told.set,
            memories: told.detail,
            events: told.event,
        })
    }
}

/// A participant, such as a process: a connection to the daemon. What it made stays when it goes.
#[derive(Debug)]
pub struct Client {
    link: Arc<Link>,
    label: Arc<str>,
    daemon: sys::Process,
    /// What came and could not be adopted yet, with the number of its socket.
    inbox: Mutex<Vec<(u64, OwnedFd)>>,
}

/// What came over a socket.
pub type Parcel = sysmem_words::Parcel<Token, Collection, Handle>;

const STRANGE: Error = Error::Refused(Refusal::WrongKind);

impl Client {
    fn connect(options: &Options, label: &str) -> Result<Client, Error> {
        let of_user = || Some(std::path::Path::new(&std::env::var_os("XDG_RUNTIME_DIR")?).join("sysmem-0"));
        let named = || std::env::var_os("SYSMEM_SOCKET").map(Into::into).or_else(of_user);
        let path = options.path.clone().or_else(named).ok_or(Error::NoService(ErrorKind::NotFound))?;
        let fd = sys::connect_to(&path, options.deadline).map_err(|error| match error.kind() {
            ErrorKind::WouldBlock => Error::TimeOver,
            kind => Error::NoService(kind),
        })?;
        let link = Link::new(fd, &Hub::of(options.deadline), Subject::Connection);
        let (size, left) = (wire::MAGIC, wire::VERSION);
        let told = link.ask(Request { size, left, ..Request::named(op::HELLO, label) })?;
        sys::tell_senders(link.as_fd(), false);
        let (label, daemon) = (label.into(), told.sender.unwrap_or_default());
        Ok(Client { link, label, daemon, inbox: Mutex::default() })
    }

    /// The client's label; it may be empty.
    pub fn label(&self) -> Arc<str> {
        self.label.clone()
    }

    /// Makes a collection, and answers its root token. The label may be empty.
    pub fn open_root(&self, label: &str) -> Result<Token, Error> {
        Token::born(&self.link, kind::OPEN_ROOT, label)
    }

    /// Takes the first parcel that another process gave over this socket; `None` if there is none. `NoGiver` if the
    /// socket has ended, `Refused(WrongKind)` if what came is not the daemon's. What can't be adopted now, for want of
    /// memory, stays for the next call.
    pub fn collect(&self, from: impl AsFd) -> Result<Option<Parcel>, Error> {
        let from = from.as_fd();
        let number = sys::cookie(from).map_err(|_| Error::NoGiver)?;
        let mut inbox = self.inbox.lock().unwrap_or_else(PoisonError::into_inner);
        let fd = match inbox.iter().position(|kept| kept.0 == number) {
            Some(place) => inbox.remove(place).1,
            None => match self.receive(from)? {
                Some(fd) => fd,
                None => return Ok(None),
            },
        };
        self.adopt(fd).map(Some).map_err(|Back { error, value }| {
            if error == Error::NoMemory {
                inbox.push((number, value));
            }
            error
        })
    }

    /// A descriptor that waits there. Bytes without one are left out.
    fn receive(&self, from: BorrowedFd<'_>) -> Result<Option<OwnedFd>, Error> {
        for _ in 0..1000 {
            if !sys::wait(from, sys::POLLIN, None, Instant::now()).map_err(|_| Error::NoGiver)? {
                return Ok(None);
            }
            self.link.has_room()?;
            match sys::receive(from, &mut [0], false) {
                Ok(got) if got.length == 0 => return Err(Error::NoGiver),
                Ok(got) => match got.fds.into_iter().next() {
                    Some(fd) => return Ok(Some(fd)),
                    None => continue,
                },
                Err(error) if error.kind() == ErrorKind::WouldBlock => return Ok(None),
                Err(error) if error.kind() == ErrorKind::Interrupted => continue,
                Err(_) => return Err(Error::NoGiver),
            }
        }
        Ok(None)
    }

    /// Waits for a parcel if there is none, and takes it. `NoGiver` if the socket has ended.
    pub fn collect_for<'a>(&self, from: impl AsFd, time: impl Into<Patience<'a>>) -> Result<Waited<Parcel>, Error> {
        let (waiting, from) = (time.into().begin(&self.link), from.as_fd());
        loop {
            if let Some(parcel) = self.collect(from)? {
                return Ok(Waited::Done(parcel));
            }
            if waiting.is_cancelled() || Instant::now() >= waiting.until {
                return Ok(waiting.none());
            }
            let waited = wait_to_read(from, waiting.until, waiting.cancel(), false);
            waited.map_err(|_| Error::NoGiver)?;
        }
    }

    /// The value of a descriptor that some process passed, whom nobody needs to trust: the daemon
    /// exchanges it for a new one, which this value alone has, and all other copies end. `Refused(WrongKind)` if it
    /// is not the daemon's, or a tracker's. If it is refused, the descriptor comes back.
    pub fn adopt(&self, fd: OwnedFd) -> Result<Parcel, Back<OwnedFd>> {
        self.exchange(fd, |told, new| {
            let (key, id) = (told.key, told.id);
            Some(match told.detail {
                object::TOKEN => Parcel::Token(End::of(&self.link, new, key, id).was_told(told)),
                object::COLLECTION => Parcel::Collection(End::of(&self.link, new, key, id).was_told(told)),
                object::LEASE => {
                    let buffer = Buffer { collection: id, index: told.index as u8 };
                    let link = Link::new(new, &self.link.hub, Subject::Buffer(buffer));
                    let strength = Strength::of(told.set as u32);
                    Parcel::Handle(Handle::of(link, None, buffer, strength, told.size))
                }
                _ => return None,
            })
        })
    }

    /// The same for the descriptor of a tracker, also if it fired before.
    pub fn adopt_tracker(&self, fd: OwnedFd) -> Result<Tracker, Back<OwnedFd>> {
        self.exchange(fd, |told, new| {
            let (hub, id) = (&self.link.hub, told.id);
            let is_one = told.detail == object::TRACKER;
            is_one.then(|| Tracker::of(Link::new(new, hub, Subject::Tracker(id)), id))
        })
    }

    fn exchange<T>(&self, fd: OwnedFd, made: impl FnOnce(&Message, OwnedFd) -> Option<T>) -> Result<T, Back<OwnedFd>> {
        let claimed = self.claim(fd.as_fd()).and_then(|mut told| {
            let new = told.fds.pop();
            new.and_then(|new| made(&told, new)).ok_or(STRANGE)
        });
        claimed.map_err(|error| Back { error, value: fd })
    }

    /// Says a number over the socket, and then by it to the daemon that the socket is here.
    fn claim(&self, fd: BorrowedFd<'_>) -> Result<Message, Error> {
        // Only a socket whose other side is our daemon is written to.
        let is_daemons = sys::maker(fd).map_or(false, |maker| maker[..2] == self.daemon[..2]);
        let cookie = sys::cookie(fd).ok().filter(|_| is_daemons).ok_or(STRANGE)?;
        self.link.has_room()?;
        let number = sys::random().map_err(|_| Error::NoMemory)?.max(1);
        let (size, left) = (number as u32, (number >> 32) as u32);
        let offer = Request { serial: 1, size, left, ..request(op::OFFER) };
        sys::send(fd, &offer.bytes(), None, false).map_err(|_| STRANGE)?;
        for _ in 0..100 {
            let told = self.link.ask(Request { size, left, cookie, ..request(op::CLAIM) })?;
            match (told.detail, told.count) {
                (object::NOTHING, 0) => break,
                (object::NOTHING, _) => {} // each try serves some more of what its giver had sent before
                _ => return Ok(told),
            }
        }
        Err(STRANGE)
    }

    /// A file descriptor for `poll` or `epoll`. It is readable as long as [`pending`](Client::pending) has something to
    /// tell, at times also when it has not. Each call answers a clone of one descriptor.
    pub fn fd(&self) -> std::io::Result<Descriptor> {
        self.link.hub.fd()
    }

    /// What happened since the last call to what this client made or adopted: the nodes whose unit was allocated, and
    /// those that failed or whose end no longer reaches the daemon, the trackers that fired, and the buffers of
    /// [`Handle::tell_idle`]; each once. Makes no event. It tells only from the first call of `fd` on, and then also
    /// what was before. O(what this client made and adopted, and is open).
    pub fn pending(&self) -> Pending {
        self.link.hub.pending()
    }
}

/// Sends the descriptor of a value over this socket.
fn give_over(link: &Link, to: BorrowedFd<'_>) -> Result<(), Error> {
    let until = link.hub.deadline.map(|_| link.hub.until());
    while let Err(error) = sys::send(to, b"s", Some(link.as_fd()), until.is_none()) {
        let is_full = error.kind() == ErrorKind::WouldBlock && !sys::is_nonblocking(to);
        let until = until.filter(|_| is_full).ok_or(Error::NoReceiver(error.kind()))?;
        if !sys::wait(to, sys::POLLOUT, None, until).unwrap_or(true) {
            return Err(Error::TimeOver);
        }
    }
    Ok(())
}

/// The nodes of a list, message by message. If it changed meanwhile, it begins anew.
fn list_of(link: &Link, op: u32) -> Result<Vec<Node>, Error> {
    let (mut all, mut event, mut changes) = (Vec::new(), 0, 0);
    loop {
        let told = link.ask(Request { left: all.len() as u32, ..request(op) })?;
        if !all.is_empty() && told.event != event && changes < 100 {
            changes += 1;
            all.clear();
            continue;
        }
        event = told.event;
        let before = all.len();
        all.extend(told.nodes());
        if all.len() as u64 >= told.set || all.len() == before {
            return Ok(all);
        }
    }
}
