//! The system's calls that std lacks: sockets that keep messages apart, descriptors that travel over them, mapped
//! memory, epoll. All that is unsafe is here, and the bytes of [`Handle`](crate::Handle).
//!
//! The structs and numbers are those of Linux, where `long` and pointers are as long as `usize`.
#![allow(unsafe_code)]
use std::io::{Error, ErrorKind, Result};
use std::mem::{size_of, size_of_val};
use std::os::raw::{c_int, c_long, c_short, c_uint, c_ulong, c_void};
use std::os::unix::ffi::OsStrExt;
use std::os::unix::io::{AsRawFd, BorrowedFd, FromRawFd, OwnedFd};
use std::path::Path;
use std::ptr::null_mut;
use std::sync::atomic::{AtomicPtr, AtomicU8, Ordering};
use std::time::{Duration, Instant};

#[cfg(any(
    target_arch = "mips",
    target_arch = "mips64",
    target_arch = "powerpc",
    target_arch = "powerpc64",
    target_arch = "sparc64"
))]
compile_error!("this machine's Linux has other numbers");

const AF_UNIX: c_int = 1;
const SEQPACKET: c_int = 5;
const CLOEXEC: c_int = 0o2_000_000;
const SOL_SOCKET: c_int = 1;
const SO_TYPE: c_int = 3;
const SO_PASSCRED: c_int = 16;
const SO_PEERCRED: c_int = 17;
const SO_SNDTIMEO: c_int = 21;
const SO_DOMAIN: c_int = 39;
const SO_COOKIE: c_int = 57;
const SCM_RIGHTS: c_int = 1;
const SCM_CREDENTIALS: c_int = 2;
const MSG_PEEK: c_int = 2;
const MSG_CTRUNC: c_int = 8;
const MSG_DONTWAIT: c_int = 0x40;
const MSG_NOSIGNAL: c_int = 0x4000;
const MSG_CMSG_CLOEXEC: c_int = 0x4000_0000;
const F_GETFL: c_int = 3;
const O_NONBLOCK: c_int = 0o4_000;
/// Of `poll` and `epoll`: that it can be read, and that it takes something.
pub(crate) const POLLIN: c_short = 1;
pub(crate) const POLLOUT: c_short = 4;

#[repr(C)]
struct Part {
    at: *mut c_void,
    length: usize,
}

#[repr(C)]
struct MsgHdr {
    name: *mut c_void,
    name_length: c_uint,
    parts: *mut Part,
    part_count: usize,
    control: *mut c_void,
    control_length: usize,
    flags: c_int,
}

#[repr(C)]
struct PollFd(c_int, c_short, c_short);

#[cfg_attr(target_arch = "x86_64", repr(C, packed))]
#[cfg_attr(not(target_arch = "x86_64"), repr(C))]
#[derive(Clone, Copy)]
struct EpollEvent {
    events: u32,
    data: u64,
}

#[repr(C)]
struct UnixName {
    family: u16,
    path: [u8; 108],
}

extern "C" {
    fn socket(domain: c_int, kind: c_int, protocol: c_int) -> c_int;
    fn connect(fd: c_int, name: *const UnixName, length: c_uint) -> c_int;
    fn sendmsg(fd: c_int, message: *const MsgHdr, flags: c_int) -> isize;
    fn recvmsg(fd: c_int, message: *mut MsgHdr, flags: c_int) -> isize;
    fn getsockopt(fd: c_int, of: c_int, name: c_int, to: *mut c_void, length: *mut c_uint) -> c_int;
    fn setsockopt(fd: c_int, of: c_int, name: c_int, to: *const c_void, length: c_uint) -> c_int;
    fn poll(all: *mut PollFd, count: c_ulong, time: c_int) -> c_int;
    fn fcntl(fd: c_int, op: c_int, ...) -> c_int;
    fn epoll_create1(flags: c_int) -> c_int;
    fn epoll_ctl(epoll: c_int, op: c_int, fd: c_int, event: *mut EpollEvent) -> c_int;
    fn epoll_wait(epoll: c_int, all: *mut EpollEvent, room: c_int, time: c_int) -> c_int;
    fn getrandom(to: *mut c_void, length: usize, flags: c_uint) -> isize;
    fn mmap(at: *mut c_void, length: usize, prot: c_int, flags: c_int, fd: c_int, from: c_long) -> *mut c_void;
    fn munmap(at: *mut c_void, length: usize) -> c_int;
}

/// A new descriptor, which is nobody else's.
fn own(fd: c_int) -> Result<OwnedFd> {
    match fd {
        -1 => Err(Error::last_os_error()),
        // SAFETY: the system made it for the caller.
        fd => Ok(unsafe { OwnedFd::from_raw_fd(fd) }),
    }
}

/// Words that a socket's options are: any bytes are a value.
pub(crate) trait Words: Copy + Default {}
impl Words for c_int {}
impl Words for u64 {}
impl Words for [u32; 3] {}
impl Words for [c_long; 2] {}

fn option<T: Words>(fd: BorrowedFd<'_>, name: c_int) -> Result<T> {
    let (mut is, mut length) = (T::default(), size_of::<T>() as c_uint);
    let to = &mut is as *mut T as *mut c_void;
    // SAFETY: `is` has so many bytes, and any bytes are a value of it.
    match unsafe { getsockopt(fd.as_raw_fd(), SOL_SOCKET, name, to, &mut length) } {
        0 => Ok(is),
        _ => Err(Error::last_os_error()),
    }
}

fn set_option<T: Words>(fd: BorrowedFd<'_>, name: c_int, is: T) {
    let at = &is as *const T as *const c_void;
    // SAFETY: `is` has so many bytes. If it is refused, nothing changed.
    unsafe { setsockopt(fd.as_raw_fd(), SOL_SOCKET, name, at, size_of::<T>() as c_uint) };
}

/// The number that no other socket of this machine has.
pub(crate) fn cookie(fd: BorrowedFd<'_>) -> Result<u64> {
    option(fd, SO_COOKIE)
}

/// A process, as the kernel tells it: its number, its user and its group.
pub(crate) type Process = [u32; 3];

/// Who made the other side, if the descriptor is a socket that the daemon could have made.
pub(crate) fn maker(fd: BorrowedFd<'_>) -> Option<Process> {
    let is = |name, number: c_int| option(fd, name).map_or(false, |is: c_int| is == number);
    let is_kind = is(SO_DOMAIN, AF_UNIX) && is(SO_TYPE, SEQPACKET);
    is_kind.then(|| option(fd, SO_PEERCRED).ok()).flatten()
}

/// Has the kernel tell, or not, who sends what comes over this socket.
pub(crate) fn tell_senders(fd: BorrowedFd<'_>, is: bool) {
    set_option(fd, SO_PASSCRED, c_int::from(is));
}

/// Connects to a path, in so long at most. What comes tells its sender.
pub(crate) fn connect_to(path: &Path, deadline: Option<Duration>) -> Result<OwnedFd> {
    let mut name = UnixName { family: AF_UNIX as u16, path: [0; 108] };
    let bytes = path.as_os_str().as_bytes();
    if bytes.is_empty() || bytes.len() >= name.path.len() || bytes.contains(&0) {
        return Err(ErrorKind::InvalidInput.into());
    }
    name.path[..bytes.len()].copy_from_slice(bytes);
    // SAFETY: it takes numbers.
    let fd = own(unsafe { socket(AF_UNIX, SEQPACKET | CLOEXEC, 0) })?;
    let borrowed = std::os::unix::io::AsFd::as_fd(&fd);
    if let Some(time) = deadline {
        let least = time.max(Duration::from_micros(1)); // 0 would be for ever
        let (s, us) = (least.as_secs().min(1 << 30), least.subsec_micros());
        set_option(borrowed, SO_SNDTIMEO, [s as c_long, us as c_long]);
    }
    tell_senders(borrowed, true);
    loop {
        // SAFETY: the name has so many bytes.
        if unsafe { connect(fd.as_raw_fd(), &name, size_of_val(&name) as c_uint) } == 0 {
            return Ok(fd);
        }
        let error = Error::last_os_error();
        if error.kind() != ErrorKind::Interrupted {
            return Err(error);
        }
    }
}

/// Sleeps until one of these events comes to the descriptor, or it has ended; false if the time is over first, or
/// `other` can be read.
pub(crate) fn wait(fd: BorrowedFd<'_>, events: c_short, other: Option<BorrowedFd<'_>>, until: Instant) -> Result<bool> {
    let other = other.map_or(-1, |fd| fd.as_raw_fd()); // -1 is left out
    loop {
        let left = until.saturating_duration_since(Instant::now()) + Duration::from_nanos(999_999);
        let time = left.as_millis().min(1 << 30) as c_int;
        let mut all = [PollFd(fd.as_raw_fd(), events, 0), PollFd(other, POLLIN, 0)];
        // SAFETY: there are two.
        match unsafe { poll(all.as_mut_ptr(), 2, time) } {
            -1 if Error::last_os_error().kind() == ErrorKind::Interrupted => {}
            -1 => return Err(Error::last_os_error()),
            _ if all[0].2 != 0 => return Ok(true),
            0 if Instant::now() < until => {}
            _ => return Ok(false),
        }
    }
}

/// A message of these bytes, with so many words of room for what is no byte.
fn header(part: &mut Part, control: &mut [usize]) -> MsgHdr {
    MsgHdr {
        name: null_mut(),
        name_length: 0,
        parts: part,
        part_count: 1,
        control: control.as_mut_ptr().cast(),
        control_length: size_of_val(control),
        flags: 0,
    }
}

/// The bytes of a word. What is no byte begins with its length, a word, and two numbers of 4 bytes.
const WORD: usize = size_of::<usize>();
const BEFORE: usize = WORD + 8;

/// Whether who uses this descriptor wants no call to wait.
pub(crate) fn is_nonblocking(fd: BorrowedFd<'_>) -> bool {
    // SAFETY: it takes numbers.
    unsafe { fcntl(fd.as_raw_fd(), F_GETFL) & O_NONBLOCK != 0 }
}

/// Sends one message, perhaps with a descriptor; with `waits` once there is room.
pub(crate) fn send(fd: BorrowedFd<'_>, bytes: &[u8], passed: Option<BorrowedFd<'_>>, waits: bool) -> Result<()> {
    let mut part = Part { at: bytes.as_ptr() as *mut c_void, length: bytes.len() };
    let mut control = [0; (BEFORE + 4 + WORD - 1) / WORD];
    if let Some(passed) = passed {
        control[0] = BEFORE + 4;
        let numbers = [SOL_SOCKET, SCM_RIGHTS, passed.as_raw_fd()];
        // SAFETY: 12 bytes have room behind the first word, and words are aligned as numbers are.
        unsafe { control[1..].as_mut_ptr().cast::<[c_int; 3]>().write(numbers) };
    }
    let room = if passed.is_some() { control.len() } else { 0 };
    let message = header(&mut part, &mut control[..room]);
    let flags = MSG_NOSIGNAL | if waits { 0 } else { MSG_DONTWAIT };
    loop {
        // SAFETY: the message names bytes and words that stay; they are only read.
        let sent = unsafe { sendmsg(fd.as_raw_fd(), &message, flags) };
        match sent {
            -1 if Error::last_os_error().kind() == ErrorKind::Interrupted => {}
            -1 => return Err(Error::last_os_error()),
            _ => return Ok(()),
        }
    }
}

/// What came.
#[derive(Default)]
pub(crate) struct Received {
    /// How many bytes; 0 is the end.
    pub length: usize,
    pub fds: Vec<OwnedFd>,
    /// Whether descriptors were lost, because this process can have no more.
    pub is_cut: bool,
    pub sender: Option<Process>,
}

/// Reads one message without a wait; with `stays` it stays there.
pub(crate) fn receive(fd: BorrowedFd<'_>, bytes: &mut [u8], stays: bool) -> Result<Received> {
    let mut part = Part { at: bytes.as_mut_ptr().cast(), length: bytes.len() };
    let mut control = [0; 768 / WORD]; // 128 descriptors and a sender have 560 bytes
    let mut message = header(&mut part, &mut control);
    let flags = MSG_CMSG_CLOEXEC | MSG_DONTWAIT | if stays { MSG_PEEK } else { 0 };
    // SAFETY: the message names bytes and words that stay, with their lengths.
    let length = unsafe { recvmsg(fd.as_raw_fd(), &mut message, flags) };
    if length < 0 {
        return Err(Error::last_os_error());
    }
    let is_cut = message.flags & MSG_CTRUNC != 0;
    let mut got = Received { length: length as usize, is_cut, ..Received::default() };
    let used = control.iter().take((message.control_length + WORD - 1) / WORD);
    let used: Vec<u8> = used.flat_map(|word| word.to_ne_bytes()).collect();
    let mut rest = &used[..];
    while rest.len() >= BEFORE {
        let length = control[(used.len() - rest.len()) / WORD].clamp(BEFORE, rest.len());
        let numbers = rest[WORD..length].chunks_exact(4).map(|n| c_int::from_ne_bytes([n[0], n[1], n[2], n[3]]));
        let mut numbers = numbers.collect::<Vec<c_int>>().into_iter();
        match (numbers.next(), numbers.next()) {
            // SAFETY: the kernel made these descriptors for who receives.
            (_, Some(SCM_RIGHTS)) => got.fds.extend(numbers.map(|fd| unsafe { OwnedFd::from_raw_fd(fd) })),
            (_, Some(SCM_CREDENTIALS)) => {
                got.sender = <[c_int; 3]>::try_from(numbers.as_slice()).ok().map(|who| who.map(|is| is as u32));
            }
            _ => {}
        }
        rest = &rest[((length + WORD - 1) / WORD * WORD).min(rest.len())..];
    }
    Ok(got)
}

/// A number that nobody guesses.
pub(crate) fn random() -> Result<u64> {
    let mut number = 0_u64;
    // SAFETY: the number has 8 bytes.
    match unsafe { getrandom(&mut number as *mut u64 as *mut c_void, 8, 0) } {
        8 => Ok(number),
        _ => Err(Error::last_os_error()),
    }
}

/// An epoll.
pub(crate) fn new_epoll() -> Result<OwnedFd> {
    // SAFETY: it takes a number.
    own(unsafe { epoll_create1(CLOEXEC) })
}

/// Has the epoll watch, or not, whether the descriptor can be read.
pub(crate) fn watch(epoll: BorrowedFd<'_>, fd: BorrowedFd<'_>, data: u64, is: bool) -> Result<()> {
    let mut event = EpollEvent { events: POLLIN as u32, data };
    let op = if is { 1 } else { 2 };
    // SAFETY: the event stays until it returns.
    match unsafe { epoll_ctl(epoll.as_raw_fd(), op, fd.as_raw_fd(), &mut event) } {
        0 => Ok(()),
        _ => Err(Error::last_os_error()),
    }
}

/// The data of up to so many descriptors of the epoll that can be read.
pub(crate) fn readable(epoll: BorrowedFd<'_>, most: usize) -> Vec<u64> {
    let mut all = vec![EpollEvent { events: 0, data: 0 }; most.max(1)];
    // SAFETY: there is room for so many.
    let count = unsafe { epoll_wait(epoll.as_raw_fd(), all.as_mut_ptr(), all.len() as c_int, 0) };
    all.iter().take(count.max(0) as usize).map(|event| event.data).collect()
}

/// A file mapped once, when its bytes are first asked for.
#[derive(Debug)]
pub(crate) struct Mapping {
    start: AtomicPtr<AtomicU8>,
    length: usize,
}

impl Mapping {
    /// Of so many bytes, not mapped yet.
    pub fn of(length: usize) -> Mapping {
        Mapping { start: AtomicPtr::new(null_mut()), length }
    }

    /// How many bytes.
    pub fn length(&self) -> usize {
        self.length
    }

    /// The bytes of this file, which is as long and does not shrink.
    pub fn bytes(&self, file: BorrowedFd<'_>) -> Result<&[AtomicU8]> {
        let mut start = self.start.load(Ordering::Acquire);
        if start.is_null() {
            let fd = file.as_raw_fd();
            // SAFETY: a new mapping; 3 is read and write, 1 is shared.
            let at = unsafe { mmap(null_mut(), self.length, 3, 1, fd, 0) };
            if at as isize == -1 {
                return Err(Error::last_os_error());
            }
            let (null, at) = (null_mut(), at.cast());
            match self.start.compare_exchange(null, at, Ordering::AcqRel, Ordering::Acquire) {
                Ok(_) => start = at,
                Err(other) => {
                    // SAFETY: another thread was quicker, and nobody has seen this mapping.
                    unsafe { munmap(at.cast(), self.length) };
                    start = other;
                }
            }
        }
        // SAFETY: it is mapped as long as `self`, which is borrowed; the bytes are atomic, since other handles and
        // other processes have them too.
        Ok(unsafe { std::slice::from_raw_parts(start, self.length) })
    }
}

impl Drop for Mapping {
    fn drop(&mut self) {
        let start = *self.start.get_mut();
        if !start.is_null() {
            // SAFETY: nothing borrows it any more.
            unsafe { munmap(start.cast(), self.length) };
        }
    }
}
