//! Buffers of one's own, as dma-bufs of V4L2 or DRM: the service names them, counts their handles and says
//! when one comes back; their bytes are the program's. A buffer has a size of 1 and so a page of the pool,
//! and its name is the key of a table of descriptors. A camera writes frames; a display shows them on a
//! device, which reads a frame after the display was told of it, and has a fence: a descriptor that is
//! readable once the device is done. The display crashes while the device reads, and is started again.
//!
//! Here the buffers are memfds, or dma-bufs of memfds where there is /dev/udmabuf (with the word `memfd`:
//! never), and a fence is an eventfd. Of V4L2 a buffer comes from VIDIOC_EXPBUF, of DRM from
//! DRM_IOCTL_PRIME_HANDLE_TO_FD, and its fence from DMA_BUF_IOCTL_EXPORT_SYNC_FILE.
use std::collections::HashMap;
use std::fs::{File, OpenOptions};
use std::io::{self, Read, Write};
use std::os::raw::{c_char, c_int, c_long, c_short, c_uint, c_ulong, c_void};
use std::os::unix::io::{AsRawFd, FromRawFd, RawFd};
use std::thread;
use std::time::Duration;
use sysmem::*;

/// The bytes of a buffer: the service need not know.
const LENGTH: usize = 64 * 1024;
/// The number of the last frame.
const LAST: u32 = 150;
const LONG: Duration = Duration::from_secs(20);

#[repr(C)]
#[derive(Clone, Copy)]
struct PollFd(c_int, c_short, c_short);
extern "C" {
    fn memfd_create(name: *const c_char, flags: c_uint) -> c_int;
    fn eventfd(count: c_uint, flags: c_int) -> c_int;
    fn fcntl(fd: c_int, what: c_int, ...) -> c_int;
    fn ioctl(fd: c_int, what: c_ulong, ...) -> c_int;
    fn mmap(
        at: *mut c_void,
        length: usize,
        prot: c_int,
        flags: c_int,
        fd: c_int,
        from: c_long,
    ) -> *mut c_void;
    fn munmap(at: *mut c_void, length: usize) -> c_int;
    fn poll(all: *mut PollFd, count: c_ulong, time: c_int) -> c_int;
}

/// The descriptor that a call answered; it is new, and nobody else's.
fn file_of(fd: c_int) -> File {
    assert!(fd >= 0, "{}", io::Error::last_os_error());
    // SAFETY: see above.
    unsafe { File::from_raw_fd(fd) }
}

/// linux/udmabuf.h.
#[repr(C)]
struct UdmabufCreate {
    memfd: u32,
    flags: u32,
    offset: u64,
    size: u64,
}

fn new_buffer(is_dma: bool) -> File {
    // SAFETY: the name ends with a zero; 3 is MFD_CLOEXEC and MFD_ALLOW_SEALING.
    let file = file_of(unsafe { memfd_create(b"frame\0".as_ptr().cast(), 3) });
    file.set_len(LENGTH as u64).unwrap();
    // SAFETY: F_ADD_SEALS with F_SEAL_SHRINK.
    assert_eq!(unsafe { fcntl(file.as_raw_fd(), 1033, 2 as c_int) }, 0);
    let device = OpenOptions::new().read(true).write(true).open("/dev/udmabuf");
    let device = match device {
        Ok(device) if is_dma => device,
        _ => return file,
    };
    let (memfd, size) = (file.as_raw_fd() as u32, LENGTH as u64);
    let wanted = UdmabufCreate { memfd, flags: 1, offset: 0, size };
    // SAFETY: UDMABUF_CREATE takes these words.
    file_of(unsafe { ioctl(device.as_raw_fd(), 0x4018_7542, &wanted as *const UdmabufCreate) })
}

/// A mapping of a whole buffer.
struct Bytes(*mut c_void);
// SAFETY: who reads and writes is said by handles and fences, as the functions below say.
unsafe impl Send for Bytes {}
unsafe impl Sync for Bytes {}
impl Bytes {
    fn of(fd: RawFd) -> Bytes {
        // SAFETY: a new mapping; 3 is read and write, 1 is shared.
        let at = unsafe { mmap(std::ptr::null_mut(), LENGTH, 3, 1, fd, 0) };
        assert_ne!(at as isize, -1, "{}", io::Error::last_os_error());
        Bytes(at)
    }
}
impl Drop for Bytes {
    fn drop(&mut self) {
        // SAFETY: nobody uses it any more.
        unsafe { munmap(self.0, LENGTH) };
    }
}

/// What the program knows of a buffer.
struct Frame {
    buffer: File,
    bytes: Bytes,
    /// Readable: no device reads.
    fence: File,
}
type Table = HashMap<Buffer, Frame>;

impl Frame {
    fn new(is_dma: bool) -> Frame {
        let buffer = new_buffer(is_dma);
        let bytes = Bytes::of(buffer.as_raw_fd());
        // SAFETY: EFD_CLOEXEC and EFD_NONBLOCK.
        let fence = file_of(unsafe { eventfd(1, 0o2_004_000) });
        Frame { buffer, bytes, fence }
    }

    /// Nobody else has a handle of this buffer. But those of a display that crashed went at once: its
    /// device may still read.
    fn write(&self, number: u32) {
        assert!(waits_for(&mut [wish(&self.fence)]), "the fence");
        self.sync(2); // DMA_BUF_SYNC_START | DMA_BUF_SYNC_WRITE
                      // SAFETY: nobody else reads or writes: there is no other handle, and the fence is readable.
        unsafe { std::ptr::write_bytes(self.bytes.0.cast::<u8>(), (number % 251) as u8, LENGTH) };
        self.sync(6); // DMA_BUF_SYNC_END | DMA_BUF_SYNC_WRITE
    }

    /// Brackets what the processor does to the bytes of a dma-buf; a memfd knows nothing of it.
    fn sync(&self, what: u64) {
        // SAFETY: DMA_BUF_IOCTL_SYNC takes this word.
        let told = unsafe { ioctl(self.buffer.as_raw_fd(), 0x4008_6200, &what as *const u64) };
        assert!(told == 0 || io::Error::last_os_error().raw_os_error() == Some(25));
        // ENOTTY
    }
}

fn wish(fd: &impl AsRawFd) -> PollFd {
    PollFd(fd.as_raw_fd(), 1, 0) // POLLIN
}
/// Sleeps until one of the descriptors is readable; false if none is for long.
fn waits_for(all: &mut [PollFd]) -> bool {
    // SAFETY: the pointer and the number are of one slice.
    unsafe { poll(all.as_mut_ptr(), all.len() as c_ulong, 20_000) > 0 }
}

/// A device that reads a frame slowly, by the descriptor alone, and then signals the fence.
fn read_slowly(frame: &Frame) {
    let bytes = Bytes::of(frame.buffer.as_raw_fd());
    // SAFETY: nobody writes until the fence is readable.
    let seen = unsafe { std::slice::from_raw_parts(bytes.0.cast::<u8>(), LENGTH) };
    for half in seen.chunks(LENGTH / 2) {
        thread::sleep(Duration::from_micros(500));
        assert!(half.iter().all(|byte| *byte == seen[0]), "a frame is torn");
    }
    (&frame.fence).write_all(&1u64.to_ne_bytes()).unwrap();
}

/// Shows frames until it crashes after so many, or it is over. A handle stays until the fence of its frame
/// is readable. The threads of the device outlive the display.
fn show<'a>(
    device: &'a thread::Scope<'a, '_>,
    table: &'a Table,
    client: Client,
    crash: u32,
    over: &Cancel,
) -> Result<(), Error> {
    let (fd, end) = (client.fd().unwrap(), over.fd().unwrap());
    let mut shown: Vec<Handle> = Vec::new();
    let mut seen = 0;
    while seen < crash {
        let mut all = vec![wish(&fd), wish(&end)];
        all.extend(shown.iter().map(|one| wish(&table[&one.buffer()].fence)));
        assert!(waits_for(&mut all), "the display waits");
        if all[1].2 != 0 {
            break;
        }
        let mut told = all[2..].iter();
        shown.retain(|_| told.next().unwrap().2 == 0); // the camera may have it again
        for _ in 0..client.pending().parcels {
            let frame = client.collect()?.unwrap().handle().unwrap();
            let what = &table[&frame.buffer()];
            (&what.fence).read_exact(&mut [0; 8]).unwrap(); // from now on it is not readable
            device.spawn(move || read_slowly(what));
            shown.push(frame);
            seen += 1;
        }
    }
    Ok(())
}

/// Sends frames from this number on, until the last one or until nobody is there; answers the next number.
fn send(
    client: &Client,
    all: &[Handle],
    free: &mut Vec<Buffer>,
    table: &Table,
    to: ClientId,
    mut number: u32,
) -> Result<u32, Error> {
    while number <= LAST {
        let buffer = match free.last() {
            Some(buffer) => buffer,
            None => {
                assert!(waits_for(&mut [wish(&client.fd().unwrap())]), "the camera waits");
                free.extend(client.pending().idle);
                continue;
            }
        };
        table[buffer].write(number);
        let frame = &all[usize::from(buffer.index)];
        if frame.duplicate()?.give(to).is_err() {
            return Ok(number);
        }
        frame.tell_idle(1)?; // `pending` names it when it comes back
        free.pop();
        number += 1;
    }
    for frame in all {
        assert!(frame.wait_idle(1, LONG)?.is_done());
    }
    Ok(number)
}

fn main() -> Result<(), Error> {
    let is_dma = std::env::args().nth(1).as_deref() != Some("memfd");
    // As many buffers at most as pages; there is no `memory`.
    let service = Service::open(Options { pages: 64, ..Options::default() })?;
    let camera = service.join_as("camera")?;
    let mine = camera.open_root("frames")?.bind()?;
    mine.set_constraints(Constraints { camping: 4, at_least: 0, size: 1 })?; // four buffers, with a page each
    let all = mine.take()?.unwrap();
    let table: Table = all.iter().map(|one| (one.buffer(), Frame::new(is_dma))).collect();
    let mut free: Vec<Buffer> = all.iter().map(Handle::buffer).collect();
    println!("{} buffers of the program's own", table.len());
    let mut number = 1;
    thread::scope(|device| -> Result<(), Error> {
        for crash in [LAST / 3, u32::MAX] {
            let display = service.join_as("display")?;
            let (to, over, table) = (display.id(), Cancel::new(), &table);
            let end = over.clone();
            let shows = device.spawn(move || show(device, table, display, crash, &end));
            number = send(&camera, &all, &mut free, table, to, number)?;
            if number <= LAST {
                println!("the display crashed, here is another");
            }
            over.cancel();
            shows.join().unwrap()?;
        }
        Ok(())
    })?;
    println!("no frame was torn, and all came back");
    // Once no buffer of the collection is in use the descriptors can go.
    let unused = mine.track_lifetime(0)?;
    mine.release()?;
    drop(all);
    unused.wait();
    drop(table);
    println!("{} pages free", service.free_pages());
    Ok(())
}
