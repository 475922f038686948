//! The memory of a pool.
use crate::{Error, Handle, OutOfRange};
use std::fs::File;
use std::os::raw::{c_char, c_int, c_long, c_uint, c_void};
use std::os::unix::io::{AsFd, AsRawFd, BorrowedFd, FromRawFd, RawFd};
use std::sync::atomic::{AtomicBool, AtomicU8};
use std::sync::Arc;

extern "C" {
    fn memfd_create(name: *const c_char, flags: c_uint) -> c_int;
    fn mmap(
        at: *mut c_void,
        length: usize,
        prot: c_int,
        flags: c_int,
        fd: c_int,
        from: c_long,
    ) -> *mut c_void;
    fn munmap(at: *mut c_void, length: usize) -> c_int;
}

/// The memory of a pool: a memfd, mapped once. A service that has it in its [`Options`](crate::Options)
/// keeps it; it is of one service at a time. Its descriptor can be mapped again, and given to a graphics
/// or video API or to another program: page n of the pool is at byte n * 4,096.
///
/// Its bytes are atomic: a handle may outlive its client, and then the buffer's pages may be another's;
/// two handles may be on one buffer; and other programs may have the descriptor. What is read is then what
/// another one wrote, and never undefined behaviour. [`slice`](Memory::slice) and
/// [`slice_mut`](Memory::slice_mut) are faster, and unsafe for these reasons. No safe function lends a
/// `&mut [u8]`, not even of the only open handle: another thread may let its client vanish meanwhile,
/// after which the pages can be another buffer's; who borrowed the atomic bytes of a handle whose client
/// vanished still has them; and the descriptor, which safe code can write to, and other mappings know
/// nothing of handles.
#[derive(Debug)]
pub struct Memory {
    start: *mut AtomicU8,
    length: usize,
    file: File,
    pub(crate) is_used: AtomicBool,
}

// SAFETY: the bytes are atomic, and the rest does not change.
unsafe impl Send for Memory {}
unsafe impl Sync for Memory {}

impl Memory {
    /// The bytes of a page.
    pub const PAGE: usize = 4096;

    /// Memory of so many pages, 1 to 1,048,576, all zeros. `BadLimits` if there are fewer or more,
    /// `NoMemory` if the system gives none.
    pub fn open(pages: u32) -> Result<Arc<Memory>, Error> {
        if pages == 0 || pages > 1 << 20 {
            let (is, most) = (u64::from(pages), 1 << 20);
            return Err(Error::BadLimits(OutOfRange { what: "pages", is, least: 1, most }));
        }
        let length = pages as usize * Memory::PAGE;
        // SAFETY: the name ends with a zero, and 1 is MFD_CLOEXEC; the descriptor is new, and nobody else's.
        let file = unsafe {
            match memfd_create(b"sysmem\0".as_ptr().cast(), 1) {
                -1 => return Err(Error::NoMemory),
                fd => File::from_raw_fd(fd),
            }
        };
        file.set_len(length as u64).map_err(|_| Error::NoMemory)?;
        // SAFETY: a new mapping, of a file that is as long; 3 is read and write, 1 is shared.
        let at = unsafe { mmap(std::ptr::null_mut(), length, 3, 1, file.as_raw_fd(), 0) };
        if at as isize == -1 {
            return Err(Error::NoMemory);
        }
        Ok(Arc::new(Memory { start: at.cast(), length, file, is_used: AtomicBool::new(false) }))
    }

    #[cfg(test)]
    pub(crate) fn first(&self) -> *const AtomicU8 {
        self.start
    }

    /// How many pages it has.
    pub fn pages(&self) -> u32 {
        (self.length / Memory::PAGE) as u32
    }

    /// The bytes of the handle's buffer, as many as each buffer of the collection has. They are the
    /// buffer's as long as the handle is open. Empty if the handle's client has vanished, or if its
    /// service has not this memory.
    pub fn bytes<'a>(&'a self, handle: &'a Handle) -> &'a [AtomicU8] {
        let (start, size) = handle.bytes_in(self);
        let start = start as usize * Memory::PAGE;
        debug_assert!(start + size as usize <= self.length);
        // SAFETY: the core places buffers within the pool, for which the memory is long enough; it is mapped
        // as long as `self`, which is borrowed.
        unsafe { std::slice::from_raw_parts(self.start.add(start), size as usize) }
    }

    /// The same bytes, to be read.
    ///
    /// # Safety
    /// As long as the slice is used, the handle stays open (nobody lets its client vanish), and nobody
    /// writes the bytes: not by another handle on the buffer, nor by a handle of a client that vanished,
    /// nor by another mapping.
    pub unsafe fn slice<'a>(&'a self, handle: &'a Handle) -> &'a [u8] {
        let bytes = self.bytes(handle);
        std::slice::from_raw_parts(bytes.as_ptr().cast(), bytes.len())
    }

    /// The same bytes, to be written.
    ///
    /// # Safety
    /// As long as the slice is used, the handle stays open (nobody lets its client vanish), and nobody
    /// else reads or writes the bytes: not by another handle on the buffer or another slice of this one,
    /// nor by a handle of a client that vanished, nor by another mapping. That
    /// [`open_handles`](Handle::open_handles) is 1 says this of the handles of the moment.
    #[allow(clippy::mut_from_ref)]
    pub unsafe fn slice_mut<'a>(&'a self, handle: &'a Handle) -> &'a mut [u8] {
        let bytes = self.bytes(handle);
        std::slice::from_raw_parts_mut(bytes.as_ptr() as *mut u8, bytes.len())
    }
}

impl AsFd for Memory {
    fn as_fd(&self) -> BorrowedFd<'_> {
        self.file.as_fd()
    }
}

impl AsRawFd for Memory {
    fn as_raw_fd(&self) -> RawFd {
        self.file.as_raw_fd()
    }
}

impl Drop for Memory {
    fn drop(&mut self) {
        // SAFETY: nothing borrows it any more.
        unsafe { munmap(self.start.cast(), self.length) };
    }
}
