//! Handles.
use crate::link::{Link, Subject};
use crate::sys::Mapping;
use crate::wire::{op, request, Message};
use crate::{give_over, Back, Buffer, Ending, Error, Patience, Strength, Tracker, Waited};
use std::os::unix::io::{AsFd, BorrowedFd, OwnedFd};
use std::sync::atomic::AtomicU8;
use std::sync::Arc;
use sysmem_words::numbers::kind;

/// A handle, which keeps a buffer in use until the value is dropped, and until no other process has its
/// descriptor.
///
/// A buffer is a memory of its own, which [`bytes`](Handle::bytes) maps. *When its bytes may be read and written*
/// is for the participants to agree on: each of them can do both at any time, also a process that dropped its handle
/// and kept a mapping. So safe code sees atomic bytes: what is read is what some process wrote, and never undefined
/// behaviour. That [`wait_idle`](Handle::wait_idle)`(1, ..)` is done says that the others have dropped
/// their handles or are dead; the dead write no more, and what they wrote last may be torn.
///
/// *A stale mapping*, one that outlives its handle, sees this buffer for ever, and no other: the
/// memory of a buffer is never used again for a later one, and is given back with its last mapping.
#[derive(Debug)]
pub struct Handle {
    mapping: Mapping, // goes before the lease: who hears that the buffer is idle may write
    file: Option<OwnedFd>,
    link: Arc<Link>,
    buffer: Buffer,
    strength: Strength,
}

impl Handle {
    /// The handle of a lease, perhaps with its memory; `told` has the bytes of the buffer.
    pub(crate) fn of(link: Arc<Link>, file: Option<OwnedFd>, buffer: Buffer, strength: Strength, size: u32) -> Handle {
        Handle { mapping: Mapping::of(size as usize), file, link, buffer, strength }
    }

    /// The handles that a reply brings, of these buffers, whose collection it names.
    pub(crate) fn all(
        of: &Link,
        told: Message,
        set: u64,
        strength: Strength,
        collection: u64,
        size: u32,
    ) -> Result<Vec<Handle>, Error> {
        let mut fds = told.fds.into_iter();
        let mut handles = Vec::with_capacity(set.count_ones() as usize);
        for index in (0..64).filter(|index| set >> index & 1 == 1) {
            let buffer = Buffer { collection, index };
            match (fds.next(), fds.next()) {
                (Some(lease), file @ Some(_)) => {
                    let link = Link::new(lease, &of.hub, Subject::Buffer(buffer));
                    handles.push(Handle::of(link, file, buffer, strength, size));
                }
                _ => return Err(Error::Ended(Ending::WrongVersion)),
            }
        }
        Ok(handles)
    }

    /// The buffer of the handle.
    pub fn buffer(&self) -> Buffer {
        self.buffer
    }

    /// Whether the handle is strong, and so keeps the buffer alive, or weak.
    pub fn strength(&self) -> Strength {
        self.strength
    }

    /// Opens one more handle of this buffer and strength.
    pub fn duplicate(&self) -> Result<Handle, Error> {
        let told = self.link.ask(request(kind::DUP_HANDLE))?;
        let (Buffer { collection, index }, size) = (self.buffer, self.mapping.length() as u32);
        let mut one = Handle::all(&self.link, told, 1 << index, self.strength, collection, size)?;
        Ok(one.remove(0))
    }

    /// The buffer's bytes, as many as each buffer of the collection has, mapped at the first call.
    pub fn bytes(&self) -> Result<&[AtomicU8], Error> {
        let asked;
        let file = match &self.file {
            Some(file) => file.as_fd(),
            None => {
                asked = self.memory_fd()?;
                asked.as_fd()
            }
        };
        self.mapping.bytes(file).map_err(|_| Error::NoMemory)
    }

    /// The same bytes, to be read.
    ///
    /// # Safety
    /// As long as the slice is used, nobody writes the bytes: no process, by a handle or a mapping that it kept,
    /// nor a device.
    #[allow(unsafe_code)]
    pub unsafe fn slice(&self) -> Result<&[u8], Error> {
        let bytes = self.bytes()?;
        Ok(std::slice::from_raw_parts(bytes.as_ptr().cast(), bytes.len()))
    }

    /// The same bytes, to be written.
    ///
    /// # Safety
    /// As long as the slice is used, nobody else reads or writes the bytes: no process, by a handle or a mapping
    /// that it kept, nor a device, nor this one by another slice. That
    /// [`open_handles`](Handle::open_handles) is 1 says this of the handles of the moment.
    #[allow(clippy::mut_from_ref, unsafe_code)]
    pub unsafe fn slice_mut(&self) -> Result<&mut [u8], Error> {
        let bytes = self.bytes()?;
        Ok(std::slice::from_raw_parts_mut(bytes.as_ptr() as *mut u8, bytes.len()))
    }

    /// A descriptor of the buffer's memory, a sealed memfd, which can be mapped again, and given to a graphics or
    /// video API. It is no handle: it keeps the memory, and not the buffer in use.
    pub fn memory_fd(&self) -> Result<OwnedFd, Error> {
        if let Some(file) = &self.file {
            return file.as_fd().try_clone_to_owned().map_err(|_| Error::NoMemory);
        }
        let told = self.link.ask(request(op::MEMORY))?.fds.pop();
        told.ok_or(Error::Ended(Ending::WrongVersion))
    }

    /// How many handles of this buffer are open: of either strength, of all processes and under way, this one
    /// included. Makes no event.
    pub fn open_handles(&self) -> Result<u32, Error> {
        Ok(self.link.ask(request(op::OPEN_HANDLES))?.count)
    }

    /// Has the client's [`pending`](crate::Client::pending) name the buffer, once, as soon as at most
    /// `most` handles of it are open.
    pub fn tell_idle(&self, most: u32) -> Result<(), Error> {
        let number = self.link.add_idle(most, true);
        let armed = self.link.arm();
        if armed.is_err() {
            self.link.remove_idle(number);
        }
        armed
    }

    /// Waits until at most `most` handles of this buffer are open. Makes no event.
    pub fn wait_idle<'a>(&self, most: u32, time: impl Into<Patience<'a>>) -> Result<Waited<()>, Error> {
        let waiting = time.into().begin(&self.link);
        let number = self.link.add_idle(most, false);
        let is_told = loop {
            if let Err(error) = self.link.arm() {
                break Err(error);
            }
            let (state, is_so) = self.link.wait_for(&waiting, &mut |state| state.is_to_arm || state.is_idle(number));
            match (state.is_idle(number), state.end) {
                (true, _) => break Ok(true),
                (_, Some(end)) => break Err(Error::Ended(end)),
                _ if is_so => {}
                _ => break Ok(false),
            }
        };
        self.link.remove_idle(number);
        // What is so follows the reply, and may be under way.
        let is_so = is_told? || self.open_handles()? <= most;
        Ok(if is_so { Waited::Done(()) } else { waiting.none() })
    }

    /// Sends the handle over this socket to who [collects](crate::Client::collect) there. If that fails, the handle
    /// comes back.
    pub fn give(self, to: impl AsFd) -> Result<(), Back<Handle>> {
        give_over(&self.link, to.as_fd()).map_err(|error| Back { error, value: self })
    }

    /// The descriptor, which keeps the buffer in use from now on: [`Client::adopt`](crate::Client::adopt) makes a
    /// handle of it, in any process.
    pub fn detach(self) -> Result<OwnedFd, Back<Handle>> {
        let fd = self.as_fd().try_clone_to_owned();
        fd.map_err(|_| Back { error: Error::NoMemory, value: self })
    }

    /// Makes a tracker that fires once no strong handle and no strong node keeps the buffer.
    /// Refused unless this handle is weak.
    pub fn track_weak(&self) -> Result<Tracker, Error> {
        Tracker::by(&self.link, request(kind::TRACK_WEAK))
    }
}

/// Its lease, a socket. Whoever has a copy has the handle.
impl AsFd for Handle {
    fn as_fd(&self) -> BorrowedFd<'_> {
        self.link.as_fd()
    }
}
