//! Handles.
use crate::buffers::{Awaited, Cell, Idle, IdleThen};
use crate::ffi::CallWords;
use crate::state::{kind, of_buffer, Owner};
use crate::{Back, Buffer, ClientId, Error, Pages, Patience, Strength, Tracker, Waited};
use std::fmt;
use std::sync::atomic::Ordering;
use std::sync::Arc;

/// A handle, which keeps a buffer in use until the value is dropped.
pub struct Handle {
    pub(crate) owner: Owner,
    pub(crate) row: u32,
    pub(crate) buffer: Buffer,
    pub(crate) strength: Strength,
    /// Where its bytes are, if the service has a memory: the first page, and how many bytes.
    pub(crate) bytes: (u32, u32),
    pub(crate) is_here: bool,
}

impl Handle {
    /// The buffer of the handle.
    pub fn buffer(&self) -> Buffer {
        self.buffer
    }

    /// Whether the handle is strong, and so keeps the buffer alive, or weak.
    pub fn strength(&self) -> Strength {
        self.strength
    }

    /// The client that has the handle.
    pub fn client(&self) -> ClientId {
        self.owner.client
    }

    fn asks(&self, kind: u32) -> CallWords {
        of_buffer(kind, self.buffer, self.strength)
    }

    /// Opens one more handle of this buffer and strength.
    pub fn duplicate(&self) -> Result<Handle, Error> {
        let mut state = self.owner.shared.lock();
        state.may_open(&self.owner)?;
        state.ask(&self.owner, &self.asks(kind::DUP_HANDLE), 0)?;
        if !state.trees.is_empty() {
            state.opened(self.buffer);
        }
        Ok(self.owner.handle(&mut state, self.buffer, self.strength))
    }

    /// The buffer's pages in the pool. They are the buffer's as long as the handle is open.
    pub fn pages(&self) -> Result<Pages, Error> {
        self.with_cell(|cell| cell.pages)
    }

    /// How many handles of this buffer are open: of either strength, of all clients and in parcels, this
    /// one included. Makes no event.
    pub fn open_handles(&self) -> Result<u32, Error> {
        self.with_cell(|cell| cell.open)
    }

    fn with_cell<T>(&self, look: impl FnOnce(&mut Cell) -> T) -> Result<T, Error> {
        let mut state = self.owner.shared.lock();
        let is_open = state.is_here(self.owner.place);
        let cell = state.cell(self.buffer).filter(|_| is_open);
        cell.map(look).ok_or(Error::Vanished)
    }

    /// Where the bytes are in this memory; nowhere if the client has vanished, or if the service has
    /// another memory.
    #[cfg(target_os = "linux")]
    pub(crate) fn bytes_in(&self, memory: &crate::Memory) -> (u32, u32) {
        let mut state = self.owner.shared.raw();
        let is_its = state.memory.as_ref().map_or(false, |its| std::ptr::eq(&**its, memory));
        if is_its && state.is_here(self.owner.place) {
            self.bytes
        } else {
            (0, 0)
        }
    }

    /// Calls `then` once, as soon as at most `most` handles of this buffer are open: of either
    /// strength, of all clients and in parcels, this one included. At once if this is so now. It runs
    /// as a tracker's callback does, and stays when the handle is dropped or its client vanishes.
    ///
    /// Nobody is kept out after that: any client with a strong collection may take handles again.
    pub fn on_idle(
        &self,
        most: u32,
        then: impl FnOnce(Buffer) + Send + 'static,
    ) -> Result<(), Error> {
        self.when_idle(most, IdleThen::Call(Box::new(then)))
    }

    /// Has the client's [`pending`](crate::Client::pending) name the buffer, once, as soon as at most
    /// `most` handles of it are open.
    pub fn tell_idle(&self, most: u32) -> Result<(), Error> {
        self.when_idle(most, IdleThen::Tell)
    }

    fn when_idle(&self, most: u32, then: IdleThen) -> Result<(), Error> {
        let mut state = self.owner.shared.lock();
        let is_open = state.is_here(self.owner.place);
        let cell = state.cell(self.buffer).filter(|_| is_open);
        let cell = cell.ok_or(Error::Vanished)?;
        cell.idle.push_back(Idle { most, owner: self.owner.client, then });
        state.tell_idle(self.buffer);
        Ok(())
    }

    /// Waits until at most `most` handles of this buffer are open. Makes no event.
    pub fn wait_idle<'a>(
        &self,
        most: u32,
        time: impl Into<Patience<'a>>,
    ) -> Result<Waited<()>, Error> {
        let awaited = Arc::new(Awaited::default());
        let shared = &self.owner.shared;
        let waiting = time.into().begin(&awaited.bell);
        self.when_idle(most, IdleThen::Wake(awaited.clone()))?;
        let is_so = || awaited.is_so.load(Ordering::Acquire);
        let (mut state, is_told) = shared.sleep(shared.raw(), &waiting, waiting.until, |_| is_so());
        if !is_told {
            if let Some(cell) = state.cell(self.buffer) {
                let is_mine = |idle: &Idle| matches!(&idle.then, IdleThen::Wake(one) if Arc::ptr_eq(one, &awaited));
                cell.idle.retain(|idle| !is_mine(idle));
            }
        }
        Ok(if is_told { Waited::Done(()) } else { waiting.none() })
    }

    /// Puts the handle into a parcel for the client. If that is refused, the handle comes back.
    pub fn give(mut self, to: ClientId) -> Result<(), Back<Handle>> {
        match self.try_give(to) {
            Ok(()) => {
                self.is_here = false;
                Ok(())
            }
            Err(error) => Err(Back { error, value: self }),
        }
    }

    fn try_give(&self, to: ClientId) -> Result<(), Error> {
        let mut state = self.owner.shared.lock();
        let call = CallWords { client: to, ..self.asks(kind::GIVE_HANDLE) };
        state.ask(&self.owner, &call, 0)?;
        state.given(self.owner.place, self.row, to);
        Ok(())
    }

    /// Makes a tracker that fires once no strong handle and no strong node keeps the buffer.
    /// Refused unless the client has a weak handle on the buffer.
    pub fn track_weak(&self) -> Result<Tracker, Error> {
        self.owner.track(&self.asks(kind::TRACK_WEAK), self.buffer.collection)
    }
}

impl Drop for Handle {
    fn drop(&mut self) {
        if self.is_here {
            self.owner.shared.lock().part(self.owner.place, self.row);
        }
    }
}

impl fmt::Debug for Handle {
    fn fmt(&self, f: &mut fmt::Formatter<'_>) -> fmt::Result {
        write!(f, "Handle({:?}, {:?}, of client {})", self.buffer, self.strength, self.owner.client)
    }
}
