//! `sysmem.h` in Rust, and the core as a value.
use std::ffi::c_void;
use std::ptr::null_mut;

#[repr(C)]
pub(crate) struct Handle {
    is_open: bool,
    core: *mut c_void,
}

#[repr(C)]
#[derive(Clone, Copy, Default)]
pub(crate) struct CallWords {
    pub kind: u32,
    pub slot: u32,
    pub generation: u32,
    pub strength: u32,
    pub collection: u64,
    pub client: u64,
    pub size: u32,
    pub left: u32,
    pub index: u8,
    pub camping: u8,
    pub at_least: u8,
    pub children: u8,
}

#[repr(C)]
#[derive(Clone, Copy, Debug, Default, PartialEq)]
pub(crate) struct ReplyWords {
    pub kind: u32,
    pub slot: u32,
    pub generation: u32,
    pub detail: u32,
    pub id: u64,
    pub set: u64,
    pub count: u32,
    pub size: u32,
    pub index: u8,
}

#[repr(C)]
#[derive(Clone, Copy, Default)]
pub(crate) struct KeyWords {
    pub slot: u32,
    pub generation: u32,
}

#[repr(C)]
#[derive(Clone, Copy, Default)]
pub(crate) struct HeldWords {
    pub collection: u64,
    pub index: u32,
    pub start: u32,
    pub pages: u32,
}

#[repr(C)]
#[derive(Clone, Copy, Default)]
pub(crate) struct FiredWords {
    pub tracker: u64,
    pub event: u64,
}

#[repr(C)]
#[derive(Clone, Copy, Default)]
pub(crate) struct NodeWords {
    pub key: KeyWords,
    pub parent: KeyWords,
    pub head: KeyWords,
    pub collection: u64,
    pub event: u64,
    pub holder: u64,
    pub flags: u32,
    pub cause: u32,
    pub origin: KeyWords,
    pub camping: u8,
    pub at_least: u8,
    pub size: u32,
}

pub(crate) use sysmem_words::numbers::flag;

// The library's sizes, as `tools/layout.c` has them; the order of the fields is the header's.
const _: () = {
    use std::mem::size_of;
    assert!(size_of::<Handle>() == 16);
    assert!(size_of::<CallWords>() == 48);
    assert!(size_of::<ReplyWords>() == 48);
    assert!(size_of::<KeyWords>() == 8);
    assert!(size_of::<HeldWords>() == 24);
    assert!(size_of::<FiredWords>() == 16);
    assert!(size_of::<NodeWords>() == 72);
};

type View<T> = unsafe extern "C" fn(*mut Handle, *mut T, usize, *mut u64) -> u32;

extern "C" {
    fn sysmem_open_seeded(
        handle: *mut Handle,
        pages: u32,
        events: u32,
        nodes: u32,
        collections: u32,
        trackers: u32,
        handles: u32,
        seed: *const u8,
    ) -> u32;
    fn sysmem_open_lasting(
        handle: *mut Handle,
        pages: u32,
        nodes: u32,
        collections: u32,
        trackers: u32,
        handles: u32,
        seed: *const u8,
    ) -> u32;
    fn sysmem_step(
        handle: *mut Handle,
        client: u64,
        asked: *const CallWords,
        told: *mut ReplyWords,
    ) -> u32;
    fn sysmem_live(handle: *mut Handle, out: *mut KeyWords, room: usize, count: *mut u64) -> u32;
    fn sysmem_held(handle: *mut Handle, out: *mut HeldWords, room: usize, count: *mut u64) -> u32;
    fn sysmem_fired_from(
        handle: *mut Handle,
        from: u64,
        out: *mut FiredWords,
        room: usize,
        count: *mut u64,
    ) -> u32;
    fn sysmem_is_live(handle: *mut Handle, key: *const KeyWords, live: *mut u32) -> u32;
    fn sysmem_cause(
        handle: *mut Handle,
        key: *const KeyWords,
        cause: *mut u32,
        origin: *mut KeyWords,
    ) -> u32;
    fn sysmem_free_pages(handle: *mut Handle, pages: *mut u32) -> u32;
    fn sysmem_events(handle: *mut Handle, events: *mut u64) -> u32;
    fn sysmem_remaining(handle: *mut Handle, events: *mut u64) -> u32;
    fn sysmem_forget_fired(handle: *mut Handle) -> u32;
    fn sysmem_nodes(handle: *mut Handle, out: *mut NodeWords, room: usize, count: *mut u64) -> u32;
    fn sysmem_node_of(
        handle: *mut Handle,
        key: *const KeyWords,
        is_kept: *mut u32,
        out: *mut NodeWords,
    ) -> u32;
    fn sysmem_held_of(
        handle: *mut Handle,
        collection: u64,
        out: *mut HeldWords,
        room: usize,
        count: *mut u64,
    ) -> u32;
    fn sysmem_given(handle: *mut Handle, collection: u64, count: *mut u32, size: *mut u32) -> u32;
    fn sysmem_open_handles(
        handle: *mut Handle,
        client: u64,
        collection: u64,
        index: u8,
        strength: u32,
        count: *mut u32,
    ) -> u32;
    fn sysmem_handles_in_parcels(
        handle: *mut Handle,
        collection: u64,
        index: u8,
        strength: u32,
        count: *mut u32,
    ) -> u32;
    #[cfg(test)]
    fn sysmem_name(about: u32, number: u32, out: *mut u8, room: usize, count: *mut u64) -> u32;
    fn sysmem_close(handle: *mut Handle) -> u32;
    fn sysmem_version() -> u32;
}

/// An open core. Each function takes `&mut self`, so that at most one call at a time is made on it.
pub(crate) struct Core {
    handle: Handle,
    /// Whether memory is refused to each call.
    #[cfg(test)]
    pub is_refusing: bool,
}

// SAFETY: it is proved of the library that its handle may move to another thread.
unsafe impl Send for Core {}

impl Core {
    pub fn open(
        pages: u32,
        events: Option<u32>,
        limits: [u32; 4],
        seed: Option<[u8; 16]>,
    ) -> Result<Core, u32> {
        let mut core = Core {
            handle: Handle { is_open: false, core: null_mut() },
            #[cfg(test)]
            is_refusing: false,
        };
        let [n, c, t, h] = limits;
        let seed = seed.unwrap_or([0; 16]);
        // SAFETY: the handle is of zeros, and a seed has 16 bytes.
        let code = unsafe {
            match events {
                Some(e) => {
                    sysmem_open_seeded(&mut core.handle, pages, e, n, c, t, h, seed.as_ptr())
                }
                None => sysmem_open_lasting(&mut core.handle, pages, n, c, t, h, seed.as_ptr()),
            }
        };
        if code == 0 {
            Ok(core)
        } else {
            Err(code)
        }
    }

    /// Makes a call, and writes its reply if the code is 0.
    #[inline]
    pub fn step(&mut self, client: u64, asked: &CallWords, told: &mut ReplyWords) -> u32 {
        #[cfg(test)]
        if self.is_refusing {
            return 6;
        }
        // SAFETY: the pointers are of this handle, this call and this reply.
        unsafe { sysmem_step(&mut self.handle, client, asked, told) }
    }

    pub fn live(&mut self) -> Result<Vec<KeyWords>, u32> {
        self.view(sysmem_live)
    }

    pub fn held(&mut self) -> Result<Vec<HeldWords>, u32> {
        self.view(sysmem_held)
    }

    fn view<T: Copy + Default>(&mut self, look: View<T>) -> Result<Vec<T>, u32> {
        let mut count = 0;
        let mut all = vec![T::default()];
        loop {
            // SAFETY: `out` has as many places as `room` says.
            match unsafe { look(&mut self.handle, all.as_mut_ptr(), all.len(), &mut count) } {
                0 if count as usize > all.len() => all.resize(count as usize, T::default()),
                0 => break,
                code => return Err(code),
            }
        }
        all.truncate(count as usize);
        Ok(all)
    }

    /// The firing at this place of the list, and the number of all firings.
    pub fn fired_at(&mut self, place: u64) -> (FiredWords, u64) {
        let (mut one, mut count) = (FiredWords::default(), 0);
        // SAFETY: `out` has one place.
        unsafe { sysmem_fired_from(&mut self.handle, place, &mut one, 1, &mut count) };
        (one, count)
    }

    pub fn is_live(&mut self, key: KeyWords) -> bool {
        let mut live = 0;
        // SAFETY: the pointers are of this handle, this key and this number.
        unsafe { sysmem_is_live(&mut self.handle, &key, &mut live) };
        live == 1
    }

    pub fn cause(&mut self, key: KeyWords) -> Option<(u32, KeyWords)> {
        let (mut cause, mut origin) = (0, KeyWords::default());
        // SAFETY: as above.
        let code = unsafe { sysmem_cause(&mut self.handle, &key, &mut cause, &mut origin) };
        (code == 0).then_some((cause, origin))
    }

    pub fn nodes(&mut self) -> Result<Vec<NodeWords>, u32> {
        self.view(sysmem_nodes)
    }

    /// The node, if it is kept. Takes no memory.
    pub fn node(&mut self, key: KeyWords) -> Option<NodeWords> {
        let (mut is_kept, mut node) = (0, NodeWords::default());
        // SAFETY: the pointers are of this handle, this key and these words.
        unsafe { sysmem_node_of(&mut self.handle, &key, &mut is_kept, &mut node) };
        (is_kept == 1).then_some(node)
    }

    /// The buffers of the collection that hold pages.
    pub fn held_of(&mut self, collection: u64) -> Vec<HeldWords> {
        let (mut all, mut count) = ([HeldWords::default(); 64], 0);
        // SAFETY: `out` has as many places as `room` says.
        unsafe { sysmem_held_of(&mut self.handle, collection, all.as_mut_ptr(), 64, &mut count) };
        all[..count as usize].to_vec()
    }

    /// The number of the collection's buffers, and the bytes of each; zeros if it is not allocated.
    pub fn given(&mut self, collection: u64) -> (u32, u32) {
        let (mut count, mut size) = (0, 0);
        // SAFETY: the pointers are of this handle and these numbers.
        unsafe { sysmem_given(&mut self.handle, collection, &mut count, &mut size) };
        (count, size)
    }

    pub fn open_handles(&mut self, client: u64, collection: u64, index: u8, strength: u32) -> u32 {
        let mut count = 0;
        // SAFETY: as above.
        unsafe {
            sysmem_open_handles(&mut self.handle, client, collection, index, strength, &mut count)
        };
        count
    }

    pub fn handles_in_parcels(&mut self, collection: u64, index: u8, strength: u32) -> u32 {
        let mut count = 0;
        // SAFETY: as above.
        unsafe {
            sysmem_handles_in_parcels(&mut self.handle, collection, index, strength, &mut count)
        };
        count
    }

    pub fn remaining(&mut self) -> u64 {
        let mut events = 0;
        // SAFETY: as above.
        unsafe { sysmem_remaining(&mut self.handle, &mut events) };
        events
    }

    /// False if memory was refused.
    pub fn forget_fired(&mut self) -> bool {
        // SAFETY: the pointer is of this handle.
        unsafe { sysmem_forget_fired(&mut self.handle) == 0 }
    }

    /// The firings after the first `from`.
    pub fn fired_from(&mut self, from: u64) -> Vec<FiredWords> {
        let count = self.fired_at(u64::MAX).1;
        let mut all = vec![FiredWords::default(); count.saturating_sub(from) as usize];
        let mut none = FiredWords::default();
        let out = if all.is_empty() { &mut none } else { all.as_mut_ptr() };
        // SAFETY: `out` has as many places as `room` says.
        unsafe { sysmem_fired_from(&mut self.handle, from, out, all.len(), &mut 0) };
        all
    }

    pub fn free_pages(&mut self) -> u32 {
        let mut pages = 0;
        // SAFETY: as above.
        unsafe { sysmem_free_pages(&mut self.handle, &mut pages) };
        pages
    }

    pub fn events(&mut self) -> u64 {
        let mut events = 0;
        // SAFETY: as above.
        unsafe { sysmem_events(&mut self.handle, &mut events) };
        events
    }
}

impl Drop for Core {
    fn drop(&mut self) {
        // SAFETY: the handle is this core's. A call on a handle that is not open is safe.
        unsafe { sysmem_close(&mut self.handle) };
    }
}

/// The library's version: 10,000 * major + 100 * minor + patch.
pub(crate) fn version() -> u32 {
    // SAFETY: it may always be called.
    unsafe { sysmem_version() }
}

#[cfg(test)]
mod tests {
    use crate::{Cause, Error, Misuse, Refusal};

    /// Whether the library has this name: of a code (`about` 0), a refusal (1), a misuse (2) or a cause (3).
    fn is_named(about: u32, number: u32, name: String) -> bool {
        let (mut text, mut count) = ([0; 33], 0);
        let out = text.as_mut_ptr();
        // SAFETY: `text` has as many bytes as `room` says.
        unsafe { super::sysmem_name(about, number, out, text.len(), &mut count) };
        text[..count as usize] == *name.as_bytes()
    }

    #[test]
    fn names_are_the_library_s() {
        assert!(Refusal::ALL.iter().all(|one| is_named(1, *one as u32, one.to_string())));
        assert!(Misuse::ALL.iter().all(|one| is_named(2, *one as u32, one.to_string())));
        assert!(Cause::ALL.iter().all(|one| is_named(3, *one as u32, one.to_string())));
        for (about, all) in [(1, 10), (2, 5), (3, 13)] {
            let named = (0..100).filter(|number| !is_named(about, *number, String::new()));
            assert_eq!(named.count(), all, "the library has more names");
        }
        assert!(is_named(0, 5, Error::HistoryFull.to_string()));
        assert!(is_named(0, 6, Error::NoMemory.to_string()));
    }
}
