//! Calls as numbers.
use crate::ffi::CallWords;
use crate::words::*;

pub(crate) use sysmem_words::numbers::{kind, reply};

pub(crate) fn of_key(kind: u32, key: Key) -> CallWords {
    CallWords { kind, slot: key.slot, generation: key.generation, ..Default::default() }
}

pub(crate) fn of_buffer(kind: u32, buffer: Buffer, strength: Strength) -> CallWords {
    let Buffer { collection, index } = buffer;
    CallWords { kind, collection, index, strength: strength as u32, ..Default::default() }
}

pub(crate) fn of_kind(kind: u32) -> CallWords {
    CallWords { kind, ..Default::default() }
}

/// Whether a call with this reply may cause an allocation or a failure.
pub(crate) fn may_change(kind: u32, told: u32) -> bool {
    use kind::*;
    told == reply::MISUSED
        || matches!(kind, SET_CONSTRAINTS | SET_WEAK | RELEASE | CLOSE | DROP_HANDLE)
}
