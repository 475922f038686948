//! Accounts: the ends and handles of a client.
use crate::calls::{kind, of_buffer, of_key};
use crate::cancel::Bell;
use crate::descriptors::News;
use crate::ffi::CallWords;
use crate::words::*;
use std::collections::VecDeque;
use std::sync::Arc;

/// An end or a handle that a client has, as the call that gives it up.
#[derive(Clone, Copy)]
pub(crate) enum Row {
    /// A free row, with the next free row.
    Free(u32),
    End {
        key: Key,
        collection: CollectionId,
        is_release: bool,
        is_late: bool,
        /// Of an end whose client has a descriptor: what happened to its node, and what was told.
        is: u8,
        told: u8,
        is_seated: bool,
    },
    Handle {
        buffer: Buffer,
        strength: Strength,
        is_late: bool,
    },
}

pub(crate) const NONE: u32 = u32::MAX;

/// An end or a handle in a parcel.
#[derive(Clone, Copy, PartialEq)]
pub(crate) enum Post {
    End(Key),
    Handle(Buffer, Strength),
}

impl Row {
    pub fn of_end(key: Key, collection: CollectionId) -> Row {
        let (is_release, is_late, is_seated) = (false, false, false);
        Row::End { key, collection, is_release, is_late, is: 0, told: 0, is_seated }
    }

    pub fn of_handle(buffer: Buffer, strength: Strength) -> Row {
        Row::Handle { buffer, strength, is_late: false }
    }

    /// The call and its collection.
    pub fn parting(&self) -> Option<(CallWords, CollectionId)> {
        match *self {
            Row::Free(_) => None,
            Row::End { key, collection, is_release, .. } => {
                let kind = if is_release { kind::RELEASE } else { kind::CLOSE };
                Some((of_key(kind, key), collection))
            }
            Row::Handle { buffer, strength, .. } => {
                Some((of_buffer(kind::DROP_HANDLE, buffer, strength), buffer.collection))
            }
        }
    }

    /// What a parcel has in which it is given away.
    pub fn post(&self) -> Option<Post> {
        match *self {
            Row::Free(_) => None,
            Row::End { key, .. } => Some(Post::End(key)),
            Row::Handle { buffer, strength, .. } => Some(Post::Handle(buffer, strength)),
        }
    }

    /// Whether its value is dropped, and the call was put off.
    pub fn is_late(&self) -> bool {
        matches!(self, Row::End { is_late: true, .. } | Row::Handle { is_late: true, .. })
    }

    pub fn put_off(&mut self) {
        if let Row::End { is_late, .. } | Row::Handle { is_late, .. } = self {
            *is_late = true;
        }
    }
}

/// The ends and handles of a client. An account lives as long as its `Client`, another value of the
/// client, or a call that was put off.
pub(crate) struct Account {
    pub client: ClientId,
    pub label: Arc<str>,
    pub rows: Vec<Row>,
    /// The first free row.
    pub free: u32,
    /// The number of values, the `Client` included.
    pub values: usize,
    /// The number of parcels that wait for the client.
    pub parcels: u64,
    /// What waits in them, the first first.
    pub posted: VecDeque<Post>,
    /// Rings at each parcel.
    pub given: Arc<Bell>,
    pub stage: Stage,
    /// Whether some call was put off.
    pub is_late: bool,
    pub news: News,
}

/// How far the vanishing of a client has come.
#[derive(Clone, Copy, PartialEq)]
pub(crate) enum Stage {
    Here,
    /// The client vanished, and its Shut is not made yet.
    Leaving,
    /// Its Shut is made; it had this many rows then, and `parcels` must be collected.
    Shut(usize),
    /// All calls of the vanishing are made.
    Gone,
}

impl Account {
    pub fn add(&mut self, row: Row) -> u32 {
        if self.free == NONE {
            self.rows.push(row);
            return self.rows.len() as u32 - 1;
        }
        let at = self.free;
        if let Row::Free(next) = std::mem::replace(&mut self.rows[at as usize], row) {
            self.free = next;
        }
        at
    }

    pub fn erase(&mut self, row: u32) {
        self.rows[row as usize] = Row::Free(self.free);
        self.free = row;
    }
}
