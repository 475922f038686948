//! The buffers of which handles are open. All handles pass through the bindings, which so can count
//! them. A collection's table is made when a call first needs it, or with a memory before the first Take.
use crate::account::Row;
use crate::cancel::Bell;
use crate::state::State;
use crate::words::*;
use std::collections::VecDeque;
use std::sync::atomic::{AtomicBool, Ordering};
use std::sync::Arc;

/// One who waits until at most so many handles of a buffer are open.
pub(crate) struct Idle {
    pub most: u32,
    pub owner: ClientId,
    pub then: IdleThen,
}

/// What is done then.
pub(crate) enum IdleThen {
    Call(Box<dyn FnOnce(Buffer) + Send>),
    /// The client's `pending` names the buffer.
    Tell,
    Wake(Arc<Awaited>),
}

/// What a thread waits for.
#[derive(Default)]
pub(crate) struct Awaited {
    pub is_so: AtomicBool,
    pub bell: Arc<Bell>,
}

/// A buffer.
#[derive(Default)]
pub(crate) struct Cell {
    /// The number of its handles, of either strength, of all clients and in parcels.
    pub open: u32,
    pub pages: Pages,
    pub idle: VecDeque<Idle>,
}

impl Cell {
    /// Takes the first one who waits out of the list if few enough handles are open; else it is the last
    /// one then.
    fn next_idle(&mut self) -> Option<Idle> {
        let first = self.idle.pop_front()?;
        if self.open <= first.most {
            return Some(first);
        }
        self.idle.push_back(first);
        None
    }
}

/// A collection.
pub(crate) struct Tree {
    /// The number of its handles.
    pub open: u64,
    /// The bytes of a buffer.
    pub size: u32,
    pub cells: Vec<Cell>,
}

impl State {
    /// The collection's table, which is made if it is not there; `None` if the collection is not
    /// allocated. It counts the handles that are open by then: those of all accounts, and those in
    /// parcels.
    pub fn tree(&mut self, id: CollectionId) -> Option<&mut Tree> {
        if !self.trees.contains_key(&id) {
            let (count, size) = self.core.given(id);
            if count == 0 {
                return None;
            }
            let cells = (0..count).map(|_| Cell::default()).collect();
            let mut tree = Tree { open: 0, size, cells };
            for held in self.core.held_of(id) {
                tree.cells[held.index as usize].pages =
                    Pages { start: held.start, count: held.pages };
            }
            for account in self.accounts.iter().flatten() {
                for row in &account.rows {
                    match row {
                        Row::Handle { buffer, .. } if buffer.collection == id => {
                            tree.cells[buffer.index as usize].open += 1;
                        }
                        _ => {}
                    }
                }
            }
            for (index, cell) in (0..).zip(&mut tree.cells) {
                for strength in [0, 1] {
                    cell.open += self.core.handles_in_parcels(id, index, strength);
                }
                tree.open += u64::from(cell.open);
            }
            self.trees.insert(id, tree);
        }
        self.trees.get_mut(&id)
    }

    /// The buffer of an open handle.
    pub fn cell(&mut self, buffer: Buffer) -> Option<&mut Cell> {
        self.tree(buffer.collection)?.cells.get_mut(buffer.index as usize)
    }

    /// Where the buffer's bytes are, if the service has a memory: the first page, and how many bytes.
    pub fn bytes_of(&self, buffer: Buffer) -> (u32, u32) {
        match self.trees.get(&buffer.collection) {
            Some(tree) if self.memory.is_some() => {
                (tree.cells[buffer.index as usize].pages.start, tree.size)
            }
            _ => (0, 0),
        }
    }

    /// Notes that a handle of this buffer was opened.
    pub fn opened(&mut self, buffer: Buffer) {
        if let Some(tree) = self.trees.get_mut(&buffer.collection) {
            tree.open += 1;
            tree.cells[buffer.index as usize].open += 1;
        }
    }

    /// Notes that a handle of this buffer was dropped.
    pub fn dropped(&mut self, buffer: Buffer) {
        let tree = match self.trees.get_mut(&buffer.collection) {
            Some(tree) => tree,
            None => return,
        };
        tree.open -= 1;
        let is_last = tree.open == 0;
        let cell = &mut tree.cells[buffer.index as usize];
        cell.open -= 1;
        if !cell.idle.is_empty() {
            self.tell_idle(buffer);
        }
        if is_last {
            self.trees.remove(&buffer.collection);
        }
    }

    /// Drops the table if no handle is open.
    pub fn forget_tree(&mut self, id: CollectionId) {
        if self.trees.get(&id).map_or(false, |tree| tree.open == 0) {
            self.trees.remove(&id);
        }
    }

    /// Tells those who wait for so few handles on this buffer.
    #[cold]
    pub fn tell_idle(&mut self, buffer: Buffer) {
        for _ in 0..self.cell(buffer).map_or(0, |cell| cell.idle.len()) {
            let next = self.cell(buffer).and_then(Cell::next_idle);
            match next.map(|idle| (idle.then, idle.owner)) {
                Some((IdleThen::Call(then), _)) => self.due.push(Box::new(move || then(buffer))),
                Some((IdleThen::Tell, owner)) => self.tell_of_idle(owner, buffer),
                Some((IdleThen::Wake(awaited), _)) => {
                    awaited.is_so.store(true, Ordering::Release);
                    awaited.bell.tell();
                }
                None => {}
            }
        }
    }
}
