//! Tokens and collections.
use crate::descriptors::state_of;
use crate::ffi::{flag, CallWords};
use crate::state::{kind, of_key, reply, Owner, State, Wait};
use crate::{
    Allocation, Back, Buffer, ClientId, CollectionId, Constraints, Error, Handle, Key, Patience,
    Strength, Tracker, Waited, Waits,
};
use std::fmt;
use std::io::Write;
use std::marker::PhantomData;
use std::sync::Arc;
use std::time::{Duration, Instant};

sysmem_words::ends!(CallWords);

/// A client's end of a node. Its drop closes the end without a release: the node fails.
pub struct End<K: Kind> {
    pub(crate) owner: Owner,
    pub(crate) row: u32,
    pub(crate) key: Key,
    pub(crate) collection: CollectionId,
    pub(crate) is_here: bool,
    pub(crate) kind: PhantomData<fn() -> K>,
}

impl<K: Kind> End<K> {
    /// The client that holds the end.
    pub fn client(&self) -> ClientId {
        self.owner.client
    }

    fn asks(&self, kind: u32) -> CallWords {
        of_key(kind, self.key)
    }

    fn make(&self, call: CallWords) -> Result<(), Error> {
        self.owner.make(&call, self.collection)
    }

    fn track(&self, call: CallWords) -> Result<Tracker, Error> {
        self.owner.track(&call, self.collection)
    }

    fn birth(&self, kind: u32, label: &str) -> Result<Token, Error> {
        self.owner.birth(&self.asks(kind), label)
    }

    /// Puts the end into a parcel for the client. If that is refused, the end comes back.
    pub fn give(mut self, to: ClientId) -> Result<(), Back<Self>> {
        match self.try_give(to) {
            Ok(()) => {
                self.is_here = false;
                Ok(())
            }
            Err(error) => Err(Back { error, value: self }),
        }
    }

    fn try_give(&self, to: ClientId) -> Result<(), Error> {
        let mut state = self.owner.shared.lock();
        let call = CallWords { client: to, ..self.asks(kind::GIVE) };
        state.ask(&self.owner, &call, 0)?;
        state.given(self.owner.place, self.row, to);
        Ok(())
    }

    /// Spends the end without a failure, whatever the answer. `PeerClosed`: the node had failed
    /// before. `NoMemory`: the release is made before the next call of any thread.
    pub fn release(mut self) -> Result<(), Error> {
        self.is_here = false;
        let mut state = self.owner.shared.lock();
        state.release(&self.owner, self.row, self.key, self.collection)
    }
}

impl End<OfToken> {
    /// Turns the token into a collection. If that is refused, the token comes back.
    pub fn bind(mut self) -> Result<Collection, Back<Token>> {
        match self.make(self.asks(kind::BIND)) {
            Ok(()) => {
                self.is_here = false;
                let (row, key, collection) = (self.row, self.key, self.collection);
                let (owner, kind) = (self.owner.clone(), PhantomData);
                Ok(End { owner, row, key, collection, is_here: true, kind })
            }
            Err(error) => Err(Back { error, value: self }),
        }
    }
}

impl End<OfCollection> {
    /// The allocation, or `None` if there is none yet.
    pub fn check(&self) -> Result<Option<Allocation>, Error> {
        self.look(&mut self.owner.shared.lock())
    }

    fn look(&self, state: &mut State) -> Result<Option<Allocation>, Error> {
        let told = state.ask(&self.owner, &self.asks(kind::CHECK), self.collection)?;
        let given = Allocation { count: told.count, size: told.size };
        Ok((told.kind != reply::PENDING).then_some(given))
    }

    /// Waits until the buffers are allocated or the node failed, and then makes one Check. No event if the
    /// wait ends first.
    pub fn wait_allocated<'a>(
        &self,
        time: impl Into<Patience<'a>>,
    ) -> Result<Waited<Allocation>, Error> {
        let shared = &self.owner.shared;
        let bell = Arc::default();
        let waiting = time.into().begin(&bell);
        let mut state = shared.raw();
        let (slow, collection) = (state.slow, self.collection);
        let number = state.wait(Wait { collection, is_changed: true, bell });
        let mut is_so = false;
        let mut sleeps = |state, until| {
            shared.sleep(state, &waiting, until, |state| {
                if std::mem::take(&mut state.waiter(number).is_changed) {
                    is_so = self.is_decided(state);
                }
                is_so
            })
        };
        let first = Instant::now() + slow.min(Duration::from_secs(1 << 31));
        if slow > Duration::from_secs(0) && first < waiting.until {
            let mut slept = sleeps(state, first);
            if !slept.1 && !waiting.is_cancelled() {
                let line = self.slow_line(&mut slept.0);
                drop(slept);
                let _ = std::io::stderr().write_all(line.as_bytes());
                slept = sleeps(shared.raw(), waiting.until);
            }
            state = slept.0;
        } else {
            state = sleeps(state, waiting.until).0;
        }
        state.end_wait(number);
        drop(state);
        if !is_so {
            return Ok(waiting.none());
        }
        let told = self.look(&mut shared.lock())?;
        Ok(told.map_or_else(|| waiting.none(), Waited::Done))
    }

    /// Whether a Check would tell more than that nothing is allocated.
    fn is_decided(&self, state: &mut State) -> bool {
        let node = state.core.node(self.key.into());
        !state.is_here(self.owner.place) || node.map_or(true, |node| state_of(node.flags) != 0)
    }

    /// The nodes that keep this node's allocation waiting: those of its unit, and of the pending units
    /// above it, that are neither gone nor released and have no constraints, by birth. None once the
    /// node's unit is allocated, or the node failed. Makes no event.
    pub fn waits_for(&self) -> Result<Vec<Waits>, Error> {
        self.waits(&mut self.owner.shared.lock())
    }

    fn waits(&self, state: &mut State) -> Result<Vec<Waits>, Error> {
        if !state.is_here(self.owner.place) {
            return Err(Error::Vanished);
        }
        let kept = state.core.nodes().map_err(Error::of)?;
        let find = |key: Key| kept.iter().find(|n| Key::from(n.key) == key);
        let done = flag::GONE | flag::RELEASED | flag::CONSTRAINED;
        let mut all = Vec::new();
        let mut at = find(self.key);
        while let Some(node) = at.filter(|node| state_of(node.flags) == 0) {
            let head = Key::from(node.head);
            for n in kept.iter().filter(|n| n.collection == self.collection) {
                if Key::from(n.head) == head && n.flags & done == 0 {
                    let node = Key::from(n.key);
                    let is_in_parcel = n.flags & flag::IN_TRANSIT != 0;
                    let receiver = is_in_parcel.then(|| state.receiver_of(node)).flatten();
                    all.push(Waits {
                        node,
                        label: state.labels.get(&node).cloned(),
                        holder: n.holder,
                        holder_label: state.client_label(n.holder).map(|l| l.to_string()),
                        is_bound: n.flags & flag::BOUND != 0,
                        is_in_parcel,
                        event: n.event,
                        receiver: receiver.as_ref().map(|to| to.0),
                        receiver_label: receiver
                            .map(|to| to.1.to_string())
                            .filter(|label| !label.is_empty()),
                    });
                }
            }
            let above =
                find(head).map(|head| Key::from(head.parent)).filter(|above| *above != head);
            at = above.and_then(find);
        }
        all.sort_by_key(|waits| waits.event);
        Ok(all)
    }

    #[cold]
    fn slow_line(&self, state: &mut State) -> String {
        let own = state.account(self.owner.place).label.to_string();
        let own = if own.is_empty() { format!("client {}", self.owner.client) } else { own };
        let mine = state.labels.get(&self.key).cloned().unwrap_or_else(|| self.key.to_string());
        let mut line = format!("sysmem: {own} waits for the allocation of {mine}");
        for (place, one) in self.waits(state).unwrap_or_default().into_iter().enumerate() {
            line += if place == 0 { ": no constraints from " } else { ", " };
            line += &one.to_string();
        }
        line + "\n"
    }

    /// Opens a handle on each buffer that something strong keeps; `None` if none is allocated yet.
    pub fn take(&self) -> Result<Option<Vec<Handle>>, Error> {
        let mut state = self.owner.shared.lock();
        state.may_open(&self.owner)?;
        if state.memory.is_some() {
            state.tree(self.collection);
        }
        let told = state.ask(&self.owner, &self.asks(kind::TAKE), self.collection);
        let mut taken = None;
        if let Ok(told) = &told {
            if told.kind != reply::PENDING {
                let mut handles = Vec::with_capacity(told.set.count_ones() as usize);
                let mut left = told.set;
                while left != 0 {
                    let index = left.trailing_zeros() as u8;
                    let buffer = Buffer { collection: told.id, index };
                    state.opened(buffer);
                    let strength = Strength::of(told.detail);
                    handles.push(self.owner.handle(&mut state, buffer, strength));
                    left &= left - 1;
                }
                taken = Some(handles);
            }
        }
        state.forget_tree(self.collection);
        told.map(|_| taken)
    }
}

impl<K: Kind> Drop for End<K> {
    fn drop(&mut self) {
        if self.is_here {
            self.owner.shared.lock().part(self.owner.place, self.row);
        }
    }
}

impl<K: Kind> fmt::Debug for End<K> {
    fn fmt(&self, f: &mut fmt::Formatter<'_>) -> fmt::Result {
        write!(f, "End({} of client {})", self.key, self.owner.client)
    }
}
