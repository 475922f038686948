//! Tokens and collections.
use crate::link::{Link, Subject};
use crate::wire::{op, request, Message, Request};
use crate::{
    give_over, list_of, Allocation, Back, CollectionId, Constraints, Ending, Error, Handle, Key, Patience, Strength,
    Tracker, Waited, Waits,
};
use std::marker::PhantomData;
use std::os::unix::io::{AsFd, BorrowedFd, OwnedFd};
use std::sync::Arc;
use sysmem_words::numbers::{kind, reply};

sysmem_words::ends!(Request);

/// The end of a node. Its drop closes the end without a release, unless another process has its descriptor too:
/// the node fails. The daemon makes the event a moment later.
#[derive(Debug)]
pub struct End<K: Kind> {
    link: Arc<Link>,
    key: Key,
    collection: CollectionId,
    kind: PhantomData<fn() -> K>,
}

impl<K: Kind> End<K> {
    pub(crate) fn of(of: &Link, fd: OwnedFd, key: Key, collection: CollectionId) -> End<K> {
        let link = Link::new(fd, &of.hub, Subject::Node(key));
        End { link, key, collection, kind: PhantomData }
    }

    /// The token that a request over this socket makes.
    pub(crate) fn born(of: &Link, op: u32, label: &str) -> Result<Token, Error> {
        of.has_room()?;
        let mut told = of.ask(Request::named(op, label))?;
        let fd = told.fds.pop().ok_or(Error::Ended(Ending::WrongVersion))?;
        Ok(End::of(of, fd, told.key, told.id))
    }

    /// Notes what an earlier holder may have read.
    pub(crate) fn was_told(self, told: &Message) -> Self {
        if told.count & 1 != 0 {
            let mut state = self.link.lock();
            state.is_allocated = true;
            self.link.tell(&mut state);
        }
        self
    }

    fn asks(&self, kind: u32) -> Request {
        request(kind)
    }

    fn make(&self, call: Request) -> Result<(), Error> {
        self.link.make(call)
    }

    fn track(&self, call: Request) -> Result<Tracker, Error> {
        Tracker::by(&self.link, call)
    }

    fn birth(&self, kind: u32, label: &str) -> Result<Token, Error> {
        Token::born(&self.link, kind, label)
    }

    /// Sends the end over this socket to who [collects](crate::Client::collect) there; waits while that is full, unless
    /// it is O_NONBLOCK. If that fails, the end comes back.
    pub fn give(self, to: impl AsFd) -> Result<(), Back<Self>> {
        give_over(&self.link, to.as_fd()).map_err(|error| Back { error, value: self })
    }

    /// The descriptor, which is the end from now on: [`Client::adopt`](crate::Client::adopt) makes a value of
    /// it, in any process.
    pub fn detach(self) -> Result<OwnedFd, Back<Self>> {
        let fd = self.as_fd().try_clone_to_owned();
        fd.map_err(|_| Back { error: Error::NoMemory, value: self })
    }

    /// Spends the end without a failure, whatever the answer. `PeerClosed`: the node had failed
    /// before. `NoMemory`: the daemon makes the release later.
    pub fn release(self) -> Result<(), Error> {
        self.make(request(kind::RELEASE))
    }
}

impl End<OfToken> {
    /// Turns the token into a collection. If that is refused, the token comes back.
    pub fn bind(self) -> Result<Collection, Back<Token>> {
        match self.make(request(kind::BIND)) {
            Ok(()) => {
                let End { link, key, collection, .. } = self;
                Ok(End { link, key, collection, kind: PhantomData })
            }
            Err(error) => Err(Back { error, value: self }),
        }
    }
}

impl End<OfCollection> {
    /// The allocation, or `None` if there is none yet.
    pub fn check(&self) -> Result<Option<Allocation>, Error> {
        let told = self.link.ask(request(kind::CHECK))?;
        let given = Allocation { count: told.count, size: told.size };
        Ok((told.kind != reply::PENDING).then_some(given))
    }

    /// Waits until it was told that the buffers are allocated or the node failed, and then makes one Check. No
    /// event if the wait ends first.
    pub fn wait_allocated<'a>(&self, time: impl Into<Patience<'a>>) -> Result<Waited<Allocation>, Error> {
        let waiting = time.into().begin(&self.link);
        let is_decided = |is_allocated, is_failed| is_allocated || is_failed;
        let (state, is_so) = self.link.wait_for(&waiting, &mut |state| is_decided(state.is_allocated, state.is_failed));
        let end = state.end;
        drop(state);
        match end {
            Some(end) => Err(Error::Ended(end)),
            None if is_so => Ok(self.check()?.map_or_else(|| waiting.none(), Waited::Done)),
            None => Ok(waiting.none()),
        }
    }

    /// The nodes that keep this node's allocation waiting: those of its unit, and of the pending units
    /// above it, that are neither gone nor released and have no constraints, by birth. None once the
    /// node's unit is allocated, or the node failed. Makes no event.
    pub fn waits_for(&self) -> Result<Vec<Waits>, Error> {
        let mut all = list_of(&self.link, op::WAITS_FOR)?;
        all.sort_by_key(|node| node.event);
        Ok(all.into_iter().map(Waits::from).collect())
    }

    /// Opens a handle on each buffer that something strong keeps; `None` if none is allocated yet.
    pub fn take(&self) -> Result<Option<Vec<Handle>>, Error> {
        let told = self.link.ask(request(kind::TAKE))?;
        if told.kind == reply::PENDING {
            return Ok(None);
        }
        let (set, id, size) = (told.set, told.id, told.size);
        let strength = Strength::of(told.detail);
        Handle::all(&self.link, told, set, strength, id, size).map(Some)
    }
}

/// Its socket. Whoever has a copy has the end.
impl<K: Kind> AsFd for End<K> {
    fn as_fd(&self) -> BorrowedFd<'_> {
        self.link.as_fd()
    }
}
