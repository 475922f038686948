//! Trackers.
use crate::link::{Link, Subject};
use crate::wire::Request;
use crate::{Descriptor, Ending, Error, Event, Patience, TrackerId, Waited};
use std::os::unix::io::{AsFd, BorrowedFd};
use std::sync::Arc;

/// A tracker, which fires once. Clones share one socket.
#[derive(Clone, Debug)]
pub struct Tracker {
    link: Arc<Link>,
    id: TrackerId,
}

impl Tracker {
    /// Makes a tracker by this request over this socket.
    pub(crate) fn by(of: &Link, asked: Request) -> Result<Tracker, Error> {
        let mut told = of.ask(asked)?;
        let fd = told.fds.pop().ok_or(Error::Ended(Ending::WrongVersion))?;
        let id = told.id;
        Ok(Tracker { link: Link::new(fd, &of.hub, Subject::Tracker(id)), id })
    }

    pub(crate) fn of(link: Arc<Link>, id: TrackerId) -> Tracker {
        Tracker { link, id }
    }

    /// The tracker's number in the core.
    pub fn id(&self) -> TrackerId {
        self.id
    }

    /// The event at which the tracker fired. `None` also if the daemon went first.
    pub fn poll(&self) -> Option<Event> {
        Some(self.link.drain().fired).filter(|event| *event != 0)
    }

    /// Waits until the tracker fires. `Ended` if the daemon goes first.
    pub fn wait(&self) -> Result<Event, Error> {
        Ok(self.wait_for(Patience::forever())?.unwrap())
    }

    /// Waits until the tracker fires. `Ended` if the daemon goes first.
    pub fn wait_for<'a>(&self, time: impl Into<Patience<'a>>) -> Result<Waited<Event>, Error> {
        let waiting = time.into().begin(&self.link);
        let (state, is_so) = self.link.wait_for(&waiting, &mut |state| state.fired != 0);
        match (is_so, state.end) {
            (true, _) => Ok(Waited::Done(state.fired)),
            (false, Some(end)) => Err(Error::Ended(end)),
            (false, None) => {
                drop(state);
                Ok(waiting.none())
            }
        }
    }

    /// A file descriptor for `poll` or `epoll`, which becomes readable when the tracker fires, or when the
    /// daemon goes, and stays so.
    pub fn fd(&self) -> std::io::Result<Descriptor> {
        self.as_fd().try_clone_to_owned().map(Descriptor::from)
    }
}

/// Its socket, to be given to another process, which adopts it.
impl AsFd for Tracker {
    fn as_fd(&self) -> BorrowedFd<'_> {
        self.link.as_fd()
    }
}
