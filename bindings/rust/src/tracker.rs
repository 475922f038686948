//! Trackers.
use crate::state::{Shared, Watch};
use crate::{Event, Patience, TrackerId, Waited};
use std::fmt;
use std::sync::atomic::Ordering;
use std::sync::Arc;

/// A tracker, which fires once.
#[derive(Clone)]
pub struct Tracker {
    pub(crate) shared: Arc<Shared>,
    pub(crate) watch: Arc<Watch>,
    pub(crate) id: TrackerId,
}

impl Tracker {
    /// The tracker's number in the core.
    pub fn id(&self) -> TrackerId {
        self.id
    }

    /// The event at which the tracker fired. Takes no lock.
    pub fn poll(&self) -> Option<Event> {
        match self.watch.event.load(Ordering::Acquire) {
            0 => None,
            event => Some(event),
        }
    }

    /// Waits until the tracker fires.
    pub fn wait(&self) -> Event {
        self.wait_for(Patience::forever()).unwrap()
    }

    /// Waits until the tracker fires.
    pub fn wait_for<'a>(&self, time: impl Into<Patience<'a>>) -> Waited<Event> {
        let waiting = time.into().begin(&self.watch.bell);
        let is_so = |_: &mut _| self.poll().is_some();
        drop(self.shared.sleep(self.shared.raw(), &waiting, waiting.until, is_so));
        self.poll().map_or_else(|| waiting.none(), Waited::Done)
    }

    /// A file descriptor for `poll` or `epoll`, which becomes readable when the tracker fires. Each call
    /// answers a clone of one descriptor.
    #[cfg(target_os = "linux")]
    pub fn fd(&self) -> std::io::Result<crate::Descriptor> {
        let mut state = self.shared.raw();
        let mut fd = self.watch.fd.lock().unwrap_or_else(std::sync::PoisonError::into_inner);
        if let Some(fd) = &*fd {
            return Ok(fd.clone());
        }
        let made = crate::Descriptor::new()?;
        match state.waiting.get_mut(&self.id) {
            Some(waiter) => waiter.fd = Some(made.clone()),
            None => made.light(),
        }
        *fd = Some(made.clone());
        Ok(made)
    }

    /// Sets the callback, in place of an earlier one. It is called once, with the event, without
    /// the lock: in the thread whose call fires the tracker, or in this call if the tracker has
    /// fired. It stays when the `Tracker` is dropped. It should not panic, since it may run in a
    /// drop.
    pub fn on_fired(&self, then: impl FnOnce(Event) + Send + 'static) {
        let mut state = self.shared.raw();
        let earlier = match state.waiting.get_mut(&self.id) {
            Some(waiter) => waiter.then.replace(Box::new(then)),
            None => {
                drop(state);
                let event = self.poll().unwrap();
                let due: Box<dyn FnOnce()> = Box::new(move || then(event));
                return crate::callbacks::run(std::iter::once(due));
            }
        };
        drop(state);
        drop(earlier);
    }
}

impl fmt::Debug for Tracker {
    fn fmt(&self, f: &mut fmt::Formatter<'_>) -> fmt::Result {
        write!(f, "Tracker({})", self.id)
    }
}
