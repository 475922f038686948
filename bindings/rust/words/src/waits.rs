//! How long a wait lasts, how it ends, and what it answers.
use crate::Descriptor;
use std::fmt;
use std::sync::atomic::{AtomicBool, Ordering};
use std::sync::{Arc, Mutex, MutexGuard, PoisonError};
use std::time::{Duration, Instant};

/// The longest wait, short enough that an `Instant` can be so far off.
const FOREVER: Duration = Duration::from_secs(1 << 31);

/// Who is told that a wait was ended.
#[doc(hidden)]
pub trait Ring: Send + Sync {
    /// Wakes all who wait. What they look at is set by then.
    fn ring(&self);
}

/// Ends waits from another thread. Clones are the same.
#[derive(Clone, Default)]
pub struct Cancel(Arc<Ends>);

#[derive(Default)]
struct Ends {
    is_over: AtomicBool,
    waits: Mutex<Waits>,
}

#[derive(Default)]
struct Waits {
    bells: Vec<Arc<dyn Ring>>,
    fd: Option<Descriptor>,
}

impl Cancel {
    /// A value that has not ended anything.
    pub fn new() -> Cancel {
        Cancel::default()
    }

    /// Ends each wait that was given this value, and each that will be: it answers
    /// [`Waited::Cancelled`]. Takes no service's lock: a recorder may call it.
    pub fn cancel(&self) {
        let waits = self.waits();
        self.0.is_over.store(true, Ordering::SeqCst);
        waits.bells.iter().for_each(|bell| bell.ring());
        waits.fd.iter().for_each(Descriptor::light);
    }

    /// Whether `cancel` was called.
    pub fn is_cancelled(&self) -> bool {
        self.0.is_over.load(Ordering::SeqCst)
    }

    /// A file descriptor for `poll` or `epoll`, which becomes readable when `cancel` is called, and stays
    /// so. Each call answers a clone of one descriptor.
    #[cfg(target_os = "linux")]
    pub fn fd(&self) -> std::io::Result<Descriptor> {
        let mut waits = self.waits();
        if let Some(fd) = &waits.fd {
            return Ok(fd.clone());
        }
        let made = Descriptor::new()?;
        if self.is_cancelled() {
            made.light();
        }
        waits.fd = Some(made.clone());
        Ok(made)
    }

    /// A wait that this value can end, and that lasts so long at most.
    pub fn within(&self, time: Duration) -> Patience<'_> {
        Patience { time, cancel: Some(self) }
    }

    fn waits(&self) -> MutexGuard<'_, Waits> {
        self.0.waits.lock().unwrap_or_else(PoisonError::into_inner)
    }
}

impl fmt::Debug for Cancel {
    fn fmt(&self, f: &mut fmt::Formatter<'_>) -> fmt::Result {
        write!(f, "Cancel({})", self.is_cancelled())
    }
}

/// How long a wait lasts: a `Duration`, until a `&Cancel` ends it, or, by [`Cancel::within`], what comes
/// first.
#[derive(Clone, Copy, Debug)]
pub struct Patience<'a> {
    time: Duration,
    cancel: Option<&'a Cancel>,
}

impl From<Duration> for Patience<'_> {
    fn from(time: Duration) -> Self {
        Patience { time, cancel: None }
    }
}

impl<'a> From<&'a Cancel> for Patience<'a> {
    fn from(cancel: &'a Cancel) -> Self {
        Patience { time: FOREVER, cancel: Some(cancel) }
    }
}

impl<'a> Patience<'a> {
    /// As long as it takes.
    #[doc(hidden)]
    pub fn forever() -> Self {
        Patience::from(FOREVER)
    }

    /// Begins a wait for this, before the lock is taken.
    #[doc(hidden)]
    pub fn begin<B: Ring + 'static>(self, bell: &Arc<B>) -> Waiting<'a, B> {
        if let Some(cancel) = self.cancel {
            cancel.waits().bells.push(bell.clone());
        }
        let until = Instant::now() + self.time.min(FOREVER);
        Waiting { until, cancel: self.cancel, bell: bell.clone() }
    }
}

/// A wait. Who is told of its end, is told without the lock that it waits with.
#[doc(hidden)]
pub struct Waiting<'a, B: Ring + 'static> {
    /// When its time is over.
    pub until: Instant,
    cancel: Option<&'a Cancel>,
    /// Whom its [`Cancel`] tells.
    pub bell: Arc<B>,
}

impl<B: Ring> Waiting<'_, B> {
    /// What ends it, if there is something.
    pub fn cancel(&self) -> Option<&Cancel> {
        self.cancel
    }

    /// Whether it was ended.
    pub fn is_cancelled(&self) -> bool {
        self.cancel.map_or(false, Cancel::is_cancelled)
    }

    /// What a wait answers that is over without a value.
    pub fn none<T>(&self) -> Waited<T> {
        if self.is_cancelled() {
            Waited::Cancelled
        } else {
            Waited::TimeOver
        }
    }
}

impl<B: Ring> Drop for Waiting<'_, B> {
    fn drop(&mut self) {
        if let Some(cancel) = self.cancel {
            let bells = &mut cancel.waits().bells;
            let at = Arc::as_ptr(&self.bell) as *const ();
            let mine = bells.iter().position(|bell| Arc::as_ptr(bell) as *const () == at);
            mine.map(|place| bells.swap_remove(place));
        }
    }
}

/// What a wait answers.
#[derive(Clone, Copy, Debug, PartialEq, Eq, Hash)]
pub enum Waited<T> {
    /// What it waited for.
    Done(T),
    /// Its time was over first.
    TimeOver,
    /// A [`Cancel`] ended it first.
    Cancelled,
}

impl<T> Waited<T> {
    /// What it waited for, if that is there.
    pub fn done(self) -> Option<T> {
        match self {
            Waited::Done(value) => Some(value),
            Waited::TimeOver | Waited::Cancelled => None,
        }
    }

    /// Whether what it waited for is there.
    pub fn is_done(&self) -> bool {
        matches!(self, Waited::Done(_))
    }

    /// Whether a [`Cancel`] ended it first.
    pub fn is_cancelled(&self) -> bool {
        matches!(self, Waited::Cancelled)
    }

    /// What it waited for.
    ///
    /// # Panics
    /// If that is not there.
    #[track_caller]
    pub fn unwrap(self) -> T {
        match self {
            Waited::Done(value) => value,
            Waited::TimeOver => panic!("the time of a wait was over"),
            Waited::Cancelled => panic!("a wait was cancelled"),
        }
    }
}

impl<T> From<Waited<T>> for Option<T> {
    fn from(waited: Waited<T>) -> Option<T> {
        waited.done()
    }
}
