//! What threads wait for.
use crate::state::{Shared, State};
use std::sync::atomic::{AtomicUsize, Ordering};
use std::sync::{Condvar, Mutex, MutexGuard, PoisonError};
use std::time::Duration;
use sysmem_words::Ring;

/// A wait of a thread. It ends after the lock is released.
pub(crate) type Waiting<'a> = sysmem_words::Waiting<'a, Bell>;

/// What threads wait for. A thread that waits has a service's lock, and gives it up while it sleeps, when it
/// holds the bell's own. So that who wakes it need not have the service's lock, nor be without it.
#[derive(Debug, Default)]
pub(crate) struct Bell {
    own: Mutex<()>,
    rung: Condvar,
    /// Changes under the service's lock.
    waiting: AtomicUsize,
}

impl Ring for Bell {
    fn ring(&self) {
        drop(self.lock()); // they sleep by now, or have not looked yet
        self.rung.notify_all();
    }
}

impl Bell {
    /// Wakes all who wait. Called under the service's lock.
    pub fn tell(&self) {
        if self.waiting.load(Ordering::Relaxed) > 0 {
            self.ring();
        }
    }

    /// Sleeps until it rings, or so long at most; not at all if the wait is over.
    pub fn wait<'a>(
        &self,
        shared: &'a Shared,
        state: MutexGuard<'a, State>,
        time: Duration,
        waiting: &Waiting<'_>,
    ) -> MutexGuard<'a, State> {
        let own = self.lock();
        if waiting.is_cancelled() {
            return state;
        }
        self.waiting.fetch_add(1, Ordering::Relaxed);
        drop(state);
        drop(self.rung.wait_timeout(own, time).unwrap_or_else(PoisonError::into_inner));
        let state = shared.raw();
        self.waiting.fetch_sub(1, Ordering::Relaxed);
        state
    }

    fn lock(&self) -> MutexGuard<'_, ()> {
        self.own.lock().unwrap_or_else(PoisonError::into_inner)
    }
}
