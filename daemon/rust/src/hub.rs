//! What the values of one connection have in common.
use crate::link::Link;
use crate::sys;
use crate::words::{Descriptor, Pending};
use std::collections::BTreeMap;
use std::os::unix::io::AsFd;
use std::sync::atomic::{AtomicU64, Ordering};
use std::sync::{Arc, Mutex, MutexGuard, PoisonError, Weak};
use std::time::{Duration, Instant};

/// The deadline of their calls, and the descriptor that can be read as long as one of them has something to tell.
#[derive(Default)]
pub(crate) struct Hub {
    pub deadline: Option<Duration>,
    last: AtomicU64,
    watched: Mutex<Watched>,
}

#[derive(Default)]
struct Watched {
    /// By number.
    links: BTreeMap<u64, Weak<Link>>,
    /// An epoll of their sockets, and in it a descriptor that is lit for what calls have read.
    fds: Option<(Descriptor, Descriptor)>,
}

impl Hub {
    pub fn of(deadline: Option<Duration>) -> Arc<Hub> {
        Arc::new(Hub { deadline, ..Hub::default() })
    }

    fn lock(&self) -> MutexGuard<'_, Watched> {
        self.watched.lock().unwrap_or_else(PoisonError::into_inner)
    }

    /// When a call that begins now is over.
    pub fn until(&self) -> Instant {
        let most = Duration::from_secs(1 << 31);
        Instant::now() + self.deadline.map_or(most, |time| time.min(most))
    }

    /// A new link's number, from 1 on.
    pub fn number(&self) -> u64 {
        self.last.fetch_add(1, Ordering::Relaxed) + 1
    }

    pub fn add(&self, link: &Arc<Link>) {
        let mut watched = self.lock();
        watched.links.insert(link.number, Arc::downgrade(link));
        if let Some((epoll, _)) = &watched.fds {
            let _ = sys::watch(epoll.as_fd(), link.as_fd(), link.number, true);
        }
    }

    pub fn remove(&self, link: &Link) {
        let mut watched = self.lock();
        watched.links.remove(&link.number);
        if let Some((epoll, _)) = &watched.fds {
            let _ = sys::watch(epoll.as_fd(), link.as_fd(), link.number, false);
        }
    }

    /// Called under the lock of a link, as something came.
    pub fn light(&self) {
        if let Some((_, news)) = &self.lock().fds {
            news.light();
        }
    }

    pub fn fd(&self) -> std::io::Result<Descriptor> {
        let mut links = Vec::new(); // goes after the lock: the last value of a link may go with it
        let mut watched = self.lock();
        if let Some((epoll, _)) = &watched.fds {
            return Ok(epoll.clone());
        }
        let (epoll, news) = (Descriptor::from(sys::new_epoll()?), Descriptor::new()?);
        sys::watch(epoll.as_fd(), news.as_fd(), 0, true)?;
        news.light(); // what came before is to be told
        for link in watched.links.values().filter_map(Weak::upgrade) {
            sys::watch(epoll.as_fd(), link.as_fd(), link.number, true)?;
            links.push(link);
        }
        watched.fds = Some((epoll.clone(), news));
        Ok(epoll)
    }

    /// Reads what is there on all sockets, and answers what was not yet told.
    pub fn pending(&self) -> Pending {
        let mut told = Pending::default();
        let watched = self.lock();
        let ready = match &watched.fds {
            None => return told,
            Some((epoll, news)) => {
                news.dim(); // before the look, so that what comes meanwhile lights it again
                let mut ready = sys::readable(epoll.as_fd(), watched.links.len() + 1);
                ready.sort_unstable();
                ready
            }
        };
        let links: Vec<Arc<Link>> = watched.links.values().filter_map(Weak::upgrade).collect();
        drop(watched); // as above
        for link in links {
            let is_ready = ready.binary_search(&link.number).is_ok();
            let mut state = if is_ready { link.drain() } else { link.lock() };
            if std::mem::take(&mut state.is_news) {
                state.tell(link.subject, &mut told);
            }
            let (is_to_arm, is_over) = (state.is_to_arm, state.is_over());
            let is_to_unwatch = is_over && !std::mem::replace(&mut state.is_unwatched, is_over);
            drop(state);
            if is_to_unwatch {
                self.unwatch(&link); // it would be readable for ever
            }
            if is_to_arm {
                let _ = link.arm();
            }
        }
        told
    }

    fn unwatch(&self, link: &Link) {
        if let Some((epoll, _)) = &self.lock().fds {
            let _ = sys::watch(epoll.as_fd(), link.as_fd(), link.number, false);
        }
    }
}
