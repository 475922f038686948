//! What the file descriptors of clients tell.
use crate::account::{Account, Post, Row};
use crate::ffi::flag;
use crate::state::{Place, State};
use crate::words::*;
use sysmem_words::Descriptor;

/// What happened to the node of an end, as bits.
const ALLOCATED: u8 = 1;
const FAILED: u8 = 2;

/// What a client's descriptor tells of.
#[derive(Default)]
pub(crate) struct News {
    pub fd: Option<Descriptor>,
    is_lit: bool,
    /// The number of rows with something to tell.
    nodes: usize,
    fired: Vec<TrackerId>,
    idle: Vec<Buffer>,
}

#[cfg(test)]
impl News {
    /// Whether there is more to tell than of nodes.
    pub fn has_more(&self) -> bool {
        !self.fired.is_empty() || !self.idle.is_empty()
    }
}

impl Account {
    fn light(&mut self) {
        match &self.news.fd {
            Some(fd) if !self.news.is_lit => {
                self.news.is_lit = true;
                fd.light();
            }
            _ => {}
        }
    }

    /// Makes the descriptor dark if there is nothing to tell.
    pub fn dim(&mut self) {
        let News { fd, is_lit, nodes, fired, idle } = &mut self.news;
        if !*is_lit || self.parcels > 0 || *nodes > 0 || !fired.is_empty() || !idle.is_empty() {
            return;
        }
        *is_lit = false;
        if let Some(fd) = fd {
            fd.dim();
        }
    }

    /// Notes that a parcel with this waits.
    pub fn tell_of_parcel(&mut self, what: Option<Post>) {
        self.parcels += 1;
        self.posted.extend(what);
        self.given.tell();
        self.light();
    }

    /// Takes what there is to tell.
    pub fn pending(&mut self) -> Pending {
        let mut told = Pending {
            parcels: self.parcels,
            fired: std::mem::take(&mut self.news.fired),
            idle: std::mem::take(&mut self.news.idle),
            ..Pending::default()
        };
        if self.news.nodes > 0 {
            for row in &mut self.rows {
                if let Row::End { key, is, told: known, is_seated: true, .. } = row {
                    let fresh = *is & !*known;
                    told.allocated.extend((fresh & ALLOCATED != 0).then_some(*key));
                    told.failed.extend((fresh & FAILED != 0).then_some(*key));
                    *known = *is;
                }
            }
            self.news.nodes = 0;
        }
        self.dim();
        told
    }
}

impl State {
    /// The account of a client that has not vanished.
    fn account_of(&mut self, client: ClientId) -> Option<&mut Account> {
        let at = self.clients.binary_search_by_key(&client, |one| one.0).ok()?;
        let place = self.clients[at].1;
        Some(self.account(place))
    }

    /// Gives the client this descriptor: it tells of its ends from now on.
    #[cfg(target_os = "linux")]
    pub fn watch(&mut self, place: Place, fd: Descriptor) {
        let account = self.account(place);
        account.news.fd = Some(fd);
        if account.parcels > 0 || !account.news.idle.is_empty() {
            account.light();
        }
        for row in 0..account.rows.len() {
            if matches!(self.account(place).rows[row], Row::End { is_late: false, .. }) {
                self.sit(place, row as u32);
            }
        }
    }

    /// Has the client's descriptor tell of the end in this row.
    #[cold]
    pub fn sit(&mut self, place: Place, row: u32) {
        if let Row::End { collection, is_seated, .. } = &mut self.account(place).rows[row as usize]
        {
            *is_seated = true;
            let collection = *collection;
            self.seats.entry(collection).or_default().push((place, row));
            self.is_watched = true;
            self.look(collection);
        }
    }

    /// Ends that: the end goes.
    #[cold]
    pub fn stand(&mut self, place: Place, row: u32) {
        let account = self.account(place);
        if let Row::End { collection, is, told, is_seated, .. } = &mut account.rows[row as usize] {
            if !std::mem::take(is_seated) {
                return;
            }
            account.news.nodes -= usize::from(is != told);
            let collection = *collection;
            account.dim();
            if let Some(seats) = self.seats.get_mut(&collection) {
                seats.retain(|seat| *seat != (place, row));
                if seats.is_empty() {
                    self.seats.remove(&collection);
                }
            }
            self.see_who_watches();
        }
    }

    /// Ends that for all ends of a client that vanishes.
    pub fn stand_all(&mut self, place: Place) {
        if self.account(place).news.fd.is_some() {
            for row in 0..self.account(place).rows.len() {
                self.stand(place, row as u32);
            }
        }
        self.account(place).news = News::default();
    }

    /// Lights the descriptors of the clients to whose nodes in this collection something happened.
    pub fn look(&mut self, collection: CollectionId) {
        let seats = match self.seats.get(&collection) {
            Some(seats) => seats,
            None => return,
        };
        for &(place, row) in seats {
            let account = match &mut self.accounts[place] {
                Some(account) => account,
                None => continue,
            };
            if let Row::End { key, is, told, .. } = &mut account.rows[row as usize] {
                let now = self.core.node((*key).into()).map_or(*is, |node| state_of(node.flags));
                if now == *is {
                    continue;
                }
                account.news.nodes += usize::from(is == told);
                *is = now;
                account.light();
            }
        }
    }

    /// Notes that a tracker of this client fired.
    pub fn tell_of_firing(&mut self, owner: ClientId, tracker: TrackerId) {
        if let Some(account) = self.account_of(owner) {
            if account.news.fd.is_some() {
                account.news.fired.push(tracker);
                account.light();
            }
        }
    }

    /// Notes that the client's `pending` is to name the buffer.
    pub fn tell_of_idle(&mut self, owner: ClientId, buffer: Buffer) {
        if let Some(account) = self.account_of(owner) {
            account.news.idle.push(buffer);
            account.light();
        }
    }
}

/// Whether the node's unit is allocated, or the node failed.
pub(crate) fn state_of(flags: u32) -> u8 {
    let allocated = if flags & flag::ALLOCATED != 0 { ALLOCATED } else { 0 };
    let failed = if flags & flag::FAILED != 0 { FAILED } else { 0 };
    allocated | failed
}
