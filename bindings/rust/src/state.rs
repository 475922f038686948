//! The state behind the values: the core, its lock, and an account for each client.
use crate::account::{Account, Post, Row, Stage, NONE};
use crate::buffers::Tree;
use crate::callbacks::{run, Due};
use crate::calls::may_change;
pub(crate) use crate::calls::{kind, of_buffer, of_key, of_kind, reply};
use crate::cancel::{Bell, Waiting};
use crate::descriptors::News;
use crate::ffi::{flag, CallWords, Core, ReplyWords};
use crate::record::Recorder;
use crate::words::*;
use std::collections::{BTreeMap, HashMap, HashSet, VecDeque};
use std::ops::{Deref, DerefMut};
use std::panic::{catch_unwind, AssertUnwindSafe};
use std::sync::atomic::{AtomicU64, Ordering};
use std::sync::{Arc, Mutex, MutexGuard, PoisonError};
use std::time::{Duration, Instant};
use sysmem_words::Descriptor;

/// A tracker's firing.
#[derive(Default)]
pub(crate) struct Watch {
    pub event: AtomicU64,
    pub bell: Arc<Bell>,
    #[cfg(target_os = "linux")]
    pub fd: Mutex<Option<Descriptor>>,
}

pub(crate) type Then = Box<dyn FnOnce(Event) + Send>;

pub(crate) struct Waiter {
    pub watch: Arc<Watch>,
    pub owner: ClientId,
    pub then: Option<Then>,
    pub fd: Option<Descriptor>,
}

/// A thread that waits for a change of a collection.
pub(crate) struct Wait {
    pub collection: CollectionId,
    pub is_changed: bool,
    pub bell: Arc<Bell>,
}

/// The place of an account in the state's list.
pub(crate) type Place = usize;

pub(crate) struct State {
    pub core: Core,
    pub accounts: Vec<Option<Account>>,
    free_accounts: Vec<Place>,
    /// The clients that have not vanished, by id.
    pub clients: Vec<(ClientId, Place)>,
    pub waiting: BTreeMap<TrackerId, Waiter>,
    /// The number of firings passed on, of those that the core keeps.
    pub seen: u64,
    /// The number of firings that the core was told to forget.
    pub forgotten: u64,
    /// With fewer events left, the binding opens nothing more.
    margin: u64,
    /// The number of calls of drops that were refused for good.
    pub lost: u64,
    pub slow: Duration,
    /// The accounts with calls put off.
    late: Vec<Place>,
    pub labels: HashMap<Key, String>,
    /// The roots that were born with a label.
    pub roots: HashMap<CollectionId, Key>,
    /// The waiting threads, by numbers of their own.
    waits: BTreeMap<u64, Wait>,
    /// The sleeping threads, by numbers of their own.
    sleepers: BTreeMap<u64, Arc<Bell>>,
    pub trees: BTreeMap<CollectionId, Tree>,
    /// The ends of clients with a descriptor, by collection.
    pub seats: BTreeMap<CollectionId, Vec<(Place, u32)>>,
    /// Callbacks of buffers.
    pub due: Vec<Box<dyn FnOnce() + Send>>,
    #[cfg(target_os = "linux")]
    pub memory: Option<Arc<crate::Memory>>,
    #[cfg(not(target_os = "linux"))]
    pub memory: Option<()>,
    /// With `Options::transcript`.
    pub transcript: Arc<Mutex<String>>,
    recorder: Option<Recorder>,
    /// Whether there is a wait, a recorder, or an end of a client with a descriptor.
    pub is_watched: bool,
}

/// The nodes that are kept or that made a kept one fail, and the collections that have a kept node or a
/// buffer with pages.
pub(crate) struct Kept {
    pub nodes: HashSet<Key>,
    pub collections: HashSet<CollectionId>,
}

#[cfg(target_os = "linux")]
impl Drop for State {
    fn drop(&mut self) {
        if let Some(memory) = &self.memory {
            memory.is_used.store(false, Ordering::Release);
        }
    }
}

impl State {
    pub fn new(core: Core, record: Option<Record>) -> State {
        State {
            core,
            accounts: Vec::new(),
            free_accounts: Vec::new(),
            clients: Vec::new(),
            waiting: BTreeMap::new(),
            seen: 0,
            forgotten: 0,
            margin: 0,
            lost: 0,
            slow: Duration::from_secs(0),
            late: Vec::new(),
            labels: HashMap::new(),
            roots: HashMap::new(),
            waits: BTreeMap::new(),
            sleepers: BTreeMap::new(),
            trees: BTreeMap::new(),
            seats: BTreeMap::new(),
            due: Vec::new(),
            memory: None,
            transcript: Arc::default(),
            is_watched: record.is_some(),
            recorder: record.map(Recorder::new),
        }
    }

    /// Keeps the last events for those who let go.
    pub fn set_margin(&mut self, events: u32) {
        self.margin = u64::from((events / 2).min(1 << 20));
    }

    /// Whether only those who let go get an event any more.
    #[inline]
    pub fn is_short(&mut self) -> bool {
        self.margin > 0 && self.is_nearly_full()
    }

    /// An error if it is so. After a client vanished `ask` says so.
    #[inline]
    pub fn may_open(&mut self, owner: &Owner) -> Result<(), Error> {
        if self.is_short() && self.is_here(owner.place) {
            return Err(Error::HistoryFull);
        }
        Ok(())
    }

    #[cold]
    fn is_nearly_full(&mut self) -> bool {
        self.core.remaining() < self.margin
    }

    /// Makes one call, which may change this collection, and writes its reply if the code is 0.
    /// `wanted` is the program's label for the client or node that it makes.
    #[inline]
    fn step_named(
        &mut self,
        who: ClientId,
        call: &CallWords,
        collection: CollectionId,
        wanted: &str,
        told: &mut ReplyWords,
    ) -> u32 {
        let code = self.core.step(who, call, told);
        if self.is_watched && code == DONE {
            self.tell(who, call, collection, told, wanted);
        }
        code
    }

    /// Makes one call that gives something up.
    fn step(
        &mut self,
        who: ClientId,
        call: &CallWords,
        collection: CollectionId,
    ) -> Result<ReplyWords, u32> {
        let mut told = ReplyWords::default();
        match self.step_named(who, call, collection, "", &mut told) {
            DONE => Ok(told),
            code => Err(code),
        }
    }

    /// Wakes the threads that wait for a change of the event's collection, and records the event.
    #[cold]
    fn tell(
        &mut self,
        who: ClientId,
        call: &CallWords,
        collection: CollectionId,
        told: &ReplyWords,
        wanted: &str,
    ) {
        if may_change(call.kind, told.kind) {
            for wait in self.waits.values_mut().filter(|wait| wait.collection == collection) {
                wait.is_changed = true;
                wait.bell.tell();
            }
        }
        if may_change(call.kind, told.kind) {
            self.look(collection);
        }
        let recorder = match &mut self.recorder {
            Some(recorder) => recorder,
            None => return,
        };
        // What a recorder does is its own affair: where it panics, the transcript ends.
        if catch_unwind(AssertUnwindSafe(|| recorder.note(who, call, told, wanted))).is_err() {
            self.recorder = None;
            return self.see_who_watches();
        }
        if recorder.is_large() {
            let kept = self.find_kept();
            if let Some(recorder) = &mut self.recorder {
                recorder.forget(kept.as_ref());
            }
        }
    }

    pub fn see_who_watches(&mut self) {
        self.is_watched =
            self.recorder.is_some() || !self.waits.is_empty() || !self.seats.is_empty();
    }

    /// Makes one call. Answers the reply, or an error if it is no success.
    #[inline]
    pub fn ask_raw(
        &mut self,
        who: ClientId,
        call: &CallWords,
        collection: CollectionId,
        wanted: &str,
    ) -> Result<ReplyWords, Error> {
        let mut told = ReplyWords::default();
        match self.step_named(who, call, collection, wanted, &mut told) {
            DONE if told.kind < reply::REFUSED => Ok(told),
            code => Err(self.why(code, call, &told)),
        }
    }

    /// Makes one call as client 0.
    pub fn ask_anybody(&mut self, call: &CallWords, wanted: &str) -> Result<ReplyWords, Error> {
        self.ask_raw(0, call, 0, wanted)
    }

    /// Makes one call on a value of an account. Refuses it without an event if the client vanished.
    #[inline]
    pub fn ask(
        &mut self,
        owner: &Owner,
        call: &CallWords,
        collection: CollectionId,
    ) -> Result<ReplyWords, Error> {
        if !self.is_here(owner.place) {
            return Err(Error::Vanished);
        }
        self.ask_raw(owner.client, call, collection, "")
    }

    /// Does what `ask` does, with a label for the node that the call makes.
    pub fn ask_named(
        &mut self,
        owner: &Owner,
        call: &CallWords,
        wanted: &str,
    ) -> Result<ReplyWords, Error> {
        if !self.is_here(owner.place) {
            return Err(Error::Vanished);
        }
        self.ask_raw(owner.client, call, 0, wanted)
    }

    #[cold]
    fn why(&self, code: u32, call: &CallWords, told: &ReplyWords) -> Error {
        match told.kind {
            _ if code == BAD_CALL => {
                Error::BadCall(OutOfRange::of_constraints(call.camping, call.at_least, call.size))
            }
            _ if code != DONE => Error::of(code),
            reply::REFUSED => Error::Refused(Refusal::of(told.detail)),
            reply::MISUSED => Error::Misused(Misuse::of(told.detail)),
            _ => {
                let origin = Key { slot: told.slot, generation: told.generation };
                let label = self.labels.get(&origin).cloned();
                Error::PeerClosed { cause: Cause::of(told.detail), origin, label }
            }
        }
    }

    pub fn is_here(&mut self, place: Place) -> bool {
        self.account(place).stage == Stage::Here
    }

    /// At most 4,096 labels are kept. At that number those of nodes that are neither kept nor the origin
    /// of the failure of a kept one are dropped.
    pub fn set_label(&mut self, key: Key, label: &str) {
        if label.is_empty() {
            return;
        }
        if self.labels.len() >= 4096 && !self.labels.contains_key(&key) {
            if let Some(kept) = self.find_kept() {
                self.labels.retain(|key, _| kept.nodes.contains(key));
                self.roots.retain(|id, _| kept.collections.contains(id));
            }
        }
        self.labels.insert(key, label.to_string());
    }

    /// `None` if memory is refused.
    #[cold]
    fn find_kept(&mut self) -> Option<Kept> {
        let (all, held) = (self.core.nodes().ok()?, self.core.held().ok()?);
        let of_held = held.iter().map(|h| h.collection);
        let failed = all.iter().filter(|n| n.flags & flag::FAILED != 0).map(|n| n.origin);
        Some(Kept {
            nodes: all.iter().map(|n| n.key).chain(failed).map(Key::from).collect(),
            collections: all.iter().map(|n| n.collection).chain(of_held).collect(),
        })
    }

    /// The client's label, if it has one and has not vanished.
    pub fn client_label(&mut self, client: ClientId) -> Option<Arc<str>> {
        let at = self.clients.binary_search_by_key(&client, |one| one.0).ok()?;
        let label = &self.account(self.clients[at].1).label;
        Some(label.clone()).filter(|label| !label.is_empty())
    }

    /// Opens an account for a client that joined.
    pub fn open_account(&mut self, client: ClientId, label: &str) -> Place {
        let account = Account {
            client,
            label: label.into(),
            rows: Vec::new(),
            free: NONE,
            values: 1,
            parcels: 0,
            posted: VecDeque::new(),
            given: Arc::default(),
            stage: Stage::Here,
            is_late: false,
            news: News::default(),
        };
        let place = self.free_accounts.pop().unwrap_or_else(|| {
            self.accounts.push(None);
            self.accounts.len() - 1
        });
        self.accounts[place] = Some(account);
        self.clients.push((client, place));
        place
    }

    /// The account of an existing value.
    pub fn account(&mut self, place: Place) -> &mut Account {
        self.accounts[place].as_mut().expect("an account is there as long as a value of it")
    }

    /// Adds an end or a handle of the client, and answers its row.
    #[inline]
    pub fn add_end(&mut self, place: Place, key: Key, collection: CollectionId) -> u32 {
        let account = self.account(place);
        account.values += 1;
        let has_descriptor = account.news.fd.is_some();
        let row = account.add(Row::of_end(key, collection));
        if has_descriptor {
            self.sit(place, row);
        }
        row
    }

    pub fn add_handle(&mut self, place: Place, buffer: Buffer, strength: Strength) -> u32 {
        let account = self.account(place);
        account.values += 1;
        account.add(Row::of_handle(buffer, strength))
    }

    /// Frees the row.
    #[inline(always)]
    fn erase(&mut self, place: Place, row: u32) {
        let account = self.account(place);
        if account.news.fd.is_none() {
            return account.erase(row);
        }
        self.stand(place, row);
        self.account(place).erase(row);
    }

    /// Notes that the value in this row was given away, and that a parcel waits for the receiver.
    pub fn given(&mut self, place: Place, row: u32, to: ClientId) {
        let what = self.account(place).rows[row as usize].post();
        self.erase(place, row);
        self.leave(place);
        if let Ok(at) = self.clients.binary_search_by_key(&to, |client| client.0) {
            let place = self.clients[at].1;
            self.account(place).tell_of_parcel(what);
        }
    }

    /// The client in whose parcels the end waits, and its label.
    pub fn receiver_of(&mut self, node: Key) -> Option<(ClientId, Arc<str>)> {
        let of_client = |account: &&Account| account.stage == Stage::Here;
        let mut all = self.accounts.iter().flatten().filter(of_client);
        let receiver = all.find(|account| account.posted.contains(&Post::End(node)))?;
        Some((receiver.client, receiver.label.clone()))
    }

    /// What each client has to do with the buffer, by number. `sysmem_holders` does not tell whose parcels
    /// wait, takes memory, and looks at all clients that ever joined.
    pub fn holders(&mut self, buffer: Buffer) -> Vec<Holder> {
        let Buffer { collection, index } = buffer;
        let is_on_it = |post: &&Post| matches!(post, Post::Handle(of, _) if *of == buffer);
        let mut all = Vec::new();
        for account in self.accounts.iter().flatten() {
            let client = account.client;
            let mut open = |strength| self.core.open_handles(client, collection, index, strength);
            let (strong, weak) = (open(0), open(1));
            let parcels = account.posted.iter().filter(is_on_it).count() as u32;
            if strong + weak + parcels > 0 {
                let label = Some(account.label.to_string()).filter(|label| !label.is_empty());
                all.push(Holder { client, label, strong, weak, parcels });
            }
        }
        all.sort_by_key(|holder| holder.client);
        all
    }

    /// Notes that a value was used up or dropped.
    pub fn leave(&mut self, place: Place) {
        let account = self.account(place);
        account.values -= 1;
        if account.values == 0 && !account.is_late {
            self.accounts[place] = None;
            self.free_accounts.push(place);
        }
    }

    /// Gives up the end or handle in this row, whose value is dropped. If its client vanished,
    /// there is no event.
    pub fn part(&mut self, place: Place, row: u32) {
        if self.account(place).stage == Stage::Here && !self.give_up(place, row) {
            self.put_off_row(place, row);
        }
        self.leave(place);
    }

    /// Makes the call that gives up the end or handle in this row, and frees the row; false if memory is
    /// refused.
    #[inline(always)]
    fn give_up(&mut self, place: Place, at: u32) -> bool {
        let account = self.account(place);
        let (client, row) = (account.client, account.rows[at as usize]);
        let (call, collection) = match row.parting() {
            Some(parting) => parting,
            None => return true,
        };
        match (self.step(client, &call, collection), row) {
            (Err(NO_MEMORY), _) => return false,
            (Err(_), _) => self.lost += 1,
            (Ok(told), Row::Handle { buffer, .. })
                if told.kind < reply::REFUSED && !self.trees.is_empty() =>
            {
                self.dropped(buffer)
            }
            _ => {}
        }
        self.erase(place, at);
        true
    }

    /// Releases the end in this row. Its value is used up, whatever the answer.
    pub fn release(
        &mut self,
        owner: &Owner,
        row: u32,
        key: Key,
        collection: CollectionId,
    ) -> Result<(), Error> {
        let place = owner.place;
        let is_here = self.account(place).stage == Stage::Here;
        let answer = self.ask(owner, &of_key(kind::RELEASE, key), collection).map(|_| ());
        if is_here && answer == Err(Error::NoMemory) {
            if let Row::End { is_release, .. } = &mut self.account(place).rows[row as usize] {
                *is_release = true;
            }
            self.put_off_row(place, row);
        } else if is_here {
            self.lost += u64::from(answer == Err(Error::HistoryFull));
            self.erase(place, row);
        }
        self.leave(place);
        answer
    }

    #[cold]
    fn put_off_row(&mut self, place: Place, row: u32) {
        self.account(place).rows[row as usize].put_off();
        self.stand(place, row);
        self.put_off(place);
    }

    #[cold]
    fn put_off(&mut self, place: Place) {
        let account = self.account(place);
        if !account.is_late {
            account.is_late = true;
            self.late.push(place);
            self.sleepers.values().for_each(|bell| bell.tell()); // they try it again
        }
    }

    pub fn is_settled(&self) -> bool {
        self.late.is_empty() && self.lost == 0
    }

    /// Makes the calls that were put off, as far as memory allows.
    #[cold]
    fn catch_up(&mut self) {
        while let Some(&place) = self.late.last() {
            if !self.settle(place) {
                return;
            }
            self.late.pop();
            let account = self.account(place);
            account.is_late = false;
            if account.values == 0 {
                self.accounts[place] = None;
                self.free_accounts.push(place);
            }
        }
    }

    /// Makes the client vanish: it is shut, collects its parcels, closes its ends, the collected
    /// ones first, and drops its handles.
    pub fn vanish(&mut self, place: Place) {
        let account = self.account(place);
        account.stage = Stage::Leaving;
        let (client, is_late) = (account.client, account.is_late);
        self.clients.retain(|other| other.0 != client);
        self.stand_all(place);
        if is_late || !self.settle(place) {
            self.put_off(place);
        }
        self.leave(place);
    }

    /// Makes the calls that were put off for this client, and those of its vanishing. False if
    /// memory is refused: then it can be called again.
    fn settle(&mut self, place: Place) -> bool {
        let own = match self.collect_all(place) {
            Ok(own) => own,
            Err(is_done) => return is_done,
        };
        let is_here = self.account(place).stage == Stage::Here;
        let count = self.account(place).rows.len();
        for handles in [false, true] {
            for i in 0..count {
                let at = (own + i) % count;
                let row = self.account(place).rows[at];
                if matches!(row, Row::Handle { .. }) != handles || (is_here && !row.is_late()) {
                    continue;
                }
                if !self.give_up(place, at as u32) {
                    return false;
                }
            }
        }
        if !is_here {
            self.account(place).stage = Stage::Gone;
        }
        true
    }

    /// Shuts a client that vanishes, and collects its parcels. Answers how many rows it had at its
    /// Shut. On a fault, answers whether the vanishing is complete: it is not if memory was
    /// refused.
    fn collect_all(&mut self, place: Place) -> Result<usize, bool> {
        let Account { client, stage, .. } = *self.account(place);
        if stage == Stage::Here {
            return Ok(0);
        }
        if stage == Stage::Leaving {
            let told = self.step(client, &of_kind(kind::SHUT), 0);
            let told = told.map_err(|code| self.is_lost(code))?;
            let account = self.account(place);
            account.parcels = told.id;
            account.posted.clear();
            account.stage = Stage::Shut(account.rows.len());
        }
        while self.account(place).parcels > 0 {
            let told = self.step(client, &of_kind(kind::COLLECT), 0);
            let told = told.map_err(|code| self.is_lost(code))?;
            let account = self.account(place);
            account.parcels -= 1;
            match told.kind {
                reply::COLLECTED => {
                    let key = Key { slot: told.slot, generation: told.generation };
                    account.rows.push(Row::of_end(key, told.id));
                }
                reply::COLLECTED_HANDLE => {
                    let buffer = Buffer { collection: told.id, index: told.index };
                    let strength = Strength::of(told.detail);
                    account.rows.push(Row::of_handle(buffer, strength));
                }
                _ => {}
            }
        }
        match self.account(place).stage {
            Stage::Shut(own) => Ok(own),
            _ => Err(true),
        }
    }

    /// Whether the call of a drop was refused for good, and not for want of memory.
    #[cold]
    fn is_lost(&mut self, code: u32) -> bool {
        self.lost += u64::from(code != NO_MEMORY);
        code != NO_MEMORY
    }

    /// Adds a thread that waits for a change of a collection, and answers its number.
    pub fn wait(&mut self, wait: Wait) -> u64 {
        let number = self.waits.keys().last().map_or(0, |last| last + 1);
        self.waits.insert(number, wait);
        self.is_watched = true;
        number
    }

    pub fn waiter(&mut self, number: u64) -> &mut Wait {
        self.waits.get_mut(&number).expect("a wait is there until it ends")
    }

    pub fn end_wait(&mut self, number: u64) {
        self.waits.remove(&number);
        self.see_who_watches();
    }

    /// The callbacks of new firings, with their events. Wakes the threads that wait for them.
    fn take_fired(&mut self) -> Vec<(Then, Event)> {
        let mut ready = Vec::new();
        while !self.waiting.is_empty() {
            let (fired, count) = self.core.fired_at(self.seen);
            if self.seen >= count {
                break;
            }
            self.seen += 1;
            if let Some(Waiter { watch, owner, then, fd }) = self.waiting.remove(&fired.tracker) {
                watch.event.store(fired.event, Ordering::Release);
                watch.bell.tell();
                if let Some(fd) = fd {
                    fd.light();
                }
                self.tell_of_firing(owner, fired.tracker);
                ready.extend(then.map(|then| (then, fired.event)));
            }
        }
        if self.seen >= 4096 && self.core.forget_fired() {
            self.forgotten += std::mem::take(&mut self.seen);
        }
        ready
    }
}

const DONE: u32 = 0;
const BAD_CALL: u32 = 4;
const NO_MEMORY: u32 = 6;

/// The owner of a value.
#[derive(Clone)]
pub(crate) struct Owner {
    pub shared: Arc<Shared>,
    pub client: ClientId,
    pub place: Place,
}

pub(crate) struct Shared(pub Mutex<State>);

impl Shared {
    /// Sleeps until this is so, the time is over, or the wait is ended; whether this is so. Meanwhile calls
    /// that were put off are tried again, and callbacks that fall due by that run here. The lock is held,
    /// but not all the time.
    pub fn sleep<'a>(
        &'a self,
        mut state: MutexGuard<'a, State>,
        waiting: &Waiting<'_>,
        until: Instant,
        mut is_so: impl FnMut(&mut State) -> bool,
    ) -> (MutexGuard<'a, State>, bool) {
        let number = state.sleepers.keys().last().map_or(0, |last| last + 1);
        state.sleepers.insert(number, waiting.bell.clone());
        loop {
            let mut is_now = is_so(&mut state);
            if !is_now && !state.late.is_empty() {
                drop(state);
                drop(self.lock());
                state = self.raw();
                is_now = is_so(&mut state);
            }
            let left = until.saturating_duration_since(Instant::now());
            if is_now || waiting.is_cancelled() || left == Duration::from_secs(0) {
                state.sleepers.remove(&number);
                return (state, is_now);
            }
            let retry = Duration::from_millis(10);
            let time = if state.late.is_empty() { left } else { left.min(retry) };
            state = waiting.bell.wait(self, state, time, waiting);
        }
    }

    pub fn raw(&self) -> MutexGuard<'_, State> {
        self.0.lock().unwrap_or_else(PoisonError::into_inner)
    }

    pub fn lock(&self) -> Guard<'_> {
        let mut state = self.raw();
        if !state.late.is_empty() {
            state.catch_up();
        }
        Guard(Some(state))
    }
}

/// Holds the lock. Its drop wakes the threads that wait for a fired tracker, releases the lock, and
/// runs the callbacks.
pub(crate) struct Guard<'a>(Option<MutexGuard<'a, State>>);

impl Deref for Guard<'_> {
    type Target = State;
    fn deref(&self) -> &State {
        self.0.as_ref().unwrap()
    }
}

impl DerefMut for Guard<'_> {
    fn deref_mut(&mut self) -> &mut State {
        self.0.as_mut().unwrap()
    }
}

impl Guard<'_> {
    #[cold]
    fn tell(&mut self) {
        let idle = std::mem::take(&mut self.due);
        let ready = self.take_fired();
        self.0 = None;
        let fired = ready.into_iter().map(|(then, event)| Box::new(move || then(event)) as Due);
        run(idle.into_iter().map(|then| then as Due).chain(fired));
    }
}

impl Drop for Guard<'_> {
    fn drop(&mut self) {
        if !self.waiting.is_empty() || !self.due.is_empty() {
            self.tell();
        }
    }
}
