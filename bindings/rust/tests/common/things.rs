//! What a client has that makes what calls it likes.
use std::sync::atomic::{AtomicU64, Ordering};
use std::time::Duration;
use sysmem::*;

/// How many callbacks ran.
pub static TOLD: AtomicU64 = AtomicU64::new(0);

/// How many callbacks of idle buffers ran.
pub static TOLD_IDLE: AtomicU64 = AtomicU64::new(0);

/// Pseudo-random numbers.
pub struct Dice(pub u64);

impl Dice {
    pub fn upto(&mut self, n: usize) -> usize {
        self.0 ^= self.0 << 13;
        self.0 ^= self.0 >> 7;
        self.0 ^= self.0 << 17;
        (self.0 % n as u64) as usize
    }

    pub fn take_out<T>(&mut self, all: &mut Vec<T>) -> Option<T> {
        if all.is_empty() {
            return None;
        }
        let place = self.upto(all.len());
        Some(all.swap_remove(place))
    }
}

/// Ends every wait at once.
fn over() -> Cancel {
    let cancel = Cancel::new();
    cancel.cancel();
    cancel
}

#[derive(Default)]
pub struct Things {
    tokens: Vec<Token>,
    collections: Vec<Collection>,
    handles: Vec<Handle>,
    pub trackers: u64,
    pub watched: u64,
}

impl Things {
    fn keep(&mut self, parcel: Parcel) {
        match parcel {
            Parcel::Token(token) => self.tokens.push(token),
            Parcel::Collection(collection) => self.collections.push(collection),
            Parcel::Handle(handle) => self.handles.push(handle),
        }
    }

    /// The handle that came last.
    #[allow(dead_code)]
    pub fn handle(&self) -> Option<&Handle> {
        self.handles.last()
    }

    /// Makes one call.
    pub fn step(&mut self, client: &Client, other: ClientId, dice: &mut Dice) -> Result<(), Error> {
        match dice.upto(22) {
            0 => self.tokens.push(client.open_root("root")?),
            1 | 2 => {
                let got = match dice.upto(4) {
                    0 => client.collect_for(Duration::from_micros(20))?.done(),
                    1 => client.collect_for(&over())?.done(),
                    _ => client.collect()?,
                };
                got.into_iter().for_each(|parcel| self.keep(parcel));
            }
            3 => {
                let child = self.tokens.last().map(|t| t.duplicate("child")).transpose()?;
                self.tokens.extend(child);
            }
            4 => dice.take_out(&mut self.tokens).map_or(Ok(()), |t| t.give(other))?,
            5 | 6 => {
                let bound = dice.take_out(&mut self.tokens).map(Token::bind).transpose()?;
                self.collections.extend(bound);
            }
            7 => {
                let token = self.collections.last().map(|c| c.attach_token("")).transpose()?;
                self.tokens.extend(token);
            }
            8..=10 => {
                let wanted = Constraints {
                    camping: dice.upto(3) as u8,
                    at_least: 0,
                    size: 1 + dice.upto(8192) as u32,
                };
                self.collections.last().map_or(Ok(()), |c| c.set_constraints(wanted))?;
            }
            11 => {
                let taken = self.collections.last().map(|c| c.take()).transpose()?.flatten();
                self.handles.extend(taken.into_iter().flatten());
            }
            12 => dice.take_out(&mut self.handles).map_or(Ok(()), |h| h.give(other))?,
            13 => {
                let more = self.handles.last().map(|h| h.duplicate()).transpose()?;
                self.handles.extend(more);
            }
            14 => drop(dice.take_out(&mut self.handles)),
            #[cfg(target_os = "linux")]
            16 => drop(client.fd()),
            17 => drop(client.pending()),
            18 => {
                if let Some(handle) = self.handles.last() {
                    handle.tell_idle(dice.upto(3) as u32)?;
                    handle.on_idle(dice.upto(3) as u32, |_| {
                        TOLD_IDLE.fetch_add(1, Ordering::SeqCst);
                    })?;
                    self.watched += 1;
                    handle.wait_idle(dice.upto(2) as u32, Duration::from_micros(20))?;
                    handle.wait_idle(dice.upto(2) as u32, &over())?;
                }
            }
            19 => {
                if let Some(collection) = self.collections.last() {
                    collection.waits_for()?;
                    collection.wait_allocated(&over())?;
                }
            }
            20 => {
                if let Some(handle) = self.handles.last() {
                    assert!(handle.open_handles()? > 0 && handle.pages()?.count > 0);
                }
            }
            15 => dice.take_out(&mut self.collections).map_or(Ok(()), |c| c.release())?,
            _ => {
                let collection = match self.collections.last() {
                    Some(collection) => collection,
                    None => return Ok(()),
                };
                collection.wait_allocated(Duration::from_micros(20))?;
                collection.track_node()?.on_fired(|_| {
                    TOLD.fetch_add(1, Ordering::SeqCst);
                });
                self.trackers += 1;
            }
        }
        Ok(())
    }
}
