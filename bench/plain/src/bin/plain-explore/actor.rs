//! What an actor knows and holds, by the replies to its calls.
use crate::script::{labels_in, makes_tracker};
use plain_core::*;

#[derive(Clone, Copy, PartialEq)]
pub enum Object {
    End(NodeKey, CollectionId, Kind),
    Handle(BufferName, Strength),
}

#[derive(Clone)]
pub struct Leaving {
    pub calls: u64,
    pub waiting: u64,
    pub collected: Vec<Object>,
    pub parted: usize,
}

#[derive(Clone)]
pub struct Actor {
    pub client: ClientId,
    pub at: usize,
    pub nodes: Vec<(&'static str, NodeKey, CollectionId)>,
    pub trackers: Vec<(&'static str, TrackerId)>,
    pub objects: Vec<Option<Object>>,
    pub leaving: Option<Leaving>,
}

impl Actor {
    fn find_end(&self, label: &str, kind: Option<Kind>) -> Option<(usize, NodeKey)> {
        let (_, key, _) = *self.nodes.iter().find(|node| node.0 == label)?;
        // Of all ends of a node that the actor was given only the last can still be there.
        let slot = self.objects.iter().rposition(|object| matches!(object, Some(Object::End(other, ..)) if *other == key))?;
        match self.objects[slot] {
            Some(Object::End(_, _, is)) if kind.is_none_or(|kind| kind == is) => Some((slot, key)),
            _ => None,
        }
    }

    fn find_handle(&self, word: &str, strength: Strength) -> Option<(usize, BufferName)> {
        let (label, index) = word.split_once('.')?;
        let (_, _, collection) = *self.nodes.iter().find(|node| node.0 == label)?;
        let buffer = BufferName { collection, index: index.parse().ok()? };
        let slot = self.objects.iter().position(|object| *object == Some(Object::Handle(buffer, strength)))?;
        Some((slot, buffer))
    }

    /// The call of a step, and the slot of that on which it is made; `None` if the step is skipped.
    pub fn call(&self, actors: &[&'static str], ids: &[ClientId], words: &[&'static str]) -> Option<(Call, Option<usize>)> {
        let bound = *labels_in(words).last().map(|at| &words[*at]).unwrap_or(&"");
        let is_bound = match words[0] {
            "open" | "dup" | "attach" | "collect" => self.nodes.iter().any(|node| node.0 == bound),
            _ => makes_tracker(words) && self.trackers.iter().any(|tracker| tracker.0 == bound),
        };
        if is_bound {
            return None;
        }
        let number = |at: usize| words[at].parse::<u32>().unwrap();
        let client = |at: usize| ids[actors.iter().position(|other| *other == words[at]).unwrap()];
        let strength = |at: usize| if words[at] == "weak" { Strength::Weak } else { Strength::Strong };
        let on = |kind, make: &dyn Fn(NodeKey) -> Call| {
            self.find_end(words[1], kind).map(|(slot, key)| (make(key), Some(slot)))
        };
        let (token, collection) = (Some(Kind::Token), Some(Kind::Collection));
        let held = |strength, make: &dyn Fn(BufferName, Strength) -> Call| {
            self.find_handle(words[1], strength).map(|(slot, buffer)| (make(buffer, strength), Some(slot)))
        };
        match words[0] {
            "shut" => Some((Call::Shut, None)),
            "open" => Some((Call::OpenRoot, None)),
            "collect" => Some((Call::Collect, None)),
            "poll" => None,
            "dup" => on(token, &Call::Duplicate),
            "bind" => on(token, &Call::Bind),
            "dispensable" => on(token, &Call::SetDispensable),
            "attach" => on(collection, &Call::AttachToken),
            "constrain" => {
                let asks = Constraints::new(number(2), number(3), number(4)).unwrap();
                on(collection, &|key| Call::SetConstraints(key, asks))
            }
            "check" => on(collection, &Call::Check),
            "take" => on(collection, &Call::Take),
            "tracklife" => on(collection, &|key| Call::TrackLifetime(key, number(2))),
            "sync" => on(None, &Call::Sync),
            "give" => on(None, &|key| Call::Give(key, client(2))),
            "weak" => on(None, &Call::SetWeak),
            "weakok" => on(None, &|key| Call::SetWeakOk(key, words.len() > 2)),
            "release" => on(None, &Call::Release),
            "close" => on(None, &Call::Close),
            "tracknode" => on(None, &Call::TrackNode),
            "trackweak" => held(Strength::Weak, &|buffer, _| Call::TrackWeak(buffer)),
            "duph" => held(strength(2), &Call::DupHandle),
            "droph" => held(strength(2), &Call::DropHandle),
            "giveh" => held(strength(2), &|buffer, strength| Call::GiveHandle(buffer, strength, client(3))),
            other => panic!("no such word: {other}"),
        }
    }

    pub fn note(&mut self, words: &[&'static str], call: Call, slot: Option<usize>, reply: Reply) {
        let bound = *labels_in(words).last().map(|at| &words[*at]).unwrap_or(&"");
        let on = slot.and_then(|slot| self.objects[slot]);
        let spends = match call {
            Call::Release(_) => matches!(reply, Reply::Done | Reply::PeerClosed { .. }),
            Call::Close(_) | Call::Give(..) | Call::Bind(_) => reply == Reply::Done,
            Call::DropHandle(..) | Call::GiveHandle(..) => reply == Reply::Done,
            _ => false,
        };
        if spends {
            self.objects[slot.unwrap()] = None;
        }
        match reply {
            Reply::Token { key, collection } | Reply::Collected { key, collection, .. } => {
                self.nodes.push((bound, key, collection))
            }
            Reply::Tracker(id) => self.trackers.push((bound, id)),
            _ => {}
        }
        match (call, on) {
            (Call::Bind(_), Some(Object::End(key, collection, _))) if reply == Reply::Done => {
                self.objects.push(Some(Object::End(key, collection, Kind::Collection)))
            }
            (Call::DupHandle(..), Some(handle)) if reply == Reply::Done => self.objects.push(Some(handle)),
            _ => self.objects.extend(brought(reply).into_iter().map(Some)),
        }
    }

    /// All with which it parts as it leaves, in order.
    fn parts_with(&self, leaving: &Leaving) -> Vec<Object> {
        let is_end = |object: &&Object| matches!(object, Object::End(..));
        let own: Vec<_> = self.objects.iter().flatten().collect();
        let of = |kind| own.iter().filter(move |object| matches!(object, Object::End(_, _, is) if *is == kind));
        let mut all: Vec<_> = leaving.collected.iter().filter(is_end).collect();
        all.extend(of(Kind::Token).chain(of(Kind::Collection)));
        all.extend(leaving.collected.iter().filter(|object| !is_end(object)));
        all.extend(own.iter().filter(|object| !is_end(object)));
        all.into_iter().copied().collect()
    }

    pub fn leave_call(&self) -> Option<Call> {
        let Some(leaving) = &self.leaving else { return Some(Call::Shut) };
        if leaving.waiting > 0 {
            return Some(Call::Collect);
        }
        self.parts_with(leaving).get(leaving.parted).map(|object| match *object {
            Object::End(key, ..) => Call::Close(key),
            Object::Handle(buffer, strength) => Call::DropHandle(buffer, strength),
        })
    }

    pub fn note_leave(&mut self, reply: Reply) {
        match (&mut self.leaving, reply) {
            (None, Reply::Shut(waiting)) => {
                self.leaving = Some(Leaving { calls: 1, waiting, collected: Vec::new(), parted: 0 })
            }
            (Some(leaving), reply) => {
                leaving.calls += 1;
                if leaving.waiting > 0 {
                    leaving.waiting -= 1;
                    leaving.collected.extend(brought(reply));
                } else {
                    leaving.parted += 1;
                }
            }
            _ => panic!("a Shut is answered otherwise"),
        }
    }
}

/// What a reply brings.
fn brought(reply: Reply) -> Vec<Object> {
    match reply {
        Reply::Token { key, collection } => vec![Object::End(key, collection, Kind::Token)],
        Reply::Collected { key, kind, collection } => vec![Object::End(key, collection, kind)],
        Reply::CollectedHandle { buffer, strength } => vec![Object::Handle(buffer, strength)],
        Reply::Taken { collection, strength, set } => (0..64u8)
            .filter(|index| set >> index & 1 != 0)
            .map(|index| Object::Handle(BufferName { collection, index }, strength))
            .collect(),
        _ => Vec::new(),
    }
}
