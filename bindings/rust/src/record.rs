//! A transcript of the events, in the language of `docs/SCRIPT.md`.
use crate::ffi::{CallWords, ReplyWords};
use crate::state::{kind, reply, Kept};
use crate::{Cause, ClientId, CollectionId, Event, Key, Misuse, Record, Refusal};
use std::collections::{HashMap, HashSet};

const VERBS: [&str; 23] = [
    "join",
    "shut",
    "open",
    "dup",
    "attach",
    "sync",
    "give",
    "collect",
    "bind",
    "dispensable",
    "weak",
    "weakok",
    "constrain",
    "check",
    "take",
    "release",
    "close",
    "duph",
    "droph",
    "giveh",
    "tracknode",
    "tracklife",
    "trackweak",
];

/// Writes the events of one core. A client or a node has the label that the program gave it, if
/// this is a label of the language, unique, and not of the form of generated labels: `c`, `n` or
/// `t` and the number of the event that made it. Otherwise it has a generated label. The labels of
/// clients, and the program's labels of nodes that were used, are kept; those of forgotten nodes are
/// dropped now and then.
pub(crate) struct Recorder {
    to: Record,
    event: Event,
    /// Whether everything that the line names has a label.
    is_known: bool,
    clients: HashMap<ClientId, String>,
    nodes: HashMap<Key, String>,
    roots: HashMap<CollectionId, String>,
    client_labels: HashSet<String>,
    node_labels: HashSet<String>,
    /// With so many nodes and roots it is time to forget those that the core forgot.
    most: usize,
}

impl Recorder {
    pub fn new(to: Record) -> Recorder {
        Recorder {
            to,
            event: 0,
            is_known: true,
            clients: HashMap::new(),
            nodes: HashMap::new(),
            roots: HashMap::new(),
            client_labels: HashSet::new(),
            node_labels: HashSet::new(),
            most: 4096,
        }
    }

    /// Whether it is time to forget the nodes that the core forgot.
    pub fn is_large(&self) -> bool {
        self.nodes.len() + self.roots.len() >= self.most
    }

    /// Forgets them.
    pub fn forget(&mut self, kept: Option<&Kept>) {
        if let Some(kept) = kept {
            self.nodes.retain(|key, _| kept.nodes.contains(key));
            self.roots.retain(|id, _| kept.collections.contains(id));
        }
        self.most = 4096 + 2 * (self.nodes.len() + self.roots.len());
    }

    /// Writes one event. `wanted` is the program's label for the client or node that it makes.
    pub fn note(&mut self, who: ClientId, call: &CallWords, told: &ReplyWords, wanted: &str) {
        self.event += 1;
        self.is_known = true;
        let (asked, made) = self.line(who, call, told, wanted);
        let answer = self.answer(told, &made);
        let (first, second) = if self.is_known { ("", "  ") } else { ("# ", "#   ") };
        (self.to)(&format!("{first}{asked}\n{second}{answer}\n"));
    }

    fn by_event(&self, kind: char) -> String {
        format!("{kind}{}", self.event)
    }

    /// The label of what this event makes, or would have made if it was refused.
    fn fresh(&self, kind: char, wanted: &str) -> String {
        let used = if kind == 'c' { &self.client_labels } else { &self.node_labels };
        let is_reserved = kind == 'c' && wanted == "show";
        if is_label(wanted) && !is_generated(wanted, kind) && !is_reserved && !used.contains(wanted)
        {
            wanted.to_string()
        } else {
            self.by_event(kind)
        }
    }

    fn known(&mut self, label: Option<String>) -> String {
        self.is_known &= label.is_some();
        label.unwrap_or_else(|| "?".to_string())
    }

    fn client(&mut self, id: ClientId) -> String {
        let label = self.clients.get(&id).cloned();
        self.known(label)
    }

    fn node(&mut self, slot: u32, generation: u32) -> String {
        let label = self.nodes.get(&Key { slot, generation }).cloned();
        self.known(label)
    }

    fn buffer(&mut self, collection: CollectionId, index: u8) -> String {
        let label = self.roots.get(&collection).cloned();
        format!("{}.{index}", self.known(label))
    }

    /// The line of the call. What the event makes gets its label here.
    fn line(
        &mut self,
        who: ClientId,
        call: &CallWords,
        told: &ReplyWords,
        wanted: &str,
    ) -> (String, String) {
        use kind::*;
        if call.kind == JOIN {
            let made = self.join(told, wanted);
            return (format!("{made} join"), made);
        }
        let mut text = format!("{} {}", self.client(who), VERBS[call.kind as usize]);
        let object = match call.kind {
            SHUT | OPEN_ROOT | COLLECT => None,
            DUP_HANDLE | DROP_HANDLE | GIVE_HANDLE | TRACK_WEAK => {
                Some(self.buffer(call.collection, call.index))
            }
            _ => Some(self.node(call.slot, call.generation)),
        };
        if let Some(object) = object {
            text = text + " " + &object;
        }
        let mut made = String::new();
        let more = match call.kind {
            GIVE => self.client(call.client),
            DUP_HANDLE | DROP_HANDLE => strength(call.strength).to_string(),
            GIVE_HANDLE => format!("{} {}", strength(call.strength), self.client(call.client)),
            SET_WEAK_OK if call.children != 0 => "children".to_string(),
            SET_CONSTRAINTS => format!("{} {} {}", call.camping, call.at_least, call.size),
            TRACK_LIFETIME => format!("{} {}", call.left, self.by_event('t')),
            TRACK_NODE | TRACK_WEAK => self.by_event('t'),
            COLLECT => self.by_event('n'),
            OPEN_ROOT | DUPLICATE | ATTACH_TOKEN => {
                made = self.birth(call.kind == OPEN_ROOT, told, wanted);
                made.clone()
            }
            _ => return (text, made),
        };
        (text + " " + &more, made)
    }

    /// The label of the client that joins.
    fn join(&mut self, told: &ReplyWords, wanted: &str) -> String {
        let made = self.fresh('c', wanted);
        if told.kind == reply::JOINED {
            if !is_generated(&made, 'c') {
                self.client_labels.insert(made.clone());
            }
            self.clients.insert(told.id, made.clone());
        }
        made
    }

    /// The label of the new node, or of the node that a refused call would have made.
    fn birth(&mut self, is_root: bool, told: &ReplyWords, wanted: &str) -> String {
        let made = self.fresh('n', wanted);
        if told.kind == reply::NEW_TOKEN {
            let key = Key { slot: told.slot, generation: told.generation };
            if !is_generated(&made, 'n') {
                self.node_labels.insert(made.clone());
            }
            self.nodes.insert(key, made.clone());
            if is_root {
                self.roots.insert(told.id, made.clone());
            }
        }
        made
    }

    fn answer(&mut self, told: &ReplyWords, made: &str) -> String {
        let detail = told.detail;
        match told.kind {
            reply::JOINED => "joined".to_string(),
            reply::IS_SHUT => format!("shut {}", told.id),
            reply::NEW_TOKEN => format!("token {made}"),
            reply::COLLECTED if detail == 0 => format!("token {}", self.by_event('n')),
            reply::COLLECTED => format!("collection {}", self.by_event('n')),
            reply::COLLECTED_HANDLE => {
                format!("handle {} {}", self.buffer(told.id, told.index), strength(detail))
            }
            reply::EMPTY => "empty".to_string(),
            reply::PENDING => "pending".to_string(),
            reply::ALLOCATED => format!("allocated {} {}", told.count, told.size),
            reply::TAKEN => {
                let mut text = format!("taken {}", strength(detail));
                for index in (0..64).filter(|i| told.set >> i & 1 == 1) {
                    text = text + " " + &self.buffer(told.id, index);
                }
                text
            }
            reply::TRACKER => format!("tracker {}", self.by_event('t')),
            reply::REFUSED => format!("refused {detail} {}", Refusal::of(detail)),
            reply::MISUSED => format!("misused {detail} {}", Misuse::of(detail)),
            reply::PEER_CLOSED => {
                format!("closed {} {}", Cause::of(detail), self.node(told.slot, told.generation))
            }
            _ => "done".to_string(),
        }
    }
}

fn strength(number: u32) -> &'static str {
    if number == 0 {
        "strong"
    } else {
        "weak"
    }
}

fn is_label(label: &str) -> bool {
    label.len() <= 16
        && label.starts_with(|c: char| c.is_ascii_lowercase())
        && label.bytes().all(|b| b.is_ascii_lowercase() || b.is_ascii_digit())
}

fn is_generated(label: &str, first: char) -> bool {
    let digits = label.strip_prefix(first).unwrap_or("");
    !digits.is_empty() && digits.bytes().all(|b| b.is_ascii_digit())
}
