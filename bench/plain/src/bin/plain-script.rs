//! A plain reader of scripts over the plain core: what `sysmem run` is measured against.
//!
//!     plain-script PAGES < SCRIPT
#![forbid(unsafe_code)]

use plain_core::*;
use std::collections::HashMap;
use std::io::{Read, Write};
use std::process::ExitCode;

const LONGEST: usize = 256;
const ENOUGH: usize = 65_536;

/// The text, filled up with zeros.
type Label = u128;

fn label(word: &str) -> Option<Label> {
    let bytes = word.as_bytes();
    let good = (1..=16).contains(&bytes.len())
        && bytes[0].is_ascii_lowercase()
        && bytes.iter().all(|b| b.is_ascii_lowercase() || b.is_ascii_digit());
    good.then(|| {
        let mut filled = [0; 16];
        filled[..bytes.len()].copy_from_slice(bytes);
        u128::from_be_bytes(filled)
    })
}

fn number(word: &str) -> Option<u32> {
    let plain = word == "0" || !word.starts_with('0');
    (plain && word.bytes().all(|b| b.is_ascii_digit())).then(|| word.parse().ok())?
}

fn strength(word: &str) -> Option<Strength> {
    match word {
        "strong" => Some(Strength::Strong),
        "weak" => Some(Strength::Weak),
        _ => None,
    }
}

#[derive(Clone, Copy)]
enum Binds {
    Nothing,
    Client(Label),
    Node(Label),
    Tracker(Label),
}

struct Script {
    core: Core,
    clients: HashMap<Label, ClientId>,
    nodes: HashMap<Label, (NodeKey, CollectionId)>,
    trackers: HashMap<Label, TrackerId>,
    births: HashMap<NodeKey, Label>,
    roots: HashMap<CollectionId, Label>,
    tracked: HashMap<TrackerId, Label>,
    readers: HashMap<TrackerId, Tracker>,
    out: Vec<u8>,
}

impl Script {
    fn put(&mut self, text: &str) {
        self.out.extend_from_slice(text.as_bytes());
    }

    fn put_number(&mut self, number: impl std::fmt::Display) {
        let _ = write!(self.out, "{number}");
    }

    fn put_label(&mut self, label: Option<&Label>) {
        if let Some(label) = label {
            let bytes = label.to_be_bytes();
            self.out.extend(bytes.iter().take_while(|b| **b != 0));
        }
    }

    fn put_node(&mut self, node: NodeKey) {
        let label = self.births.get(&node).copied();
        self.put_label(label.as_ref());
    }

    fn put_buffer(&mut self, buffer: BufferName) {
        self.put(" ");
        let label = self.roots.get(&buffer.collection).copied();
        self.put_label(label.as_ref());
        self.put(".");
        self.put_number(buffer.index);
    }

    /// Answers a line; `None` where it is bad.
    fn answer(&mut self, line: &[u8]) -> Option<()> {
        if line.len() > LONGEST {
            return None;
        }
        if line.is_empty() || line[0] == b'#' {
            return Some(());
        }
        let mut words = std::str::from_utf8(line).ok()?.split(' ');
        let first = words.next()?;
        if first == "show" {
            let view = words.next()?;
            return if words.next().is_none() { self.show(view) } else { None };
        }
        let client = label(first)?;
        let verb = words.next()?;
        let (client, call, binds) = match (verb, words.next()) {
            ("join", None) if !self.clients.contains_key(&client) => (0, Call::Join, Binds::Client(client)),
            ("join", None) => return None,
            ("shut", None) => (*self.clients.get(&client)?, Call::Shut, Binds::Nothing),
            (_, None) => return None,
            (_, Some(what)) => {
                let rest = [words.next(), words.next(), words.next()];
                if rest[2].is_some() && (verb != "constrain" || words.next().is_some()) {
                    return None;
                }
                let client = *self.clients.get(&client)?;
                match (verb, rest) {
                    ("poll", [None, ..]) => return self.poll(*self.trackers.get(&label(what)?)?),
                    ("open", [None, ..]) => (client, Call::OpenRoot, self.new_node(what)?),
                    ("collect", [None, ..]) => (client, Call::Collect, self.new_node(what)?),
                    ("open" | "collect" | "poll", _) => return None,
                    ("constrain", _) => {
                        let [Some(camping), Some(least), Some(size)] = rest else { return None };
                        let asks = Constraints::new(number(camping)?, number(least)?, number(size)?)?;
                        (client, Call::SetConstraints(self.node(what)?, asks), Binds::Nothing)
                    }
                    _ if what.contains('.') => {
                        let (call, binds) = self.on_buffer(verb, what, rest)?;
                        (client, call, binds)
                    }
                    _ => {
                        let (call, binds) = self.on_node(verb, what, rest)?;
                        (client, call, binds)
                    }
                }
            }
        };
        let reply = self.core.step(client, call).ok()?;
        self.reply(binds, reply);
        Some(())
    }

    fn node(&self, word: &str) -> Option<NodeKey> {
        Some(self.nodes.get(&label(word)?)?.0)
    }

    fn new_node(&self, word: &str) -> Option<Binds> {
        let label = label(word)?;
        (!self.nodes.contains_key(&label)).then_some(Binds::Node(label))
    }

    fn new_tracker(&self, word: &str) -> Option<Binds> {
        let label = label(word)?;
        (!self.trackers.contains_key(&label)).then_some(Binds::Tracker(label))
    }

    fn on_node(&self, verb: &str, what: &str, rest: [Option<&str>; 3]) -> Option<(Call, Binds)> {
        let node = self.node(what)?;
        let plain = |call| Some((call, Binds::Nothing));
        match (verb, rest[0], rest[1]) {
            ("sync", None, _) => plain(Call::Sync(node)),
            ("bind", None, _) => plain(Call::Bind(node)),
            ("dispensable", None, _) => plain(Call::SetDispensable(node)),
            ("weak", None, _) => plain(Call::SetWeak(node)),
            ("weakok", None, _) => plain(Call::SetWeakOk(node, false)),
            ("weakok", Some("children"), None) => plain(Call::SetWeakOk(node, true)),
            ("check", None, _) => plain(Call::Check(node)),
            ("take", None, _) => plain(Call::Take(node)),
            ("release", None, _) => plain(Call::Release(node)),
            ("close", None, _) => plain(Call::Close(node)),
            ("dup", Some(child), None) => Some((Call::Duplicate(node), self.new_node(child)?)),
            ("attach", Some(child), None) => Some((Call::AttachToken(node), self.new_node(child)?)),
            ("give", Some(to), None) => plain(Call::Give(node, *self.clients.get(&label(to)?)?)),
            ("tracknode", Some(tracker), None) => Some((Call::TrackNode(node), self.new_tracker(tracker)?)),
            ("tracklife", Some(most), Some(tracker)) => {
                Some((Call::TrackLifetime(node, number(most)?), self.new_tracker(tracker)?))
            }
            _ => None,
        }
    }

    fn on_buffer(&self, verb: &str, what: &str, rest: [Option<&str>; 3]) -> Option<(Call, Binds)> {
        let (node, index) = what.split_once('.')?;
        let index = number(index).filter(|i| *i < 64)? as u8;
        let (_, collection) = *self.nodes.get(&label(node)?)?;
        let buffer = BufferName { collection, index };
        if verb == "trackweak" {
            return match rest {
                [Some(tracker), None, _] => Some((Call::TrackWeak(buffer), self.new_tracker(tracker)?)),
                _ => None,
            };
        }
        let strength = strength(rest[0]?)?;
        let call = match (verb, rest[1]) {
            ("duph", None) => Call::DupHandle(buffer, strength),
            ("droph", None) => Call::DropHandle(buffer, strength),
            ("giveh", Some(to)) => Call::GiveHandle(buffer, strength, *self.clients.get(&label(to)?)?),
            _ => return None,
        };
        Some((call, Binds::Nothing))
    }

    fn reply(&mut self, binds: Binds, reply: Reply) {
        match reply {
            Reply::Done => self.put("done"),
            Reply::Joined(client) => {
                self.put("joined");
                if let Binds::Client(label) = binds {
                    self.clients.insert(label, client);
                }
            }
            Reply::Shut(waiting) => {
                self.put("shut ");
                self.put_number(waiting);
            }
            Reply::Token { key, collection } => self.made("token ", binds, key, collection),
            Reply::Collected { key, kind: Kind::Token, collection } => self.made("token ", binds, key, collection),
            Reply::Collected { key, collection, .. } => self.made("collection ", binds, key, collection),
            Reply::CollectedHandle { buffer, strength } => {
                self.put("handle");
                self.put_buffer(buffer);
                self.put(" ");
                self.put(strength.word());
            }
            Reply::Empty => self.put("empty"),
            Reply::Pending => self.put("pending"),
            Reply::Allocated { count, size } => {
                self.put("allocated ");
                self.put_number(count);
                self.put(" ");
                self.put_number(size);
            }
            Reply::Taken { collection, strength, set } => {
                self.put("taken ");
                self.put(strength.word());
                for index in (0..64u8).filter(|i| set >> i & 1 == 1) {
                    self.put_buffer(BufferName { collection, index });
                }
            }
            Reply::Tracker(id) => {
                self.put("tracker ");
                if let Binds::Tracker(label) = binds {
                    self.put_label(Some(&label));
                    self.trackers.insert(label, id);
                    self.tracked.entry(id).or_insert(label);
                }
                if let Some(reader) = self.core.take_tracker(id) {
                    self.readers.insert(id, reader);
                }
            }
            Reply::Refused(refusal) => {
                self.put("refused ");
                self.put_number(refusal as u8);
                self.put(" ");
                self.put(refusal.name());
            }
            Reply::Misused(misuse) => {
                self.put("misused ");
                self.put_number(misuse as u8);
                self.put(" ");
                self.put(misuse.name());
            }
            Reply::PeerClosed { cause, origin } => {
                self.put("closed ");
                match cause {
                    Cause::Lost => self.put("lost"),
                    Cause::NoStrong => self.put("nostrong"),
                    Cause::Misused(misuse) => {
                        self.put("misused ");
                        self.put(misuse.name());
                    }
                    Cause::Failed(failure) => {
                        self.put("failed ");
                        self.put(failure.name());
                    }
                }
                self.put(" ");
                self.put_node(origin);
            }
        }
        self.put("\n");
    }

    fn made(&mut self, name: &str, binds: Binds, key: NodeKey, collection: CollectionId) {
        self.put(name);
        if let Binds::Node(label) = binds {
            self.put_label(Some(&label));
            self.nodes.insert(label, (key, collection));
            self.births.entry(key).or_insert(label);
            self.roots.entry(collection).or_insert(label);
        }
    }

    fn poll(&mut self, tracker: TrackerId) -> Option<()> {
        match self.readers.get_mut(&tracker).and_then(|reader| reader.poll()) {
            Some(fired) => {
                self.put("fired ");
                self.put_number(fired.event);
            }
            None => self.put("quiet"),
        }
        self.put("\n");
        Some(())
    }

    fn show(&mut self, view: &str) -> Option<()> {
        match view {
            "live" => {
                self.put(view);
                for node in self.core.live() {
                    self.put(" ");
                    self.put_node(node);
                }
            }
            "held" => {
                self.put(view);
                for held in self.core.held() {
                    self.put_buffer(held.buffer);
                    let _ = write!(self.out, " {} {}", held.start, held.pages);
                }
            }
            "fired" => {
                self.put(view);
                for fired in self.core.fired().to_vec() {
                    self.put(" ");
                    let label = self.tracked.get(&fired.tracker).copied();
                    self.put_label(label.as_ref());
                    let _ = write!(self.out, " {}", fired.event);
                }
            }
            "free" => {
                let free = self.core.free_pages();
                let _ = write!(self.out, "free {free}");
            }
            _ => return None,
        }
        self.put("\n");
        Some(())
    }
}

fn main() -> ExitCode {
    let pages = std::env::args().nth(1).and_then(|word| word.parse().ok()).unwrap_or(16);
    let mut bytes = Vec::new();
    if std::io::stdin().lock().read_to_end(&mut bytes).is_err() {
        return ExitCode::from(1);
    }
    let mut script = Script {
        core: Core::new(pages, Limits::full()),
        clients: HashMap::new(),
        nodes: HashMap::new(),
        trackers: HashMap::new(),
        births: HashMap::new(),
        roots: HashMap::new(),
        tracked: HashMap::new(),
        readers: HashMap::new(),
        out: Vec::new(),
    };
    let mut stdout = std::io::stdout().lock();
    let mut status = 0;
    for (number, line) in bytes.split_inclusive(|byte| *byte == b'\n').enumerate() {
        let whole = line.strip_suffix(b"\n");
        if whole.and_then(|line| script.answer(line)).is_none() {
            eprintln!("bad line {}", number + 1);
            status = 3;
            break;
        }
        if script.out.len() >= ENOUGH {
            if stdout.write_all(&script.out).is_err() {
                return ExitCode::from(1);
            }
            script.out.clear();
        }
    }
    if stdout.write_all(&script.out).is_err() {
        return ExitCode::from(1);
    }
    ExitCode::from(status)
}
