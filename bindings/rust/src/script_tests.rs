//! The scripts of `examples`, played through the values, with the answers beside them. Where a client
//! has no such value, as another's end or one that it gave away, the call is made by number.
use crate::ends::Kind;
use crate::ffi::CallWords;
use crate::state::{kind, of_buffer, of_key};
use crate::*;
use std::collections::HashMap;
use std::path::{Path, PathBuf};

struct Player {
    service: Service,
    clients: HashMap<String, Client>,
    /// Of each label of a node: its key and its collection.
    nodes: HashMap<String, (Key, CollectionId)>,
    trackers: HashMap<String, Tracker>,
    born: HashMap<Key, String>,
    roots: HashMap<CollectionId, String>,
    tokens: Vec<Token>,
    collections: Vec<Collection>,
    handles: Vec<Handle>,
}

fn take_end<K: Kind>(all: &mut Vec<End<K>>, key: Key, who: ClientId) -> Option<End<K>> {
    let place = all.iter().position(|end| end.key == key && end.client() == who)?;
    Some(all.swap_remove(place))
}

fn strength(word: &str) -> Strength {
    if word == "strong" {
        Strength::Strong
    } else {
        Strength::Weak
    }
}

fn text_of(strength: Strength) -> &'static str {
    if strength == Strength::Strong {
        "strong"
    } else {
        "weak"
    }
}

fn kind_of(verb: &str) -> u32 {
    match verb {
        "sync" => kind::SYNC,
        "check" => kind::CHECK,
        "release" => kind::RELEASE,
        "close" => kind::CLOSE,
        _ => panic!("no value for {verb}"),
    }
}

/// What a line's words ask of an end. An end that is spent does not come back.
enum Stays<K: Kind> {
    Here(End<K>, Result<String, Error>),
    Gone(Result<String, Error>),
}

impl Player {
    fn told(&self, answer: Result<String, Error>) -> String {
        match answer {
            Ok(text) => text,
            Err(Error::Refused(refusal)) => format!("refused {} {refusal}", refusal as u32),
            Err(Error::Misused(misuse)) => format!("misused {} {misuse}", misuse as u32),
            Err(Error::PeerClosed { cause, origin, .. }) => {
                format!("closed {cause} {}", self.born[&origin])
            }
            Err(fault) => panic!("{fault}"),
        }
    }

    fn raw(&self, who: ClientId, call: CallWords) -> Result<String, Error> {
        self.service.0.lock().ask_raw(who, &call, 0, "").map(|_| "done".to_string())
    }

    fn label<K: Kind>(&mut self, end: &End<K>, label: &str) {
        self.nodes.insert(label.to_string(), (end.key, end.collection));
        self.born.entry(end.key).or_insert(label.to_string());
        self.roots.entry(end.collection).or_insert(label.to_string());
    }

    fn token(&mut self, made: Result<Token, Error>, label: &str) -> Result<String, Error> {
        let token = made?;
        self.label(&token, label);
        self.tokens.push(token);
        Ok(format!("token {label}"))
    }

    fn tracker(&mut self, made: Result<Tracker, Error>, label: &str) -> Result<String, Error> {
        self.trackers.insert(label.to_string(), made?);
        Ok(format!("tracker {label}"))
    }

    fn text(&self, buffer: Buffer) -> String {
        format!("{}.{}", self.roots[&buffer.collection], buffer.index)
    }

    fn show(&self, what: &str) -> String {
        let mut words = vec![what.to_string()];
        match what {
            "live" => {
                words.extend(self.service.live().unwrap().iter().map(|key| self.born[key].clone()))
            }
            "held" => words.extend(
                self.service
                    .held()
                    .unwrap()
                    .iter()
                    .map(|h| format!("{} {} {}", self.text(h.buffer), h.start, h.pages)),
            ),
            "fired" => words.extend(self.service.fired().unwrap().iter().map(|f| {
                let (label, _) = self.trackers.iter().find(|(_, t)| t.id() == f.tracker).unwrap();
                format!("{label} {}", f.event)
            })),
            _ => words.push(self.service.free_pages().to_string()),
        }
        words.join(" ")
    }

    fn play(&mut self, words: &[&str]) -> String {
        let answer = match *words {
            ["show", what] => Ok(self.show(what)),
            [who, "join"] => self.service.join().map(|client| {
                self.clients.insert(who.to_string(), client);
                "joined".to_string()
            }),
            [who, "shut"] => self.clients[who].shut().map(|waiting| format!("shut {waiting}")),
            [who, "open", label] => {
                let made = self.clients[who].open_root(label);
                self.token(made, label)
            }
            [who, "collect", label] => self.collect(who, label),
            [_, "poll", label] => Ok(self.trackers[label]
                .poll()
                .map_or("quiet".to_string(), |event| format!("fired {event}"))),
            [who, "duph" | "droph" | "giveh" | "trackweak", ..] => {
                self.on_handle(self.clients[who].id(), words)
            }
            [who, _, label, ..] => {
                let (key, _) = self.nodes[label];
                let who = self.clients[who].id();
                if let Some(token) = take_end(&mut self.tokens, key, who) {
                    match self.on_token(token, &words[1..]) {
                        Stays::Here(token, answer) => {
                            self.tokens.push(token);
                            answer
                        }
                        Stays::Gone(answer) => answer,
                    }
                } else if let Some(collection) = take_end(&mut self.collections, key, who) {
                    match self.on_collection(collection, &words[1..]) {
                        Stays::Here(collection, answer) => {
                            self.collections.push(collection);
                            answer
                        }
                        Stays::Gone(answer) => answer,
                    }
                } else {
                    // It is refused, whatever else it says.
                    self.raw(who, of_key(kind_of(words[1]), key))
                }
            }
            _ => panic!("{words:?}"),
        };
        self.told(answer)
    }

    fn collect(&mut self, who: &str, label: &str) -> Result<String, Error> {
        match self.clients[who].collect()? {
            None => Ok("empty".to_string()),
            Some(Parcel::Token(token)) => self.token(Ok(token), label),
            Some(Parcel::Collection(collection)) => {
                self.label(&collection, label);
                self.collections.push(collection);
                Ok(format!("collection {label}"))
            }
            Some(Parcel::Handle(handle)) => {
                let told =
                    format!("handle {} {}", self.text(handle.buffer), text_of(handle.strength));
                self.handles.push(handle);
                Ok(told)
            }
        }
    }

    fn on_handle(&mut self, who: ClientId, words: &[&str]) -> Result<String, Error> {
        let (node, index) = words[2].split_once('.').unwrap();
        let buffer = Buffer { collection: self.nodes[node].1, index: index.parse().unwrap() };
        let strength = if words[1] == "trackweak" { Strength::Weak } else { strength(words[3]) };
        let is = |h: &Handle| (h.buffer, h.strength, h.client()) == (buffer, strength, who);
        let place = match self.handles.iter().position(is) {
            Some(place) => place,
            None => {
                assert_eq!(words[1], "droph");
                return self.raw(who, of_buffer(kind::DROP_HANDLE, buffer, strength));
            }
        };
        match words[1] {
            "trackweak" => {
                let made = self.handles[place].track_weak();
                return self.tracker(made, words[3]);
            }
            "duph" => {
                let more = self.handles[place].duplicate()?;
                self.handles.push(more);
            }
            "droph" => drop(self.handles.swap_remove(place)),
            _ => self.handles.swap_remove(place).give(self.clients[words[4]].id())?,
        }
        Ok("done".to_string())
    }

    /// What is asked of either kind. `Err` brings back an end of which something else is asked.
    fn on_end<K: Kind>(&mut self, end: End<K>, words: &[&str]) -> Result<Stays<K>, End<K>> {
        let done = |answer: Result<(), Error>| answer.map(|()| "done".to_string());
        Ok(match *words {
            ["sync", _] => {
                let answer = done(end.sync());
                Stays::Here(end, answer)
            }
            ["weak", _] => {
                let answer = done(end.set_weak());
                Stays::Here(end, answer)
            }
            ["weakok", _, ref children @ ..] => {
                let answer = done(end.set_weak_ok(!children.is_empty()));
                Stays::Here(end, answer)
            }
            ["tracknode", _, label] => {
                let answer = self.tracker(end.track_node(), label);
                Stays::Here(end, answer)
            }
            ["release", _] => Stays::Gone(done(end.release())),
            ["close", _] => {
                end.close();
                Stays::Gone(Ok("done".to_string()))
            }
            ["give", _, to] => match end.give(self.clients[to].id()) {
                Ok(()) => Stays::Gone(Ok("done".to_string())),
                Err(Back { error, value }) => Stays::Here(value, Err(error)),
            },
            _ => return Err(end),
        })
    }

    fn on_token(&mut self, token: Token, words: &[&str]) -> Stays<OfToken> {
        let token = match self.on_end(token, words) {
            Ok(stays) => return stays,
            Err(token) => token,
        };
        let answer = match *words {
            ["dup", _, label] => self.token(token.duplicate(label), label),
            ["dispensable", _] => token.set_dispensable().map(|()| "done".to_string()),
            ["bind", _] => match token.bind() {
                Ok(collection) => {
                    self.collections.push(collection);
                    return Stays::Gone(Ok("done".to_string()));
                }
                Err(Back { error, value }) => return Stays::Here(value, Err(error)),
            },
            // What a value can't ask: of a token, what is for collections.
            _ => self.raw(token.client(), of_key(kind::CHECK, token.key)),
        };
        Stays::Here(token, answer)
    }

    fn on_collection(&mut self, collection: Collection, words: &[&str]) -> Stays<OfCollection> {
        let collection = match self.on_end(collection, words) {
            Ok(stays) => return stays,
            Err(collection) => collection,
        };
        let answer = match *words {
            ["attach", _, label] => self.token(collection.attach_token(label), label),
            ["tracklife", _, left, label] => {
                self.tracker(collection.track_lifetime(left.parse().unwrap()), label)
            }
            ["constrain", _, camping, at_least, size] => collection
                .set_constraints(Constraints {
                    camping: camping.parse().unwrap(),
                    at_least: at_least.parse().unwrap(),
                    size: size.parse().unwrap(),
                })
                .map(|()| "done".to_string()),
            ["check", _] => collection.check().map(|given| match given {
                None => "pending".to_string(),
                Some(Allocation { count, size }) => format!("allocated {count} {size}"),
            }),
            ["take", _] => collection.take().map(|taken| match taken {
                None => "pending".to_string(),
                Some(taken) => {
                    let mut told =
                        vec!["taken".to_string(), text_of(taken[0].strength).to_string()];
                    told.extend(taken.iter().map(|handle| self.text(handle.buffer)));
                    self.handles.extend(taken);
                    told.join(" ")
                }
            }),
            _ => panic!("{words:?}"),
        };
        Stays::Here(collection, answer)
    }
}

fn play(script: &Path) -> String {
    let lines = std::fs::read_to_string(script).unwrap();
    let lines = lines.lines().filter(|line| !line.is_empty() && !line.starts_with('#'));
    play_lines(Options::default().pages, &lines.collect::<Vec<_>>())
}

/// The answers to these lines.
pub(crate) fn play_lines(pages: u32, lines: &[&str]) -> String {
    let mut player = Player {
        service: Service::open(Options { pages, ..Options::default() }).unwrap(),
        clients: HashMap::new(),
        nodes: HashMap::new(),
        trackers: HashMap::new(),
        born: HashMap::new(),
        roots: HashMap::new(),
        tokens: vec![],
        collections: vec![],
        handles: vec![],
    };
    lines.iter().map(|line| player.play(&line.split(' ').collect::<Vec<_>>()) + "\n").collect()
}

#[test]
fn scripts_are_answered_as_written() {
    let examples = std::env::var_os("SYSMEM_EXAMPLES")
        .map_or(PathBuf::from(env!("CARGO_MANIFEST_DIR")).join("../../examples"), PathBuf::from);
    let mut played = 0;
    for entry in std::fs::read_dir(examples).unwrap() {
        let script = entry.unwrap().path();
        if script.extension().map_or(false, |extension| extension == "script") {
            let wanted = std::fs::read_to_string(script.with_extension("out")).unwrap();
            assert_eq!(play(&script), wanted, "{}", script.display());
            played += 1;
        }
    }
    assert_eq!(played, 9);
}
