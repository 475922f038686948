//! A plain search of all orders of a script of actors over the plain core: what `sysmem explore` is compared with.
//!
//!     plain-explore [WORDS] [--states N] FILE          the outcomes of all orders
//!     plain-explore [WORDS] --plays FILE < PLAYS       those of these schedules, each behind a line that begins with `=`
//!
//! WORDS are options of `sysmem explore`. Orders are joined where the cores, and all that the actors hold and know, are the
//! same. For each outcome it writes `=`, its share of the runs, the calls of its shortest schedule, and who vanished; and below
//! it a line with tabs for each client, node and tracker, and for the free pages: client and label, the name in reports, and
//! what became of it. The status is 7 after N states.
#![forbid(unsafe_code)]

mod actor;
mod script;

use actor::{Actor, Object};
use plain_core::*;
use script::{Script, Step, makes_tracker};
use std::collections::{BTreeMap, BTreeSet, HashMap};
use std::io::Read;
use std::process::ExitCode;

/// What a step made: the event, the step's name, the node if it is one, and what became of that if it is gone.
#[derive(Clone)]
struct Made {
    event: u64,
    name: u64,
    node: Option<(NodeKey, Option<Fate>)>,
}

#[derive(Clone)]
struct Play {
    core: Core,
    actors: Vec<Actor>,
    made: Vec<Made>,
}

impl Play {
    fn begun(script: &Script, pages: u32) -> Play {
        let mut core = Core::new(pages, Limits::full());
        let mut actors = Vec::new();
        for _ in &script.clients {
            let Ok(Reply::Joined(client)) = core.step(0, Call::Join) else { panic!("no join") };
            let (nodes, trackers, objects) = (Vec::new(), Vec::new(), Vec::new());
            actors.push(Actor { client, at: 0, nodes, trackers, objects, leaving: None });
        }
        let mut play = Play { core, actors, made: Vec::new() };
        play.pass(script);
        play
    }

    fn has_fired(&self, tracker: TrackerId) -> bool {
        self.core.fired().iter().any(|fired| fired.tracker == tracker)
    }

    fn next<'a>(&self, script: &'a Script, actor: usize) -> Option<&'a Step> {
        script.plans[actor].get(self.actors[actor].at).filter(|_| self.actors[actor].leaving.is_none())
    }

    fn asks(&self, script: &Script, actor: usize) -> Option<(Call, Option<usize>)> {
        let ids: Vec<_> = self.actors.iter().map(|actor| actor.client).collect();
        self.actors[actor].call(&script.clients, &ids, &self.next(script, actor)?.words)
    }

    /// Skips the steps that make no call and do not wait.
    fn pass(&mut self, script: &Script) {
        for actor in 0..self.actors.len() {
            while let Some(step) = self.next(script, actor) {
                let looks = step.waits && step.words[0] == "poll";
                let tracker = self.actors[actor].trackers.iter().find(|tracker| tracker.0 == step.words[1..].concat());
                if self.asks(script, actor).is_some() || looks && tracker.is_some_and(|tracker| !self.has_fired(tracker.1)) {
                    break;
                }
                self.actors[actor].at += 1;
            }
        }
    }

    fn make(&mut self, client: ClientId, call: Call) -> Reply {
        let reply = self.core.step(client, call).expect("the history is not full");
        for (key, fate) in self.made.iter_mut().filter_map(|made| made.node.as_mut()).filter(|node| node.1.is_none()) {
            *fate = Some(self.core.fate(*key)).filter(|fate| matches!(fate, Fate::Ended | Fate::Failed(..)));
        }
        reply
    }

    /// The play after the actor's next step; `None` if it has none to make.
    fn after_step(&self, script: &Script, actor: usize) -> Option<Play> {
        let (call, slot) = self.asks(script, actor)?;
        let step = self.next(script, actor)?;
        let mut play = self.clone();
        let reply = play.make(self.actors[actor].client, call);
        if step.waits && matches!(reply, Reply::Empty | Reply::Pending) {
            return None;
        }
        let name = (actor as u64) << 32 | self.actors[actor].at as u64;
        let event = play.core.events();
        match reply {
            Reply::Token { key, .. } => play.made.push(Made { event, name, node: Some((key, None)) }),
            Reply::Tracker(_) => play.made.push(Made { event, name, node: None }),
            _ => {}
        }
        play.actors[actor].note(&step.words, call, slot, reply);
        play.actors[actor].at += 1;
        play.pass(script);
        Some(play)
    }

    /// The play after one more call by which the actor leaves; `None` if it has none to make.
    fn after_leave(&self, script: &Script, actor: usize) -> Option<Play> {
        let call = self.actors[actor].leave_call()?;
        let mut play = self.clone();
        let reply = play.make(self.actors[actor].client, call);
        play.actors[actor].note_leave(reply);
        play.pass(script);
        Some(play)
    }

    fn is_done(&self, script: &Script, actor: usize) -> bool {
        script.plans[actor].len() <= self.actors[actor].at
    }

    /// Those that began to leave before their end.
    fn vanished(&self, script: &Script) -> Vec<usize> {
        let early = |actor: &usize| self.actors[*actor].leaving.is_some() && !(script.at_end && self.is_done(script, *actor));
        (0..self.actors.len()).filter(early).collect()
    }

    fn must_leave(&self, script: &Script, actor: usize) -> bool {
        self.actors[actor].leaving.is_some() || script.at_end && self.is_done(script, actor)
    }

    fn may_leave(&self, script: &Script, actor: usize) -> bool {
        self.must_leave(script, actor) || script.who[actor] && self.vanished(script).len() < script.most
    }

    /// The plays after one turn more, each with the step that it made, and whether one of these turns has to be made.
    fn nexts(&self, script: &Script) -> (Vec<(Option<(usize, usize)>, Play)>, bool) {
        let (mut nexts, mut is_open) = (Vec::new(), false);
        for actor in 0..self.actors.len() {
            if let Some(play) = self.after_step(script, actor) {
                nexts.push((Some((actor, self.actors[actor].at)), play));
                is_open = true;
            }
            if self.may_leave(script, actor) && let Some(play) = self.after_leave(script, actor) {
                nexts.push((None, play));
                is_open |= self.must_leave(script, actor);
            }
        }
        (nexts, is_open)
    }

    /// How far it is: each turn leads further.
    fn level(&self) -> u64 {
        self.actors.iter().map(|actor| actor.at as u64 + actor.leaving.as_ref().map_or(0, |leaving| leaving.calls)).sum()
    }

    /// All on which the rest of it depends, and its outcome.
    fn value(&self) -> Vec<u64> {
        let names: HashMap<_, _> = self.made.iter().map(|made| (made.event, made.name)).collect();
        let of_event = |event: u64| names.get(&event).copied().unwrap_or(u64::MAX);
        let of_key = |key: NodeKey| {
            let is = |made: &&Made| made.node.is_some_and(|node| node.0 == key);
            self.made.iter().find(is).map_or(u64::MAX, |made| made.name)
        };
        let of_object = |object: &Object| match *object {
            Object::End(key, _, kind) => [kind as u64, of_key(key), 0],
            Object::Handle(buffer, strength) => [2 + strength as u64, of_event(buffer.collection), buffer.index as u64],
        };
        let mut value = self.core.snapshot(of_event);
        let mut fates: Vec<_> = self.made.iter().filter_map(|made| Some((made.name, made.node?.1?))).collect();
        fates.sort_unstable_by_key(|fate| fate.0);
        for (name, fate) in fates {
            match fate {
                Fate::Failed(cause, origin) => value.extend([name, cause_number(cause), of_key(origin)]),
                _ => value.extend([name, 0]),
            }
        }
        value.push(u64::MAX);
        let mut fired: Vec<_> = self.core.fired().iter().map(|fired| of_event(fired.tracker)).collect();
        fired.sort_unstable();
        value.extend(fired);
        for actor in &self.actors {
            value.extend([u64::MAX, actor.at as u64]);
            value.extend(actor.nodes.iter().flat_map(|node| [node.0.as_ptr() as u64, of_key(node.1)]));
            value.extend(actor.trackers.iter().flat_map(|tracker| [tracker.0.as_ptr() as u64, of_event(tracker.1)]));
            value.push(u64::MAX);
            value.extend(actor.objects.iter().flatten().flat_map(of_object));
            if let Some(leaving) = &actor.leaving {
                value.extend([u64::MAX, leaving.calls, leaving.waiting, leaving.parted as u64]);
                value.extend(leaving.collected.iter().flat_map(of_object));
            }
        }
        value
    }

    /// What is said of the node or tracker that the step of this name makes.
    fn became(&self, script: &Script, name: u64) -> String {
        let made = self.made.iter().find(|made| made.name == name);
        let (actor, at) = ((name >> 32) as usize, name as u32 as usize);
        if makes_tracker(&script.plans[actor][at].words) {
            let fires = made.is_some_and(|made| self.has_fired(made.event));
            return if fires { "fires" } else { "does not fire" }.into();
        }
        let Some((key, fate)) = made.and_then(|made| made.node) else { return "is not made".into() };
        let buffers = |allocated| if allocated { "with buffers" } else { "without buffers" };
        match fate.unwrap_or_else(|| self.core.fate(key)) {
            Fate::Ended => "ends".into(),
            Fate::Live { allocated } => format!("is live, {}", buffers(allocated)),
            Fate::Released { allocated } => format!("is released, {}", buffers(allocated)),
            Fate::Failed(cause, origin) => {
                let maker = self.made.iter().find(|made| made.node.is_some_and(|node| node.0 == origin)).unwrap().name;
                format!("fails, {} {}", cause_words(cause), script.maker(maker))
            }
        }
    }

    fn outcome(&self, script: &Script) -> Outcome {
        let (vanished, mut rows) = (self.vanished(script), Vec::new());
        for (actor, plan) in script.plans.iter().enumerate() {
            let client = script.clients[actor];
            if !vanished.contains(&actor) {
                let waits = |step: &Step| format!("waits for ever, line {}: {client} {}", step.line, step.words.join(" "));
                let what = plan.get(self.actors[actor].at).map_or("comes to its end".into(), waits);
                rows.push([client.into(), client.into(), what]);
            }
            for (at, step) in plan.iter().enumerate() {
                let Some(label) = step.made() else { continue };
                let name = (actor as u64) << 32 | at as u64;
                rows.push([format!("{client}.{label}"), script.maker(name), self.became(script, name)]);
            }
        }
        rows.push(["free".into(), "free".into(), self.core.free_pages().to_string()]);
        (vanished, rows)
    }
}

/// Who vanished, and what became of what: by client and label, with its name in reports.
type Outcome = (Vec<usize>, Vec<[String; 3]>);

fn cause_number(cause: Cause) -> u64 {
    match cause {
        Cause::Lost => 1,
        Cause::NoStrong => 2,
        Cause::Misused(misuse) => 10 + misuse as u64,
        Cause::Failed(failure) => 20 + failure as u64,
    }
}

fn cause_words(cause: Cause) -> String {
    match cause {
        Cause::Lost => "lost".into(),
        Cause::NoStrong => "nostrong".into(),
        Cause::Misused(misuse) => format!("misused {}", misuse.name()),
        Cause::Failed(failure) => format!("failed {}", failure.name()),
    }
}

fn show(script: &Script, (vanished, rows): &Outcome, share: f64, calls: usize) {
    print!("= {share} {calls}");
    for actor in vanished {
        print!(" {}", script.clients[*actor]);
    }
    println!();
    for row in rows {
        println!("{}", row.join("\t"));
    }
}

/// A state, with the number of orders and the share of the runs that come to it, and the calls of the shortest one.
struct State {
    play: Play,
    orders: f64,
    share: f64,
    calls: usize,
}

fn explore(script: &Script, pages: u32, most: usize) -> ExitCode {
    let mut levels: BTreeMap<u64, HashMap<Vec<u64>, State>> = BTreeMap::new();
    let play = Play::begun(script, pages);
    levels.entry(play.level()).or_default().insert(play.value(), State { play, orders: 1.0, share: 1.0, calls: 0 });
    let (mut states, mut orders) = (1, 0.0);
    let mut outcomes: BTreeMap<Outcome, (f64, usize)> = BTreeMap::new();
    let mut made = BTreeSet::new();
    while let Some((_, level)) = levels.pop_first() {
        for state in level.into_values() {
            let (nexts, is_open) = state.play.nexts(script);
            let share = state.share / (nexts.len() + usize::from(!is_open)) as f64;
            if !is_open {
                orders += state.orders;
                let outcome = outcomes.entry(state.play.outcome(script)).or_insert((0.0, usize::MAX));
                *outcome = (outcome.0 + share, outcome.1.min(state.calls));
            }
            for (step, play) in nexts {
                made.extend(step);
                let calls = state.calls + 1;
                let next = levels.entry(play.level()).or_default().entry(play.value()).or_insert_with(|| {
                    states += 1;
                    State { play, orders: 0.0, share: 0.0, calls }
                });
                next.orders += state.orders;
                next.share += share;
                next.calls = next.calls.min(calls);
            }
            if states > most {
                return ExitCode::from(7);
            }
        }
    }
    println!("orders {orders} states {states}");
    print!("never");
    let mut never: Vec<_> = (0..script.plans.len())
        .flat_map(|actor| (0..script.plans[actor].len()).map(move |at| (actor, at)))
        .filter(|(actor, at)| script.plans[*actor][*at].words[0] != "poll" && !made.contains(&(*actor, *at)))
        .map(|(actor, at)| script.plans[actor][at].line)
        .collect();
    never.sort_unstable();
    println!("{}", never.iter().map(|line| format!(" {line}")).collect::<String>());
    for (outcome, (share, calls)) in &outcomes {
        show(script, outcome, *share, *calls);
    }
    ExitCode::SUCCESS
}

/// The play with the turn that this line of a schedule tells.
fn follow(script: &Script, play: &Play, line: &str) -> Option<Play> {
    let (client, words) = line.split_once(' ')?;
    let actor = script.clients.iter().position(|other| *other == client)?;
    if play.next(script, actor).is_some_and(|step| script.said(actor, step) == words) {
        return play.after_step(script, actor);
    }
    let verb = match play.actors[actor].leave_call()? {
        Call::Shut => "shut",
        Call::Collect => "collect",
        Call::Close(_) => "close",
        _ => "droph",
    };
    if !play.may_leave(script, actor) || words.split(' ').next() != Some(verb) {
        return None;
    }
    play.after_leave(script, actor)
}

/// Shows the outcome of each schedule, or the first line that is not the next turn.
fn show_plays(script: &Script, pages: u32, text: &str) {
    for schedule in text.split("= ").skip(1) {
        let mut play = Play::begun(script, pages);
        let is_call = |line: &&str| !line.is_empty() && !line.starts_with('#') && !line.ends_with(" join");
        let mut calls = 0;
        let mut fault = None;
        for line in schedule.lines().skip(1).filter(is_call) {
            match follow(script, &play, line) {
                Some(next) => play = next,
                None => {
                    fault = Some(line);
                    break;
                }
            }
            calls += 1;
        }
        match fault {
            Some(line) => println!("= no turn: {line}"),
            None if play.nexts(script).1 => println!("= no end"),
            None => show(script, &play.outcome(script), 0.0, calls),
        }
    }
}

fn main() -> ExitCode {
    let words: Vec<_> = std::env::args().skip(1).collect();
    let number = |word: &str, or: usize| {
        words.iter().position(|other| other == word).map_or(or, |at| words[at + 1].parse().expect("a number"))
    };
    let Some(file) = words.last() else { return ExitCode::from(2) };
    let text = std::fs::read_to_string(file).expect("the script can be read");
    let script = Script::read(text.leak(), &words);
    let pages = number("--pages", 16) as u32;
    if !words.iter().any(|word| word == "--plays") {
        return explore(&script, pages, number("--states", 1_000_000));
    }
    let mut plays = String::new();
    std::io::stdin().lock().read_to_string(&mut plays).expect("the schedules can be read");
    show_plays(&script, pages, &plays);
    ExitCode::SUCCESS
}
