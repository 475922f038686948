//! A script of actors, as a search makes its steps.
use std::collections::{BTreeMap, BTreeSet};

pub struct Step {
    pub line: usize,
    pub words: Vec<&'static str>,
    pub waits: bool,
}

impl Step {
    /// The label that the step binds, if it makes a node or a tracker.
    pub fn made(&self) -> Option<&'static str> {
        makes(&self.words).then(|| self.words[*labels_in(&self.words).last().unwrap()])
    }
}

pub struct Script {
    pub clients: Vec<&'static str>,
    pub plans: Vec<Vec<Step>>,
    pub who: Vec<bool>,
    pub most: usize,
    pub at_end: bool,
    /// Labels of nodes and trackers that several clients use.
    shared: BTreeSet<&'static str>,
}

/// The places in a line's words at which labels of nodes and trackers stand, the client's word left out.
pub fn labels_in(words: &[&str]) -> &'static [usize] {
    match words[0] {
        "shut" => &[],
        "dup" | "attach" | "tracknode" | "trackweak" => &[1, 2],
        "tracklife" => &[1, 3],
        _ => &[1],
    }
}

fn waits_for(words: &[&str]) -> bool {
    matches!(words[0], "collect" | "check" | "take" | "poll")
}

fn makes(words: &[&str]) -> bool {
    matches!(words[0], "open" | "dup" | "attach") || makes_tracker(words)
}

pub fn makes_tracker(words: &[&str]) -> bool {
    words[0].starts_with("track")
}

impl Script {
    pub fn read(text: &'static str, words: &[String]) -> Script {
        let has = |word: &str| words.iter().any(|other| other == word);
        let behind = |word: &str| words.iter().position(|other| other == word).map(|at| words[at + 1].clone());
        let mut clients = Vec::new();
        let mut steps: Vec<Vec<Step>> = Vec::new();
        for (at, line) in text.lines().enumerate().filter(|(_, line)| !line.is_empty() && !line.starts_with('#')) {
            let words: Vec<_> = line.split(' ').collect();
            if words[1] == "join" {
                clients.push(words[0]);
                steps.push(Vec::new());
            } else {
                let actor = clients.iter().position(|client| *client == words[0]).expect("the client joins");
                steps[actor].push(Step { line: at + 1, words: words[1..].to_vec(), waits: false });
            }
        }
        let plans = steps.into_iter().map(|steps| plan(steps, has("--once"), has("--patient"))).collect::<Vec<_>>();
        let mut shared = BTreeSet::new();
        let mut users = BTreeMap::new();
        for (actor, plan) in plans.iter().enumerate() {
            for step in plan {
                for label in labels_in(&step.words).iter().map(|at| step.words[*at].split('.').next().unwrap()) {
                    if *users.entry(label).or_insert(actor) != actor {
                        shared.insert(label);
                    }
                }
            }
        }
        let listed = behind("--vanish").unwrap_or_default();
        let who = clients.iter().map(|client| listed == "all" || listed.split(',').any(|one| one == *client)).collect();
        let most = behind("--most").map_or(1, |word| word.parse().unwrap());
        Script { clients, plans, who, most, at_end: has("--end"), shared }
    }

    fn is_shared(&self, label: &str) -> bool {
        self.shared.contains(label.split('.').next().unwrap())
    }

    /// What the actor's label is called in schedules.
    fn called(&self, actor: usize, label: &str) -> String {
        let before = if self.is_shared(label) { self.clients[actor] } else { "" };
        format!("{before}{label}")
    }

    /// The actor's step as a schedule has it.
    pub fn said(&self, actor: usize, step: &Step) -> String {
        let mut words: Vec<_> = step.words.iter().map(|word| word.to_string()).collect();
        for at in labels_in(&step.words) {
            words[*at] = self.called(actor, step.words[*at]);
        }
        words.join(" ")
    }

    /// What reports call the node or tracker that the step of this name makes: its label, behind its client's if several clients
    /// use it, and with its line if several steps of the client bind it.
    pub fn maker(&self, name: u64) -> String {
        let (actor, at) = ((name >> 32) as usize, name as u32 as usize);
        let plan = &self.plans[actor];
        let label = plan[at].made().unwrap();
        let before = if self.is_shared(label) { format!("{}.", self.clients[actor]) } else { String::new() };
        let is_rebound = plan.iter().filter(|step| step.made() == Some(label)).count() > 1;
        let behind = if is_rebound { format!(" (line {})", plan[at].line) } else { String::new() };
        format!("{before}{label}{behind}")
    }
}

/// The steps of an actor, of which those wait that repeat one line, once for all, or with `patient` each that can.
fn plan(steps: Vec<Step>, once: bool, patient: bool) -> Vec<Step> {
    let mut plan: Vec<Step> = Vec::new();
    for mut step in steps {
        step.waits = patient && waits_for(&step.words);
        match plan.last_mut() {
            Some(last) if !once && !patient && waits_for(&step.words) && last.words == step.words => last.waits = true,
            _ => plan.push(step),
        }
    }
    plan
}
