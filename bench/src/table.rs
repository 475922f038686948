//! TABLE.md, from what was measured.
use crate::latency;
use crate::workloads::{ALL, with_commas};
use std::collections::HashMap;
use std::fmt::Write;

/// An event's cost that rises by more than this, from the smallest size to the greatest, grows: by a
/// logarithm, if it rises by less from the middle size to the greatest.
const GROWS: f64 = 1.5;

type Pair = (f64, f64);

/// Lines of a name and numbers.
fn read(file: &str) -> (HashMap<String, Vec<f64>>, Vec<String>) {
    let text = std::fs::read_to_string(file).unwrap_or_else(|e| panic!("{file}: {e}"));
    let (mut all, mut order) = (HashMap::new(), Vec::new());
    for line in text.lines() {
        let mut words = line.split('|');
        let name = words.next().unwrap().to_string();
        all.insert(name.clone(), words.map(|w| w.parse().unwrap()).collect());
        order.push(name);
    }
    (all, order)
}

fn pair(of: &HashMap<String, Vec<f64>>, name: &str) -> Option<Pair> {
    of.get(name).map(|v| (v[0], v[1]))
}

fn times(x: f64) -> String {
    if x < 9.95 { format!("{x:.1}") } else { format!("{x:.0}") }
}

fn cells(p: Option<Pair>) -> String {
    match p {
        Some((x, y)) => format!("{:>9} {:>8} {:>6}", times(x), times(y), times(x / y)),
        None => format!("{:>9} {:>8} {:>6}", "", "", ""),
    }
}

/// The rows that have sizes: how their costs rise with them.
fn growth(out: &mut String, cost: &HashMap<String, Vec<f64>>) {
    for row in ALL.iter().filter(|row| row.sizes.len() > 1) {
        let all: Option<Vec<Pair>> = row.sizes.iter().map(|&n| pair(cost, &row.named(n))).collect();
        let Some(all) = all else { continue };
        let (first, middle, last) = (all[0], all[all.len() / 2], all[all.len() - 1]);
        let (ours, plain) = (last.0 / first.0, last.1 / first.1);
        let name = row.name.replace("{}", "N");
        let list = |v: Vec<String>| v.join(" · ");
        let sizes = list(row.sizes.iter().map(|&n| with_commas(n)).collect());
        let costs = list(all.iter().map(|p| times(p.0)).collect());
        let says = match (ours > GROWS, last.0 / middle.0 > GROWS) {
            (true, true) => "**grows**",
            (true, false) => "a logarithm",
            _ => "",
        };
        let (ours, plain) = (times(ours), times(plain));
        writeln!(out, "| {name} | {}: {sizes} | {costs} | {ours} | {plain} | {says} |", row.what).unwrap();
    }
}

/// How long single events take, ours before plain's.
fn single(out: &mut String, all: &[f64]) {
    writeln!(
        out,
        "## Single events\n\nNanoseconds of the events of row e, each timed alone, in order of their times. An event's time is its median over\n\
         the rounds, less what an empty stretch takes.\n\n```\n{:<8} {:>9} {:>8} {:>6}",
        "", "ours", "plain", "ratio"
    )
    .unwrap();
    let (ours, plain) = all.split_at(latency::SHARES.len());
    for ((share, _), (&x, &y)) in latency::SHARES.iter().zip(ours.iter().zip(plain)) {
        writeln!(out, "{share:<8} {}", cells(Some((x, y)))).unwrap();
    }
    writeln!(out, "```\n").unwrap();
}

/// The table of these files: seconds, and instructions if there are some.
pub fn table(files: &[String]) -> String {
    let (seconds, order) = read(&files[0]);
    let instructions = files.get(1).map(|f| read(f).0).unwrap_or_default();
    let mut out = String::new();
    writeln!(out, "# One run of the table\n").unwrap();
    writeln!(
        out,
        "`bench/run.sh` writes this page; [README.md](README.md) says what the rows are, and where the rest goes. Costs of an\n\
         event: nanoseconds, the median of {} rounds, and instructions, counted by valgrind, which no load of the machine\n\
         changes. `/node`, `/unit` and `/buffer` divide by what one call takes.\n",
        seconds["rounds"][0]
    )
    .unwrap();
    writeln!(out, "```\n{:<30} {:^25}  {:^25}", "", "nanoseconds", "instructions").unwrap();
    writeln!(out, "{0:<30} {1:>9} {2:>8} {3:>6}  {1:>9} {2:>8} {3:>6}", "", "ours", "plain", "ratio").unwrap();
    let locks: Vec<&String> = order.iter().filter(|n| seconds[*n].len() == 3).collect();
    for row in ALL {
        for &n in row.sizes {
            let name = row.named(n);
            let line = format!("{name:<30} {}  {}", cells(pair(&seconds, &name)), cells(pair(&instructions, &name)));
            writeln!(out, "{}", line.trim_end()).unwrap();
        }
    }
    writeln!(out, "```\n\n## Typed calls at one lock\n").unwrap();
    writeln!(
        out,
        "Nanoseconds an event, over all threads. The plain core is under a `Mutex`, with the lists that the service and its\n\
         clients keep, and without.\n\n```\n{:<30} {:>9} {:>10} {:>6} {:>13} {:>6}",
        "", "ours", "with lists", "ratio", "without lists", "ratio"
    )
    .unwrap();
    for name in locks {
        let v = &seconds[name];
        let [x, y, z] = [v[0], v[1], v[2]];
        let (a, b) = (times(x / y), times(x / z));
        writeln!(out, "{name:<30} {:>9} {:>10} {a:>6} {:>13} {b:>6}", times(x), times(y), times(z)).unwrap();
    }
    writeln!(out, "```\n").unwrap();
    if let Some(times) = seconds.get(latency::NAME) {
        single(&mut out, times);
    }
    let (cost, unit) =
        if instructions.is_empty() { (&seconds, "nanoseconds") } else { (&instructions, "instructions") };
    writeln!(out, "## What grows\n").unwrap();
    writeln!(
        out,
        "Each size N counts something that the event does not touch, or by which its cost is divided. By {unit} an event, at\n\
         three sizes; the factor is from the first to the last. More than {GROWS} is growth.\n\n\
         | row | N | ours | factor | plain's factor | |\n|---|---|---|---|---|---|"
    )
    .unwrap();
    growth(&mut out, cost);
    out
}
