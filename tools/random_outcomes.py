#!/usr/bin/env python3
"""Compares what `explore` says of random scripts of actors with a plain search of all orders.

  tools/random_outcomes.py [-j LANES] PROGRAM [COUNT] [SEED]

PROGRAM is a built `sysmem`. It explores FIXED and then COUNT random scripts (500 if not given), these with the words of WAYS in
turn; so does `plain-explore` of `bench/plain`, which joins only orders after which all is the same, over the plain core.

The plain core must come through each schedule of `--outcome` to its end, and the outcomes of these schedules must be all of
the plain search and no others. The rows of the report must agree with them, and so must the shares of the runs, the numbers of
orders and of calls, the lines that no order makes, and what is said of each claim. `sysmem run` must answer each line of a
schedule, and `sysmem check` accept it with these replies. Random scripts with too many states are skipped. Equal seeds give equal
scripts. The last line counts; the status is 1 if something differs."""
import os
import random
import re
import subprocess
import sys
import tempfile
from concurrent.futures import ThreadPoolExecutor
from pathlib import Path

PLAIN = Path(__file__).parent.parent / "bench"

# How the scripts are explored, one after another.
WAYS = [
    words.split()
    for words in (
        "", "--once", "--end", "--once --end", "--patient", "--vanish all", "--vanish all --most 2", "--vanish b", "--certify",
        "--patient --end", "--vanish b --once", "--vanish all --end", "--vanish all --patient", "--end --certify",
        "--vanish a,b --most 2 --once --end", "--vanish b --certify",
    )
]

# So many states of the plain search of a random script at most, and so many times the outcomes.
MOST_STATES, MOST_PLAYED = 3000, 40_000

# Scripts that are explored each time, behind `= WORDS`. The first ones are those of which an exploration once lost an outcome,
# called a false claim true, stopped, or said that a tracker is not made which some orders make.
FIXED = [part.split("\n", 1) for part in ("\n" + (Path(__file__).parent / "outcome_scripts").read_text()).split("\n=")[1:]]


class Writer:
    """Writes the steps of each client: the first makes a tree and gives a token to each other, which all then use."""

    def __init__(self, draw):
        self.draw, self.clients = draw, "abcd"[: draw.choice([2, 2, 2, 3, 3, 4])]
        self.labels, self.trackers = {client: [] for client in self.clients}, {client: [] for client in self.clients}
        self.makers = []

    def label(self, client):
        return self.draw.choice(self.labels[client] or ["none"])

    def bound(self, client, makes=True):
        """A new label, at times one that another client uses too."""
        free = [label for label in (f"{self.draw.choice(['n', 'm' + client])}{number}" for number in range(9))
                if label not in self.labels[client]]
        self.labels[client].append(free[0])
        if makes:
            self.makers.append((client, free[0]))
        return free[0]

    def tracker(self, client):
        self.trackers[client].append(f"{self.draw.choice(['t', 'w' + client])}{len(self.trackers[client])}")
        return self.trackers[client][-1]

    def waits(self, line):
        return [line] * self.draw.choice([1, 2, 2])

    def asks(self):
        return f"{self.draw.choice([0, 1, 2])} {self.draw.choice([0, 0, 3])} {self.draw.choice([1, 4096, 9000, 20000])}"

    def uses(self, client, label):
        """A client that constrains its node takes its buffers at times."""
        draw = self.draw
        steps = [f"bind {label}"] + draw.choice([[], [], ["weak {}"], ["weakok {}"]])
        steps.append(f"constrain {label} {self.asks()}")
        steps += draw.choice([[], ["take {}", "take {}"], ["check {}", "check {}"], ["take {}"]])
        return [f"{client} {step.format(label)}" for step in steps]

    def begin(self):
        """The first steps of all clients, by client."""
        draw, (first, *others) = self.draw, self.clients
        steps = {first: [f"{first} open {self.bound(first)}"]}
        root = self.labels[first][0]
        steps[first] += draw.choice([[], [], [f"{first} weak {root}"], [f"{first} weakok {root} children"]])
        for other in others:
            steps[first] += [f"{first} dup {root} {self.bound(first)}"]
            steps[first] += draw.choice([[], [], [f"{first} dispensable {self.labels[first][-1]}"]])
            steps[first] += [f"{first} give {self.labels[first][-1]} {other}"]
            steps[other] = self.waits(f"{other} collect {self.bound(other, False)}")
        for client in self.clients:
            if draw.random() < 0.6:
                steps[client] += self.uses(client, self.labels[client][0])
        return steps

    def step(self, client, can_shut):
        draw = self.draw
        kind = draw.choice(
            "bind bind constrain constrain check take take release release close weak weakok weakok dispensable dup attach "
            "collect give droph duph giveh tracknode tracklife trackweak poll open sync shut".split())
        label = self.label(client)
        if kind == "open":
            return [f"{client} open {self.bound(client)}"]
        if kind == "collect":
            return self.waits(f"{client} collect {self.bound(client, False)}")
        if kind in ("dup", "attach"):
            return [f"{client} {kind} {label} {self.bound(client)}"]
        if kind == "constrain":
            return [f"{client} constrain {label} {self.asks()}"]
        if kind == "give":
            return [f"{client} give {label} {draw.choice(self.clients)}"]
        if kind in ("droph", "duph", "giveh"):
            line = f"{client} {kind} {label}.{draw.choice([0, 1])} {draw.choice(['strong', 'strong', 'weak'])}"
            return [line + (f" {draw.choice(self.clients)}" if kind == "giveh" else "")]
        if kind.startswith("track"):
            what = {"tracknode": label, "tracklife": f"{label} {draw.choice([0, 0, 1])}", "trackweak": f"{label}.0"}[kind]
            return [f"{client} {kind} {what} {self.tracker(client)}"]
        if kind == "poll":
            return self.waits(f"{client} poll {draw.choice(self.trackers[client] or ['t0'])}")
        if kind == "shut":
            return [f"{client} shut"] if can_shut else []
        line = f"{client} {kind} {label}" + (draw.choice(["", " children"]) if kind == "weakok" else "")
        return self.waits(line) if kind in ("check", "take") else [line]

    def claim(self):
        """A claim on something that one line makes, with the client in front where that is needed or by chance."""
        draw = self.draw

        def named(client, label, all_of):
            alone = sum(other == label for _, other in all_of) == 1
            return label if alone and draw.random() < 0.5 else f"{client}.{label}"

        trackers = [(client, label) for client, labels in self.trackers.items() for label in labels]
        nodes = self.makers
        kind = draw.choice("fails fails fails ends lives pending waits free".split() + ["fires"] * bool(trackers))
        if kind == "waits":
            fact = f"{draw.choice(self.clients)} waits"
        elif kind == "free":
            fact = f"free {draw.choice([0, 2, 3, 6, 16, 64])}"
        elif kind == "fires":
            fact = f"{named(*draw.choice(trackers), trackers)} fires"
        else:
            fact = f"{named(*draw.choice(nodes), nodes)} {kind}"
            if kind == "fails":
                fact += draw.choice(["", "", " lost", " nostrong", " misused", " misused WeakNotOk", " failed",
                                     " failed PoolFull", " failed TooFew"])
                fact += draw.choice(["", f" by {named(*draw.choice(nodes), nodes)}"])
        return f"#! {draw.choice(['never', 'always', 'sometimes'])} {fact}"

    def script(self, can_shut=True, has_claims=False):
        steps = self.begin()
        for _ in range(self.draw.randint(3, 8)):
            client = self.draw.choice(self.clients)
            steps[client] += self.step(client, can_shut)
        lines = [f"{client} join" for client in self.clients] + [line for client in self.clients for line in steps[client]]
        if has_claims and self.draw.random() < 0.7:
            lines = [self.claim() for _ in range(self.draw.randint(1, 3))] + lines
        return "\n".join(lines) + "\n"


def ran(words, text=""):
    """What the program writes on this input, and its status."""
    done = subprocess.run(words, input=text.encode(), capture_output=True, check=False)
    return done.stdout.decode(), done.returncode


class Outcome:
    """What the plain search says of an outcome: its share of the runs, its calls, who vanished, and for each client, for each
    node and tracker, by its client and label, and for the free pages, the name in reports and what became of it."""

    def __init__(self, text):
        head, *rows = text.splitlines()
        self.fault = head if head.startswith("no ") else None
        if not self.fault:
            share, calls, *self.vanished = head.split()
            self.share, self.calls = float(share), int(calls)
            self.rows = {key: (name, what) for key, name, what in (row.split("\t") for row in rows)}
            self.facts = (tuple(self.vanished), frozenset(self.rows.items()))

    def __str__(self):
        return "; ".join(f"{key} {what}" for key, (_, what) in self.rows.items())

    def is_called(self, label):
        """The key of what a claim names."""
        return label if label in self.rows else next((key for key in self.rows if key.endswith("." + label)), None)

    def has(self, fact):
        """Whether a claim's fact holds."""
        name, kind, *more = fact.split()
        if name == "free":
            return self.rows["free"][1] == kind
        what = self.rows.get(self.is_called(name), ("", ""))[1]
        if kind != "fails":
            return {"ends": what == "ends", "fires": what == "fires", "lives": what.startswith("is live"),
                    "pending": what.endswith("without buffers"), "waits": what.startswith("waits for ever")}[kind]
        if not what.startswith("fails, "):
            return False
        *cause, origin = what.removeprefix("fails, ").split()
        said, by = (more[: more.index("by")], more[-1]) if "by" in more else (more, None)
        return cause[: len(said)] == said and (by is None or self.rows[self.is_called(by)][0] == origin)


def is_share(words, share):
    """Whether the words say this share of the runs."""
    if words == "<0.1":
        return share < 0.001001
    return abs(float(words) - 100 * share) < (0.051 if "." in words else 0.501)


class Trial:
    """One script, explored one way."""

    def __init__(self, program, plain, script, way):
        self.program, self.script, self.way = program, script, way
        self.plain = [str(plain), *(word for word in way if word != "--certify")]
        self.outcomes = 0

    def verdict(self):
        """`None` if all is as it must be, `skipped`, or what is not."""
        with tempfile.NamedTemporaryFile("w", suffix=".actors") as file:
            file.write(self.script)
            file.flush()
            told, status = ran(self.plain + ["--states", str(MOST_STATES), file.name])
            if status == 7:
                return "skipped"
            head, *parts = told.split("\n= ")
            self.orders, states, self.never = re.fullmatch(r"orders (\S+) states (\d+)\nnever(.*)", head.rstrip("\n")).groups()
            self.wanted = {outcome.facts: outcome for outcome in map(Outcome, parts)}
            if int(states) * len(self.wanted) > MOST_PLAYED:
                return "skipped"
            return self.explored(file.name)

    def explored(self, name):
        words = [self.program, "explore", *self.way]
        report, status = ran([*words, name])
        head = re.match(r".*\n(\S+) orders?, \d+ states?, (\d+) outcomes?(, certified)?\n\n", report)
        if status not in (0, 6) or not head:
            return f"status {status}"
        self.outcomes = int(head[2])
        schedules = []
        for rank in range(1, self.outcomes + 1):
            schedule, ended = ran([word for word in words if word != "--certify"] + ["--outcome", str(rank), name])
            said = re.match(rf"# outcome {rank} of {self.outcomes}: .*?(\d+) calls? in \d+ turns?\n", schedule)
            if ended != 0 or not said:
                return f"outcome {rank}: status {ended}"
            schedules.append((schedule, int(said[1])))
        plays, _ = ran(self.plain + ["--plays", name], "".join(f"= \n{schedule}" for schedule, _ in schedules))
        plays = [Outcome(text) for text in ("\n" + plays).split("\n= ")[1:]]
        fault = self.sets_fault(plays, [calls for _, calls in schedules])
        for rank, (schedule, _) in enumerate(schedules, 1):
            fault = fault or self.run_fault(rank, schedule, plays[rank - 1])
        fault = fault or self.report_fault(report, plays) or self.claims_fault(report, plays, status)
        if not fault and "--certify" in self.way and not head[3]:
            fault = "it is not certified"
        said, orders = float(head[1]), float(self.orders)
        return fault or (None if said == orders or 1e15 < orders and abs(said / orders - 1) < 0.06 else f"{orders} orders")

    def sets_fault(self, plays, calls):
        """What is wrong with the outcomes of the schedules."""
        for rank, play in enumerate(plays, 1):
            if play.fault:
                return f"outcome {rank}: {play.fault}"
            if play.facts not in self.wanted:
                return f"outcome {rank} is none: {play}"
            wanted = self.wanted[play.facts]
            if not play.calls == calls[rank - 1] == wanted.calls:
                return f"outcome {rank}: {play.calls} calls, said to be {calls[rank - 1]}, not {wanted.calls}"
            play.share = wanted.share
        found = {play.facts for play in plays}
        lost = [str(outcome) for facts, outcome in self.wanted.items() if facts not in found]
        if lost:
            return f"{len(found)} outcomes, without\n  " + "\n  ".join(lost)
        return None if len(found) == len(plays) else "an outcome is told twice"

    def run_fault(self, rank, schedule, play):
        """What is wrong with the replies to a schedule."""
        pages = self.way[self.way.index("--pages") : self.way.index("--pages") + 2] if "--pages" in self.way else []
        lines = [line for line in schedule.splitlines() if line and not line.startswith("#")] + ["show free"]
        replies, status = ran([self.program, "run", *pages], "\n".join(lines) + "\n")
        answers = replies.splitlines()
        if status != 0 or len(answers) != len(lines):
            return f"outcome {rank}: run ends with status {status}"
        if answers[-1] != f"free {play.rows['free'][1]}":
            return f"outcome {rank}: {answers[-1]}"
        transcript = "".join(f"{line}\n  {answer}\n" for line, answer in zip(lines, answers))
        verdict, status = ran([self.program, "check", *pages], transcript)
        return f"outcome {rank}: check: {verdict}" if status != 0 or not verdict.startswith("agrees: ") else None

    def report_fault(self, report, plays):
        """What is wrong with the rows of the report."""
        rows = report.split("\nclaims\n")[0].split("\n\n", 1)[1]
        rows, _, never = rows.partition("\nnever made: ")
        lines = re.findall(r"line (\d+): ", never)
        if lines != self.never.split():
            return f"never made: {never.strip()}, not {self.never.strip()}"
        has_groups, behind = rows.startswith("if "), 0
        for group in rows.rstrip("\n").split("\n\n"):
            said = group.split("\n")
            count = int(re.search(r": (\d+) outcomes?$", said.pop(0))[1]) if has_groups else len(plays)
            ranks = range(behind + 1, behind + count + 1)
            behind += count
            fault = self.group_fault(said, plays, ranks, not has_groups)
            if fault:
                return fault
        return None if behind == len(plays) else "outcomes are in no group"

    @staticmethod
    def group_fault(said, plays, ranks, have_shares):
        """What is wrong with the rows of these outcomes."""
        wanted, seen, names = {}, set(), []
        for rank in ranks:
            for name, what in plays[rank - 1].rows.values():
                wanted.setdefault((name, what), []).append(rank)
        for line in said:
            *begin, what, which = re.split(" {2,}", line.strip())
            shares = re.fullmatch(r"(\S+) of 100: (.*)", which)
            if line.startswith("   "):
                what, which = (begin + [what, which])[-2:]
            else:
                names = begin[0].split(" ")
            for name in names:
                of = wanted.get((name, what), [])
                more = f" and {len(of) - 3} more" if len(of) > 3 else ""
                words = "always" if len(of) == len(ranks) else "outcome " + " ".join(map(str, of[:3])) + more
                if words != (shares[2] if shares else which) or (name, what) in seen:
                    return f"a wrong row: {line.strip()}: {name} {words}"
                if have_shares and words != "always" and not is_share(shares[1], sum(plays[rank - 1].share for rank in of)):
                    return f"a wrong share: {line.strip()}: {sum(plays[rank - 1].share for rank in of)}"
                seen.add((name, what))
        missing = set(wanted) - seen
        return f"no row for {missing}" if missing else None

    def claims_fault(self, report, plays, status):
        """What is wrong with what is said of claims."""
        form = r"^  line (\d+): (.*)\n    (holds|does not hold: (?:outcome (\d+), |no outcome has it))"
        said = re.findall(form, report, re.M)
        claims = [(str(at), line[3:]) for at, line in enumerate(self.script.split("\n"), 1)
                  if line.startswith("#! ") and not line.startswith("#! vanish")]
        if [(number, claim) for number, claim, *_ in said] != claims:
            return f"{len(said)} claims are answered, not {len(claims)}"
        broken = False
        for _, claim, verdict, rank in said:
            often, fact = claim.split(" ", 1)
            have = [outcome.has(fact) for outcome in plays]
            holds = {"never": not any(have), "always": all(have), "sometimes": any(have)}[often]
            broken |= not holds
            if holds != (verdict == "holds") or rank and have[int(rank) - 1] != (often == "never"):
                return f"{claim}: {verdict}"
        return None if broken == (status == 6) else f"status {status}"


def trial_of(program, plain, number, seed):
    """The script of this number: one of FIXED below 0."""
    if number < 0:
        words, script = FIXED[number]
        return Trial(program, plain, script.rstrip("\n") + "\n", words.split())
    draw = random.Random(f"{seed} {number}")
    way = WAYS[number % len(WAYS)] + ["--pages", draw.choice(["3", "6", "16", "64"])]
    script = Writer(draw).script(can_shut="--vanish" not in way, has_claims=True)
    return Trial(program, plain, script, way)


def main():
    words = sys.argv[1:]
    lanes = int(words[1]) if words[0] == "-j" else os.cpu_count()
    program, *numbers = words[2:] if words[0] == "-j" else words
    count, seed = (int(word) for word in (numbers + ["500", "1"][len(numbers) :]))
    subprocess.run(["cargo", "build", "--release", "--offline", "--quiet", "--bin", "plain-explore",
                    "--manifest-path", PLAIN / "plain" / "Cargo.toml", "--target-dir", PLAIN / "target"], check=True)
    plain = PLAIN / "target" / "release" / "plain-explore"
    tried, skipped, faults = 0, 0, 0
    trials = (trial_of(program, plain, number, seed) for number in range(-len(FIXED), count))
    with ThreadPoolExecutor(lanes) as pool:
        for number, (trial, fault) in enumerate(pool.map(lambda trial: (trial, trial.verdict()), trials), -len(FIXED)):
            tried += trial.outcomes
            skipped += fault == "skipped" and number >= 0
            if fault and (number < 0 or fault != "skipped"):
                faults += 1
                print(f"script {number}: explore {' '.join(trial.way)}: {fault}\n{trial.script}", flush=True)
    print(f"{count + len(FIXED)} scripts, {skipped} skipped, {tried} outcomes, {faults} faults")
    return faults > 0


if __name__ == "__main__":
    sys.exit(main())
