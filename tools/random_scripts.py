#!/usr/bin/env python3
"""Writes random scripts: tools/random_scripts.py PROGRAM FOLDER COUNT [SEED]

PROGRAM is a built `sysmem`: each line is written in view of its answers to the lines before, so that most lines are good and
change something. A few scripts have a bad line, or no end of the last one. Beside them stand two trees of 1,024 nodes, wide and
deep, that fail at once. Equal seeds give equal scripts."""
import random
import subprocess
import sys
from pathlib import Path

ENDS = {"sync": 2, "bind": 6, "take": 4, "check": 2, "release": 2, "close": 2, "weak": 1, "weakok": 1, "dispensable": 1}
MORE = {"open": 2, "dup": 5, "attach": 4, "constrain": 6, "give": 2, "collect": 4, "duph": 2, "droph": 4, "giveh": 2,
        "children": 1, "tracknode": 1, "tracklife": 1, "trackweak": 1, "poll": 1, "show": 1, "remark": 1}
KINDS = [kind for kind, weight in {**ENDS, **MORE}.items() for _ in range(weight)]
BAD = ["hum", "c0  join", "c0 join", "c0 open", "c0 sync nobody", "c0 open A", "show all", "c0 constrain x 65 0 1"]


class Script:
    """A script in the making, and the answers to its lines."""

    def __init__(self, program, dice):
        self.dice, self.lines, self.nodes, self.trackers, self.holders, self.made = dice, [], [], [], {}, 0
        self.run = subprocess.Popen([program, "run"], stdin=subprocess.PIPE, stdout=subprocess.PIPE, text=True, bufsize=1)
        self.clients = [f"c{i}" for i in range(dice.randint(1, 5))]
        for client in self.clients:
            self.ask(f"{client} join")

    def ask(self, line):
        """The answer to a line that has one."""
        self.lines.append(line)
        self.run.stdin.write(f"{line}\n")
        return self.run.stdout.readline().rstrip("\n")

    def label(self):
        self.made += 1
        return f"{self.dice.choice('xyz')}{self.made}"

    def bind(self, client, line, kind):
        """Asks a line that binds a label, and keeps the label if the answer is of this kind."""
        label = self.label()
        if self.ask(f"{line} {label}").startswith(kind):
            self.nodes.append(label)
            self.holders[label] = client

    def step(self):
        """Writes one more line, if it needs nothing that there is not."""
        dice, client = self.dice, self.dice.choice(self.clients)
        kind = dice.choice(KINDS)
        mine = [node for node in self.nodes if self.holders.get(node) == client] or self.nodes
        if kind == "open":
            self.bind(client, f"{client} open", "token")
        elif kind == "collect":
            self.bind(client, f"{client} collect", ("token", "collection"))
        elif kind == "show":
            self.ask(f"show {dice.choice(['live', 'held', 'fired', 'free'])}")
        elif kind == "remark":
            self.run.stdin.write("# a remark\n")
            self.lines.append("# a remark")
        elif kind == "poll" and self.trackers:
            self.ask(f"{client} poll {dice.choice(self.trackers)}")
        elif mine and kind != "poll":
            self.ask_of(client, kind, dice.choice(mine[-6:] if dice.random() < 0.6 else mine))

    def ask_of(self, client, kind, node):
        """Writes a line on a node, or on a buffer of its collection."""
        dice = self.dice
        buffer = f"{node}.{dice.choice([0, 0, 1, 2, 63])} {dice.choice(['strong', 'strong', 'weak'])}"
        if kind in ("dup", "attach"):
            self.bind(client, f"{client} {kind} {node}", "token")
        elif kind == "give":
            if self.ask(f"{client} give {node} {dice.choice(self.clients)}") == "done":
                self.holders.pop(node, None)
        elif kind == "constrain":
            size = dice.choice([1, 4096, 5000, 8192, 1 << 20])
            self.ask(f"{client} constrain {node} {dice.choice([0, 1, 1, 2, 3, 64])} {dice.choice([0, 0, 1, 4])} {size}")
        elif kind in ("duph", "droph"):
            self.ask(f"{client} {kind} {buffer}")
        elif kind == "giveh":
            self.ask(f"{client} giveh {buffer} {dice.choice(self.clients)}")
        elif kind == "children":
            self.ask(f"{client} weakok {node} children")
        elif kind in ("tracknode", "tracklife", "trackweak"):
            what = {"tracknode": node, "tracklife": f"{node} {dice.randint(0, 3)}", "trackweak": f"{node}.0"}[kind]
            label = self.label()
            if self.ask(f"{client} {kind} {what} {label}").startswith("tracker"):
                self.trackers.append(label)
        else:
            self.ask(f"{client} {kind} {node}")

    def text(self):
        """The whole script."""
        self.run.stdin.close()
        self.run.wait()
        if self.dice.random() < 0.1:
            self.lines.append(self.dice.choice(BAD))
        return "\n".join(self.lines) + ("" if self.dice.random() < 0.02 else "\n")


def trees():
    """Two trees of 1,024 nodes that fail at once."""
    begin = ["a join", "a open r0"]
    wide = [f"a dup r0 r{i + 1}" for i in range(1023)] + ["a close r0"]
    deep = [f"a dup r{i} r{i + 1}" for i in range(1023)] + ["a close r1023"]
    return {name: "\n".join(begin + lines) + "\n" for name, lines in (("wide", wide), ("deep", deep))}


def main():
    program, folder, count, seed = *sys.argv[1:4], *(sys.argv[4:] or ["1"])
    folder = Path(folder)
    folder.mkdir(parents=True, exist_ok=True)
    for name, text in trees().items():
        (folder / f"{name}.script").write_text(text)
    for number in range(int(count)):
        script = Script(program, random.Random(f"{seed} {number}"))
        for _ in range(script.dice.choice([5, 20, 60, 150, 400])):
            script.step()
        (folder / f"{number:05}.script").write_text(script.text())


main()
