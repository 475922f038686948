#!/usr/bin/env python3
"""Checks that what happens in runs of random scripts of actors is among what `explore` tells.

  tools/random_runs.py PROGRAM [COUNT] [RUNS] [SEED]

PROGRAM is a built `sysmem`. It runs each of COUNT scripts (100 if not given) RUNS times (10) with `threads --record`. Which nodes
failed in a run, by which cause and origin, must be so in an outcome of `explore --once --end`. Equal seeds give equal scripts.
The last line counts; the status is 1 if a run has an outcome that is not told."""
import random
import re
import sys

from random_outcomes import Writer, ran


def failures_of(program, script):
    """The nodes that fail in the script, each with its cause and the node of its loss. A node is called by the client that made
    it, and how many this client had made before."""
    told, status = ran([program, "explain"], script)
    if status != 0:
        raise SystemExit(f"explain ends with status {status}:\n{script}")
    names, made, failed, loss, line = {}, {}, set(), None, []
    for text in told.split("\n"):
        words = text.split()
        begun = re.match(r"    +(\S+) fails, ([^:]*)", text)
        if not text.startswith(" "):
            line, loss = words, None
        elif words[0] == "token" and not text.startswith("   ") and line[1] in ("open", "dup", "attach"):
            made[line[0]] = made.get(line[0], 0) + 1
            names[words[1]] = f"{line[0]}.{made[line[0]]}"
        elif begun:
            loss = (begun[2], begun[1])
            failed.add((begun[1], *loss))
        elif loss and words[0] in ("up", "down"):
            failed.update((node, *loss) for node in words[1:] if node != ">")
    return frozenset((names[node], cause.replace(origin, names[origin]), names[origin]) for node, cause, origin in failed)


def told_of(program, script):
    """What fails in each outcome of the script."""
    report, status = ran([program, "explore", "--once", "--end"], script)
    if status != 0:
        raise SystemExit(f"explore ends with status {status}:\n{script}")
    count = int(re.search(r"(\d+) outcomes?\n", report)[1])
    plays = (ran([program, "explore", "--once", "--end", "--outcome", str(rank)], script)[0] for rank in range(1, count + 1))
    return {failures_of(program, play) for play in plays}


def main():
    program = sys.argv[1]
    count, runs, seed = (int(word) for word in (sys.argv[2:] + ["100", "10", "1"][len(sys.argv) - 2 :]))
    made, met, faults = 0, 0, 0
    for number in range(count):
        script = Writer(random.Random(f"{seed} {number}")).script()
        told, seen = told_of(program, script), set()
        for _ in range(runs):
            record = ran([program, "threads", "--record"], script)[0]
            failed = failures_of(program, record)
            made += 1
            seen.add(failed)
            if failed not in told:
                faults += 1
                print(f"script {number}: {sorted(failed)}\n{script}\n{record}")
        met += len(seen)
    print(f"{made} runs of {count} scripts, {met} outcomes of runs, {faults} faults")
    return faults > 0


if __name__ == "__main__":
    sys.exit(main())
