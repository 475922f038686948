#!/usr/bin/env python3
"""Lists what the proof of a crate costs, function by function.

  tools/proof_times.py [-n ROWS] [--test] NAME

It proves the crate from nothing, with its tests under --test, in one process, over the libraries that `rt check` has
built, and keeps nothing. The prover writes a file for each module as soon as the module is checked, and the time since
the file before it is what the module took. The rows sum these seconds by function (or file of lemmas), then by kind of
module, the dearest first. Lts is the code of a function as a transition system: it grows with branches, early exits and
owned values. Proof and Answers are its goals. The first rows of a crate also have 5 to 30 seconds in which libraries are
loaded. Seconds are those of the clock: let nothing else run.
"""
import argparse
import collections
import importlib.machinery
import importlib.util
import os
import pathlib
import re
import shutil
import subprocess
import sys
import tempfile
import time

TOP = pathlib.Path(__file__).resolve().parent.parent
# Parts of a function's proof: the last word of a module's name.
PARTS = re.compile(r"^(?:Lts|Proof|Answers|Invariants|Goals|Tie|Layout|Kinds|Code|Mir|Reads|Named|Met|Statement|View|Symbol|Inside|The\w+|Key)$")


def toolchain():
    """The modules of the command rt."""
    folder = pathlib.Path(os.path.realpath(shutil.which("rt") or sys.exit("there is no command rt"))).parent
    sys.path.insert(0, str(folder))
    sys.dont_write_bytecode = True
    loader = importlib.machinery.SourceFileLoader("rt", str(folder / "rt"))
    module = importlib.util.module_from_spec(importlib.util.spec_from_loader("rt", loader))
    loader.exec_module(module)
    return module


def crate_of(rt, name):
    """The crate of this name."""
    os.chdir(TOP)
    rt.Crate.allowed = rt.handles_of(str(TOP))
    for crate in rt.crates_of(str(TOP)):
        if crate.name == name:
            return crate
    sys.exit(f"crates.txt has no crate {name}")


def modules(rt, crate, tests):
    """The modules that a check from nothing writes, in order, each with the seconds that it took."""
    lacking = [it.name for it in crate.below() if not it.is_built()]
    if lacking:
        sys.exit(f"the library {lacking[0]} is not built: run rt check in crates/{crate.name} first")
    with tempfile.TemporaryDirectory() as room:
        words = crate.words(["--jobs", "1"], tests=tests, keeps=False)
        command = [*rt.rtlib.guarded(), rt.rtlib.RATTLE, "check", *words, "--incremental", room]
        last = time.time()
        ran = subprocess.run(command, cwd=crate.folder, stdout=subprocess.PIPE, stderr=subprocess.STDOUT, text=True)
        print(ran.stdout.rstrip("\n").split("\n")[-1])
        files = [pathlib.Path(at) / name for at, _, names in os.walk(room) for name in names]
        for written, path in sorted((it.stat().st_mtime, it.name) for it in files):
            yield re.sub(r"(?:\.decls)?\.oantt$", "", path), written - last
            last = written


def main():
    parser = argparse.ArgumentParser(description=__doc__.split("\n")[0])
    parser.add_argument("-n", type=int, default=40, metavar="ROWS", help="how many functions are listed (40)")
    parser.add_argument("--test", action="store_true", help="proves the crate with its tests")
    parser.add_argument("name", metavar="NAME", help="a crate")
    asked = parser.parse_args()
    rt = toolchain()
    functions, kinds = collections.Counter(), collections.Counter()
    for module, seconds in modules(rt, crate_of(rt, asked.name), asked.test):
        words = re.sub(rf"^Rattle-{asked.name}-(?:proofs|specs)\.", "", module).split(".")
        kind = words.pop() if len(words) > 1 and PARTS.match(words[-1]) else "other"
        functions[".".join(words)] += seconds
        kinds[kind] += seconds
    print(f"{sum(kinds.values()):8.1f} s in all")
    for rows, most in ((functions, asked.n), (kinds, 12)):
        print()
        for name, seconds in rows.most_common(most):
            print(f"{seconds:8.2f} {name}")


if __name__ == "__main__":
    main()
