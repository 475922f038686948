#!/usr/bin/env python3
"""Says what `rt ci` has proved of these sources on this machine and kept: another `rt ci` takes it, by checksum.

  tools/kept.py [--take] [NAME ..]      of the crates NAME and those below them; with no NAME, of all

A line for each crate says whether its proof is kept, the proof of its tests, and how many results of its edits in must-fail/.
The last line counts the crates of which all is kept; the status is 1 if not all are. --take puts the kept libraries, programs
and tests into crates/NAME/out, where `tools/more_edits.py --built` and others take them. They are what `rt ci` leaves:
`rt check` and `rt lib` prove anew what such a library replaced. It calls functions of `rt` itself, so another version may need
another tool."""
import hashlib
import importlib.machinery
import importlib.util
import json
import os
import pathlib
import shutil
import sys

sys.dont_write_bytecode = True
ROOT = str(pathlib.Path(__file__).resolve().parent.parent)


def rt_itself():
    """The module that the command rt is, set up for this repository as `rt ci` does."""
    path = os.path.realpath(shutil.which("rt") or sys.exit("there is no command rt"))
    loader = importlib.machinery.SourceFileLoader("rt", path)
    rt = importlib.util.module_from_spec(importlib.util.spec_from_loader("rt", loader))
    loader.exec_module(rt)
    rt.Crate.allowed = rt.handles_of(ROOT)
    rt.rtlib.Crate = rt.Crate
    return rt


def is_kept(rt, kept, crate, takes):
    """Says what is kept of a crate; answers whether all is. The crates below it come first: their libraries are in its key."""
    key = kept.key(crate)
    proof, (edits, _) = kept.place(crate, False, key), rt.edits_of(crate)
    if not all(it.name in kept.rlibs for it in crate.below()) or not os.path.isdir(proof):
        print(f"{crate.name}: not kept")
        return False
    with open(f"{proof}/made.json", encoding="utf-8") as it:
        files = [] if crate.is_program else [tuple(file) for file in json.load(it)["files"]]
    kept.rlibs[crate.name] = hashlib.sha256(repr(files).encode()).hexdigest()
    has_tests = not crate.has_tests() or os.path.isdir(kept.place(crate, True, key))
    if takes:
        shutil.rmtree(f"{crate.folder}/out/rlib", ignore_errors=True)
        os.makedirs(f"{crate.folder}/out", exist_ok=True)
        for tests in (False, True)[:1 + crate.has_tests()]:
            kept.give(crate, tests, key)
    tried = sum(kept.tried(kept.of_edit(it, key)) is not None for it in edits)
    of_edits = f", and {tried} of {len(edits)} edits" if edits else ""
    print(f"{crate.name}: kept{'' if has_tests else ', but not its tests'}{of_edits}")
    return has_tests and tried == len(edits)


def main(words):
    takes, names = "--take" in words, [it for it in words if it != "--take"]
    rt = rt_itself()
    crates = sorted(rt.rtlib.crates_below(ROOT), key=lambda it: len(it.below()))
    lacking = set(names) - {it.name for it in crates}
    if lacking:
        sys.exit(f"kept.py: there is no crate {min(lacking)}; --help tells what it takes")
    wanted = {below.name for it in crates if not names or it.name in names for below in [it, *it.below()]}
    kept = rt.Kept(crates)
    found = [is_kept(rt, kept, it, takes) for it in crates if it.name in wanted]
    print(f"{sum(found)} kept, {len(found) - sum(found)} not")
    return 0 if all(found) else 1


if __name__ == "__main__":
    if sys.argv[1:] in (["--help"], ["-h"]):
        print(__doc__.strip())
    else:
        sys.exit(main(sys.argv[1:]))
