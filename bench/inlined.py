#!/usr/bin/env python3
"""How large the functions of a module are for the toolchain's inlining: lines of LLVM's language, with those of all
functions that are marked `inline(always)` within them.

  inlined.py MODULE.ll [FUNCTION]      the largest 30, or the parts of one, as lifetime_core::machine::Core::commit

A mark is dropped, without a word, from a function that is too large: in the core one of 8,076 lines kept it, and one of 8,640
lost it. The module is what the compiler gives to LLVM: zeroed.sh keeps it, and the toolchain's `clang -x ir -S -emit-llvm` makes
text of it.
"""
import functools
import re
import sys

NAME = r'@("[^"]*"|[\w.:$]+)\('


def functions(path):
    """Of each function: its lines, how often it calls others, and the number of its attributes."""
    found, marked, name = {}, set(), None
    for line in open(path, encoding="utf-8"):
        begin = re.match(r"^define .*?" + NAME, line)
        if begin:
            name = begin[1].strip('"')
            found[name] = [0, {}, line.rsplit(")", 1)[1].split()[0]]
        elif line.startswith("}"):
            name = None
        elif line.startswith("attributes") and "alwaysinline" in line:
            marked.add(line.split()[1])
        elif name and line.strip():
            found[name][0] += 1
            for call in re.finditer(r"\bcall\b[^@]*" + NAME, line):
                called = call[1].strip('"')
                found[name][1][called] = found[name][1].get(called, 0) + 1
    return found, {name for name, parts in found.items() if parts[2] in marked}


def main(path, whole=None):
    found, inlined = functions(path)
    sys.setrecursionlimit(10_000)

    @functools.cache
    def size(name):
        return found[name][0] + sum(n * size(called) for called, n in found[name][1].items() if called in inlined)

    def show(name, times, depth):
        print(f"{'  ' * depth}{size(name)}  {times} x {name}")
        for called, n in sorted(found[name][1].items(), key=lambda part: part[0] not in inlined or -part[1] * size(part[0])):
            if called in inlined and n * size(called) >= 100:
                show(called, n, depth + 1)

    if whole:
        show(whole, 1, 0)
        return
    for name in sorted(found, key=size, reverse=True)[:30]:
        print(f"{size(name):7} {'marked' if name in inlined else '      '} {name}")


main(*sys.argv[1:3])
