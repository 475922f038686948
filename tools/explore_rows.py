#!/usr/bin/env python3
"""Compares what `explore` says of each script of tools/explore_rows.in with tools/explore_rows.out.

  tools/explore_rows.py PROGRAM [--write]

PROGRAM is a built `sysmem`. In both files `= TITLE` begins a row. A line `@ WORDS` right after it gives options, and the script
follows; the outcome of a row `outcome K` is that of the script that is given. What is wanted is the standard output, then each
line of the standard error with `! ` before it, then `! status N` where the status N is not 0. --write writes what is said now
into the second file. The last line counts; the status is 1 if something differs."""
import subprocess
import sys
from pathlib import Path

FOLDER = Path(__file__).parent


def rows(name):
    """The rows of a file: the title of each, and its lines."""
    _, *parts = ("\n" + (FOLDER / name).read_bytes().decode("latin-1")).split("\n= ")
    return [part.rstrip("\n").split("\n") for part in parts]


def said(program, lines):
    """What the program says of a script."""
    words = lines.pop(0)[2:].split() if lines and lines[0].startswith("@ ") else []
    script = "".join(f"{line}\n" for line in lines).encode("latin-1")
    done = subprocess.run([program, "explore", *words], input=script, capture_output=True, check=False)
    told = [f"! {line}" for line in done.stderr.decode().splitlines()]
    status = [f"! status {done.returncode}"] if done.returncode else []
    return "\n".join([done.stdout.decode("latin-1").rstrip("\n"), *told, *status]).strip("\n")


def main(program, *words):
    now = [(title, said(program, lines)) for title, *lines in rows("explore_rows.in")]
    if words == ("--write",):
        text = "".join(f"= {title}\n{told}\n" for title, told in now)
        (FOLDER / "explore_rows.out").write_bytes(text.encode("latin-1"))
    wanted = [(title, "\n".join(lines).strip("\n")) for title, *lines in rows("explore_rows.out")]
    differ = [(title, told, text) for (title, told), (_, text) in zip(now, wanted) if told != text]
    for title, told, text in differ:
        print(f"= {title}\n{told}\n-- not\n{text}\n")
    print(f"{len(now)} rows, {len(differ) + abs(len(now) - len(wanted))} differ")
    return bool(differ) or len(now) != len(wanted)


if __name__ == "__main__":
    sys.exit(main(*sys.argv[1:]))
