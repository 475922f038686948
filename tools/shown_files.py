#!/usr/bin/env python3
"""Checks that documents show files as they are: each of these files stands whole in a code block of its document.

  tools/shown_files.py

It reads files alone, and takes less than a second. The last line counts; the status is 1 if a document shows another text.
"""
import pathlib
import re
import sys

TOP = pathlib.Path(__file__).resolve().parent.parent
SHOWN = [
    ("docs/RATTLE.md", "crates/test_ends/src/tests/example.rt"),
    ("docs/START.md", "examples/first.script"),
    ("docs/START.md", "examples/first.out"),
]


def main():
    faults = 0
    for page, file in SHOWN:
        blocks = re.findall(r"^```\w*\n(.*?)^```$", (TOP / page).read_text(encoding="utf-8"), re.M | re.S)
        if (TOP / file).read_text(encoding="utf-8") not in blocks:
            faults += 1
            print(f"{page} does not show {file} as it is")
    print(f"{len(SHOWN)} files shown, {faults} faults")
    return faults > 0


if __name__ == "__main__":
    sys.exit(main())
