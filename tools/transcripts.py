#!/usr/bin/env python3
"""Checks that explanations are transcripts of their scripts.

  tools/transcripts.py

Of each example, and of each row of test_script_rows that is explained: the explanation without its indented lines is the
script, as far as it was told, and its lines of exactly two spaces are the replies. The replies of an example stand in
its `.out`. It reads files alone, and takes less than a second. The last line counts; the status is 1 if one differs.
"""
import pathlib
import sys

TOP = pathlib.Path(__file__).resolve().parent.parent
INDENT = b"  "


def lines(text):
    return text.split(b"\n")[:-1]


def parts_of(told):
    """The lines without an indent, and the replies, of an explanation."""
    script = [line for line in told if not line.startswith(INDENT)]
    replies = [line[2:] for line in told if line.startswith(INDENT) and not line.startswith(2 * INDENT)]
    return script, replies


def rows(text):
    """The titled parts of a file of rows."""
    found = []
    for line in lines(text):
        if line.startswith(b"= "):
            found.append((line, []))
        else:
            found[-1][1].append(line)
    return found


def fault_of(script, told, replies):
    """What is wrong with the explanation of a script, if something is. `replies` may be unknown."""
    faults = [line for line in told if line.startswith(b"! ")]
    said, answered = parts_of([line for line in told if not line.startswith(b"! ")])
    wanted = [line for line in script if not line.startswith(INDENT) and not line.startswith(b"@ ")]
    if said != wanted[: len(said)] or (len(said) < len(wanted)) != bool(faults):
        return "its lines without an indent are not the script"
    if replies is not None and answered != replies:
        return "its lines of two spaces are not the replies"
    if any(line.startswith(3 * b" ") and not line.startswith(4 * b" ") for line in told):
        return "a line of it is indented by three spaces"
    return None


def main():
    cases = []
    for script in sorted(TOP.glob("examples/*.script")):
        told, out = script.with_suffix(".explained"), script.with_suffix(".out")
        cases.append((script.name, *(lines(path.read_bytes()) for path in (script, told, out))))
    folder = TOP / "crates/test_script_rows"
    given, wrote = (rows((folder / name).read_bytes()) for name in ("stdin", "stdout"))
    for (title, script), (_, told) in zip(given, wrote, strict=True):
        if title.startswith(b"= explain "):
            cases.append((title.decode(), script, told, None))
    failed = 0
    for name, script, told, replies in cases:
        fault = fault_of(script, told, replies)
        if fault:
            failed += 1
            print(f"{name}: {fault}")
    print(f"{len(cases) - failed} transcripts, {failed} faults")
    return failed > 0


if __name__ == "__main__":
    sys.exit(main())
