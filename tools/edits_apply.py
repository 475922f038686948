#!/usr/bin/env python3
"""Says which wrong edits no longer apply, of must-fail/, gate-edits/ and more-edits/ in crates/NAME.

  tools/edits_apply.py [NAME | NAME/EDIT.edit ..]      with no NAME: those of every crate, and of the page's calls
  tools/edits_apply.py --make FOLDER EDIT.edit         makes the edit in this copy of its crate

An edit applies where each of its `old:` texts stands exactly once in its file, after the pairs before it, and the
edit changes something. With no NAME it is also a fault where the gate tries more than eight edits of a crate, or one that
docs/TESTING.md does not list. It reads files alone, and takes less than a second. The last line counts; the status is 1 if
there is a fault.
"""
import pathlib
import re
import sys

TOP = pathlib.Path(__file__).resolve().parent.parent
CRATES = TOP / "crates"
PAGE = TOP / "web/page_calls"
# What `rt ci` tries, what `tools/more_edits.py --gate` tries beside, and all others.
GATE = ("must-fail", "gate-edits")
FOLDERS = (*GATE, "more-edits")
MOST = 8


class DoesNotApply(Exception):
    """Why an edit does not apply."""


def edited(crate, edit):
    """The texts that the edit makes of files of this crate, by their paths."""
    path, old, texts, before = None, None, {}, {}
    for line in edit.read_text(encoding="utf-8").split("\n"):
        if line.startswith("file: "):
            path = line[len("file: "):].strip()
            if not path.startswith(("src/", "specs/", "proofs/")):
                raise DoesNotApply(f"{path} is no file of src/, specs/ or proofs/")
        elif line.startswith("old: "):
            old = line[len("old: "):]
        elif line.startswith("new:"):
            if not path or not old:
                raise DoesNotApply("a 'new:' line stands before any 'file:' or 'old:' line")
            if path not in texts:
                file = crate / path
                if crate == PAGE:
                    file = file.with_suffix(".rattle")
                if not file.is_file():
                    raise DoesNotApply(f"there is no file {path}")
                texts[path] = before[path] = file.read_text(encoding="utf-8")
            count = texts[path].count(old)
            if count != 1:
                raise DoesNotApply(f"'{old.strip()}' stands in {path} {count} times")
            texts[path] = texts[path].replace(old, re.sub(r"\A ", "", line[len("new:"):]))
            old = None
        elif line.strip() and not line.startswith(("#", "--", "//")):
            raise DoesNotApply(f"a line begins with none of 'file: ', 'old: ' and 'new:': {line.strip()}")
    if texts == before:
        raise DoesNotApply("it changes nothing")
    return texts


def make(crate, edit):
    """Makes the edit in this copy of its crate."""
    for path, text in edited(crate, edit).items():
        (crate / path).write_text(text, encoding="utf-8")


def named(what):
    """The edits of a crate, or the one edit, that a word names."""
    name, _, one = what.partition("/")
    if one:
        found = [CRATES / name / folder / one for folder in FOLDERS if (CRATES / name / folder / one).is_file()]
    else:
        found = sorted(edit for folder in FOLDERS for edit in (CRATES / name).glob(f"{folder}/*.edit"))
    if not (CRATES / name).is_dir() or one and not found:
        sys.exit(f"edits_apply.py: there is no {'edit' if one else 'crate'} {what}")
    return found


def misplaced():
    """Files of a folder of edits that no one reads: of another ending, or in a folder of it."""
    for folder in FOLDERS:
        for file in sorted(CRATES.glob(f"*/{folder}/**/*")):
            plain = re.fullmatch(r"[A-Za-z0-9_-][A-Za-z0-9_.-]*\.edit", file.name) and file.parent.name == folder
            if file.is_file() and not plain:
                yield file


def of_the_gate():
    """What is wrong with the edits that the gate tries: of a crate too many, or not listed."""
    listed = (TOP / "docs/TESTING.md").read_text(encoding="utf-8")
    for crate in sorted(CRATES.iterdir()):
        edits = [edit for folder in GATE for edit in crate.glob(f"{folder}/*.edit")]
        if len(edits) > MOST:
            yield crate, f"the gate tries {len(edits)} edits of a crate, and not at most {MOST}"
        yield from ((edit, "docs/TESTING.md does not list it") for edit in edits if f"`{edit.stem}`" not in listed)


def report(words):
    """Prints which edits do not apply, and a count; returns the status."""
    edits = [edit for what in words or sorted(it.name for it in CRATES.iterdir()) for edit in named(what)]
    if not words:
        edits += sorted(PAGE.glob("wrong/*.edit"))
    faults = [] if words else [(file, "it is no file NAME.edit right in the folder") for file in misplaced()]
    asked = len(edits) + len(faults)
    for edit in edits:
        try:
            edited(edit.parent.parent, edit)
        except (DoesNotApply, UnicodeDecodeError) as fault:
            faults.append((edit, fault))
    counts = [] if words else list(of_the_gate())
    for file, fault in faults + counts:
        print(f"{file.relative_to(TOP)}: {fault}")
    print(f"{asked - len(faults)} edits apply, {len(faults)} do not")
    return 1 if faults or counts else 0


if __name__ == "__main__":
    if sys.argv[1:] in (["--help"], ["-h"]):
        print(__doc__.strip())
    elif sys.argv[1:2] == ["--make"] and len(sys.argv) == 4:
        try:
            make(pathlib.Path(sys.argv[2]), pathlib.Path(sys.argv[3]))
        except DoesNotApply as fault:
            sys.exit(str(fault))
    elif any(word.startswith("-") for word in sys.argv[1:]):
        sys.exit("edits_apply.py: unknown words; --help tells what it takes")
    else:
        sys.exit(report(sys.argv[1:]))
