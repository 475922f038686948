#!/usr/bin/env python3
"""Prints the hash of all that the page docs/try.html is made of, or says whether the page still has it.

  tools/page_sources.py              the hash, for `web/build.sh`, which writes it into the page
  tools/page_sources.py --check      status 1 if docs/try.html was made of something else: tools/web.sh makes it anew

The sources are the code of the crates whose functions the page calls and of all crates below them, the page's own files, and
the examples. The toolchain isn't among them. Marks of inlining are left out: they change no answer.
"""
import hashlib
import pathlib
import re
import sys

TOP = pathlib.Path(__file__).resolve().parent.parent
PAGE = TOP / "docs/try.html"
CALLED = ["script_explain", "script_draw", "outcome_runs"]
OWN = ["build.sh", "heap.c", "index.html", "narrow.py", "pack.py", "page.js", "orders.js", "page_calls/src/**/*.rattle"]


def crates():
    """The crates that the page calls, and all crates of the repository below them."""
    uses = {}
    for line in (TOP / "crates.txt").read_text().splitlines():
        found = re.match(r"(\w+)[^:#]*:(.*)", line)
        if found:
            uses[found[1]] = found[2].split()
    found, left = set(), list(CALLED)
    while left:
        name = left.pop()
        if name in uses and name not in found:
            found.add(name)
            left += uses[name]
    return found


def sources():
    """The files that the page is made of."""
    files = [file for name in crates() for file in (TOP / "crates" / name / "src").rglob("*.rt")]
    files += [file for pattern in OWN for file in (TOP / "web").glob(pattern)]
    files += (TOP / "examples").glob("*.script")
    files += [file.with_suffix(".actors") for file in (TOP / "examples").glob("*.outcomes")]
    return sorted(file.relative_to(TOP) for file in files)


def digest():
    """The hash of their names and texts."""
    whole = hashlib.sha256()
    for file in sources():
        text = re.sub(rb"^ *#\[inline[^]\n]*\]\n", b"", (TOP / file).read_bytes(), flags=re.M)
        whole.update(f"{file} {len(text)}\n".encode() + text)
    return whole.hexdigest()


def main():
    if sys.argv[1:] == []:
        print(digest())
    elif sys.argv[1:] == ["--check"]:
        named = re.search(r'<meta name="sources" content="([0-9a-f]*)">', PAGE.read_text())
        if not named or named[1] != digest():
            sys.exit(f"{PAGE.relative_to(TOP)} was made of other sources: tools/web.sh makes it anew")
        print(f"{PAGE.relative_to(TOP)} was made of these {len(sources())} sources")
    else:
        sys.exit(__doc__.strip())


main()
