#!/usr/bin/env python3
"""Compares the sizes that the documents state with the sizes of the tree, and writes them anew.

  tools/sizes.py           lists each size: what the document says, and what it is
  tools/sizes.py --check   the same for those that are wrong; the status is 1 if there is one
  tools/sizes.py --write   puts the sizes of the tree into the documents

All but `--write` also count the words of the documents, and more than MOST_WORDS are a fault. A word stands between blanks and
has a letter or a digit.

A count is exact. A number of lines is stated in rounded form, and is wrong if it is off by more than 3%, in the list of the
crates by more than a tenth and ten lines. Lines are counted without comments and blank lines. The sums leave out the test_..
crates.
"""
import glob
import os
import re
import sys

os.chdir(os.path.join(os.path.dirname(os.path.abspath(__file__)), ".."))


def is_test(path):
    return path.split("/")[1].startswith("test_")


def lines(pattern, comment, tests=False):
    """The lines of the files with these names, without comments and blank lines."""
    total = 0
    for path in glob.glob(pattern, recursive=True):
        if tests or not is_test(path):
            with open(path, encoding="utf-8") as file:
                total += sum(1 for line in file if line.strip() and not line.strip().startswith(comment))
    return total


def sizes_of(crate):
    """A crate's lines of code, of specifications and of proofs."""
    return [lines(f"crates/{crate}/{folder}", comment, tests=True)
            for folder, comment in [("src/**/*.rt", "//"), ("specs/**/*.antt", "--"), ("proofs/**/*.antt", "--")]]


def rounded(number):
    """The number with two digits, or three after a 1, and a comma at the thousands."""
    digits = 3 if str(number).startswith("1") else 2
    step = 10 ** max(len(str(number)) - digits, 0)
    return f"{round(number / step) * step:,}"


def instructions(row):
    """What the row of bench/TABLE.md costs in instructions: here, and in the plain core."""
    with open("bench/TABLE.md", encoding="utf-8") as file:
        words = next(line.split() for line in file if line.startswith(row + "  "))
    return words[-3:-1]


NUMBERS = "zero one two three four five six seven eight nine ten eleven twelve thirteen fourteen fifteen".split()


def word(number):
    return NUMBERS[number] if number < len(NUMBERS) else str(number)


gate_edits = glob.glob("crates/*/gate-edits/*.edit") + glob.glob("crates/*/must-fail/*.edit")
by_crate = {}
for edit in gate_edits:
    by_crate[edit.split("/")[1]] = by_crate.get(edit.split("/")[1], 0) + 1
all_edits = len(gate_edits) + len(glob.glob("crates/*/more-edits/*.edit"))

# A document, the sentence with one group for each size, and the sizes: as text, or as a number of lines.
SIZES = [
    ("README.md", r"the crates have ([\d,]+) lines of code, ([\d,]+) of specifications and ([\d,]+) of proofs",
     [lines("crates/*/src/**/*.rt", "//"), lines("crates/*/specs/**/*.antt", "--"), lines("crates/*/proofs/**/*.antt", "--")]),
    ("README.md", r"`crates/sm_names/specs`, ([\d,]+) lines", [lines("crates/sm_names/specs/**/*.antt", "--")]),
    ("README.md", r"gate tries (\d+) of some ([\d,]+) wrong bodies", [str(len(gate_edits)), all_edits]),
    ("README.md", r"Sync among 1,000 nodes \| (\d+) \| (\d+)", instructions("a4 sync among 1,000")),
    ("README.md", r"open and close a collection \| (\d+) \| (\d+)", instructions("a1 open, close")),
    ("README.md", r"loss of 1,000 nodes, each \| (\d+) \| (\d+)", instructions("b2 wide loss 1,000 /node")),
    ("README.md", r"mixed calls, 256 collections \| (\d+) \| (\d+)", instructions("e mixed, 256 collections")),
    ("docs/TESTING.md", r"gate tries (\d+) edits in (\w+) crates, at most (\w+) a crate",
     [str(len(gate_edits)), word(len(by_crate)), word(max(by_crate.values()))]),
]


# The documents, and how many words they have at most, all together.
DOCUMENTS = ["README.md", "CONTRIBUTING.md", "CHANGELOG.md", *sorted(glob.glob("docs/*.md"))]
# Up to 1,000 of them are of docs/DAEMON.md, which stands apart: who uses the service in one process need not read it.
MOST_WORDS = 27_900


# The document that lists the crates, and one of its rows: the crate with its three sizes.
LIST = "docs/CRATES.md"
ITEM = re.compile(r"\[(\w+)\]\(\.\./crates/\w+\) \| ([\d,]+) \| ([\d,]+) \| ([\d,]+) \|")


def differs(said, size):
    """Whether the size that a document states is wrong."""
    if isinstance(size, str):
        return said != size
    return abs(int(said.replace(",", "")) - size) > 0.03 * size


def crate_differs(said, size):
    """Whether the size of a crate that the list states is wrong."""
    return abs(int(said.replace(",", "")) - size) > max(size / 10, 10)


def report_crates(only_wrong):
    """Lists the sizes of the crates, and answers how many are wrong or lack."""
    wrong = 0
    found = {item[0]: item[1:] for item in ITEM.findall(open(LIST, encoding="utf-8").read())}
    for crate in sorted(set(os.listdir("crates")) | set(found)):
        is_crate = os.path.isdir(f"crates/{crate}/src")
        if crate.startswith("test_") and crate not in found:
            continue
        if crate not in found or not is_crate:
            print(f"{LIST}: {crate} {'is not listed' if is_crate else 'is no crate'}")
            wrong += 1
            continue
        off = any(crate_differs(said, size) for said, size in zip(found[crate], sizes_of(crate)))
        wrong += off
        if off or not only_wrong:
            exactly = " + ".join(f"{size:,}" for size in sizes_of(crate))
            print(f"{LIST}: {crate} {' + '.join(found[crate])}{' is wrong, it is ' if off else ', exactly '}{exactly}")
    return wrong


def words_of(path):
    """How many words a document has."""
    with open(path, encoding="utf-8") as file:
        return sum(1 for word in file.read().split() if any(letter.isalnum() for letter in word))


def report_words(only_wrong):
    """Tells how many words the documents have, and answers whether they are too many."""
    if not only_wrong:
        for path in DOCUMENTS:
            print(f"{path}: {words_of(path):,} words")
    total = sum(words_of(path) for path in DOCUMENTS)
    print(f"the documents have {total:,} words{', too many:' if total > MOST_WORDS else ','} at most {MOST_WORDS:,} are wanted")
    return total > MOST_WORDS


def write_crates():
    """Puts the sizes of crates that are wrong into the list."""
    def item(found):
        crate, said = found.group(1), found.groups()[1:]
        if not any(crate_differs(one, size) for one, size in zip(said, sizes_of(crate))):
            return found.group(0)
        return f"[{crate}](../crates/{crate}) | {' | '.join(rounded(size) for size in sizes_of(crate))} |"

    text = open(LIST, encoding="utf-8").read()
    with open(LIST, "w", encoding="utf-8") as file:
        file.write(ITEM.sub(item, text))


def report(only_wrong):
    """Lists the sizes, and answers how many are wrong."""
    wrong = 0
    for path, sentence, sizes in SIZES:
        text = " ".join(open(path, encoding="utf-8").read().split())
        found = re.search(sentence, text)
        if not found:
            print(f"{path}: no sentence like: {sentence}")
            wrong += 1
            continue
        for said, size in zip(found.groups(), sizes):
            off = differs(said, size)
            wrong += off
            if off or not only_wrong:
                print(f"{path}: {said}{' is wrong, it is ' if off else ', exactly '}{size if isinstance(size, str) else f'{size:,}'}")
    return wrong


def write():
    """Puts each size that is wrong into its document."""
    for path, sentence, sizes in SIZES:
        text = open(path, encoding="utf-8").read()
        found = re.search(sentence.replace(" ", r"\s+"), text)
        if not found:
            continue
        new, start = "", 0
        for at, size in enumerate(sizes, 1):
            said = found.group(at)
            if differs(said, size):
                said = size if isinstance(size, str) else rounded(size)
            new += text[start:found.start(at)] + said
            start = found.end(at)
        with open(path, "w", encoding="utf-8") as file:
            file.write(new + text[start:])
    write_crates()


def main():
    mode = sys.argv[1:]
    if mode not in ([], ["--check"], ["--write"]):
        print(__doc__)
        sys.exit(0 if mode in (["--help"], ["-h"]) else 2)
    if mode == ["--write"]:
        write()
    only_wrong = mode == ["--check"]
    wrong = report(only_wrong) + report_crates(only_wrong) + report_words(only_wrong)
    sys.exit(1 if wrong and mode else 0)


main()
