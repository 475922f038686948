#!/usr/bin/env python3
"""Tries wrong edits: the prover must refuse each.

  tools/more_edits.py [-j LANES] [--built] [--gate] [NAME | NAME/EDIT.edit ..]

With no NAME it tries the edits of every crate: those that the gate leaves out, crates/NAME/more-edits/*.edit, or, with
--gate, those that it tries, of gate-edits/ and must-fail/. NAME/EDIT.edit is one edit of any folder. LANES (2) copies of the
repository take a crate each, in the order of the NAMEs. A crate is proved first, unless out/ has its library, built of the
same sources. With --built out/ has the libraries that `rt ci` left, and over these only the functions with edits are proved
first; with both, not even these: `rt ci` has just proved them. The last line counts; the status is 1 if an edit is not
refused, and with --gate also if it is refused by no goal of its own function, or if there is none.

One check makes many edits at once, at most one of each function, and proves those functions and what they call, no
others. No other function's proof sees the body of a function, so an edit is refused if a goal or an answer of its own
function is not proved, and let through if its function is proved. A function that has no such fault, and is not proved
since it calls one that is not, tells nothing: its edit is tried again without the edits of what it calls. If a function
with no edit has a fault of its own, then the check decides only the edits of functions that call none that is unproved.
An edit that takes away what an answer names is refused for that alone, and the line says so: change a value, keep the names.
The contract of a law, a function with no body, is tried so too, in checks of laws alone, where no proof file of one cites
another. An edit of any other contract or of a definition is tried alone, in a check of the whole crate.
An edit that begins with '# ERROR', as '# mismatched-types', is refused if it does not compile for this error alone.

In the environment, RT names another command than rt, EDITS_ROOM the folder that the copies are made in, and
EDITS_SAID a folder for what each check says.
"""
import os
import pathlib
import re
import shutil
import signal
import subprocess
import sys
import tempfile
import threading

sys.path.insert(0, str(pathlib.Path(__file__).resolve().parent))
sys.dont_write_bytecode = True
from edits_apply import CRATES, GATE, DoesNotApply, edited, named

ROOT = CRATES.parent
RT = os.environ.get("RT", "rt")
SAID = os.environ.get("EDITS_SAID")
FUNCTION = re.compile(r"^(\s*)(?:pub(?:\([^)]*\))?\s+)?(?:const\s+)?(?:unsafe\s+)?(?:extern\s+\"C\"\s+)?fn\s+(\w+)")
HEAD = re.compile(r"^(?:unsafe )?impl\b|^(?:pub(?:\([^)]*\))? )?trait\b")
PROVED = re.compile(r"^fn (\S+): proved", re.M)
NOT_PROVED = re.compile(r"^fn (\S+): (?:not proved|no proof)(.*)$", re.M)
CALLED = re.compile(r"`((?:\w+::)+\w+)`")
ERROR = re.compile(r"^(?:\./)?proofs/(\S+)/\w+\.antt:\d+:\d+: error: (.*)$", re.M)
ELSEWHERE = re.compile(r"rejected|not checked|not admitted|no module|cannot be imported")
NAMED = re.compile(r"has no field|has no `|is not in scope")
BY_GOAL = re.compile(r"refused: \S+ is not proved")
REACHED = re.compile(r"^(?:logic=not-proved|only=)", re.M)
NOT_COMPILED = re.compile(r"^\S+: error\[([\w-]+)\]: .*$", re.M)


def owner_of(lines, line, indent):
    """The name of the impl or the trait that this function stands in, as a check prints it, with :: behind it."""
    at = next((it for it in range(line - 1, -1, -1) if HEAD.match(lines[it])), None) if indent else None
    if at is None:
        return ""
    head = HEAD.sub("", " ".join(lines[at:line]).partition("{")[0].partition(" where ")[0], count=1)
    head = re.sub(r"^<(?:[^<>]|<[^<>]*>)*>", "", head.strip())
    trait, _, owner = head.rpartition(" for ")
    words = re.findall(r"\w+", owner.partition("<")[0])[-1:] + re.findall(r"(\w+)(?!\w|::)", trait)
    return "".join(words) + "::"


def short(name):
    """The name of a function without the modules of the type that it is a method of, whose impl may stand in any."""
    words = name.split("::")
    return "::".join([words[0], *words[-2:]]) if len(words) > 2 and words[-2][0].isupper() else name


def function_of(crate, path, lines, at):
    """The name of the function that holds this line, short, and whether it stands in the body, or in the contract of a law,
    whose body is empty. None where it does neither."""
    line = next((it for it in range(at, -1, -1) if FUNCTION.match(lines[it])), None)
    if line is None:
        return None
    indent, name = FUNCTION.match(lines[line]).groups()
    module = [it for it in path.removeprefix("src/").removesuffix(".rt").split("/") if it not in ("lib", "main", "mod")]
    name = short("::".join([crate, *module, owner_of(lines, line, indent) + name]))
    body = next((it for it in range(line, len(lines)) if lines[it].strip() in ("{", "{}")), len(lines))
    if at < body < len(lines) and lines[body] == indent + "{}":
        return name, "law"
    starts = next((it for it in range(line, len(lines)) if lines[it] == indent + "{" or lines[it].endswith(" {") and
                   not lines[it].lstrip().startswith(("requires", "ensures", "ghost")) and it <= at), None)
    ends = next((it for it in range(line, len(lines)) if lines[it] == indent + "}"), len(lines))
    return (name, "body") if starts is not None and starts < at < ends else None


class Answer:
    """What a check says of the functions that it proves."""

    def __init__(self, said):
        self.reached = bool(REACHED.search(said))
        self.proved, self.faults, self.calls = {short(it) for it in PROVED.findall(said)}, set(), {}
        self.only_named, self.with_goals = set(), set()
        errors = [(place, bool(NAMED.search(text))) for place, text in ERROR.findall(said) if not ELSEWHERE.search(text)]
        rejected = {place for place, text in ERROR.findall(said) if ELSEWHERE.search(text)}
        for name, why in NOT_PROVED.findall(said):
            goals, _, calls = why.partition("it calls ")
            self.calls[short(name)] = {short(it) for it in CALLED.findall(calls)}
            place = "/".join(name.split("::")[1:])
            own = {is_named for at, is_named in errors if at == place}
            if "did not prove" in goals or False in own or not calls and place not in rejected:
                self.faults.add(short(name))
            if "did not prove" in goals or False in own:
                self.with_goals.add(short(name))
            elif True in own:
                self.only_named.add(short(name))

    def decided(self, changed):
        """Of these functions with edits: those whose edits are refused, and those whose edits are let through."""
        refused = self.faults & changed
        if self.faults - changed:
            refused = {it for it in refused if not self.calls[it]}
        return refused, self.proved & changed

    def refusal(self, names):
        """What to say of an edit that is refused since these functions are not proved."""
        how = ", but by no goal" if names - self.only_named else ", but only by an answer that names what is gone"
        goals = names & self.with_goals
        return f"refused{'' if goals else how}: {min(goals or names - self.only_named or names)} is not proved"

    def below(self, name):
        """The functions that are not proved among those that this one calls, and that they call."""
        found, left = set(), [name]
        while left:
            new = self.calls.get(left.pop(), set()) - found
            found |= new
            left += new
        return found


def uses_of(name):
    """The libraries that this crate uses, and those below them, by crates.txt."""
    uses = dict(re.findall(r"^(\w+)[^:#\n]*:(.*)$", (ROOT / "crates.txt").read_text(encoding="utf-8"), re.M))
    found, left = ["std", "core"], [name]
    while left:
        new = [it for it in uses.get(left.pop(), "").split() if it not in found]
        found += new
        left += new
    return found


def kit_of():
    """The folder of the toolchain."""
    return pathlib.Path(os.path.realpath(shutil.which("rt") or sys.exit("there is no command rt"))).parent.parent


def library(name):
    """The library of this name, of the repository or of the toolchain."""
    return CRATES / name / f"out/rlib/{name}.rlib" if (CRATES / name).is_dir() else kit_of() / f"rlibs/{name}.rlib"


class Crate:
    """A crate in the copy of a lane, with its edits."""

    def __init__(self, lane, name, edits, is_built=False, is_proved=False):
        self.name, self.edits, self.folder, self.is_proved = name, edits, lane / "crates" / name, is_proved
        self.checks, self.is_built = 0, is_built
        self.top = "src/main.rt" if (CRATES / name / "src/main.rt").is_file() else "src/lib.rt"

    def over_libraries(self):
        """The command of a check over the libraries as they are."""
        kit = kit_of()
        words = [kit / "bin/rattle", "check", "--crate-name", self.name, self.top, "-L", f"dependency={kit}/rlibs"]
        for name in uses_of(self.name):
            words += ["--extern", f"{name}={library(name)}"]
        words += ["--antt-project", kit / "rattle/logic/antt-project.json", "--logic-built", kit / "logic_built"]
        (self.folder / "out/checked").mkdir(parents=True, exist_ok=True)
        return [*words, "--incremental", "out/checked"]

    def rt(self, *words):
        command = [*self.over_libraries(), *words[1:]] if self.is_built else [RT, *words]
        for _ in range(2):
            ran = subprocess.run(command, cwd=self.folder, stdin=subprocess.DEVNULL,
                                 stdout=subprocess.PIPE, stderr=subprocess.STDOUT, text=True, errors="replace")
            # Most likely there was too little memory.
            if ran.returncode != -signal.SIGKILL:
                break
        if SAID:
            self.checks += 1
            pathlib.Path(SAID, f"{self.name}-{self.checks}").write_text(" ".join(words) + "\n" + ran.stdout, encoding="utf-8")
        return ran.returncode, ran.stdout

    def with_texts(self, texts, call):
        """What the call gives while these texts stand in the place of the crate's own."""
        kept = {path: (self.folder / path).read_text(encoding="utf-8") for path in texts}
        for path, text in texts.items():
            write(self.folder / path, text)
        try:
            return call()
        finally:
            for path, text in kept.items():
                write(self.folder / path, text)

    def check(self, texts, functions):
        """What a check of these functions, or of the whole crate if there are none, says with these texts."""
        only = [word for it in sorted(functions) for word in ("--only", it.removeprefix(f"{self.name}::"))]
        return self.with_texts(texts, lambda: self.rt("check", "--jobs", "1", *only))

    def unproved(self):
        """Proves the crate, unless its library is there, or the functions with edits over what `rt ci` left, unless that has
        just proved them; gives what was said if they are not proved."""
        if self.is_built:
            lacks = [it for it in uses_of(self.name) if not library(it).is_dir()]
            if lacks:
                return f"there is no library {library(lacks[0])}"
            if self.is_proved:
                return ""
            status, said = self.check({}, set().union(*(self.functions_of(it)[0] for it in self.edits)))
        else:
            status, said = self.rt("lib" if (self.folder / "out/rlib").is_dir() else "check", "--jobs", "2")
        return " ".join(said.splitlines()[-3:])[:300] + f" (status {status})" if status else ""

    def functions_of(self, edit):
        """The functions that this edit changes, and whether it changes a "body" or a "law"; none where it does more."""
        found = set()
        try:
            texts = edited(self.folder, edit)
        except DoesNotApply:
            return set(), "other"
        for path, text in texts.items():
            lines = (self.folder / path).read_text(encoding="utf-8").split("\n")
            changed = [at for at, (old, new) in enumerate(zip(lines, text.split("\n"))) if old != new]
            found |= {function_of(self.name, path, lines, at) if path.startswith("src/") else None for at in changed}
        if None in found or len({kind for _, kind in found}) != 1:
            return set(), "other"
        return {name for name, _ in found}, found.pop()[1]

    def cites(self, name, other):
        """Whether the proof files of a law name another one."""
        files = (self.folder / "proofs").joinpath(*name.split("::")[1:]).glob("*.antt")
        return any(re.search(rf"\b{other.rsplit('::', 1)[-1]}\b", it.read_text(encoding="utf-8")) for it in files)

    def alone(self, edit, functions):
        """Tries one edit in a check of these functions, or of the whole crate if there are none."""
        try:
            status, said = self.check(edited(self.folder, edit), functions)
        except DoesNotApply as fault:
            return f"BAD EDIT: {fault}"
        if status == 0:
            return "NOT REFUSED"
        errors, wanted = list(NOT_COMPILED.finditer(said)), edit.read_text(encoding="utf-8").partition("\n")[0]
        if errors and all(wanted == f"# {it[1]}" for it in errors):
            return f"refused: {errors[0][0][:150]}"
        if not REACHED.search(said) or wanted.startswith("# "):
            return f"BAD EDIT: it does not fail as it should: {' '.join(said.splitlines()[:3])[:300]}"
        first = next((it for it in said.splitlines() if ": error" in it or "not proved" in it), "")
        refused = functions & Answer(said).faults
        return Answer(said).refusal(refused) if refused else f"refused: {first[:150]}"

    def together(self, chosen):
        """Tries edits of different functions in one check, but those that no longer apply behind the others. Gives what it
        says of each edit that it decides, and of each function of the others which functions below it are not proved."""
        texts, made = {}, []
        for edit, names in chosen:
            try:
                texts = {**texts, **self.with_texts(texts, lambda: edited(self.folder, edit))}
                made.append((edit, names))
            except DoesNotApply:
                pass
        changed = set().union(*(names for _, names in made))
        answer = Answer(self.check(texts, changed)[1])
        if not answer.reached and len(made) > 1:
            some, others = self.together(made[::2]), self.together(made[1::2])
            return {**some[0], **others[0]}, {**some[1], **others[1]}
        refused, passed = answer.decided(changed)
        said = {edit: answer.refusal(names & refused) for edit, names in made if names & refused}
        said.update({edit: "NOT REFUSED" for edit, names in made if names <= passed})
        return said, {it: answer.below(it) & changed - {it} for it in changed - refused}

    def many(self, left, apart, say):
        """Tries edits, many in a check, but no two of functions that are apart; gives those that are to be tried alone."""
        singly = []
        while left:
            chosen = chosen_of(left, apart)
            said, below = self.together(chosen)
            later, unmade = [], []
            for edit, names in chosen:
                new = {(it, other) for it in names for other in below.get(it, ())} - apart
                if edit in said:
                    say(self.name, edit, said[edit])
                elif new:
                    apart |= new
                    later.append((edit, names))
                elif names & set(below):
                    singly.append((edit, names))
                else:
                    unmade.append((edit, names))
            if len(unmade) == len(chosen):
                return singly + left
            left = later + [it for it in left if it not in chosen] + unmade
        return singly

    def run(self, say):
        fault = self.unproved()
        if fault:
            for edit in self.edits:
                say(self.name, edit, f"NOT TRIED: the crate is not proved as it stands: {fault}")
            return
        edits = [(edit, *self.functions_of(edit)) for edit in self.edits]
        singly = [(edit, names) for edit, names, kind in edits if kind == "other"]
        singly += self.many([(edit, names) for edit, names, kind in edits if kind == "body"], set(), say)
        laws = [(edit, names) for edit, names, kind in edits if kind == "law"]
        changed = set().union(*(names for _, names in laws))
        singly += self.many(laws, {(one, other) for one in changed for other in changed if self.cites(one, other)}, say)
        for edit, names in singly:
            say(self.name, edit, self.alone(edit, names))


def chosen_of(left, apart):
    """The first edits of these, at most one of each function, with no two of functions that one check must keep apart."""
    chosen, taken = [], set()
    for edit, names in left:
        if not any(it == other or (it, other) in apart or (other, it) in apart for it in names for other in taken):
            chosen.append((edit, names))
            taken |= names
    return chosen


def write(file, text):
    """Writes a file anew, so that no other copy that shares it changes."""
    file.unlink(missing_ok=True)
    file.write_text(text, encoding="utf-8")


def main(words):
    lanes, is_built, is_gate = 2, False, False
    while words[:1] and words[0].startswith("-"):
        if words[0] == "-j" and words[1:] and words[1].isdigit():
            lanes, words = int(words[1]), words[1:]
        elif words[0] == "--built":
            is_built = True
        elif words[0] == "--gate":
            is_gate = True
        else:
            sys.exit(f"more_edits.py: {words[0]} is not known; --help tells what it takes")
        words = words[1:]
    edits, folders = {}, GATE if is_gate else ("more-edits",)
    for what in words or sorted({it.parent.name for folder in folders for it in CRATES.glob(f"*/{folder}")}):
        for edit in named(what):
            if "/" in what or edit.parent.name in folders:
                edits.setdefault(edit.parent.parent.name, []).append(edit)
    left = list(edits) if words else sorted(edits, key=lambda it: -len(edits[it]))
    passed, failed, lock = [], [], threading.Lock()

    def say(name, edit, text):
        with lock:
            is_refused = BY_GOAL.fullmatch(text) if is_gate else text.startswith("refused")
            (passed if is_refused else failed).append(edit)
            print(f"{name}/{edit.name}: {text}", flush=True)

    def work(lane):
        shutil.copytree(ROOT, lane, symlinks=True, ignore=shutil.ignore_patterns(".git", "out"))
        for folder in () if is_built else CRATES.glob("*/out"):
            subprocess.run(["cp", "-al", str(folder), str(lane / "crates" / folder.parent.name)], check=True)
        while True:
            with lock:
                if not left:
                    return
                name = left.pop(0)
            Crate(lane, name, edits[name], is_built, is_gate).run(say)

    with tempfile.TemporaryDirectory(prefix="more-edits-", dir=os.environ.get("EDITS_ROOM")) as room:
        threads = [threading.Thread(target=work, args=(pathlib.Path(room) / str(it),)) for it in range(lanes)]
        for it in threads:
            it.start()
        for it in threads:
            it.join()
    for name, its in edits.items():
        for edit in its:
            if edit not in passed + failed:
                say(name, edit, "NOT TRIED")
    print(f"{len(passed)} passed, {len(failed)} failed")
    return 1 if failed or is_gate and not passed else 0


if __name__ == "__main__":
    if sys.argv[1:] in (["--help"], ["-h"]):
        print(__doc__.strip())
    else:
        sys.exit(main(sys.argv[1:]))
