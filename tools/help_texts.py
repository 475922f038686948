#!/usr/bin/env python3
"""Checks that the man page, the completions and docs/SCRIPT.md have what the program's help has.

  tools/help_texts.py

The program's commands, options and statuses stand in crates/command_line/src. The man page (sysmem.1) must have the same
commands, the same options of each, with their values and defaults, the same statuses and the same version; the completions
for bash, zsh and fish the same commands, options and values; the faults of docs/SCRIPT.md the same statuses. The completion
for bash is run, all else is read. It takes less than a second. The last line counts; the status is 1 if something differs.
"""
import pathlib
import re
import subprocess
import sys

TOP = pathlib.Path(__file__).resolve().parent.parent
SOURCE = TOP / "crates/command_line/src"
PACKAGING = TOP / "bindings/packaging"
# What the parser adds to the commands.
OWN_OPTIONS = {"--help", "-h"}
TOP_OPTIONS = OWN_OPTIONS | {"--version", "-V"}
HELP = "help"


class Option:
    """An option of a command: its value's name, the values that it may have, and the default."""

    def __init__(self, value=None, values=(), default=None):
        self.value, self.values, self.default = value, frozenset(values), default


class Command:
    """A command: what it does, its options by name, the value's name of its argument, and its statuses."""

    def __init__(self, about, options, argument, statuses):
        self.about, self.options, self.argument, self.statuses = about, options, argument, statuses


class Source:
    """The texts and functions of command_line."""

    def __init__(self):
        self.code = (SOURCE / "commands.rt").read_text(encoding="utf-8")
        whole = self.code + (SOURCE / "help.rt").read_text(encoding="utf-8")
        texts = re.findall(r'const (\w+): &str =\s*"((?:[^"\\]|\\.)*)";', whole, re.S)
        self.texts = {name: re.sub(r"\\\n\s*", "", text).replace('\\"', '"') for name, text in texts}
        lists = re.findall(r"const (\w+): &\[&str\] = &\[([^\]]*)\];", self.code)
        self.lists = {name: [self.text(word) for word in re.findall(r"\w+", words)] for name, words in lists}
        self.functions = dict(re.findall(r"^(?:pub )?fn (\w+)<[^{]*\{\n(.*?)^\}", self.code, re.M | re.S))

    def text(self, word):
        """The text that a word of the code is: a literal, or a constant."""
        return word[1:-1] if word.startswith('"') else self.texts[word]

    def one(self, pattern, body):
        """The text that the pattern finds, if it finds one."""
        found = re.search(pattern, body, re.S | re.M)
        return self.text(found[1]) if found else None

    def option(self, body):
        """The option that a function makes: its name and itself, without a value if that may be left out."""
        word = r'(\w+|"[^"]*")'
        made = re.search(rf"\b(?:option|number)\(\s*alloc,\s*{word},\s*{word}", body)
        if made and ".num_args(0" in body:
            return "--" + self.text(made[1]), Option()
        listed = re.search(r"\.value_parser\((\w+)\)", body)
        values = self.lists[listed[1]] if listed else ()
        default = self.one(rf"\.default_value\({word}\)", body)
        if made:
            return "--" + self.text(made[1]), Option(self.text(made[2]), values, default)
        return "--" + self.one(rf"\bflag\(\s*alloc,\s*{word}", body), Option()

    def command(self, row):
        """The command of a row of the table."""
        options, argument = {}, None
        makers = dict(re.findall(r"Word::(\w+) => (?:Ok\()?(\w+)\(alloc\)", self.functions["argument"]))
        for word in re.findall(r"Word::(\w+)", row):
            made = self.functions[makers[word]]
            if re.search(r"\b(?:option|number|flag)\(", made):
                title, option = self.option(made)
                options[title] = option
            else:
                argument = self.one(r'\.value_name\(("[^"]*")\)', made)
        help_text = "\n\n".join(self.text(word) for word in re.findall(r"_(?:about|help): (?:Some\()?([A-Z_]{2,})", row))
        told = re.search(r"Status: (.*?)(?:\n\n|\Z)", help_text, re.S)
        statuses = set(re.findall(r"(?:^|;)\s*(\d)\s", told[1])) if told else set()
        return Command(self.one(r"^ *about: (\w+)", row), options, argument, statuses)

    def commands(self):
        """The commands, by name."""
        rows = re.findall(r"^    CommandRow \{\n(.*?)^    \},$", self.code, re.M | re.S)
        return {self.one(r'\bname: (\w+|"[^"]*")', row): self.command(row) for row in rows}


class Faults:
    """What differs."""

    def __init__(self):
        self.compared, self.told = 0, []

    def same(self, what, wanted, found):
        """Compares what the program has with what a text has."""
        self.compared += 1
        if wanted == found:
            return
        if isinstance(wanted, (set, frozenset)):
            for words, lack in ((wanted - found, "lacks"), (found - wanted, "has, and the program lacks")):
                if words:
                    self.told.append(f"{what} {lack}: {' '.join(sorted(words))}")
        else:
            self.told.append(f"{what} has {found!r}, the program {wanted!r}")

    def has(self, what, text, found):
        """Whether a text stands in another."""
        self.compared += 1
        if text not in found:
            self.told.append(f"{what} lacks: {text}")


def sections(page):
    """The sections of a man page, by name."""
    parts = re.split(r"^\.SH (.*)\n", page, flags=re.M)
    return dict(zip(parts[1::2], parts[2::2]))


def read_man(faults, commands, version):
    """Compares the man page."""
    page = (PACKAGING / "sysmem.1").read_text(encoding="utf-8").replace("\\-", "-")
    faults.has("sysmem.1, its head,", f'"sysmem {version}"', page.split("\n")[0])
    parts = sections(page)
    synopsis = dict(re.findall(r"^\.B sysmem (\w+)\n(.*?)(?=^\.br|\Z)", parts["SYNOPSIS"], re.M | re.S))
    faults.same("sysmem.1, SYNOPSIS,", set(commands) | {HELP}, set(synopsis))
    described = set(re.findall(r"^\.TP\n\.B (\w+)$", parts["DESCRIPTION"], re.M))
    faults.same("sysmem.1, DESCRIPTION,", set(commands) | {HELP}, described)
    every = {}
    for name, command in commands.items():
        every.update(command.options)
        given = dict(re.findall(r"^\.RB \[ (--\w+)(?: \]$|\n\.IR (\w+) \]$)", synopsis.get(name, ""), re.M))
        wanted = {f"{option}={its.value or ''}" for option, its in command.options.items()}
        faults.same(f"sysmem.1, SYNOPSIS of {name},", wanted, {f"{option}={its}" for option, its in given.items()})
        faults.has(f"sysmem.1, SYNOPSIS of {name},", f".RI [ {command.argument} ]", synopsis.get(name, ""))
    items = parts["OPTIONS"].split(".TP\n")[1:]
    titles = [set(re.findall(r"(?<![\w-])--?\w+", item.split("\n")[0])) for item in items]
    faults.same("sysmem.1, OPTIONS,", set(every) | TOP_OPTIONS, set().union(*titles))
    for option, its in every.items():
        item = next((text for text, title in zip(items, titles) if option in title), "")
        if its.value:
            faults.has(f"sysmem.1, {option},", f'" {its.value}"', item.split("\n")[0])
        for value in its.values:
            faults.has(f"sysmem.1, {option},", value, item)
        if its.default:
            faults.has(f"sysmem.1, {option},", f"the default is {its.default}.", item)
    statuses = set().union(*(command.statuses for command in commands.values()))
    faults.same("sysmem.1, EXIT STATUS,", statuses, set(re.findall(r"^\.TP\n\.B (\d)$", parts["EXIT STATUS"], re.M)))


def completed(*words):
    """What bash completes behind `sysmem`, where these words stand and the last one is begun."""
    line = " ".join(f"'{word}'" for word in ("sysmem", *words))
    script = f'. sysmem.bash; COMP_WORDS=({line}) COMP_CWORD={len(words)}; _sysmem; printf "%s\\n" "${{COMPREPLY[@]}}"'
    ran = subprocess.run(["bash", "-c", script], cwd=PACKAGING, capture_output=True, text=True, check=True)
    return set(ran.stdout.split())


def run_bash(faults, commands):
    """Compares what bash completes."""
    faults.same("sysmem.bash, first word,", set(commands) | {HELP} | TOP_OPTIONS, completed("") | completed("-"))
    faults.same("sysmem.bash, behind help,", set(commands), completed(HELP, ""))
    for name, command in commands.items():
        faults.same(f"sysmem.bash, behind {name},", set(command.options) | OWN_OPTIONS, completed(name, "-"))
        faults.has(f"sysmem.bash, behind {name}, a file,", "sysmem.1", completed(name, "sysmem.1"))
        for option, its in command.options.items():
            for words in ((option, ""), (option, "=", "")):
                if its.value:
                    faults.same(f"sysmem.bash, behind {name} {' '.join(words)},", its.values, completed(name, *words))


def read_zsh(faults, commands):
    """Compares the completion for zsh."""
    text = (PACKAGING / "_sysmem").read_text(encoding="utf-8")
    listed = dict(match[1:] for match in re.findall(r"""^ +(?:commands\+=\()?(['"])([a-z]+):(.+?)\1\)?$""", text, re.M))
    faults.same("_sysmem, its commands,", set(commands) | {HELP}, set(listed))
    for name, command in commands.items():
        faults.same(f"_sysmem, its text of {name},", command.about, listed.get(name))
    first, behind = text.split("case $state in")
    own = r"\{(-\w),(--\w+)\}"
    faults.same("_sysmem, first word,", TOP_OPTIONS, set().union(*re.findall(own, first)))
    always, some = behind.split("case $words[1] in")
    arms = dict(re.findall(r"^ +(\w+)\)(.*?);;$", some, re.M | re.S))
    option = r"'(--\w+)(=?)\[[^\]]*\](?::(\w+):(?: |\(([\w ]*)\)))?'"
    for name, command in commands.items():
        body = always + arms.get(name, "")
        found = {option: (value, frozenset(values.split())) for option, _, value, values in re.findall(option, body)}
        names = set(found).union(*re.findall(own, body))
        faults.same(f"_sysmem, behind {name},", set(command.options) | OWN_OPTIONS, names)
        for title, its in command.options.items():
            faults.same(f"_sysmem, behind {name} {title},", (its.value or "", its.values), found.get(title))
        faults.has(f"_sysmem, behind {name},", f"'1:{command.argument}:_files'", body)


def read_fish(faults, commands):
    """Compares the completion for fish."""
    text = (PACKAGING / "sysmem.fish").read_text(encoding="utf-8").replace("\\\n   ", "")
    listed = re.search(r"^set -l commands (.*)$", text, re.M)[1].split()
    faults.same("sysmem.fish, its list,", set(commands), set(listed))
    told = {name: about for name, _, about in re.findall(r"""_use_subcommand -a (\w+) +-d (['"])(.*)\2$""", text, re.M)}
    faults.same("sysmem.fish, its commands,", set(commands) | {HELP}, set(told))
    own = re.findall(r" -s (\w) -l (\w+) ", text)
    faults.same("sysmem.fish, its own options,", TOP_OPTIONS, {f"-{short}" for short, _ in own} | {f"--{long}" for _, long in own})
    options = re.findall(r"""_from (\S+?)["'] -l (\w+)( -x)?(?: -a '([\w ]*)')?""", text)
    for name, command in commands.items():
        faults.same(f"sysmem.fish, its text of {name},", command.about, told.get(name))
        found = {"--" + option: (bool(takes), frozenset(values.split()))
                 for where, option, takes, values in options if where in (name, "$commands")}
        faults.same(f"sysmem.fish, behind {name},", set(command.options), set(found))
        for title, its in command.options.items():
            faults.same(f"sysmem.fish, behind {name} {title},", (bool(its.value), its.values), found.get(title))


def read_script(faults, commands):
    """Compares the statuses of the faults in docs/SCRIPT.md."""
    page = (TOP / "docs/SCRIPT.md").read_text(encoding="utf-8")
    table = page.split("| fault | text | status |\n")[1].split("\n\n")[0]
    statuses = set().union(*(command.statuses for command in commands.values()))
    faults.same("docs/SCRIPT.md, its faults,", statuses, set(re.findall(r"\| (\d) \|$", table, re.M)))


def main():
    source, faults = Source(), Faults()
    commands = source.commands()
    for name, command in commands.items():
        faults.has(f"sysmem {name} --help, its statuses,", "0", command.statuses)
    read_man(faults, commands, source.texts["VERSION"])
    run_bash(faults, commands)
    read_zsh(faults, commands)
    read_fish(faults, commands)
    read_script(faults, commands)
    for fault in faults.told:
        print(fault)
    print(f"{faults.compared} comparisons, {len(faults.told)} faults")
    return len(faults.told) > 0


if __name__ == "__main__":
    sys.exit(main())
