"""Writes a script of some 16 MiB, of one kind: scripts.py KIND, or scripts.py alone for the names of the kinds."""
import random
import sys

MOST = 16_777_216


def joins():
    for i in range(MOST):
        yield f"c{i} join"


def opens():
    yield "a join"
    for i in range(MOST):
        yield f"a open r{i}"
        yield f"a close r{i}"


def syncs():
    yield from ("a join", "a open r")
    while True:
        yield "a sync r"


def checks():
    yield "a join"
    for i in range(MOST):
        yield f"a open r{i}"
        yield f"a bind r{i}"
        yield f"a constrain r{i} 1 2 {i % 8192 + 1}"
        yield f"a check r{i}"
        yield f"a release r{i}"


def gifts():
    yield from ("a join", "b join")
    for i in range(MOST):
        yield f"a open r{i}"
        yield f"a give r{i} b"
        yield f"b collect s{i}"
        yield f"b close s{i}"


def handles():
    yield from ("a join", "a open r", "a bind r", "a constrain r 4 0 4096", "a check r", "a take r")
    while True:
        for i in range(4):
            yield f"a duph r.{i} strong"
        yield "a take r"
        for i in range(4):
            yield f"a droph r.{i} strong"
            yield f"a droph r.{i} strong"


def trackers():
    yield "a join"
    for i in range(64):
        yield f"a open r{i}"
    for i in range(4096):
        yield f"a tracknode r{i % 64} t{i}"
    for i in range(32):
        yield f"a close r{i}"
    while True:
        for i in range(4096):
            yield f"a poll t{i}"


def remarks():
    yield "a join"
    while True:
        yield "# a remark that says what the lines below are for"
        yield ""


def labels():
    yield "alphabetagammade join"
    for i in range(MOST):
        yield f"alphabetagammade open r{i:015}"
        yield f"alphabetagammade sync r{i:015}"
        yield f"alphabetagammade close r{i:015}"


def mixed():
    pick = random.Random(1)
    clients = ["app", "b", "camera7", "d"]
    yield from (f"{client} join" for client in clients)
    for i in range(MOST):
        c, d = pick.sample(clients, 2)
        yield f"{c} open root{i}"
        yield f"{c} dup root{i} token{i}"
        if i < 2000:
            yield f"{c} tracknode token{i} gone{i}"
        yield f"{c} give token{i} {d}"
        yield f"{d} collect own{i}"
        yield f"{d} bind own{i}"
        yield f"{c} bind root{i}"
        yield f"{d} constrain own{i} 1 0 4096"
        yield f"{c} constrain root{i} 1 2 {pick.randrange(1, 8192)}"
        yield f"{c} check root{i}"
        yield f"{d} check own{i}"
        yield f"{c} take root{i}"
        yield f"{d} take own{i}"
        yield f"{c} duph root{i}.0 strong"
        yield f"{c} giveh root{i}.0 strong {d}"
        yield f"{d} collect handle{i}"
        if i < 2000:
            yield f"{c} tracklife root{i} 1 left{i}"
            yield f"{d} poll gone{i}"
        yield "# all handles are dropped"
        yield f"{d} droph root{i}.0 strong"
        for index in (0, 1):
            yield f"{d} droph own{i}.{index} strong"
            yield f"{c} droph root{i}.{index} strong"
        yield ""
        yield f"{d} sync own{i}"
        yield f"{c} sync root{i}"
        yield "show free"
        yield f"{d} release own{i}"
        yield f"{c} release root{i}"


def weakoks():
    yield from ("a join", "a open n0")
    yield from (f"a dup n{(i - 1) // 2} n{i}" for i in range(1, 1000))
    while True:
        yield from (f"a weakok n{i}" for i in range(1000))


def units():
    yield from ("a join", "a open r", "a bind r", "a constrain r 4 0 4096")
    for i in range(MOST):
        yield f"a attach r u{i}"
        yield f"a bind u{i}"
        yield f"a constrain u{i} 0 1 4096"
        yield f"a check u{i}"
        if i >= 900:
            yield f"a close u{i - 900}"


KINDS = [joins, opens, syncs, checks, gifts, handles, trackers, remarks, labels, mixed, weakoks, units]


def main():
    if len(sys.argv) < 2:
        print(*(kind.__name__ for kind in KINDS))
        return
    left = int(sys.argv[2]) if len(sys.argv) > 2 else MOST
    lines = []
    for line in {kind.__name__: kind for kind in KINDS}[sys.argv[1]]():
        left -= len(line) + 1
        if left < 0:
            break
        lines.append(line)
    sys.stdout.write("\n".join(lines) + "\n")


main()
