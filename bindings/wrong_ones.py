"""Tries wrong programs: what bindings/wrong.py and daemon/wrong.py have in common.

A wrong one is a row: a file, what is wrong, a text that the file has once, what stands in its place, and more."""
import concurrent.futures
import os
import sys
import tempfile


def make_wrong(path, old, new):
    """Puts the wrong text into a file; whether it had the other one, once."""
    with open(path) as file:
        text = file.read()
    if text.count(old) != 1:
        return False
    with open(path, "w") as file:
        file.write(text.replace(old, new))
    return True


def main(what, wrong, path_of, prepare, try_one):
    """With --apply says whose text stands in its file no longer. Else tries the rows, with words those whose names have one of
    them, and counts. `try_one(room, number, *row)` says which test catches it, in a folder that `prepare` made ready."""
    if sys.argv[1:] == ["--apply"]:
        lost = [name for file, name, old, *_ in wrong if open(path_of(file)).read().count(old) != 1]
        for name in lost:
            print(f"{name}: does not apply")
        print(f"{len(wrong) - len(lost)} wrong {what} apply, {len(lost)} do not")
        sys.exit(1 if lost else 0)
    wanted = [it for it in wrong if len(sys.argv) < 2 or any(word in it[1] for word in sys.argv[1:])]
    caught = 0
    with tempfile.TemporaryDirectory() as room:
        prepare(room)
        with concurrent.futures.ThreadPoolExecutor(int(os.environ.get("LANES", "3"))) as pool:
            told = [pool.submit(try_one, room, number, *it) for number, it in enumerate(wanted)]
            for it, one in zip(wanted, told):
                print(f"{it[1]:<44} {one.result()}", flush=True)
                caught += one.result().startswith("caught")
    print(f"{caught} of {len(wanted)} wrong {what} caught")
    sys.exit(caught != len(wanted))
