#!/usr/bin/env python3
"""Tells which functions of a crate a check spends its time on: dear.py FOLDER.. [--most N]

FOLDER is what an incremental check keeps of what it checked: crates/NAME/out of `rt check`, or $STUBS/ROOT/.kept-NAME of `over_stubs.py`.
Each module is written as soon as it is checked, so the time between two files is what the later one took, by the clock: a check that is
stopped or shares its processor seems dearer (pauses of over --pause seconds are left out). It prints for each function the seconds of all
its modules; those of `Lts`, the borrow checker's part, and of `Proof`; and the size of `Lts`, which doesn't depend on the load. A second
check writes only what is new, so empty the folder first where the whole is wanted.
"""
import argparse
import collections
import os
import re

MODULE = re.compile(r"Rattle-(\w+)-(?:proofs|specs)\.(.*?)\.([A-Z]\w*)[\w.]*\.oantt$")


def modules(folder):
    """Yields the time, the size and the name of each module that is kept, in the order in which they were written."""
    found = []
    for at, _, names in os.walk(folder):
        for name in names:
            about = os.stat(f"{at}/{name}")
            found.append((about.st_mtime, about.st_size, name))
    yield from sorted(found)


def table(folder, pause):
    """Returns for each function its seconds, those of its Lts, of its Proof, and the bytes of its Lts."""
    rows, last = collections.defaultdict(lambda: [0.0, 0.0, 0.0, 0]), None
    for time, size, name in modules(folder):
        spent = 0.0 if last is None or time - last > pause else time - last
        last = time
        found = MODULE.match(name)
        if not found:
            continue
        row = rows[f"{found[1]}::{found[2].replace('.', '::')}"]
        row[0] += spent
        if found[3] in ("Lts", "Proof"):
            row[1 if found[3] == "Lts" else 2] += spent
        if name.endswith(".Lts.oantt"):
            row[3] = size
    return rows


def main():
    given = argparse.ArgumentParser(description=__doc__, formatter_class=argparse.RawDescriptionHelpFormatter)
    given.add_argument("folders", nargs="+")
    given.add_argument("--most", type=int, default=25)
    given.add_argument("--pause", type=float, default=90.0)
    words = given.parse_args()
    for folder in words.folders:
        rows = table(folder, words.pause)
        print(f"{folder}: {sum(row[0] for row in rows.values()):.0f} s, {sum(row[3] for row in rows.values()) / 1e6:.1f} MB of Lts")
        print("   all   Lts Proof     MB")
        for name, row in sorted(rows.items(), key=lambda it: -it[1][0])[: words.most]:
            print(f"{row[0]:6.1f}{row[1]:6.1f}{row[2]:6.1f}{row[3] / 1e6:7.2f}  {name}")


if __name__ == "__main__":
    main()
