#!/usr/bin/env python3
"""Lets few checks of the prover run at a time: in_turn.py ROOT [--gate N] [--others N]

On four processors that share ten checks a crate takes up to twice the processor time: a check works on a gigabyte. So while
several runs of `rt ci` and several clones' checks are under way, this script lets only --gate checks of runs (5 without it) and --others
of clones (1 without it) run, and stops the rest (SIGSTOP) until their turn (SIGCONT). Of runs those go first with the longest chain of
other crates behind them, by sizes of ROOT's crates; must-fail edits go last; of clones those that began first, and where runs have fewer
than --gate, more of these. It prints who runs each time that changes, and lets all go on when it is ended (Ctrl-C, SIGTERM). Where
much else runs it needs a high priority itself (`nice`), or it can't stop anybody.
"""
import argparse
import functools
import os
import signal
import sys
import time

sys.path.insert(0, os.path.dirname(os.path.realpath(__file__)))
import house

RUNS = ("/tmp/rt-copy-", "/tmp/rt-proved-", "/tmp/rt-edit-")


def chains(root):
    """Returns, for each crate, the work in seconds of the longest chain of crates above it."""
    rows = house.table(root)
    sizes = {name: house.Size.of(f"{root}/crates/{name}") for name in rows}
    users = {name: [user for user, uses in rows.items() if name in uses] for name in rows}

    @functools.lru_cache(None)
    def behind(name):
        return max((3.0 * sizes[user].functions + 0.008 * sizes[user].text + behind(user) for user in users[name]), default=0.0)

    return {name: behind(name) for name in rows}


def checks():
    """Yields each process of a check that is under way: its number, whether a run of `rt ci` made it, its folder, its beginning."""
    for number in filter(str.isdigit, os.listdir("/proc")):
        try:
            with open(f"/proc/{number}/cmdline", encoding="utf-8", errors="replace") as file:
                words = file.read().split("\0")
                if not words[0].endswith("bin/rattle") or words[1] not in ("check", "build"):
                    continue
            folder = os.readlink(f"/proc/{number}/cwd")
            with open(f"/proc/{number}/stat", encoding="utf-8", errors="replace") as file:
                fields = file.read().rpartition(")")[2].split()
            is_run = folder.startswith(RUNS)
            yield int(number), is_run, folder, int(fields[19])
        except (OSError, IndexError, ValueError):
            continue


def chosen(found, behind, gate, others):
    """Returns the processes that may run. A check is all processes in one folder: some wait for those that they began."""

    def order(check):
        _, _, folder, begun = check[0]
        return folder.startswith("/tmp/rt-edit-"), -behind.get(os.path.basename(folder), 0.0), begun

    groups = {}
    for it in sorted(found, key=lambda it: it[3]):
        groups.setdefault(it[2], []).append(it)
    runs = sorted((it for it in groups.values() if it[0][1]), key=order)[:gate]
    rest = [it for it in groups.values() if not it[0][1]][: others + gate - len(runs)]
    return [process[0] for check in runs + rest for process in check]


def tell(number, what):
    try:
        os.kill(number, what)
    except ProcessLookupError:
        pass


def main():
    parser = argparse.ArgumentParser(description=__doc__, formatter_class=argparse.RawDescriptionHelpFormatter)
    parser.add_argument("root")
    parser.add_argument("--gate", type=int, default=5)
    parser.add_argument("--others", type=int, default=1)
    words = parser.parse_args()
    root = os.path.realpath(words.root)
    behind, before = chains(root), None
    signal.signal(signal.SIGTERM, lambda *_: sys.exit(0))
    try:
        while True:
            found = list(checks())
            run = chosen(found, behind, words.gate, words.others)
            for it in found:
                tell(it[0], signal.SIGCONT if it[0] in run else signal.SIGSTOP)
            if run != before:
                before = run
                print(time.strftime("%H:%M:%S"), *(os.path.basename(it[2]) for it in found if it[0] in run), flush=True)
            time.sleep(3)
    except KeyboardInterrupt:
        return 0
    finally:
        for it in checks():
            tell(it[0], signal.SIGCONT)


if __name__ == "__main__":
    sys.exit(main())
