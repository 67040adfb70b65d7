#!/usr/bin/env python3
"""Tells what each check of a gate takes: gate_times.py FILE [--seconds N] samples, gate_times.py FILE --table prints

While `rt ci` runs in another shell, it looks every two seconds at each process of the prover, and keeps in FILE (JSON) for each crate and
each kind of task (proof, tests, edit) the processor seconds and the most memory that it was seen with. The last two seconds of a check are
missed. With --copies it passes over what isn't checked by `rt ci NAME..`, which works on copies: so checks of clones beside it don't count.
--table prints the sums, in which a crate whose proof was begun more than once counts by its dearest, and the dearest tasks.
"""
import argparse
import json
import os
import re
import time

TICKS = os.sysconf("SC_CLK_TCK")


def text_of(path):
    """Returns what a file of /proc says; nothing where the process is gone."""
    try:
        with open(path, encoding="utf-8", errors="replace") as file:
            return file.read()
    except OSError:
        return ""


def folder_of(number):
    """Returns the folder in which a process works; nothing where it is gone."""
    try:
        return os.readlink(f"/proc/{number}/cwd")
    except OSError:
        return ""


def tasks(only_copies):
    """Yields each check that runs: its crate, its kind, a name of the process, its processor seconds and its memory in bytes."""
    for number in filter(str.isdigit, os.listdir("/proc")):
        words = text_of(f"/proc/{number}/cmdline").split("\0")
        if not words[0].endswith("bin/rattle") or "--crate-name" not in words:
            continue
        folder = folder_of(number)
        if only_copies and not folder.startswith("/tmp/rt-"):
            continue
        fields = text_of(f"/proc/{number}/stat").rpartition(")")[2].split()
        if len(fields) < 22:
            continue
        crate = words[words.index("--crate-name") + 1]
        kind = "edit" if "/rt-edit-" in folder else "tests" if "--test" in words else "proof"
        spent = sum(map(int, fields[11:15])) / TICKS
        yield crate, kind, f"{number}.{fields[19]}", spent, int(fields[21]) * os.sysconf("SC_PAGE_SIZE")


def sample(path, seconds, only_copies):
    """Keeps what each check was seen with, until so many seconds are over."""
    seen = json.loads(text_of(path) or "{}")
    end = time.time() + seconds
    while time.time() < end:
        for crate, kind, process, spent, memory in tasks(only_copies):
            old = seen.get(f"{crate} {kind} {process}", [0, 0])
            seen[f"{crate} {kind} {process}"] = [max(spent, old[0]), max(memory, old[1])]
        with open(f"{path}.new", "w", encoding="utf-8") as file:
            json.dump(seen, file)
        os.replace(f"{path}.new", path)
        time.sleep(2)


def print_table(path):
    """Prints the sum of each kind of task, and the 30 dearest."""
    sums = {}
    for name, (spent, memory) in json.loads(text_of(path) or "{}").items():
        task = re.sub(r" [0-9.]+$", "", name)
        old = sums.get(task, (0, 0))
        is_once = task.endswith(" proof")
        sums[task] = (max(old[0], spent) if is_once else old[0] + spent, max(old[1], memory))
    for kind in ("proof", "tests", "edit"):
        of_kind = [spent for task, (spent, _) in sums.items() if task.endswith(kind)]
        print(f"{kind}: {sum(of_kind) / 60:.0f} minutes of processor time in {len(of_kind)} crates")
    for task, (spent, memory) in sorted(sums.items(), key=lambda it: -it[1][0])[:30]:
        print(f"{spent:6.0f} s {memory / 1e9:5.1f} GB  {task}")


def main():
    given = argparse.ArgumentParser(description=__doc__, formatter_class=argparse.RawDescriptionHelpFormatter)
    given.add_argument("file")
    given.add_argument("--seconds", type=int, default=11000)
    given.add_argument("--copies", action="store_true")
    given.add_argument("--table", action="store_true")
    words = given.parse_args()
    print_table(words.file) if words.table else sample(words.file, words.seconds, words.copies)


if __name__ == "__main__":
    main()
