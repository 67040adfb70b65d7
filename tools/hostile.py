#!/usr/bin/env python3
"""hostile.py PTA [--runs N] [--seed S] [--from I] [--keep FOLDER] [--minutes M]

Runs the program PTA on N random and changed texts (100,000 where N is left out), each with a stack of 256 KiB, 1 GiB of address space,
20 seconds of processor and 300 of the clock. Each run must end with a status of docs/MANUAL.md; with an empty standard output where that
isn't 0, 8 or 11; with one line of that status on standard error exactly where it isn't 0 or 11; and with a place inside its unit. Every
sixteenth run that gives a report is run again with another number of workers, which must give the same bytes, and every sixteenth with
--json, which must give the same report. Every sixteenth is run again with --run and some words, and every sixteenth with --entry and
names out of its text; these too must end as the manual says.

The case of a number depends on the seed alone: `--from I --runs 1` repeats case I. What fails is kept in FOLDER (`hostile-kept`), with
its files, words and what was seen. The last lines count the runs by status and by kind of text; the status is 1 where a run failed."""
import argparse
import collections
import os
import re
import shutil
import sys
import tempfile
import time

import hostile_judge
from hostile_judge import Limits
from hostile_texts import Texts

DATA = os.path.join(os.path.dirname(os.path.abspath(__file__)), "..", "crates", "pta", "data")


def arguments():
    """The words of the command line."""
    parser = argparse.ArgumentParser(description=__doc__, formatter_class=argparse.RawDescriptionHelpFormatter)
    parser.add_argument("pta")
    parser.add_argument("--runs", type=int, default=100000)
    parser.add_argument("--seed", default="1")
    parser.add_argument("--from", dest="first", type=int, default=0)
    parser.add_argument("--keep", default="hostile-kept")
    parser.add_argument("--minutes", type=float, default=600.0, help="stop after so many minutes, and say so")
    return parser.parse_args()


def seeds():
    """The texts of real units in the repository, in order of name."""
    found = []
    for name in sorted(os.listdir(DATA)):
        with open(os.path.join(DATA, name), "rb") as file:
            found.append(file.read())
    return found


def keep(folder, number, case, ended, found):
    """Writes a failing case into a folder of its own."""
    place = os.path.join(folder, str(number))
    os.makedirs(place, exist_ok=True)
    hostile_judge.lay(case, place)
    with open(os.path.join(place, "seen~"), "w", encoding="utf-8") as file:
        file.write(f"kind {case.kind}\nwords {case.words!r}\nstatus {ended.status}\nseconds {ended.seconds:.2f}\nfaults {found}\n"
                   f"err {ended.err[:2000]!r}\nout {ended.out[:2000]!r}\n")


def entries(case, number):
    """Up to three names that stand before a parenthesis in the texts of a case, and `f` where there are none."""
    found = sorted({name.decode() for text in case.files.values() for name in re.findall(rb"\b[A-Za-z_][A-Za-z0-9_]{0,60}(?=\()", text)})
    chosen = {found[number * step % len(found)] for step in (1, 5, 11)[: 1 + number // 16 % 3]} if found else {"f"}
    return ",".join(sorted(chosen))


class Runs:
    """The runs of a command line, and their counts."""

    def __init__(self, pta, folder, kept):
        self.pta = pta
        self.folder = folder
        self.kept = kept
        self.statuses = collections.Counter()
        self.kinds = collections.Counter()
        self.again = 0
        self.json = 0
        self.others = collections.Counter()
        self.failed = 0
        self.slowest = (0.0, 0)

    def run(self, number, case):
        """Runs a case, counts it, and keeps it where it fails."""
        hostile_judge.lay(case, self.folder)
        ended = hostile_judge.run([self.pta, *case.words], self.folder, Limits())
        found = hostile_judge.faults(case, ended)
        if number % 16 == 0 and ended.status == 0:
            found += self.other_workers(case, ended)
        if number % 16 == 8 and ended.status == 0 and "--ask" not in case.words:
            found += self.as_json(case, ended)
        if number % 16 == 4 and ended.status in (0, 3, 4, 5, 6) and case.words[-1] in case.files and "--ask" not in case.words:
            found += self.with_option(case, ["--run", "2000"], {"words": b" ".join(b"%d" % (number * one % 997) for one in range(40))})
        if number % 16 == 12 and ended.status in (0, 3, 4, 5, 6) and case.words[-1] in case.files:
            found += self.with_option(case, ["--entry", entries(case, number)], {})
        self.statuses[ended.status] += 1
        self.kinds[case.kind, ended.status] += 1
        self.slowest = max(self.slowest, (ended.seconds, number))
        if found:
            self.failed += 1
            print(f"case {number} ({case.kind}): {'; '.join(found)}", flush=True)
            keep(self.kept, number, case, ended, found)

    def other_workers(self, case, ended):
        """Runs a case again with another number of workers."""
        self.again += 1
        words = case.words[2:] if case.words[0] == "--workers" else ["--workers", "4", *case.words]
        second = hostile_judge.run([self.pta, *words], self.folder, Limits())
        same = (second.status, second.out, second.err) == (ended.status, ended.out, ended.err)
        return [] if same else [f"another answer with the words {words}: status {second.status}"]

    def with_option(self, case, words, files):
        """Runs a case again with an option and files more, and counts how it ended."""
        other = hostile_judge.Case([*words, *case.words], {**case.files, **files}, case.kind)
        hostile_judge.lay(other, self.folder)
        ended = hostile_judge.run([self.pta, *other.words], self.folder, Limits())
        self.others[words[0], ended.status] += 1
        return [f"with {' '.join(words)}: {fault}" for fault in hostile_judge.faults(other, ended)]

    def as_json(self, case, ended):
        """Runs a case again with --json: the same report in the other form."""
        self.json += 1
        second = hostile_judge.run([self.pta, "--json", *case.words], self.folder, Limits())
        same = (second.status, hostile_judge.lines_of(second.out), second.err) == (ended.status, ended.out, ended.err)
        return [] if same else [f"another report with --json: status {second.status}"]

    def say(self, done, seconds):
        """Prints the counts."""
        print(f"{done} runs in {seconds:.0f} s, {self.again} of them also with another number of workers and {self.json} with --json; the "
              f"slowest was case {self.slowest[1]} with {self.slowest[0]:.1f} s")
        for status, count in sorted(self.statuses.items()):
            kinds = ", ".join(f"{kind} {n}" for (kind, of), n in sorted(self.kinds.items()) if of == status)
            print(f"status {status}: {count} ({kinds})")
        for option in ("--run", "--entry"):
            counts = ", ".join(f"{status} {count}" for (of, status), count in sorted(self.others.items()) if of == option)
            print(f"again with {option}, by status: {counts}")
        print(f"{self.failed} failed" + (f", kept in {self.kept}" if self.failed else ""), flush=True)


def main():
    """Runs all cases; 0 where none failed."""
    given = arguments()
    if not os.access(given.pta, os.X_OK):
        sys.exit(f"{given.pta} is no program")
    texts = Texts(given.seed, seeds())
    shared = "/dev/shm"
    folder = tempfile.mkdtemp(dir=shared if os.path.isdir(shared) else None)
    runs = Runs(os.path.abspath(given.pta), folder, os.path.abspath(given.keep))
    start, done = time.monotonic(), 0
    try:
        for number in range(given.first, given.first + given.runs):
            if time.monotonic() - start > 60 * given.minutes:
                print(f"stopped at case {number}: {given.minutes} minutes have passed")
                break
            runs.run(number, texts.case(number))
            done += 1
            if done % 1000 == 0:
                runs.say(done, time.monotonic() - start)
    except KeyboardInterrupt:
        print(f"interrupted at case {number}")
    finally:
        os.chdir("/")
        shutil.rmtree(folder)
    runs.say(done, time.monotonic() - start)
    return 1 if runs.failed else 0


if __name__ == "__main__":
    sys.exit(main())
