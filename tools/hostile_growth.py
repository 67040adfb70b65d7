#!/usr/bin/env python3
"""hostile_growth.py PTA [--form WORD..] [--seconds S] [--runs R] [--most BYTES] [--minutes M] [--all]

Runs the program PTA on texts of some 180 forms (lists, chains of operators, blocks, structures, units ..) in sizes that double, until a run
takes S seconds of processor (0.2) or the text has BYTES (4,000,000), and looks at the last three sizes: n, 2n and 4n. A form whose time
grows by more than 2.7 from 2n to 4n (an empty program's time taken off each) grows faster than n log n; --form chooses the forms whose
names contain a WORD. Times are the least of R runs (2), user and system. Prints a line for each form that grows so, with --all for each
form. Refusals (a limit of rows, say) end a form's sizes. The status is 1 where a form grew faster than n log n, or a run ended otherwise
than docs/MANUAL.md says."""
import argparse
import os
import shutil
import sys
import tempfile
import time
from dataclasses import dataclass, field

import hostile_forms
from hostile_judge import Case, Limits, faults, lay, run

GROWTH = 2.7
SMALLEST = 250
LIMITS = Limits(memory=4 << 30, processor=300, clock=3000)


@dataclass
class Seen:
    """What a form's sizes gave: the sizes, the time of each, the status of the last run, and what was wrong with a run."""

    sizes: list = field(default_factory=list)
    times: list = field(default_factory=list)
    status: int = 0
    odd: list = field(default_factory=list)

    def growth(self, empty):
        """By how much the time grew from the last size but one to the last."""
        if len(self.times) < 2:
            return 0.0
        before, last = (max(seconds - empty, 0.001) for seconds in self.times[-2:])
        return last / before


class Runs:
    """The program, a folder to run in, and how often each text is run."""

    def __init__(self, pta, folder, count):
        self.pta, self.folder, self.count = pta, folder, count

    def least(self, case):
        """The least processor time of some runs of a case, and the last run's end."""
        lay(case, self.folder)
        ended = [run([self.pta, *case.words], self.folder, LIMITS) for _ in range(self.count)]
        return min(one.processor for one in ended), ended[-1]

    def form(self, name, enough, most):
        """Runs a form in sizes that double, until one takes long enough."""
        seen, size = Seen(), SMALLEST
        while True:
            case = hostile_forms.case(name, size)
            if sum(map(len, case.files.values())) > most:
                return seen
            seconds, ended = self.least(case)
            found = faults(case, ended)
            if found:
                seen.odd.append(f"size {size}: {'; '.join(found)}, status {ended.status}, {ended.err[:60]!r}")
                return seen
            seen.status = ended.status
            if ended.status != 0:
                return seen
            seen.sizes.append(size)
            seen.times.append(seconds)
            if seconds > enough and len(seen.sizes) > 2:
                return seen
            size *= 2


def arguments():
    """The words of the command line."""
    parser = argparse.ArgumentParser(description=__doc__, formatter_class=argparse.RawDescriptionHelpFormatter)
    parser.add_argument("pta")
    parser.add_argument("--form", nargs="+", default=[""])
    parser.add_argument("--seconds", type=float, default=0.2)
    parser.add_argument("--runs", type=int, default=2)
    parser.add_argument("--most", type=int, default=4_000_000)
    parser.add_argument("--minutes", type=float, default=600.0, help="stop after so many minutes, and say so")
    parser.add_argument("--all", action="store_true")
    return parser.parse_args()


def row(name, seen, empty):
    """The line of a form: its last three sizes with their times, and the growth."""
    last = list(zip(seen.sizes, seen.times))[-3:]
    cells = " | ".join(f"{size:,}: {seconds:.3f}" for size, seconds in last)
    stopped = f" | stopped with status {seen.status}" if seen.status else ""
    return f"| {name} | {cells} | {seen.growth(empty):.1f} times{stopped} |"


def main():
    """Tries the forms; 0 where none grew too fast."""
    given = arguments()
    if not os.access(given.pta, os.X_OK):
        sys.exit(f"{given.pta} is no program")
    folder, start = tempfile.mkdtemp(), time.monotonic()
    runs, fast, odd, tried = Runs(os.path.abspath(given.pta), folder, given.runs), 0, 0, 0
    try:
        empty, _ = runs.least(Case(["a.i"], {"a.i": hostile_forms.EMPTY.encode()}))
        for name in [name for name in hostile_forms.FORMS if any(word in name for word in given.form)]:
            if time.monotonic() - start > 60 * given.minutes:
                print(f"stopped before `{name}`: {given.minutes} minutes have passed")
                break
            seen = runs.form(name, given.seconds, given.most)
            grew = seen.growth(empty) > GROWTH and seen.times[-1] > given.seconds / 4
            tried, fast, odd = tried + 1, fast + grew, odd + len(seen.odd)
            if grew or given.all:
                print(row(name, seen, empty), flush=True)
            for what in seen.odd:
                print(f"{name}: {what}", flush=True)
    finally:
        os.chdir("/")
        shutil.rmtree(folder)
    print(f"{tried} forms; {fast} grew faster than n log n; {odd} runs ended otherwise than stated; an empty program {empty:.3f} s")
    return 1 if fast or odd else 0


if __name__ == "__main__":
    sys.exit(main())
