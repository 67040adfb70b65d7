#!/usr/bin/env python3
"""hostile_memory.py PTA [--from MB] [--step MB] [--to MB] [--workers N,N..] [--size BYTES] [--stack KIB]
    [--enough N]

Runs the program PTA on one unit of SIZE bytes (a million) with less address space than it needs, as `ulimit -v` gives it: from 20 MB up in
steps of 20, with 1, 4 and 64 workers, until N limits in a row (three) are enough. Each run must end with status 9, the line
`out of memory` (no line where its words found no room) and an empty standard output, or with the report that it gives where there is no
limit, byte for byte. Prints a line for each run; the status is 1 where a run ended otherwise.

A system that lends more memory than it has ends a process by a signal when it wants it back; this script, and pta, know nothing of that."""
import argparse
import os
import random
import shutil
import sys
import tempfile

from hostile_judge import Case, Limits, lay, run
from hostile_programs import Program

MEGA = 1000 * 1000


def unit(size):
    """A program with calls through pointers, allocations and structures, filled up to this size with declarations."""
    made = Program(random.Random("a unit of a megabyte"))
    made.functions, made.pointers, made.size = 40, 100, 40
    text = made.text()
    line = b"int*f0_0(int*,int**);extern struct s0_0*far;\n"
    return text + line * max(0, (size - len(text)) // len(line))


def limited(pta, folder, workers, mega, stack):
    """Runs with so many workers under a limit in MB; None is no limit."""
    command = [pta, "--workers", str(workers), "a.i"]
    if mega is not None:  # the shell counts in KiB
        command = ["/bin/sh", "-c", f'ulimit -v {mega * 1000000 // 1024} && exec "$0" "$@"', *command]
    return run(command, folder, Limits(stack=stack, memory=None, processor=200, clock=3000))


def ladder(pta, folder, workers, given, whole):
    """Tries the limits from below; the number of runs that ended otherwise than stated."""
    odd, row = 0, 0
    for mega in range(given.first, given.last + 1, given.step):
        ended = limited(pta, folder, workers, mega, given.stack * 1024)
        enough = (ended.status, ended.out, ended.err) == (whole.status, whole.out, whole.err)
        # (where the words themselves find no room, nothing is written)
        short = (ended.status, ended.out) == (9, b"") and ended.err in (b"out of memory\n", b"")
        other = f"FAIL, status {ended.status}, {len(ended.out)} bytes of out, {ended.err[:80]!r}"
        seen = "the report" if enough else "out of memory" if short else other
        print(f"{workers} workers, {mega} MB: {seen}", flush=True)
        odd += not enough and not short
        row = row + 1 if enough else 0
        if row == given.enough:
            break
    return odd


def arguments():
    """The words of the command line."""
    parser = argparse.ArgumentParser(description=__doc__, formatter_class=argparse.RawDescriptionHelpFormatter)
    parser.add_argument("pta")
    parser.add_argument("--from", dest="first", type=int, default=20)
    parser.add_argument("--step", type=int, default=20)
    parser.add_argument("--to", dest="last", type=int, default=4000)
    parser.add_argument("--workers", default="1,4,64")
    parser.add_argument("--size", type=int, default=MEGA)
    parser.add_argument("--stack", type=int, default=256)
    parser.add_argument("--enough", type=int, default=3)
    return parser.parse_args()


def main():
    """Tries each number of workers; 0 where all runs ended as stated."""
    given = arguments()
    if not os.access(given.pta, os.X_OK):
        sys.exit(f"{given.pta} is no program")
    pta, folder = os.path.abspath(given.pta), tempfile.mkdtemp()
    try:
        lay(Case(["a.i"], {"a.i": unit(given.size)}), folder)
        whole = limited(pta, folder, 1, None, given.stack * 1024)
        print(f"a unit of {os.path.getsize(os.path.join(folder, 'a.i'))} bytes: status {whole.status}, a report of {len(whole.out)} bytes, "
              f"{whole.seconds:.1f} s", flush=True)
        if whole.status != 0:
            sys.exit(f"the unit has no report: {whole.err!r}")
        odd = sum(ladder(pta, folder, int(workers), given, whole) for workers in given.workers.split(","))
    finally:
        os.chdir("/")
        shutil.rmtree(folder)
    return 1 if odd else 0


if __name__ == "__main__":
    sys.exit(main())
