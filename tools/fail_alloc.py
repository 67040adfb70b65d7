#!/usr/bin/env python3
"""fail_alloc.py PTA [--case NAME..] [--on] [--workers N]
fail_alloc.py --kit [--case NAME..]

Refuses each allocation of a run in turn, for each of a few small programs. A run must then end with status 9, an empty standard output and
the line `out of memory` (no line where its words found no room), or with the very answer that it gives where nothing is refused. A case
whose words PTA doesn't know is passed over.

The first form runs the program PTA with a library before the C library's that refuses the Nth call of malloc and the like (it is
`hostile_alloc.c`, which `cc` compiles). It takes a few milliseconds for each allocation. With --on all calls from the Nth on are refused.
With --workers N each case runs with N workers, and the calls of all of them count; which one is refused then varies from run to run.

The second form asks the kit: `rt try --fail-alloc 1..` in crates/pta builds the program anew for each case (minutes) and runs it, as
compiled with checks, once for each allocation. It says of a case what the kit printed. The kit stops after 2,000 runs or ten minutes of
them; then the case goes on at its `next=`. The status is 1 where a run ended otherwise than stated."""
import argparse
import collections
import os
import re
import shutil
import subprocess
import sys
import tempfile

from hostile_judge import Case, Limits, lay, run

HERE = os.path.dirname(os.path.abspath(__file__))
CRATE = os.path.join(HERE, "..", "crates", "pta")
MOST = 200000

COPY = b"int x,*p; int main(void){p=&x;return 0;}"
TWO = b"int x,*p,*q,*r; int main(void){p=&x;return 0;}"
TABLE = b"""typedef void F(void);
void f(void); void g(void);
F *t[2]={f};
void f(void){t[1]=g;} void g(void){}
int main(void){for(int i=0;i<2;i++)
t[i]();
return 0;}
"""
ALLOCATED = b"""void *malloc(unsigned long);
struct n{struct n*next;int*v;};
void *xm(unsigned long k){return malloc(k);}
int x;
struct n *a,*b;
int main(void){
a=malloc(sizeof(struct n));
b=xm(sizeof(struct n));
a->next=b;
b->v=&x;
return 0;}
"""
ENTRIES = b"""struct s{int*v;};
int x;
struct s*made;
void put(struct s*a,int*b){a->v=b;}
struct s*get(void){return made;}
"""


def cases():
    """The cases by name."""
    with open(os.path.join(CRATE, "data", "list.i"), "rb") as file:
        listed = file.read()
    questions = b"points p x\npoints q x\nalias p p\nalias q r\n"
    return {
        "copy": Case(["a.i"], {"a.i": COPY}),
        "allocated": Case(["a.i"], {"a.i": ALLOCATED}),
        "table": Case(["a.i"], {"a.i": TABLE}),
        "list": Case(["list.i"], {"list.i": listed}),
        "units": Case(["a.i", "b.i"], {"a.i": COPY, "b.i": b"int *p; int x; static int s; void f(void){p=&s;p=&x;}"}),
        "questions": Case(["--ask", "s", "a.i"], {"a.i": TWO, "s": questions}),
        "refused": Case(["a.i"], {"a.i": b"int main(void){return 0}"}),
        "mistyped": Case(["a.i"], {"a.i": b"int*f(long n){return (int*)n;}"}),
        "unlinked": Case(["a.i"], {"a.i": b"int f(void);int main(void){return f();}"}),
        "missing": Case(["a.i", "b.i"], {"a.i": COPY}),
        "generated": Case(["--gen", "3"]),
        "json": Case(["--json", "a.i"], {"a.i": ALLOCATED}),
        "entries": Case(["--entry", "put,get", "a.i"], {"a.i": ENTRIES}),
        "run": Case(["--run", "1000", "a.i"], {"a.i": TABLE, "words": b""}),
    }


def shim(folder):
    """Compiles the library that refuses memory."""
    library = os.path.join(folder, "refuse.so")
    compiler = os.environ.get("CC", "cc")
    subprocess.run([compiler, "-O1", "-shared", "-fPIC", "-o", library, os.path.join(HERE, "hostile_alloc.c")], check=True)
    return library


class Refusing:
    """The program with a library that refuses memory, and a folder that it runs in."""

    def __init__(self, pta, folder, on):
        self.pta = pta
        self.inner = os.path.join(folder, "case")
        os.mkdir(self.inner)
        self.mark = os.path.join(folder, "mark")
        self.settings = {"LD_PRELOAD": shim(folder), "HOSTILE_ALLOC_MARK": self.mark} | ({"HOSTILE_ALLOC_ON": "1"} if on else {})

    def run(self, words, number):
        """Runs with these words, the allocation of this number refused (0: none): how it ended, and whether one was."""
        if os.path.exists(self.mark):
            os.unlink(self.mark)
        settings = self.settings | {"HOSTILE_ALLOC_FAIL": str(number)}
        ended = run([self.pta, *words], self.inner, Limits(), environment=settings)
        return ended, os.path.exists(self.mark)

    def case(self, name, case, words):
        """Refuses each allocation of a case in turn; the number of runs that ended otherwise than stated."""
        lay(case, self.inner)
        whole, _ = self.run(words, 0)
        if whole.status == 2:
            print(f"{name}: passed over, the words aren't known")
            return 0
        seen, odd = collections.Counter(), []
        for number in range(1, MOST):
            ended, was = self.run(words, number)
            if not was:
                break
            kind = answer(ended, whole)
            is_fit = kind in ("out of memory", "the whole answer") or (kind == SILENT and not seen["out of memory"])
            seen[kind] += 1
            if not is_fit:
                odd.append(number)
        counts = ", ".join(f"{kind}: {count}" for kind, count in seen.items())
        print(f"{name}: status {whole.status} with all memory; {number - 1} allocations refused in turn; {counts}", flush=True)
        if odd:
            print(f"  otherwise than stated: allocation {', '.join(str(n) for n in odd[:40])}", flush=True)
        return len(odd)


# The words are had first: what is refused before the first line `out of memory` may be their room, of which nothing is said.
SILENT = "status 9 without a line"


def answer(ended, whole):
    """What a run with a refused allocation answered."""
    if (ended.status, ended.out, ended.err) == (whole.status, whole.out, whole.err):
        return "the whole answer"
    if ended.status == 9 and not ended.out:
        said = {b"out of memory\n": "out of memory", b"": SILENT}
        return said.get(ended.err, f"status 9 with the line {ended.err[:60]!r}")
    return f"status {ended.status} with {len(ended.out)} bytes of out and the line {ended.err[:60]!r}"


def through_kit(name, case):
    """Asks the kit for a case, until it has tried all; says what it printed, and gives whether something was otherwise."""
    first, found = 1, False
    with tempfile.TemporaryDirectory() as folder:
        lay(case, folder)
        data = [word for file in case.files for word in ("--data", f"{file}={os.path.join(folder, file)}")]
        while first:
            command = ["rt", "try", "--fail-alloc", f"{first}..", *data, "--", *case.words]
            done = subprocess.run(command, cwd=CRATE, stdin=subprocess.DEVNULL, capture_output=True, text=True, check=False)
            print(f"{name}, from {first}: status {done.returncode}\n{done.stdout[-4000:]}{done.stderr[-4000:]}", flush=True)
            found |= done.returncode not in (0, 6)
            on = re.search(r"\bnext=([0-9]+)", done.stdout + done.stderr)
            first = int(on.group(1)) if on and int(on.group(1)) > first else 0
    return found


def arguments():
    """The words of the command line."""
    parser = argparse.ArgumentParser(description=__doc__, formatter_class=argparse.RawDescriptionHelpFormatter)
    parser.add_argument("pta", nargs="?")
    parser.add_argument("--case", nargs="+", choices=list(cases()), default=list(cases()))
    parser.add_argument("--on", action="store_true")
    parser.add_argument("--workers", default=None)
    parser.add_argument("--kit", action="store_true")
    given = parser.parse_args()
    if not given.kit and not (given.pta and os.access(given.pta, os.X_OK)):
        sys.exit(__doc__)
    return given


def main():
    """Tries the cases; 0 where all ended as stated."""
    given = arguments()
    known = cases()
    if given.kit:
        return 1 if sum(through_kit(name, known[name]) for name in given.case) else 0
    folder = tempfile.mkdtemp()
    try:
        refusing = Refusing(os.path.abspath(given.pta), folder, given.on)
        extra = ["--workers", given.workers] if given.workers else []
        odd = sum(refusing.case(name, known[name], extra + known[name].words) for name in given.case)
    finally:
        os.chdir("/")
        shutil.rmtree(folder)
    print(f"{odd} runs otherwise than stated")
    return 1 if odd else 0


if __name__ == "__main__":
    sys.exit(main())
