"""Programs of several files are run, and each pointer that is seen at run time stands in the sets of the report."""
import json
import os
import re
import shutil
import subprocess
import sys
import tempfile
import unittest

from .test_rewrites import PTA

HERE = os.path.dirname(os.path.abspath(__file__))
PROGRAMS = os.path.join(HERE, "programs")
_OWN = re.compile(r"(?<!\S)[\w./-]+\.c:(?=[A-Za-z_])")
_PLACE = re.compile(r"(?:malloc|calloc|realloc|strdup)@(?:[\w./-]*/)?([\w.-]+:\d+):\d+")


def sets_of(report):
    """The sets of a report by name, without the files of static names and the columns of allocated objects."""
    sets = {}
    for line in report.split("\n"):
        if line.startswith("set "):
            line = re.sub(r"(/\w+)@\d+:\d+", r"\1", _OWN.sub("", _PLACE.sub(r"@\1", line[4:])))
            name, members = re.match(r"(\S+):(?: (.*))?$", line).groups()
            sets.setdefault(name, set()).update((members or "").split())
    return sets


def lacking(facts, sets):
    """The facts that the sets don't have."""
    return [(place, target) for place, target in facts if not _stands(place, target, sets)]


def _stands(place, target, sets):
    """Whether a set of the place, of what it is a part of, or of the parts of what was allocated, has the target.

    What is allocated through a pointer to malloc has no place in the report: `malloc@*`.
    """
    wholes = [place]
    while "." in wholes[-1]:
        wholes.append(wholes[-1].rpartition(".")[0])
    for name, members in sets.items():
        if target.startswith("@") and any(member.endswith("@*") for member in members):
            members = members | {target}
        if place.startswith("@") and re.match(r"\w+@\*", name):
            wholes.append(name)
        if name in wholes or place.startswith("@") and (name == place or name.startswith(place + ".")):
            if any(member == target or member.startswith(target + ".") for member in members):
                return True
    return False


@unittest.skipUnless(shutil.which("gdb") and shutil.which("gcc"), "run-time witnesses need gdb and gcc: SKIPPED")
class Witness(unittest.TestCase):
    """Each program of the folder."""

    def setUp(self):
        self.folder = tempfile.mkdtemp()
        self.addCleanup(shutil.rmtree, self.folder)

    def seen(self, sources):
        """The facts that a run of the sources shows."""
        program, facts = os.path.join(self.folder, "program"), os.path.join(self.folder, "facts")
        subprocess.run(["gcc", "-w", "-g", "-O0", "-ftrivial-auto-var-init=zero", "-o", program, *sources, "-lpthread"],
                       check=True)
        environment = {**os.environ, "PTA_FACTS": facts,
                       "PTA_SOURCES": ":".join(map(os.path.basename, sources))}
        done = subprocess.run(["gdb", "-nx", "-batch", "-x", os.path.join(HERE, "observer.py"), program],
                              env=environment, capture_output=True, text=True, check=False, timeout=60)
        self.assertTrue(os.path.exists(facts), done.stdout + done.stderr)
        with open(facts, encoding="utf-8") as stream:
            return json.load(stream)

    def witness(self, name, count, merged=0):
        """A program's run shows at least so many facts, all of which stand in the sets; and there's no hole."""
        folder = os.path.join(PROGRAMS, name)
        sources = sorted(os.path.join(folder, file) for file in os.listdir(folder) if file.endswith(".c"))
        done = subprocess.run([sys.executable, os.path.join(os.path.dirname(HERE), "pta-project"), "--pta", PTA,
                               "--no-holes", "-o", os.path.join(self.folder, "out"), *map(os.path.basename, sources)],
                              cwd=folder, capture_output=True, text=True, check=False)
        self.assertEqual(done.returncode, 0, done.stderr)
        self.assertIn(f" {merged} types merged", done.stderr)
        facts = self.seen(sources)
        self.assertEqual(lacking(facts, sets_of(done.stdout)), [])
        self.assertGreaterEqual(len(facts), count)


for _name, _count, _merged in (("arena", 6, 1), ("csv", 17, 0), ("events", 7, 0), ("list", 16, 2), ("marks", 20, 0),
                               ("old", 5, 0), ("say", 6, 0), ("shapes", 14, 3), ("sorting", 16, 0), ("table", 11, 0)):
    setattr(Witness, f"test_{_name}", lambda self, words=(_name, _count, _merged): self.witness(*words))


class Lacking(unittest.TestCase):
    """The comparison finds what is lacking."""

    REPORT = "pta 1\nset lib/a.c:p: x s.n\nset s.m: malloc@lib/a.c:3:4\nset malloc@lib/a.c:3:4: a.c:y\nset f/q@1:2: u\nend\n"

    def test_what_stands(self):
        facts = [["p", "x"], ["p", "s"], ["s.m", "@a.c:3"], ["@a.c:3", "y"], ["f/q", "u"]]
        self.assertEqual(lacking(facts, sets_of(self.REPORT)), [])

    def test_what_is_lacking(self):
        facts = [("p", "y"), ("s.k", "x"), ("@a.c:4", "y"), ("f/q", "x")]
        self.assertEqual(lacking(facts, sets_of(self.REPORT)), facts)


if __name__ == "__main__":
    unittest.main()
