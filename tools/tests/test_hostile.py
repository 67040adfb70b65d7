"""The forms of `hostile_growth.py`: their texts grow in proportion to their size, and small ones end as the manual says."""
import os
import shutil
import subprocess
import tempfile
import unittest

import hostile_forms
from hostile_growth import Seen
from hostile_judge import Case, Ended, Limits, faults, lay, lines_of, run

from .test_rewrites import PTA

CRATES = os.path.join(os.path.dirname(os.path.abspath(__file__)), "..", "..", "crates")


class Forms(unittest.TestCase):
    """Each form by itself."""

    def setUp(self):
        self.folder = tempfile.mkdtemp()
        self.addCleanup(shutil.rmtree, self.folder)
        self.addCleanup(os.chdir, os.getcwd())

    def test_sizes(self):
        for name in hostile_forms.FORMS:
            small, large = (sum(map(len, hostile_forms.files(name, size).values())) for size in (400, 800))
            self.assertTrue(1.2 * small < large < 2.4 * small, (name, small, large))

    def test_small_ones_end_as_stated(self):
        ended = {}
        for name in hostile_forms.FORMS:
            case = hostile_forms.case(name, 5)
            lay(case, self.folder)
            seen = run([PTA, *case.words], self.folder, Limits())
            self.assertEqual(faults(case, seen), [], name)
            ended[name] = seen.status, seen.err
        self.assertEqual({name: seen for name, seen in ended.items() if seen[0]}, {})


class Cut(unittest.TestCase):
    """A program's text, cut."""

    def test_behind_each_line(self):
        folder = tempfile.mkdtemp()
        self.addCleanup(shutil.rmtree, folder)
        with open(os.path.join(CRATES, "pta", "data", "list.i"), encoding="ascii") as stream:
            lines = stream.readlines()
        ended = []
        for count in range(len(lines)):
            with open(os.path.join(folder, "list.i"), "w", encoding="ascii") as stream:
                stream.writelines(lines[:count])
            done = subprocess.run([PTA, "list.i"], cwd=folder, capture_output=True, text=True, check=False)
            ended.append((done.returncode, done.stdout, done.stderr))
        whole = {*range(12), 19}
        self.assertEqual(len(lines), 27)
        self.assertEqual(ended, [(5, "", "link no main\n") if count in whole
                                 else (3, "", f"list.i:{count + 1}:1: malformed\n") for count in range(27)])


class Growth(unittest.TestCase):
    """What is said of times."""

    def test_linear_and_quadratic(self):
        self.assertAlmostEqual(Seen([1, 2, 4], [0.02, 0.03, 0.05]).growth(0.01), 2.0)
        self.assertAlmostEqual(Seen([1, 2, 4], [0.02, 0.05, 0.17]).growth(0.01), 4.0)

    def test_one_size_alone(self):
        self.assertEqual(Seen([1], [0.02]).growth(0.01), 0.0)


class Judge(unittest.TestCase):
    """What a run may answer."""

    def test_a_report_that_is_cut(self):
        case = Case(["a.i"], {"a.i": b""})
        self.assertEqual(faults(case, Ended(0, b"pta 1\nend\n", b"", 0.0)), [])
        self.assertEqual(faults(case, Ended(0, b"pta 1\n", b"", 0.0)), ["out is no whole report"])
        self.assertEqual(faults(case, Ended(14, b"", b"", 0.0)), ["status 14 isn't listed"])
        self.assertEqual(faults(case, Ended(11, b"run 1\nwent 9\n", b"", 0.0)), ["out is no run that stopped"])

    def test_a_report_as_json(self):
        made = b'{"calls":[{"place":"a.i:1:2","targets":["f"]}],"edges":[["g","f"]],"report":2,"sets":[{"members":[],"name":"p"}]}\n'
        self.assertEqual(lines_of(made), b"pta 1\nset p:\ncall a.i:1:2: f\nedge g f\nend\n")
        for other in (made[:-1], made.replace(b",", b", "), made.replace(b":2,", b":3,"), b"[]\n", b"{}\n", b"pta 1\n"):
            self.assertEqual(lines_of(other), b"")


if __name__ == "__main__":
    unittest.main()
