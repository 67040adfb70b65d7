"""Pictures of a report."""
import json
import os
import shutil
import subprocess
import sys
import tempfile
import unittest

from pta_project.graph import chosen_edges, dot, page, read_report

GRAPH = os.path.join(os.path.dirname(os.path.dirname(os.path.abspath(__file__))), "pta-graph")
REPORT = ("pta 1\nset a.c:f/p: x malloc@a.c:3:4\nset q:\ncall a.c:5:6: g\nedge main a.c:f\nedge a.c:f g\n"
          "edge g malloc\nedge h g\nend\n")


class Graph(unittest.TestCase):
    """DOT and pages."""

    def test_reading(self):
        report = read_report(REPORT)
        self.assertEqual(report.sets, {"a.c:f/p": ["x", "malloc@a.c:3:4"], "q": []})
        self.assertEqual(report.calls, {"a.c:5:6": ["g"]})
        self.assertEqual(report.edges, [("main", "a.c:f"), ("a.c:f", "g"), ("g", "malloc"), ("h", "g")])

    def test_no_whole_report(self):
        for text in ("", "pta 1\nset q:\n", "ask 1\nend\n"):
            with self.assertRaises(ValueError):
                read_report(text)

    def test_parts(self):
        report = read_report(REPORT)
        self.assertEqual(chosen_edges(report, "main", None, -1), [("main", "a.c:f"), ("a.c:f", "g"), ("g", "malloc")])
        self.assertEqual(chosen_edges(report, "main", None, 1), [("main", "a.c:f")])
        self.assertEqual(chosen_edges(report, None, "a.c:f", -1), [("main", "a.c:f")])
        self.assertEqual(chosen_edges(report, "main", "g", -1), [("main", "a.c:f"), ("a.c:f", "g")])
        with self.assertRaises(ValueError):
            chosen_edges(report, "nowhere", None, -1)

    def test_own_function_that_calls_nothing(self):
        report = read_report("pta 1\nedge main leaf\nedge main puts\nend\n")
        lines = dot(report, report.edges).split("\n")
        self.assertIn('  "leaf" [label="leaf"];', lines)
        self.assertIn('  "puts" [label="puts", color=grey, fontcolor=grey];', lines)

    def test_dot(self):
        report = read_report(REPORT)
        lines = dot(report, report.edges).split("\n")
        for line in ('    label="a.c";', '    "a.c:f" [label="f"];', '  "malloc" [label="malloc", color=grey, fontcolor=grey];',
                     '  "a.c:f" -> "g" [style=dashed];', '  "main" -> "a.c:f";'):
            self.assertIn(line, lines)

    def test_page(self):
        report = read_report(REPORT.replace("x malloc", "</script> malloc"))
        made = page(report, report.edges, "src")
        self.assertNotIn("\"REPORT\"", made)
        self.assertEqual(made.count("</script>"), 1)
        told = json.loads(made.split("const report = ")[1].split(";\n")[0])
        self.assertEqual(told["edges"][1], ["a.c:f", "g", 1])

    def test_command(self):
        folder = tempfile.mkdtemp()
        self.addCleanup(shutil.rmtree, folder)
        file = os.path.join(folder, "report")
        with open(file, "w", encoding="latin-1") as stream:
            stream.write(REPORT)
        done = subprocess.run([sys.executable, GRAPH, "--from", "h", file], capture_output=True, text=True, check=False)
        self.assertEqual((done.returncode, done.stdout.count("->")), (0, 2))
        done = subprocess.run([sys.executable, GRAPH, folder], capture_output=True, text=True, check=False)
        self.assertEqual(done.returncode, 1)


if __name__ == "__main__":
    unittest.main()
