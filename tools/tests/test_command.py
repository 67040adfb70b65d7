"""The command as a user types it."""
import json
import os
import shutil
import subprocess
import sys
import tempfile
import unittest

from .test_rewrites import PTA

ROOT = os.path.dirname(os.path.dirname(os.path.abspath(__file__)))


class Command(unittest.TestCase):
    """Each option, in a folder of its own."""

    def setUp(self):
        self.folder = tempfile.mkdtemp()
        self.addCleanup(shutil.rmtree, self.folder)

    def write(self, name, text):
        """Write a file of the folder."""
        with open(os.path.join(self.folder, name), "w", encoding="latin-1") as stream:
            stream.write(text)

    def run_command(self, *words):
        """Run the command in the folder."""
        return subprocess.run([sys.executable, os.path.join(ROOT, "pta-project"), "--pta", PTA, *words],
                              cwd=self.folder, capture_output=True, text=True, check=False)

    def test_files_and_flags(self):
        self.write("a.c", "int *p, x = N; int main(void) { p = &x; return 0; }\n")
        done = self.run_command("a.c", "--", "-DN=1")
        self.assertEqual((done.returncode, done.stdout), (0, "pta 1\nset p: x\nend\n"))
        self.assertEqual(done.stderr, "0 rewrites exact, 0 types merged, 0 holes\n")

    def test_commands(self):
        self.write("a.c", "int n = N; int main(void) { return 0; }\n")
        self.write("c.json", json.dumps([{"directory": self.folder, "file": "a.c",
                                          "command": "cc -c -O2 -DN=1 -I . a.c -o a.o"}]))
        self.assertEqual(self.run_command("--commands", "c.json").returncode, 0)

    def test_refusal_has_its_place_in_the_source(self):
        self.write("a.c", "#include <stddef.h>\nint main(void) { return 0; }\n  struct s f(void) { }\n")
        done = self.run_command("a.c")
        self.assertIn("a.c:3:", done.stderr)

    def test_hole_as_an_error(self):
        self.write("a.c", "int f(int); int main(void) { return f(1); }\n")
        self.assertEqual(self.run_command("a.c").returncode, 0)
        self.assertEqual(self.run_command("--no-holes", "a.c").returncode, 1)
        self.assertEqual(self.run_command("--no-holes", "--plain", "f", "a.c").returncode, 0)

    def test_entry(self):
        self.write("a.c", "int *p; void put(int *q) { p = q; } int *get(void) { return p; }\n")
        done = self.run_command("--entry", "put,get", "a.c")
        self.assertEqual((done.returncode, done.stdout.splitlines()[1:3]), (0, ["set p: <outside>", "set put/q: <outside>"]))
        self.write("ask.txt", "points p <outside>\n")
        self.assertEqual(self.run_command("--entry", "put,get", "--ask", "ask.txt", "a.c").stdout, "ask 1\nyes\nend\n")
        self.assertEqual(self.run_command("--entry", "other", "a.c").returncode, 12)

    def test_ask(self):
        self.write("a.c", "int *p, x; int main(void) { p = &x; return 0; }\n")
        self.write("ask.txt", "points p x\n")
        done = self.run_command("--ask", "ask.txt", "a.c")
        self.assertEqual((done.returncode, done.stdout), (0, "ask 1\nyes\nend\n"))

    def test_ask_with_places_of_the_source(self):
        self.write("a.c", "#include <stdlib.h>\nstatic int *p;\nvoid f(void) { }\n"
                          "int main(void) { p = malloc(4); f(); return 0; }\n")
        self.write("ask.txt", "points a.c:p malloc@a.c:4:28\n\nreaches a.c:4:34 f\nreaches a.c:4:34 main\n")
        done = self.run_command("--ask", "ask.txt", "a.c")
        self.assertEqual((done.returncode, done.stdout), (0, "ask 1\nyes\nyes\nno\nend\n"))

    def test_allocator(self):
        self.write("a.c", "#include <stdlib.h>\nvoid *get(size_t n) { return malloc(n); }\n"
                          "void *more(void *p, size_t n) { return realloc(p, n); }\n"
                          "struct s { int *x; } *p, *q; int x, *r;\nint main(void)\n{\n  p = get(8);\n  q = get(8);\n"
                          "  p->x = &x;\n  r = q->x;\n  q = more(p, 9);\n  return 0;\n}\n")
        self.assertIn("\nset r: x\n", self.run_command("a.c").stdout)
        done = self.run_command("--allocator", "get,more=realloc", "a.c")
        for line in ("set p: malloc@a.c:7:7", "set q: malloc@a.c:8:7 realloc@a.c:11:7", "set malloc@a.c:7:7.x: x",
                     "edge main get", "edge main malloc"):
            self.assertIn(line, done.stdout.split("\n"))

    def test_many_units_at_once(self):
        for number in range(9):
            self.write(f"u{number}.c", f"int f{number}(int *p) {{ return *p; }}\n")
        self.write("main.c", "int f3(int *); int x; int main(void) { return f3(&x); }\n")
        words = ["main.c", *(f"u{number}.c" for number in range(9))]
        one, many = self.run_command("-j", "1", *words), self.run_command("-j", "3", *words)
        self.assertEqual((one.returncode, one.stdout, one.stderr), (0, many.stdout, many.stderr))
        self.assertIn("set f3/p: x", one.stdout)

    def test_no_such_file(self):
        self.assertEqual(self.run_command("b.c").returncode, 1)

    def test_no_such_analyser(self):
        self.write("a.c", "int main(void) { return 0; }\n")
        self.assertEqual(self.run_command("--pta", "/nowhere/pta", "a.c").returncode, 1)

    def test_record(self):
        self.write("a.c", "int f(void); int main(void) { return f(); }\n")
        self.write("b.c", "int f(void) { return N; }\n")
        self.write("other.c", "int main(void) { return 0; }\n")
        self.write("build", "cc -c a.c -o a.o; cc -c -DN=2 b.c; ar rc libb.a b.o; cc a.o -L. -lb -o prog\n"
                            "cc other.c -o other\n")
        noted = subprocess.run([sys.executable, os.path.join(ROOT, "pta-project"), "record", "--", "sh", "build"],
                               cwd=self.folder, capture_output=True, text=True, check=False)
        self.assertEqual((noted.returncode, noted.stderr), (0, ""))
        self.assertEqual(self.run_command("--commands", "compile_commands.json").returncode, 1)
        done = self.run_command("--commands", "compile_commands.json", "--program", "prog")
        self.assertEqual((done.returncode, done.stdout), (0, "pta 1\nedge main f\nend\n"))

    def test_record_with_an_archive_that_another_ar_made(self):
        self.write("a.c", "int f(void); int main(void) { return f(); }\n")
        self.write("b.c", "int f(void) { return 1; }\n")
        self.write("c.c", "int f(void) { return 2; } int g(void) { return 2; }\n")
        self.write("build", f"cc -c b.c c.c; {shutil.which('ar')} rc libb.a b.o c.o; cc a.c -L. -lb -o prog\n")
        noted = subprocess.run([sys.executable, os.path.join(ROOT, "pta-project"), "record", "--", "sh", "build"],
                               cwd=self.folder, capture_output=True, text=True, check=False)
        self.assertEqual((noted.returncode, noted.stderr), (0, ""))
        done = self.run_command("--no-holes", "--commands", "compile_commands.json")
        self.assertEqual((done.returncode, done.stdout), (0, "pta 1\nedge main f\nend\n"))

    def test_record_with_a_shared_library(self):
        self.write("a.c", "int f(void); int main(void) { return f(); }\n")
        self.write("b.c", "int f(void) { return 1; }\n")
        self.write("build", "cc -fPIC -c b.c -o b.sho; cc -shared -o libb.so.1 b.sho; ln -s libb.so.1 libb.so\n"
                            "cc -c a.c -o a.obj; cc -o prog a.obj -L. -lb; cc -o other a.obj libb.so.1\n")
        noted = subprocess.run([sys.executable, os.path.join(ROOT, "pta-project"), "record", "--", "sh", "build"],
                               cwd=self.folder, capture_output=True, text=True, check=False)
        self.assertEqual((noted.returncode, noted.stderr), (0, ""))
        for program in ("prog", "other"):
            done = self.run_command("--no-holes", "--commands", "compile_commands.json", "--program", program)
            self.assertEqual((done.returncode, done.stdout), (0, "pta 1\nedge main f\nend\n"))

    def test_record_gives_the_builds_status(self):
        noted = subprocess.run([sys.executable, os.path.join(ROOT, "pta-project"), "record", "--", "sh", "-c", "exit 3"],
                               cwd=self.folder, capture_output=True, text=True, check=False)
        self.assertEqual(noted.returncode, 3)


if __name__ == "__main__":
    unittest.main()
