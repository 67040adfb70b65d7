"""The library: each body passes by itself, and does with pointers what it should."""
import os
import shutil
import tempfile
import unittest

from pta_project.fitting import Fitter, holes
from pta_project.catalogue import catalogue
from pta_project.library import library_unit
from pta_project.running import Pta

from .test_rewrites import PTA, Analysed


class Library(unittest.TestCase):
    """All files of the library."""

    def setUp(self):
        self.folder = tempfile.mkdtemp()
        self.addCleanup(shutil.rmtree, self.folder)

    def test_each_body(self):
        unit = library_unit("gcc", self.folder, sorted(catalogue()), ["-D_GNU_SOURCE"])
        fitter = Fitter(Pta(PTA, self.folder), "gcc")
        fitter.fit([unit])
        self.assertEqual((fitter.mend(unit), [str(entry) for entry in holes(fitter.log([unit]))]), (None, []))

    def test_number_of_names(self):
        self.assertGreaterEqual(len(catalogue()), 300)


class Bodies(Analysed):
    """What some bodies do."""

    def test_thread(self):
        report = self.analysed("#include <pthread.h>\nint x; void *r; void *run(void *p) { return p; }\n"
                               "int main(void) { pthread_t t; pthread_create(&t, 0, run, &x); "
                               "pthread_join(t, &r); return 0; }\n").report.split("\n")
        for line in ("set run/p: x", "set r: x", "edge pthread_create run"):
            self.assertIn(line, report)

    def test_handler(self):
        report = self.analysed("#include <signal.h>\nvoid stop(int n) { }\nint main(void)\n"
                               "{ struct sigaction a; a.sa_handler = stop; sigaction(2, &a, 0); return 0; }\n").report
        self.assertIn("edge sigaction stop", report.split("\n"))

    def test_types_that_differ_with_gnu_names(self):
        report = self.analysed("#define _GNU_SOURCE\n#include <sys/select.h>\n#include <string.h>\n"
                               "int main(void) { fd_set s; FD_ZERO(&s); return select(1, &s, 0, 0, 0); }\n").report
        self.assertIn("edge main select", report.split("\n"))

    def test_number_of_a_text(self):
        report = self.analysed("#include <stdlib.h>\nchar t[9], *e; int main(void) { return strtod(t, &e) > 1; }\n")
        self.assertIn("set e: t", report.report.split("\n"))

    def test_interfaces(self):
        report = self.unholed("ifaddrs.h", "struct ifaddrs *l; char *n; int main(void)\n"
                                           "{ getifaddrs(&l); n = l->ifa_next->ifa_name; freeifaddrs(l); return 0; }\n")
        self.assertTrue([line for line in report if line.startswith("set n: strdup@library/system.c")], report)

    def unholed(self, header, source):
        """The lines of a program's report that has no hole; the header is that of a library which may not be there."""
        if not os.path.exists(os.path.join("/usr/include", header)):
            self.skipTest(f"{header} isn't installed: SKIPPED")
        outcome = self.analysed(f"#include <{header}>\n{source}")
        self.assertEqual((outcome.status, outcome.fault, self.wholes(outcome, "hole")), (0, "", []))
        return outcome.report.split("\n")

    def test_windows(self):
        report = self.unholed("curses.h", "WINDOW *w, *p; int main(void) { int y; initscr(); w = derwin(stdscr, 1, 2, 3, 4);\n"
                                          "p = wgetparent(w); getmaxyx(w, y, y); mvwprintw(w, 1, 2, \"%d\", y);\n"
                                          "addstr(\"a\"); refresh(); return getch(); }\n")
        lines = dict(line[4:].split(": ", 1) for line in report if line.startswith("set ") and ": " in line)
        self.assertEqual((lines["w"], lines["p"]), (lines["stdscr"], lines["stdscr"]))

    def test_allocator_of_a_stream(self):
        report = self.unholed("zlib.h", "void *give(void *p, unsigned n, unsigned m) { return p; } z_stream s; int x;\n"
                                        "int main(void) { s.zalloc = give; s.opaque = &x; return inflateInit(&s); }\n")
        self.assertIn("set give/p: x", report)

    def test_line_with_completions(self):
        report = self.unholed("readline/readline.h", "char *give(const char *s, int n) { return 0; }\n"
                                                     "char **words(const char *s, int a, int b)\n"
                                                     "{ return rl_completion_matches(s, give); }\nchar *l;\n"
                                                     "int main(void) { rl_attempted_completion_function = words;\n"
                                                     "l = readline(\"> \"); return 0; }\n")
        for line in ("edge readline words", "edge rl_completion_matches give"):
            self.assertIn(line, report)


if __name__ == "__main__":
    unittest.main()
