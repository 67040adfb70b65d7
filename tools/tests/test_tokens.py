"""Tokens, and edits that keep lines."""
import unittest

from pta_project.declarations import externals, typedef_names, without_unused
from pta_project.tokens import Edit, Text


class Tokens(unittest.TestCase):
    """What a token is."""

    def test_kinds(self):
        self.assertEqual(Text.read("a->b=0x1p-3+'c'L\"d\\\"\"...;").tokens,
                         ["a", "->", "b", "=", "0x1p-3", "+", "'c'", "L\"d\\\"\"", "...", ";"])

    def test_linemarkers_are_gaps(self):
        text = Text.read('# 1 "a.c"\nint n;\n# 7 "a.c"\n')
        self.assertEqual((text.tokens, text.gaps), (["int", "n", ";"],
                                                    ['# 1 "a.c"\n', " ", "", '\n# 7 "a.c"\n']))

    def test_text_is_what_was_read(self):
        for source in ("", " ", "a", " a b\n", "# 1\n\n  # 2\nx #y\n"):
            self.assertEqual(str(Text.read(source)), source)

    def test_arguments(self):
        text = Text.read("f(a, g(b, c), (d, e))")
        self.assertEqual([text.source(span) for span in text.arguments(1)], ["a", "g ( b , c )", "( d , e )"])

    def test_places(self):
        text = Text.read("int a;\n\n  int b,\n c;")
        for index, token in enumerate(text.tokens):
            line = text.line_of(index)
            found = [(at, column) for at, column in text.tokens_of_line(line) if at == index]
            self.assertEqual(str(text).split("\n")[line - 1][found[0][1] - 1:][:len(token)], token)
            self.assertEqual(text.index_at(line, found[0][1]), index)


class Edits(unittest.TestCase):
    """What an edit makes."""

    def test_lines_are_kept(self):
        text = Text.read("a(\n1,\n2)\n;")
        self.assertEqual(str(text.edited([Edit(0, 6, "b")])), "b \n\n\n;")

    def test_linemarkers_are_kept(self):
        text = Text.read("a\n# 9 \"b\"\nb c")
        self.assertEqual(str(text.edited([Edit(0, 2)])), "\n# 9 \"b\"\n c")

    def test_origins_through_two_edits(self):
        text = Text.read("one two three")
        new = text.edited([Edit(1, 2, "twelve")]).edited([Edit(0, 0, "zero")])
        self.assertEqual(str(new), "zero one twelve  three")
        self.assertEqual([new.origin(index) for index in range(4)], [0, 0, 1, 2])
        self.assertEqual([new.index_of(index) for index in range(3)], [1, None, 3])

    def test_tokens_are_those_of_the_new_text(self):
        source = '# 1 "a.c"\nint a = f(b, c) + 1;\n# 2 "a.c"\nint d;\n'
        count = len(Text.read(source).tokens)
        for start in range(count + 1):
            for end in range(start, min(start + 3, count) + 1):
                for part in ("", "x", "(y + ", range(0, 2)):
                    new = Text.read(source).edited([Edit(start, end, part)])
                    self.assertEqual(new.tokens, Text.read(str(new)).tokens, (start, end, part))
                    self.assertEqual(len(new.gaps), len(new.tokens) + 1)
                    self.assertEqual(str(new).count("\n"), source.count("\n"))

    def test_of_overlapping_edits_the_first_counts(self):
        self.assertEqual(str(Text.read("a b c").edited([Edit(0, 2, "x"), Edit(1, 3, "y")])), "x  c")


class Declarations(unittest.TestCase):
    """What stands outside of functions."""

    def test_externals(self):
        text = Text.read("int n; int f(a, b) int a; char *b; { return a; } struct s { int m; } s; int v[] = { 1 };"
                         "int g(void) __attribute__((pure)); int h(void) { } enum { A } e;")
        self.assertEqual([text.source(span)[:12] for span in externals(text)],
                         ["int n ;", "int f ( a , ", "struct s { i", "int v [ ] = ", "int g ( void", "int h ( void",
                          "enum { A } e"])

    def test_typedefs(self):
        text = Text.read("typedef int a, *b; typedef struct s { int n; } c; typedef int (*d)(a);"
                         "__extension__ typedef long e[2]; struct s { int typed; };")
        self.assertEqual(sorted(typedef_names(text, externals(text))), ["a", "b", "c", "d", "e"])

    def test_unused(self):
        text = Text.read('# 1 "x.h" 1 3\ntypedef int a; typedef a b; int f(b); int g(a); struct s { int m; };\n'
                         'extern struct s *h(void); enum e { A };\n# 1 "x.c" 2\nint n(void) { return f(A); }\n')
        self.assertEqual(" ".join(without_unused(text).tokens),
                         "typedef int a ; typedef a b ; int f ( b ) ; enum e { A } ; int n ( void ) { return f ( A ) ; }")

    def test_unused_in_own_files(self):
        text = Text.read("struct s; struct s *f(void), *g(int); extern int *n, m[]; int (*p)(int); static int h(void);\n"
                         "int k(int); int k(int a) { return *n; } typedef int t(void); t u; struct v { int w; } x(void);\n")
        self.assertEqual(" ".join(without_unused(text).tokens),
                         "struct s ; extern int * n , m [ ] ; int ( * p ) ( int ) ; static int h ( void ) ; int k ( int ) ; "
                         "int k ( int a ) { return * n ; } typedef int t ( void ) ; t u ; struct v { int w ; } x ( void ) ;")

    def test_a_macro_of_a_system_header_makes_no_system_file(self):
        text = Text.read('# 1 "x.c"\n# 1 "x.h" 1 3\nint g(void);\n# 2 "x.c" 2\n\n# 2 "x.c" 3\n_Bool\n# 2 "x.c"\n'
                         'f(void) { return 0; }\n')
        self.assertEqual(" ".join(without_unused(text).tokens), "_Bool f ( void ) { return 0 ; }")


if __name__ == "__main__":
    unittest.main()
