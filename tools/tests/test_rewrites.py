"""Each rewrite on a unit of its own: what it becomes, its class, and what the sets say.

The analyser is the one that the environment's PTA names.
"""
import os
import shutil
import tempfile
import unittest

from pta_project.project import Options, analyse
from pta_project.tokens import Text
from pta_project.units import Command

PTA = os.environ["PTA"]


class Analysed(unittest.TestCase):
    """Programs of a few lines, in a folder of their own."""

    MAIN = "int main(void) { return 0; }\n"

    def setUp(self):
        self.folder = tempfile.mkdtemp()
        self.addCleanup(shutil.rmtree, self.folder)

    def analysed(self, *sources, **options):
        """The outcome for a program of the sources."""
        commands = []
        for number, source in enumerate(sources):
            name = f"u{number}.c"
            with open(os.path.join(self.folder, name), "w", encoding="latin-1") as stream:
                stream.write(source)
            commands.append(Command(name, (), self.folder))
        return analyse(commands, Options(PTA, folder=os.path.join(self.folder, "out"), **options))

    def wholes(self, outcome, what):
        """The whats of the log's entries of a class."""
        return [entry.what for entry in outcome.log if entry.grade == what]

    def fitted(self, source, grade, *lines):
        """The fitted unit's tokens; each rewrite is of the class, and the report has the lines."""
        outcome = self.analysed(source)
        self.assertEqual((outcome.status, outcome.fault), (0, ""))
        self.assertEqual({entry.grade for entry in outcome.log}, {grade} if grade else set())
        for line in lines:
            self.assertIn(line, outcome.report.split("\n"))
        with open(os.path.join(self.folder, "out", "u0.i"), encoding="latin-1") as stream:
            return " ".join(Text.read(stream.read()).tokens)


class Rewrites(Analysed):
    """One test for each kind of refusal."""

    def test_floating(self):
        text = self.fitted("double f(double x) { return x * 1.5 + .5f; }\n" + self.MAIN, "exact")
        self.assertIn("long f ( long x ) { return x * 1 + 1 ; }", text)

    def test_floating_in_all_units(self):
        outcome = self.analysed("double f(double x) { return x * 1.5; }\n",
                                "double f(double); int main(void) { return !f; }\n")
        self.assertEqual(outcome.status, 0)

    def test_old_parameters(self):
        text = self.fitted("int x; int *f(a, p, n) int *p, **a; { return p; }\n"
                           "int main(void) { return *f(0, &x, 1); }\n", "exact", "set f/p: x")
        self.assertIn("( int * * a , int * p , int n )", text)

    def test_call_with_too_few_values(self):
        text = self.fitted("int f(n, m) int n, m; { return n; } int main(void) { return f(1); }\n", "exact")
        self.assertIn("f ( 1 , 0 )", text)
        outcome = self.analysed("int x; int f(n, p) int n, *p; { return n; }\n"
                                "int main(void) { int g(), f(); f(2, &x); return f() + f(1); }\n")
        self.assertEqual((outcome.status, self.wholes(outcome, "hole")), (0, ["f called with too few values, 2 times"]))
        self.assertIn("set f/p: x", outcome.report.split("\n"))

    def test_call_with_too_many_values(self):
        text = self.fitted("int x; int g(void) { return 1; } int f(p) int *p; { return *p; }\n"
                           "int main(void) { return f(&x, g()); }\n", "exact", "set f/p: x", "edge main g")
        self.assertIn("f ( ( ( void ) ( g ( ) ) , & x ) )", text)

    def test_numbers_in_a_call_with_old_parameters(self):
        outcome = self.analysed("int x; int n = 3; int f(p, q, r) int *p, *q, *r; { return *p; }\n"
                                "int main(void) { return f(n, n, &x); }\n")
        self.assertEqual((outcome.status, self.wholes(outcome, "hole")), (0, ["number to a pointer"] * 2))
        self.assertIn("set f/r: x", outcome.report.split("\n"))

    def test_no_type(self):
        text = self.fitted("int x; static f(p) int *p; { return *p; } main(n, v) char **v; { return f(&x); }\n", "exact",
                           "set u0.c:f/p: x")
        self.assertIn("static int f ( int * p )", text)
        self.assertIn("int main ( int n , char * * v )", text)

    def test_inline(self):
        self.assertIn("static inline int f", self.fitted("inline int f(void) { return 1; }\n" + self.MAIN, "exact"))

    def test_inline_that_is_external(self):
        outcome = self.analysed("inline int f(void) { return 1; } extern int f(void);\n",
                                "int f(void); int main(void) { return f(); }\n")
        self.assertEqual((outcome.status, self.wholes(outcome, "hole")), (0, []))
        self.assertIn("edge main f", outcome.report.split("\n"))

    def test_atomic(self):
        self.fitted("_Atomic int n; _Atomic(int) m;\n" + self.MAIN, "exact")

    def test_attribute(self):
        text = self.fitted("static int f(int *p) __attribute(( nonnull(1) )); static int f(int *p) { return *p; } int x;\n"
                           "int main(void) { return f(&x); }\n", "exact", "set u0.c:f/p: x")
        self.assertIn("__attribute__ ( (", text)

    def test_thread_local(self):
        self.fitted("static _Thread_local int n; __thread int m;\n" + self.MAIN, "exact")

    def test_wide_integer(self):
        self.fitted("unsigned __int128 n;\n" + self.MAIN, "exact")

    def test_variable_length(self):
        self.fitted("int f(int n) { int a[n]; return a[0]; }\n" + self.MAIN, "exact")

    def test_length_0(self):
        self.fitted("struct s { int n; char v[0]; };\n" + self.MAIN, "exact")

    def test_flexible_member(self):
        text = self.fitted("struct s { int n; char v[]; }; int f(struct s *p) { return p->v[0]; }\n" + self.MAIN,
                           "exact")
        self.assertIn("char v [ 1 ]", text)

    def test_builtins(self):
        text = self.fitted("int x; int *f(int *p) { return __builtin_expect(!!p, 1) ? p : 0; }\n"
                           "int main(void) { return __builtin_bswap32(*f(&x)) + __builtin_clz(7); }\n",
                           "exact", "set f/p: x")
        self.assertIn("( ! ! p ) ? p : 0", text)

    def test_builtin_of_vectors(self):
        text = self.fitted("int g(void) { return 1; } int f(int n) { return __builtin_ia32_crc32si(n, g()); }\n" + self.MAIN,
                           "exact", "edge f g")
        self.assertIn("( ( void ) ( n ) , ( void ) ( g ( ) ) , 0 )", text)

    def test_builtin_within_itself(self):
        self.fitted("int f(int n) { return __builtin_expect(__builtin_expect(n, 1), 0); }\n" + self.MAIN, "exact")

    def test_builtin_that_drops_a_call(self):
        text = self.fitted("int g(void) { return 1; } int f(int n) { return __builtin_expect(n, g()); }\n" + self.MAIN,
                           "exact", "edge f g")
        self.assertIn("( ( void ) ( g ( ) ) , n )", text)

    def test_inner_builtin_of_one_that_is_rewritten(self):
        self.fitted("int f(int n) { return __builtin_mul_overflow_p((n), __builtin_clz(n), 1); }\n" + self.MAIN, "exact")

    def test_function_under_another_type(self):
        self.fitted("int x; int f(int *p) { return *p; } int (*q)(void *); int main(void)\n"
                    "{ q = (int (*)(void *))f; return q(&x); }\n", "exact", "set q: f", "set f/p: x",
                    "call u0.c:2:35: f", "edge main f")
        self.fitted("int x; int f(int *p) { return *p; } int (*q)(void *) = (int (*)(void *))f;\n"
                    "int main(void) { return q(&x); }\n", "exact", "set q: f", "set f/p: x", "edge main f")

    def test_pointer_to_a_function_under_another_type(self):
        self.fitted("int f(int *p) { return *p; } int (*r)(int *) = f; int (*q)(void *); int main(void)\n"
                    "{ q = (int (*)(void *))r; return q(0); }\n", "hole")

    def test_pointer_that_tells_no_parameters(self):
        self.fitted("#include <stdlib.h>\nint f(int **a, int **b) { return **a; } int (*r)() = f; int *t[2];\n"
                    "int main(void) { qsort(t, 2, 8, (int (*)(const void *, const void *))r); return 0; }\n", "hole")
        self.fitted("int f(int *p) { return *p; } int (*r)() = f; int x; int main(void) { return r(&x); }\n", None,
                    "call u0.c:1:78: f", "set f/p: x")

    def test_pointer_without_parameters_to_the_library(self):
        outcome = self.analysed("#include <stdlib.h>\nint f(int **a, int **b) { return **a; } int (*r)() = f;\n"
                                "int *t[2]; int main(void) { qsort(t, 2, 8, r); return 0; }\n")
        self.assertEqual(self.wholes(outcome, "hole"), ["r tells no parameters, and qsort calls it"])

    def test_declaration_that_its_unit_does_not_use(self):
        header = "{ int *a; %s }; struct s *f(int); extern struct s o;\n"
        outcome = self.analysed("struct s " + header % "" + self.MAIN,
                                "struct s " + header % "int b;" + "struct s o; struct s *f(int n) { return &o; }\n")
        self.assertEqual((outcome.status, outcome.fault, outcome.log), (0, "", []))

    def test_structure_behind_a_typedef_of_void(self):
        outcome = self.analysed("typedef struct d { int *p; } D; extern int x; D d;\n"
                                "D *make(int n) { d.p = &x; return &d; } int *get(D *d) { return d->p; }\n",
                                "typedef void H; H *make(int); int *get(H *); int x; int *q;\n"
                                "int main(void) { H *h = make(1); q = get(h); return 0; }\n")
        self.assertEqual((outcome.status, [entry.what for entry in outcome.log]),
                         (0, ["H, a typedef of void, is structure d"]))
        for line in ("set q: x", "set main/h: d", "set get/d: d"):
            self.assertIn(line, outcome.report.split("\n"))

    def test_link_conflict_of_numbers(self):
        outcome = self.analysed("extern const int t[]; int main(void) { return t[0]; }\n",
                                "typedef unsigned u; const u t[] = { 1 };\n")
        self.assertEqual((outcome.status, self.wholes(outcome, "exact")), (0, ["t declared as it's defined"]))

    def test_structure_behind_void(self):
        outcome = self.analysed("typedef struct d { int *p; } D; extern int x; D d;\n"
                                "void set(D *d, int *p) { d->p = p; } int *get(D *d) { return d->p; }\n",
                                "void set(void *, int *); int *get(void *); int x; int *q; extern struct d d;\n"
                                "int main(void) { void *h = &d; set(h, &x); q = get(h); return 0; }\n")
        self.assertEqual((outcome.status, [entry.what for entry in outcome.log]),
                         (0, [f"{name} declared with the structures of its definition" for name in ("set", "get")]))
        for line in ("set q: x", "set main/h: d", "set get/d: d"):
            self.assertIn(line, outcome.report.split("\n"))

    def test_structure_with_two_tags(self):
        for result in ("num", "struct %s *"):
            outcome = self.analysed(f"typedef struct n *num; {result.replace('%s', 'n')} make(void); num p;\n"
                                    "int main(void) { p = make(); return 0; }\n",
                                    "struct real { int *v; }; typedef struct real *num; struct real r;\n"
                                    f"{result.replace('%s', 'real')} make(void) {{ return &r; }}\n")
            self.assertEqual((outcome.status, outcome.fault), (0, ""))
            self.assertEqual([(entry.grade, entry.what) for entry in outcome.log], [("exact", "structure n is real")])
            self.assertIn("set p: r", outcome.report.split("\n"))

    def test_structures_that_differ(self):
        outcome = self.analysed("struct a { int *v; }; typedef struct a *num; num make(void);\n"
                                "int main(void) { return *make()->v; }\n",
                                "struct b { int *w; }; typedef struct b *num; num make(void) { return 0; }\n")
        self.assertEqual((outcome.status, outcome.fault), (5, "link conflict make u1.i"))

    def test_offsetof(self):
        self.fitted("struct s { int a, b; }; int n = __builtin_offsetof(struct s, b);\n" + self.MAIN, "exact")

    def test_variadic_that_prints(self):
        self.fitted("#include <stdarg.h>\n#include <stdio.h>\nvoid say(const char *f, ...)\n"
                    "{ va_list ap; va_start(ap, f); vprintf(f, ap); va_end(ap); }\n"
                    "int main(void) { say(\"a\", 1, \"b\"); return 0; }\n", None, "edge main say", "set say/...: str@u0.c:5:30")

    def test_variadic_that_takes_a_pointer(self):
        self.fitted("#include <stdarg.h>\nchar *f(int n, ...)\n"
                    "{ va_list ap; char *p; va_start(ap, n); p = va_arg(ap, char *); return p; }\n"
                    "int main(void) { return *f(1, \"a\", 2); }\n", None, "set f/...: str@u0.c:4:31", "set f/p: str@u0.c:4:31")

    def test_variadic_of_two_functions(self):
        self.fitted("#include <stdarg.h>\nchar *f(int n, ...) { va_list ap; va_start(ap, n); return va_arg(ap, char *); }\n"
                    "char *g(int n, ...) { va_list ap; va_start(ap, n); return va_arg(ap, char *); }\n"
                    "char *p, *q; int main(void) { p = f(1, \"a\"); q = g(1, \"b\"); return 0; }\n",
                    None, "set p: str@u0.c:4:40", "set q: str@u0.c:4:55")

    def test_variadic_of_a_floating_type(self):
        text = self.fitted("#include <stdarg.h>\ndouble f(double x, ...) { va_list ap; va_start(ap, x); return va_arg(ap, double); }\n"
                           "int main(void) { return f(1.5, 2.5) > 3; }\n", "exact")
        self.assertIn("long f ( long x , ... )", text)

    def test_variadic_that_takes_a_structure(self):
        outcome = self.analysed("#include <stdarg.h>\nstruct s { int *p; }; int f(int n, ...)\n"
                                "{ va_list ap; va_start(ap, n); return *va_arg(ap, struct s).p; }\n"
                                "int x; int main(void) { struct s s = { &x }; return f(1, s); }\n")
        self.assertIn("va_arg of a structure", self.wholes(outcome, "hole"))

    def test_variadic_whose_address_is_taken(self):
        outcome = self.analysed("int f(const char *s, ...) { return *s; } int (*p)(const char *, ...) = f;\n"
                                "int main(void) { return p(\"a\", 1); }\n")
        self.assertEqual((outcome.status, outcome.log), (0, []))
        self.assertIn("call u0.c:2:26: f", outcome.report.split("\n"))

    def test_variadic_with_a_name_in_parentheses(self):
        outcome = self.analysed("extern int (f)(const char *s, ...); int f(const char *s, ...) { return *s; }\n"
                                "int main(void) { return f(\"a\", 1) + (f)(\"b\", 2); }\n")
        self.assertEqual((outcome.status, outcome.log), (0, []))

    def test_variadic_of_a_type_without_a_name(self):
        self.fitted("int f(const char *s, ...) { return *s; } int g(int h(const char *, ...))\n"
                    "{ return h(\"a\"); } int main(void) { return g(f) + g((int (*)(const char *, ...))f); }\n",
                    None, "call u0.c:2:11: f")

    def test_casts_alike(self):
        text = self.fitted("int n, m; char *a, *b; int main(void)\n"
                           "{ a = (char *)&n; b = (char *)&m; return 0; }\n", "exact", "set a: n", "set b: m")
        self.assertEqual(text.count("( char * ) ( void * ) &"), 2)

    def test_pointer_in_characters(self):
        outcome = self.analysed("char t[9]; int **p; int main(void) { p = (int **)t; return 0; }\n")
        self.assertEqual(self.wholes(outcome, "hole"), ["characters that may hold pointers: t"])
        outcome = self.analysed("#include <stdlib.h>\nint x, **p; char *give(void) { return malloc(9); }\n"
                                "int main(void) { p = (int **)give(); *p = &x; return **p; }\n")
        self.assertEqual(self.wholes(outcome, "hole"), [])
        self.assertIn("set malloc@u0.c:2:45: x", outcome.report.split("\n"))

    def test_wide(self):
        self.fitted("int n = L'a'; const int *p; int main(void) { p = L\"ab\"; return 0; }\n", "exact")

    def test_character(self):
        self.fitted("int n = 'ab';\n" + self.MAIN, "exact")

    def test_ranges(self):
        text = self.fitted("int f(int n) { switch (n) { case 1 ... 3: return 1; } return 0; }\n" + self.MAIN, "exact")
        self.assertIn("case 1 : case 2 : case 3 :", text)
        self.fitted("int x; int *t[4] = { [1 ... 2] = &x };\n" + self.MAIN, "exact", "set t: x")

    def test_arithmetic_of_void(self):
        text = self.fitted("char t[9]; void *p; char *q; int n; int main(void) { p = t; q = p + n * 2; q = n + p; p = p - 1;\n"
                           "return q == (void *)t + 1; }\n", "exact", "set p: t", "set q: t")
        self.assertIn("q = ( void * ) ( ( char * ) ( p ) + n * 2 )", text)

    def test_constants_to_pointers(self):
        text = self.fitted("void (*f)(int); void (*g)(int); char *p; typedef void (*F)(int);\n"
                           "int main(void) { f = (F)1; g = (F)1; f = (void (*)(int))-1; p = (char *)-1; p = (char *)0;\n"
                           "return p == (void *)(-1); }\n", "exact", "set f: u0.c:pta_mark_1f u0.c:pta_mark_1mf",
                           "set p: u0.c:pta_mark_1m")
        self.assertEqual(text.count("static void pta_mark_1f"), 1)

    def test_pointer_over_a_number(self):
        self.fitted("int x; char *p; int *q; int main(void) { q = &x; p = (char *)(unsigned long)q;\n"
                    "return *(int *)((unsigned long)&x); }\n", "exact", "set p: x")
        self.fitted("char *p; int main(int n, char **v) { p = (char *)(unsigned long)n; return 0; }\n", "hole", "set p:")
        self.fitted("int x; char *p; int main(int n, char **v) { p = (char *)((unsigned long)&x & ~7UL); return 0; }\n",
                    "hole", "set p:")

    def test_assembly(self):
        self.fitted("void f(void) { __asm__(\"nop\"); }\n" + self.MAIN, "exact")
        self.fitted("void f(int *p) { __asm__(\"nop\" : : \"r\"(p)); }\n" + self.MAIN, "hole")
        self.fitted("void f(int *p) { __asm__(\"\" : \"+r\"(p)); }\n" + self.MAIN, "exact")

    def test_statement_expression(self):
        self.fitted("int x; int *p; int main(void) { p = ({ &x; }); return 0; }\n", "exact", "set p: x")
        self.fitted("int main(void) { return ({ int n = 1; n; }); }\n", "exact")

    def test_statement_expression_with_declarations(self):
        text = self.fitted(
            "int x, y; struct s { int *p; } o; int *f(int *a, int *b)\n"
            "{ return ({ int *p = a, *q; const int n = 1; q = b; struct s *t = &o; t->p = p; n ? t->p : q; }); }\n"
            "int main(void) { return *f(&x, &y); }\n", "exact", "set f/a: x", "set o.p: x")
        self.assertRegex(text, r"pta_inner\w+_t -> p = pta_inner\w+_p ")

    def test_statement_expression_with_loops(self):
        self.fitted("int g(int *p) { return *p; } int x, y; int f(void)\n"
                    "{ return ({ long r; do r = (long)g(&x); while (r == -1); for (int i = 0; i < 3; i++) { if (i) r++; else r = g(&y); }\n"
                    "r; }) + 1; }\nint main(void) { return f(); }\n", "exact", "set g/p: x y")

    def test_statement_expression_that_returns(self):
        self.fitted("int f(int n) { return ({ if (n) return 1; n; }); }\n" + self.MAIN, "hole")

    def test_statement_expression_of_statements(self):
        self.fitted("int x, n; int *p; void f(void) { } int main(void) { p = ({ n++; __asm__(\"\" : : : \"memory\");\n"
                    "if (n) f(); ({ n--; }); ({ __asm__(\"\" : : : \"memory\"); }); &x; }); return 0; }\n",
                    "exact", "set p: x", "edge main f")

    def test_builtin_without_a_declaration(self):
        self.fitted("int *a, *b, x; int main(void) { a = &x; __builtin_memcpy(&b, &a, 8); return 0; }\n", "exact",
                    "set b: x")

    def test_undeclared_function_of_another_type(self):
        outcome = self.analysed("struct s { int n; } t; int main(void) { f(&t); return 0; }\n",
                                "struct s { int n; }; struct s *p; void f(struct s *q) { p = q; }\n")
        self.assertEqual((outcome.status, self.wholes(outcome, "hole")), (0, []))
        self.assertIn("set p: t", outcome.report.split("\n"))

    def test_unused_inline_function(self):
        self.fitted("int nowhere(void); static inline int f(void) { return nowhere(); }\n" + self.MAIN, None)

    def test_declaration_that_nothing_uses(self):
        self.fitted("extern int (*check(void))[sizeof(struct { int n : 2 > 1 ? 1 : -1; }) - 4 ? 1 : -1];\n" + self.MAIN,
                    "exact")

    def test_label_address(self):
        text = self.fitted("int main(void) { void *p; a: p = &&a; return !p && p; }\n", "exact", "set main/p:")
        self.assertIn("a : p = ( void * ) 0 ; return ! p && p ;", text)

    def test_computed_goto(self):
        text = self.fitted("int x, *q; int *f(void) { return q = &x; } int main(void)\n"
                           "{ static const void *const t[] = { &&a, &&b }; goto *t[!f()]; a: return 1; b: return 2; }\n",
                           "exact", "set q: x", "edge main f")
        self.assertIn("{ ( void * ) 0 , ( void * ) 0 } ; ( void ) ( t [ ! f ( ) ] ) ; a :", text)

    def test_empty_structure_and_label(self):
        self.fitted("struct s { };\n" + self.MAIN, "exact")
        self.fitted("int main(void) { goto a; a: ; int n = 0b11; return n; }\n", "exact")

    def test_escape(self):
        self.fitted("const char *s = \"\\e[0m\";\n" + self.MAIN, "exact")

    def test_integer_sizes(self):
        text = self.fitted("int n; char *f(int *p) { return (char *)p; }\nint main(void) { return *f(&n); }\n",
                           "exact", "set f/p: n")
        self.assertIn("( char * ) ( void * ) p", text)

    def test_array_to_element(self):
        self.fitted("int a[3]; int *p; int main(void) { p = (int *)&a; return 0; }\n", "exact", "set p: a")

    def test_number_to_pointer(self):
        self.fitted("int *p = (int *)-1;\n" + self.MAIN, "exact", "set p: u0.c:pta_mark_1m")
        self.fitted("int *f(long n) { return (int *)n; }\n" + self.MAIN, "hole")

    def test_signal_ignored(self):
        self.fitted("#include <signal.h>\nint main(void) { signal(2, ((__sighandler_t)1)); return 0; }\n", "exact",
                    "set signal/handler: u0.c:pta_mark_1f")

    def test_undeclared(self):
        self.fitted("int main(void) { return getpid(); }\n", "exact", "edge main getpid")

    def test_function_as_object(self):
        self.fitted("void f(void) { } void *p; void (*q)(void); int main(void)\n"
                    "{ p = (void *)f; q = (void (*)(void))p; q(); return 0; }\n", "exact",
                    "set p: f", "set q: f", "call u0.c:2:42: f")


class Merging(Analysed):
    """Structures under several types."""

    STRUCTURES = "int g; struct x { int n; }; struct s { struct x x; int *p; }; struct s s;\n"

    def test_up_and_down(self):
        self.fitted(self.STRUCTURES + "int main(void) { struct x *u = (struct x *)&s; struct s *q = (struct s *)u;\n"
                    "q->p = &g; return *s.p; }\n", "merged", "set s: g", "set main/q: s")

    def test_detour(self):
        outcome = self.analysed(self.STRUCTURES + "int main(void) { struct x *u = (struct x *)&s;\n"
                                "struct s *q = (struct s *)(void *)u; q->p = &g; return *s.p; }\n")
        self.assertIn("set s: g", outcome.report)
        self.assertEqual(outcome.merged, ("s",))

    def test_typedef_without_a_tag(self):
        outcome = self.analysed("int g; typedef struct { int n; int *p; } A;\n"
                                "typedef struct { int n; int *q; } B; A a;\n"
                                "int main(void) { B *b = (B *)&a; b->q = &g; return *a.p; }\n")
        self.assertEqual((outcome.status, outcome.merged), (0, ("A", "B")))
        self.assertIn("set a: g", outcome.report)

    def test_without_a_cast(self):
        outcome = self.analysed("int g; struct a { int *p; }; struct b { int *q; }; struct a a;\n"
                                "void f(struct b *b) { b->q = &g; } int main(void) { f(&a); return *a.p; }\n")
        self.assertEqual((outcome.status, outcome.merged), (0, ("a", "b")))
        self.assertIn("set a: g", outcome.report)

    def test_characters(self):
        outcome = self.analysed("int g; struct a { int n; int *p; }; struct a a; int main(void)\n"
                                "{ char *c = (char *)&a; struct a *b = (struct a *)c; b->p = &g; return *a.p; }\n")
        self.assertEqual((outcome.status, outcome.merged), (0, ("a",)))
        self.assertIn("set a: g", outcome.report)

    def test_all_units(self):
        header = "struct x { int n; }; struct s { struct x x; int *p; }; extern struct s s; extern int g;\n"
        outcome = self.analysed(header + "struct s s = { { 1 }, 0 }; int g; void down(struct x *);\n"
                                "int main(void) { down(&s.x); return *s.p; }\n",
                                header + "void down(struct x *x) { ((struct s *)x)->p = &g; }\n")
        self.assertEqual((outcome.status, outcome.merged, self.wholes(outcome, "hole")), (0, ("s",), []))
        self.assertIn("set s: g", outcome.report)

    def test_values_of_one_piece(self):
        outcome = self.analysed("int g; struct x { int *n; }; struct s { struct x x; int *p; }; struct t { int *p; struct s s; };\n"
                                "typedef struct s S; struct s one = { { &g }, 0 }, two = { 0, 0 };\n"
                                "S many[] = { { { &g }, 0 }, { 0, &g } }; struct t t = { 0, { { &g }, 0 } };\n"
                                "int main(void) { struct x *x = (struct x *)&one; return *((struct s *)x)->p; }\n")
        self.assertEqual((outcome.status, outcome.merged, self.wholes(outcome, "hole")), (0, ("s", "x"), []))
        for line in ("set one: g", "set many: g", "set t.s: g", "set two:"):
            self.assertIn(line, outcome.report.split("\n"))


class Whole(Analysed):
    """The library, places, and what is nowhere."""

    def test_places(self):
        outcome = self.analysed("#include <stdlib.h>\n#define  NEW(t)   ((t *) malloc(sizeof(t)))\nint *p;\n"
                                "int main(void)\n{\n  p   =   malloc(4);\n  return 0;\n}\n")
        self.assertIn("set p: malloc@u0.c:6:17", outcome.report.split("\n"))

    def test_nowhere(self):
        source = "int *keep(int *); int x; int main(void) { return *keep(&x); }\n"
        self.assertEqual([entry.what for entry in self.analysed(source).log], ["keep is defined nowhere"])
        self.assertEqual([entry.grade for entry in self.analysed(source, plain=("keep",)).log], ["exact"])

    def test_library(self):
        outcome = self.analysed("#include <string.h>\nchar t[9]; int main(void) { return *strtok(t, \" \"); }\n")
        self.assertIn("set strtok/rest: t", outcome.report.split("\n"))
        self.assertEqual(outcome.summary()[0].split(", ")[1:], ["0 types merged", "0 holes"])

    def test_same_bytes(self):
        source = "#include <signal.h>\ndouble d = 1.5;\nint main(void) { signal(2, SIG_IGN); return 0; }\n"
        first, second = self.analysed(source), self.analysed(source)
        self.assertEqual((first.report, first.summary()), (second.report, second.summary()))


if __name__ == "__main__":
    unittest.main()
