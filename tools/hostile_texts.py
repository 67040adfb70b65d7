"""The cases of `hostile.py`: each kind of hostile text, and the choice among them.

A case depends on the seed and its number alone."""
import random
import re

import hostile_grammar
from hostile_judge import Case
from hostile_programs import Program

TOKEN = re.compile(
    rb"[A-Za-z_][A-Za-z0-9_]*|[0-9][A-Za-z0-9.]*|\"(?:[^\"\\\n]|\\.)*\"|'(?:[^'\\\n]|\\.)*'|\s+|->|[-+&|<>=]{2}|.", re.DOTALL)

# What stands before, around and behind a construct that nests.
NESTS = [
    (b"int main(void){return ", b"(", b"0", b")", b";}"),
    (b"int main(void)", b"{", b"", b"}", b""),
    (b"int main(void){", b"if(1){", b";", b"}", b"return 0;}"),
    (b"int main(void){", b"if(1);else ", b";", b"", b"return 0;}"),
    (b"int main(void){", b"while(0)", b";", b"", b"return 0;}"),
    (b"int main(void){", b"do ", b";", b"while(0);", b"return 0;}"),
    (b"int main(void){switch(1)", b"case 1:", b";", b"", b"return 0;}"),
    (b"int main(void){", b"l:", b";", b"", b"return 0;}"),
    (b"int main(void){return ", b"-", b"1", b"", b";}"),
    (b"int main(void){return ", b"- ", b"1", b"", b";}"),
    (b"int main(void){return ", b"!", b"1", b"", b";}"),
    (b"int main(void){return ", b"(int)", b"1", b"", b";}"),
    (b"int main(void){return ", b"sizeof ", b"1", b"", b";}"),
    (b"int main(void){return ", b"1?", b"1", b":1", b";}"),
    (b"int main(void){return ", b"1?1:", b"1", b"", b";}"),
    (b"int main(void){return ", b"1+", b"1", b"", b";}"),
    (b"int main(void){return ", b"1,", b"1", b"", b";}"),
    (b"int x;int main(void){return ", b"x=", b"1", b"", b";}"),
    (b"int t[2];int main(void){return ", b"t[", b"0", b"]", b";}"),
    (b"int f(int a){return a;}int main(void){return ", b"f(", b"0", b")", b";}"),
    (b"int*f(void);int main(void){return f", b"", b"", b"()", b";}"),
    (b"int ", b"*", b"p", b"", b";int main(void){return 0;}"),
    (b"int ", b"(", b"p", b")", b";int main(void){return 0;}"),
    (b"int ", b"(*", b"p", b")(void)", b";int main(void){return 0;}"),
    (b"int p", b"", b"", b"[1]", b";int main(void){return 0;}"),
    (b"int p=", b"{", b"0", b"}", b";int main(void){return 0;}"),
    (b"", b"struct{", b"int a;", b"}b;", b"int main(void){return 0;}"),
    (b"", b"union{struct{", b"int a;", b"};};", b"int main(void){return 0;}"),
    (b"int f", b"(int a", b"", b")", b";int main(void){return 0;}"),
    (b"__attribute__", b"(", b"", b")", b"int x;int main(void){return 0;}"),
    (b"int x[", b"sizeof(int[", b"1", b"])", b"];int main(void){return 0;}"),
    (b"struct s{struct s*n;};struct s a;int main(void){return a", b"", b".n", b"->n", b"==0;}"),
    (b"char*s=", b'"a" ', b'""', b"", b";int main(void){return 0;}"),
    (b"typedef ", b"const ", b"int T;", b"", b"int main(void){return 0;}"),
    (b"", b"typedef int T;", b"", b"", b"int main(void){return 0;}"),
    (b"enum{", b"A=(", b"1", b")", b"};int main(void){return 0;}"),
    (b"int main(void){return ", b"({", b"1;", b"})", b";}"),
    (b"int main(void){return ", b"_Generic(1,int:", b"1", b")", b";}"),
    (b"", b"", b"", b"}", b""),
    (b"/", b"*", b"", b"/", b""),
]

# What is put into texts.
PIECES = [
    b"__attribute__((", b"\\\n", b"/*", b"//", b"*/", b'"', b"'", b"\0", b"\xff", b"\xef\xbb\xbf", b"\r\n", b"\f", b"# 1 \"\n",
    b"#", b"##", b"%:", b"??=",
    b"<:", b"...", b"..", b"->*", b"__extension__", b"_Static_assert(1,\"\");", b"18446744073709551616",
    b"0xffffffffffffffffffff", b"1" * 400, b"'\\", b"\"\\",
    b"_Alignas(", b"_Generic(", b"({", b"})", b"int", b"struct", b"union{", b"typedef", b"sizeof", b"(", b")", b"{", b"}", b"[",
    b"]", b";", b",", b"*", b"&",
    b"=", b"-1", b"1<<63", b"/0", b"%0", b"0x7fffffffffffffff+1", b"static", b"extern", b"void", b"return", b"case 1:",
    b"goto l;", b"l:", b"malloc", b"main",
    b"long long long", b"unsigned signed", b"[-1]", b"[9223372036854775807]", b":99", b":0", b"={[4294967296]=1}", b"={[-1]=1}",
    b"={.a.b.c=1}",
]


def mutate(rng, text, other):
    """A text after a few changes of bytes or of words; `other` is a text to take pieces from. Often names and signs alone are exchanged."""
    if rng.random() < .4:
        words, others = TOKEN.findall(text), TOKEN.findall(other[:20000])
        for _ in range(rng.choice([1, 1, 2, 3, 8]) if words else 0):
            exchange(rng, words, others)
        return b"".join(words)
    for _ in range(rng.choice([1, 1, 1, 2, 3, 8, 30])):
        text = rng.choice([change_bytes, change_words, change_words, change_words, splice])(rng, text, other)
    return text[:200000]


def change_bytes(rng, text, _other):
    """Changes, takes away, doubles or adds some bytes."""
    at = rng.randrange(len(text) + 1)
    size = rng.choice([1, 1, 2, 10, 100])
    return rng.choice([
        lambda: text[:at] + bytes([rng.randrange(256)]) + text[at + 1:],
        lambda: text[:at] + text[at + size:],
        lambda: text[:at] + text[at:at + size] * 2 + text[at + size:],
        lambda: text[:at] + rng.choice(PIECES) + text[at:],
        lambda: text[:at] + bytes(rng.randrange(256) for _ in range(size)) + text[at:],
    ])()


def is_name(word):
    """Whether a word is a name or keyword."""
    return word[:1].isalpha() or word[:1] == b"_"


def exchange(rng, words, others):
    """Puts another name for a name, or another sign or literal for one that isn't a name: the text often stays well formed."""
    at = rng.randrange(len(words))
    fit = [word for word in rng.choice([words, words, others]) if is_name(word) == is_name(words[at]) and not word.isspace()]
    if fit and not words[at].isspace():
        words[at] = rng.choice(fit)


def change_words(rng, text, other):
    """Exchanges, takes away, doubles, swaps or adds some words."""
    words, others = TOKEN.findall(text), TOKEN.findall(other[:20000])
    if len(words) < 2 or not others:
        return text + rng.choice(PIECES)
    at, to = rng.randrange(len(words)), rng.randrange(len(words))
    how = rng.randrange(12)
    if how == 0:
        del words[at]
    elif how == 1:
        words[at], words[to] = words[to], words[at]
    elif how == 2:
        words[at] = rng.choice(others)
    elif how == 3:
        words.insert(at, rng.choice(PIECES))
    elif how == 4:
        words[at:at] = words[to:to + rng.choice([1, 3, 10, 50])] * rng.choice([1, 1, 2, 20])
    else:
        exchange(rng, words, others)
    return b"".join(words)


def splice(rng, text, other):
    """The beginning of a text and the end of another one."""
    return text[:rng.randrange(len(text) + 1)] + other[rng.randrange(len(other) + 1):]


def deep(rng):
    """A construct within itself, to a depth about the limit of 256 or far beyond it; not always closed as often as it is opened."""
    before, begin, middle, end, behind = rng.choice(NESTS)
    depth = rng.choice([rng.randint(1, 90), rng.randint(60, 300), rng.randint(240, 270), rng.randint(1000, 30000)])
    closed = depth if rng.random() < .8 else rng.randint(0, depth + 2)
    return before + begin * depth + middle + end * closed + behind


def long(rng):
    """Very long names, numbers, strings, lists of names and lines."""
    size = rng.choice([255, 256, 1000, 4095, 4096, 65535, 65536, 65537, 200000])
    few = min(size, 20000) // 4
    return rng.choice([
        lambda: b"int " + b"n" * size + b";int main(void){return " + b"n" * (size - rng.randint(0, 1)) + b";}",
        lambda: b"int x=" + b"1" * size + b";int main(void){return 0;}",
        lambda: b"int x=0x" + b"0" * size + b"1;int main(void){return 0;}",
        lambda: b"char*s=\"" + b"a" * size + b"\";int main(void){return 0;}",
        lambda: b"int x='" + b"a" * size + b"';int main(void){return 0;}",
        lambda: b"int " + b",".join(b"*v%d" % n for n in range(few)) + b";int main(void){return 0;}",
        lambda: b"enum{" + b",".join(b"e%d" % n for n in range(few)) + b"};int main(void){return 0;}",
        lambda: b"struct s{" + b"".join(b"int*m%d;" % n for n in range(few // 8)) + b"}a,b;int main(void){a=b;return 0;}",
        lambda: b"int*t[]={" + b"0," * few + b"};int main(void){return 0;}",
        lambda: b"int f(" + b",".join(b"int a%d" % n for n in range(few // 4)) + b"){return 0;}"
                b"int main(void){return f(" + b"0," * (few // 4 - 1) + b"0);}",
        lambda: b"int x;int main(void){" + b"x=x+1;" * few + b"return 0;}",
        lambda: b" " * size + b"int main(void){return 0;}",
        lambda: b"\n" * size + b"int main(void){return $;}",
        lambda: b"int x;\n" * few + b"int main(void){return 0;}",
        lambda: b"# " + b"1" * size + b"\nint main(void){return 0;}",
        lambda: b"int main(void){switch(1){" + b"".join(b"case %d:;" % n for n in range(few)) + b"}return 0;}",
        lambda: b"int main(void){" + b"".join(b"l%d:goto l%d;" % (n, few - 1 - n) for n in range(few)) + b"return 0;}",
        lambda: b"".join(b"void f%d(void){f%d();}" % (n, n) for n in range(few // 8)) + b"int main(void){return 0;}",
        lambda: b"int x,*p;int main(void){" + b"".join(b"{int*p=&x;p=p;}" for _ in range(few // 8)) + b"return 0;}",
    ])()


def noise(rng):
    """Bytes of a random kind: all, those of C, or words of C."""
    size = rng.choice([0, 1, 2, 3, 10, 100, 1000, 5000])
    kind = rng.randrange(4)
    if kind == 0:
        return bytes(rng.randrange(256) for _ in range(size))
    if kind == 1:
        return bytes(rng.choice(b"abxyp0159 \n\t\"'\\#$@`(){}[];:,.*&|^~!?<>=+-/%_") for _ in range(size))
    if kind == 2:
        return b" ".join(rng.choice(PIECES) for _ in range(size // 4))
    return hostile_grammar.text(rng, rng.choice(["expression", "declaration", "statement", "initialiser"]), rng.choice([10, 50, 300]))


def program(rng):
    """A program that pta takes."""
    return Program(rng).text()


def grammar(rng):
    """A text that the grammar derives, mostly with a `main`."""
    text = hostile_grammar.text(rng, "unit", rng.choice([20, 60, 200, 600]))
    if rng.random() < .5:
        body = hostile_grammar.text(rng, "statement", rng.choice([20, 60, 200]))
        text = b"int a,*p,**q,f(int);struct s{int*a;struct s*b;}x,*y;typedef int T;int g(void);int main(void){" + body + b"return 0;}"
    return text


def question(rng, names):
    """A line of a script."""
    name = rng.choice(names)
    return rng.choice([
        lambda: f"points {name} {rng.choice(names)}",
        lambda: f"alias {name} {rng.choice(names)}",
        lambda: f"reaches a.i:{rng.randint(1, 60)}:{rng.randint(1, 60)} {name}",
        lambda: "",
    ])()


def script(rng, names):
    """A script of questions: one that mostly fits, a changed one, or noise."""
    if rng.random() < .8:
        names = [name for name in names if name.removeprefix("a.i:")[0] in "pqtlo" and "." not in name.removeprefix("a.i:")]
    text = "".join(question(rng, names) + "\n" for _ in range(rng.choice([0, 1, 2, 5, 50]))).encode()
    how = rng.random()
    if how < .5:
        return text
    if how < .9:
        return mutate(rng, text, rng.choice([b"points  p q\nreaches a.i:0:0 main\nalias main\n", b"reaches a.i:99999999999999999999:1 f\n",
                                             b"points \0 \xff"]))
    return noise(rng)


class Texts:
    """The kinds of cases over the given texts of real units, each with its weight."""

    def __init__(self, seed, seeds):
        self.seed = seed
        self.seeds = seeds
        self.kinds = [(self.whole, 10), (self.derived, 14), (self.changed, 34), (self.cut, 6), (self.nested, 8), (self.lengthy, 3),
                      (self.random_bytes, 9), (self.several, 7), (self.asked, 7), (self.worded, 2)]

    def case(self, number):
        """The case of a number."""
        rng = random.Random(f"{self.seed} {number}")
        make = rng.choices([kind for kind, _ in self.kinds], [weight for _, weight in self.kinds])[0]
        case = make(rng)
        case.kind = make.__name__
        if case.kind != "worded" and rng.random() < .25:
            case.words[:0] = ["--workers", str(rng.choice([1, 2, 3, 4, 8, 64]))]
        return case

    def seed_text(self, rng):
        """A text to begin from: mostly a small one."""
        how = rng.random()
        return rng.choice(self.seeds) if how < .12 else program(rng) if how < .75 else grammar(rng)

    def whole(self, rng):
        """A program that pta takes."""
        return Case(["a.i"], {"a.i": program(rng)})

    def derived(self, rng):
        """A text of the grammar."""
        return Case(["a.i"], {"a.i": grammar(rng)})

    def changed(self, rng):
        """A changed text."""
        return Case(["a.i"], {"a.i": mutate(rng, self.seed_text(rng), self.seed_text(rng))})

    def cut(self, rng):
        """The beginning of a text."""
        text = self.seed_text(rng)
        return Case(["a.i"], {"a.i": text[:rng.randrange(len(text) + 1)]})

    def nested(self, rng):
        """A construct within itself."""
        return Case(["a.i"], {"a.i": deep(rng)})

    def lengthy(self, rng):
        """A text with something very long."""
        return Case(["a.i"], {"a.i": long(rng)})

    def random_bytes(self, rng):
        """Noise."""
        return Case(["a.i"], {"a.i": noise(rng)})

    def several(self, rng):
        """Units that fit together, that have the same names, or of which one is changed."""
        count = rng.choice([2, 2, 3, 5, 20])
        apart = rng.random() < .7
        files = {f"u{n}.i": Program(rng, n if apart else 0, main=n == 0).text() for n in range(count)}
        if rng.random() < .6:
            name = rng.choice(list(files))
            files[name] = mutate(rng, files[name], rng.choice(list(files.values())))
        words = list(files)
        if rng.random() < .2:
            words.insert(rng.randrange(len(words) + 1), rng.choice(["missing.i", "u0.i", "./u0.i"]))
        files["./u0.i"] = files["u0.i"]
        return Case(words, files)

    def asked(self, rng):
        """A program with a script of questions."""
        made = Program(rng)
        text = made.text()
        return Case(["--ask", "s", "a.i"], {"a.i": text, "s": script(rng, made.names())})

    def worded(self, rng):
        """Words that the command line doesn't know, or knows in another order."""
        known = ["a.i", "b.i", "./a.i", "--workers", "--workers=2", "--ask", "--ask=s", "--ask=", "--", "-", "", "2", "64", "65",
                 "0", "-1", "99999999999999999999",
                 "missing", "s", "--help", "a" * 255, "a" * 256, "../a.i", "a/b", "/", ".", "ä.i", "a b", "a\nb",
                 "--workers=", "--workers=02", "--askx", "\x7f"]
        words = [rng.choice(known) for _ in range(rng.choice([0, 1, 2, 3, 5, 257]))]
        if rng.random() < .1:
            words = [f"f{n}" for n in range(rng.choice([256, 257, 300]))]
        return Case(words, {"a.i": program(rng), "b.i": b"int other;", "s": b"points p0_0 x0_0\n"})
