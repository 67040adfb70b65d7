"""Random C programs that pta takes: each expression is made for the type that is wanted of it.

The generator is as plain as it can be: names by kind and number, few types, and each construct that pta follows."""

HEAD = """typedef unsigned long size_t;
void *malloc(size_t); void *realloc(void *, size_t); void free(void *);
void *memcpy(void *, const void *, size_t); char *strdup(const char *); char *strchr(const char *, int);
void qsort(void *, size_t, size_t, int (*)(const void *, const void *)); long strtol(const char *, char **, int);
int printf(const char *, ...);
"""


SIGNS = ["+", "-", "*", "&", "|", "^", "<<", "<", "==", "&&", "||"]


class Program:
    """The numbers of names of each kind, and the text so far. `rng` chooses."""

    def __init__(self, rng, unit=0, main=True):
        self.rng = rng
        self.unit = unit
        self.main = main
        self.structs = rng.randint(1, 4)
        self.numbers = rng.randint(1, 6)
        self.pointers = rng.randint(1, 8)
        self.functions = rng.randint(1, 6)
        self.size = 6
        self.locals = 0
        self.lines = []
        self.static = set()

    def pick(self, kind, count):
        """One of the names of a kind."""
        return f"{kind}{self.unit}_{self.rng.randrange(count)}"

    def number(self, depth):
        """An expression of type int."""
        rng = self.rng
        if depth <= 0:
            return rng.choice([str(rng.randint(0, 9)), "'a'", self.pick("x", self.numbers), "sizeof(int)"])
        return rng.choice([
            lambda: f"*{self.one(depth - 1)}",
            lambda: f"({self.number(depth - 1)}{rng.choice(SIGNS)}{self.number(depth - 1)})",
            lambda: f" {rng.choice(['-', '~', '!'])}{self.number(depth - 1)}",
            lambda: f"({self.one(depth - 1)}{rng.choice(['==', '!='])}{self.one(depth - 1)})",
            lambda: f"({self.number(depth - 1)}?{self.number(depth - 1)}:{self.number(depth - 1)})",
            lambda: f"{self.record(depth - 1)}.v",
            lambda: f"({self.number(depth - 1)},{self.number(depth - 1)})",
        ])()

    def one(self, depth):
        """An expression of type int *."""
        rng = self.rng
        if depth <= 0:
            if rng.random() >= .9:
                return self.pick("w", 2)
            return rng.choice([f"&{self.pick('x', self.numbers)}", self.pick("p", self.pointers), "(int*)0"])
        return rng.choice([
            lambda: f"*{self.two(depth - 1)}",
            lambda: f"{self.record(depth - 1)}.a",
            lambda: f"{self.link(depth - 1)}->a",
            lambda: f"{self.pick('t', 2)}[{self.number(depth - 1)}]",
            lambda: f"({self.number(depth - 1)}?{self.one(depth - 1)}:{self.pick('p', self.pointers)})",
            lambda: f"({self.number(depth - 1)},{self.one(depth - 1)})",
            lambda: f"({self.pick('p', self.pointers)}+{self.number(depth - 1)})",
            lambda: f"{self.pick('f', self.functions)}({self.one(depth - 1)},{self.two(depth - 1)})",
            lambda: f"{self.pick('h', 2)}({self.one(depth - 1)},{self.two(depth - 1)})",
            lambda: f"(*{self.link(depth - 1)}->f)({self.one(depth - 1)},{self.two(depth - 1)})",
            lambda: f"(int*)malloc({self.number(depth - 1)})",
            lambda: f"(int*)realloc({self.one(depth - 1)},8)",
            lambda: f"({self.pick('p', self.pointers)}={self.one(depth - 1)})",
            lambda: f"(int[2]){{{self.number(depth - 1)}}}",
        ])()

    def two(self, depth):
        """An expression of type int **."""
        rng = self.rng
        if depth <= 0:
            return rng.choice([f"&{self.pick('p', self.pointers)}", self.pick("q", 2), self.pick("t", 2)])
        return rng.choice([
            lambda: f"{self.record(depth - 1)}.b",
            lambda: f"&{self.link(depth - 1)}->a",
            lambda: f"&{self.pick('t', 2)}[{self.number(depth - 1)}]",
            lambda: f"({self.pick('q', 2)}={self.two(depth - 1)})",
            lambda: f"(int**)malloc(sizeof(int*))",
        ])()

    def record(self, depth):
        """An object of the first structure."""
        if depth <= 0:
            return self.pick("o", 2)
        return f"(*{self.link(depth - 1)})"

    def link(self, depth):
        """A pointer to the first structure."""
        rng = self.rng
        if depth <= 0:
            return rng.choice([f"(&{self.pick('o', 2)})", self.pick("l", 2)])
        return rng.choice([
            lambda: f"{self.link(depth - 1)}->n",
            lambda: f"((struct s{self.unit}_0*)malloc(sizeof(struct s{self.unit}_0)))",
            lambda: f"({self.pick('l', 2)}={self.link(depth - 1)})",
        ])()

    def simple(self, depth):
        """A statement without statements in it."""
        rng = self.rng
        return rng.choice([
            lambda: f"{self.pick('p', self.pointers)}={self.one(depth)};",
            lambda: f"*{self.two(depth)}={self.one(depth)};",
            lambda: f"{self.pick('q', 2)}={self.two(depth)};",
            lambda: f"{self.link(depth)}->a={self.one(depth)};",
            lambda: f"{self.pick('l', 2)}={self.link(depth)};",
            lambda: f"{self.record(depth)}={self.record(depth)};",
            lambda: f"{self.pick('h', 2)}={rng.choice(['', '&', '*'])}{self.pick('f', self.functions)};",
            lambda: f"{self.link(depth)}->f={self.pick('f', self.functions)};",
            lambda: f"{self.one(depth)};",
            lambda: f"memcpy({self.two(depth)},{self.two(depth)},{self.number(0)});",
            lambda: f"memcpy(&{self.record(0)},{self.link(depth)},sizeof(struct s{self.unit}_0));",
            lambda: f"free({self.one(depth)});",
            lambda: f"qsort({self.pick('t', 2)},2,8,c{self.unit}_0);",
            lambda: f"strtol(m{self.unit}_0,&m{self.unit}_0,{self.number(0)});",
            lambda: f"m{self.unit}_0=strchr({rng.choice(['strdup', ''])}(\"{'ab' * rng.randint(0, 9)}\"),{self.number(depth)});",
            lambda: f'printf("%d",{self.number(depth)});',
            lambda: f"{self.pick('x', self.numbers)}{rng.choice(['=', '+=', '-=', '|='])}{self.number(depth)};",
            lambda: ";",
        ])()

    def statement(self, depth):
        """A statement."""
        rng = self.rng
        if depth <= 0 or rng.random() < .5:
            return self.simple(rng.randint(0, 3))
        return rng.choice([
            lambda: f"if({self.number(1)}){self.statement(depth - 1)}",
            lambda: f"if({self.one(1)}){self.statement(depth - 1)}else {self.statement(depth - 1)}",
            lambda: f"while({self.number(1)}){self.statement(depth - 1)}",
            lambda: f"do {self.statement(depth - 1)}while({self.number(1)});",
            lambda: f"for(int i=0;i<{self.number(0)};i++){self.statement(depth - 1)}",
            lambda: f"switch({self.number(1)}){{case {rng.randint(0, 9)}:{self.statement(depth - 1)}break;"
                    f"default:{self.statement(depth - 1)}}}",
            lambda: self.block(depth - 1),
        ])()

    def block(self, depth):
        """A block with a local or two."""
        self.locals += 1
        name = f"v{self.locals}"
        first = self.rng.choice([f"int*{name}={self.one(1)};", f"int*{name}[2]={{{self.one(0)},{self.one(1)}}};", f"static int*{name};",
                                 f"struct s{self.unit}_0 {name}={{{self.one(0)},.v={self.number(0)}}};", ""])
        return "{" + first + "".join(self.statement(depth) for _ in range(self.rng.randint(0, 4))) + "}"

    def linkage(self, name):
        """`static`, at random, and then the name is known as such."""
        if self.rng.random() < .5:
            return ""
        self.static.add(name)
        return "static "

    def declarations(self):
        """The structures and the objects at file scope."""
        rng, u = self.rng, self.unit
        for n in range(self.structs):
            inner = "".join(f"struct s{u}_{k} k{k};" for k in range(1, n) if rng.random() < .4)
            self.lines.append(f"struct s{u}_{n}{{int*a;int**b;struct s{u}_0*n;int*(*f)(int*,int**);int v;{inner}"
                              + rng.choice(["", "int b1:3;", "union{int*y;int*z;}u;", "int*g[3];", "char c[9];"]) + "};")
        for kind, count, form in (("x", self.numbers, "int {}"), ("p", self.pointers, "int*{}"), ("q", 2, "int**{}"), ("t", 2, "int*{}[4]"),
                                  ("w", 2, "int {}[5]"), ("o", 2, f"struct s{u}_0 {{}}"), ("l", 2, f"struct s{u}_0*{{}}"),
                                  ("m", 1, "char*{}")):
            for n in range(count):
                self.lines.append(self.linkage(f"{kind}{u}_{n}") + form.format(f"{kind}{u}_{n}") + ";")
        for n in range(self.structs):
            self.lines.append(f"struct s{u}_{n} y{u}_{n}" + rng.choice(["", "={0}", f"={{&x{u}_0}}", f"={{.v=3,.a=&x{u}_0}}"]) + ";")
        for n in range(self.functions):
            self.lines.append(f"int*f{u}_{n}(int*,int**);")
        self.lines.append(f"int c{u}_0(const void*a,const void*b){{return a==b;}}")
        for n in range(2):
            self.lines.append(f"int*(*h{u}_{n})(int*,int**)" + rng.choice(["", f"=f{u}_0"]) + ";")

    def text(self):
        """The whole unit."""
        rng, u = self.rng, self.unit
        self.lines.append(HEAD)
        self.declarations()
        for n in range(self.functions):
            body = "".join(self.statement(rng.randint(1, 4)) + rng.choice(["", "\n"]) for _ in range(rng.randint(0, self.size)))
            self.lines.append(f"int*f{u}_{n}(int*a,int**b){{{body}return {self.one(2)};}}")
        if self.main:
            body = "".join(self.statement(rng.randint(1, 4)) + rng.choice(["", "\n"]) for _ in range(rng.randint(1, 2 * self.size)))
            self.lines.append(f"int main({rng.choice(['void', 'int argc,char**argv'])}){{{body}return 0;}}")
        return "\n".join(self.lines).encode() + b"\n"

    def names(self):
        """Names as the report of the unit `a.i` prints them; most of them stand in it."""
        u = self.unit
        plain = [f"{kind}{u}_{n}" for kind, count in (("x", self.numbers), ("p", self.pointers), ("q", 2), ("t", 2), ("l", 2), ("o", 1),
                                                    ("f", self.functions), ("h", 2)) for n in range(count)]
        there = [f"a.i:{name}" if name in self.static else name for name in plain]
        return [f"{name}.a" if f"o{u}_0" in name else name for name in there] + [f"f{u}_0/a", f"f{u}_0/b", "main"]
