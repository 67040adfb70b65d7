"""Texts of one form in any size: each form is a function of a number n, and its text has some n parts of one kind.

`hostile_growth.py` runs pta on them in sizes that double. A form is the text of one unit, or a dictionary of
units by name, of which `script` is a script of questions."""
from hostile_judge import Case

EMPTY = "int main(void){return 0;}\n"
CHAIN = "struct s{struct s*n;struct s**m;struct s*(*f)(struct s*);};struct s v,*p=&v;"
SCRIPT = "script"
POINTER = "int x,*p=&x,*q,**r=&p;"


def body(statements, before=""):
    """A program with these statements in `main`, behind these declarations."""
    return f"{before}int main(void){{{statements}return 0;}}\n"


def many(make, count):
    """What `make` gives for 0, 1, 2 .. one after another."""
    return "".join(make(number) for number in range(count))


def listed(make, count):
    """The same with commas between."""
    return ",".join(make(number) for number in range(count))


def wide(count):
    """A structure of so many pointers."""
    return f"struct s{{{many(lambda i: f'int*m{i};', count)}}};"


def chain(operator, operand="x"):
    """A form: one expression of n operators of a kind, of operands that are alike."""
    return lambda n: body(f"x={operator.join([operand] * n)};", POINTER)


CHAINS = {
    "`p->n->n..`": lambda n: body(f"p=p{'->n' * n};", CHAIN),
    "`v.n->n..==0`": lambda n: body(f"v.n{'->n' * n}==0;", CHAIN),
    "`&v.n->n..`": lambda n: body(f"p->m=&v.n{'->n' * n};", CHAIN),
    "`sizeof(p->n->n..)`": lambda n: body(f"x=sizeof(p{'->n' * n});", CHAIN + "unsigned long x;"),
    "`p->m[0]->m[0]..`": lambda n: body(f"p=p{'->m[0]' * n};", CHAIN),
    "`p->m[i]->m[i]..`": lambda n: body(f"p=p{'->m[i]' * n};", CHAIN + "int i;"),
    "`p->f(p)->f(p)..`": lambda n: body(f"p=p{'->f(p)' * n};", CHAIN),
    "`p->f(0)->f(0)..`": lambda n: body(f"p=p{'->f(0)' * n};", CHAIN),
    "`p->f(p->n)->f(p->n)..`": lambda n: body(f"p=p{'->f(p->n)' * n};", CHAIN),
    "`p->f(&(struct s){0})->f(..`": lambda n: body(f"p=p{'->f(&(struct s){0})' * n};", CHAIN),
    "`p->m[sizeof(struct s)]->..`": lambda n: body(f"p=p{'->m[sizeof(struct s)]' * n};", CHAIN),
    "`p->m[__func__[0]]->..`": lambda n: body(f"p=p{'->m[__func__[0]]' * n};", CHAIN),
    "`p->m[sizeof(int(*)(int a))]->..`": lambda n: body(f"p=p{'->m[sizeof(int(*)(int a))]' * n};", CHAIN),
    "`p->m[sizeof(enum{A})]->..`": lambda n: body("p=p" + many(lambda i: f"->m[sizeof(enum{{A{i}}})]", n) + ";", CHAIN),
    "a chain under `sizeof` in a static object": lambda n: f"{CHAIN}unsigned long o=sizeof(v.n{'->n' * n});" + EMPTY,
    "`x+x+..`": chain("+"), "`x*x*..`": chain("*"), "`x-x-..`": chain("-"), "`x/x/..`": chain("/"), "`x%x%..`": chain("%"),
    "`x&x&..`": chain("&"), "`x|x|..`": chain("|"), "`x^x^..`": chain("^"), "`x&&x&&..`": chain("&&"), "`p||p||..`": chain("||", "p"),
    "`x==x==..`": chain("=="), "`x<x<..`": chain("<"), "`x<<x<<..`": chain("<<"), "`x,x,..`": chain(","),
    "`f(&x)+f(&x)+..`": lambda n: body(f"x={'+'.join(['f(&x)'] * n)};", "int x;int f(int*p){return *p;}"),
    "`g(&x)+g(&x)+..` through a pointer": lambda n: body(f"x={'+'.join(['g(&x)'] * n)};", "int x;int f(int*p){return *p;}int(*g)(int*)=f;"),
    "`p+1+1..`": lambda n: body(f"p=p{'+1' * n};", POINTER),
    "`p+1-1..` as a static value": lambda n: f"int x,*p=&x{'+1-1' * n};" + EMPTY,
    "`1+1+..` as a length": lambda n: f"int a[{'+'.join(['1'] * n)}];" + EMPTY,
    "`A+A+..` as an enumerator": lambda n: f"enum{{A=1,B={'+'.join(['A'] * n)}}};" + EMPTY,
}

DECLARATIONS = {
    "`int a,b,..`": lambda n: f"int {listed(lambda i: f'x{i}', n)};" + EMPTY,
    "`int *a=&x,*b=&x,..`": lambda n: f"int x,{listed(lambda i: f'*y{i}=&x', n)};" + EMPTY,
    "`int a,b,..` in a block": lambda n: body(f"int {listed(lambda i: f'x{i}', n)};"),
    "`int f(int),g(int),..`": lambda n: f"int {listed(lambda i: f'f{i}(int)', n)};" + EMPTY,
    "`int a;int b;..`": lambda n: many(lambda i: f"int x{i};", n) + EMPTY,
    "`int a;a=1;int b;b=1;..` in a block": lambda n: body(many(lambda i: f"int x{i};x{i}=1;", n)),
    "`int a;` again and again": lambda n: "int a;" * n + EMPTY,
    "`extern int a;` again and again": lambda n: "extern int a;" * n + EMPTY,
    "`extern int a;` in blocks": lambda n: body("{extern int a;a=1;}" * n, "int a;"),
    "`static int f(void);` and its calls": lambda n: f"static int f(void);{body('f();' * n)}static int f(void){{return 0;}}\n",
    "typedefs of typedefs": lambda n: "typedef int T0;" + many(lambda i: f"typedef T{i} T{i + 1};", n) + f"T{n} x;" + EMPTY,
    "typedefs of pointers to typedefs": lambda n: "typedef int T0;" + many(lambda i: f"typedef T{i}*T{i + 1};", n) + f"T{n} x;" + EMPTY,
    "typedefs of functions that return typedefs": lambda n: "typedef int T0;" + many(lambda i: f"typedef T{i}*T{i + 1}(int);", n)
        + f"T{n}*x;" + EMPTY,
    "typedefs of arrays of typedefs": lambda n: "typedef int T0;" + many(lambda i: f"typedef T{i} T{i + 1}[1];", n) + f"T{n} x;" + EMPTY,
    "`int **..p`": lambda n: f"int {'*' * n}p;" + EMPTY,
    "`int a[1][1]..`": lambda n: f"int a{'[1]' * n};" + EMPTY,
    "`int a[1][1]..` and `a[0][0]..`": lambda n: body(f"a{'[0]' * n}=1;", f"int a{'[1]' * n};"),
    "array types": lambda n: many(lambda i: f"int a{i}[{i + 1}];", n) + EMPTY,
    "function types": lambda n: many(lambda i: f"int(*a{i})(char[{i + 1}],int(*)[{i + 1}]);", n) + EMPTY,
    "`const const ..`": lambda n: f"{'const ' * n}int x;" + EMPTY,
    "attributes in one list": lambda n: f"int x __attribute__(({listed(lambda i: 'unused', n)}));" + EMPTY,
    "attributes, each of a declaration": lambda n: many(lambda i: f"int x{i} __attribute__((unused));", n) + EMPTY,
    "static assertions": lambda n: "_Static_assert(1,\"\");" * n + EMPTY,
    "lines that mark places": lambda n: many(lambda i: f"# {i + 1} \"a{i}.c\"\nint x{i};\n", n) + EMPTY,
    "a long name": lambda n: f"int {'a' * 8 * n};" + EMPTY,
    "long names": lambda n: many(lambda i: f"int {'a' * 200}{i};", n) + EMPTY,
    "blanks": lambda n: " " * 20 * n + EMPTY,
    "lines": lambda n: "\n" * 20 * n + EMPTY,
}

RECORDS = {
    "enumerators": lambda n: f"enum{{{listed(lambda i: f'A{i}', n)}}};" + EMPTY,
    "enumerators with values": lambda n: "enum{A0" + many(lambda i: f",A{i + 1}=A{i}+1", n) + "};" + EMPTY,
    "enumerations": lambda n: many(lambda i: f"enum e{i}{{A{i},B{i}}};", n) + EMPTY,
    "members": lambda n: wide(n) + "struct s a;" + EMPTY,
    "members of one declaration": lambda n: f"struct s{{int {listed(lambda i: f'm{i}', n)};}};struct s a;" + EMPTY,
    "members and their uses": lambda n: wide(n) + body(many(lambda i: f"a.m{i}=&x;", n), "int x;struct s a;"),
    "bit-fields": lambda n: f"struct s{{{many(lambda i: f'int m{i}:3;', n)}}};struct s a;" + EMPTY,
    "unnamed structures and uses of their members": lambda n: body(
        many(lambda i: f"a.m{i}=&x;", n), f"int x;struct s{{{many(lambda i: f'struct{{int*m{i};}};', n)}}}a;"),
    "members of a union": lambda n: f"union s{{{many(lambda i: f'int*m{i};', n)}}};union s a;" + EMPTY,
    "structures": lambda n: many(lambda i: f"struct s{i}{{int*a;struct s{i}*n;}};", n) + EMPTY,
    "structures that are used before they are complete": lambda n: many(lambda i: f"struct s{i};", n)
        + many(lambda i: f"struct s{i}{{int*a;}};", n) + EMPTY,
    "structures with pointers to those before": lambda n: "struct s0{int*a;};" + many(
        lambda i: f"struct s{i + 1}{{struct s{i}*a;struct s{max(0, i - 1)}*b;}};", n) + f"struct s{n} v;" + EMPTY,
    "structures that hold the one before": lambda n: "struct s0{int*a;};" + many(
        lambda i: f"struct s{i + 1}{{struct s{i} a;}};", n) + f"struct s{n} v;" + EMPTY,
    "structures in a structure": lambda n: f"struct o{{{many(lambda i: f'struct i{i}{{int a;}}m{i};', n)}}};struct o v;" + EMPTY,
    "structures without tags": lambda n: many(lambda i: f"struct{{int*a;}}v{i};", n) + EMPTY,
    "copies of a structure of n members": lambda n: wide(n) + body("a=b;b=c;c=a;", "struct s a,b,c;"),
    "structures that are copied along": lambda n: body(many(lambda i: f"v{i + 1}=v{i};", n),
                                                       "struct s{int*a,*b;};" + many(lambda i: f"struct s v{i};", n + 1)),
    "casts to n structures": lambda n: many(lambda i: f"struct s{i}{{int a;}};", n)
        + body(many(lambda i: f"p=(struct s{i}*)p;", n), "void*p;"),
}

VALUES = {
    "`{1,1,..}`": lambda n: f"int a[]={{{listed(lambda i: '1', n)}}};" + EMPTY,
    "`{&x,&x,..}`": lambda n: f"int x,*a[]={{{listed(lambda i: '&x', n)}}};" + EMPTY,
    "`{&x,&x,..}` in a block": lambda n: body(f"int*a[]={{{listed(lambda i: '&x', n)}}};", "int x;"),
    "`{{&x,1},{&x,1},..}`": lambda n: f"int x;struct s{{int*a;int b;}};struct s a[]={{{listed(lambda i: '{&x,1}', n)}}};" + EMPTY,
    "`{&x,1,&x,1,..}`": lambda n: f"int x;struct s{{int*a;int b;}};struct s a[]={{{listed(lambda i: '&x,1', n)}}};" + EMPTY,
    "`[0]=..,[1]=..`": lambda n: f"int x,*a[{n}]={{{listed(lambda i: f'[{i}]=&x', n)}}};" + EMPTY,
    "`[n]=..,[n-1]=..`": lambda n: f"int x,*a[{n}]={{{listed(lambda i: f'[{n - 1 - i}]=&x', n)}}};" + EMPTY,
    "`[0]=..,[0]=..`": lambda n: f"int x,*a[1]={{{listed(lambda i: '[0]=&x', n)}}};" + EMPTY,
    "`.a=..,.b=..`": lambda n: f"int x;{wide(n)}struct s a={{{listed(lambda i: f'.m{i}=&x', n)}}};" + EMPTY,
    "`.z=..,.y=..`": lambda n: f"int x;{wide(n)}struct s a={{{listed(lambda i: f'.m{n - 1 - i}=&x', n)}}};" + EMPTY,
    "`[0].b[1].m[2]=..`": lambda n: "struct s{struct{int*m[3];}b[2];}a[4]={"
        + listed(lambda i: f"[{i % 4}].b[{i % 2}].m[{i % 3}]=0", n) + "};" + EMPTY,
    "objects of a structure of 300 members": lambda n: f"struct s{{{many(lambda i: f'int m{i};', 300)}}};"
        + many(lambda i: f"struct s a{i}={{1,2}};", n) + EMPTY,
    "compound literals": lambda n: body("r=(int*[]){&x};" * n, POINTER),
    "pieces of a string": lambda n: "char*s=" + '"ab" ' * n + ";" + EMPTY,
    "pieces of a string for an array": lambda n: "char s[]=" + '"ab" ' * n + ";" + EMPTY,
    "a long string": lambda n: 'char*s="' + "a" * 8 * n + '";' + EMPTY,
    "escapes": lambda n: 'char*s="' + "\\n\\x41\\101" * n + '";' + EMPTY,
    "strings": lambda n: "char*s[]={" + listed(lambda i: f'"s{i}"', n) + "};" + EMPTY,
    "strings for arrays": lambda n: "char s[][8]={" + listed(lambda i: '"abc"', n) + "};" + EMPTY,
    "a long number": lambda n: f"int x={'0' * 8 * n}1;" + EMPTY,
    "numbers": lambda n: f"unsigned long a[]={{{listed(lambda i: str(i * 7919), n)}}};" + EMPTY,
    "`sizeof(int)`": lambda n: f"int a[]={{{listed(lambda i: 'sizeof(int)', n)}}};" + EMPTY,
    "`sizeof(struct b[i])`": lambda n: f"struct b{{int a[9];}};int a[]={{{listed(lambda i: f'sizeof(struct b[{i + 1}])', n)}}};" + EMPTY,
}

STATEMENTS = {
    "cases": lambda n: body(f"switch(x){{{many(lambda i: f'case {i}:x=1;', n)}}}", "int x;"),
    "cases from the last down": lambda n: body(f"switch(x){{{many(lambda i: f'case {n - i}:;', n)}}}", "int x;"),
    "switches": lambda n: body("switch(x){case 1:x=2;break;default:x=3;}" * n, "int x;"),
    "labels": lambda n: body(many(lambda i: f"l{i}:x=1;", n), "int x;"),
    "labels, each with a goto": lambda n: body(many(lambda i: f"goto l{i};l{i}:;", n)),
    "labels behind their gotos": lambda n: body(many(lambda i: f"goto l{n - 1 - i};", n) + many(lambda i: f"l{i}:;", n)),
    "gotos to one label": lambda n: body("l:;" + "goto l;" * n),
    "blocks with a name": lambda n: body("{int x;x=1;}" * n),
    "blocks with a tag": lambda n: body("{struct s{int a;}v;v.a=1;}" * n),
    "blocks with a typedef": lambda n: body("{typedef int T;T x;x=1;}" * n),
    "blocks that use names outside": lambda n: body(many(lambda i: f"int x{i};", n) + many(lambda i: f"{{x{i}=1;}}", n)),
    "`for` with a name": lambda n: body("for(int i=0;i<3;i++)x=i;" * n, "int x;"),
    "`if` with `else`": lambda n: body("if(x)x=1;else x=2;" * n, "int x;"),
    "`while` with `break`": lambda n: body("while(x){x=1;break;}" * n, "int x;"),
    "`;`": lambda n: body(";" * n),
    "`p=&x;`": lambda n: body("p=&x;" * n, POINTER),
    "`p=q;q=p;`": lambda n: body("p=q;q=p;" * n, POINTER),
    "`**r=1;*r=&x;`": lambda n: body("**r=1;*r=&x;" * n, POINTER),
    "`p=x?p:q;`": lambda n: body("p=x?p:q;" * n, POINTER),
    "`p=(int*)(void*)p;`": lambda n: body("p=(int*)(void*)p;" * n, POINTER),
    "copies along n pointers": lambda n: body(many(lambda i: f"p{i + 1}=p{i};", n), f"int x,*p0=&x,{listed(lambda i: f'*p{i + 1}', n)};"),
    "copies along n pointers, the last first": lambda n: body(many(lambda i: f"p{n - i}=p{n - i - 1};", n),
                                                              f"int x,*p0=&x,{listed(lambda i: f'*p{i + 1}', n)};"),
    "a pointer to n objects": lambda n: body(many(lambda i: f"p=&x{i};", n), f"int*p,{listed(lambda i: f'x{i}', n)};"),
    "n pointers to one object": lambda n: "int x;" + many(lambda i: f"int*p{i}=&x;", n) + EMPTY,
}

CALLS = {
    "arguments behind `...`": lambda n: body(f'printf("",{listed(lambda i: "&x", n)});', "int x;int printf(const char*,...);"),
    "parameters": lambda n: body(f"f({listed(lambda i: '&x', n)});", f"int x;int f({listed(lambda i: f'int*p{i}', n)}){{return 0;}}"),
    "parameters, called through a pointer": lambda n: body(
        f"q({listed(lambda i: '&x', n)});",
        f"int x;int f({listed(lambda i: f'int*p{i}', n)}){{return 0;}}int(*q)({listed(lambda i: 'int*', n)})=f;"),
    "calls": lambda n: body("f(&x);" * n, "int x;void f(int*p){}"),
    "calls through a pointer": lambda n: body("q(&x);" * n, "int x;void f(int*p){}void(*q)(int*)=f;"),
    "calls of `malloc`": lambda n: body("p=malloc(4);" * n, "void*malloc(unsigned long);int*p;"),
    "calls of `realloc` on its own result": lambda n: body("p=realloc(p,4);" * n, "void*realloc(void*,unsigned long);int*p;"),
    "calls of `memcpy`": lambda n: body("memcpy(&x,&y,sizeof x);" * n,
                                        "void*memcpy(void*,const void*,unsigned long);struct s{int*a,*b;};struct s x,y;"),
    "calls of `qsort` with n functions": lambda n: "void qsort(void*,unsigned long,unsigned long,int(*)(const void*,const void*));int a[3];"
        + many(lambda i: f"static int c{i}(const void*p,const void*q){{return 0;}}", n) + body(many(lambda i: f"qsort(a,3,4,c{i});", n)),
    "functions that call the one before": lambda n: "void f0(void){}" + many(lambda i: f"void f{i + 1}(void){{f{i}();}}", n) + EMPTY,
    "a table of n functions and a call": lambda n: many(lambda i: f"void f{i}(void){{}}", n)
        + body("t[0]();", f"void(*t[])(void)={{{listed(lambda i: f'f{i}', n)}}};"),
    "declarations of functions": lambda n: "struct s;" + many(lambda i: f"int f{i}(int*p,struct s*q);", n) + EMPTY,
    "tags in lists of parameters": lambda n: many(lambda i: f"int f{i}(struct t{i}*q);", n) + EMPTY,
    "functions with a local, a static and a label": lambda n: many(
        lambda i: f"static int*f{i}(int*p){{int x=1;static int*y;y=p;l:if(x)goto l;return y;}}", n) + EMPTY,
    "`return p;`": lambda n: f"int*f(int*p){{{'return p;' * n}}}" + EMPTY,
}


# Two quantities grow at once: so many uses of something that has so many parts.
PRODUCTS = {
    "uses of a name with n qualifiers": lambda n: body(f"{'const ' * n}int x=1;{'x;' * n}"),
    "n names of a declaration with n qualifiers": lambda n: f"{'const ' * n}int {listed(lambda i: f'x{i}', n)};" + EMPTY,
    "n locals of a declaration with n qualifiers, used": lambda n: body(
        f"{'const ' * n}int {listed(lambda i: f'x{i}=1', n)};{many(lambda i: f'x{i};', n)}"),
    "n addresses of a local with n qualifiers": lambda n: body(
        f"{'const ' * n}static int x;static const int*const a[]={{{listed(lambda i: '&x', n)}}};"),
    "n unnamed structures and the last one's member": lambda n: f"struct s{{{many(lambda i: f'struct{{int*m{i};}};', n)}}};"
        + body(f"p->m{n - 1}=0;" * n, "struct s*p;"),
    "uses of a typedef with n qualifiers": lambda n: f"typedef {'const ' * n}int T;" + many(lambda i: f"extern T x{i};", n) + EMPTY,
    "uses of a name that is declared n times": lambda n: "extern int x;" * n + body("x=1;" * n) + "int x;",
    "`sizeof` of a structure of n members": lambda n: wide(n) + f"int a[]={{{listed(lambda i: 'sizeof(struct s)', n)}}};" + EMPTY,
    "`_Alignof` of a structure of n members": lambda n: wide(n) + f"int a[]={{{listed(lambda i: '_Alignof(struct s)', n)}}};" + EMPTY,
    "`p++` over a structure of n members": lambda n: wide(n) + body("p++;" * n, "struct s*p;"),
    "the last of n members": lambda n: wide(n) + body(f"p->m{n - 1}=0;" * n, "struct s*p;"),
    "the first of n members": lambda n: wide(n) + body("p->m0=0;" * n, "struct s*p;"),
    "casts to a structure of n members": lambda n: wide(n) + body("p=(struct s*)q;" * n, "void*q;struct s*p;"),
    "`malloc` of a structure of n members": lambda n: wide(n) + body("p=malloc(sizeof(struct s));" * n,
                                                                     "void*malloc(unsigned long);void*p;"),
    "a function of n parameters in a pointer": lambda n: body(
        "q=f;" * n, f"void f({listed(lambda i: 'int*', n)});void(*q)({listed(lambda i: 'int*', n)});")
        + f"void f({listed(lambda i: f'int*p{i}', n)}){{}}",
    "copies of a pointer of n stars": lambda n: body("p=q;" * n, f"int {'*' * n}p,{'*' * n}q;"),
    "copies of a pointer to an array of n dimensions": lambda n: body("p=q;" * n, f"int(*p){'[1]' * n},(*q){'[1]' * n};"),
    "declarations again of a pointer of n stars": lambda n: f"typedef int {'*' * n}T;" + "extern T x;" * n + EMPTY,
    "declarations again of a structure of n members": lambda n: wide(n) + "extern struct s x;" * n + EMPTY,
    "two units with n names of a type of n stars": lambda n: {
        name: f"typedef int {'*' * n}T;" + many(lambda i: f"extern T x{i};", n) + behind
        for name, behind in (("a.i", EMPTY), ("b.i", "T x0;"))},
    "two units with n pointers to a structure of n members": lambda n: {
        name: wide(n) + many(lambda i: f"extern struct s*x{i};", n) + behind for name, behind in (("a.i", EMPTY), ("b.i", "struct s*x0;"))},
    "two units with n pointers to a function of n parameters": lambda n: {
        name: f"typedef void T({listed(lambda i: 'int*', n)});" + many(lambda i: f"extern T*x{i};", n) + behind
        for name, behind in (("a.i", EMPTY), ("b.i", "T*x0;"))},
    "`return` at the end of n blocks": lambda n: body("{x=1;}" * n + "return x;" * n, "int x;"),
    "`break` under n declarations": lambda n: body("for(;;){" + many(lambda i: f"int x{i};", n) + "break;" * n + "}"),
    "`goto` over n labels": lambda n: body(many(lambda i: f"l{i}:;", n) + f"goto l{n - 1};" * n),
    "strings in a table and n uses": lambda n: body("p=t[0];" * n, "char*p;char*t[]={" + listed(lambda i: '"a"', n) + "};"),
}


def with_header(header, units):
    """So many units that begin with one header, and a `main`."""
    files = {f"u{number}.i": f"{header}int w{number}(void){{return {number};}}\n" for number in range(units)}
    return files | {"m.i": header + EMPTY}


UNITS = {
    "units with a header of 100 structures": lambda n: with_header(
        many(lambda i: f"struct h{i}{{struct h{max(0, i - 1)}*n;int*v;}};int g{i}(struct h{i}*,int*);", 100), max(1, min(250, n // 100))),
    "64 units that declare n names": lambda n: {f"u{k}.i": many(lambda i: f"extern int x{i};", n) + f"int w{k}(void){{return x0;}}"
                                                for k in range(64)} | {"m.i": many(lambda i: f"int x{i};", n) + EMPTY},
    "two units with a chain of n structures": lambda n: {
        name: "struct h0{int*v;};" + many(lambda i: f"struct h{i + 1}{{struct h{i}*n;int*v;}};", n) + behind
        for name, behind in (("a.i", f"extern struct h{n} x;" + EMPTY), ("b.i", f"struct h{n} x;"))},
    "two units with a ring of n structures": lambda n: {
        name: many(lambda i: f"struct h{i}{{struct h{(i + 1) % n}*a;struct h{(i * 7 + 3) % n}*b;}};", n) + behind
        for name, behind in (("a.i", "extern struct h0 x;" + EMPTY), ("b.i", "struct h0 x;"))},
    "two units with a structure of n members": lambda n: {
        name: f"struct h{{{many(lambda i: f'int*m{i};', n)}}};" + behind
        for name, behind in (("a.i", "extern struct h x;" + EMPTY), ("b.i", "struct h x;"))},
    "two units with n types of functions": lambda n: {
        "a.i": many(lambda i: f"int f{i}(int(*p)[{i + 1}]){{return 0;}}", n) + EMPTY,
        "b.i": many(lambda i: f"int f{i}(int(*)[{i + 1}]);", n) + f"void b(void){{{many(lambda i: f'f{i}(0);', n)}}}"},
}

QUESTIONS = {
    "questions": lambda n: {"a.i": "int x,*p=&x,*q;" + EMPTY, SCRIPT: "points p x\nalias p q\n" * n},
    "questions on n pointers": lambda n: {"a.i": "int x;" + many(lambda i: f"int*p{i}=&x;", n) + EMPTY,
                                          SCRIPT: many(lambda i: f"points p{i} x\nalias p{i} p{n - 1 - i}\n", n)},
    "questions on n calls": lambda n: {"a.i": "void f(void){}" + body("f();\n" * n),
                                       SCRIPT: many(lambda i: f"reaches a.i:{i + 1}:{2 if i else 31} f\n", n)},
    "empty lines of a script": lambda n: {"a.i": EMPTY, SCRIPT: "\n" * 20 * n},
}

FORMS = CHAINS | DECLARATIONS | RECORDS | VALUES | STATEMENTS | CALLS | PRODUCTS | UNITS | QUESTIONS


def files(name, size):
    """The units of a form in a size, by name, as bytes."""
    made = FORMS[name](size)
    return {unit: text.encode() for unit, text in (made if isinstance(made, dict) else {"a.i": made}).items()}


def case(name, size):
    """The words and files of a form in a size."""
    made = files(name, size)
    asked = ["--ask", SCRIPT] if SCRIPT in made else []
    return Case(asked + sorted(unit for unit in made if unit != SCRIPT), made)
