"""Rewrites that the tokens alone call for: what isn't plain C11, or is no matter to pointers."""
import re

from .declarations import KEYWORDS, TYPE_WORDS, externals
from .rewriting import NOISY, exact, hole, inserted, is_quiet, merged, one, operand, replaced
from .tokens import is_number, is_word

FLOATS = {"float": "int", "double": "long", "_Float32": "int", "_Float64": "long", "_Float128": "long",
          "_Float32x": "long", "_Float64x": "long", "__float128": "long", "__float80": "long"}
FLOATING = re.compile(r"(?!0[xX])(?=.*[.eEfFiIjJ])|0[xX].*[.pP]")
_BINARY = re.compile(r"0[bB]([01]+)([uUlL]*)$")
_PLAIN_CHARACTER = re.compile(r"'(\\[0-7]{1,3}|\\x[0-9a-fA-F]+|\\.|[^\\])'$", re.S)
_ESCAPE = re.compile(r"\\(e|E|u[0-9a-fA-F]{4}|U[0-9a-fA-F]{8}|.)", re.S)
_LETTER = re.compile(r"\\x([0-9a-fA-F]+)|\\([0-7]{1,3})|\\(.)|(.)", re.S)
_CONTROL = {"n": 10, "t": 9, "r": 13, "a": 7, "b": 8, "f": 12, "v": 11, "e": 27, "E": 27}
_STARTS = frozenset(("(", "[", "{", ",", ";", "=", "?", ":", "return", "case", "+=", "-=", "|=", "&=", "*="))
_BEFORE_VALUES = frozenset(("(", "[", "{", ",", "=", "?", ":", "return"))
BY_TOKEN = {}


def syntax_rewrites(text, typedefs):
    """All rewrites that the tokens of a text call for."""
    wanted = {token: maker for token in set(text.tokens) for maker in [_maker(token)] if maker}
    for index, token in enumerate(text.tokens):
        if token in wanted:
            rewrite = wanted[token](text, index, typedefs)
            if rewrite:
                yield rewrite


def _maker(token):
    """The function that may rewrite a token."""
    if token in BY_TOKEN:
        return BY_TOKEN[token]
    if token[-1] == '"':
        return _string if token[0] != '"' or "\\" in token else None
    if token[-1] == "'":
        return None if _PLAIN_CHARACTER.match(token) and token[:3] not in ("'\\e", "'\\u", "'\\U", "'\\E") else _character
    return _binary if _BINARY.match(token) else None


def has_floats(text):
    """Whether a text has floating types or constants."""
    return any(is_floating(token) for token in set(text.tokens))


def is_floating(token):
    """Whether a token is a floating type's word or a floating constant."""
    return token in FLOATS or is_number(token) and FLOATING.match(token) is not None


def float_rewrites(text):
    """Floating types and constants become integers: numbers don't matter to the sets."""
    floating = {token for token in set(text.tokens) if is_floating(token)}
    for index, token in enumerate(text.tokens):
        if token in floating:
            yield exact("floating to an integer", index, one(index, FLOATS.get(token, "1")))
        elif token == "_Complex" or token == "__complex__":
            yield exact("complex to an integer", index, one(index))


def triggers(*tokens):
    """Register the function for tokens."""
    def register(function):
        BY_TOKEN.update(dict.fromkeys(tokens, function))
        return function
    return register


@triggers("_Atomic")
def atomic(text, index, _):
    """_Atomic and _Atomic(T) become T."""
    brackets = (index + 1, text.closing(index + 1)) if text.at(index + 1) == "(" else ()
    return exact("_Atomic dropped", index, *[one(at) for at in (index, *brackets)])


@triggers("__attribute")
def attribute(text, index, _):
    """The same word as __attribute__ with its underscores."""
    return exact("__attribute to __attribute__", index, one(index, "__attribute__"))


@triggers("_Thread_local", "__thread")
def thread_local(text, index, _):
    """The threads share one object, which has what any of them has in its own."""
    return exact("thread-local dropped", index, one(index))


@triggers("__int128", "__int128_t", "__uint128_t")
def wide_integer(text, index, _):
    """A number's size doesn't matter."""
    return exact("__int128 to long", index, one(index, "long"))


@triggers("_Static_assert")
def static_assert(text, index, _):
    """The compiler has checked it; sizes differ here."""
    end = text.closing(index + 1) + 1
    return exact("_Static_assert dropped", index, replaced(range(index, end + (text.at(end) == ";"))))


@triggers("__auto_type")
def auto_type(text, index, _):
    """Its type is told by its value: no rewrite yet."""
    return None


@triggers("?")
def without_middle(text, index, _):
    """a ?: b becomes a ? a : b; where a does something it's done twice, so sets may gain."""
    if text.at(index + 1) != ":":
        return None
    start = text.find_back(index, *_STARTS) + 1
    condition = range(start, index)
    grade = exact if is_quiet(text, condition) else merged
    return grade("?: gets its middle", index, inserted(index + 1, condition)) if condition else None


@triggers(":")
def after_label(text, index, typedefs):
    """A label stands before a statement, and a declaration or a } is none."""
    following, before = text.at(index + 1), text.at(index - 1)
    is_label = before == "default" or is_word(before) and before not in KEYWORDS \
        and text.at(index - 2) in ("{", "}", ";", ":") or text.at(text.find_back(index, *_STARTS)) == "case"
    starts = following == "}" or following in TYPE_WORDS or following in ("static", "register") \
        or following in typedefs and (is_word(text.at(index + 2)) or text.at(index + 2) == "*")
    return exact("empty statement behind a label", index, inserted(index + 1, ";")) if is_label and starts else None


@triggers("&&")
def label_address(text, index, _):
    """The address of a label is that of no object and no function, so it's in no set."""
    if text.at(index - 1) not in _BEFORE_VALUES or not is_word(text.at(index + 1)):
        return None
    return exact("label's address to null", index, replaced(range(index, index + 2), "(void *) 0"))


@triggers("goto")
def computed_goto(text, index, _):
    """goto *e; goes to no other place than others may; what e does besides is done."""
    if text.at(index + 1) != "*":
        return None
    return exact("computed goto to its value", index, one(index), replaced(range(index + 1, index + 2), "(void) ("),
                 inserted(text.find(index, ";"), ")"))


@triggers("struct", "union")
def structure(text, index, _):
    """A structure has a member, and an array that is one has an element."""
    start = index + 1
    while text.at(start) == "__attribute__":
        start = text.closing(start + 1) + 1
    start += is_word(text.at(start))
    if text.at(start) != "{":
        return None
    end, edits = text.closing(start), []
    if end == start + 1:
        return exact("empty structure gets a member", index, inserted(end, "char pta_empty;"))
    for at in range(start, end - 1):
        if text.tokens[at] == "[" and text.tokens[at + 1] == "0" and text.tokens[at + 2] == "]":
            edits.append(one(at + 1, "1"))
    if text.tokens[end - 3:end] == ["[", "]", ";"]:
        edits.append(inserted(end - 2, "1"))
    return exact("array without a length to one of 1", index, *edits) if edits else None


@triggers("{")
def empty_initialiser(text, index, _):
    """An initialiser has a value."""
    if text.at(index + 1) == "}" and text.at(index - 1) in ("=", ","):
        return exact("empty initialiser gets a value", index, inserted(index + 1, "0"))
    return None


@triggers("...")
def dots(text, index, _):
    """[a ... b] becomes [a], for the elements are one; case a ... b is written out."""
    start = text.find_back(index, "case", "[", "(", "{", ";")
    if text.at(start) == "[":
        return exact("range of elements to its first", index, replaced(range(index, text.closing(start))))
    if text.at(start) != "case":
        return None
    end = text.find(index, ":")
    low, high = (_number(text.tokens[at.start:at.stop]) for at in (range(start + 1, index), range(index + 1, end)))
    if low is None or high is None or not 0 <= high - low < 512:
        return merged("range of cases to its ends", index, one(index, ": case"))
    return exact("range of cases written out", index, replaced(
        range(start, end), ": ".join(f"case {number}" for number in range(low, high + 1))))


def _number(tokens):
    """The number of a plain constant."""
    words = [token for token in tokens if token not in ("(", ")")]
    if len(words) != 1:
        return None
    if _PLAIN_CHARACTER.match(words[0]):
        return letters(words[0][1:-1])[0]
    try:
        return int(words[0].rstrip("uUlL"), 0)
    except ValueError:
        return None


def letters(source):
    """The numbers of the letters of a literal without its quotes."""
    return [int(found[1], 16) if found[1] else int(found[2], 8) if found[2] else
            _CONTROL.get(found[3], ord(found[3])) if found[3] else ord(found[4]) for found in _LETTER.finditer(source)]


def _binary(text, index, _):
    found = _BINARY.match(text.tokens[index])
    return exact("binary constant", index, one(index, str(int(found[1], 2)) + found[2]))


def _character(text, index, _):
    """A wide or multi-character constant becomes its number."""
    token = text.tokens[index]
    value = 0
    for letter in letters(_plain(token[token.index("'") + 1:-1])):
        value = (value << 8 | letter) & 0x7FFFFFFF
    return exact("character constant to its number", index, one(index, str(value)))


def _plain(source):
    """The inside of a literal without the escapes that C11 doesn't have here."""
    return _ESCAPE.sub(_plain_escape, source)


def _plain_escape(found):
    escape = found[1]
    if escape in ("e", "E"):
        return "\\033"
    if escape[0] in "uU" and len(escape) > 1:
        return "".join(f"\\{byte:03o}" for byte in chr(int(escape[1:], 16)).encode("utf-8", "replace"))
    return found[0]


def _string(text, index, _):
    """A wide string becomes an array of numbers; an escape that C11 doesn't have becomes one that it has."""
    token = text.tokens[index]
    if token[0] == '"' or token.startswith("u8"):
        plain = _plain(token)
        return exact("escape to an octal one", index, one(index, plain)) if plain != token else None
    if text.at(index - 1)[-1:] == '"':
        return None
    end, found = index, []
    while text.at(end)[-1:] == '"':
        inner = text.tokens[end]
        found += letters(_plain(inner[inner.index('"') + 1:-1]))
        end += 1
    numbers = ", ".join(str(number) for number in found + [0])
    is_array = text.at(index - 1) == "=" and text.at(index - 2) == "]"
    kind = {"L": "int", "u": "unsigned short", "U": "unsigned"}[token[0]]
    new = f"{{ {numbers} }}" if is_array else f"(({kind}[]){{ {numbers} }})"
    return exact("wide string to numbers", index, replaced(range(index, end), new))


# Definitions

def definition_rewrites(text):
    """Old parameters become a prototype; an inline function becomes each unit's own, or an external one."""
    spans = externals(text)
    inlines, olds = {}, {}
    for span in spans:
        if text.tokens[span[-1]] == "}":
            yield from old_parameters(text, span, olds)
            name = _inline_name(text, span)
            if name:
                inlines[name] = span[0]
    yield from old_calls(text, spans, olds)
    yield from implicit_ints(text, spans)
    declarations = [(name, span) for span in spans if inlines for name in [_declared_of(text, span, inlines)] if name]
    external = {name for name, span in declarations if _is_external(text, span)}
    for name, span in declarations:
        words = range(span[0], text.find(span[0], "(", "{"))
        if name in external:
            drop = [one(at) for at in words if text.tokens[at] in _INLINES]
            if drop:
                yield exact("inline dropped", span[0], *drop)
        elif "static" not in text.tokens[words.start:words.stop]:
            yield exact("inline to static inline", span[0], inserted(span[0], "static"))


_INLINES = frozenset(("inline", "__inline", "__inline__"))


def _inline_name(text, span):
    """The name of a function that a span defines inline without static."""
    opening = text.find(span[0], "(", "{", "=")
    while text.at(opening - 1) == "__attribute__":
        opening = text.find(text.closing(opening) + 1, "(", "{", "=")
    words = text.tokens[span[0]:opening]
    if "static" in words or _INLINES.isdisjoint(words) or text.at(opening) != "(":
        return None
    return text.tokens[opening - 1]


def _declared_of(text, span, names):
    """Which of the names a declaration or definition of a function declares."""
    for index in range(span[0], min(span[0] + 24, span[-1])):
        if text.tokens[index] in names and text.tokens[index + 1] == "(":
            return text.tokens[index]
        if text.tokens[index] in ("{", "=", "typedef"):
            return None
    return None


def _is_external(text, span):
    """Whether a declaration makes an inline definition of its unit an external one (C11 6.7.4p7)."""
    words = text.tokens[span[0]:text.find(span[0], "(", "{")]
    return "extern" in words or _INLINES.isdisjoint(words) and "static" not in words


def old_parameters(text, span, olds):
    """f(a) int a; {..} becomes f(int a) {..}; what each parameter is goes to `olds`, under the function's name."""
    body = text.opening(span[-1])
    at = text.find_back(body, ")")
    while at >= 0 and at > span[0]:
        start = text.opening(at)
        names = text.tokens[start + 1:at]
        if names and is_word(text.at(start - 1)) and all(map(is_word, names[::2])) \
                and set(names[1::2]) <= {","} and not set(names) & TYPE_WORDS and is_word(text.tokens[at + 1]):
            break
        at = text.find_back(start, ")")
        if at <= span[0]:
            return
    else:
        return
    types = dict(_old_declarations(text, at + 1, body, set(names)))
    parts = []
    for name in names[::2]:
        parts += [",", *types.get(name, ("int " + name,))] if parts else types.get(name, ("int " + name,))
    olds[text.tokens[start - 1]] = [types.get(name, ("int " + name,)) for name in names[::2]]
    yield exact("old parameters to a prototype", start - 1, replaced(range(start + 1, at), *parts),
                replaced(range(at + 1, body)))


def with_prototypes(text):
    """The text with prototypes in place of old parameters; the text itself where there are none."""
    spans, olds = externals(text), {}
    found = [rewrite for span in spans if text.tokens[span[-1]] == "}" for rewrite in old_parameters(text, span, olds)]
    found += [*old_calls(text, spans, olds), *implicit_ints(text, spans)]
    return text.edited([edit for rewrite in found for edit in rewrite.edits]) if found else text


def implicit_ints(text, spans):
    """A definition without a type is one of int (C90 6.5.2)."""
    for span in spans:
        at = span[0] + (text.tokens[span[0]] in ("static", "extern"))
        if text.tokens[span[-1]] == "}" and is_word(text.tokens[at]) and text.tokens[at] not in KEYWORDS \
                and text.at(at + 1) == "(" and text.at(text.closing(at + 1) + 1) != "(":
            yield exact("int where no type is told", at, inserted(at, "int"))


def old_calls(text, spans, olds):
    """Calls of functions with old parameters, which may hand on too few values or too many (C11 6.5.2.2p6).

    What hands on too few leaves parameters without a value: 0, but a hole where one is no number.
    """
    few = {}
    for span in spans if olds else ():
        if text.tokens[span[-1]] == "}":
            for index in range(text.opening(span[-1]), span[-1]):
                if text.tokens[index] in olds and text.tokens[index + 1] == "(" and not _is_declared_at(text, index):
                    yield from _old_call(text, index, olds[text.tokens[index]], few)
    for name, edits in few.items():
        yield hole(f"{name} called with too few values, {len(edits)} times", edits[0].start, *edits)


def _is_declared_at(text, index):
    """Whether a name before parentheses in a body is that of a declaration, or a member's."""
    words = text.tokens[text.find_back(index, ";", "{", "}") + 1:index]
    if text.tokens[index - 1] in (".", "->"):
        return True
    if not words or words[0] in _NO_TYPES or "=" in words:
        return False
    return words[0] in TYPE_WORDS or words[0] in ("static", "extern", "register") \
        or all(word == "*" or is_word(word) for word in words)


_NO_TYPES = frozenset(("return", "else", "do", "goto", "case", "sizeof", "*"))


def _old_call(text, index, parameters, few):
    """The rewrite of a call that hands on another number of values than there are parameters."""
    arguments, end, name = text.arguments(index + 1), text.closing(index + 1), text.tokens[index]
    count = len(parameters)
    if len(arguments) < count:
        missing = parameters[len(arguments):]
        edit = inserted(end, ", " * bool(arguments) + ", ".join("0" for _ in missing))
        if all(_is_number_parameter(text, parts) for parts in missing):
            yield exact(f"{name} called with too few values", index, edit)
        else:
            few.setdefault(name, []).append(edit)
    elif len(arguments) > count:
        last, more = arguments[count - 1], arguments[count:]
        yield exact(f"{name} called with too many values", index,
                    replaced(range(last.start, end), *_all_done(more), last, ")"))


def _is_number_parameter(text, parts):
    """Whether the parts of a parameter's declaration declare a number."""
    words = [word for part in parts for word in (part.split() if isinstance(part, str) else
                                                 text.tokens[part.start:part.stop])]
    return set(words[:-1]) <= _NUMBER_WORDS and is_word(words[-1])


_NUMBER_WORDS = frozenset("char short int long unsigned signed float double const volatile".split())


def _old_declarations(text, start, end, names):
    """For each declared parameter its name and the ranges of its specifiers and its declarator."""
    while start < end:
        stop, specifiers = min(text.find(start, ";"), end), None
        while start < stop:
            comma = min(text.find(start, ","), stop)
            name = next((i for i in range(start, comma) if text.tokens[i] in names
                         and text.at(i - 1) not in ("struct", "union", "enum")
                         and not (i == start and is_word(text.at(i + 1)))), None)
            if name is None:
                return
            if specifiers is None:
                first = name
                while first > start and text.tokens[first - 1] in ("*", "(", "const"):
                    first -= 1
                specifiers = [range(i, i + 1) for i in range(start, first) if text.tokens[i] != "register"] or ["int"]
                start = first
            yield text.tokens[name], (*specifiers, range(start, comma))
            start = comma + 1
        start = stop + 1


# Builtins

FIRST = ("__builtin_bswap", "__builtin_expect", "__builtin_clz", "__builtin_ctz", "__builtin_popcount",
         "__builtin_ffs", "__builtin_parity", "__builtin_isnan", "__builtin_isinf", "__builtin_signbit",
         "__builtin_isfinite", "__builtin_isnormal", "__builtin_fabs", "__builtin_assume_aligned", "__builtin_abs",
         "__builtin_isless", "__builtin_isgreater")
NUMBERS = ("__builtin_constant_p", "__builtin_object_size", "__builtin_inf", "__builtin_nan", "__builtin_huge_val",
           "__builtin_types_compatible_p", "__builtin_offsetof", "__builtin_dynamic_object_size")
QUIET = ("__builtin_unreachable", "__builtin_trap", "__builtin_prefetch")
TAKEN = frozenset(f"__builtin_va_{name}" for name in ("list", "start", "arg", "copy", "end"))
DECLARATIONS = {
    "memcpy": "void *memcpy(void *, const void *, unsigned long);",
    "memmove": "void *memmove(void *, const void *, unsigned long);",
    "memset": "void *memset(void *, int, unsigned long);",
    "memcmp": "int memcmp(const void *, const void *, unsigned long);",
    "strlen": "unsigned long strlen(const char *);",
    "strcmp": "int strcmp(const char *, const char *);",
    "strcpy": "char *strcpy(char *, const char *);",
    "strchr": "char *strchr(const char *, int);",
    "abort": "void abort(void);",
}
OVERFLOW_ALONE = re.compile(r"__builtin_(?:add|sub|mul)_overflow_p$")
OVERFLOW = re.compile(r"__builtin_[su]?(?:add|sub|mul)l*_overflow$")
ALLOCA = ("__builtin_alloca", "__builtin_alloca_with_align")


def builtin_rewrites(text, declared):
    """Calls of builtins that pta doesn't take become plain expressions."""
    names = {token for token in set(text.tokens) if token.startswith("__builtin_")} - TAKEN
    for index, token in enumerate(text.tokens):
        if token in names and text.at(index + 1) == "(":
            rewrite = builtin(text, index, declared)
            if rewrite:
                yield rewrite


def builtin(text, index, declared):
    """The rewrite of a builtin's call, by its name."""
    name, end = text.tokens[index], text.closing(index + 1)
    arguments, call = text.arguments(index + 1), range(index, end + 1)
    what = f"{name} to a plain expression"
    if name.startswith(QUIET):
        return exact(what, index, replaced(call, "((void)0)"))
    if name.startswith(FIRST) and arguments:
        if all(is_quiet(text, argument) for argument in arguments[1:]):
            dropped = [replaced(range(arguments[0][-1] + 1, end))] if len(arguments) > 1 else []
            return exact(what, index, one(index), *dropped)
        return exact(what, index, replaced(call, *_all_done(arguments[1:]), arguments[0], ")"))
    if name.startswith(NUMBERS):
        return exact(what, index, replaced(call, "8" if name.endswith("offsetof") else "1"))
    if OVERFLOW_ALONE.match(name) or name.startswith("__builtin_ia32_"):
        return exact(what, index, replaced(call, *_all_done(arguments), "0)"))
    if OVERFLOW.match(name) and len(arguments) == 3:
        first, second, result = arguments
        return exact(what, index, replaced(call, "(*(", result, ") = (", first, ") + (", second, "), 0)"))
    if name in ALLOCA:
        return exact(what, index, one(index, "malloc"), *_declared_once(text, "malloc", declared,
                                                                       "void *malloc(unsigned long);"))
    plain = name.removeprefix("__builtin_").removeprefix("_").removeprefix("_").removesuffix("_chk")
    if name.startswith("__builtin___") and name.endswith("_chk"):
        return _checked(text, index, plain, arguments) if plain in declared else None
    if plain in declared or plain in DECLARATIONS:
        return exact(what, index, one(index, plain), *_declared_once(text, plain, declared, DECLARATIONS.get(plain)))
    return None


def _all_done(arguments):
    """Parts that do what arguments do besides giving values: ((void) (a), (void) (b), .."""
    return ["(", *(part for argument in arguments for part in ("(void) (", argument, "),"))]


def _checked(text, index, plain, arguments):
    """A checked copy has the size of its object as its last argument."""
    last = range(arguments[-2][-1] + 1, arguments[-1][-1] + 1)
    return exact(f"{text.tokens[index]} to {plain}", index, one(index, plain), replaced(last))


def _declared_once(text, name, declared, declaration):
    """The edit that declares a name first, where it isn't declared yet."""
    if name in declared:
        return []
    declared.add(name)
    return [inserted(0, declaration)]


def drops_nothing(text, span):
    """Whether leaving out a range leaves out no call and no assignment."""
    return NOISY.isdisjoint(text.tokens[span.start:span.stop])


def cast_operand(text, index, typedefs):
    """The operand behind the cast whose ( is at the index."""
    return operand(text, text.closing(index) + 1, typedefs)
