"""Statement expressions with declarations and loops become expressions; what they declare stands in the block around.

The order of statements is no matter to the sets, so a loop is its parts with commas between.
"""
from .declarations import KEYWORDS, TYPE_WORDS
from .rewriting import exact, inserted, is_type, replaced
from .tokens import is_word

_JUMPS = frozenset("return goto break continue switch case default".split())
_ASM = frozenset(("asm", "__asm__", "__asm"))
_PLAIN = frozenset("const volatile register __const __volatile__ auto __extension__".split())


def hoisted(case, end):
    """The rewrite of the statement expression from the refused ( to the ) at `end`; None where it isn't of plain statements."""
    block = _block_around(case.text, case.index)
    if block is None:
        return None
    made = _Expression(case.text, case.facts.typedefs)
    parts = made.statements(case.index + 2, end - 1)
    if parts is None:
        return None
    if not made.gives_value:
        parts += [",", "(void) 0"] if parts else ["(void) 0"]
    return exact("statement expression to an expression", case.index,
                 inserted(block + 1, " ".join(made.declarations)), replaced(range(case.index + 1, end), *parts))


def _block_around(text, index):
    """The { of the innermost block around a token; None where there is none, or it belongs to a value."""
    block = text.find_back(index, "{")
    while block >= 0 and not _is_block(text, block):
        block = text.find_back(block, "{")
    return block if block >= 0 else None


def _is_block(text, brace):
    before = text.at(brace - 1)
    if before == ")":
        word = text.at(text.opening(brace - 1) - 1)
        return word in ("if", "while", "for", "switch", "__attribute__") or is_word(word) and word not in KEYWORDS
    return before in (";", "}", ":", "else", "do") or before == "(" and text.at(text.closing(brace) + 1) == ")" \
        or before == "{" and _is_block(text, brace - 1)


class _Expression:
    """What statements become, with the declarations of what they declare, under names of their own."""

    def __init__(self, text, typedefs):
        self._text, self._typedefs, self._names = text, typedefs, {}
        self.declarations, self.gives_value = [], False

    def statements(self, start, end):
        """The parts of an expression that does what the statements do; None where one of them can't be told."""
        parts, before = [], dict(self._names)
        while start < end:
            start, made = self._statement(start, end)
            if made is None:
                return None
            parts += [*([","] if parts and made else []), *made]
        self._names = before
        return parts

    def _statement(self, start, end):
        """The index behind a statement, and its parts; None for the parts where it can't be told."""
        text, word = self._text, self._text.at(start)
        self.gives_value = False
        if word == "{":
            return text.closing(start) + 1, self._bracketed(self.statements(start + 1, text.closing(start)))
        if word in ("if", "while"):
            return self._headed(start, end)
        if word == "do":
            behind, inner = self._statement(start + 1, end)
            condition = range(behind + 2, text.closing(behind + 1))
            self.gives_value = False
            return text.closing(behind + 1) + 2, self._joined(inner, self._renamed(condition))
        if word == "for":
            return self._for(start, end)
        stop = text.find(start, ";")
        if word in _JUMPS or word in _ASM or word == "[" or stop >= end or text.at(start + 1) == ":":
            return stop + 1, None
        if is_type(text, start, self._typedefs) or word in _PLAIN or word in ("static", "extern", "typedef"):
            return stop + 1, self._declaration(start, stop)
        self.gives_value = stop > start
        return stop + 1, ["(", *self._renamed(range(start, stop)), ")"] if stop > start else []

    def _headed(self, start, end):
        """An `if` or `while` with its statements."""
        close = self._text.closing(start + 1)
        behind, inner = self._statement(close + 1, end)
        made = self._joined(self._renamed(range(start + 2, close)), inner)
        if self._text.at(start) == "if" and self._text.at(behind) == "else":
            behind, other = self._statement(behind + 1, end)
            made = None if made is None or other is None else made + ([",", *other] if other else [])
        self.gives_value = False
        return behind, made

    def _for(self, start, end):
        """A `for` whose head has expressions, or a declaration first."""
        text, close = self._text, self._text.closing(start + 1)
        before = dict(self._names)
        at, first = self._statement(start + 2, close)
        stop = text.find(at, ";")
        parts = [self._renamed(range(at, stop)), self._renamed(range(stop + 1, close))]
        behind, inner = self._statement(close + 1, end)
        self._names, self.gives_value = before, False
        made = first
        for part in (*parts, inner):
            made = self._joined(made, part)
        return behind, made

    @staticmethod
    def _joined(first, second):
        """Two expressions with a comma between; None where one couldn't be told."""
        if first is None or second is None:
            return None
        first, second = (["(", *part, ")"] if part else [] for part in (first, second))
        return [*first, *([","] if first and second else []), *second]

    def _bracketed(self, parts):
        self.gives_value = False
        return ["(", *parts, ")"] if parts else parts

    def _declaration(self, start, stop):
        """The values that a declaration gives, as assignments; None where it isn't one of plain objects."""
        text, at = self._text, start
        while text.at(at) in TYPE_WORDS or text.at(at) in _PLAIN or at == start or text.at(at) in self._typedefs \
                and text.at(at - 1) in _PLAIN or text.at(at - 1) in ("struct", "union", "enum"):
            at += 1
        words = text.tokens[start:at]
        if {"{", "static", "extern", "typedef", "("} & set(words) or at >= stop:
            return None
        kind, parts = " ".join(word for word in words if word not in _PLAIN or text.at(at) == "*" and word == "const"), []
        while at < stop:
            end = min(text.find(at, ","), stop)
            name = next((index for index in range(at, end) if text.at(index) != "*" and text.at(index) not in _PLAIN), end)
            if not is_word(text.at(name)) or text.at(name) in KEYWORDS or not (name + 1 == end or text.at(name + 1) == "=") \
                    or text.at(name + 2) == "{":
                return None
            new = f"pta_inner_{text.origin(name)}_{len(text.tokens)}_{text.at(name)}"
            self._names[text.at(name)] = new
            self.declarations.append(f"{kind} {'*' * text.tokens[at:name].count('*')}{new};")
            if name + 1 < end:
                parts += [*([","] if parts else []), "(", new, "=", "(", *self._renamed(range(name + 2, end)), ")", ")"]
            at = end + 1
        return parts

    def _renamed(self, span):
        """The tokens of a range with the new names of what was declared."""
        text, parts, start = self._text, [], span.start
        for index in span:
            if text.at(index) in self._names and text.at(index - 1) not in (".", "->"):
                parts += [range(start, index), self._names[text.at(index)]] if index > start else [self._names[text.at(index)]]
                start = index + 1
        return [*parts, range(start, span.stop)] if start < span.stop else parts
