"""Rewrites of conversions, by what the compiler told of them."""
import re
from bisect import bisect_right

from .declarations import externals, function_names, typedef_names
from .conversions import NUMBER, kind
from .facts import needs_blobs, record_of
from .rewriting import EXACT, HOLE, MERGED, Rewrite, exact, inserted, is_cast, is_type, merged, operand, replaced
from .tokens import Text, is_number
from .wrappers import PREFIX, agrees, is_generic, is_untold, wrapper

ALLOCATORS = frozenset(("malloc", "calloc", "realloc", "strdup"))
MARK = "pta_mark_"


class Converter:
    """Rewrites the conversions of one text by the unit's facts and the wishes of the program."""

    def __init__(self, text, facts, wishes):
        self._text, self._facts, self._wishes = text, facts, wishes
        self._spans = spans = externals(text)
        self._named = None
        self._starts = [span[0] for span in spans]
        self._functions = function_names(text) \
            if any(one.source.sort == "function" for one in facts.asked.conversions) else set()
        self._bodies = [(text.opening(span[-1]), span[-1]) for span in spans
                        if text.tokens[span[-1]] == "}" and text.tokens[text.opening(span[-1]) - 1] == ")"]

    def rewrites(self):
        """All rewrites of conversions, compared pointers and allocations."""
        for conversion in self._facts.asked.conversions:
            index, last = map(self._text.index_of, (conversion.origin, conversion.last))
            if index is not None and last is not None and last >= index:
                rewrite = self._rewrite(conversion, index, last)
                if rewrite:
                    yield rewrite
        for origin in self._facts.asked.compared:
            index = self._text.index_of(origin)
            if index is not None and self._text.tokens[index] in ("==", "!=", "<", ">", "<=", ">="):
                yield exact("compared pointers of two types", index, inserted(index + 1, "(void *)"))
        yield from self._constants()
        if self._wishes.blobs:
            yield from self._allocations()

    def _constants(self):
        """Casts of numbers to pointers: the addresses of objects and functions of their own."""
        text, typedefs, known = self._text, self._facts.typedefs, set()
        for index, token in enumerate(text.tokens):
            if token == "(" and is_type(text, index + 1, typedefs) and is_cast(text, index, typedefs):
                span = operand(text, text.closing(index) + 1, typedefs)
                found = CONSTANT.fullmatch(text.source(span)) if len(span) < 6 else None
                kind = self._sort(text.tokens[index + 1:text.closing(index)]) if found and not _is_null(found[1]) else None
                make = {"object": constant_to_object, "function": constant_to_function}.get(kind)
                if make:
                    yield make(text, index, span, known)

    def _sort(self, words):
        """What a cast's type points to, an object or a function; None where it is no pointer or isn't told."""
        if len(words) == 1 and words[0] in self._facts.pointers:
            if self._named is None:
                self._named = typedef_names(self._text, self._spans)
            span = self._named.get(words[0])
            inner = self._text.tokens[span.start:span.stop] if span else ["("]
            return "function" if _is_function(inner) else None if "(" in inner or "*" not in inner else "object"
        return "function" if _is_function(words) else "object" if words[-1] == "*" and "(" not in words else None

    def _rewrite(self, conversion, index, last):
        """The rewrite of one conversion; None where pta takes it as it is."""
        source, target = conversion.source, conversion.target
        grade = self._grade(conversion)
        if source == NUMBER and not conversion.is_cast:
            return self._of_number(index, last)
        if {source.sort, target.sort} == {"function"}:
            return self._of_functions(conversion, index, last)
        if grade is None:
            return None
        what = f"{source.name} as {target.name}"
        if needs_blobs(conversion, self._facts.layout, self._facts.pointers) and self._in_body(index):
            return Rewrite(grade, what, index, tuple(self._marked(conversion, index, last)))
        return Rewrite(grade, what, index, tuple(self._by_void(conversion, index, last)))

    def _grade(self, conversion):
        """The class of a conversion over `void *`; None where it's none of those that go so."""
        source, target = conversion.source, conversion.target
        sorts = {source.sort, target.sort}
        if sorts & {"function", "other", "void"} or sorts == {"pointer"}:
            return None
        if sorts == {"record"}:
            return self._grade_of_records(conversion)
        if "record" in sorts:
            holds = any(self._holds(kind) for kind in (source, target) if kind.sort == "record")
            return MERGED if holds else EXACT
        if sorts == {"number"}:
            return EXACT if source.name != target.name else None
        if "array" in sorts:
            bases = [kind(one.name + " *") if one.sort == "array" else one for one in (source, target)]
            return EXACT if bases[0] == bases[1] or {base.sort for base in bases} == {"number"} else HOLE
        return MERGED

    def _grade_of_records(self, conversion):
        source, target = conversion.source.name, conversion.target.name
        if source == target:
            return None
        leads = conversion.is_cast and self._facts.layout.leads_to(source, target)
        if leads and source not in self._wishes.merged:
            return None
        return MERGED if self._holds(conversion.source) or self._holds(conversion.target) else EXACT

    def _holds(self, kind):
        name = record_of(kind)
        return name is None or self._facts.layout.may_hold_pointers(name, self._facts.pointers)

    def _by_void(self, conversion, index, last):
        """The edits that take a conversion over `void *`."""
        text = self._text
        if conversion.is_cast:
            behind = text.closing(index) + 1
            return [] if text.tokens[behind:behind + 4] == ["(", "void", "*", ")"] else [inserted(behind, "(void *)")]
        if text.tokens[max(0, index - 4):index] == ["(", "void", "*", ")"]:
            return []
        return [inserted(index, "(void *) ("), inserted(last + 1, ")")]

    def _marked(self, conversion, index, last):
        """The edits that keep what is converted in an object, whose set tells afterwards what it may be."""
        name = f"{MARK}{conversion.origin}"
        start = self._text.closing(index) + 1 if conversion.is_cast else index
        return [inserted(0, f"static void *{name};"), inserted(start, f"({name} = (void *) ("),
                inserted(last + 1, "))")]

    def _of_number(self, index, last):
        """A number that becomes a pointer without a cast: a hole, but what it does is done; constants are mended later."""
        words = [word for word in self._text.tokens[index:last + 1] if word not in ("(", ")", "-", "~")]
        if not self._in_body(index) or len(words) == 1 and is_number(words[0]):
            return None
        return Rewrite(HOLE, "number to a pointer", index, (inserted(index, "((void) ("), inserted(last + 1, "), (void *) 0)")))

    def _of_functions(self, conversion, index, last):
        """A function under another type is called by a wrapper; a pointer to one is a hole."""
        source, target = conversion.source.name, conversion.target.name
        if agrees(source, target) or is_generic(target) or is_generic(source) and not is_untold(source):
            return None
        start = self._text.closing(index) + 1 if conversion.is_cast else index
        words = [at for at in range(start, last + 1) if self._text.tokens[at] not in ("(", ")", "&", "*")]
        function = self._text.tokens[words[0]] if len(words) == 1 else None
        name = f"{PREFIX}{conversion.origin}"
        made = wrapper(name, function, source, target) if function in self._functions else None
        if made is None:
            return Rewrite(HOLE, "pointer to a function as one to another type", index, ())
        edits = [inserted(self._start_of(index), made[0]), inserted(len(self._text.tokens), made[1])]
        if not self._in_body(index):
            edits.append(replaced(range(start, last + 1), name))
        elif conversion.is_cast:
            cast = range(index, start)
            edits.append(replaced(range(index, last + 1), "(1 ? ", cast, range(start, last + 1), ":", name, ")"))
        else:
            cast = f"({target})"
            edits.append(replaced(range(start, last + 1), f"(1 ? {cast}", range(start, last + 1), ":", name, ")"))
        return exact(f"{function} under another type by a wrapper", index, *edits)

    def _start_of(self, index):
        """Where the declaration or definition outside of functions begins in which a token stands."""
        return self._starts[bisect_right(self._starts, index) - 1]

    def _in_body(self, index):
        at = bisect_right(self._bodies, (index, 0)) - 1
        return at >= 0 and self._bodies[at][0] < index < self._bodies[at][1]

    def _allocations(self):
        """What is allocated as characters, and may be used as other things, is followed as one piece."""
        for origin in sorted(self._facts.asked.characters):
            index = self._text.index_of(origin)
            if index is not None and self._text.tokens[index] in ("=", "return"):
                index += 1
            if index is not None and self._text.tokens[index] in ALLOCATORS and self._text.at(index + 1) == "(":
                yield merged("characters that are allocated, as one piece", index, inserted(index, "(0,"),
                             inserted(self._text.closing(index + 1) + 1, ")"))


CONSTANT = re.compile(r"[-~( ]*(\d\w*)[ )]*")


def _is_function(words):
    """Whether the words of a type or a typedef are those of one pointer to a function."""
    return re.search(r"\( \* (\w+ )?\) \(", " ".join(words)) is not None


def _is_null(word):
    """Whether a number is 0, which is the null pointer."""
    return not word.rstrip("uUlL").strip("0xX")


def constant_to_object(text, index, span, known=None):
    """The rewrite of a number that becomes a pointer to the address of an object of its own."""
    name = _mark(text, span)
    return exact("number to an object of its own", index, replaced(span, f"(void *) &{name}"),
                 *declared_once(text, f"static char {name};", known))


def constant_to_function(text, index, span, known=None):
    """The rewrite of a number that becomes a pointer to that of a function of its own."""
    name = _mark(text, span)
    return exact("number to a function of its own", index, replaced(span, name + "f"),
                 *declared_once(text, f"static void {name}f(void) {{ }}", known))


def _mark(text, span):
    source = text.source(span)
    return f"{MARK}{re.sub(r'[^0-9A-Za-z]', '', CONSTANT.fullmatch(source)[1])}" + ("m" if "-" in source else "")


def declared_once(text, declaration, known=None):
    """The edit that puts a declaration first, where it doesn't stand yet and isn't known to be put there."""
    words = Text.read(declaration).tokens
    if declaration in (known or ()) or \
            any(text.tokens[i:i + len(words)] == words for i in range(min(400, len(text.tokens)))):
        return []
    if known is not None:
        known.add(declaration)
    return [inserted(0, declaration)]
