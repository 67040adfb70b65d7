"""Bodies for the functions that no unit defines: from library/*.c, or empty ones that are holes."""
import os

from .catalogue import FOLDER, catalogue
from .declarations import ATTRIBUTES, TYPE_WORDS, declared, externals
from .facts import KNOWN
from .fitting import Definition
from .rewriting import EXACT, HOLE
from .tokens import is_word
from .units import Command, Unit, preprocess

UNIT = "library"
_QUALIFIERS = frozenset("const volatile restrict __restrict __const register".split())


class Names:
    """The names that a text declares, defines and uses outside of declarations."""

    def __init__(self, text):
        self.declares, self.defines, self.uses = {}, set(), set()
        for span in externals(text):
            words = text.tokens[span[0]:min(span[0] + 4, span[-1])]
            if "typedef" in words:
                continue
            is_body = text.tokens[span[-1]] == "}"
            inside = text.tokens[text.opening(span[-1]) if is_body else span[0]:span[-1]]
            if is_body:
                self.uses.update(inside)
            elif "=" in inside:
                self.uses.update(inside[inside.index("="):])
            for index, is_function in declared(text, span):
                self._note(text.tokens[index], span, is_body or not is_function and "extern" not in words
                           and not is_function, "static" in words)

    def _note(self, name, span, is_definition, is_static):
        if is_definition or is_static:
            self.defines.add(name)
        elif name not in self.declares or len(span) > len(self.declares[name]):
            self.declares[name] = span


def wanted(names):
    """The names that units use and none defines, in order."""
    defined = set().union(*(one.defines for one in names))
    used = set().union(*(one.declares.keys() & one.uses for one in names))
    return sorted(used - defined - KNOWN)


def library_unit(compiler, folder, names, flags):
    """The unit of the library with the definitions of the names, and of what they use."""
    files = sorted({catalogue()[name] for name in names})
    source = os.path.join(folder, UNIT + ".c")
    with open(source, "w", encoding="latin-1") as stream:
        stream.writelines(f'#include "{os.path.join(FOLDER, file)}"\n' for file in files)
    large = ("-D_LARGEFILE64_SOURCE",) if "large.c" in files else ()
    command = Command(UNIT + ".c", (*flags, *large), folder)
    return Unit(UNIT + ".i", command, preprocess(compiler, command), names)


def empty_definition(text, span, name, typedefs, is_plain):
    """An empty definition out of a declaration."""
    at = next(index for index in span if text.tokens[index] == name and text.at(index - 1) not in ("struct", "union"))
    if text.at(at + 1) == "(":
        parameters = ", ".join(_named_parameter(text, argument, number, typedefs)
                               for number, argument in enumerate(text.arguments(at + 1))
                               if text.source(argument) != "...") or "void"
        behind = range(text.closing(at + 1) + 1, span[-1])
        source = " ".join([*_plain_words(text, range(span[0], at + 1)), f"({parameters})",
                           *_plain_words(text, behind), "{ }"])
    else:
        source = " ".join(_plain_words(text, span))
    what = f"{name} is {'said to be plain' if is_plain else 'defined nowhere'}"
    return Definition(source, EXACT if is_plain else HOLE, what, text.origin(span[0]))


def _plain_words(text, span):
    """The tokens of a declaration without what only a declaration has."""
    words, index = [], span[0] if span else 0
    while span and index <= span[-1]:
        word = text.tokens[index]
        if word in ATTRIBUTES and word not in ("__typeof__", "typeof"):
            index = text.closing(index + 1) + 1
            continue
        if word not in ("extern", "__extension__", "_Noreturn", "inline", "__inline"):
            words.append(word)
        index += 1
    return words


def _named_parameter(text, span, number, typedefs):
    """A parameter's declaration with a name."""
    if text.source(span) in ("void", "..."):
        return text.source(span)
    at, is_named = _place_of_name(text, span)
    words = text.tokens[span[0]:span[-1] + 1]
    if is_named and text.tokens[at] not in typedefs:
        return " ".join(words)
    words.insert(at - span[0] + (is_named and text.tokens[at] in typedefs), f"p{number}")
    return " ".join(words)


def _place_of_name(text, span):
    """Where a parameter's name stands or would stand, and whether it stands there."""
    types, index = 0, span[0]
    while index <= span[-1]:
        token = text.tokens[index]
        if token == "(" and text.tokens[index + 1] == "*":
            inner = text.closing(index)
            is_named = is_word(text.tokens[inner - 1]) and text.tokens[inner - 1] not in TYPE_WORDS
            return (inner - 1, True) if is_named else (inner, False)
        if token in ("[", "(", "__attribute__"):
            return index, False
        if is_word(token) and token not in _QUALIFIERS:
            if types and token not in TYPE_WORDS:
                return index, True
            types += token not in ("struct", "union", "enum")
        index += 1
    return span[-1] + 1, False

