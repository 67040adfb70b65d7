"""What the casts and implicit conversions of a unit convert, asked of the compiler.

The operand of each cast becomes the argument of a function that takes a pointer to a type of its own, and the compiler
tells the argument's type, since it doesn't fit. One run tells all casts, and by its own warnings the conversions
without a cast. Casts to `void *` are taken out for it, so what they hide is told too.
"""
import json
import os
import re
import subprocess
from typing import NamedTuple

from .declarations import TYPE_WORDS
from .rewriting import expression, inserted, is_cast, is_type, operand
from .tokens import Edit, is_number

_ARGUMENT = re.compile(r"expected '([^']*)'(?: \{aka '([^']*)'\})? but argument is of type '([^']*)'"
                       r"(?: \{aka '([^']*)'\})?")
_PROBE = re.compile(r"passing argument 1 of 'pta_(from|to)_(\d+)'")
_ASSIGNED = re.compile(r"to '([^']*)'(?: \{aka '([^']*)'\})? from incompatible pointer type '([^']*)'"
                       r"(?: \{aka '([^']*)'\})?")
_BEGUN = re.compile(r"initialization of '([^']*)'(?: \{aka '([^']*)'\})? from incompatible pointer type '([^']*)'"
                    r"(?: \{aka '([^']*)'\})?")
_RETURNED = re.compile(r"returning '([^']*)'(?: \{aka '([^']*)'\})? from a function with incompatible return type "
                       r"'([^']*)'(?: \{aka '([^']*)'\})?")
_UNDECLARED = re.compile(r"implicit declaration of function '(\w+)'")
_NUMBER = re.compile(r"makes pointer from integer")
_FROM_VOID = re.compile(r"implicit conversion from 'void \*' to '([^']*)'(?: \{aka '([^']*)'\})?")
_COMPARED = re.compile(r"comparison of distinct pointer types")
_VOID = frozenset(("void", "const", "volatile", "*", "(", ")"))


class Kind(NamedTuple):
    """What a pointer points to: its sort (record, number, pointer, void, array, function, other) and its name."""
    sort: str
    name: str


NUMBER = Kind("other", "number")


class Conversion(NamedTuple):
    """A conversion between pointers: its origin, what is converted (the last origin of it), and the kinds.

    `is_cast` tells a cast, whose origin is that of its parenthesis; else the origin is that of the converted value.
    """
    origin: int
    last: int
    is_cast: bool
    source: Kind
    target: Kind


class Asked(NamedTuple):
    """What the compiler told of a unit.

    `conversions` between pointers; `compared`: origins of comparisons of pointers of two types; `undeclared`:
    functions without a declaration; `characters`: origins of what turns from `void *` to a pointer to numbers;
    `faults`: the number of errors.
    """
    conversions: tuple
    compared: tuple
    undeclared: tuple
    characters: frozenset
    faults: int


def ask(compiler, text, typedefs, pointers):
    """Ask the compiler of all conversions of a unit's first text."""
    casts = list(pointer_casts(text, typedefs, pointers))
    edits, numbers = [], {}
    for number, (index, span) in enumerate(casts):
        target = " ".join(text.tokens[index:text.closing(index) + 1])
        edits += [inserted(span[0], f"(pta_to_{number}({target} 0), pta_from_{number}("),
                  inserted(span[-1] + 1, "))")]
        numbers[number] = (index, span[-1])
    edits += [Edit(index, index + size) for index, size in void_casts(text)]
    names = "".join(f"void*pta_{way}_{number}(struct pta_probe*);" for number in range(len(casts)) for way in ("from", "to"))
    probe = text.edited(edits)
    reader = _Reader(text, probe, numbers)
    return reader.read(_compiled(compiler, "struct pta_probe;" + names, probe))


def call_of(text, index):
    """The ( of the call of the name at the index; None where it's no call but a declaration or another mention."""
    start = index + 1 if text.at(index + 1) == "(" else index + 2
    if text.at(start) != "(":
        return None
    arguments = text.arguments(start)
    return start if not arguments or text.tokens[arguments[-1][0]] != "..." else None


def pointer_casts(text, typedefs, pointers):
    """Each cast to a pointer but of a plain number: the index of its ( and its operand."""
    tokens = text.tokens
    for index, token in enumerate(tokens):
        if token != "(" or not is_type(text, index + 1, typedefs) or not is_cast(text, index, typedefs):
            continue
        end = text.closing(index)
        is_pointer = tokens[end - 1] == "*" or end == index + 2 and tokens[index + 1] in pointers \
            or "(" in tokens[index + 1:end] and "*" in tokens[index + 1:end]
        if is_pointer and text.at(end + 1) not in ("{", ")", ",", ";", "]") and not _is_void(tokens[index:end + 1]):
            span = operand(text, end + 1, typedefs)
            if len(span) != 1 or not is_number(tokens[span[0]]):
                yield index, span


def void_casts(text):
    """Each cast to `void *` but of a number: the index of its ( and its length."""
    for index, token in enumerate(text.tokens):
        if token == "void" and text.at(index - 1) in ("(", "const", "volatile"):
            start = index - 1 if text.tokens[index - 1] == "(" else index - 2
            end = text.closing(start) if text.at(start) == "(" else 0
            if _is_void(text.tokens[start:end + 1]) and text.at(start - 1) not in ("sizeof",) \
                    and not is_number(text.at(end + 1)) and text.at(end + 1) not in ("-", ")", ",", "~", ";"):
                yield start, end + 1 - start


def _is_void(tokens):
    return "void" in tokens and tokens.count("*") == 1 and set(tokens) <= _VOID and len(tokens) <= 6


def _compiled(compiler, first, probe):
    """What the compiler says of a text: a list of diagnostics."""
    source = re.sub(r"^[ \t]*#.*$", "", str(probe), flags=re.M)
    command = [compiler, "-std=gnu11", "-fsyntax-only", "-fdiagnostics-format=json", "-Wc++-compat", "-fmax-errors=0",
               "-x", "cpp-output", "-"]
    done = subprocess.run(command, input=(first + source).encode("latin-1"), capture_output=True, check=False,
                          env={**os.environ, "LC_ALL": "C"}, close_fds=False)
    said = []
    for line in done.stderr.decode("latin-1").split("\n"):
        if line.startswith("["):
            try:
                said += json.loads(line)
            except ValueError:
                pass
    return [(one, len(first)) for one in said]


class _Reader:
    """Reads the compiler's diagnostics of a probe."""

    def __init__(self, text, probe, casts):
        self._text, self._probe, self._casts = text, probe, casts
        self._kinds, self._conversions, self._compared = {}, [], []
        self._undeclared, self._characters, self._faults = set(), set(), 0

    def read(self, said):
        """What all diagnostics tell."""
        for one, shift in said:
            self._note(one, one["message"], shift)
        for number, (index, last) in self._casts.items():
            if ("to", number) in self._kinds:
                self._note_cast(number, self._text.origin(index), self._text.origin(last))
        return Asked(tuple(self._conversions), tuple(self._compared), tuple(sorted(self._undeclared)),
                     frozenset(self._characters), self._faults)

    def _note(self, one, message, shift):
        argument = _ARGUMENT.search(" ".join(child["message"] for child in one.get("children", ())))
        known = _PROBE.search(message)
        if known:
            if argument:
                self._kinds[known[1], int(known[2])] = kind(argument[3], argument[4])
            return
        self._faults += one["kind"] == "error" and "not constant" not in message
        if _UNDECLARED.search(message):
            self._undeclared.add(_UNDECLARED.search(message)[1])
        elif _COMPARED.search(message):
            self._compared.append(_place(one, self._probe, shift, "caret")[0])
        elif _FROM_VOID.search(message):
            found = _FROM_VOID.search(message)
            if kind(found[1], found[2]).sort == "number":
                self._characters.add(_place(one, self._probe, shift)[0])
        elif one.get("option") in ("-Wincompatible-pointer-types", "-Wint-conversion"):
            self._conversions += _implicit(one, message, argument, self._text, self._probe, shift)

    def _note_cast(self, number, origin, last):
        target = self._kinds["to", number]
        if ("from", number) in self._kinds:
            self._conversions.append(Conversion(origin, last, True, self._kinds["from", number], target))
        elif target.sort == "number":
            self._characters.add(self._text.origin(self._text.closing(self._casts[number][0]) + 1))


def _implicit(one, message, argument, text, probe, shift):
    """A conversion without a cast that a warning tells."""
    origin, last = _place(one, probe, shift, "caret" if message.startswith("assignment") else "start")
    if message.startswith("assignment"):
        index = text.index_of(origin)
        if index is None or text.at(index) not in ("=", "+=", "-="):
            return
        span = expression(text, index + 1)
        origin, last = text.origin(span[0]), text.origin(span[-1])
    found = _ASSIGNED.search(message) or _BEGUN.search(message)
    if argument and not _NUMBER.search(message):
        source, target = kind(argument[3], argument[4]), kind(argument[1], argument[2])
    elif found:
        source, target = kind(found[3], found[4]), kind(found[1], found[2])
    elif _RETURNED.search(message):
        found = _RETURNED.search(message)
        source, target = kind(found[1], found[2]), kind(found[3], found[4])
    elif _NUMBER.search(message):
        source, target = NUMBER, Kind("void", "void")
    else:
        return
    yield Conversion(origin, last, False, source, target)


def _place(one, probe, shift, name="start"):
    """The origins of the first and the last token of what a diagnostic is about."""
    place = one["locations"][0]
    first, last = place.get(name, place["caret"]), place.get("finish", place["caret"])
    return tuple(probe.origin(probe.index_at(at["line"], at["byte-column"] - (shift if at["line"] == 1 else 0)))
                 for at in (first, last))


def kind(spelled, aka=None):
    """What a pointer's type, as the compiler spells it, points to."""
    name = spelled if aka is None or "<anonymous>" in aka else aka
    name = re.sub(r"\b(const|volatile|restrict|__restrict)\b", "", name)
    name = re.sub(r"\s+", " ", name).strip()
    if re.search(r"\(\* ?\)\[", name):
        return Kind("array", re.sub(r" ?\(\* ?\)\[.*", "", name))
    if "(" in name:
        return Kind("function", name)
    if not name.endswith("*"):
        return Kind("other", name)
    base = name[:-1].strip()
    if base.endswith("*"):
        return Kind("pointer", base)
    record = re.match(r"(?:struct|union) (\w+)$", base)
    if record:
        return Kind("record", record[1])
    if base == "void":
        return Kind("void", base)
    plain = base.startswith("enum ") or all(word in TYPE_WORDS for word in base.split())
    return Kind("number" if plain else "record", base)
