"""Fit the units of a program: all known rewrites at once, then by pta's refusals until the unit passes."""
from typing import NamedTuple

from .allocators import allocator_rewrites
from .converting import Converter
from .facts import Wishes, common_wishes, examine
from .records import union_edits
from .refusals import Case, candidates
from .rewriting import EXACT, HOLE, MERGED, Rewrite, inserted
from .syntax import builtin_rewrites, definition_rewrites, float_rewrites, syntax_rewrites
from .tokens import Edit
from .untold import untold_holes
from .wrappers import PREFIX

LIMIT = 400
ALLOCATING = {"malloc": "void *malloc(unsigned long);", "realloc": "void *realloc(void *, unsigned long);",
              "strdup": "char *strdup(const char *);"}


class Entry(NamedTuple):
    """A line of the log: the source's place of a rewrite, its class, what it is, and the unit."""
    place: str
    grade: str
    what: str
    unit: str

    def __str__(self):
        return f"{self.place}: {self.grade}: {self.what} (in {self.unit})"


class Fitted(NamedTuple):
    """A unit that was fitted: its text, the rewrites as (class, what, origin), and the refusal at which it stands."""
    text: object
    done: tuple
    refusal: object = None


class Definition(NamedTuple):
    """A definition that is added to a unit: its text, its class, what it is, and the origin of its declaration."""
    source: str
    grade: str
    what: str
    origin: int


class Fitter:
    """Fits the units of one program. What one unit needs of all is granted to all."""

    def __init__(self, pta, compiler, allocators=None):
        self._pta, self._compiler, self._allocators = pta, compiler, allocators or {}
        self._facts, self._done, self._added = {}, {}, {}
        self.wishes = Wishes()

    def fit(self, units):
        """Rewrite all units as their facts and common wishes ask."""
        new = [unit for unit in units if unit.name not in self._facts]
        self._facts.update((unit.name, unit.facts or examine(self._compiler, unit)) for unit in new)
        wishes = self.wishes.joined(common_wishes([self._facts[unit.name] for unit in units]))
        stale = units if wishes != self.wishes else new
        self.wishes = wishes
        for unit in stale:
            self._refit(unit)

    def _refit(self, unit):
        """Rewrite a unit from its first text on."""
        fitted = prepared(unit, self._facts[unit.name], self.wishes, self._allocators)
        unit.text, self._done[unit.name] = fitted.text, list(fitted.done)
        for definition in self._added.get(unit.name, ()):
            self._append(unit, definition)
        self._pta.write(unit.name, unit.text)

    def mend(self, unit, refusal=None):
        """Rewrite what pta refuses in a unit until it passes; the refusal at which it stands, or None."""
        refusal = refusal or self._pta.check(unit.name, unit.text)
        for _ in range(LIMIT):
            if refusal is None:
                return None
            taken = self._first_that_helps(unit, refusal)
            if taken is None:
                return refusal
            unit.text, refusal = taken
        return refusal

    def _first_that_helps(self, unit, refusal):
        """The text behind the first rewrite after which the refusal is gone, with the next refusal."""
        text = unit.text
        index = text.index_at(refusal.line, refusal.column)
        for rewrite in candidates(Case(text, index, self._facts[unit.name]), refusal.kind):
            new = text.edited(rewrite.edits)
            if new.tokens == text.tokens:
                continue
            following = self._pta.check(unit.name, new)
            if _is_progress(text, index, refusal, new, following, rewrite.edits):
                self._done[unit.name].append((rewrite.grade, rewrite.what, text.origin(rewrite.index)))
                return new, following
        return None

    def forget(self, name):
        """Forget a unit that another one of its name takes the place of."""
        self._facts.pop(name, None)

    def define(self, unit, definition):
        """Add a definition to a unit."""
        self._added.setdefault(unit.name, []).append(definition)
        self._append(unit, definition)
        self._pta.write(unit.name, unit.text)

    def _append(self, unit, definition):
        count = len(unit.text.tokens)
        unit.text = unit.text.edited([Edit(count, count, definition.source)])
        self._done[unit.name].append((definition.grade, definition.what, definition.origin))

    def typedefs(self, unit):
        """The names of a unit's typedefs."""
        return self._facts[unit.name].typedefs

    def wrapped(self, units):
        """For each wrapper of a function under another type, by its name in the report, the function's."""
        names = {}
        for unit in units:
            for _, what, origin in self._done.get(unit.name, ()):
                if what.endswith("by a wrapper"):
                    function = what.split()[0]
                    is_own = any("static" in unit.text.tokens[max(0, index - 6):index] for index, token
                                 in enumerate(unit.text.tokens) if token == function
                                 and unit.text.at(index + 1) == "(" and unit.text.origins[index] >= 0)
                    names[f"{unit.name}:{PREFIX}{origin}"] = f"{unit.name}:{function}" if is_own else function
        return names

    def note(self, unit, grade, what, origin):
        """Note what was done to a unit elsewhere."""
        self._done[unit.name].append((grade, what, origin))

    def log(self, units):
        """The log of all rewrites, in the order of the units and places."""
        entries = []
        for unit in units:
            for grade, what, origin in sorted(set(self._done.get(unit.name, ())), key=lambda done: done[::-1]):
                entries.append(Entry(str(unit.place_of(origin)), grade, what, unit.name))
        return entries


def prepared(unit, facts, wishes, allocators):
    """A unit with all known rewrites done."""
    done = []
    text = _step(unit.first, definition_rewrites(unit.first), done)
    if not allocators.keys().isdisjoint(text.tokens) and not unit.is_library:
        text = _step(text, allocator_rewrites(text, allocators), done)
        first = " ".join(f"{ALLOCATING[like]}" for like in set(allocators.values()) if like not in text.tokens)
        text = text.edited([inserted(0, first)]) if first else text
    text = _step(text, _plain_rewrites(text, facts, wishes), done)
    done += [(EXACT, f"{name} declared as the compiler does", 0) for name in facts.asked.undeclared]
    text = _again(text, lambda text: builtin_rewrites(text, set(text.tokens)), done)
    done += [(rewrite.grade, rewrite.what, text.origin(rewrite.index)) for rewrite in untold_holes(text)]
    first = "".join(f"int {name}(); " for name in facts.asked.undeclared)
    return Fitted(text.edited([inserted(0, first)]) if first else text, tuple(done))


def _plain_rewrites(text, facts, wishes):
    """The rewrites that may be done all at once."""
    declared = set(text.tokens) if "__builtin_" in " ".join(set(text.tokens)) else set()
    yield from syntax_rewrites(text, facts.typedefs)
    if wishes.floats:
        yield from float_rewrites(text)
    yield from builtin_rewrites(text, declared)
    yield from Converter(text, facts, wishes).rewrites()
    for index, edits in union_edits(text, wishes.merged, facts.layout):
        yield Rewrite(MERGED, "structure as one piece", index, tuple(edits))


def _again(text, rewrites, done):
    """The text with rewrites one of which may be inside another, until there are none."""
    while True:
        new = _step(text, rewrites(text), done)
        if new is text or new.tokens == text.tokens:
            return text
        text = new


def _step(text, rewrites, done):
    """The text with the rewrites, which are noted; the same text where there are none."""
    edits = []
    for rewrite in rewrites:
        edits += rewrite.edits
        done.append((rewrite.grade, rewrite.what, text.origin(rewrite.index)))
    return text.edited(edits) if edits else text


def _is_progress(before, index, refusal, after, following, edits):
    """Whether the refusal is gone, and none of an earlier stage has come in its place."""
    if following is None:
        return True
    if following.kind == "fault" or following.kind == "malformed" and refusal.kind != "malformed":
        return False
    if following.kind in ("undeclared", "redeclared") and refusal.kind not in _BEFORE_TYPES:
        return False
    here = after.origin(after.index_at(following.line, following.column))
    if refusal.kind in _CONVERSIONS and following.kind in _CONVERSIONS:
        return here not in {before.origin(index), *(before.origin(edit.start) for edit in edits)}
    return here != before.origin(index) or following.kind != refusal.kind


_CONVERSIONS = frozenset(("operand", "structure-cast", "character-cast", "integer-size-cast", "number-to-pointer"))
_BEFORE_TYPES = frozenset("malformed asm atomic generic statement-expression typeof builtin old-parameters wide "
                          "character range thread-local wide-integer complex label-address floating undeclared "
                          "redeclared".split())


def holes(log):
    """The entries of the log behind which a set may lack something."""
    return [entry for entry in log if entry.grade == HOLE]
