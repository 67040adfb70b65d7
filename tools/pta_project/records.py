"""The structures of a unit: their bodies, first members, whether they hold pointers; and how they become unions."""
from .rewriting import inserted, one
from .tokens import is_word


class Record:
    """A structure or union with a body: its names (a tag, or those of a typedef) and the body's range."""
    __slots__ = ("index", "names", "opening")

    def __init__(self, index, names, opening):
        self.index, self.names, self.opening = index, names, opening


def records(text, keywords=("struct", "union")):
    """Each mention of a structure or union, with a body or without (then `opening` is None)."""
    tokens = text.tokens
    for index, token in enumerate(tokens):
        if token in keywords:
            at = _behind_attributes(text, index + 1)
            tag = text.at(at) if is_word(text.at(at)) else None
            opening = _behind_attributes(text, at + 1) if tag else at
            opening = opening if text.at(opening) == "{" else None
            if tag:
                yield Record(index, (tag,), opening)
            elif opening is not None:
                yield Record(index, _names_behind(text, opening), opening)


def _behind_attributes(text, index):
    while text.at(index) == "__attribute__":
        index = text.closing(index + 1) + 1
    return index


def _names_behind(text, body):
    """The names that stand behind the body of a structure without a tag."""
    start = text.closing(body) + 1
    return tuple(text.tokens[index] for index in range(start, text.find(start, ";", "}"))
                 if is_word(text.tokens[index]))


class Layout:
    """What the records of a unit are made of, by name: the first member's record, and whether pointers are in it."""

    def __init__(self, text, typedefs):
        self.first, self._words = {}, {}
        self._tags = {}
        for name, span in typedefs.items():
            words = text.tokens[max(0, span.start - 1):span.stop]
            if "struct" in words or "union" in words:
                at = words.index("struct" if "struct" in words else "union") + 1
                self._tags[name] = words[at] if is_word(words[at]) and words[at] != "__attribute__" else name
            elif "*" not in words:
                self._tags[name] = next((word for word in words if word in typedefs and word != name), name)
        for record in records(text):
            if record.opening is not None:
                body = text.tokens[record.opening + 1:text.closing(record.opening)]
                for name in record.names:
                    self._words[name] = frozenset(body)
                    self.first[name] = self._first_record(body)

    def _first_record(self, body):
        """The name of the record that is the first member's type."""
        if body[:1] in (["struct"], ["union"]) and len(body) > 2 and is_word(body[1]):
            return body[1] if is_word(body[2]) else None
        if len(body) > 1 and body[0] in self._tags and is_word(body[1]):
            return self.tag(body[0])
        return None

    def tag(self, name):
        """The record for which a typedef's name stands."""
        seen = set()
        while name in self._tags and name not in seen and self._tags[name] != name:
            seen.add(name)
            name = self._tags[name]
        return name

    def leads_to(self, name, other):
        """Whether the other record is the first member of the named one, or the first member's first, and so on."""
        seen = set()
        while name is not None and name not in seen:
            seen.add(name)
            name = self.first.get(name)
            if name == other:
                return True
        return False

    def may_hold_pointers(self, name, typedefs=frozenset()):
        """Whether a pointer may stand in the record."""
        seen, waiting = set(), [name]
        while waiting:
            one_name = self.tag(waiting.pop())
            if one_name in seen:
                continue
            seen.add(one_name)
            words = self._words.get(one_name)
            if words is None or "*" in words or words & typedefs:
                return True
            waiting += [word for word in words if self.tag(word) in self._words]
        return False


def union_edits(text, names, layout):
    """The edits that make the named structures unions of one unnamed structure each, as (index, edits)."""
    for record in records(text, ("struct",)) if names else ():
        if not names.isdisjoint(record.names):
            edits = [one(record.index, "union")]
            if record.opening is not None:
                edits += [inserted(record.opening + 1, "struct {"), inserted(text.closing(record.opening), "} ;")]
            yield record.index, edits
    for index, opening, name in _values(text, names, layout) if names else ():
        edits = list(_brace_edits(text, opening, name, names, layout))
        if edits:
            yield index, edits


def _values(text, names, layout):
    """The brace lists that give objects of structures their values: index of the name, that of the {, the structure."""
    tokens = text.tokens
    for equals in [index for index, token in enumerate(tokens) if token == "=" and text.at(index + 1) == "{"]:
        at, dimensions = equals - 1, 0
        while text.at(at) == "]":
            at, dimensions = text.opening(at) - 1, dimensions + 1
        start = text.find_back(at, ";", "{", "}") + 1
        if text.at(start - 1) == "}" and text.at(text.opening(start - 1) - 1) in ("struct", "union") or dimensions > 1:
            continue
        words = tokens[start:at]
        if "*" in words or not words:
            continue
        name = next((layout.tag(word) for word in words if layout.tag(word) in layout.first), None)
        if name is None:
            continue
        lists = [equals + 1] if not dimensions else \
            [element[0] for element in text.arguments(equals + 1) if element and tokens[element[0]] == "{"]
        yield from ((at, opening, name) for opening in lists)


def _brace_edits(text, opening, name, names, layout):
    """The edits that put a list which begins with a list into braces of the unnamed structure's own."""
    if name is not None and text.at(opening + 1) == "{":
        if name in names:
            yield inserted(opening + 1, "{")
        yield from _brace_edits(text, opening + 1, layout.first.get(name), names, layout)
        if name in names:
            yield inserted(text.closing(opening), "}")
