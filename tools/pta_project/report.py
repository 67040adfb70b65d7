"""Places of units in a report, a refusal or an answer become places of the source."""
import re

from .converting import MARK

_PLACE = re.compile(r"(?P<unit>[A-Za-z0-9_.]+\.i):(?P<line>\d+):(?P<column>\d+)")
_LOCAL = re.compile(r"(?P<before>(?:(?P<unit>[A-Za-z0-9_.]+\.i):)?[A-Za-z_]\w*/(?P<name>[A-Za-z_]\w*))"
                    r"@(?P<line>\d+):(?P<column>\d+)")
_STATIC = re.compile(r"(?P<unit>[A-Za-z0-9_.]+\.i):(?=[A-Za-z_<])")
_MADE = re.compile(r"^set (?:\S+?:)?pta_(?:mark_\d+|both_\d+_\d+):.*\n", re.M)
_CAST_MARK = re.compile(rf"^set (?P<unit>\S+?):{MARK}(?P<origin>\d+):(?P<members>.*)\n", re.M)


def without_wrappers(report, names):
    """The report with each wrapper's function in its place, of which the wrapper's name is told."""
    if not names:
        return report
    lines, seen = [], set()
    for line in report.split("\n"):
        words = line.split(" ")
        if words[0] == "set" and words[1].rstrip(":").rpartition("/")[0] in names \
                or words[0] == "edge" and words[1] in names:
            continue
        kept = 2 if words[0] in ("set", "call") else 1
        new = [names.get(word, word) for word in words]
        line = " ".join(new[:kept] + (list(dict.fromkeys(new[kept:])) if words[0] in ("set", "call") else new[kept:]))
        if words[0] != "edge" or line not in seen:
            seen.add(line)
            lines.append(line)
    return "\n".join(lines)


class Places:
    """The places of a program's units, and the functions for which wrappers stand."""

    def __init__(self, units, wrapped=None):
        self._units = {unit.name: unit for unit in units}
        self._known, self._wrapped = {}, wrapped or {}

    def report(self, text):
        """The report with places of the source."""
        return self.places(without_wrappers(_MADE.sub("", text), self._wrapped))

    def places(self, text):
        """A text with places of the source."""
        return _STATIC.sub(self._static, _PLACE.sub(self._place, _LOCAL.sub(self._local, text)))

    def refusal(self, line):
        """pta's refusal with its place in the source, and behind it the one in the unit."""
        found = _PLACE.match(line)
        if not found or found["unit"] not in self._units:
            return _STATIC.sub(self._static, line)
        return f"{self._place(found)}{line[found.end():]} (in {found[0]})"

    def _place(self, found):
        if found[0] not in self._known:
            unit = self._units.get(found["unit"])
            self._known[found[0]] = str(unit.place(int(found["line"]), int(found["column"]))) if unit else found[0]
        return self._known[found[0]]

    def _static(self, found):
        unit = self._units.get(found["unit"])
        return f"{unit.command.source}:" if unit else found[0]

    def _local(self, found):
        line, column = int(found["line"]), int(found["column"])
        unit = self._units.get(found["unit"]) or self._declaring(found["name"], line, column)
        if unit is None:
            return found[0]
        place = unit.place(line, column)
        return f"{found['before']}@{place.line}:{place.column}"

    def _declaring(self, name, line, column):
        """The unit that has the name at the line and column."""
        for unit in self._units.values():
            if (name, column) in [(unit.text.tokens[index], at) for index, at in unit.text.tokens_of_line(line)]:
                return unit
        return None


def characters_that_hold(report):
    """For each cast of characters to something that may hold pointers: unit, origin, and what isn't one piece.

    What is one piece, or a pointer, has a line of its own; an array of characters has none, and what is written to it
    through the other type is lost. Functions have none either, and aren't written.
    """
    found = list(_CAST_MARK.finditer(report))
    if not found:
        return
    lines = {line[4:].rsplit(":", 1)[0] if line.endswith(":") else line[4:].split(": ", 1)[0]
             for line in report.split("\n") if line.startswith("set ")}
    for mark in found:
        lost = [member for member in mark["members"].split()
                if member not in lines and not member.startswith(("str@", "<"))]
        yield mark["unit"], int(mark["origin"]), lost
