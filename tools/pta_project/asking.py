"""Scripts of questions whose names and places are those of the source."""
import re

_PLACE = re.compile(r"^(\S+):(\d+):(\d+)$")


def translated(script, report, places, units):
    """The script with pta's names and places in the place of the source's, which the report's names tell."""
    names = {}
    for line in report.split("\n"):
        for word in line.split(" ")[1:]:
            word = word.removesuffix(":")
            names.setdefault(places.places(word), word)
    lines = []
    for line in script.split("\n"):
        words = line.split(" ")
        if words[0] == "reaches" and len(words) == 3:
            words[1] = _call(words[1], places, units) or words[1]
        lines.append(" ".join([words[0], *(names.get(word, word) for word in words[1:])]))
    return "\n".join(lines)


def _call(word, places, units):
    """The place in a unit of the call whose place in the source is told."""
    found = _PLACE.match(word)
    for unit in units if found else ():
        for index, token in enumerate(unit.text.tokens):
            if token == "(" and unit.text.origins[index] >= 0:
                line = unit.text.line_of(index)
                column = next(at for other, at in unit.text.tokens_of_line(line) if other == index)
                if str(unit.place(line, column)) == word:
                    return f"{unit.name}:{line}:{column}"
    return None
