"""What one unit tells before any rewrite, and what the units of a program wish for together."""
from typing import NamedTuple

from .conversions import ask
from .declarations import externals, pointer_typedefs, typedef_names
from .records import Layout
from .syntax import has_floats, with_prototypes

KNOWN = frozenset("""
malloc calloc strdup realloc memcpy memmove memset strcpy strcat strncpy fgets strchr strrchr strstr memchr strtol
qsort bsearch atexit getenv strerror fopen __errno_location __ctype_b_loc free strlen strcmp strncmp memcmp exit
abort atoi __assert_fail printf fprintf sprintf snprintf puts putchar fputs fputc fclose fgetc getchar fread fwrite
fflush isalpha isdigit isalnum isspace isupper islower toupper tolower stdin stdout stderr
""".split())


class Facts(NamedTuple):
    """What a unit tells: its typedefs, those for pointers, its conversions, its records; and its wishes."""
    typedefs: frozenset
    pointers: frozenset
    asked: object
    layout: object
    floats: bool
    merged: frozenset
    blobs: bool


class Wishes(NamedTuple):
    """What all units of a program have to make alike, for their types to fit together."""
    floats: bool = False
    merged: frozenset = frozenset()
    blobs: bool = False

    def joined(self, other):
        """What both wish for."""
        return Wishes(self.floats or other.floats, self.merged | other.merged, self.blobs or other.blobs)


def examine(compiler, unit):
    """The facts of a unit."""
    text = unit.first
    spans = externals(text)
    named = typedef_names(text, spans)
    typedefs = frozenset(named)
    pointers = pointer_typedefs(text, named)
    layout = Layout(text, named)
    asked = ask(compiler, with_prototypes(text), typedefs, pointers)
    wanted = [wish for conversion in asked.conversions for wish in merges(conversion, layout, pointers)]
    blobs = any(needs_blobs(conversion, layout, pointers) for conversion in asked.conversions)
    return Facts(typedefs, pointers, asked, layout, has_floats(text), frozenset(wanted), blobs)


def common_wishes(facts):
    """What units wish for by their facts."""
    return Wishes(any(one.floats for one in facts), frozenset().union(*(one.merged for one in facts)),
                  any(one.blobs for one in facts))


def record_of(kind):
    """The record to which a pointer of the kind leads, over other pointers too; None where it's another thing."""
    if kind.sort == "record":
        return kind.name
    if kind.sort in ("pointer", "array"):
        base = kind.name.rstrip("* ").split()
        if base[:1] in (["struct"], ["union"]) and len(base) == 2:
            return base[1]
    return None


def merges(conversion, layout, pointers):
    """The records that a conversion shows under two types, so that they are to be followed as one piece."""
    source, target = conversion.source, conversion.target
    sorts = {source.sort, target.sort}
    if "function" in sorts or "other" in sorts or "void" in sorts:
        return []
    names = {record_of(source), record_of(target)} - {None}
    if sorts == {"record"}:
        if source.name == target.name or conversion.is_cast and layout.leads_to(source.name, target.name):
            return []
    elif sorts == {"pointer"}:
        names = names if len(names) == 2 else set()
    elif "record" not in sorts:
        return []
    return [name for name in names if layout.may_hold_pointers(name, pointers)]


def needs_blobs(conversion, layout, pointers):
    """Whether characters become something that may hold pointers."""
    source, target = conversion.source, conversion.target
    return source.sort == "number" and (target.sort == "pointer" or target.sort == "record"
                                        and layout.may_hold_pointers(target.name, pointers))
