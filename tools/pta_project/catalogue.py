"""The names that the library's files define."""
import os
import re
from functools import lru_cache

FOLDER = os.path.join(os.path.dirname(os.path.dirname(os.path.abspath(__file__))), "library")


@lru_cache(maxsize=None)
def catalogue():
    """For each name of the library the file that defines it."""
    names = {}
    for file in sorted(os.listdir(FOLDER)):
        if file.endswith(".c"):
            with open(os.path.join(FOLDER, file), encoding="latin-1") as stream:
                names.update((name, file) for name in _defined_in(stream.read()))
    return names


def _defined_in(source):
    """The names with external linkage that a file of the library defines, by its lines: a definition begins one."""
    for line in source.split("\n"):
        if line[:1].isalpha() and not line.startswith(("static", "typedef", "extern")):
            head = re.split(r"[{=;]", line)[0]
            if "(" in head:
                found = re.search(r"\(\*(\w+)\(", head) or re.search(r"(\w+)\s*\(", head)
                if not line.endswith(";"):
                    yield found[1]
            else:
                yield from (re.search(r"(\w+)(?:\[\w*\])?\s*$", part)[1] for part in head.split(","))
