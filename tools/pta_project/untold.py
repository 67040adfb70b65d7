"""Pointers to functions whose parameters aren't told, which the library calls."""
from .catalogue import catalogue
from .rewriting import Rewrite


def untold_holes(text):
    """Places where a pointer to a function whose parameters aren't told goes to a function of the library.

    That calls it with parameters of its own types, which are none of the function's, so that there's no such target.
    """
    tokens = text.tokens
    names = {tokens[index + 1] for index, token in enumerate(tokens) if token == "*" and text.at(index - 1) == "("
             and tokens[index + 2:index + 5] == [")", "(", ")"]}
    for index, token in enumerate(tokens if names else ()):
        if token in names and text.at(index + 1) in (",", ")") and text.at(index - 1) in (",", "(", "&"):
            callee = text.at(text.find_back(index, "(") - 1)
            if callee in ("qsort", "bsearch", "atexit") or callee in catalogue():
                yield Rewrite("hole", f"{token} tells no parameters, and {callee} calls it", index, ())
