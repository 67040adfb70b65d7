"""Functions that become pointers to functions of another type: a wrapper of that type calls them.

A call through a pointer has no target of another type. So `(T) f` becomes `(1 ? (T) f : wrapper)`, where the wrapper has
the type T and calls f with its own arguments; in a static value it's the wrapper alone. The report has f in place
of the wrapper.
"""
import re
from typing import NamedTuple

from .tokens import Text

PREFIX = "pta_as_"


class Signature(NamedTuple):
    """The type of a function: its result and its parameters, as the compiler spells them."""
    result: str
    parameters: tuple


def signature(spelled):
    """The signature in a pointer's type; None where the result is no plain type."""
    result, found, rest = spelled.partition("(*)(")
    if not found or not rest.endswith(")") or "(" in result or "<anonymous>" in spelled:
        return None
    text = Text.read("(" + rest)
    if text.closing(0) != len(text.tokens) - 1:
        return None
    parameters = tuple(text.source(argument) for argument in text.arguments(0))
    return Signature(" ".join(result.split()), () if parameters == ("void",) else parameters)


def is_generic(spelled):
    """Whether a function's type is that in which functions of all types are kept, or tells no parameters."""
    found = signature(spelled)
    return found is not None and not found.parameters


def is_untold(spelled):
    """Whether a function's type tells no parameters: what it points to may have any."""
    return re.sub(r"\s+", "", spelled).endswith("(*)()")


def agrees(one, other):
    """Whether two types of functions are one, but for blanks."""
    return re.sub(r"\s+", "", one) == re.sub(r"\s+", "", other)


def wrapper(name, function, source, target):
    """A declaration and a definition of a wrapper of the target's type; None where no wrapper can be written."""
    made, called = signature(target), signature(source)
    if made is None or called is None or "..." in made.parameters:
        return None
    head = f"static {made.result} {name}({', '.join(map(_named, made.parameters, range(99))) or 'void'})"
    wanted = [parameter for parameter in called.parameters if parameter != "..."]
    arguments = ", ".join(_argument(parameter, made.parameters, number) for number, parameter in enumerate(wanted))
    call = f"{function}({arguments})"
    if made.result == "void":
        body = f"{call};"
    elif made.result.endswith("*"):
        body = f"return (void *) {call};" if called.result.endswith("*") else f"{call}; return 0;"
    elif "struct" in made.result or "union" in made.result or called.result.endswith("*"):
        return None
    else:
        body = f"{call}; return 0;" if called.result == "void" else f"return {call};"
    return f"{head};", f"{head} {{ {body} }}"


def _named(parameter, number):
    """A parameter's declaration."""
    if "( *" in parameter or "(*" in parameter:
        return re.sub(r"\( ?\*", f"(*a{number}", parameter, count=1)
    return f"{parameter} a{number}"


def _argument(wanted, given, number):
    """What the wrapper hands on for a wanted parameter."""
    if number >= len(given):
        return "0"
    pointers = [one.endswith("*") for one in (wanted, given[number])]
    if all(pointers):
        return f"(void *) a{number}"
    return "0" if any(pointers) else f"a{number}"
