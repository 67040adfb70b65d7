"""What a rewrite is, and the questions about an expression that several rewrites ask."""
from typing import NamedTuple

from .declarations import TYPE_WORDS
from .tokens import OPENING, Edit, is_word

EXACT, MERGED, HOLE = "exact", "merged", "hole"
GRADES = (EXACT, MERGED, HOLE)
PREFIXES = frozenset(("*", "&", "-", "+", "~", "!", "++", "--", "sizeof", "__extension__"))
ENDS = (")", "]", "}", ";", ",")
NOISY = frozenset(("(", "=", "++", "--", "+=", "-=", "*=", "/=", "|=", "&=", "^=", "<<=", ">>=", "%="))


class Rewrite(NamedTuple):
    """Edits of a unit, their class, what they do, the index of the token for their place."""
    grade: str
    what: str
    index: int
    edits: tuple


def exact(what, index, *edits):
    """A rewrite that changes no pointer."""
    return Rewrite(EXACT, what, index, edits)


def merged(what, index, *edits):
    """A rewrite that lets several objects or members count as one: no target is lost, some are gained."""
    return Rewrite(MERGED, what, index, edits)


def hole(what, index, *edits):
    """A rewrite behind which a set may lack something."""
    return Rewrite(HOLE, what, index, edits)


def replaced(span, *parts):
    """The edit that puts parts in place of a range of tokens."""
    return Edit(span[0], span[-1] + 1, *parts)


def one(index, *parts):
    """The edit that puts parts in place of one token."""
    return Edit(index, index + 1, *parts)


def inserted(index, *parts):
    """The edit that puts parts before the token at the index."""
    return Edit(index, index, *parts)


def is_quiet(text, span):
    """Whether the expression does nothing but give its value."""
    return not span or NOISY.isdisjoint(text.tokens[span[0]:span[-1] + 1])


def is_type(text, index, typedefs):
    """Whether the token at the index begins a type's name."""
    return text.tokens[index] in TYPE_WORDS or text.tokens[index] in typedefs


def is_cast(text, index, typedefs):
    """Whether the token at the index opens a cast or a compound literal."""
    if text.tokens[index] != "(" or not is_type(text, index + 1, typedefs):
        return False
    before = text.at(index - 1)
    return not (is_word(before) and before not in ("return", "case", "else", "do")) and before not in (")", "]") \
        or before == ")" and is_cast(text, text.opening(index - 1), typedefs)


def operand(text, index, typedefs):
    """The operand of a cast, which begins at the index: prefixes, casts, a primary expression and its suffixes."""
    start, tokens, count = index, text.tokens, len(text.tokens)
    while index < count:
        if tokens[index] in PREFIXES:
            index += 1
        elif tokens[index] == "(" and is_type(text, index + 1, typedefs):
            index = text.closing(index) + 1
        else:
            break
    index = text.closing(index) + 1 if text.at(index) in OPENING else index + 1
    while index < count:
        token = tokens[index]
        if token in ("(", "["):
            index = text.closing(index) + 1
        elif token in (".", "->"):
            index += 2
        elif token in ("++", "--") or token[-1] == '"' and tokens[index - 1][-1] == '"':
            index += 1
        else:
            break
    return range(start, index)


def expression(text, index):
    """The expression without a comma that begins at the index."""
    return range(index, text.find(index, *ENDS))


def converted(text, index):
    """The values that the token at the index converts without a cast: a call's arguments, an assignment's value, .."""
    word = text.tokens[index]
    if word == "(":
        values = text.arguments(index)
    elif word == "?":
        colon = text.find(index, ":")
        values = [range(index + 1, colon), expression(text, colon + 1)]
    elif word in ("=", "return", "==", "!=", "<", ">", "<=", ">=", ":"):
        values = [expression(text, index + 1)]
    else:
        values = [expression(text, index)]
    return [value for value in values if value]
