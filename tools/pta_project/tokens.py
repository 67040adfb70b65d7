"""C tokens as lists, and edits that keep every line where it is."""
import re
from bisect import bisect_right
from functools import lru_cache
from itertools import accumulate

PUNCTUATORS = ("...", "<<=", ">>=", "->", "++", "--", "<<", ">>", "<=", ">=", "==", "!=", "&&", "||",
               "-=", "+=", "*=", "/=", "%=", "&=", "|=", "^=")
OPENING = {"(": ")", "[": "]", "{": "}"}
CLOSING = frozenset(OPENING.values())
BRACKETS = CLOSING | frozenset(OPENING)
_WORD_STARTS = frozenset("ABCDEFGHIJKLMNOPQRSTUVWXYZabcdefghijklmnopqrstuvwxyz_$")

# A gap (blanks, and lines that begin with #), and the token behind it. The last token of a text is empty.
_PIECE = re.compile(
    r"(\s*(?:^[ \t]*\#[^\n]*\s*)*)"
    r"((?:u8|[LuU])?\"(?:\\.|[^\"\\\n])*\"|[LuU]?'(?:\\.|[^'\\\n])*'"
    r"|[A-Za-z_$][A-Za-z0-9_$]*"
    r"|\.?[0-9](?:[eEpP][+-]|[A-Za-z0-9_.])*"
    r"|" + "|".join(re.escape(mark) for mark in PUNCTUATORS) + r"|.|\Z)", re.S | re.M)


def is_word(token):
    """Whether a token is an identifier or a keyword."""
    return token[:1] in _WORD_STARTS and token[-1] not in "\"'"


def is_number(token):
    """Whether a token is a number."""
    return token[:1].isdigit() or token[:1] == "." and token[1:2].isdigit()


class Edit:
    """The tokens from start to end (exclusive) give way to parts: texts, and ranges of tokens that are copied."""
    __slots__ = ("start", "end", "parts")

    def __init__(self, start, end, *parts):
        self.start, self.end, self.parts = start, end, parts


class Text:
    """The tokens of a unit, the gaps before them, and for each token where it came from.

    A text doesn't change: `edited` gives a new one. The origin of a token is its index in the first text;
    of one that an edit made it is -1 - the index at which it was made. `gaps` has one more, for the end.
    """
    __slots__ = ("tokens", "gaps", "origins", "_partners", "_lines", "_indices")

    def __init__(self, tokens, gaps, origins):
        self.tokens, self.gaps, self.origins = tokens, gaps, origins
        self._partners = self._lines = self._indices = None

    def __reduce__(self):
        return Text, (self.tokens, self.gaps, self.origins)

    @classmethod
    def read(cls, source):
        """The tokens of a source."""
        gaps, tokens = zip(*_PIECE.findall(source))
        last = tokens.index("", max(0, len(tokens) - 2))
        return cls(list(tokens[:last]), list(gaps[:last + 1]), list(range(last)))

    def __str__(self):
        pieces = [""] * (2 * len(self.tokens) + 1)
        pieces[::2], pieces[1::2] = self.gaps, self.tokens
        return "".join(pieces)

    @property
    def partners(self):
        """For each bracket's index that of the one that belongs to it."""
        if self._partners is None:
            self._partners, opened = {}, []
            for index in [index for index, token in enumerate(self.tokens) if token in BRACKETS]:
                if self.tokens[index] in OPENING:
                    opened.append(index)
                elif opened:
                    partner = opened.pop()
                    self._partners[partner], self._partners[index] = index, partner
        return self._partners

    def closing(self, index):
        """The index of the bracket that closes the one at the index; without one, the last index."""
        return self.partners.get(index, len(self.tokens) - 1)

    def opening(self, index):
        """The index of the bracket that the one at the index closes; without one, the first index."""
        return self.partners.get(index, 0)

    def at(self, index):
        """The token at the index; empty outside of the text."""
        return self.tokens[index] if 0 <= index < len(self.tokens) else ""

    def find(self, index, *wanted):
        """The first index from here on, outside of brackets that open here, where one of the tokens stands."""
        tokens, partners, count = self.tokens, self.partners, len(self.tokens)
        while index < count:
            token = tokens[index]
            if token in wanted:
                return index
            index = partners.get(index, count - 1) + 1 if token in OPENING else index + 1
        return index

    def find_back(self, index, *wanted):
        """The last index before this one, outside of brackets that close before it, where a token stands; or -1."""
        index -= 1
        while index >= 0 and self.tokens[index] not in wanted:
            index = self.opening(index) - 1 if self.tokens[index] in CLOSING else index - 1
        return index

    def arguments(self, index):
        """The arguments of the call whose ( is at the index, each as a range of tokens; without any, none."""
        end, found, start = self.closing(index), [], index + 1
        while start < end:
            comma = min(self.find(start, ","), end)
            found.append(range(start, comma))
            start = comma + 1
        return found

    def source(self, span):
        """The text of a range of tokens, with single blanks."""
        return " ".join(self.tokens[span[0]:span[-1] + 1]) if span else ""

    def edited(self, edits):
        """A new text with the edits, of which the earlier counts where two overlap; the lines stay."""
        new, done, gap = Text([], [], []), 0, self.gaps[0]
        for edit in sorted(edits, key=lambda edit: (edit.start, edit.end)):
            if edit.start < done:
                continue
            gap = self._copied(range(done, edit.start), gap, new)
            made = len(new.tokens)
            for part in edit.parts:
                self._add(part, edit.start, new)
            if len(new.tokens) > made:
                new.gaps[made], gap = gap or " " * (made > 0), " "
            if edit.end > edit.start:
                gap += _lines_of(self.gaps[edit.start + 1:edit.end]) + self.gaps[edit.end]
                gap = gap or " "
            done = edit.end
        new.gaps.append(self._copied(range(done, len(self.tokens)), gap, new))
        return new

    def _copied(self, span, gap, new):
        """Copy a range to a new text, with the gap before it; the gap behind it."""
        if not span:
            return gap
        new.tokens += self.tokens[span.start:span.stop]
        new.gaps.append(gap)
        new.gaps += self.gaps[span.start + 1:span.stop]
        new.origins += self.origins[span.start:span.stop]
        return self.gaps[span.stop]

    def _add(self, part, made_at, new):
        """Add a part of an edit to a new text: a text that is cut into tokens, or a copied range."""
        if isinstance(part, str):
            tokens = _cut(part)
            new.origins += [-1 - self.origin(made_at)] * len(tokens)
        else:
            tokens = self.tokens[part.start:part.stop]
            new.origins += self.origins[part.start:part.stop]
        new.tokens += tokens
        new.gaps += [" "] * len(tokens)

    def origin(self, index):
        """The index in the first text of the token at an index, or of the one at which it was made."""
        return abs_origin(self.origins[index]) if index < len(self.origins) else 0

    def index_of(self, origin):
        """The index of the token that came from an index of the first text; None where it is gone."""
        if self._indices is None:
            self._indices = {origin: index for index, origin in enumerate(self.origins) if origin >= 0}
        return self._indices.get(origin)

    def _line_starts(self):
        """For each token the number of the line on which it stands."""
        if self._lines is None:
            self._lines = list(accumulate([0 if gap in ("", " ") else gap.count("\n") for gap in self.gaps]))
        return self._lines

    def line_of(self, index):
        """The line of a token, from 1."""
        return self._line_starts()[index] + 1

    def tokens_of_line(self, line):
        """The tokens of a line, from 1, as (index, column)."""
        lines = self._line_starts()
        index = bisect_right(lines, line - 2)
        column, found = 1, []
        while index < len(self.tokens) and lines[index] == line - 1:
            gap = self.gaps[index]
            is_first = not found and not index
            column = len(gap) - gap.rfind("\n") if "\n" in gap else (1 if is_first else column) + len(gap)
            found.append((index, column))
            column += len(self.tokens[index])
            index += 1
        return found

    def index_at(self, line, column):
        """The index of the token at a line and column, or of the last one before it."""
        found = [index for index, start in self.tokens_of_line(line) if start <= column]
        if found:
            return found[-1]
        return max(0, min(bisect_right(self._line_starts(), line - 2), len(self.tokens)) - 1)


def _lines_of(gaps):
    """What stays of the gaps between tokens that are taken out: their linemarkers and line ends."""
    return "".join([gap if "#" in gap else "\n" * gap.count("\n") for gap in gaps if gap not in ("", " ")])


def abs_origin(origin):
    """The index that an origin tells, of a token that was copied or made."""
    return origin if origin >= 0 else -1 - origin


@lru_cache(maxsize=4096)
def _cut(source):
    """The tokens of a small text."""
    return [token for _, token in _PIECE.findall(source) if token]
