"""Source files become preprocessed units that remember their places."""
import os
import re
import subprocess
from bisect import bisect_right
from typing import NamedTuple

from .catalogue import FOLDER
from .declarations import without_unused
from .tokens import Text

STANDARD = "-std=c11"
MACROS = ("-D_DEFAULT_SOURCE",)
GNU_NAMES = frozenset("fcloseall strverscmp secure_getenv get_current_dir_name sigorset".split())
_MARKER = re.compile(r'^# (\d+) "((?:\\.|[^"\\])*)"[ \d]*$', re.M)
_TOKEN_OF_LINE = re.compile(r"\"(?:\\.|[^\"\\])*\"|'(?:\\.|[^'\\])*'|[A-Za-z_$][\w$]*|\.?\d(?:[eEpP][+-]|[\w.])*|\S")


class Fault(Exception):
    """A fault of the command itself, or of the compiler that it calls."""


class Command(NamedTuple):
    """A source file with the compiler's options for it, and the directory in which it is compiled."""
    source: str
    flags: tuple = ()
    directory: str = "."


class Place(NamedTuple):
    """A place of the source."""
    file: str
    line: int
    column: int

    def __str__(self):
        return f"{self.file}:{self.line}:{self.column}"


class Unit:
    """A unit: its file's name in the folder, its command, its first text without unused declarations, the fitted one.

    `first` has the origins of the fitted text: its tokens tell the places of the source. `is_gnu` tells whether headers
    were read with _GNU_SOURCE.
    """

    def __init__(self, name, command, preprocessed, roots=None):
        self.name, self.command = name, command
        whole = Text.read(preprocessed)
        self.is_gnu = not GNU_NAMES.isdisjoint(whole.tokens)
        used = without_unused(whole, roots)
        self.first = Text(used.tokens, used.gaps, list(range(len(used.tokens))))
        self.text, self.facts, self.is_library = self.first, None, roots is not None
        self._places, self._sources = None, {}

    def place(self, line, column):
        """The place of the source for a place of the fitted unit."""
        return self.place_of(self.text.origin(self.text.index_at(line, column)))

    def place_of(self, origin):
        """The place of the source for the index of a token of the first text."""
        if not self.first.tokens:
            return Place(self.command.source, 1, 1)
        origin = min(origin, len(self.first.tokens) - 1)
        line = self.first.line_of(origin)
        behind, source_line, file = self._marker_before(line)
        at = max(1, source_line + line - behind)
        column = self._source_column(file, at, line, origin)
        if self.is_library and file.startswith(FOLDER):
            file = os.path.join(os.path.basename(FOLDER), os.path.basename(file))
        return Place(file, at, column)

    def _marker_before(self, line):
        """The last linemarker before a line: the line behind it, and the source's line and file that it tells."""
        if self._places is None:
            self._places = _markers(self.first)
        before = bisect_right(self._places, (line, float("inf"), ""))
        return self._places[before - 1] if before else (1, 1, self.command.source)

    def _source_column(self, file, at, line, origin):
        """The column of the source: the preprocessor changes blanks and macros, so tokens are matched in order."""
        here = [index for index, _ in self.first.tokens_of_line(line)]
        there = self._line_tokens(os.path.join(self.command.directory, file), at)
        words, token = [word for word, _ in there], self.first.tokens[origin]
        nth = sum(self.first.tokens[index] == token for index in here if index < origin)
        if token in words and words.count(token) == sum(self.first.tokens[index] == token for index in here):
            return [column for word, column in there if word == token][nth]
        return _column_before(self.first, here, there, origin)

    def _line_tokens(self, file, line):
        """The tokens of a line of a file, each with its column."""
        if file not in self._sources:
            self._sources[file] = _lines_of(file)
        lines = self._sources[file]
        if not 0 < line <= len(lines):
            return ()
        if isinstance(lines[line - 1], str):
            lines[line - 1] = [(found[0], found.start() + 1) for found in _TOKEN_OF_LINE.finditer(lines[line - 1])]
        return lines[line - 1]


def _column_before(text, here, there, origin):
    """The column of the last token at or before the origin that both lines have, matched from left to right."""
    column, at = there[0][1] if there else 1, 0
    for index in here:
        if index > origin:
            break
        match = next((k for k in range(at, len(there)) if there[k][0] == text.tokens[index]), None)
        if match is not None:
            column, at = there[match][1], match + 1
    return column


def _markers(text):
    """The linemarkers of a text in order: the line behind each, and the source's line and file that it tells."""
    found, line = [], 1
    for gap in text.gaps:
        if "#" in gap:
            for marker in _MARKER.finditer(gap):
                behind = line + gap.count("\n", 0, marker.start()) + 1
                found.append((behind, int(marker[1]), marker[2].replace("\\\\", "\\").replace('\\"', '"')))
        line += gap.count("\n")
    return found


def _lines_of(file):
    """The lines of a file; none where it can't be read."""
    try:
        with open(file, encoding="latin-1") as stream:
            return stream.read().split("\n")
    except OSError:
        return []


def preprocess(compiler, command, standard=STANDARD):
    """The preprocessed text of a source file."""
    words = [compiler, "-w", "-E", *command.flags, standard, *MACROS, command.source]
    try:
        done = subprocess.run(words, cwd=command.directory, capture_output=True, check=False, close_fds=False)
    except OSError as fault:
        raise Fault(f"{compiler}: {fault.strerror}") from fault
    if done.returncode:
        raise Fault(done.stderr.decode("latin-1").strip() or f"{compiler}: status {done.returncode}")
    return done.stdout.decode("latin-1").replace("\r", " ").replace("\f", " ")


def unit_name(source, taken):
    """A name for the unit of a source file that pta takes and that no other unit has."""
    stem = re.sub(r"[^A-Za-z0-9_.]", "_", os.path.splitext(os.path.basename(source))[0])
    number, name = 1, stem
    while name + ".i" in taken:
        number += 1
        name = f"{stem}_{number}"
    return name + ".i"
