"""A program from its commands to its report."""
import os
import re
from typing import NamedTuple, Optional

from .asking import translated
from .declarations import function_names
from .facts import examine
from .fitting import Fitter, holes
from .agreeing import agreeing, definition_of, differing_tags, hidden_structures, with_tag
from .catalogue import catalogue
from .library import Names, empty_definition, library_unit, wanted
from .report import Places, characters_that_hold
from .rewriting import EXACT, HOLE
from .running import Pta, read_refusal
from .units import Unit, preprocess, unit_name

_CONFLICT = re.compile(r"link conflict (\w+) ")


class Outcome(NamedTuple):
    """What a program came to: pta's status, its report, its fault, the log of rewrites, the merged structures."""
    status: int
    report: str
    fault: str
    log: list
    merged: tuple

    def summary(self):
        """The lines for the end: counts, and the holes."""
        exact = sum(entry.grade == EXACT for entry in self.log)
        found = holes(self.log)
        lines = [f"{exact} rewrites exact, {len(self.merged)} types merged, {len(found)} holes"]
        return lines + [f"hole: {entry}" for entry in found]


class Options(NamedTuple):
    """How a program is analysed; the plain names neither keep nor give pointers, entries have commas between them."""
    pta: str = "pta"
    compiler: str = "gcc"
    folder: str = "pta-out"
    workers: int = 1
    words: tuple = ()
    plain: frozenset = frozenset()
    allocators: dict = {}
    script: Optional[str] = None
    entries: str = ""


def analyse(commands, options, tell=lambda said: None):
    """Fit the program of the commands, add the library, and run pta."""
    os.makedirs(options.folder, exist_ok=True)
    program = Program(commands, options, tell)
    status, report, fault = program.run()
    places = Places(program.units, program.fitter.wrapped(program.units))
    if options.script is not None and status == 0:
        status, answers, fault = program.ask(translated(options.script, report, places, program.units))
        made = answers
    elif options.words and status == 0:
        status, made, fault = program.pta.run([unit.name for unit in program.units], options.words)
        made = places.places(made)
    else:
        made = places.report(report)
    outcome = Outcome(status, made, places.refusal(fault), program.log(),
                      tuple(sorted(program.fitter.wishes.merged)))
    for file, entries in (("rewrites.log", outcome.log), ("holes.log", holes(outcome.log))):
        with open(os.path.join(options.folder, file), "w", encoding="latin-1") as stream:
            stream.writelines(f"{entry}\n" for entry in entries)
    return outcome


def _named(commands):
    """The commands, each with a name for its unit."""
    taken, named = set(), []
    for command in commands:
        name = unit_name(command.source, taken)
        taken.add(name)
        named.append((name, command))
    return named


def loaded(named, compiler, workers, tell):
    """The units of the commands with their facts, made by several processes where there are enough of both."""
    if min(workers, len(named) // 3) < 2:
        return [_load(compiler, *one, tell, number, len(named)) for number, one in enumerate(named, 1)]
    from concurrent.futures import ProcessPoolExecutor
    units = []
    with ProcessPoolExecutor(workers) as pool:
        for unit in pool.map(_loader, [(compiler, *one) for one in named], chunksize=2):
            units.append(unit)
            tell(f"reading {len(units)} of {len(named)}")
    return units


def _loader(words):
    return _load(*words)


def _load(compiler, name, command, tell=None, number=0, count=0):
    """A unit with its facts."""
    if tell:
        tell(f"reading {number} of {count}")
    unit = Unit(name, command, preprocess(compiler, command))
    unit.facts = examine(compiler, unit)
    return unit


class Program:
    """The units of a program on their way to a report."""

    def __init__(self, commands, options, tell):
        self._options, self._tell = options, tell
        self.units = loaded(_named(commands), options.compiler, options.workers, tell)
        self._own, self._names = list(self.units), set()
        self._reconciled, self._emptied = set(), set()
        self.pta = Pta(options.pta, options.folder, options.entries)
        self.fitter = Fitter(self.pta, options.compiler, options.allocators)

    def run(self):
        """Status, report and fault of pta over the fitted units and the library."""
        self._tell("fitting")
        self._complete(wanted([Names(unit.first) for unit in self.units]))
        is_checked = False
        while True:
            self._tell("running pta")
            status, report, fault = self.pta.run([unit.name for unit in self.units])
            refusal = read_refusal(fault)
            if refusal is None and self._reconcile(fault):
                continue
            if refusal is None:
                break
            if refusal.kind == "undefined":
                if not self._complete([refusal.name]):
                    break
            elif not self._mend(refusal, is_checked):
                break
            is_checked = True
        if status == 0:
            self._judge_characters(report)
        return status, report, fault

    def _mend(self, refusal, is_checked):
        """Mend the refused unit, or all where none was looked at alone yet; whether that helped."""
        refused = next(unit for unit in self.units if unit.name == refusal.unit)
        for unit in [refused] if is_checked else self.units:
            self._tell(f"mending {unit.name}")
            if self.fitter.mend(unit, refusal if unit is refused else None) and unit is refused:
                return False
            self.pta.write(unit.name, unit.text)
        return True

    def _reconcile(self, fault):
        """Where a link conflict is told: the name's declarations become that of its definition; whether one changed."""
        found = _CONFLICT.match(fault)
        if not found or found[1] in self._reconciled:
            return False
        name, changed = found[1], False
        self._reconciled.add(name)
        owner, source = next(((unit, one) for unit in self.units for one in [definition_of(unit.text, name)] if one),
                             (None, None))
        for unit in self.units if source else ():
            for rewrite in hidden_structures(unit.text, name, owner.text):
                self._apply(unit, rewrite)
                self.pta.write(unit.name, unit.text)
                changed = True
        for unit in self.units if source and not changed else ():
            for rewrite in agreeing(unit.text, name, source, self.fitter.typedefs(unit)):
                self._apply(unit, rewrite)
                changed = True
            self.pta.write(unit.name, unit.text)
        return changed or self._rename_tags(name)

    def _rename_tags(self, name):
        """Give structures that some units know by another tag alone the one tag; whether there were any."""
        found = differing_tags([unit.text for unit in self.units], name)
        for tag, other in found.items():
            for unit in self.units:
                rewrite = with_tag(unit.text, tag, other)
                if rewrite:
                    self._apply(unit, rewrite)
                    self.pta.write(unit.name, unit.text)
        return bool(found)

    def _apply(self, unit, rewrite):
        """Do a rewrite in a unit, and note it."""
        self.fitter.note(unit, rewrite.grade, rewrite.what, unit.text.origin(rewrite.index))
        unit.text = unit.text.edited(rewrite.edits)

    def _complete(self, names):
        """Define the names, by the library or by empty bodies; whether all could be."""
        known = {name for name in names if name in catalogue()} - self._names
        while known:
            self._names |= known
            flags = [word for word in self._own[0].command.flags if word.startswith(("-D", "-U"))]
            if any(unit.is_gnu for unit in self._own):
                flags.append("-D_GNU_SOURCE")
            library = library_unit(self._options.compiler, self._options.folder, sorted(self._names), flags)
            self.units = [*self._own, library]
            self.fitter.forget(library.name)
            found = wanted([Names(unit.first) for unit in self.units])
            names = sorted({*names, *found})
            known = {name for name in found if name in catalogue()} - self._names
        self.fitter.fit(self.units)
        missing = [name for name in names if name not in self._names | self._emptied]
        return all([self._add_empty(name) for name in missing])

    def _add_empty(self, name):
        """Define a name that is nowhere by an empty body in a unit that declares it; whether one does."""
        for unit in self.units:
            span = Names(unit.text).declares.get(name) if name in unit.text.tokens else None
            if span:
                self._emptied.add(name)
                made = empty_definition(unit.text, span, name, self.fitter.typedefs(unit),
                                        name in self._options.plain)
                self.fitter.define(unit, made)
                return True
        return False

    def _judge_characters(self, report):
        """Note the casts through which pointers may be written into characters."""
        units = {unit.name: unit for unit in self.units}
        functions = {name for unit in self.units for one in function_names(unit.text)
                     for name in (one, f"{unit.name}:{one}")}
        for name, origin, found in characters_that_hold(report):
            lost = [member for member in found if member not in functions]
            if lost and name in units:
                self.fitter.note(units[name], HOLE, "characters that may hold pointers: " + " ".join(lost[:3]), origin)

    def ask(self, script):
        """Status, answers and fault of pta for a script of questions."""
        self.pta.write("ask.txt", script)
        return self.pta.run([unit.name for unit in self.units], ("--ask", "ask.txt"))

    def log(self):
        """The log of all rewrites."""
        return self.fitter.log(self.units)
