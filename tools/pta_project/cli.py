"""The command."""
import argparse
import os
import sys

from .allocators import allocator_names
from .commands import read_commands, record
from .project import Options, analyse
from .units import Command, Fault


def main(words):
    """Run the command; its exit status."""
    try:
        return _record(words[1:]) if words[:1] == ["record"] else _analyse(_read(words))
    except (Fault, OSError) as fault:
        print(fault, file=sys.stderr)
        return 1


def _record(words):
    """pta-project record [-o FILE] -- BUILD..: the build's status."""
    parser = argparse.ArgumentParser(prog="pta-project record", description="Note the compiler's commands of a build.")
    parser.add_argument("-o", metavar="FILE", default="compile_commands.json", help="where they are noted")
    at = words.index("--") if "--" in words else len(words)
    return record(words[at + 1:], parser.parse_args(words[:at]).o)


def _analyse(options):
    """Analyse a program; pta's status, or 1 for holes where they are an error."""
    script = None
    if options.ask:
        with open(options.ask, encoding="latin-1") as stream:
            script = stream.read()
    outcome = analyse(_commands(options), Options(
        options.pta, options.cc, options.o, options.j, ("--json",) if options.json else (),
        frozenset(filter(None, options.plain.split(","))), allocator_names(options.allocator), script, options.entry),
        _tell)
    _tell("")
    sys.stdout.write(outcome.report)
    sys.stdout.flush()
    if outcome.fault:
        print(outcome.fault, file=sys.stderr)
    print("\n".join(outcome.summary()), file=sys.stderr)
    lacking = any(entry.grade == "hole" for entry in outcome.log)
    return 1 if options.no_holes and lacking and not outcome.status else outcome.status


def _read(words):
    """The options; what stands behind -- is for the compiler."""
    own, flags = words, []
    if "--" in words:
        at = words.index("--")
        own, flags = words[:at], words[at + 1:]
    parser = argparse.ArgumentParser(prog="pta-project", description="The points-to report of a project's .c files.")
    parser.add_argument("files", nargs="*", metavar="FILE.c")
    parser.add_argument("--pta", default="pta", help="the analyser")
    parser.add_argument("--cc", default="gcc", help="the compiler, whose preprocessor is used")
    parser.add_argument("--commands", metavar="FILE", help="a compile_commands.json in place of files")
    parser.add_argument("--program", metavar="NAME", help="of several programs that `record` noted, this one")
    parser.add_argument("--ask", metavar="SCRIPT", help="answer the questions of a script")
    parser.add_argument("--entry", metavar="NAMES", default="",
                        help="of a library: the functions that its callers enter, with commas between them")
    parser.add_argument("--plain", metavar="NAMES", default="",
                        help="functions that neither keep nor give pointers, with commas between them")
    parser.add_argument("--allocator", metavar="NAMES", default="",
                        help="functions whose calls each give a new object; NAME=realloc for one that copies the old")
    parser.add_argument("--json", action="store_true", help="what pta --json writes, where it can")
    parser.add_argument("--no-holes", action="store_true", help="a hole is an error")
    parser.add_argument("-o", metavar="FOLDER", default="pta-out", help="where units and logs are kept")
    parser.add_argument("-j", metavar="N", type=int, default=os.cpu_count() or 1, help="units at once")
    options = parser.parse_args(own)
    options.flags = tuple(flags)
    if not options.files and not options.commands:
        parser.error("no files")
    return options


def _commands(options):
    if options.commands:
        return read_commands(options.commands, options.program)
    return [Command(file, options.flags) for file in options.files]


def _tell(said):
    """A progress line, on a terminal alone."""
    if sys.stderr.isatty():
        print(f"\r{said}\033[K", end="", file=sys.stderr, flush=True)
