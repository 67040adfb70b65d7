"""One run of pta under limits, and what is wrong with how it ended.

The other `hostile` scripts import this file. What a run may answer is the table of statuses in docs/MANUAL.md."""
import contextlib
import json
import os
import re
import resource
import signal
import time
from dataclasses import dataclass, field

KIBI = 1024
MEBI = 1024 * KIBI

KINDS = (
    b"floating complex atomic generic vla asm statement-expression typeof builtin old-parameters thread-local inline-definition "
    b"structure-cast integer-size-cast character-cast number-to-pointer array-of-value flexible-member wide "
    b"wide-integer character label-address range undeclared redeclared operand constant constant-range divide-by-zero initialiser"
).split()

UNIT = rb"(?P<unit>[A-Za-z0-9._/][A-Za-z0-9._/-]*)"
PLACE = UNIT + rb":(?P<line>[1-9][0-9]*):(?P<column>[1-9][0-9]*)"
NAME = rb"[A-Za-z_][A-Za-z0-9_]*"

# The line of each refusal. Status 8 has a second form: what is written of the report may be a beginning of it.
LINES = {
    2: rb"usage",
    3: PLACE + rb": malformed",
    4: PLACE + rb": not accepted (?:" + b"|".join(KINDS) + rb")",
    5: rb"(?:" + PLACE + rb": undefined " + NAME + rb"|link (?:conflict|twice) " + NAME + rb" \S+|link no main)",
    6: rb"(?:" + PLACE + rb": too deep 257|\S+: too large text 16777217|too large (?:nodes|rows) [0-9]+)",
    7: rb"source fault \S+",
    8: rb"sink fault",
    9: rb"out of memory",
    10: rb"question (?P<question>[1-9][0-9]*)",
    12: rb"entry " + NAME,
}
LINES = {status: re.compile(line + rb"\n") for status, line in LINES.items()}

REPORT = re.compile(rb"pta 1\n(?:set \S+:(?: \S+)*\n)*(?:call \S+:[0-9]+:[0-9]+:(?: \S+)*\n)*(?:edge \S+ \S+\n)*end\n")
ANSWERS = re.compile(rb"ask 1\n(?:(?:yes|no)\n)*end\n")
NOTES = rb"run 1\n(?:store \S+ \S+\n|target \S+:[0-9]+:[0-9]+ \S+\n)*"
RUN = re.compile(NOTES + rb"(?:finished -?[0-9]+|went [0-9]+)\n")
STOPPED = re.compile(NOTES + rb"stopped [A-Za-z]+ " + PLACE + rb"\n")


@dataclass
class Limits:
    """What a run may take: bytes of stack and of address space (None: as many as there are), seconds of processor and of the clock."""

    stack: int = 256 * KIBI
    memory: int | None = 1024 * MEBI
    processor: int = 20
    clock: int = 300


@dataclass
class Ended:
    """How a run ended. A negative status is a signal's number; `late` says that the clock's limit ended it; `seconds` are of the clock,
    `processor` the user and system time."""

    status: int
    out: bytes
    err: bytes
    seconds: float
    late: bool = False
    processor: float = 0.0


@dataclass
class Case:
    """The words of a run, the files that stand in its folder, and the kind of text that it is."""

    words: list
    files: dict = field(default_factory=dict)
    kind: str = ""


@contextlib.contextmanager
def lowered(limits):
    """Lowers the limits of this process while it starts another one, which keeps them."""
    wanted = [(resource.RLIMIT_CORE, 0), (resource.RLIMIT_STACK, limits.stack), (resource.RLIMIT_AS, limits.memory)]
    before = [(what, resource.getrlimit(what)) for what, value in wanted if value is not None]
    try:
        for what, value in wanted:
            if value is not None:
                resource.setrlimit(what, (value, resource.getrlimit(what)[1]))
        yield
    finally:
        for what, pair in before:
            resource.setrlimit(what, pair)


def files_for(folder):
    """The standard streams of a run: no input, and two files of the folder."""
    new = os.O_WRONLY | os.O_CREAT | os.O_TRUNC
    return [
        (os.POSIX_SPAWN_OPEN, 0, os.devnull, os.O_RDONLY, 0),
        (os.POSIX_SPAWN_OPEN, 1, os.path.join(folder, "out~"), new, 0o666),
        (os.POSIX_SPAWN_OPEN, 2, os.path.join(folder, "err~"), new, 0o666),
    ]


def content(folder, name):
    """The bytes of a file of the folder."""
    with open(os.path.join(folder, name), "rb") as file:
        return file.read()


def run(command, folder, limits, streams=(), meanwhile=None, environment=None):
    """Runs a command in a folder, with no environment but the one given. `streams` are actions on descriptors behind those that open the
    usual files, and `meanwhile` is called with the number of the process once it has begun."""
    os.chdir(folder)
    actions = files_for(folder) + list(streams)
    start = time.monotonic()
    with lowered(limits):
        child = os.posix_spawn(command[0], command, environment or {}, file_actions=actions, setsigdef=[signal.SIGPIPE])
    with contextlib.suppress(PermissionError):  # a command that has become another user keeps the clock's limit alone
        resource.prlimit(child, resource.RLIMIT_CPU, (limits.processor, limits.processor))
    if meanwhile:
        meanwhile(child)
    status, late, processor = wait(child, limits.clock)
    return Ended(status, content(folder, "out~"), content(folder, "err~"), time.monotonic() - start, late, processor)


def wait(child, seconds):
    """Waits for a process, and ends it after so many seconds: its status, or less than 0 for a signal, whether that was needed, and its
    processor time."""
    late = []

    def end(_number, _frame):
        """Ends the process."""
        late.append(True)
        os.kill(child, signal.SIGKILL)

    before = signal.signal(signal.SIGALRM, end)
    signal.setitimer(signal.ITIMER_REAL, seconds)
    try:
        _, status, used = os.wait4(child, 0)
    finally:
        signal.setitimer(signal.ITIMER_REAL, 0)
        signal.signal(signal.SIGALRM, before)
    return os.waitstatus_to_exitcode(status), bool(late), used.ru_utime + used.ru_stime


def lay(case, folder):
    """Writes the files of a case into a folder, in place of all that is there."""
    for name in os.listdir(folder):
        os.unlink(os.path.join(folder, name))
    for name, text in case.files.items():
        with open(os.path.join(folder, name), "wb") as file:
            file.write(text)


def out_of_text(match, files):
    """Says why a place isn't one of its unit's text, or nothing. One past a line's end, and one past the last line, are places."""
    groups = match.groupdict()
    if groups.get("unit") is None:
        return None
    text = files.get(groups["unit"].decode())
    if text is None:
        return "the line names a unit that isn't of the run"
    lines = text.split(b"\n")
    line, column = int(groups["line"]), int(groups["column"])
    if line > len(lines) or column > len(lines[line - 1]) + 1:
        return "the place is outside the text"
    return None


def refusal_faults(case, ended):
    """What is wrong with a refusal's lines."""
    found = []
    if ended.out and ended.status != 8:
        found.append("out isn't empty")
    if ended.status == 9 and not ended.err:
        # (the words themselves found no room)
        return found
    match = LINES[ended.status].fullmatch(ended.err)
    if match is None:
        return found + ["err isn't the one line of this status"]
    outside = out_of_text(match, case.files)
    return found + ([outside] if outside else [])


def faults(case, ended):
    """All that is wrong with how a run ended; an empty list where it ended as the manual says."""
    if ended.late:
        return ["the clock's limit ended it"]
    if ended.status == -signal.SIGXCPU or ended.status == -signal.SIGKILL:
        return [f"the processor's limit ended it (signal {-ended.status})"]
    if ended.status < 0:
        return [f"signal {-ended.status}"]
    if ended.status == 0:
        whole = any(form.fullmatch(ended.out) for form in (REPORT, ANSWERS, RUN))
        return (["err isn't empty"] if ended.err else []) + ([] if whole else ["out is no whole report"])
    if ended.status == 11:
        match = STOPPED.fullmatch(ended.out)
        outside = out_of_text(match, case.files) if match else "out is no run that stopped"
        return (["err isn't empty"] if ended.err else []) + ([outside] if outside else [])
    if ended.status not in LINES:
        return [f"status {ended.status} isn't listed"]
    return refusal_faults(case, ended)


def lines_of(out):
    """The report in lines for one as JSON; empty where it isn't one object on one line with its keys in order."""
    try:
        report = json.loads(out)
        lines = [f"set {one['name']}:{''.join(' ' + name for name in one['members'])}" for one in report["sets"]]
        lines += [f"call {one['place']}:{''.join(' ' + name for name in one['targets'])}" for one in report["calls"]]
        lines += [f"edge {' '.join(pair)}" for pair in report["edges"]]
    except (ValueError, KeyError, TypeError):
        return b""
    plain = json.dumps(report, separators=(",", ":"), sort_keys=True) + "\n"
    return "\n".join(["pta 1", *lines, "end", ""]).encode() if plain.encode() == out and report["report"] == 2 else b""
