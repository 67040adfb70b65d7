"""Run pta and read what it refuses."""
import os
import re
import subprocess
from typing import NamedTuple, Optional

from .units import Fault

_REFUSAL = re.compile(r"(?P<unit>\S+?):(?P<line>\d+):(?P<column>\d+): "
                      r"(?P<what>malformed|not accepted (?P<kind>\S+)|undefined (?P<name>\S+)|too deep \d+)$")


class Refusal(NamedTuple):
    """A refusal at a place of a unit: its kind, and for an undefined name the name."""
    unit: str
    line: int
    column: int
    what: str
    kind: str
    name: Optional[str] = None


def read_refusal(said):
    """The refusal in pta's line; None where the line tells another fault."""
    found = _REFUSAL.match(said)
    if not found:
        return None
    kind = found["kind"] or ("undefined" if found["name"] else " ".join(found["what"].split()[:2]))
    return Refusal(found["unit"], int(found["line"]), int(found["column"]), found["what"], kind, found["name"])


class Pta:
    """The program, and the folder in which the units stand for it."""

    def __init__(self, program, folder, entries=""):
        self._program = os.path.abspath(program) if os.sep in program else program
        self._entries = ("--entry", entries) if entries else ()
        self.folder = folder

    def write(self, name, text):
        """Put a unit's text into the folder."""
        with open(os.path.join(self.folder, name), "w", encoding="latin-1", newline="") as stream:
            stream.write(str(text))

    def run(self, names, options=()):
        """Status, report and fault of a run over the named units, which is entered where the program is."""
        return self._run((*self._entries, *options, *names))

    def _run(self, words):
        try:
            done = subprocess.run([self._program, *words], cwd=self.folder, capture_output=True,
                                  check=False, close_fds=False)
        except OSError as fault:
            raise Fault(f"{self._program}: {fault.strerror}") from fault
        return done.returncode, done.stdout.decode("latin-1"), done.stderr.decode("latin-1").strip()

    def check(self, name, text):
        """The refusal of one unit; None where it has none but that it's no whole program."""
        self.write(name, text)
        status, _, said = self._run([name])
        if status in (0, 5):
            return None
        return read_refusal(said) or Refusal(name, 1, 1, said or f"status {status}", "fault")
