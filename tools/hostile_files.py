#!/usr/bin/env python3
"""hostile_files.py PTA

Runs the program PTA over files and streams that fail: closed pipes, a full disc, directories, files without rights, pipes by name, units
that change while they are read, one unit under two names, closed descriptors, threads that aren't to be had. Prints a line for each, with
the status that docs/MANUAL.md states and the one that was seen; the status is 1 where they differ, or where a run ended by a signal.

A line `skip` says that a check needs what this machine lacks: those without rights run as the user 65534, and need root."""
import os
import shutil
import socket
import sys
import tempfile
import threading

from hostile_judge import Limits, run

PLAIN = b"int x,*p;int main(void){p=&x;return 0;}\n"
REPORT = b"pta 1\nset p: x\nend\n"
BAD = b"int main(void){return 0}\n"
BAD_LINE = b"a.i:1:24: malformed\n"
NOBODY = ["/usr/bin/setpriv", "--reuid=65534", "--regid=65534", "--clear-groups"]
PRLIMIT = "/usr/bin/prlimit"
CLOSE, DUP, OPEN = os.POSIX_SPAWN_CLOSE, os.POSIX_SPAWN_DUP2, os.POSIX_SPAWN_OPEN


def many(count):
    """A unit whose report has many lines."""
    return b"int x;int " + b",".join(b"*p%d" % n for n in range(count)) + b";int main(void){p0=&x;return 0;}\n"


class Place:
    """A folder with a copy of the program, that other users may enter."""

    def __init__(self, pta):
        self.folder = tempfile.mkdtemp()
        os.chmod(self.folder, 0o755)
        self.pta = os.path.join(self.folder, "pta~")
        shutil.copy(pta, self.pta)
        os.chmod(self.pta, 0o755)

    def write(self, name, text):
        """Writes a file of the folder, and gives its path."""
        path = os.path.join(self.folder, name)
        if os.path.lexists(path):
            os.unlink(path)
        with open(path, "wb") as file:
            file.write(text)
        return path

    def pta_on(self, *words, streams=(), before=(), meanwhile=None, seconds=60):
        """Runs the program with these words; `before` is a command that runs it."""
        return run([*before, self.pta, *words], self.folder, Limits(clock=seconds), streams, meanwhile)


def closed_pipe(descriptor):
    """Actions that make a descriptor a pipe that nobody reads."""
    reader, writer = os.pipe()
    os.close(reader)
    return [(DUP, writer, descriptor)], writer


def into_closed_pipe(place, descriptor, text):
    """Writes into a pipe that nobody reads."""
    place.write("a.i", text)
    streams, writer = closed_pipe(descriptor)
    try:
        return place.pta_on("a.i", streams=streams)
    finally:
        os.close(writer)


def reader_leaves(place):
    """The reader of the report leaves after ten bytes; the report is longer than a pipe is wide."""
    place.write("a.i", many(20000))
    reader, writer = os.pipe()

    def leave(_child):
        """Reads a little and goes."""
        os.close(writer)
        os.read(reader, 10)
        os.close(reader)

    return place.pta_on("a.i", streams=[(DUP, writer, 1)], meanwhile=leave)


def to(place, text, *streams):
    """Runs on a text with these streams."""
    place.write("a.i", text)
    return place.pta_on("a.i", streams=streams)


def small_disc(place):
    """A file system of 64 KiB takes the beginning of the report and then is full; None where none may be mounted."""
    place.write("a.i", many(20000))
    disc = os.path.join(place.folder, "disc~")
    os.makedirs(disc, exist_ok=True)
    if os.system(f"mount -t tmpfs -o size=64k tmpfs {disc} 2>/dev/null"):
        return None
    try:
        return place.pta_on("a.i", streams=[(OPEN, 1, os.path.join(disc, "out"), os.O_WRONLY | os.O_CREAT, 0o666)])
    finally:
        os.system(f"umount {disc}")


def linked(place, target):
    """A unit that is a symbolic link."""
    path = os.path.join(place.folder, "link.i")
    if os.path.lexists(path):
        os.unlink(path)
    os.symlink(target, path)
    return place.pta_on("link.i")


def without_rights(place, file_mode, folder_mode):
    """A unit that the user may not read, or whose folder may not be entered; None without root."""
    if os.geteuid() != 0 or not os.path.exists(NOBODY[0]):
        return None
    inner = os.path.join(place.folder, "inner")
    os.makedirs(inner, exist_ok=True)
    os.chmod(place.write("inner/a.i", PLAIN), file_mode)
    os.chmod(inner, folder_mode)
    return place.pta_on("inner/a.i", before=NOBODY)


def pipe_by_name(place, text, times=1):
    """A unit that is a pipe with a name, into which a thread writes a text so many times."""
    path = os.path.join(place.folder, "fifo.i")
    if not os.path.exists(path):
        os.mkfifo(path)

    def write():
        """Writes until the reader has gone."""
        try:
            with open(path, "wb") as file:
                for _ in range(times):
                    file.write(text)
        except BrokenPipeError:
            pass

    writer = threading.Thread(target=write)
    writer.start()
    ended = place.pta_on("fifo.i")
    writer.join()
    return ended


def while_read(place, change):
    """Changes a unit of a megabyte again and again while it is read."""
    path = place.write("a.i", b"int x;\n" * 150000 + PLAIN.replace(b"int x,", b"int "))
    done = threading.Event()

    def work():
        """Changes the unit until the run has ended."""
        while not done.is_set():
            change(path)

    def begin(_child):
        """Starts the changes once the run has begun."""
        worker.start()

    worker = threading.Thread(target=work)
    ended = place.pta_on("a.i", meanwhile=begin)
    done.set()
    worker.join()
    return ended


def grow(path):
    """Adds lines at the end."""
    with open(path, "ab") as file:
        file.write(b"int x;\n" * 1000)


def shrink(path):
    """Takes all but the first lines away, and writes them again."""
    with open(path, "r+b") as file:
        file.truncate(700)
        file.write(b"int x;\n" * 1000)


def replace(path):
    """Puts another file in its place."""
    with open(path + "~", "wb") as file:
        file.write(PLAIN)
    os.replace(path + "~", path)


def two_names(place, second):
    """One unit by two names."""
    path = place.write("a.i", PLAIN)
    for name, make in (("soft.i", os.symlink), ("hard.i", os.link)):
        if os.path.lexists(os.path.join(place.folder, name)):
            os.unlink(os.path.join(place.folder, name))
        make(path, os.path.join(place.folder, name))
    return place.pta_on("a.i", second)


def from_input(place, text):
    """The unit /dev/stdin, from a pipe."""
    reader, writer = os.pipe()
    os.write(writer, text)
    os.close(writer)
    try:
        return place.pta_on("/dev/stdin", streams=[(DUP, reader, 0)])
    finally:
        os.close(reader)


def a_socket(place):
    """A unit that is a socket."""
    path = os.path.join(place.folder, "socket.i")
    with socket.socket(socket.AF_UNIX) as listener:
        listener.bind(path)
        return place.pta_on("socket.i")


def asked(place, script, text=None):
    """The script of questions that has this name, and this text where one is given."""
    place.write("a.i", PLAIN)
    if text is not None:
        place.write(script, text)
    return place.pta_on("--ask", script, "a.i")


def limited(place, limit, *words, text=PLAIN, nobody=False):
    """Runs under a limit of `prlimit`, and as a user without rights where that is wanted; None where that can't be."""
    if nobody and os.geteuid() != 0 or not os.path.exists(PRLIMIT):
        return None
    place.write("a.i", text)
    return place.pta_on(*words, before=[*(NOBODY if nobody else []), PRLIMIT, limit])


FAULT = b"source fault "
BIG = b": too large text 16777217\n"
FULL = (OPEN, 1, "/dev/full", os.O_WRONLY, 0)


# Each check: what is tried, the statuses that are stated, the line where one is, and how it is run.
STREAMS = [
    ("the report into a pipe that nobody reads", (8,), b"sink fault\n", lambda p: into_closed_pipe(p, 1, PLAIN)),
    ("the reader leaves in mid-report", (8,), b"sink fault\n", reader_leaves),
    ("the report to /dev/full", (8,), b"sink fault\n", lambda p: to(p, PLAIN, FULL)),
    ("a disc that fills in mid-report", (8,), b"sink fault\n", small_disc),
    ("no standard output", (8,), b"sink fault\n", lambda p: to(p, PLAIN, (CLOSE, 1))),
    ("standard output open for reading", (8,), b"sink fault\n", lambda p: to(p, PLAIN, (OPEN, 1, "/dev/null", os.O_RDONLY, 0))),
    ("a refusal to /dev/full", (3,), b"", lambda p: to(p, BAD, (OPEN, 2, "/dev/full", os.O_WRONLY, 0))),
    ("a refusal into a pipe that nobody reads", (3,), b"", lambda p: into_closed_pipe(p, 2, BAD)),
    ("a refusal without standard error", (3,), b"", lambda p: to(p, BAD, (CLOSE, 2))),
    ("the report without standard error", (0,), b"", lambda p: to(p, PLAIN, (CLOSE, 2))),
    ("the report to /dev/full without standard error", (8,), b"", lambda p: to(p, PLAIN, FULL, (CLOSE, 2))),
    ("no standard stream at all", (8,), b"", lambda p: to(p, PLAIN, (CLOSE, 0), (CLOSE, 1), (CLOSE, 2))),
    ("a refusal with no standard stream", (3,), b"", lambda p: to(p, BAD, (CLOSE, 0), (CLOSE, 1), (CLOSE, 2))),
]

FAULTY_UNITS = [
    ("no such file", (7,), FAULT + b"missing.i\n", lambda p: p.pta_on("missing.i")),
    ("a directory", (7,), FAULT + b".\n", lambda p: p.pta_on(".")),
    ("the root", (7,), FAULT + b"/\n", lambda p: p.pta_on("/")),
    ("a name behind a file", (7,), FAULT + b"a.i/b.i\n", lambda p: (p.write("a.i", PLAIN), p.pta_on("a.i/b.i"))[1]),
    ("a link to nothing", (7,), FAULT + b"link.i\n", lambda p: linked(p, "nothing")),
    ("a link to itself", (7,), FAULT + b"link.i\n", lambda p: linked(p, "link.i")),
    ("a file without rights", (7,), FAULT + b"inner/a.i\n", lambda p: without_rights(p, 0, 0o755)),
    ("a folder without rights", (7,), FAULT + b"inner/a.i\n", lambda p: without_rights(p, 0o644, 0)),
    ("the same file with rights", (0,), b"", lambda p: without_rights(p, 0o644, 0o755)),
    ("a socket", (7,), FAULT + b"socket.i\n", a_socket),
    ("a file whose reads fail (/proc/self/mem)", (7,), FAULT + b"/proc/self/mem\n", lambda p: p.pta_on("/proc/self/mem")),
    ("standard input that is closed", (7,), FAULT + b"/dev/stdin\n", lambda p: p.pta_on("/dev/stdin", streams=[(CLOSE, 0)])),
    ("a second unit that isn't there", (7,), FAULT + b"b.i\n", lambda p: (p.write("a.i", BAD), p.pta_on("a.i", "b.i"))[1]),
    ("two units with one descriptor left", (5,), b"link twice main ./a.i\n", lambda p: limited(p, "--nofile=4", "a.i", "./a.i")),
]

UNITS = [
    ("a pipe by name", (0,), b"", lambda p: pipe_by_name(p, PLAIN)),
    ("a pipe by name into which nothing is written", (5,), b"link no main\n", lambda p: pipe_by_name(p, b"", 0)),
    ("a pipe by name of a whole megabyte", (0,), b"", lambda p: pipe_by_name(p, b"int x;" * 170000 + PLAIN.replace(b"int x,", b"int "))),
    ("a pipe by name that doesn't end", (6,), b"fifo.i" + BIG, lambda p: pipe_by_name(p, b"int x;" * 10000, 10000)),
    ("/dev/stdin", (0,), b"", lambda p: from_input(p, PLAIN)),
    ("/dev/null", (5,), b"link no main\n", lambda p: p.pta_on("/dev/null")),
    ("/dev/zero", (6,), b"/dev/zero" + BIG, lambda p: p.pta_on("/dev/zero")),
    ("/dev/full as a unit", (6,), b"/dev/full" + BIG, lambda p: p.pta_on("/dev/full")),
    ("a unit that grows while it is read", (0, 3, 4, 5, 6), None, lambda p: while_read(p, grow)),
    ("a unit that shrinks and grows", (0, 3, 4, 5), None, lambda p: while_read(p, shrink)),
    ("a unit that is replaced again and again", (0, 7), None, lambda p: while_read(p, replace)),
    ("one unit by two names, a symbolic link", (5,), b"link twice main soft.i\n", lambda p: two_names(p, "soft.i")),
    ("one unit by two names, a hard link", (5,), b"link twice main hard.i\n", lambda p: two_names(p, "hard.i")),
    ("one unit by two names, ./", (5,), b"link twice main ./a.i\n", lambda p: two_names(p, "./a.i")),
    ("one name twice", (2,), b"usage\n", lambda p: two_names(p, "a.i")),
]

OTHERS = [
    ("a script that isn't there", (7,), FAULT + b"s\n", lambda p: asked(p, "s")),
    ("a script that is a directory", (7,), FAULT + b"/\n", lambda p: asked(p, "/")),
    ("a script that doesn't end", (6,), b"/dev/zero" + BIG, lambda p: asked(p, "/dev/zero")),
    ("the unit as the script", (10,), b"question 1\n", lambda p: asked(p, "a.i")),
    ("an empty script to /dev/full", (8,), b"sink fault\n", lambda p: (p.write("a.i", PLAIN), p.write("t", b""), p.pta_on(
        "--ask", "t", "a.i", streams=[FULL]))[2]),
    ("no thread to be had, 64 workers", (0, 9), None, lambda p: limited(p, "--nproc=1", "--workers", "64", "a.i", nobody=True)),
    ("few threads to be had, 64 workers", (0, 9), None, lambda p: limited(p, "--nproc=8", "--workers", "64", "a.i", nobody=True)),
    ("a word that isn't UTF-8", (13,), b"", lambda p: p.pta_on(b"\xff.i")),
    ("no words", (2,), b"usage\n", lambda p: p.pta_on()),
    ("a file limit of 512 bytes", (8,), b"sink fault\n", lambda p: limited(p, "--fsize=512", "a.i", text=many(20000))),
]


def judged(ended, statuses, line):
    """Whether a run ended as stated."""
    if ended.status not in statuses or ended.late:
        return False
    if ended.out and ended.status not in (0, 8):
        return False
    if ended.status == 0 and (ended.err or not ended.out.endswith(b"end\n")):
        return False
    return line is None or ended.err == line


def main():
    """Runs all checks; 0 where all ended as stated."""
    if len(sys.argv) != 2 or not os.access(sys.argv[1], os.X_OK):
        sys.exit(__doc__)
    place, failed = Place(os.path.abspath(sys.argv[1])), 0
    try:
        for name, statuses, line, make in STREAMS + FAULTY_UNITS + UNITS + OTHERS:
            ended = make(place)
            if ended is None:
                print(f"skip  {name}", flush=True)
                continue
            fits = judged(ended, statuses, line)
            failed += not fits
            wanted = " or ".join(str(status) for status in statuses)
            line_seen = ended.err[:80].decode(errors="replace").strip()
            print(f"{'ok   ' if fits else 'FAIL '} {name}: {ended.status} (stated {wanted}) {line_seen}", flush=True)
    finally:
        os.chdir("/")
        shutil.rmtree(place.folder)
    print(f"{failed} failed")
    return 1 if failed else 0


if __name__ == "__main__":
    sys.exit(main())
