"""The compiler's commands of a project: from compile_commands.json, or noted while a build runs."""
import json
import os
import shlex
import shutil
import stat
import subprocess
import tempfile

from .units import Command, Fault

COMPILERS = ("cc", "gcc", "clang", "c99", "c11", "x86_64-linux-gnu-gcc", "aarch64-linux-gnu-gcc")
ARCHIVERS = ("ar", "gcc-ar", "x86_64-linux-gnu-ar")
LINKS = "pta-links.json"
_TAKE_A_WORD = ("-I", "-D", "-U", "-include", "-isystem", "-iquote", "-imacros", "-idirafter")
_ALSO_TAKE = ("-o", "-MF", "-MT", "-MQ", "-x", "-L", "-l", "-T", "-u", "-Xlinker", "-z", "-arch")
_WRAPPER = """#!/bin/sh
printf '%s\\0' "$PWD" {name} "$@" > "{folder}/$$.$(od -An -N4 -tu4 /dev/urandom | tr -d ' ')"
exec {program} "$@"
"""


def heeded(words):
    """The options that the preprocessor heeds."""
    flags, take = [], False
    for word in words:
        if take or word.startswith(_TAKE_A_WORD) or word in ("-nostdinc", "-funsigned-char"):
            flags.append(word)
            take = not take and word in _TAKE_A_WORD
    return tuple(flags)


def read_commands(file, program=None):
    """The commands of a compile_commands.json; of one program where `record` noted what is linked."""
    folder = os.path.dirname(os.path.abspath(file))
    with open(file, encoding="utf-8") as stream:
        entries = [entry for entry in json.load(stream)
                   if os.path.exists(os.path.join(folder, entry.get("directory", "."), entry["file"]))]
    links = os.path.join(os.path.dirname(os.path.abspath(file)), LINKS)
    if os.path.exists(links):
        with open(links, encoding="utf-8") as stream:
            entries = _of_program(entries, json.load(stream), program)
    elif program:
        raise Fault(f"{links}: what {program} is linked from isn't noted")
    found = {}
    for entry in entries:
        words = entry.get("arguments") or shlex.split(entry["command"])
        directory = os.path.join(os.path.dirname(os.path.abspath(file)), entry.get("directory", "."))
        if entry["file"].endswith(".c"):
            found.setdefault((os.path.normpath(os.path.join(directory, entry["file"])), _output(entry)),
                             Command(entry["file"], heeded(words[1:]), directory))
    if not found:
        raise Fault(f"{file}: no .c file is compiled")
    return list({key[0]: command for key, command in found.items()}.values())


def _output(entry):
    return entry.get("output", "")


def _of_program(entries, links, program):
    """The entries whose objects go into a program, by archives too."""
    parts = {link["output"]: link["inputs"] for link in links}
    shared = {link["output"] for link in links if link.get("shared")}
    programs = [link["output"] for link in links if link["program"] and os.path.isdir(os.path.dirname(link["output"]))]
    chosen = [name for name in programs if program in (None, name, os.path.basename(name))]
    if program is None and len(programs) > 1:
        names = " ".join(os.path.basename(name) for name in programs)
        raise Fault(f"{len(programs)} programs are linked; choose by --program NAME: {names}")
    if not chosen:
        raise Fault(f"no program {program} is linked" if program else "no program is linked")
    needed = _linked(chosen[-1], parts, shared)
    return [entry for entry in entries
            if {_output(entry), os.path.normpath(os.path.join(entry["directory"], entry["file"]))} & needed]


def _linked(program, parts, shared):
    """The objects of which a program is linked: of an archive those alone that define what is wanted."""
    inputs = _with_shared(program, parts, shared)
    needed = {name for name in inputs if name not in parts}
    archives = [name for name in inputs if name in parts]
    members = [member for name in archives for member in parts[name]]
    symbols = {name: _symbols(name) for name in (*needed, *members)}
    defined = {name for one in needed for name in symbols[one][0]}
    wanted = {name for one in needed for name in symbols[one][1]} | {"main"}
    if any(name.endswith(".c") for name in needed):
        wanted |= _symbols(program)[0] or {name for one in members for name in symbols[one][0]}
    grew = True
    while grew:
        grew = False
        for member in members:
            if member not in needed and (not symbols[member][0] or symbols[member][0] & (wanted - defined)):
                needed.add(member)
                defined |= symbols[member][0]
                wanted |= symbols[member][1]
                grew = True
    return needed


def _with_shared(program, parts, shared):
    """What a program is linked from, with all that the shared libraries among it are linked from."""
    inputs, seen = list(parts[program]), set()
    for name in inputs:
        if name in shared and name not in seen:
            seen.add(name)
            inputs += parts[name]
    return [name for name in dict.fromkeys(inputs) if name not in shared]


def _symbols(file):
    """The names that an object defines and those that it wants; none where it isn't there any more."""
    if not os.path.exists(file) or file.endswith(".c"):
        return set(), set()
    done = subprocess.run(["nm", "-gP", file], capture_output=True, text=True, check=False)
    found = [line.split()[:2] for line in done.stdout.split("\n") if len(line.split()) > 1]
    return ({name for name, kind in found if kind not in ("U", "w", "v")}, {name for name, kind in found if kind == "U"})


def record(words, file):
    """Run a build, and note its compiler's commands in the file and what it links beside it; the build's status."""
    if not words:
        raise Fault("record: no command")
    with tempfile.TemporaryDirectory() as folder:
        wrappers, notes = os.path.join(folder, "bin"), os.path.join(folder, "notes")
        os.mkdir(wrappers)
        os.mkdir(notes)
        for name in COMPILERS + ARCHIVERS:
            _wrap(name, wrappers, notes)
        environment = {**os.environ, "PATH": wrappers + os.pathsep + os.environ.get("PATH", "")}
        try:
            status = subprocess.run(words, env=environment, check=False).returncode
        except OSError as fault:
            raise Fault(f"{words[0]}: {fault.strerror}") from fault
        _write_notes(notes, file)
    return status


def _wrap(name, wrappers, notes):
    program = shutil.which(name)
    if program:
        wrapper = os.path.join(wrappers, name)
        with open(wrapper, "w", encoding="utf-8") as stream:
            stream.write(_WRAPPER.format(name=name, folder=notes, program=shlex.quote(program)))
        os.chmod(wrapper, os.stat(wrapper).st_mode | stat.S_IXUSR)


def _write_notes(notes, file):
    entries, links = [], {}
    for name in sorted(os.listdir(notes), key=lambda name: os.stat(os.path.join(notes, name)).st_mtime_ns):
        with open(os.path.join(notes, name), "rb") as stream:
            directory, tool, *words = stream.read().decode("utf-8", "surrogateescape").split("\0")[:-1]
        if tool in ARCHIVERS:
            _note_archive(directory, words, links)
        else:
            _note_compiler(directory, tool, words, entries, links)
    _note_unseen_archives(entries, links)
    for name, noted in ((file, entries), (os.path.join(os.path.dirname(os.path.abspath(file)), LINKS),
                                          list(links.values()))):
        with open(name, "w", encoding="utf-8") as stream:
            json.dump(noted, stream, indent=1)
            stream.write("\n")


def _note_compiler(directory, tool, words, entries, links):
    """Note what a run of the compiler compiles and links."""
    inputs, output, take = [], None, None
    is_link = not {"-c", "-S", "-fsyntax-only"} & set(words)
    known = links.keys() | set(map(_output, entries)) if is_link else set()
    for word in words:
        if take:
            output, take = (word if take == "-o" else output), None
        elif word in _ALSO_TAKE or word in _TAKE_A_WORD:
            take = word
        elif word.startswith("-o") and len(word) > 2:
            output = word[2:]
        elif not word.startswith("-") and (word.endswith((".c", ".o", ".a", ".lo"))
                                           or _whole(directory, word) in known):
            inputs.append(word if word.endswith(".c") else _whole(directory, word))
    inputs += _libraries(words, directory, links)
    sources = [name for name in inputs if name.endswith(".c") and os.path.exists(os.path.join(directory, name))]
    if "-E" in words or "-M" in words or "-MM" in words or not inputs:
        return
    for source in sources:
        stem = os.path.splitext(os.path.basename(source))[0]
        made = source if is_link else output or stem + ".o"
        entries.append({"directory": directory, "file": source, "arguments": [tool, *words],
                        "output": os.path.normpath(os.path.join(directory, made))})
    if is_link:
        made = os.path.normpath(os.path.join(directory, output or "a.out"))
        links[made] = {"output": made, "program": "-shared" not in words, "shared": "-shared" in words,
                       "inputs": [os.path.normpath(os.path.join(directory, name)) for name in inputs]}


def _whole(directory, name):
    """The whole name of a file; of a link to a shared library that of the library."""
    whole = os.path.normpath(os.path.join(directory, name))
    return os.path.realpath(whole) if ".so" in os.path.basename(name) else whole


def _libraries(words, directory, links):
    """The libraries that -L and -l name: shared ones that the build linked, and archives where they stand."""
    folders = [word[2:] for word in words if word.startswith("-L") and len(word) > 2]
    for word in words:
        if word.startswith("-l"):
            for folder in folders:
                shared, archive = (_whole(directory, os.path.join(folder, f"lib{word[2:]}{end}")) for end in (".so", ".a"))
                if shared in links and "-static" not in words or os.path.exists(archive):
                    yield shared if shared in links and "-static" not in words else archive
                    break


def _note_archive(directory, words, links):
    """Note the members of an archive."""
    if len(words) < 2 or not set(words[0]) & set("rq"):
        return
    output, *inputs = [word for word in words[1:] if word.endswith((".a", ".o", ".lo"))] or [None]
    if output and output.endswith(".a"):
        made = os.path.normpath(os.path.join(directory, output))
        before = links.get(made, {"inputs": []})["inputs"]
        links[made] = {"output": made, "program": False, "inputs": list(dict.fromkeys(
            before + [os.path.normpath(os.path.join(directory, name)) for name in inputs]))}


def _note_unseen_archives(entries, links):
    """Note the members of archives that programs are linked from and that no noted call made, by their names."""
    made = {}
    for entry in entries:
        made.setdefault(os.path.basename(_output(entry)), []).append(_output(entry))
    named = {name for link in links.values() for name in link["inputs"]}
    for archive in sorted(name for name in named - links.keys() if name.endswith(".a") and os.path.exists(name)):
        done = subprocess.run(["ar", "t", archive], capture_output=True, text=True, check=False)
        members = []
        for member in done.stdout.split():
            found = made.get(member, [])
            beside = [name for name in found if os.path.dirname(name) == os.path.dirname(archive)]
            members += (beside or found)[-1:]
        if members:
            links[archive] = {"output": archive, "program": False, "inputs": members}
