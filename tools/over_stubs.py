#!/usr/bin/env python3
"""Checks a crate before what it stands on is proved: over_stubs.py ROOT CRATE [PATH..] [--whole CRATE,..] [--jobs N] [--flags "WORD .."]

`rt check` proves all crates below first, which takes an hour where none is kept. This takes each crate below as source that says what the
crate says and proves nothing of it: every lemma's proof is a hole, and no function has a body. With PATHs (functions, modules, as for
`rt check --only`; "" for the front end alone) only these are checked, and without any all modules of the crate. Crates that --whole names
are taken as they are; crates that have a library laid beside them (`lay.py`), over libraries alone, are taken so. What the check takes of
stubs it keeps in $STUBS (/tmp/stubs), so a second run is fast.

A verdict counts for CRATE's own files alone, given that what the crates below state holds. All lines go to $STUBS/ROOT/CRATE.log; what
they say of CRATE itself (refusals, goals at holes, functions that aren't through) is printed. Lemmas that no function's answers reach
aren't read, and a function above one that calls a stub may go unchecked: what is through here still has to be proved over its libraries.
"""
import argparse
import os
import re
import shutil
import subprocess
import sys

sys.path.insert(0, os.path.dirname(os.path.realpath(__file__)))

KIT = "/opt/rattle"
STUBS = os.environ.get("STUBS", "/tmp/stubs")
LEMMA = re.compile(r"^( *)(pub )?([^\s:(){}]+) : ")
KEPT = re.compile(r"^( *)(pub )?(abbrev|unfoldable|record|data|module|use|open|infix\w*|mutual|ruleset|axiom|deriving|mod)\b")
ANSWERS = ("Answers.antt", "Invariants.antt", "Proof.antt")


def indent_of(line):
    return len(line) - len(line.lstrip(" "))


def without_mutual(lines):
    """Returns the lines with the lemmas of plain mutual blocks one after another: holes don't recurse."""
    out, block = [], None
    for at, line in enumerate(lines):
        if block is not None and line.strip() and indent_of(line) <= block[0]:
            block = None
        if block is None and re.match(r"^ *mutual *$", line) and not has_types(lines, at):
            block = (indent_of(line), None)
            continue
        if block is not None and line.strip():
            block = (block[0], indent_of(line) - block[0] if block[1] is None else block[1])
            line = line[block[1] :]
        out.append(line)
    return out


def has_types(lines, at):
    """Returns whether types stand in the block that this line begins."""
    for line in lines[at + 1 :]:
        if line.strip() and indent_of(line) <= indent_of(lines[at]):
            return False
        if re.match(r"^ *(pub )?(data|record)\b", line):
            return True
    return False


def with_holes(text):
    """Returns a file of lemmas, each with a hole as its proof."""
    lines, out, at, record = without_mutual(text.split("\n")), [], 0, None
    kept = None
    while at < len(lines):
        line = lines[at]
        if kept is not None and line.strip() and indent_of(line) <= kept:
            kept = None
        if kept is None and re.match(r"^ *abbrev mutual *$", line):
            kept = indent_of(line)
        if kept is not None:
            out.append(line)
            at += 1
            continue
        if record is not None and line.strip() and indent_of(line) <= record:
            record = None
        if re.match(r"^ *(pub )?(record|data|deriving)\b", line):
            record = indent_of(line)
        found = LEMMA.match(line)
        at += 1
        out.append(line)
        if not found or record is not None or KEPT.match(line) or line.lstrip().startswith("--"):
            continue
        depth, name = len(found.group(1)), found.group(3)
        begun = at - 1
        while at < len(lines) and (not lines[at].strip() or indent_of(lines[at]) > depth or is_open("".join(lines[begun:at]))):
            out += [lines[at]] if lines[at].strip() else []
            at += 1
        while at < len(lines) and is_of_proof(lines[at], depth, name):
            at += 1
        out += [" " * depth + name + " = ?", ""]
    return "\n".join(out)


def is_open(text):
    """Returns whether a bracket of this text is still open."""
    return sum(text.count(it) for it in "([{") > sum(text.count(it) for it in ")]}")


def is_of_proof(line, depth, name):
    """Returns whether a line behind a lemma's type belongs to its proof."""
    text = line.strip()
    if not text or indent_of(line) > depth:
        return True
    if indent_of(line) < depth or text.startswith(name + " : "):
        return False
    if "◌" in name and f" {name.strip('◌')} " in text and " : " not in text:
        return True
    return text[0] in ")]}" or text.startswith(("unfolding ", name + " ")) or text == name


CLAUSE = re.compile(r"(\b(requires|ensures)\*?\s*\w*|\bdecreases|\bghost\s+\w+\s*:)\s*$")
SKIPPED = re.compile(r"//[^\n]*|\"(\\.|[^\"\\])*\"|b?'(\\[^']+|[^'\\])'")


def closing(text, at):
    """Returns the place behind the brace that closes the one at this place."""
    depth = 0
    while True:
        found = SKIPPED.match(text, at)
        if found:
            at = found.end()
            continue
        depth += {"{": 1, "}": -1}.get(text[at], 0)
        at += 1
        if depth == 0:
            return at


def without_bodies(text):
    """Returns a file of code with the functions that other crates can call, which do nothing."""
    out, done, at, heads = [], 0, 0, re.compile(r"\bfn \w+")
    while at < len(text):
        found = SKIPPED.match(text, at)
        if found:
            at = found.end()
            continue
        head = heads.match(text, at)
        if not head:
            at += 1
            continue
        before = text[done : at]
        begin = done + item_start(before)
        at = end_of_head(text, head.end())
        if text[at] == ";":
            continue
        end = closing(text, at)
        is_asked = re.search(r"\bpub(\(crate\))? (const |unsafe |extern \"C\" )*$", before) or is_in_trait(text, begin)
        if is_asked and not re.search(r"\bpub\(crate\) $", before):
            out += [text[done:at], "{ unreachable!() }"]
        else:
            out += [text[done:begin]]
        done = at = end
    return without_imports(re.sub(r"(?m)^ *#\[cycle\([^\n]*\)\]\n", "", "".join(out) + text[done:]))


def item_start(before):
    """Returns where the doc comments, attributes and words of the function begin that ends this text."""
    lines = before.split("\n")
    at = len(lines) - 1
    while at > 0 and re.match(r"^ *(///|//|#\[)", lines[at - 1]):
        at -= 1
    return len("\n".join(lines[:at])) + (at > 0)


def end_of_head(text, at):
    """Returns the place of a function's body, or of the semicolon of one without."""
    since = at
    while text[at] not in "{;" or CLAUSE.search(text, since, at):
        found = SKIPPED.match(text, at)
        if found:
            at = found.end()
        elif text[at] == "{":
            at = since = closing(text, at)
        elif text[at] == "[":
            at = text.index("]", at)
        else:
            at += 1
    return at


def is_in_trait(text, at):
    """Returns whether a function stands in a trait or in the impl of one."""
    heads = re.findall(r"(?m)^(?:#\[[^\n]*\n)*(?:pub )?(impl|trait|fn|mod|struct|enum)\b([^{;]*)\{", text[:at])
    is_inner = text[:at].rpartition("\n")[2] or text[at : at + 4] == "    "
    return bool(is_inner and heads and (heads[-1][0] == "trait" or heads[-1][0] == "impl" and re.search(r"\bfor\b", heads[-1][1])))


def without_imports(text):
    """Returns a file of code without private imports that nothing in it needs."""

    def needed(found):
        rest = re.sub(r"//[^\n]*|\bghost use [^;]*;", "", text.replace(found.group(0), ""))
        kept = [it for it in leaves(found.group(2)) if is_named(it[1], rest)]
        return "".join(f"use {path}{' as ' + name if path.rpartition('::')[2] != name else ''};\n" for path, name in kept)

    return re.sub(r"(?m)^(use )([^;]*);\n", needed, text)


def is_named(name, text):
    """Returns whether code names a thing that is imported: a type or trait anywhere, a module in front of what it holds."""
    return name == "*" or re.search(rf"\b{name}\b" if name[:1].isupper() else rf"\b{name}::", text)


def leaves(body):
    """Returns the path and the name of each thing that an import names."""
    body = re.sub(r"\s+", " ", body.strip())
    found = re.match(r"^(.*?)\{(.*)\}$", body)
    if not found:
        path, _, name = body.partition(" as ")
        path = path.strip().removesuffix("::self")
        return [(path.strip(), name.strip() or path.strip().rpartition("::")[2])]
    parts, depth, part = [], 0, ""
    for it in found.group(2) + ",":
        depth += {"{": 1, "}": -1}.get(it, 0)
        if it == "," and depth == 0:
            parts += [part.strip()] if part.strip() else []
            part = ""
        else:
            part += it
    return [leaf for it in parts for leaf in leaves(found.group(1) + it)]


def table(root):
    rows = {}
    with open(f"{root}/crates.txt", encoding="utf-8") as file:
        for line in file:
            head, colon, uses = line.partition("#")[0].partition(":")
            if colon:
                rows[head.split()[0]] = uses.split()
    return rows


def below(rows, name):
    """Returns the crates of the repository below a crate, lower ones first."""
    found = {}

    def visit(it):
        for use in rows[it]:
            if use in rows and use not in found:
                visit(use)
                found[use] = None

    visit(name)
    return [*found]


def write(path, text):
    """Writes a file, unless it says so already: what a check has kept of it stays good."""
    try:
        with open(path, encoding="utf-8") as file:
            if file.read() == text:
                return
    except OSError:
        os.makedirs(os.path.dirname(path), exist_ok=True)
    with open(path, "w", encoding="utf-8") as file:
        file.write(text)


def stub(source, target, is_whole):
    """Lays a crate's text, with holes for its lemmas' proofs unless it is taken whole."""
    wanted = set()
    for part in ("src", "specs", "proofs"):
        for at, _, names in os.walk(f"{source}/{part}"):
            for name in names:
                path = os.path.join(os.path.relpath(at, source), name)
                with open(f"{source}/{path}", encoding="utf-8") as file:
                    text = file.read()
                if part == "proofs" and name in ANSWERS and (name != "Answers.antt" or ".Goals" in text) and not is_whole:
                    continue
                wanted.add(path)
                change = {"proofs": with_holes, "src": without_bodies}.get(part, str)
                write(f"{target}/{path}", text if is_whole else change(text))
    for at, _, names in os.walk(target):
        for name in names:
            if os.path.relpath(f"{at}/{name}", target) not in wanted:
                os.remove(f"{at}/{name}")


def laid(root, rows):
    """Returns the crates that have a library laid beside them, over libraries alone."""
    found = set()
    for name in rows:
        at = f"{root}/crates/{name}/out/rlib"
        if os.path.isfile(f"{at}/laid") and all(it in found for it in below(rows, name)):
            found.add(name)
    return found


def ordered(rows):
    """Returns the table's rows, lower crates first."""
    found = {}

    def visit(it):
        for use in rows[it]:
            if use in rows and use not in found:
                visit(use)
        found.setdefault(it, rows[it])

    for it in rows:
        visit(it)
    return found


def command(root, place, rows, name, built, flags):
    kit = {it[:-5] for it in os.listdir(f"{KIT}/rlibs") if it.endswith(".rlib")}
    under = below(rows, name)
    ours = dict.fromkeys(["core", "std"] + [it for crate in [*under, name] for it in rows[crate] if it in kit])
    words = [f"{KIT}/bin/rattle", "check", "--crate-name", name, "src/lib.rt"]
    words += [it for lib in ours for it in ("--extern", f"{lib}={KIT}/rlibs/{lib}.rlib")] + ["-L", f"dependency={KIT}/rlibs"]
    for it in under:
        at = f"{root}/crates/{it}/out/rlib"
        uses = dict.fromkeys(["core", "std", *rows[it]])
        taken = ["--extern", f"{it}={at}/{it}.rlib", "-L", f"dependency={at}"]
        words += taken if it in built else ["--lib", f"{it}:{','.join(uses)}={place}/{it}/src/lib.rt"]
    words += ["--antt-project", f"{KIT}/rattle/logic/antt-project.json", "--logic-built", f"{KIT}/logic_built"]
    return words + ["--links", f"{name}=", "--incremental", f"{place}/.kept-{name}", *flags]


def modules(folder):
    """Returns the modules and functions of a crate's root: without them a check would try what the crates below promise, too."""
    with open(f"{folder}/src/lib.rt", encoding="utf-8") as file:
        return re.findall(r"(?m)^(?:pub(?:\(crate\))? )?(?:mod|fn) (\w+)", file.read()) or [""]


def told(log, name, place):
    """Returns the lines of a check that speak of this crate, each with those below it that say more."""
    out, takes = [], False
    for line in log.split("\n"):
        if line[:1] not in (" ", "|") and not line.startswith("help:"):
            takes = speaks(line, name, place)
        if takes:
            out.append(line)
    return "\n".join(out)


def speaks(line, name, place):
    """Returns whether a line says something that this crate's author has to know."""
    if line.startswith(("holes=", "only=", "logic=not", "logic=proved", "rattle:", "error")):
        return True
    is_other = f"{place}/" in line or re.match(r"^(fn|impl|struct|enum|trait) (?!" + name + r"::)", line)
    is_fine = re.search(r": (no holes|proved|depends on a hole.*|no proof: it (calls|passes) .*)$", line)
    is_of_run = line.startswith(("logic ", "statements ", "crate ", "note: a check shows", "by-macro"))
    return bool(line) and not is_other and not is_fine and not is_of_run


def main():
    parser = argparse.ArgumentParser(description=__doc__, formatter_class=argparse.RawDescriptionHelpFormatter)
    parser.add_argument("root")
    parser.add_argument("crate")
    parser.add_argument("paths", nargs="*")
    parser.add_argument("--whole", default="")
    parser.add_argument("--jobs", default="1")
    parser.add_argument("--flags", default="--allow-holes")
    parser.add_argument("--sources", action="store_true", help="take no library that is laid")
    said = parser.parse_args()
    root = os.path.realpath(said.root)
    rows = ordered(table(root))
    place = f"{STUBS}/{os.path.basename(root)}"
    built = set() if said.sources else laid(root, rows) - {said.crate}
    for it in below(rows, said.crate):
        if it not in built:
            stub(f"{root}/crates/{it}", f"{place}/{it}", it in said.whole.split(","))
    paths = said.paths or modules(f"{root}/crates/{said.crate}")
    flags = ["--jobs", said.jobs, *said.flags.split(), *[it for path in paths for it in ("--only", path)]]
    os.makedirs(f"{place}/.kept-{said.crate}", exist_ok=True)
    log = f"{place}/{said.crate}.log"
    words = command(root, place, rows, said.crate, built, flags)
    with open(log, "w", encoding="utf-8") as file:
        ran = subprocess.run(words, cwd=f"{root}/crates/{said.crate}", stdout=file, stderr=subprocess.STDOUT, check=False)
    with open(log, encoding="utf-8", errors="replace") as file:
        text = file.read()
    print(told(text, said.crate, place))
    print(f"status {ran.returncode}; {len(below(rows, said.crate)) - len(built)} crates below as source; all lines: {log}")
    return ran.returncode


if __name__ == "__main__":
    sys.exit(main())
