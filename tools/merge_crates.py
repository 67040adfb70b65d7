#!/usr/bin/env python3
"""Merges crates into one, each as a module of it, and rewrites every file that names them.

usage: merge_crates.py ROOT NEW OLD..      one group: the crates OLD.. become the modules NEW::OLD..
       merge_crates.py ROOT --map FILE     each line of FILE: NEW: OLD OLD ..   (a line with one OLD of the same name leaves it)

An OLD that has the name NEW stays at the root of the new crate, with its paths as they are. Run it at the top of a clone, with nothing
uncommitted. It moves src/, specs/, proofs/ and must-fail/ of each other crate below a module of its old name, and rewrites paths in all
.rt, .antt, .edit and .edit.md files and crates.txt. It checks nothing: then run rt fmt in each crate that was touched, and rt check; a
definition of specs/ that cites proofs/ of a crate which is now its own has to move. Programs and crates with data/ or tests' files stay
where they are.
"""
import os
import re
import shutil
import sys


def read(path):
    with open(path, encoding="utf-8") as it:
        return it.read()


def write(path, text):
    os.makedirs(os.path.dirname(path), exist_ok=True)
    with open(path, "w", encoding="utf-8") as it:
        it.write(text)


def table(root):
    """Returns the uses of each crate, and the words behind its name."""
    rows, words = {}, {}
    for line in read(f"{root}/crates.txt").split("\n"):
        line = line.partition("#")[0].strip()
        if line:
            head, _, uses = line.partition(":")
            name, *more = head.split()
            rows[name], words[name] = uses.split(), more
    return rows, words


def joined(words):
    """Returns the words behind the name of a crate that has all that these stand for."""
    sums, may = {}, []
    for it in words:
        name, _, value = it.partition("=")
        if name == "tests_may":
            may += [one for one in value.split("+") if one not in may]
        elif value.isdigit():
            sums[name] = sums.get(name, 0) + int(value)
        else:
            sys.exit(f"{it}: such a crate is not merged")
    return [f"{name}={value}" for name, value in sums.items()] + (["tests_may=" + "+".join(may)] if may else [])


class Names:
    """The new names of what the old crates had."""

    def __init__(self, groups):
        # old crate -> new crate
        self.to = {old: new for new, olds in groups.items() for old in olds if olds != [new]}
        # (one that gives its name stays at the root of the new crate: its own paths are as they were)
        olds = sorted((it for it in self.to if self.to[it] != it), key=len, reverse=True)
        any_old = "|".join(map(re.escape, olds)) or "(?!)"
        self.roots = {it for it in self.to if self.to[it] == it}
        any_root = "|".join(map(re.escape, sorted(self.roots, key=len, reverse=True))) or "(?!)"
        self.root = re.compile(rf"(?<![\w:.'])({any_root})::")
        self.ghost = re.compile(rf"\bRattle\.({any_old})\.(specs|proofs)\.((?:contracts|declared)\.)?")
        # a path in code begins with the crate's name, and is no part of a longer path or name
        self.code = re.compile(rf"(?<![\w:.'])({any_old})::")
        self.imported = re.compile(rf"(?m)^(\s*(?:pub\s+)?use\s+)({any_old})(\s*(?:;|as\b))")

    def antt(self, text):
        return self.ghost.sub(lambda it: f"Rattle.{self.to[it[1]]}.{it[2]}.{it[3] or ''}{it[1]}.", text)

    def rust(self, text, crate):
        """crate: the old crate whose file this is."""
        own = self.to.get(crate)
        text = self.antt(text)
        if own and crate not in self.roots:
            text = re.sub(r"(?<![\w:.'])crate::", f"crate::{crate}::", text)
            # proofs and specs are folders of the crate, with a folder for each module in them
            text = re.sub(rf"\bcrate::{crate}::(proofs|specs)::", rf"crate::\1::{crate}::", text)
            text = re.sub(rf"\bpub\s*\(\s*crate\s*\)", f"pub(in crate::{crate})", text)
        def path(it):
            new = self.to[it[1]]
            return f"crate::{it[1]}::" if new == own else f"{new}::{it[1]}::"
        text = self.code.sub(path, text)
        # what one crate's modules say of its root
        text = self.root.sub(lambda it: "crate::" if it[1] == own else it[0], text)
        text = re.sub(r"\b(crate|" + "|".join({*self.to.values()} or {"crate"}) + r")::(\w+)::(proofs|specs)::", lambda it: f"{it[1]}::{it[3]}::{it[2]}::" if it[2] in self.to and it[2] not in self.roots else it[0], text)
        return self.imported.sub(lambda it: f"{it[1]}{'crate' if self.to[it[2]] == own else self.to[it[2]]}::{it[2]}{it[3]}", text)


def rewrite(root, crates, names):
    """Writes the text of each file anew."""
    for crate in crates:
        for at, folders, files in os.walk(f"{root}/crates/{crate}"):
            folders[:] = [it for it in folders if it != "out"]
            for path in (f"{at}/{name}" for name in files if name.endswith((".rt", ".antt", ".edit", ".edit.md"))):
                text = read(path)
                made = names.antt(text) if path.endswith(".antt") else names.rust(text, crate)
                if path.endswith((".edit", ".edit.md")) and crate in names.to and crate not in names.roots:
                    made = moved_edit(made, crate)
                if made != text:
                    write(path, made)


def moved_edit(text, crate):
    """An edit's lines that name files, where these become a module's."""
    text = re.sub(r"(?m)^file: src/lib\.rt$", f"file: src/{crate}.rt", text)
    return re.sub(r"(?m)^file: (src|specs|proofs)/(?!" + crate + r"\.rt$)", rf"file: \1/{crate}/", text)


def move(at, to, old):
    """Moves a crate's files below a module of its name. Returns whether it has definitions."""
    for part in ("src", "specs", "proofs"):
        for below, _, files in os.walk(f"{at}/{part}"):
            for name in files:
                inside = os.path.relpath(f"{below}/{name}", f"{at}/{part}")
                place = {"lib.rt": f"{old}.rt", "Lib.antt": f"{old}.antt"}.get(inside, f"{old}/{inside}")
                text = read(f"{below}/{name}")
                if inside == "lib.rt":
                    text = re.sub(r"(?m)^#!\[tactic\(auto\)\]\n\n?", "", text)
                if os.path.exists(f"{to}/{part}/{place}"):
                    sys.exit(f"{to}/{part}/{place}: there is such a file")
                write(f"{to}/{part}/{place}", text)
    for name in sorted(os.listdir(f"{at}/must-fail")) if os.path.isdir(f"{at}/must-fail") else []:
        write(f"{to}/must-fail/{old}-{name}", read(f"{at}/must-fail/{name}"))
    shutil.rmtree(at)
    # (in proofs/ the modules of src/ are there without a line)
    return os.path.isfile(f"{to}/specs/{old}.antt")


def join(crates, new, olds):
    """Makes the new crate of the old ones."""
    to, is_kept = f"{crates}/{new}", new in olds
    if not is_kept and os.path.exists(to):
        sys.exit(f"{new}: there is such a folder")
    mods = [old for old in olds if old != new]
    specs = [old for old in mods if move(f"{crates}/{old}", to, old)]
    lines = "".join(f"pub mod {it};\n" for it in sorted(mods))
    if is_kept:
        text = read(f"{to}/src/lib.rt")
        head = re.search(r"(?m)^#!\[tactic[^\n]*\n\n?", text).end()
        gap = "" if text[head:].startswith(("mod ", "pub mod ")) else "\n"
        write(f"{to}/src/lib.rt", text[:head] + lines + gap + text[head:])
    else:
        write(f"{to}/src/lib.rt", "#![tactic(auto)]\n\n" + lines)
    if specs:
        lib = f"{to}/specs/Lib.antt"
        before = read(lib) if os.path.isfile(lib) else ""
        write(lib, before + "".join(f"pub mod {it}\n" for it in specs))


def listed(root, groups, rows, words, names):
    """Writes crates.txt in its order, each new crate where its last old one stood."""
    out, done, order = [], set(), [*rows]
    last = {new: max(olds, key=order.index) for new, olds in groups.items()}
    for line in read(f"{root}/crates.txt").split("\n"):
        crate = (line.partition("#")[0].partition(":")[0].split() or [""])[0]
        if not crate:
            out += [line] if line.strip() else []
            continue
        new = names.to.get(crate, crate)
        if last.get(new, crate) != crate or new in done:
            continue
        done.add(new)
        olds = groups.get(new, [crate])
        uses = dict.fromkeys(names.to.get(it, it) for old in olds for it in rows[old])
        uses.pop(new, None)
        more = joined([it for old in olds for it in words[old]])
        out.append(f"{' '.join([new, *more])}: {' '.join(uses)}".rstrip())
    write(f"{root}/crates.txt", "\n".join(out) + "\n")


def merge(root, groups):
    (rows, words), names = table(root), Names(groups)
    crates = f"{root}/crates"
    for old in names.to:
        if not os.path.isfile(f"{crates}/{old}/src/lib.rt"):
            sys.exit(f"{old} is no library")
        if os.path.isdir(f"{crates}/{old}/data"):
            sys.exit(f"{old} has a folder data/")
    rewrite(root, rows, names)
    for new, olds in groups.items():
        if olds != [new]:
            join(crates, new, olds)
    listed(root, groups, rows, words, names)


def main(words):
    root = words[0]
    if words[1] == "--map":
        groups = {}
        for line in read(words[2]).split("\n"):
            line = line.partition("#")[0].strip()
            if line:
                new, _, olds = line.partition(":")
                groups[new.strip()] = olds.split()
    else:
        groups = {words[1]: words[2:]}
    merge(root, groups)


if __name__ == "__main__":
    main(sys.argv[1:]) if len(sys.argv) > 3 else print(__doc__)
