#!/usr/bin/env python3
"""Lays what `rt ci` proved on this machine into a copy of the repository: lay.py COPY [CRATE..]

`rt ci` and `rt ci NAME..` keep what they passed beside the kit. `rt check` in a copy without `out/` would prove all libraries below its crate
again; this gives each crate (with CRATEs: these and those below them) the library that was kept of the same files over the same libraries,
and names the crates of which none is kept yet. It can be run again and again while the gate goes on. Nothing of the gate reads what it lays.
"""
import os
import shutil
import sys

import kit


def crates_of(rt, names):
    """Returns the crates with these names (all, if there are none) and those below them, lowest first."""
    found = rt.rtlib.crates_below(os.getcwd())
    lost = {*names} - {it.name for it in found}
    if lost:
        sys.exit(f"no such crate: {' '.join(sorted(lost))}")
    wanted = {it.name for it in found if not names or it.name in names}
    wanted |= {dep.name for it in found if it.name in wanted for dep in it.below()}
    return sorted((it for it in found if it.name in wanted), key=lambda it: len(it.below()))


def is_laid(rt, crate):
    """Returns whether the crate has the library that an earlier run of this script laid there, made of these very files."""
    at = f"{crate.folder}/out/rlib"
    return os.path.isfile(f"{at}/laid") and rt.rtlib.text_of(f"{at}/stamp") == crate.stamp()


def lay(rt, crate, kept):
    """Gives the crate the library that is kept of it, and returns whether there is one."""
    at = f"{crate.folder}/out/rlib"
    shutil.rmtree(at, ignore_errors=True)
    if not kept.give(crate, False, kept.key(crate)):
        return False
    for name, text in (("stamp", crate.stamp()), ("laid", "")):
        with open(f"{at}/{name}", "w", encoding="utf-8") as file:
            file.write(text)
    return True


def main():
    if len(sys.argv) < 2:
        sys.exit(__doc__)
    rt = kit.load_kit()
    os.chdir(sys.argv[1])
    rt.rtlib.Crate = rt.Crate
    rt.Crate.cuts_libraries = True
    rt.Crate.allowed = rt.handles_of(os.getcwd())
    crates = [it for it in crates_of(rt, sys.argv[2:]) if it.makes_rlib()]
    kept, there, new = rt.Kept(crates), set(), 0
    for crate in crates:
        if any(dep.name not in there for dep in crate.below()):
            continue
        laid = is_laid(rt, crate)
        if laid or lay(rt, crate, kept):
            kept.is_built(crate)
            there.add(crate.name)
            new += not laid
    lacking = [it.name for it in crates if it.name not in there]
    print(f"{new} laid, {len(there)} of {len(crates)} there; not yet: {' '.join(lacking) or 'none'}")


if __name__ == "__main__":
    main()
