#!/usr/bin/env python3
"""Tries must-fail edits that the gate leaves out, since an edit costs a proof of its whole crate.

usage: parked_edits.py [--fits] [CRATE | CRATE/WHAT ..]

A parked edit is a file crates/CRATE/must-fail/WHAT.edit.md: it has the form of an edit, and `rt ci` leaves it be. Each one that is named (all,
if none is) is tried as `rt must-fail` tries its own, from nothing: the prover must refuse the crate with it. Run it after a change of such a
crate, over libraries that are there (`lay.py`). --fits proves nothing: it only says which edits no longer apply (an old text has to stand
exactly once).
"""
import argparse
import os
import sys

sys.dont_write_bytecode = True

from kit import load_kit


def parked_in(folder):
    """Returns the parked edits of a crate's folder, in the order of their names."""
    edits = f"{folder}/must-fail"
    names = sorted(os.listdir(edits)) if os.path.isdir(edits) else []
    return [f"{edits}/{it}" for it in names if it.endswith(".edit.md")]


def pairs_of(text):
    """Returns the pairs of a file's path and a text that has to stand in it once."""
    found, path = [], ""
    for line in text.split("\n"):
        if line.startswith("file: "):
            path = line[len("file: ") :].strip()
        elif line.startswith("old: "):
            found.append((path, line[len("old: ") :]))
    return found


def misfit(edit, folder):
    """Says why an edit cannot be applied, or nothing."""
    with open(edit, encoding="utf-8") as it:
        pairs = pairs_of(it.read())
    if not pairs:
        return "it has no 'old:' line"
    for path, old in pairs:
        if not os.path.isfile(f"{folder}/{path}"):
            return f"there is no file {path}"
        with open(f"{folder}/{path}", encoding="utf-8") as it:
            count = it.read().count(old)
        if count != 1:
            return f"an 'old:' text is in {path} {count} times, and not once"
    return ""


def misfits(root):
    """Returns a line for each parked edit under a root that cannot be applied."""
    found = []
    for name in sorted(os.listdir(f"{root}/crates")):
        folder = f"{root}/crates/{name}"
        for edit in parked_in(folder):
            why = misfit(edit, folder)
            if why:
                found.append(f"{name}/{os.path.basename(edit)}: {why}")
    return found


def tried(root, names):
    """Tries the parked edits with these names, CRATE or CRATE/WHAT (all, if there are none), and returns how many were not refused."""
    rt = load_kit()
    rt.rtlib.guarded()
    rt.rtlib.Crate = rt.Crate
    rt.Crate.cuts_libraries = True
    crates = rt.rtlib.crates_below(root)
    edits = [(it, edit) for it in crates for edit in parked_in(it.folder)]
    titles = [{it.name, f"{it.name}/{os.path.basename(edit).removesuffix('.edit.md')}"} for it, edit in edits]
    lost = {*names} - set().union(*titles)
    if lost:
        sys.exit(f"no parked edit: {' '.join(sorted(lost))}")
    failed = 0
    for (crate, edit), title in zip(edits, titles):
        if names and not title & {*names}:
            continue
        kind, text = rt.must_fail(crate, edit, ["--jobs", "1"])
        print(text, flush=True)
        failed += kind not in (rt.REFUSED, rt.AT_LIMIT)
    return failed


def main():
    found = argparse.ArgumentParser(description=__doc__, formatter_class=argparse.RawDescriptionHelpFormatter)
    found.add_argument("--fits", action="store_true")
    found.add_argument("names", nargs="*")
    given = found.parse_args()
    root = os.path.dirname(os.path.dirname(os.path.realpath(__file__)))
    lines = misfits(root)
    for line in lines:
        print(line)
    if given.fits or lines:
        return 1 if lines else 0
    return 1 if tried(root, given.names) else 0


if __name__ == "__main__":
    sys.exit(main())
