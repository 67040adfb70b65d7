"""The kit's command `rt` as a module, with its walks over crates.txt remembered."""
import importlib.machinery
import importlib.util
import os
import shutil
import sys


def load_kit():
    """Returns the kit's command rt as a module whose walks are made once.

    The kit lists the crates below a crate along each way of crates.txt, again and again. What it finds doesn't change while a command runs.
    """
    sys.dont_write_bytecode = True
    loader = importlib.machinery.SourceFileLoader("rt_main", os.path.realpath(shutil.which("rt")))
    rt = importlib.util.module_from_spec(importlib.util.spec_from_loader("rt_main", loader))
    loader.exec_module(rt)
    for name in ("stamp", "below"):
        answer_once(rt.rtlib.Crate, name)
    return rt


def answer_once(cls, name):
    """Has a method without arguments be computed once for each crate; a list is handed out as a copy."""
    plain, seen = getattr(cls, name), {}

    def answer(self):
        if self.folder not in seen:
            seen[self.folder] = plain(self)
        found = seen[self.folder]
        return [*found] if isinstance(found, list) else found

    setattr(cls, name, answer)
