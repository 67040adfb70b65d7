#!/usr/bin/env python3
"""The kit's command `rt`, which begins in seconds: quick_rt.py COMMAND ARGUMENTS

It makes the same checks and keeps the same proofs as `rt`; only its walks over crates.txt are remembered, for which `rt` takes half a minute
before a check of an upper crate and a minute and a half before `rt ci`. With ONLY_SELF=1 a check waits for no other command that works in a
crate below: their libraries must stand (`lay.py`).
"""
import os
import sys

import kit


def main():
    rt = kit.load_kit()
    if os.environ.get("ONLY_SELF"):
        lock = rt.rtlib.lock
        rt.rtlib.lock = lambda crates: lock([*crates][-1:])
    sys.argv[0] = os.path.realpath(rt.__file__)
    return rt.main(sys.argv[1:])


if __name__ == "__main__":
    sys.exit(main())
