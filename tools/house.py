#!/usr/bin/env python3
"""Checks a mapping of crates to a smaller house, and computes what the gate costs by a cost model.

usage: house.py ROOT [MAP] [--chain] [--list] [--table] [--edits CRATE,CRATE..]
                                ROOT: the top of the repository; MAP: lines NEW: OLD OLD ..  ('#' starts a comment).
                                Crates that MAP doesn't name stay as they are. With no MAP: the repository as it is.

It says whether the quotient graph has a cycle (and shows one), which new crates pass a limit, and of old and new house: processor minutes
of libraries, tests and edits, the longest chain, the time of a run in lanes as `rt ci` orders it, and the ways of crates.txt.
"""
import functools
import os
import re
import sys

# Seconds of processor time, user and system, by a gate's own checks of 105 crates, four at a time on four processors: a crate, of which so
# much for the second pass of --empty-contracts (the sum of both, and TEXT, by 20 crates of laws); each library below; a line of
# code, its contracts among them; a line of specs/ or proofs/. Half of the crates lie within 31 s of it, but single functions can cost more than
# all else of a crate (work_rounds::solve, c_lower), which no count of lines tells. A crate of cases reads the code of all below, a line
# of which costs BELOW, and its functions are dearer; these three are older.
CRATE, EMPTY, LIBRARY, CODE, TEXT = 17.0, 5.0, 0.0, 0.152, 0.0023
TEST_CRATE, BELOW, TEST_FUNCTION = 18.0, 0.0003, 11.0
OVER_SEED, LIMIT_FUNCTIONS, LIMIT_SECONDS = 10.0, 100, 240.0


def read(path):
    with open(path, encoding="utf-8", errors="replace") as it:
        return it.read()


def table(root):
    rows = {}
    for line in read(f"{root}/crates.txt").split("\n"):
        line = line.partition("#")[0].strip()
        if line:
            head, _, uses = line.partition(":")
            rows[head.split()[0]] = uses.split()
    return {it: [use for use in uses if use in rows] for it, uses in rows.items()}


class Size:
    def __init__(self, *parts):
        for it in ("code", "text", "functions", "tests", "edits", "names"):
            setattr(self, it, sum(getattr(part, it) for part in parts))

    @staticmethod
    def of(folder):
        found = Size()
        for part in ("src", "specs", "proofs"):
            for at, _, names in os.walk(f"{folder}/{part}"):
                for name in names:
                    text = read(f"{at}/{name}")
                    if name.endswith(".antt"):
                        found.text += text.count("\n")
                    elif name.endswith(".rt"):
                        text = re.sub(r"//[^\n]*", "", text)
                        found.code += text.count("\n")
                        found.functions += len(re.findall(r"\bfn\s+\w+", text))
                        found.functions += 0.5 * sum(len(it.split(",")) for it in re.findall(r"#\[derive\(([^)]*)\)", text))
                        found.tests += len(re.findall(r"#\[test\]", text))
                        for it in re.findall(r"(?m)^\s*ghost use ([^;]*);", text):
                            found.names += len(re.findall(r"[^\s,{}]+", it[it.find("{"):])) if "{" in it else 1
        edits = f"{folder}/must-fail"
        found.edits = len([it for it in os.listdir(edits) if it.endswith(".edit")]) if os.path.isdir(edits) else 0
        return found


class House:
    def __init__(self, uses, sizes):
        self.uses, self.sizes = uses, sizes
        self.below = functools.lru_cache(None)(self.below)
        self.ways = functools.lru_cache(None)(self.ways)
        self.chain = functools.lru_cache(None)(self.chain)

    def cycle(self):
        """Returns a cycle of the graph, or None."""
        state, path = {}, []

        def visit(it):
            state[it] = 1
            path.append(it)
            for use in self.uses[it]:
                if state.get(use) == 1:
                    return [*path[path.index(use):], use]
                if use not in state:
                    found = visit(use)
                    if found:
                        return found
            state[it] = 2
            path.pop()
            return None

        for it in self.uses:
            if it not in state:
                found = visit(it)
                if found:
                    return found
        return None

    def below(self, it):
        return frozenset(self.uses[it]).union(*[self.below(use) for use in self.uses[it]]) if self.uses[it] else frozenset()

    def ways(self, it):
        return 1 + sum(self.ways(use) for use in self.uses[it])

    def is_cases(self, it):
        return self.sizes[it].tests > 0

    def own(self, it):
        """Returns what a crate's code and texts take."""
        size = self.sizes[it]
        return CODE * size.code + TEXT * size.text

    def check(self, it):
        """Returns what its library takes. (A crate of cases has nothing to prove but its tests.)"""
        size = self.sizes[it]
        return CRATE + EMPTY * (size.functions > 0) + LIBRARY * len(self.below(it)) + (0 if self.is_cases(it) else self.own(it))

    def tests(self, it):
        if not self.is_cases(it):
            return 0.0
        size = self.sizes[it]
        return TEST_CRATE + BELOW * sum(self.sizes[use].code for use in self.below(it)) + TEST_FUNCTION * size.functions + TEXT * size.text

    def edits(self, it):
        number, whole = self.sizes[it].edits, self.check(it) - EMPTY
        return 0.0 if not number else whole if number == 1 else whole + (number + 1) * OVER_SEED

    def chain(self, it):
        return self.check(it) + max([self.chain(use) for use in self.uses[it]], default=0.0)

    def lanes(self, number):
        """Returns how long a run takes with so many processors: libraries and tests by the longest chain of code behind them, edits last."""
        above = {it: [] for it in self.uses}
        for it, uses in self.uses.items():
            for use in uses:
                above[use].append(it)
        rank = {}

        def behind(it):
            if it not in rank:
                rank[it] = self.sizes[it].code + max([behind(up) for up in above[it]], default=0)
            return rank[it]

        order = {it: behind(it) for it in self.uses}
        tasks = [(0, -order[it], it, "proof", self.check(it)) for it in self.uses]
        tasks += [(0, -self.sizes[it].code, it, "tests", self.tests(it)) for it in self.uses if self.is_cases(it)]
        tasks += [(1, -order[it], it, "edits", self.edits(it)) for it in self.uses if self.sizes[it].edits]
        tasks.sort()
        done, running, now, last_proof = set(), [], 0.0, 0.0
        while tasks or running:
            for task in [*tasks]:
                if len(running) == number:
                    break
                kind, _, it, what, cost = task
                needs = self.uses[it] if what != "edits" else [*self.uses[it], it]
                if all(use in done for use in needs):
                    tasks.remove(task)
                    running.append((now + cost, it, what))
            running.sort()
            now, it, what = running.pop(0)
            if what == "proof":
                done.add(it)
                last_proof = now
        return now, last_proof


def tell(title, house):
    found = [*house.uses]
    checks, tests, edits = (sum(call(it) for it in found) for call in (house.check, house.tests, house.edits))
    fixed = sum(house.check(it) - (0 if house.is_cases(it) else house.own(it)) for it in found)
    top = max(found, key=house.chain)
    print(f"{title}: {len(found)} crates, {sum(map(len, house.uses.values()))} uses")
    print(f"  minutes: libraries {checks / 60:.0f} (of that {fixed / 60:.0f} for crates as such), tests {tests / 60:.0f}, edits {edits / 60:.0f}; all {(checks + tests + edits) / 60:.0f}")
    print(f"  longest chain: {house.chain(top) / 60:.1f} minutes, to {top}")
    for number in (2, 4):
        now, last = house.lanes(number)
        print(f"  on {number} processors: {now / 60:.0f} minutes, the last library after {last / 60:.0f}")
    steps = sum(house.sizes[it].names * house.ways(it) for it in found)
    print(f"  ways of crates.txt: {sum(map(house.ways, found)):,}; times the names of ghost uses: {steps / 1e6:,.1f} million")


def path_of(house, it):
    found = [it]
    while house.uses[found[-1]]:
        found.append(max(house.uses[found[-1]], key=house.chain))
    return found


def reduced(house):
    """The same house with the fewest uses: what lies below another use is passed on by it."""
    uses = {it: [use for use in all if not any(use in house.below(other) for other in all)] for it, all in house.uses.items()}
    return House(uses, house.sizes)


def tables(map_text, groups, house):
    """Prints the mapping as tables."""
    for line in map_text.split("\n"):
        if line.startswith("# ---"):
            heading = line[5:].strip()
            print(f"\n### {heading[0].upper()}{heading[1:]}\n\n| crate | what it says | old crates, its modules | functions | code / specs and proofs | s | chain |\n|---|---|---|---|---|---|---|")
        row, _, said = line.partition("#")
        it = row.partition(":")[0].strip()
        if ":" in row:
            size, olds = house.sizes[it], " ".join(groups[it]) if groups[it] != [it] else "-"
            print(f"| `{it}` | {said.strip()} | {olds} | {size.functions:.0f} | {size.code} / {size.text} | {house.check(it) + house.tests(it):.0f} | {house.chain(it) / 60:.0f} |")


def main(words):
    sys.setrecursionlimit(10000)
    root = words[0]
    uses = table(root)
    sizes = {it: Size.of(f"{root}/crates/{it}") for it in uses}
    if "--edits" in words:
        # one edit in each of these crates, and no other
        at = words.index("--edits")
        kept = words[at + 1].split(",")
        for it in sizes:
            sizes[it].edits = 1 if it in kept else 0
        words = words[:at] + words[at + 2 :]
    now = House(uses, sizes)
    tell("now", now)
    if "--chain" in words:
        print("  " + " < ".join(f"{it} {now.check(it):.0f}s" for it in path_of(now, max(uses, key=now.chain))))
    if len(words) < 2 or words[1].startswith("--"):
        return 0
    groups, status = {}, 0
    for line in read(words[1]).split("\n"):
        line = line.partition("#")[0].strip()
        if line:
            new, _, olds = line.partition(":")
            groups[new.strip()] = olds.split()
    named = [old for olds in groups.values() for old in olds]
    for it in sorted({*named}):
        if it not in uses or named.count(it) > 1:
            print(f"{it}: {'no crate' if it not in uses else 'named twice'}")
            status = 1
    for it, olds in groups.items():
        if it in uses and it not in olds:
            print(f"{it}: another crate has this name")
            status = 1
    for it in uses:
        if it not in named:
            groups.setdefault(it, [it])
    if status:
        return status
    to = {old: new for new, olds in groups.items() for old in olds}
    sums = {new: Size(*[sizes[old] for old in olds]) for new, olds in groups.items()}
    over = {new: [*dict.fromkeys(to[use] for old in olds for use in uses[old] if to[use] != new)] for new, olds in groups.items()}
    new = House(over, sums)
    ring = new.cycle()
    if ring:
        print("a cycle: " + " > ".join(ring))
        for one, other in zip(ring, ring[1:]):
            print(f"  {one} uses {other}: " + ", ".join(f"{old}: {use}" for old in groups[one] for use in uses[old] if to[use] == other))
        return 1
    if "--table" in words:
        tables(read(words[1]), groups, new)
        return 0
    tell("new", new)
    tell("new, each use passed on", reduced(new))
    if "--chain" in words:
        print("  " + " < ".join(f"{it} {new.check(it):.0f}s" for it in path_of(new, max(over, key=new.chain))))
    for it in sorted(groups, key=lambda it: -new.check(it)):
        size = sums[it]
        if size.functions > LIMIT_FUNCTIONS * 1.25 or new.check(it) > LIMIT_SECONDS:
            print(f"  past a limit: {it}: {size.functions:.0f} functions, {new.check(it):.0f} s ({' '.join(groups[it])})")
    if "--list" in words:
        for it in sorted(groups, key=new.chain):
            size = sums[it]
            print(f"  {it}: {len(groups[it])} of old, {size.functions:.0f} functions, {size.code} lines of code, {size.text} of proofs, {new.check(it):.0f} s, edits {size.edits}")
    return 0


if __name__ == "__main__":
    sys.exit(main(sys.argv[1:]) if len(sys.argv) > 1 else print(__doc__))
