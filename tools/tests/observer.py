"""Runs in gdb: at each call of a function of the program, each pointer that is seen and what it points to.

The places that can be seen are the globals, the parameters and locals of all live functions, with the members of
structures, and the words of what was allocated. Each fact goes to the file that PTA_FACTS names, as a line of JSON:
the place's name and the target's. Names are those of pta's report, an allocated object has its file and line.
"""
import json
import os
from bisect import bisect_right

import gdb

PLAIN = ("malloc", "calloc", "realloc", "strdup")


class Observer:
    """What is known of the program while it runs."""

    def __init__(self, sources):
        self.sources, self.facts, self.blocks = sources, set(), {}
        self.functions, self.globals = {}, []
        self.left = int(os.environ.get("PTA_LIMIT", "1000"))

    def look_up(self):
        """Find the functions and globals of the program's files."""
        for source in self.sources:
            try:
                symtab = gdb.decode_line(f"{source}:1")[1][0].symtab
            except gdb.error:
                continue
            for block in (symtab.global_block(), symtab.static_block()):
                for symbol in block:
                    if symbol.symtab is None or os.path.basename(symbol.symtab.filename) not in self.sources:
                        continue
                    if symbol.is_function:
                        self.functions[int(symbol.value().address)] = symbol.name
                    elif symbol.is_variable and symbol.addr_class == gdb.SYMBOL_LOC_STATIC:
                        self.globals.append((symbol.name, symbol.value()))

    def live(self):
        """The named values that can be seen now: globals, and what live functions of the program have."""
        found = list(self.globals)
        frame = gdb.newest_frame()
        while frame is not None and frame.is_valid():
            if frame.function() and frame.function().symtab and \
                    os.path.basename(frame.function().symtab.filename) in self.sources:
                found += self.variables(frame)
            frame = frame.older()
        return found

    def variables(self, frame):
        """The parameters of a frame, and the locals that its function has come to."""
        block, line = frame.block(), frame.find_sal().line
        is_new = frame == gdb.newest_frame()
        while block is not None and not block.is_global and not block.is_static:
            for symbol in block:
                is_begun = symbol.is_argument or symbol.is_variable and not is_new and symbol.line < line
                if is_begun and not symbol.is_function:
                    yield f"{frame.function().name}/{symbol.name}", symbol.value(frame)
            if block.function:
                break
            block = block.superblock

    def observe(self):
        """Note all facts that can be seen now."""
        named = [(name, value) for name, value in self.live() if value.address is not None]
        ranges = [(int(value.address), value.type.sizeof, name) for name, value in named]
        ranges += [(at, size, name) for at, (size, name) in self.blocks.items()]
        ranges += [(at, 1, name) for at, name in self.functions.items()]
        ranges.sort()
        starts = [start for start, _, _ in ranges]
        for name, value in named:
            for place, pointer in members(name, value, 3):
                self.note(place, pointer, ranges, starts)
        memory = gdb.selected_inferior()
        for at, (size, name) in self.blocks.items():
            for offset in range(0, min(size, 4096) - 7, 8):
                word = int.from_bytes(memory.read_memory(at + offset, 8), "little")
                self.note(name, word, ranges, starts)

    def note(self, place, pointer, ranges, starts):
        """Note that a place has a pointer, if what it points to is known."""
        at = bisect_right(starts, pointer)
        for start, size, name in ranges[max(0, at - 4):at]:
            if start <= pointer < start + max(size, 1):
                self.facts.add((place, name))


def members(name, value, depth):
    """The pointers in a value, each with its name."""
    kind = value.type.strip_typedefs()
    if kind.code == gdb.TYPE_CODE_PTR:
        yield name, int(value)
    elif kind.code == gdb.TYPE_CODE_STRUCT and depth and kind.tag != "__va_list_tag":
        for field in kind.fields():
            if field.name and not field.bitsize:
                yield from members(f"{name}.{field.name}", value[field], depth - 1)
    elif kind.code == gdb.TYPE_CODE_ARRAY and depth:
        for index in range(min(kind.range()[1] + 1, 16)):
            yield from members(name, value[index], depth - 1)


class Called(gdb.Breakpoint):
    """A function of the program is called."""

    def stop(self):
        OBSERVER.left -= 1
        if OBSERVER.left >= 0:
            OBSERVER.observe()
        else:
            self.enabled = False
        return False


class Given(gdb.FinishBreakpoint):
    """An allocating function comes back."""

    def __init__(self, frame, size, name):
        super().__init__(frame, internal=True)
        self.size, self.name = size, name

    def stop(self):
        at = int(gdb.parse_and_eval("(unsigned long)$rax"))
        if at:
            OBSERVER.blocks[at] = (self.size, self.name)
        return False

    def out_of_scope(self):
        pass


class Allocated(gdb.Breakpoint):
    """An allocating function is called by the program."""

    def stop(self):
        frame = gdb.newest_frame()
        caller = frame.older()
        place = caller.find_sal() if caller is not None else None
        if place and place.symtab and os.path.basename(place.symtab.filename) in OBSERVER.sources:
            first, second = (int(gdb.parse_and_eval(f"(unsigned long)${name}")) for name in ("rdi", "rsi"))
            name = frame.name()
            known = next(one for one in PLAIN if one in name)
            size = {"malloc": first, "calloc": first * second, "realloc": second}.get(known, 1)
            Given(frame, size, f"@{os.path.basename(place.symtab.filename)}:{place.line}")
        return False


OBSERVER = Observer(os.environ["PTA_SOURCES"].split(":"))
gdb.execute("set pagination off")
gdb.execute("set confirm off")
gdb.execute("set width 0")
gdb.execute("break main")
gdb.execute("run")
gdb.execute("delete")
OBSERVER.look_up()
for function in OBSERVER.functions.values():
    Called(function, internal=True)
for allocating in PLAIN:
    Allocated(allocating, internal=True)
OBSERVER.observe()
gdb.execute("continue")
with open(os.environ["PTA_FACTS"], "w", encoding="utf-8") as stream:
    json.dump(sorted(OBSERVER.facts), stream)
gdb.execute("quit")
