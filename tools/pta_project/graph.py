"""The call graph of a report: as Graphviz DOT, or as one page that shows it and searches the sets."""
import argparse
import json
import os
import re
import sys
from typing import NamedTuple

from .facts import KNOWN
from .catalogue import catalogue

PAGE = os.path.join(os.path.dirname(os.path.abspath(__file__)), "page.html")
_PLACE = re.compile(r"((?:[\w./+-]+/)?[\w.+-]+\.[A-Za-z]\w*):(\d+):(\d+)$")
_OWN = re.compile(r"^([\w./+-]+\.\w+):(?=[A-Za-z_])")


class Report(NamedTuple):
    """A report: its sets and calls by name, and its edges."""
    sets: dict
    calls: dict
    edges: list


def read_report(text):
    """A report from its text, plain or JSON; ValueError where it's none."""
    return _read_json(json.loads(text)) if text.lstrip().startswith("{") else _read_plain(text)


def _read_plain(text):
    lines = text.split("\n")
    if not lines or not re.match(r"pta \d+$", lines[0]) or "end" not in lines[-2:]:
        raise ValueError("no whole report")
    report = Report({}, {}, [])
    for line in lines[1:lines.index("end")]:
        word, _, rest = line.partition(" ")
        if word == "edge":
            report.edges.append(tuple(rest.split(" ")))
        elif word in ("set", "call"):
            name, _, members = rest.partition(": ") if ": " in rest else (rest.removesuffix(":"), "", "")
            (report.sets if word == "set" else report.calls)[name] = members.split()
    return report


def _read_json(told):
    """A report from JSON: lists of sets and calls with a name or place and members, and of edges."""
    report = Report({}, {}, [])
    for key, kept in (("sets", report.sets), ("calls", report.calls)):
        for one in told.get(key, ()):
            name = next(one[word] for word in ("name", "set", "place", "call", "at") if word in one)
            kept[name] = [_word(member) for word in ("members", "targets", "to", "set") if isinstance(one.get(word), list)
                          for member in one[word]]
    for edge in told.get("edges", ()):
        ends = [edge[a] for a in ("from", "caller") if a in edge] + [edge[b] for b in ("to", "callee") if b in edge] \
            if isinstance(edge, dict) else edge
        report.edges.append(tuple(map(_word, ends)))
    return report


def _word(one):
    return one["name"] if isinstance(one, dict) else one


def reached(edges, start, depth, backwards=False):
    """The functions that are reached from one over at most so many edges; with it."""
    following = {}
    for caller, callee in edges:
        following.setdefault(callee if backwards else caller, []).append(caller if backwards else callee)
    found, waiting = {start}, [start]
    while waiting and depth != 0:
        waiting = [one for name in waiting for one in following.get(name, ()) if not (one in found or found.add(one))]
        depth -= 1
    return found


def chosen_edges(report, source, target, depth):
    """The edges between functions that stand on a way from the source and to the target."""
    kept = None
    for start, backwards in ((source, False), (target, True)):
        if start:
            names = {name for edge in report.edges for name in edge}
            if start not in names:
                raise ValueError(f"no edge has {start}")
            found = reached(report.edges, start, depth, backwards)
            kept = found if kept is None else kept & found
    return [edge for edge in report.edges if kept is None or set(edge) <= kept]


def kinds(edges):
    """For each function of the edges its unit (None where the report doesn't tell it), and whether it's known as the library's."""
    found = {}
    for name in dict.fromkeys(name for edge in edges for name in edge):
        own = _OWN.match(name)
        is_library = own is None and (name in KNOWN or name in catalogue())
        found[name] = (own[1] if own else None, is_library)
    return found


def pointer_targets(report):
    """The functions that a call through a pointer may have as targets."""
    return {target for targets in report.calls.values() for target in targets}


def is_dashed(report, edge, targets):
    """Whether an edge may be one through a pointer: its callee is a target of such a call."""
    return edge[1] in targets


def dot(report, edges):
    """The DOT text of the edges: units are clusters, library functions grey, targets of pointers dashed."""
    lines = ["digraph calls {", "  rankdir=LR;", "  node [shape=box, fontname=\"sans-serif\", fontsize=10];"]
    known, units = kinds(edges), {}
    for name, (unit, is_library) in known.items():
        units.setdefault(unit, []).append((name, is_library))
    for number, unit in enumerate(sorted(units, key=lambda unit: unit or "")):
        inside = "  " if unit is None else "    "
        if unit is not None:
            lines += [f"  subgraph cluster_{number} {{", f"    label={_quoted(unit)};"]
        for name, is_library in units[unit]:
            grey = ", color=grey, fontcolor=grey" if is_library else ""
            label = _OWN.sub("", name)
            lines.append(f"{inside}{_quoted(name)} [label={_quoted(label)}{grey}];")
        if unit is not None:
            lines.append("  }")
    targets = pointer_targets(report)
    for edge in edges:
        dashed = " [style=dashed]" if is_dashed(report, edge, targets) else ""
        lines.append(f"  {_quoted(edge[0])} -> {_quoted(edge[1])}{dashed};")
    return "\n".join(lines + ["}", ""])


def _quoted(text):
    return '"' + text.replace("\\", "\\\\").replace('"', '\\"') + '"'


def page(report, edges, base):
    """One page that shows the edges and searches the sets; names link to the source below the base."""
    known, targets = kinds(edges), pointer_targets(report)
    told = {
        "base": base,
        "functions": [[name, unit or "", int(is_library)] for name, (unit, is_library) in known.items()],
        "edges": [[*edge, int(is_dashed(report, edge, targets))] for edge in edges],
        "sets": [[name, members] for name, members in report.sets.items()],
        "calls": [[name, members] for name, members in report.calls.items()],
    }
    with open(PAGE, encoding="utf-8") as stream:
        return stream.read().replace("\"REPORT\"", json.dumps(told).replace("<", "\\u003c"))


def main(words):
    """Run the command; its exit status."""
    parser = argparse.ArgumentParser(prog="pta-graph", description="The call graph of a report of pta.")
    parser.add_argument("report", help="a report of pta or pta-project; - for the standard input")
    parser.add_argument("--from", dest="source", metavar="F", help="only what F calls, directly or not")
    parser.add_argument("--to", dest="target", metavar="F", help="only what calls F, directly or not")
    parser.add_argument("--depth", type=int, default=-1, metavar="N", help="over at most N edges")
    parser.add_argument("--html", action="store_true", help="a page in place of DOT")
    parser.add_argument("--base", default="", help="with --html: the folder of the sources, for the links")
    options = parser.parse_args(words)
    try:
        if options.report == "-":
            text = sys.stdin.read()
        else:
            with open(options.report, encoding="latin-1") as stream:
                text = stream.read()
        report = read_report(text)
        edges = chosen_edges(report, options.source, options.target, options.depth)
    except (OSError, ValueError) as fault:
        print(f"pta-graph: {fault}", file=sys.stderr)
        return 1
    sys.stdout.write(page(report, edges, options.base) if options.html else dot(report, edges))
    return 0
