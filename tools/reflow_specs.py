#!/usr/bin/env python3
"""Breaks lines that are too long: a premise a line, long lists of names in several use lines, comments wrapped.

usage: reflow_specs.py FILE..       (files of specs/, and .rt: there lines of contracts, ghost uses and documents alone, over 140
                                    characters; then run rt fmt, which has the last word on layout)
"""
import re
import sys
import textwrap

WIDTH = 116
OPEN, CLOSE = "([{⟦", ")]}⟧"
LEVELS = [[" → "], [" ↔ "], [" ⊎ "], [" × "], [" ; "], [" ≡ ", " < ", " ≤ "], [" ++ ", " ∷ ", " || ", " && ", " ∙ "], [" then ", " else "], [" + ", " - "], [", "], ["; "], [" ("], [" "]]


def depths(text):
    found, at, inside = [], 0, False
    for it in text:
        if it == '"':
            inside = not inside
        if not inside and it in CLOSE:
            at -= 1
        found.append(at if not inside else 99)
        if not inside and it in OPEN:
            at += 1
    return found


def cuts(text, seps, depth, deep):
    found = []
    for sep in seps:
        at = text.find(sep, 1)
        while at > 0:
            if deep[at] == depth and text[:at].strip():
                # an operator begins the next line, a comma ends its own
                found.append(at + 1 if not sep.startswith((",", ";")) else at + len(sep))
            at = text.find(sep, at + 1)
    return sorted(set(found))


def broken(text, room):
    """Returns the text in pieces no longer than room where it can."""
    if len(text) <= room:
        return [text]
    deep = depths(text)
    for depth in range(0, 8):
        for number, seps in enumerate(LEVELS):
            places = cuts(text, seps, depth, deep)
            # (a cut right behind the first word of an operator's line gains nothing)
            places = [it for it in places if len(text[:it].strip()) > 2]
            if not places:
                continue
            pieces = [text[a:b].rstrip() for a, b in zip([0, *places], [*places, len(text)])]
            if depth > 0 or number > 0:
                lines = [pieces[0]]
                for it in pieces[1:]:
                    if len(lines[-1]) + 1 + len(it) <= room:
                        lines[-1] += " " + it
                    else:
                        lines.append(it)
                pieces = lines
            if len(pieces) < 2 or (seps == [" "] and depth < 3 and max(map(len, pieces)) > room and any(text.count(o) for o in OPEN)):
                if len(pieces) < 2:
                    continue
            out = []
            for it in pieces:
                out += broken(it.strip(), room - 2)
            return out
    return [text]


def use_lines(line):
    it = re.match(r"^(\s*(?:pub )?use [^{]*\{)(.*)\}\s*$", line)
    if not it:
        return [line]
    names, rows, row = [one.strip() for one in it[2].split(",") if one.strip()], [], ""
    for name in names:
        if row and len(it[1]) + len(row) + len(name) + 3 > WIDTH:
            rows.append(row)
            row = name
        else:
            row = f"{row}, {name}" if row else name
    rows.append(row)
    return [it[1] + row + "}" for row in rows]


def lines_of(line):
    if len(line) <= WIDTH or line.lstrip().startswith("--") or " -- " in line:
        return [line]
    if re.match(r"\s*(pub )?use ", line):
        return use_lines(line)
    indent = len(line) - len(line.lstrip())
    text = line.strip()
    deep = depths(text)
    # a definition's body goes on its own line
    at = next((m.start() for m in re.finditer(r" = ", text) if deep[m.start()] == 0), -1)
    starts = re.match(r"(pub |abbrev |unfoldable |data |record )*[^\s(){}→]+( [^\s()→]+| \([^()]*\)| \{[^{}]*\})* [:=] ", text) is not None
    if at > 0 and starts and not text.startswith(("→", "let ", "(")):
        head, body = text[: at + 2], text[at + 3 :]
        out = [" " * indent + head]
        pieces = broken(body, WIDTH - indent - 4)
        return out + [" " * (indent + 4) + it for it in pieces]
    pieces = broken(text, WIDTH - indent - 6)
    more = indent + 4 if starts else indent + 2 if not text.startswith("→") else indent
    return [" " * indent + pieces[0]] + [" " * more + it for it in pieces[1:]]


def comments(lines):
    """Wraps runs of comment lines of which one is too long."""
    out, at = [], 0
    while at < len(lines):
        it = re.match(r"^(\s*-- )(?=\S)", lines[at])
        end = at
        while it and end < len(lines) and lines[end].startswith(it[1]) and lines[end][len(it[1]):len(it[1]) + 1].strip():
            end += 1
        if it and any(len(line) > WIDTH for line in lines[at:end]):
            text = " ".join(line[len(it[1]) :].strip() for line in lines[at:end])
            out += textwrap.wrap(text, WIDTH, initial_indent=it[1], subsequent_indent=it[1], break_long_words=False, break_on_hyphens=False)
            at = end
        else:
            out.append(lines[at])
            at += 1
    return out


def contract_lines(line):
    """A line of a `.rt` file in several, where it is of a contract, a ghost use or a document and over 140 characters."""
    if len(line) <= 140:
        return [line]
    use = re.match(r"^(\s*)(ghost use )([^{]*\{)(.*)\};\s*$", line)
    if use:
        made = use_lines(f"{use[1]}use {use[3]}{use[4]}}}")
        return [it.replace("use ", use[2], 1) + ";" for it in made]
    document = re.match(r"^(\s*//[/!] )(?=\S)", line)
    if document:
        return textwrap.wrap(line[len(document[1]) :], 138, initial_indent=document[1], subsequent_indent=document[1],
                             break_long_words=False, break_on_hyphens=False)
    clause = re.match(r"^(\s*)((?:ensures|requires|invariant)(?: \w+)? \{ )(.*) \}$", line)
    if clause:
        pieces = broken(clause[3], 128 - len(clause[1]))
        more = clause[1] + "    "
        if len(clause[1]) + len(clause[2]) + len(pieces[0]) > 136:
            return [line]
        made = [clause[1] + clause[2] + pieces[0], *[more + it for it in pieces[1:]]]
        return [*made[:-1], made[-1] + " }"]
    more = re.match(r"^(\s+)([≡×→(λ⊎\w].*?)((?: →)?(?: \})?)$", line)
    if more and re.search(r"[≡×λ⊎]|\.now|\.new|\.items", line):
        pieces = broken(more[2], 130 - len(more[1]))
        made = [more[1] + pieces[0], *[more[1] + "    " + it for it in pieces[1:]]]
        return [*made[:-1], made[-1] + more[3]]
    return [line]


def main(files):
    for file in files:
        with open(file, encoding="utf-8") as it:
            text = it.read()
        if file.endswith(".rt"):
            made = "\n".join(one for line in text.split("\n") for one in contract_lines(line))
            if made != text:
                with open(file, "w", encoding="utf-8") as it:
                    it.write(made)
            continue
        made = "\n".join(one for line in comments(text.split("\n")) for one in lines_of(line))
        if re.sub(r"\s+|^(pub )?use .*$", "", made) and made != text:
            with open(file, "w", encoding="utf-8") as it:
                it.write(made)


main(sys.argv[1:])
