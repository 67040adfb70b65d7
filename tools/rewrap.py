#!/usr/bin/env python3
"""Wraps anew each paragraph of a Markdown page that has a line over 140 characters (tables and code blocks stay): rewrap.py FILE.."""
import re, sys, textwrap
for p in sys.argv[1:]:
    lines = open(p).read().split('\n'); out = []; i = 0; code = False
    while i < len(lines):
        l = lines[i]
        if l.startswith('```'): code = not code
        if code or not l.strip() or l.lstrip().startswith(('|', '#', '```')) or l.startswith('    '):
            out.append(l); i += 1; continue
        m = re.match(r'( *)((?:[-*]|\d+\.) )?', l); ind = m[1]; mark = m[2] or ''
        j = i + 1
        while j < len(lines) and lines[j].strip() and not re.match(r' *(?:[-*]|\d+\.) |\||#|```', lines[j]): j += 1
        block = lines[i:j]
        if any(len(x) > 140 for x in block):
            text = ' '.join(x.strip() for x in block)
            first = ind + mark; rest = ind + ' ' * len(mark)
            body = text[len(mark):] if mark else text
            block = textwrap.wrap(body, 140, initial_indent=first, subsequent_indent=rest, break_long_words=False, break_on_hyphens=False)
        out += block; i = j
    open(p, 'w').write('\n'.join(out))
