"""What a unit declares outside of its functions, and which of it nothing uses."""
import re
from bisect import bisect_right

from .tokens import BRACKETS, Edit, is_word

KEYWORDS = frozenset("""
auto break case char const continue default do double else enum extern float for goto if inline int long register
restrict return short signed sizeof static struct switch typedef union unsigned void volatile while _Alignas _Alignof
_Atomic _Bool _Complex _Generic _Imaginary _Noreturn _Static_assert _Thread_local
__attribute__ __extension__ __asm__ asm __asm __inline __inline__ __const __volatile__ __signed__ __restrict
__restrict__ __builtin_va_list __typeof__ typeof __thread _Float32 _Float64 _Float128 _Float32x _Float64x
""".split())
TYPE_WORDS = frozenset("""
void char short int long unsigned signed float double _Bool const volatile struct union enum __const __volatile__
__signed__ restrict __restrict _Float32 _Float64 _Float128 _Float32x _Float64x __float128 __int128 _Atomic
__builtin_va_list _Complex
""".split())
ATTRIBUTES = frozenset(("__attribute__", "__asm__", "asm", "__asm", "_Alignas", "__typeof__", "typeof", "__attribute"))
_TAGS = frozenset(("struct", "union", "enum"))
_SYSTEM = re.compile(r'^# \d+ "((?:\\.|[^"\\])*)"([ \d]*)$', re.M)


def externals(text):
    """The declarations and definitions outside of functions, each as a range of tokens."""
    found, start, index, is_old = [], 0, 0, False
    tokens, partners = text.tokens, text.partners
    stops = [i for i, token in enumerate(tokens) if token == ";" or token in BRACKETS]
    for stop in stops:
        if stop < index:
            continue
        token = tokens[stop]
        if token == ";":
            if not is_old:
                found.append(range(start, stop + 1))
                start = stop + 1
            continue
        end = partners.get(stop, len(tokens) - 1)
        index = end + 1
        if token == "{" and (is_old or tokens[stop - 1] == ")" or _is_attributed(text, stop)) \
                and not _has_value(tokens, start, stop):
            found.append(range(start, end + 1))
            start, is_old = end + 1, False
        elif token == "(" and is_word(text.at(index)) and tokens[index] not in ATTRIBUTES \
                and is_word(text.at(stop - 1)) and tokens[stop - 1] not in ATTRIBUTES and start < stop \
                and "typedef" not in tokens[start:start + 2] and "_Static_assert" != tokens[stop - 1]:
            is_old = True
    return found


def _is_attributed(text, stop):
    """Whether what stands before a { is an attribute without parentheses behind a list of parameters."""
    return text.at(stop - 2) == ")" and text.at(stop - 1) in ("__extension__",)


def _has_value(tokens, start, stop):
    return tokens[stop - 1] != ")" and "=" in tokens[start:stop]


def declared(text, span):
    """The names that an external declares, as (index of the name, whether it is a function's)."""
    index, last = span[0], span[-1]
    is_body = text.tokens[last] == "}"
    while index <= last:
        end = min(text.find(index, ",", ";", "="), last)
        at = declarator_name(text, index, end)
        if at is not None and (at > span[0] or text.at(at + 1) == "("):
            yield at, text.at(at + 1) == "("
        if is_body and text.tokens[end] != "=":
            return
        index = min(text.find(end, ",", ";"), last) + 1


def function_names(text):
    """The functions that a text declares or defines."""
    return {text.tokens[index] for span in externals(text) if "typedef" not in text.tokens[span[0]:span[0] + 3]
            for index, is_function in declared(text, span) if is_function}


def declarator_name(text, start, end):
    """The index of the name in a declarator, with the specifiers before it or without; None for a mere type."""
    tokens, index = text.tokens, start
    name = None
    while index < end:
        token = tokens[index]
        if token in ATTRIBUTES:
            index = text.closing(index + 1) + 1
        elif token == "(":
            inner = text.closing(index)
            if tokens[index + 1] in ("*", "^") or text.at(inner + 1) == "(" and inner < end:
                return _inner_name(text, index + 1)
            return name
        elif token == "[":
            return name
        elif token == ":":
            return name
        elif token in _TAGS:
            index += 1
            while tokens[index] in ATTRIBUTES:
                index = text.closing(index + 1) + 1
            index += is_word(tokens[index])
        elif token == "{":
            index = text.closing(index) + 1
        else:
            if is_word(token) and token not in KEYWORDS:
                name = index
            index += 1
    return name if name is not None and name > start else None if start == name and end - start > 1 else name


def _inner_name(text, index):
    """The name inside of the parentheses of a declarator."""
    while index < len(text.tokens):
        token = text.tokens[index]
        if token in ATTRIBUTES:
            index = text.closing(index + 1)
        elif is_word(token) and token not in KEYWORDS:
            return index
        elif token == ")":
            return None
        index += 1
    return None


def typedef_names(text, spans):
    """The names that the typedefs among the externals declare, each with the range of its declarator."""
    names = {}
    for span in spans:
        if "typedef" in text.tokens[span[0]:span[0] + 3]:
            index = span[0]
            while index < span[-1]:
                end = min(text.find(index, ",", ";"), span[-1])
                at = declarator_name(text, index, end)
                if at is not None:
                    names[text.tokens[at]] = range(index, end)
                index = end + 1
    return names


def pointer_typedefs(text, typedefs):
    """The typedef names that stand for pointers."""
    pointers, grew = set(), True
    while grew:
        before = len(pointers)
        for name, span in typedefs.items():
            depth = text.tokens[span.start:span.stop]
            if name not in pointers and ("*" in _outside_braces(text, span) or any(w in pointers for w in depth[:3])):
                pointers.add(name)
        grew = len(pointers) > before
    return frozenset(pointers)


def _outside_braces(text, span):
    """The tokens of a declarator but for the bodies of structures and the lists of parameters."""
    found, index = [], span.start
    while index < span.stop:
        token = text.tokens[index]
        if token == "{" or token == "(" and text.at(index - 1) not in _TAGS and text.at(index + 1) != "*":
            index = text.closing(index)
        else:
            found.append(token)
        index += 1
    return found


def without_unused(text, roots=None):
    """The text without the declarations of system headers that nothing in the unit uses.

    What stands in other files is kept, but for static inline functions and mere declarations of names that the unit
    doesn't mention, and of system headers what declares a word that is kept, again and again. With roots only what
    they use is kept, wherever it stands.
    """
    spans = externals(text)
    is_system = _system_places(text)
    by_name, needed = {}, set()
    for number, span in enumerate(spans):
        if roots is not None or is_system(span[0]) or _is_static_inline(text, span):
            words = declared_words(text, span)
        else:
            words = merely_declared(text, span)
        for word in words:
            by_name.setdefault(word, []).append(number)
        if not words:
            needed.add(number)
    waiting = sorted(needed)
    words = set(roots or ())
    while waiting or words:
        if not words:
            words = mentioned_words(text, _without_copy(text, spans[waiting.pop()]))
        for number in by_name.pop(words.pop(), ()):
            if number not in needed:
                needed.add(number)
                waiting.append(number)
    return text.edited([Edit(span[0], span[-1] + 1) for number, span in enumerate(spans) if number not in needed] +
                       [edit for number in needed for edit in _copy_edits(text, spans[number])])


def merely_declared(text, span):
    """The names of functions and `extern` objects that an external declares, where it does nothing else; none otherwise.

    Where no other external mentions one of them, other units may declare it in another way.
    """
    words = text.tokens[span[0]:span[-1]]
    if text.tokens[span[-1]] != ";" or not {"typedef", "{", "=", "static"}.isdisjoint(words):
        return set()
    found = [(text.tokens[index], is_function) for index, is_function in declared(text, span)]
    return {name for name, _ in found} if all(is_one or "extern" in words for _, is_one in found) else set()


def _is_static_inline(text, span):
    """Whether a definition is one of a function that its unit has to use, to have it at all."""
    words = text.tokens[span[0]:min(span[0] + 4, span[-1])]
    return text.tokens[span[-1]] == "}" and "static" in words \
        and not {"inline", "__inline", "__inline__"}.isdisjoint(words)


def _without_copy(text, span):
    """The range without the body of a mere inline copy of a function that is defined elsewhere."""
    return range(span[0], text.opening(span[-1])) if is_copy(text, span) else span


def is_copy(text, span):
    """Whether a definition is a mere inline copy of a function that is defined elsewhere (GNU C)."""
    return text.tokens[span[-1]] == "}" and text.tokens[span[0]] in ("extern", "__extension__") \
        and not _COPY_WORDS.isdisjoint(text.tokens[span[0]:text.opening(span[-1])])


def _copy_edits(text, span):
    """The edits that make a mere inline copy a declaration."""
    if not is_copy(text, span):
        return []
    words = [index for index in span[:8] if text.tokens[index] in ("inline", "__inline", "__inline__")]
    return [Edit(text.opening(span[-1]), span[-1] + 1, ";")] + [Edit(index, index + 1) for index in words]


_COPY_WORDS = frozenset(("gnu_inline", "__gnu_inline__"))


def _system_places(text):
    """Whether a token stands in a system header, by the linemarkers in the gaps: a function of its index.

    A file that a marker tells without the flag of system headers is none: the flag stands behind their macros too.
    """
    marks = [(index, found[-1]) for index, gap in enumerate(text.gaps) if "#" in gap
             for found in [_SYSTEM.findall(gap)] if found]
    own = {file for gap in text.gaps if "#" in gap for file, flags in _SYSTEM.findall(gap) if " 3" not in flags}
    starts = [-1] + [index for index, _ in marks]
    kinds = [False] + [" 3" in flags and file not in own for _, (file, flags) in marks]
    return lambda index: kinds[bisect_right(starts, index) - 1]


def declared_words(text, span):
    """The words that an external declares, and maybe more: names, tags, enumerators."""
    tokens, start, last = text.tokens, span[0], span[-1]
    if tokens[start] != "typedef":
        for index in range(start, last):
            token = tokens[index]
            if token == "(" and is_word(tokens[index - 1]) and tokens[index - 1] not in KEYWORDS:
                return {tokens[index - 1]}
            if token == "(" and tokens[index + 1] == "*":
                name = declarator_name(text, start, index + 1)
                return {tokens[name]} if name is not None else set(filter(is_word, tokens[start:last]))
            if token in ("{", "=", "(", ";"):
                break
    if "{" in tokens[start:last]:
        return _tag_words(text, span)
    return set(filter(is_word, mentioned_words(text, span))) - KEYWORDS


def mentioned_words(text, span):
    """The words of an external; a tag has its keyword before it."""
    tokens = text.tokens[span[0]:span[-1] + 1]
    if _TAGS.isdisjoint(tokens):
        return set(tokens)
    return {"struct " + token if before in _TAGS else token for before, token in zip(["", *tokens], tokens)}


def _tag_words(text, span):
    """The words outside of braces, tags everywhere, and enumerators."""
    tokens, words, index = text.tokens, set(), span[0]
    while index <= span[-1]:
        token = tokens[index]
        if token in _TAGS:
            words.add("struct " + tokens[index + 1])
            if token == "enum" and "{" in tokens[index + 1:index + 3]:
                start = text.find(index, "{")
                words.update(word for word in tokens[start:text.closing(start)] if is_word(word))
        index += 1
    index = span[0]
    while index <= span[-1]:
        if tokens[index] == "{":
            index = text.closing(index)
        elif is_word(tokens[index]) and tokens[index - 1] not in _TAGS:
            words.add(tokens[index])
        index += 1
    return words - KEYWORDS
