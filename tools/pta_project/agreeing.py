"""Declarations of one name that don't agree between units become that of the definition."""
from .declarations import TYPE_WORDS, declared, externals, typedef_names
from .records import records
from .rewriting import EXACT, HOLE, Rewrite, inserted, one, replaced
from .tokens import is_word

_NUMBERS = frozenset("char short int long unsigned signed float double _Bool const volatile extern register".split())


def _spans(text, name):
    """The declarations and definitions of a name alone, each as a range of tokens, with whether it's a definition."""
    for span in externals(text):
        words = text.tokens[span[0]:span[-1]]
        if name in words and "typedef" not in words[:3] and "static" not in words[:3]:
            found = [text.tokens[index] for index, _ in declared(text, span)]
            if found == [name]:
                is_function = any(is_one for _, is_one in declared(text, span))
                yield span, text.tokens[span[-1]] == "}" and is_function or not is_function and "extern" not in words


def definition_of(text, name):
    """The declaration, as tokens, that the definition of a name in a text begins with; None without one."""
    for span, is_definition in _spans(text, name):
        if is_definition:
            words = text.tokens[span[0]:span[-1] + 1]
            head = words[:min(words.index(mark) for mark in ("{", "=", ";") if mark in words)]
            typedefs = typedef_names(text, externals(text))
            return [part for word in head for part in _numbers_of(text, word, typedefs)]
    return None


def _numbers_of(text, word, typedefs):
    """The words of a number's type for which a typedef's name stands; else the word itself."""
    seen = set()
    words = [word]
    while len(words) == 1 and words[0] in typedefs and words[0] not in seen:
        seen.add(words[0])
        span = typedefs[words[0]]
        words = [token for token in text.tokens[span.start:span.stop] if token not in ("typedef", words[0])]
    return words if words and set(words) <= _NUMBERS else [word]


def agreeing(text, name, source, typedefs):
    """The rewrites that make a text's declarations of a name that of its definition.

    Exact where the two differ in the kinds of numbers alone; a list of parameters that isn't told is made one.
    """
    for span, is_definition in _spans(text, name):
        words = text.tokens[span[0]:span[-1]]
        if is_definition or words == source or _plain(words) == ["extern", *source]:
            continue
        known = all(word in TYPE_WORDS or word in typedefs or word in text.tokens or _is_parameter(source, index)
                    for index, word in enumerate(source) if is_word(word))
        grade = EXACT if _shape(words, name) == _shape(source, name) else HOLE
        if known and text.origins[span[0]] < 0 and len(span) == 5:
            yield _moved(text, span, name, source)
            return
        if known:
            yield Rewrite(grade, f"{name} declared as it's defined", span[0],
                          (replaced(span, " ".join(["extern", *source, ";"])),))
            return


def _is_parameter(words, index):
    """Whether a word of a declaration is a parameter's name."""
    return "".join(words[index + 1:index + 2]) in (",", ")", "[") \
        and words[index - 1] not in ("(", ",", "struct", "union", "enum")


def _moved(text, span, name, source):
    """A function that the compiler declares by its use is declared before it as it's defined."""
    use = next(one[0] for one in externals(text) if one[0] > span[-1] and name in text.tokens[one[0]:one[-1]])
    return Rewrite(EXACT, f"{name} declared as it's defined", span[0],
                   (replaced(span), inserted(use, " ".join(["extern", *source, ";"]))))


def _plain(words):
    return [word for word in words if word != "__extension__"]


def _shape(words, name):
    """What is left of a declaration without numbers' words and the names of parameters."""
    kept = [word for word in words if word not in _NUMBERS]
    return [word for index, word in enumerate(kept)
            if word == name or not is_word(word) or index and kept[index - 1] in ("struct", "union")]


def differing_tags(texts, name):
    """The tags under which one structure is known to some units alone, each with its tag where it is complete.

    They are found where a typedef, or the conflicting name's declaration, has two tags in two units, and one of the
    two is complete in no unit.
    """
    complete = {tag for text in texts for record in records(text) if record.opening is not None for tag in record.names}
    seen, found = {}, {}
    for text in texts:
        heads = [(word, span) for word, span in typedef_names(text, externals(text)).items()]
        for word, span in heads + [(None, span) for span, _ in _spans(text, name)]:
            words = text.tokens[span.start:span.stop]
            words = words[:words.index("{")] if word is None and "{" in words else words
            found.update(_pairs(words, seen.setdefault(word, words), complete))
    return found


def _pairs(words, others, complete):
    """The tags, complete nowhere, that stand in one of two lists of words in the place of complete ones in the other."""
    if len(words) != len(others):
        return
    for before, word, other in zip(words, words[1:], others[1:]):
        if word != other and before in ("struct", "union") and (word in complete) != (other in complete):
            yield (other, word) if word in complete else (word, other)


def with_tag(text, tag, other):
    """The rewrite that gives a text's structure of a tag another tag; None where it isn't mentioned."""
    at = [index for index in range(1, len(text.tokens))
          if text.tokens[index] == tag and text.tokens[index - 1] in ("struct", "union")]
    return Rewrite(EXACT, f"structure {tag} is {other}", at[0], tuple(one(index, other) for index in at)) if at else None


def hidden_structures(text, name, other):
    """The rewrites that put a structure in the place of a `void`, or a typedef of it, behind which a declaration hides it.

    The other text has the definition, which tells the structure's tag in the same place.
    """
    typedefs, defined = (typedef_names(one, externals(one)) for one in (text, other))
    for span, is_definition in _spans(text, name):
        head = next((one for one, is_one in _spans(other, name) if is_one), None)
        if is_definition or head is None:
            continue
        edits = []
        for part, whole in zip(_parts(text, span, name), _parts(other, head, name)):
            tag = _tag(other, other.tokens[whole.start:whole.stop], defined)
            named = [text.tokens[at] for at in part if text.tokens[at] in typedefs]
            hidden = [word for word in named if tag and _is_void(text, word, typedefs[word])]
            if hidden:
                at = next(index for index in typedefs[hidden[0]] if text.tokens[index] == hidden[0])
                yield Rewrite(EXACT, f"{hidden[0]}, a typedef of void, is structure {tag}", at,
                              (one(text.find_back(at, "void", ";"), f"struct {tag}"),))
                return
            edits += [edit for at in part if tag and text.tokens[at] == "void" and text.at(at + 1) == "*"
                      for edit in (inserted(span[0], f"struct {tag};"), one(at, f"struct {tag}"))]
        if edits:
            yield Rewrite(EXACT, f"{name} declared with the structures of its definition", span[0], tuple(edits))
            return


def _parts(text, span, name):
    """What a function's declaration has before its name, and each of its parameters, as ranges."""
    at = next(index for index in span if text.tokens[index] == name)
    if text.at(at + 1) == "(":
        yield range(span[0], at)
        yield from text.arguments(at + 1)


def _is_void(text, word, span):
    """Whether a typedef's name stands for `void`."""
    return text.tokens[span.start:span.stop][-2:] == ["void", word] or text.at(span.start - 1) == "void" \
        and text.tokens[span.start:span.stop] == [word]


def _tag(text, words, typedefs):
    """The tag of the structure of which some words tell, by itself or by a typedef; None without one."""
    for index, word in enumerate(words):
        if word in ("struct", "union"):
            return words[index + 1]
        if word in typedefs:
            inner = text.tokens[typedefs[word].start:typedefs[word].stop]
            at = next((place for place, one_word in enumerate(inner) if one_word == "struct"), None)
            if at is not None and is_word(inner[at + 1]) and inner[at + 1] != "__attribute__":
                return inner[at + 1]
    return None
