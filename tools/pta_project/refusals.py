"""Rewrites for what pta refuses still: one function for each kind, (Case) -> what may mend it, the best first."""
from typing import NamedTuple

from .conversions import NUMBER
from .converting import CONSTANT, constant_to_function, constant_to_object
from .declarations import declared, externals
from .hoisting import hoisted
from .rewriting import (NOISY, converted, exact, hole, inserted, is_cast, is_quiet, is_type, merged, one, operand,
                        replaced)
from .tokens import Text, is_number, is_word

BY_KIND = {}


class Case(NamedTuple):
    """A refusal in a unit: the text, the refused token's index, the unit's facts."""
    text: Text
    index: int
    facts: object

    @property
    def word(self):
        """The refused token."""
        return self.text.at(self.index)


def kinds(*names):
    """Register the function for kinds of refusals."""
    def register(function):
        BY_KIND.update(dict.fromkeys(names, function))
        return function
    return register


def candidates(case, kind):
    """The rewrites for a kind, and behind them what always helps: to leave out a body or a value."""
    make = BY_KIND.get(kind)
    if make:
        yield from make(case)
    yield from left_out(case)


def external_at(text, index):
    """The declaration or definition outside of functions in which a token stands."""
    return next((span for span in externals(text) if index in span), range(index, index + 1))


def left_out(case):
    """The function's body, the object's value, the declaration: left out, each a hole."""
    text = case.text
    span = external_at(text, case.index)
    value = text.find(span[0], "=")
    if text.tokens[span[-1]] == "}":
        body = text.opening(span[-1])
        if case.index > body:
            yield from _statement_left_out(case, body)
            yield hole(f"body left out at {case.word}", case.index, replaced(range(body, span[-1] + 1), "{ }"))
        yield hole(f"definition to a declaration at {case.word}", case.index,
                   replaced(range(body, span[-1] + 1), ";"))
    elif value < case.index:
        yield hole(f"value left out at {case.word}", case.index, replaced(range(value, span[-1])))
    grade = exact if _is_unused(text, span) else hole
    yield grade(f"declaration left out at {case.word}", case.index, replaced(span))


def _is_unused(text, span):
    """Whether a declaration, which is no definition of an object with a value, declares names that stand nowhere else."""
    words = text.tokens[span[0]:span[-1] + 1]
    names = [text.tokens[index] for index, _ in declared(text, span)]
    return bool(names) and "extern" in words and not {"{", "="} & {words[-1], *words[:3]} \
        and all(text.tokens.count(name) == words.count(name) for name in names)


def _statement_left_out(case, body):
    """The expression statement in which the refused token stands."""
    text = case.text
    start = text.find_back(case.index, ";", "{", "}")
    while text.at(start) == "{" and start > body and text.at(start - 1) in ("=", ",", "{", "("):
        start = text.find_back(start, ";", "{", "}")
    end = text.find(case.index, ";")
    first = text.at(start + 1)
    if start >= body and end < len(text.tokens) and is_word(first) and not is_type(text, start + 1, case.facts.typedefs) \
            and first not in ("if", "for", "while", "switch", "return", "do", "else", "case", "default", "goto"):
        yield hole(f"statement left out at {case.word}", case.index, replaced(range(start + 1, end)))


# Syntax

@kinds("vla")
def variable_length(case):
    """All elements of an array are one, so one element will do."""
    text, start = case.text, case.index
    while text.at(start) not in ("[", ""):
        start += 1
    while text.at(start) == "[":
        inner = range(start + 1, text.closing(start))
        if inner and not (len(inner) == 1 and is_number(text.tokens[inner[0]])):
            yield (exact if is_quiet(text, inner) else hole)("variable length to 1", start, replaced(inner, "1"))
        start = text.closing(start) + 1


@kinds("flexible-member")
def flexible_member(case):
    """v[] that no structure's end shows becomes v[1]."""
    text = case.text
    name = text.at(case.index + (case.word in (".", "->")))
    edits = [inserted(at + 2, "1") for at in range(len(text.tokens) - 2)
             if text.tokens[at:at + 3] == [name, "[", "]"]]
    return [exact("array without a length to one of 1", case.index, *edits)] if edits else []


@kinds("asm")
def assembly(case):
    """An asm statement without operands is left out; so is one with operands, and it's a hole unless told plain."""
    text = case.text
    start = text.find(case.index, "(")
    end = text.closing(start)
    operands = [at for at in range(start, end) if text.tokens[at] == "("
                and text.tokens[at - 1][-1:] == '"' and at > start]
    strings = text.tokens[start + 1:text.find(start + 1, ":", ")")]
    plain = all(word == '""' for word in strings) or all(_is_plain_number(text, at) for at in operands)
    new = "" if text.at(end + 1) == ";" and text.at(case.index - 1) in (";", "{", "}") and \
        external_at(text, case.index)[0] != case.index else None
    span = range(case.index, end + 1) if new is not None else range(case.index, end + 1 + (text.at(end + 1) == ";"))
    yield (exact if plain else hole)("asm left out", case.index, replaced(span))
    yield (exact if plain else hole)("asm left out", case.index, replaced(range(case.index, end + 1), ""))


def _is_plain_number(text, at):
    return text.closing(at) == at + 2 and is_number(text.tokens[at + 1])


@kinds("statement-expression")
def statement_expression(case):
    """({ e; }) becomes (e)."""
    text = case.text
    end = text.closing(case.index)
    inner = range(case.index + 2, end - 1)
    if not inner:
        return [exact("empty statement expression", case.index, replaced(range(case.index, end + 1), "((void) 0)"))]
    if text.find(inner[0], ";") == inner[-1] and text.tokens[inner[0]] not in _STATEMENTS:
        return [exact("statement expression of one expression", case.index,
                      replaced(range(case.index + 1, end), inner[:-1]))]
    made = hoisted(case, end)
    return [*_last_values(case, end), *([made] if made else []),
            hole("statement expression left out", case.index, replaced(range(case.index, end + 1), "((void) 0)")),
            hole("statement expression left out", case.index, replaced(range(case.index, end + 1), "(0)"))]


def _last_values(case, end):
    """Statements that are expressions, `if` with one, or `asm` without operands, become one with commas."""
    text, parts, start = case.text, [], case.index + 2
    while start < end - 1:
        stop = text.find(start, ";")
        new = _as_expression(case, range(start, stop)) if stop < end else None
        if new is None:
            return []
        parts += [*new, ","]
        start = stop + 1
    return [exact("statement expression of expressions", case.index,
                  replaced(range(case.index + 1, end), *(parts[:-1] or ["(void) 0"])))]


def _as_expression(case, span):
    """The parts of an expression that does what a statement does; None for other statements."""
    text, first = case.text, case.text.at(span.start)
    if first in ("asm", "__asm__", "__asm"):
        opening = text.find(span.start, "(")
        return ["(void) 0"] if text.closing(opening) == span.stop - 1 \
            and "(" not in text.tokens[opening + 1:span.stop - 1] else None
    if first == "if":
        condition = range(span.start + 1, text.closing(span.start + 1) + 1)
        then = _as_expression(case, range(condition.stop, span.stop))
        return None if then is None else ["(", condition, "? ((void) (", *then, "), 0) : 0)"]
    if is_type(text, span.start, case.facts.typedefs) or first in _STATEMENTS or first in ("{", "["):
        return None
    return ["(", span, ")"] if span else ["(void) 0"]


_STATEMENTS = frozenset("if for while do switch return goto break continue static register asm __asm__ typeof "
                        "__typeof__ __auto_type __asm asm".split())


@kinds("label-address")
def label_address(case):
    """The address of a label is left out."""
    return [hole("label's address left out", case.index,
                 replaced(range(case.index, case.index + 2), "(void *) 0"))]


@kinds("typeof")
def type_of(case):
    """typeof of a type is the type; of a plain number's expression it isn't told."""
    text = case.text
    at = case.index if case.word != "(" else case.index - 1
    if text.at(at + 1) == "(" and is_type(text, at + 2, case.facts.typedefs):
        return [exact("typeof of a type", at, one(at), one(at + 1), one(text.closing(at + 1)))]
    return [hole("typeof to long", at, replaced(range(at, text.closing(at + 1) + 1), "long"))]


@kinds("builtin")
def builtin(case):
    """A builtin that isn't known is left out."""
    end = case.text.closing(case.index + 1)
    call = range(case.index, end + 1)
    return [hole(f"{case.word} left out", case.index, replaced(call, new)) for new in ("0", "((void) 0)")]


@kinds("array-of-value")
def array_of_value(case):
    """A member of what a call gives: the call's structure is not kept anywhere."""
    return _values_left_out(case)


@kinds("too deep")
def too_deep(case):
    """Parentheses around parentheses."""
    text, at = case.text, case.index
    edits = [edit for index in range(max(0, at - 400), min(len(text.tokens), at + 400))
             if text.tokens[index] == "(" and text.at(index + 1) == "("
             and text.closing(index) == text.closing(index + 1) + 1 and not is_word(text.at(index - 1))
             for edit in (one(index), one(text.closing(index)))]
    return [exact("double parentheses", at, *edits)] if edits else []


@kinds("undeclared")
def undeclared(case):
    """A function that is called without a declaration gives an int, as the compiler has it."""
    text = case.text
    if text.at(case.index + 1) != "(":
        return []
    return [exact(f"{case.word} declared as the compiler does", case.index, inserted(0, f"int {case.word}();"))]


# Conversions

@kinds("structure-cast", "character-cast", "integer-size-cast", "operand", "initialiser", "constant")
def misfit(case):
    """A misfit that the compiler's types didn't explain."""
    found = []
    if is_cast(case.text, case.index, case.facts.typedefs):
        found.append(hole("conversion over void *", case.index,
                          inserted(case.text.closing(case.index) + 1, "(void *)")))
    else:
        found += [hole("conversion over void *", case.index, inserted(value[0], "(void *) ("),
                       inserted(value[-1] + 1, ")")) for value in converted(case.text, case.index)]
    return [*_whole_out_of_list(case), *_lengths(case), *_braces(case), *_void_arithmetic(case), *_over_union(case), *found,
            *_values_left_out(case)]


def _whole_out_of_list(case):
    """A va_arg of a structure, a union or a list: nothing comes out."""
    text = case.text
    if case.word == "__builtin_va_arg" and text.at(case.index + 1) == "(":
        kind = text.arguments(case.index + 1)[-1]
        call = range(case.index, text.closing(case.index + 1) + 1)
        yield hole("va_arg of a structure", case.index, replaced(call, "(*(", kind, "*) (void *) 0)"))


def _void_arithmetic(case):
    """Arithmetic of a `void *`, which GNU C counts in characters."""
    text, index, typedefs = case.text, case.index, case.facts.typedefs
    if case.word not in ("+", "-"):
        return
    start = text.find_back(index, *_BEFORE_TERMS) + 1
    right = operand(text, index + 1, typedefs)
    while text.at(right.stop) in ("*", "/", "%"):
        right = range(right.start, operand(text, right.stop + 1, typedefs).stop)
    what = "arithmetic of void * by characters"
    yield exact(what, index, inserted(start, "(void *) ((char *) ("), inserted(index, ")"), inserted(right.stop, ")"))
    if case.word == "+":
        yield exact(what, index, inserted(start, "(void *) ("), inserted(index + 1, "(char *) ("),
                    inserted(right.stop, "))"))


_BEFORE_TERMS = ("(", "[", "{", "}", ",", ";", "=", "?", ":", "return", "case", "+", "-", "+=", "-=", "==", "!=", "<", ">",
                 "<=", ">=", "&&", "||")


def _braces(case):
    """A list that begins with a list, of a structure that became a union of one: braces of the unnamed one's own."""
    text = case.text
    start = text.find_back(case.index, "{")
    if start > 0 and text.at(start + 1) == "{" and text.at(start - 1) in ("=", ",", "{", ")"):
        yield exact("braces of a structure as one piece", case.index, inserted(start + 1, "{"),
                    inserted(text.closing(start), "}"))


def _over_union(case):
    """A function's pointer becomes an object's, or the other way, over a union of its own.

    pta takes each of these only where the types are so.
    """
    text, index = case.text, case.index
    values = [operand(text, text.closing(index) + 1, case.facts.typedefs)] \
        if is_cast(text, index, case.facts.typedefs) else converted(text, index)
    for value in values:
        name = f"pta_both_{text.origin(value[0])}_{len(text.tokens)}"
        union = f"static union {{ void *object; void (*function)(void); }} {name};"
        for first, cast, second in (("function", "(void (*)(void))", "object"), ("object", "(void *)", "function")):
            yield exact("function and object pointer over a union", index, inserted(0, union),
                        inserted(value[0], f"({name}.{first} = {cast} ("),
                        inserted(value[-1] + 1, f"), {name}.{second})"))


def _lengths(case):
    """A length of 0 or less becomes 1."""
    text, end = case.text, case.text.find(case.index, ";", "{", "=")
    for index in range(case.index, min(end, len(text.tokens) - 2)):
        if text.tokens[index] == "[" and text.at(index + 1) != "]" and text.at(index - 1) == case.word:
            yield exact("length to 1", case.index, replaced(range(index + 1, text.closing(index)), "1"))


def _values_left_out(case):
    """0 for what is converted: each a hole, but what it does besides is done."""
    text = case.text
    values = [operand(text, text.closing(case.index) + 1, case.facts.typedefs)] \
        if is_cast(text, case.index, case.facts.typedefs) else converted(text, case.index)
    for value in values:
        if not NOISY.isdisjoint(text.tokens[value.start:value.stop]):
            yield hole("value left out", case.index, inserted(value[0], "((void) ("), inserted(value[-1] + 1, "), 0)"))
        yield hole("value left out", case.index, replaced(value, "0"))


@kinds("number-to-pointer")
def number_to_pointer(case):
    """A constant becomes the address of an object of its own; what a pointer gave stays; else it's a hole."""
    text, index = case.text, case.index
    is_a_cast = is_cast(text, index, case.facts.typedefs)
    spans = [operand(text, text.closing(index) + 1, case.facts.typedefs)] if is_a_cast else converted(text, index)
    numbers = {one.origin for one in case.facts.asked.conversions if one.source == NUMBER}
    told = [span for span in spans if text.origin(span[0]) in numbers]
    if len(told) > 1:
        yield hole("numbers to pointers", index, *[replaced(span, "((void) (", span, "), (void *) 0)") for span in told])
    for span in told or spans:
        cast = next((at for at in span if text.tokens[at] == "(" and is_cast(text, at, case.facts.typedefs)), None)
        inner = () if cast is None else operand(text, text.closing(cast) + 1, case.facts.typedefs)
        if inner and set(text.tokens[span[0]:cast]) <= {"("} and set(text.tokens[inner[-1] + 1:span[-1] + 1]) <= {")"}:
            yield exact("pointer over a number", index, replaced(range(cast, text.closing(cast) + 1), "(void *)"))
        if CONSTANT.fullmatch(text.source(span)):
            yield constant_to_object(text, index, span)
            yield constant_to_function(text, index, span)
        yield hole("number to a pointer", index, replaced(span, "((void) (", span, "), (void *) 0)"))
        yield hole("number to a pointer", index, replaced(span, "0"))


@kinds("malformed")
def malformed(case):
    """What isn't C11 syntax and no other rewrite knows."""
    text = case.text
    if case.word == ";" and text.at(case.index - 1) in ("}", ";", ""):
        return [exact("empty declaration left out", case.index, one(case.index))]
    if case.word in ("typeof", "__typeof__", "__typeof"):
        return type_of(case)
    return []


@kinds("wide")
def wide(case):
    """A string that continues a wide one."""
    return [merged("string's prefix dropped", case.index, one(case.index, case.word[case.word.index('"'):]))]
