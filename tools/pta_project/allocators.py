"""Functions that the user says to allocate: each call gives an object of its own."""
from .conversions import call_of
from .rewriting import exact, replaced


def allocator_names(words):
    """The functions named by NAME or NAME=realloc, each with the library's function for it."""
    pairs = [word.partition("=") for word in words.split(",") if word]
    return {name: like or "malloc" for name, _, like in pairs}


def allocator_rewrites(text, names):
    """A call f(n) becomes malloc((f(n), 1)), and with =realloc f(p, n) becomes realloc(p, (f(p, n), 1))."""
    for index, token in enumerate(text.tokens):
        if token in names and text.at(index + 1) == "(" and _is_call(text, index):
            start = call_of(text, index)
            end = text.closing(start)
            call = range(index, end + 1)
            first = text.arguments(start)[:1] if names[token] == "realloc" else []
            kept = [part for argument in first for part in ("(void *) (", argument, "),")]
            value = ["(", call, ", 1)"] if names[token] != "strdup" else ["((void) ", call, ", \"\")"]
            yield exact(f"{token} allocates, as is said", index, replaced(call, names[token], "(", *kept, *value, ")"))


def _is_call(text, index):
    """Whether the name is called in an expression, and neither declared nor called inside its own rewrite."""
    before = text.at(index - 1)
    if before in ("(", ",") and text.at(index - 2) in ("malloc", "realloc", "(", ")", ","):
        start = text.find_back(index, "(")
        if text.at(start - 1) in ("malloc", "strdup") or text.at(text.find_back(start, "(") - 1) == "realloc":
            return False
    return before in ("=", "(", ",", ")", "return", "?", ":", ";", "{", "}", "&&", "||", "!", "==", "!=", "[") \
        and text.at(text.closing(index + 1) + 1) != "{"
