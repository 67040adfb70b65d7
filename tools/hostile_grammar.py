"""Texts that the grammar of C11 (annex A.2) derives at random, with no thought of types or names.

Each symbol of `RULES` has its ways, and a way is a list of symbols and words. A word of `WORDS` stands for any of a class."""

RULES = {
    "unit": [["external"], ["external", "unit"], ["external", "external", "unit"]],
    "external": [["function"], ["declaration"], ["declaration"], ["_Static_assert", "(", "constant", ",", "STRING", ")", ";"]],
    "function": [["specifiers", "declarator", "block"], ["int", "NAME", "(", "void", ")", "block"],
                 ["int", "main", "(", "void", ")", "block"]],
    "declaration": [["specifiers", "inits", ";"], ["specifiers", ";"], ["typedef", "specifiers", "declarator", ";"], ["int", "NAME", ";"]],
    "specifiers": [["specifier"], ["specifier"], ["specifier", "specifiers"]],
    "specifier": [["int"], ["int"], ["char"], ["void"], ["unsigned"], ["long"], ["short"], ["signed"], ["double"], ["float"], ["_Bool"],
                  ["const"], ["volatile"], ["static"], ["extern"], ["auto"], ["register"], ["inline"], ["_Noreturn"],
                  ["record"], ["enumeration"],
                  ["_Alignas", "(", "typename", ")"], ["_Atomic"], ["_Thread_local"], ["_Complex"], ["NAME"],
                  ["__attribute__", "(", "(", "NAME", ")", ")"], ["__extension__"], ["typeof", "(", "expression", ")"]],
    "record": [["kind", "NAME", "{", "members", "}"], ["kind", "{", "members", "}"], ["kind", "NAME"]],
    "kind": [["struct"], ["union"]],
    "members": [["member"], ["member", "members"]],
    "member": [["specifiers", "declarator", ";"], ["specifiers", "declarator", ":", "constant", ";"], ["record", ";"],
               ["int", "NAME", ";"]],
    "enumeration": [["enum", "NAME", "{", "enumerators", "}"], ["enum", "{", "enumerators", "}"], ["enum", "NAME"]],
    "enumerators": [["NAME"], ["NAME", "=", "constant"], ["NAME", ",", "enumerators"]],
    "inits": [["declarator"], ["declarator", "=", "initialiser"], ["declarator", ",", "inits"]],
    "initialiser": [["assignment"], ["{", "list", "}"], ["{", "list", ",", "}"]],
    "list": [["initialiser"], ["designators", "=", "initialiser"], ["initialiser", ",", "list"]],
    "designators": [["[", "constant", "]"], [".", "NAME"], [".", "NAME", "designators"]],
    "declarator": [["NAME"], ["NAME"], ["*", "declarator"], ["*", "const", "declarator"], ["(", "declarator", ")"],
                   ["declarator", "[", "constant", "]"],
                   ["declarator", "[", "]"], ["declarator", "(", "parameters", ")"], ["declarator", "(", ")"],
                   ["declarator", "(", "names", ")"]],
    "names": [["NAME"], ["NAME", ",", "names"]],
    "parameters": [["void"], ["parameter"], ["parameter", ",", "parameters"], ["parameter", ",", "..."]],
    "parameter": [["specifiers", "declarator"], ["specifiers", "abstract"], ["int", "NAME"], ["int", "*"]],
    "abstract": [["*"], ["*", "abstract"], ["(", "abstract", ")"], ["[", "]"], ["[", "constant", "]"], ["(", "parameters", ")"],
                 ["(", "*", ")", "(", "void", ")"]],
    "typename": [["specifiers"], ["specifiers", "abstract"], ["int", "*"], ["char", "*"]],
    "block": [["{", "}"], ["{", "items", "}"], ["{", "items", "return", "expression", ";", "}"]],
    "items": [["statement"], ["declaration"], ["statement", "items"], ["declaration", "items"]],
    "statement": [["expression", ";"], ["expression", ";"], [";"], ["block"], ["if", "(", "expression", ")", "statement"],
                  ["if", "(", "expression", ")", "statement", "else", "statement"], ["while", "(", "expression", ")", "statement"],
                  ["do", "statement", "while", "(", "expression", ")", ";"], ["for", "(", "expression", ";", ";", ")", "statement"],
                  ["for", "(", "declaration", "expression", ";", "expression", ")", "statement"],
                  ["switch", "(", "expression", ")", "statement"],
                  ["case", "constant", ":", "statement"], ["default", ":", "statement"], ["NAME", ":", "statement"], ["goto", "NAME", ";"],
                  ["break", ";"], ["continue", ";"], ["return", ";"], ["return", "expression", ";"], ["asm", "(", "STRING", ")", ";"]],
    "expression": [["assignment"], ["assignment"], ["assignment", ",", "expression"]],
    "assignment": [["conditional"], ["unary", "=", "assignment"], ["unary", "ASSIGN", "assignment"]],
    "conditional": [["binary"], ["binary"], ["binary", "?", "expression", ":", "conditional"]],
    "constant": [["NUMBER"], ["NUMBER"], ["conditional"]],
    "binary": [["cast"], ["cast"], ["binary", "BINARY", "cast"]],
    "cast": [["unary"], ["unary"], ["(", "typename", ")", "cast"]],
    "unary": [["postfix"], ["postfix"], ["UNARY", "cast"], ["++", "unary"], ["--", "unary"], ["sizeof", "unary"],
              ["sizeof", "(", "typename", ")"],
              ["_Alignof", "(", "typename", ")"], ["&&", "NAME"]],
    "postfix": [["primary"], ["primary"], ["postfix", "[", "expression", "]"], ["postfix", "(", ")"], ["postfix", "(", "arguments", ")"],
                ["postfix", ".", "NAME"], ["postfix", "->", "NAME"], ["postfix", "++"], ["postfix", "--"],
                ["(", "typename", ")", "{", "list", "}"]],
    "arguments": [["assignment"], ["assignment", ",", "arguments"]],
    "primary": [["NAME"], ["NAME"], ["NAME"], ["NUMBER"], ["CHARACTER"], ["STRING"], ["(", "expression", ")"], ["(", "block", ")"],
                ["_Generic", "(", "assignment", ",", "int", ":", "assignment", ")"],
                ["__builtin_offsetof", "(", "typename", ",", "NAME", ")"]],
}

WORDS = {
    "NAME": "a b c d e f g h p q r s t x y z main malloc T U __func__ stdin".split(),
    "NUMBER": "0 1 2 3 7 64 0x7f 017 1u 2l 3ull 4294967295 9223372036854775807 18446744073709551615 0x 08 1.5 1e9 1e 0b1 1..2 'a'".split(),
    "CHARACTER": ["'a'", "'\\0'", "'\\xff'", "'\\777'", "'ab'", "L'a'", "''", "'\\''", "u'x'"],
    "STRING": ['""', '"a"', '"a\\n" "b"', 'L"w"', 'u8"u"', '"\\u00e9"', '"%s"', '"\\x"', '"\xc3\xa9"'],
    "ASSIGN": "+= -= *= /= %= &= |= ^= <<= >>=".split(),
    "BINARY": "+ - * / % & | ^ << >> < > <= >= == != && ||".split(),
    "UNARY": "& * + - ~ !".split(),
}


def shortest():
    """For each symbol a way of fewest further steps, so that a derivation can be ended at any time."""
    cost = {word: 0 for rule in RULES.values() for way in rule for word in way if word not in RULES}
    best = {}
    while len(best) < len(RULES):
        for symbol, ways in RULES.items():
            known = [way for way in ways if all(word in cost for word in way)]
            if symbol not in best and known:
                best[symbol] = min(known, key=lambda way: sum(cost[word] for word in way))
        cost.update({symbol: 1 + sum(cost[word] for word in way) for symbol, way in best.items()})
    return best


SHORTEST = shortest()


def words(rng, symbol, budget):
    """The words of a random derivation; after so many steps each symbol takes its shortest way."""
    found, left = [], [symbol]
    while left:
        word = left.pop()
        if word in RULES:
            budget -= 1
            way = rng.choice(RULES[word]) if budget > 0 else SHORTEST[word]
            left.extend(reversed(way))
        else:
            found.append(rng.choice(WORDS[word]) if word in WORDS else word)
    return found


def text(rng, symbol="unit", budget=200):
    """A text of a random derivation, with space, lines or nothing between words."""
    gaps = rng.choice([[" "], [" ", "\n"], [" ", "  ", "\t", "\n", "\f"], [" ", " ", "\n# 7 \"x.c\" 3\n"]])
    return "".join(word + rng.choice(gaps) for word in words(rng, symbol, budget)).encode("utf-8", "surrogateescape")
