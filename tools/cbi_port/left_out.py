"""The `int` that C90 lets be left out of a declaration (6.5.2), and the names of types, which say where none is."""
from typing import List, Sequence, Set

from cbi_port.lines import Token
from cbi_port.neighbours import OPENS, closes_struct, like

STORAGE = {"static", "extern", "register", "auto", "inline"}
UNTYPED = STORAGE | {"const", "volatile"}
KEYWORDS = STORAGE | {"void", "char", "short", "int", "long", "float", "double", "signed", "unsigned", "struct", "union", "enum", "const", "volatile",
                      "typedef", "return", "if", "else", "while", "for", "do", "switch", "case", "default", "break", "continue", "goto", "sizeof",
                      "_Bool", "restrict"}


def untyped(out: Sequence[Token]) -> bool:
    """Whether these tokens end with what stands before a type, or in its place, and no type before that."""
    at = len(out)
    while at and out[at - 1].text in UNTYPED:
        at -= 1
    before = out[at - 1] if at else None
    return at < len(out) and (before is None or before.kind != "name" and before.text != "*" and not (before.text == "}" and closes_struct(out[:at])))


def with_int(tokens: Sequence[Token], types: Set[str]) -> List[Token]:
    """The tokens with the `int` that C90 lets be left out (6.5.2)."""
    out: List[Token] = []
    depth = 0
    for at, token in enumerate(tokens):
        before = out[-1].text if out else ";"
        after = tokens[at + 1].text if at + 1 < len(tokens) else ""
        named = token.kind == "name" and token.text not in KEYWORDS and token.text not in types
        if named and (depth == 0 and after == "(" and (before in (";", "}") or untyped(out))
                      or depth == 0 and after in ("=", ";", ",", "[") and (before == ";" or before == "}" and not closes_struct(out))
                      or untyped(out) and after in ("=", ";", ",", "[")):
            out.append(like(token, "int", "name"))
        elif before == "typedef" and token.kind == "name" and token.text not in KEYWORDS and after == ";":
            out.append(like(token, "int", "name"))
        elif token.text == "*" and before in ("static", "extern", "register", "auto") and token.kind == "mark":
            out.append(like(token, "int", "name"))
        depth += (token.text in OPENS and token.kind == "mark") - (token.text in (")", "]", "}") and token.kind == "mark")
        out.append(token)
    return out


def typedef_names(tokens: Sequence[Token]) -> Set[str]:
    """Names that a `typedef` may declare."""
    found: Set[str] = {"__builtin_va_list"}
    at = 0
    while at < len(tokens):
        depth = 0
        if tokens[at].text == "typedef":
            while at < len(tokens) and (tokens[at].text != ";" or depth):
                depth += (tokens[at].text == "{") - (tokens[at].text == "}")
                if depth == 0 and tokens[at].kind == "name" and tokens[at].text not in KEYWORDS and tokens[at - 1].text not in ("struct", "union", "enum"):
                    found.add(tokens[at].text)
                at += 1
        at += 1
    return found
