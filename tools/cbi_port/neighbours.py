"""What stands around a token: what it closes, and what it is part of."""
from typing import List, Optional, Sequence, Set, Tuple

from cbi_port.lines import Token

TYPE_WORDS = {"int", "char", "short", "long", "unsigned", "signed", "const", "volatile", "static", "extern", "register", "void", "_Bool", "float", "double"}
OPENS = {"(": ")", "[": "]", "{": "}"}


def closing(tokens: Sequence[Token], at: int) -> int:
    """Where what opens at a token is closed."""
    depth = 0
    for index in range(at, len(tokens)):
        if tokens[index].text in OPENS and tokens[index].kind == "mark":
            depth += 1
        elif tokens[index].text in (")", "]", "}") and tokens[index].kind == "mark":
            depth -= 1
            if depth == 0:
                return index
    return len(tokens) - 1


def like(token: Token, text: str, kind: str = "mark") -> Token:
    return Token(kind, text, token.file, token.line)


def sign(token: Token, what: str, number: List[Token]) -> List[Token]:
    """A member that says something of its struct, or of the member before it."""
    return [like(token, "char", "name"), like(token, f"__cbi_{what}", "name"), like(token, "["), *number, like(token, "]"), like(token, ";")]


def opening(out: Sequence[Token]) -> int:
    """Where what the last token closes is opened."""
    depth = 0
    for index in range(len(out) - 1, -1, -1):
        text = out[index].text
        depth += (text in (")", "]", "}")) - (text in OPENS)
        if depth == 0:
            return index
    return 0


def closes_struct(out: Sequence[Token]) -> bool:
    begin = opening(out)
    return any(it.text in ("struct", "union", "enum") for it in out[max(begin - 2, 0):begin])


def literal_begin(tokens: Sequence[Token], at: int, out: Sequence[Token]) -> Optional[int]:
    """Where the `(` of a compound literal stands, whose brace comes; None where the brace is that of a body."""
    begin = opening(out)
    before = out[begin - 1] if begin else like(out[begin], ";")
    if before.kind == "name" and before.text not in ("return", "sizeof", "case"):
        return None
    close = closing(tokens, at)
    if close + 1 < len(tokens) and tokens[close + 1].text in ("[", ".", "->"):
        return begin
    if before.kind == "mark" and before.text not in (")", "]", "}", ";") or before.text in ("return", "sizeof", "case"):
        return begin
    depth = sum((it.text == "{") - (it.text == "}") for it in out[:begin])
    return begin if before.text == ")" and depth > 0 and out[opening(out[:begin]) - 1].text not in ("if", "while", "for", "switch") else None


def unary_place(before: Token) -> bool:
    return before.kind == "mark" and before.text not in (")", "]", "}", "++", "--") or before.text in ("return", "case")


def range_within(tokens: Sequence[Token], at: int) -> bool:
    return any(token.text == "..." for token in tokens[at:closing(tokens, at)][:40])


def case_end(tokens: Sequence[Token], at: int) -> int:
    asked, depth = 0, 0
    for index in range(at + 1, len(tokens)):
        text = tokens[index].text
        depth += (text in OPENS) - (text in (")", "]", "}"))
        asked += text == "?"
        if text == ":" and depth == 0:
            if not asked:
                return index
            asked -= 1
    return len(tokens)


def within_struct(out: Sequence[Token]) -> bool:
    """Whether the innermost open brace is that of a struct's members, or one was just closed."""
    depth = 0
    for index in range(len(out) - 1, -1, -1):
        text = out[index].text
        if text == "}":
            depth += 1
        elif text == "{":
            if depth:
                depth -= 1
            else:
                return any(it.text in ("struct", "union") for it in out[max(index - 2, 0):index])
    return False


def is_declared(out: Sequence[Token]) -> bool:
    """Whether the `)` or `]` that stands last ends a declarator at the outermost level."""
    depth = 0
    for token in out:
        depth += (token.text == "{") - (token.text == "}")
    return depth == 0 or out[-1].text == "]"


def split(within: Sequence[Token], mark: str) -> List[List[Token]]:
    """The parts between marks that stand in no brackets."""
    parts: List[List[Token]] = [[]]
    depth = 0
    for token in within:
        depth += (token.text in OPENS) - (token.text in (")", "]", "}"))
        if token.text == mark and depth == 0:
            parts.append([])
        else:
            parts[-1].append(token)
    return parts


def declared_name(out: Sequence[Token]) -> str:
    """The name whose declarator ends with the last token; nothing where its type ends there."""
    end = len(out)
    while end and out[end - 1].text in (")", "]"):
        end = opening(out[:end])
    at = out[end - 1] if end else None
    before = out[end - 2].text if end > 1 else ";"
    declares = at is not None and at.kind == "name" and (before in ("*", "}") or end > 1 and out[end - 2].kind == "name" and before not in ("struct", "union", "enum"))
    return at.text if at is not None and declares and at.text not in TYPE_WORDS else ""


def names_around(out: Sequence[Token], behind: Sequence[Token]) -> Set[str]:
    """The names of the declaration in which an attribute stands, those of its types too."""
    begin = len(out)
    while begin and out[begin - 1].text not in (";", "{", "}"):
        begin -= 1
    end = next((at for at, it in enumerate(behind) if it.text in (";", "{", "=")), len(behind))
    return {it.text for it in [*out[begin:], *behind[:end]] if it.kind == "name"}


def moves(within: Sequence[Token]) -> Tuple[List[Tuple[List[Token], List[Token]]], List[List[Token]]]:
    """What an empty `asm` moves, an input that is bound to an output by its number; and operands that do something."""
    parts = split(within, ":")

    def operands(part: Sequence[Token]) -> List[Tuple[str, List[Token]]]:
        found: List[Tuple[str, List[Token]]] = []
        at = 0
        while at < len(part):
            if part[at].kind == "string" and at + 1 < len(part) and part[at + 1].text == "(":
                close = closing(part, at + 1)
                found.append((part[at].text[1:-1], list(part[at + 2:close])))
                at = close
            at += 1
        return found
    outputs, inputs = (operands(parts[at]) if len(parts) > at else [] for at in (1, 2))
    moved = [(outputs[int(how)][1], what) for how, what in inputs if how.isdigit() and int(how) < len(outputs)]
    rest = [what for how, what in outputs + inputs if not any(what is it for pair in moved for it in pair)]
    return moved, [what for what in rest if any(it.text in ("++", "--", "=") for it in what) or any(
        left.kind == "name" and right.text == "(" for left, right in zip(what, what[1:]))]
