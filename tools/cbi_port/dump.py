"""Shows the typed tree of a program: a node a line, with its type, and where it stands in the source."""
from dataclasses import fields
from typing import Any, Iterator, Sequence

from cbi_port.blocks import Declarator, Definition, Head, Statement
from cbi_port.lines import Token
from cbi_port.nodes import Node, children
from cbi_port.types import spelled

WORDS = ("sign", "name", "value", "token", "word", "tag", "base", "arrow")      # what a node says itself


def said(it: Any) -> Iterator[str]:
    """The words of a node's own: its operator, its name, its number."""
    for part in fields(it):
        value = getattr(it, part.name)
        if part.name in WORDS and not isinstance(value, (Node, Statement)) and not (part.name == "arrow" and not value):
            yield "->" if part.name == "arrow" else str(value)
    member = getattr(it, "member", None)
    if member is not None:
        yield f"at {member.at}" + (f" bits {member.shift} to {member.shift + member.width - 1}" if member.bits is not None else "")


def row(it: Any, tokens: Sequence[Token]) -> str:
    """One node."""
    words = [type(it).__name__, *said(it)]
    type_ = getattr(it, "type", None)
    if type_ is not None:
        words.append(": " + spelled(type_))
    at = getattr(it, "at", -1)
    at = getattr(it, "sign_at", -1) if at < 0 else at
    if 0 <= at < len(tokens):
        words.append(f"@ {tokens[at].file}:{tokens[at].line}")
    return " ".join(words)


def below(it: Any) -> Iterator[Any]:
    """The nodes below one, in their order."""
    return (inner for inner in children(it) if isinstance(inner, (Node, Statement, Definition, Head, Declarator)))


def dumped(trees: Sequence[Any], tokens: Sequence[Token]) -> Iterator[str]:
    """The rows of trees, each node two blanks further in than the one that has it."""
    stack = [(0, it) for it in reversed(trees)]
    while stack:
        depth, it = stack.pop()
        yield "  " * depth + row(it, tokens)
        stack.extend((depth + 1, inner) for inner in reversed(list(below(it))))
