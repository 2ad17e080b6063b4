"""The typed tree of expressions (C99 6.5), in terms of the dialect: what the translation makes and the writer writes.

Each node has its C type, and where it stands in the source (a token's number; -1 where the tool added it). A number of 64 bits, a struct and a
union are handed on by where they lie: such a node has that type, and is a pointer in the text.
"""
from dataclasses import dataclass, field, fields, replace
from typing import Any, Dict, Iterator, Optional, Sequence, Tuple

COMMA, ASSIGN, COND, OR, AND, BITOR, XOR, BITAND, EQUAL, ORDER, SHIFT, ADD, TIMES, UNARY, POSTFIX = range(15)
LEVELS = {"||": OR, "&&": AND, "|": BITOR, "^": XOR, "&": BITAND, "==": EQUAL, "!=": EQUAL, "<": ORDER, ">": ORDER,
          "<=": ORDER, ">=": ORDER, "<<": SHIFT, ">>": SHIFT, "+": ADD, "-": ADD, "*": TIMES, "/": TIMES, "%": TIMES}
LEAST_INT = -(1 << 31)


@dataclass(frozen=True)
class Node:
    """An expression. Two are equal where they do the same, wherever they stand."""
    type: Any                       # a CType


@dataclass(frozen=True)
class Name(Node):
    """A variable by its name in the text."""
    name: str
    at: int = field(default=-1, compare=False)


@dataclass(frozen=True)
class Number(Node):
    """A constant. `unsigned` where it is written so; `spelling` is how the source writes it."""
    value: int
    unsigned: bool = False
    spelling: str = field(default="", compare=False)
    at: int = field(default=-1, compare=False)


@dataclass(frozen=True)
class Wide(Node):
    """A constant of 64 bits, which becomes a call where it is used."""
    value: int
    at: int = field(default=-1, compare=False)


@dataclass(frozen=True)
class String(Node):
    """A string as the dialect writes it, in its quotes."""
    token: str
    at: int = field(default=-1, compare=False)


@dataclass(frozen=True)
class Null(Node):
    """`NULL`."""
    at: int = field(default=-1, compare=False)


@dataclass(frozen=True)
class Unary(Node):
    """An operator before its operand."""
    sign: str
    operand: Node
    at: int = field(default=-1, compare=False)


@dataclass(frozen=True)
class Behind(Node):
    """`++` or `--` behind its operand."""
    sign: str
    operand: Node
    at: int = field(default=-1, compare=False)


@dataclass(frozen=True)
class Cast(Node):
    """A conversion that the text has a cast for; `word` is the type as the dialect spells it."""
    word: str
    operand: Node
    at: int = field(default=-1, compare=False)


@dataclass(frozen=True)
class Converted(Node):
    """A conversion that changes nothing in the text: both types are kept alike there."""
    operand: Node
    at: int = field(default=-1, compare=False)


@dataclass(frozen=True)
class Binary(Node):
    """An operator between two operands, which stands in the source at `sign_at`."""
    sign: str
    left: Node
    right: Node
    sign_at: int = field(default=-1, compare=False)
    at: int = field(default=-1, compare=False)


@dataclass(frozen=True)
class Choice(Node):
    """`?:`, whose signs stand in the source at `question` and `colon`."""
    condition: Node
    left: Node
    right: Node
    question: int = field(default=-1, compare=False)
    colon: int = field(default=-1, compare=False)
    at: int = field(default=-1, compare=False)


@dataclass(frozen=True)
class Assign(Node):
    """An assignment to a place; `sign` is `=`, or that of a compound one."""
    target: Node
    value: Node
    sign: str = "="
    at: int = field(default=-1, compare=False)


@dataclass(frozen=True)
class Comma(Node):
    """Parts that are evaluated one after another."""
    parts: Tuple[Node, ...]
    at: int = field(default=-1, compare=False)


@dataclass(frozen=True)
class Group(Node):
    """An expression in parentheses (6.5.1p5)."""
    inner: Node
    at: int = field(default=-1, compare=False)


@dataclass(frozen=True)
class Call(Node):
    """A call of a function by its definition: `symbol` where the text or the prelude in C has it, else `name` is one of the dialect's or of the prelude's."""
    name: str
    arguments: Tuple[Node, ...]
    symbol: Any = None
    at: int = field(default=-1, compare=False)
    note: int = field(default=-1, compare=False)    # the token that says what the author wrote (authors.py)


@dataclass(frozen=True)
class Index(Node):
    """An element of an array, or of what a pointer points to."""
    base: Node
    index: Node
    at: int = field(default=-1, compare=False)


@dataclass(frozen=True)
class Part(Node):
    """A member of a struct, or of the one that a pointer points to; `member` is the one of the source, with its offset."""
    base: Node
    name: str
    arrow: bool = False
    member: Any = None
    at: int = field(default=-1, compare=False)


@dataclass(frozen=True)
class SizeOf(Node):
    """The cells of a type, as the dialect counts them."""
    word: str
    at: int = field(default=-1, compare=False)


@dataclass(frozen=True)
class Later(Node):
    """What is known only when all is translated: an entry of the program's list."""
    number: int
    at: int = field(default=-1, compare=False)


@dataclass(frozen=True)
class Look(Node):
    """A value that a variable of its own gets too, so that pairs see it (values_seen.py)."""
    name: str
    value: Node
    note: int = field(default=-1, compare=False)    # the token that says what the author wrote
    at: int = field(default=-1, compare=False)


@dataclass(frozen=True)
class Braces(Node):
    """What an array begins with."""
    items: Tuple[Node, ...]
    at: int = field(default=-1, compare=False)


LOOSE = {Comma: COMMA, Assign: ASSIGN, Look: ASSIGN, Choice: COND, Unary: UNARY, Cast: UNARY}


def level(node: Node) -> int:
    """How tightly the text of a node holds together."""
    if isinstance(node, Converted):
        return level(node.operand)
    if isinstance(node, Binary):
        return LEVELS[node.sign]
    if isinstance(node, Number) and node.value < 0:
        return ADD if node.value == LEAST_INT else UNARY
    return LOOSE.get(type(node), POSTFIX)


def held(node: Node, least: int) -> Node:
    """The node, in parentheses where it holds together less tightly than that."""
    return node if level(node) >= least else Group(node.type, node)


def bare(node: Node) -> Node:
    """The node without conversions that change nothing in the text."""
    while isinstance(node, Converted):
        node = node.operand
    return node


# Fields of nodes and statements that hold no node.
PLAIN = {"type", "member", "symbol", "at", "sign_at", "question", "colon", "else_at", "body_at", "note", "sign", "word", "token", "spelling", "unsigned", "arrow", "name", "stars", "bounds", "number"}


INNER: Dict[Any, Tuple[str, ...]] = {}      # the other fields, by the class


def inner_fields(class_: Any) -> Tuple[str, ...]:
    """The fields of a class of nodes or statements that may hold others."""
    if class_ not in INNER:
        INNER[class_] = tuple(it.name for it in fields(class_) if it.name not in PLAIN)
    return INNER[class_]


def children(node: Any) -> Iterator[Any]:
    """What a node, a statement or a definition has below it, in its order; what is no node among it are words and numbers."""
    for name in inner_fields(type(node)):
        value = getattr(node, name)
        if isinstance(value, tuple):
            yield from value
        elif value is not None:
            yield value


def walk(node: Node) -> Iterator[Node]:
    """A node and all below it."""
    yield node
    for child in children(node):
        if isinstance(child, Node):
            yield from walk(child)


def spot(node: Node) -> int:
    """Where a node stands; -1 where the tool added it."""
    at: int = getattr(node, "at")
    return at


def marked(node: Any, at: int) -> Any:
    """The node as one that stands at a token of the source."""
    return replace(node, at=at) if at >= 0 else node


def decimal(node: Node) -> Optional[int]:
    """The number of a constant without a sign that is written in decimal; None of any other node."""
    node = bare(node)
    if not isinstance(node, Number) or not node.unsigned or node.value < 0 or not node.spelling.rstrip("uU").isdigit() and node.spelling:
        return None
    return node.value


def sequence(type_: Any, *parts: Optional[Node]) -> Node:
    """The parts one after another, in parentheses; those that are None are left out, and what has parts itself is no part but these."""
    row = [inner for it in parts if it is not None for inner in (it.parts if isinstance(it, Comma) else (it,))]
    return Group(type_, Comma(type_, tuple(row)))


def product(type_: Any, factors: Sequence[Node]) -> Node:
    """The factors' product, from left to right."""
    found = factors[0]
    for it in factors[1:]:
        found = Binary(type_, "*", found, it)
    return found
