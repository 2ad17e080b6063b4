"""The typed tree of statements (C99 6.8) and definitions (6.7, 6.9), in terms of the dialect: what the translation makes and the writer writes."""
from dataclasses import dataclass, field, replace
from typing import Any, Optional, Tuple

from cbi_port.nodes import Node


@dataclass(frozen=True)
class Declarator:
    """An object or a parameter of a C type by its name: `int **a[4][2]` has the base `int`, two stars, and two bounds."""
    type: Any                       # a CType
    base: str
    stars: int
    name: str
    bounds: Tuple[int, ...] = ()


@dataclass(frozen=True)
class Statement:
    """A statement."""


@dataclass(frozen=True)
class Nothing(Statement):
    """What has no text."""


@dataclass(frozen=True)
class Empty(Statement):
    """`;`."""
    at: int = field(default=-1, compare=False)


@dataclass(frozen=True)
class Evaluate(Statement):
    """An expression as a statement (6.8.3)."""
    code: Node
    at: int = field(default=-1, compare=False)


@dataclass(frozen=True)
class Perhaps(Statement):
    """A statement that is done only where one of some structs is copied as a whole, which is known when all is translated: an entry of the program's list."""
    number: int
    at: int = field(default=-1, compare=False)


@dataclass(frozen=True)
class Declare(Statement):
    """A declaration with what it begins with; `behind` is done with it."""
    object: Declarator
    begin: Optional[Node] = None
    behind: Optional[Statement] = None
    at: int = field(default=-1, compare=False)


@dataclass(frozen=True)
class Block(Statement):
    """Statements in braces."""
    items: Tuple[Statement, ...]
    at: int = field(default=-1, compare=False)


@dataclass(frozen=True)
class Rows(Statement):
    """Statements where one is wanted, without braces."""
    items: Tuple[Statement, ...]
    at: int = field(default=-1, compare=False)


@dataclass(frozen=True)
class If(Statement):
    """`if`, with an `else` that stands in the source at `else_at`."""
    condition: Node
    then: Statement
    other: Optional[Statement] = None
    at: int = field(default=-1, compare=False)
    else_at: int = field(default=-1, compare=False)
    note: int = field(default=-1, compare=False)


@dataclass(frozen=True)
class While(Statement):
    """`while`."""
    condition: Node
    body: Statement
    at: int = field(default=-1, compare=False)
    note: int = field(default=-1, compare=False)


@dataclass(frozen=True)
class Do(Statement):
    """`do .. while`."""
    body: Statement
    condition: Node
    at: int = field(default=-1, compare=False)
    note: int = field(default=-1, compare=False)


@dataclass(frozen=True)
class For(Statement):
    """`for`; what it begins with is a statement of one line."""
    first: Statement
    condition: Optional[Node]
    step: Optional[Node]
    body: Statement
    at: int = field(default=-1, compare=False)
    note: int = field(default=-1, compare=False)


@dataclass(frozen=True)
class Return(Statement):
    """`return`, with a value or without."""
    code: Optional[Node] = None
    at: int = field(default=-1, compare=False)


@dataclass(frozen=True)
class Break(Statement):
    """`break`."""
    at: int = field(default=-1, compare=False)


@dataclass(frozen=True)
class Continue(Statement):
    """`continue`."""
    at: int = field(default=-1, compare=False)


@dataclass(frozen=True)
class Leaving(Statement):
    """What is done where a function returns: `framed` where it has objects in memory as bytes, which is known at its end."""
    plain: Statement
    framed: Statement
    at: int = field(default=-1, compare=False)


@dataclass(frozen=True)
class Head:
    """A function's head. What is handed on by its place is a pointer."""
    name: str
    base: str
    stars: int
    parameters: Tuple[Declarator, ...]


@dataclass(frozen=True)
class Definition:
    """A function: what stands at its beginning, its statements, and what is done behind the last one. The first function of a text to run has `begins`."""
    head: Head
    first: Tuple[Statement, ...]
    items: Tuple[Statement, ...]
    last: Tuple[Statement, ...] = ()
    begins: bool = False
    symbol: Any = None
    at: int = field(default=-1, compare=False)
    body_at: int = field(default=-1, compare=False)


@dataclass(frozen=True)
class Record:
    """A struct's definition."""
    tag: str
    members: Tuple[Declarator, ...]


@dataclass(frozen=True)
class Template:
    """A piece of the prelude that is kept as text of the dialect."""
    name: str
    text: str


def placed(row: Statement, at: int) -> Statement:
    """The statement as one that stands at a token of the source."""
    return row if at < 0 or isinstance(row, Nothing) else replace(row, at=at)
