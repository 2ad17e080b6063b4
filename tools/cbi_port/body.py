"""What is known of a function while its body is translated."""
from typing import Any, Callable, Dict, List, Optional, Set, Tuple, Union

from cbi_port.blocks import Block, Declarator, Declare, If, Statement
from cbi_port.nodes import Binary, Node, Number
from cbi_port.types import INT, CType
from cbi_port.values import Value

# What is kept beside: a number of a kind, or an object by how it is spelled and its stars.
Kept = Union[str, Tuple[str, int]]


class Body:
    """The statements of a function as they grow, and what is declared at its beginning."""

    def __init__(self, name: str, result: CType) -> None:
        self.name, self.result = name, result
        self.out: List[Statement] = []
        self.quiet = False
        self.same: List[Value] = []
        self.pools: Dict[Kept, int] = {}
        self.floor: Dict[Kept, int] = {}  # of these, what a statement still needs
        self.most: Dict[Kept, int] = {}
        self.fixed: List[Statement] = []
        self.number = 0
        self.held = 0
        self.loops: List[Any] = []
        self.flat: Any = None      # which segment is next, in a function that jumps
        self.done: List[Statement] = []   # its segments but the last one, and what stands before them
        self.now = 0               # the last one's number
        self.before = 0            # how many statements stand before the segments
        self.hoisted: Dict[int, Any] = {}
        self.labels: Dict[str, int] = {}
        self.frame = 0             # bytes of memory that the function's objects take
        self.objects: List[Tuple[Node, int]] = []  # where each of them lies, and its bytes
        self.beside: Optional[Node] = None  # where what statements keep beside begins
        self.addressed: Any = set()
        self.ends: List[Statement] = []  # what is done before each return
        self.whole: Any = None
        self.direct: Any = None           # the statements within an expression before which nothing of it is evaluated
        self.leading: Dict[int, Any] = {}  # those that may be evaluated before all else of it
        self.segments = 0
        self.first_rows: List[Statement] = []
        self.case_segments: Dict[int, int] = {}
        self.wanted_labels: Dict[str, int] = {}
        self.defined_labels: Set[str] = set()
        self.lengths = False
        self.outer_names: Set[str] = set()  # what is declared `extern` within the function
        self.last_member: Dict[Node, str] = {}  # which member of a union was used last, by the way to it
        self.tails: Dict[int, Any] = {}     # calls of the function to itself that become rounds of a loop, by their statements
        self.parameters: List[Any] = []
        self.jumps = False         # whether `longjmp` may leave the function
        self.marks = 0             # how many calls of `setjmp` it has
        self.replaced: Dict[int, Value] = {}  # the values of expressions that are evaluated already, by their nodes
        self.dead = 0              # within what a constant says is never evaluated

    def add(self, row: Statement) -> None:
        self.out.append(row)

    def gathered(self, write: Callable[[], None]) -> Tuple[Statement, ...]:
        """The statements that something writes, which don't come behind those that are there."""
        out, self.out = self.out, []
        try:
            write()
            return tuple(self.out)
        finally:
            self.out = out

    def is_next(self, number: int) -> Node:
        """Whether a segment is the next one."""
        return Binary(INT, "==", self.flat, Number(INT, number))

    def segment(self, number: int) -> None:
        """Ends a segment, and begins another one."""
        self.done.append(If(self.is_next(self.now), Block(tuple(self.out))))
        self.out, self.now = [], number

    def fresh_statement(self) -> None:
        """Lets what was kept beside for the last statement be used again."""
        if not self.held:
            self.pools = dict(self.floor)

    def temporary(self, what: Kept) -> str:
        """A name that holds something within a statement."""
        index = self.pools.get(what, 0) + 1
        self.pools[what] = index
        self.most[what] = max(self.most.get(what, 0), index)
        return f"cbi_{self.word(what)}_{index}"

    def word(self, what: Kept) -> str:
        """What is kept, as a part of a name."""
        if isinstance(what, str):
            return what
        return "".join(letter if letter.isalnum() or letter == "_" else "_" for letter in what[0]) + ("_" + "p" * what[1] if what[1] else "")

    def lasting(self, what: Kept) -> str:
        """A name that holds something for as long as the function runs."""
        self.number += 1
        name = f"cbi_kept_{self.number}"
        self.fixed.append(self.declared(what, name))
        return name

    def array(self, count: int) -> str:
        self.number += 1
        self.fixed.append(Declare(Declarator(INT, "int", 0, f"cbi_more_{self.number}", (count,))))
        return f"cbi_more_{self.number}"

    def declared(self, what: Kept, name: str) -> Statement:
        base, stars = (f"struct cbi_{what}", 0) if isinstance(what, str) else what
        return Declare(Declarator(None, base, stars, name))

    def declarations(self) -> List[Statement]:
        rows = [self.declared(what, f"cbi_{self.word(what)}_{index}") for what, most in self.most.items() for index in range(1, most + 1)]
        return rows + self.fixed
