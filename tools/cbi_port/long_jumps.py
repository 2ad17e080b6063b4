"""Which functions `longjmp` may leave (C99 7.13), and the trees of those: loops and `setjmp` in the form that unwinding.py translates.

A statement that calls `setjmp` gets a mark for its `jmp_buf` and a label before it, and has a variable in place of the call: 0 at first, and
what `longjmp` says when the run comes back to the label.
"""
from typing import Any, Dict, Iterator, List, NamedTuple, Sequence, Set

from pycparser import c_ast

from cbi_port.lines import Refusal
from cbi_port.trees import LOOPS, kind, mentions

SETS = {"setjmp", "_setjmp", "sigsetjmp"}
JUMPS = {"longjmp", "_longjmp", "siglongjmp"}
MARK = "__cbi_jump_mark"                # what gives a `jmp_buf` a number that no other has
CALLING_BACK = {"qsort", "qsort_r", "bsearch", "atexit", "raise"}


class Reach(NamedTuple):
    """The functions that may be left by a jump, by their names, and whether a call by pointer may be."""
    functions: Set[str]
    by_pointer: bool
    defined: Set[str]


def within(node: Any) -> Iterator[Any]:
    """A node and all below it that is evaluated."""
    yield node
    if kind(node) == "UnaryOp" and node.op == "sizeof":
        return
    for _, child in node.children():
        yield from within(child)


def called_name(node: Any) -> str:
    """The name of the function that a call names; empty where none is."""
    return str(node.name.name) if kind(node) == "FuncCall" and kind(node.name) == "ID" else ""


def functions_of(units: Sequence[Any]) -> List[Any]:
    return [item for unit in units if unit.tree is not None for item in unit.tree.ext if kind(item) == "FuncDef"]


def reach_of(units: Sequence[Any]) -> Reach:
    """Where jumps may reach: what calls `longjmp`, what calls that, and so on."""
    functions = functions_of(units)
    defined = {item.decl.name for item in functions}
    calls: Dict[str, Set[str]] = {}
    named: Set[str] = set()
    for item in functions:
        found = calls.setdefault(item.decl.name, set())
        for node in within(item.body):
            if kind(node) == "FuncCall":
                name = called_name(node)
                found.add(name if name in defined or name in JUMPS or name.startswith("__") else "")
    for unit in units:
        if unit.tree is not None:
            named |= set(mentioned(unit.tree))
    jumping: Set[str] = set()
    by_pointer = False
    while True:
        more = {name for name, found in calls.items() if found & (JUMPS - defined | jumping) or by_pointer and "" in found}
        if more == jumping and by_pointer == bool(jumping & named):
            return Reach(jumping, by_pointer, defined)
        jumping, by_pointer = more, bool(more & named)


def mentioned(node: Any) -> Iterator[str]:
    """The names that stand as values, and not as what is called."""
    if kind(node) == "ID":
        yield node.name
    for name, child in node.children():
        if not (kind(node) == "FuncCall" and name == "name" and kind(child) == "ID"):
            yield from mentioned(child)


def may_jump(node: Any, reach: Reach) -> bool:
    """Whether a call may be left by a jump."""
    if kind(node) != "FuncCall":
        return False
    name = called_name(node)
    if name in JUMPS and name not in reach.defined or name in reach.functions:
        return True
    return reach.by_pointer and not name.startswith("__") and name not in reach.defined


def holds_jump(node: Any, reach: Reach) -> bool:
    return node is not None and any(may_jump(it, reach) for it in within(node))


def sets_within(node: Any) -> List[Any]:
    return [it for it in within(node) if called_name(it) in SETS] if node is not None else []


# The trees.

def rewrite(units: Sequence[Any], problems: List[Refusal]) -> None:
    """Brings the functions that jumps may leave into the form that is translated, once for all ways to keep memory."""
    reach = reach_of(units)
    for item in functions_of(units):
        if item.decl.name in reach.functions or not SETS & reach.defined and sets_within(item.body):
            Rewriter(reach, problems).function(item)


class Rewriter:
    """The pass over a function."""

    def __init__(self, reach: Reach, problems: List[Refusal]) -> None:
        self.reach, self.problems = reach, problems
        self.count = self.loops = 0

    def function(self, item: Any) -> None:
        for node in within(item.body):
            if called_name(node) in JUMPS - self.reach.defined and node.args is not None:
                node.args.exprs[0] = number_of(node.args.exprs[0], node.coord)
        rows = self.rows(item.body.block_items or [])
        coord = item.body.coord
        declared = [declared_int(f"cbi_{word}_{number}", coord) for number in range(1, self.count + 1) for word in ("mark", "came")]
        item.body.block_items = declared + rows

    def rows(self, items: Sequence[Any]) -> List[Any]:
        return [row for item in items for row in self.statement(item)]

    def block(self, node: Any) -> Any:
        """One statement."""
        rows = self.statement(node)
        return rows[0] if len(rows) == 1 else c_ast.Compound(rows, node.coord)

    def statement(self, node: Any) -> List[Any]:
        what = kind(node)
        if what == "Compound":
            node.block_items = self.rows(node.block_items or [])
            return [node]
        if what in ("Case", "Default"):
            node.stmts = self.rows(node.stmts or [])
            return [node]
        if what == "Label":
            node.stmt = self.block(node.stmt)
            return [node]
        if what in LOOPS:
            return [self.loop(node)]
        if what in ("If", "Switch"):
            for name in ("iftrue", "iffalse") if what == "If" else ("stmt",):
                if getattr(node, name) is not None:
                    setattr(node, name, self.block(getattr(node, name)))
            return self.with_mark(node, node.cond)
        if what == "Decl" and node.init is not None and kind(node.init) != "InitList" and mentions(node.init, node.name) and holds_jump(node.init, self.reach):
            # Calls come before the declaration, which they may name (6.2.1p7).
            value, node.init = node.init, None
            later = c_ast.Assignment("=", c_ast.ID(node.name, node.coord), value, node.coord)
            return [node, *self.with_mark(later, later)]
        return self.with_mark(node, node)

    def loop(self, node: Any) -> Any:
        """A loop whose conditions call what may jump becomes one that tests within."""
        node.stmt = self.block(node.stmt)
        parts = [getattr(node, name, None) for name in ("init", "cond", "next")]
        if not any(part is not None and (holds_jump(part, self.reach) or sets_within(part)) for part in parts):
            return node
        coord = node.coord
        test = [] if node.cond is None else [c_ast.If(c_ast.UnaryOp("!", node.cond, node.cond.coord), c_ast.Break(coord), None, coord)]
        begin: List[Any] = []
        if getattr(node, "init", None) is not None:
            begin += node.init.decls if kind(node.init) == "DeclList" else [node.init]
        # What comes before each round but the first.
        again = node.next if kind(node) == "For" else test[0] if kind(node) == "DoWhile" else None
        first: List[Any] = []
        if again is not None:
            self.loops += 1
            flag = f"cbi_again_{self.loops}"
            begin.append(declared_int(flag, coord))
            first.append(c_ast.If(c_ast.ID(flag, coord), again, c_ast.Assignment("=", c_ast.ID(flag, coord), one(coord), coord), coord))
        rounds = self.rows(first + (test if kind(node) != "DoWhile" else []))
        return c_ast.Compound(self.rows(begin) + [c_ast.While(one(coord), c_ast.Compound(rounds + [node.stmt], coord), coord)], coord)

    def with_mark(self, node: Any, expression: Any) -> List[Any]:
        """A statement, with a mark and a label before it where its expression calls `setjmp`."""
        found = sets_within(expression)
        if not found:
            return [node]
        call, coord = found[0], node.coord
        if len(found) > 1 or conditional(expression, call):
            self.problems.append(Refusal(call.coord.line if call.coord else 0, "`setjmp` within an expression", "`setjmp` alone in a condition or an assignment, as C99 7.13.1.1 wants it"))
            for it in found:
                put_in_place(node, it, one(coord))
            return [node]
        self.count += 1
        mark, came = (c_ast.ID(f"cbi_{word}_{self.count}", coord) for word in ("mark", "came"))
        number = c_ast.Assignment("=", number_of(call.args.exprs[0], coord), c_ast.FuncCall(c_ast.ID(MARK, coord), None, coord), coord)
        rows = [c_ast.Assignment("=", mark, number, coord), c_ast.Assignment("=", came, c_ast.Constant("int", "0", coord), coord),
                c_ast.Label(f"cbi_back_{self.count}", c_ast.EmptyStatement(coord), coord)]
        put_in_place(node, call, came)
        return rows + [node if node is not call else came]


def declared_int(name: str, coord: Any) -> Any:
    """`int NAME = 0;`"""
    type_ = c_ast.TypeDecl(name, [], None, c_ast.IdentifierType(["int"], coord), coord)
    return c_ast.Decl(name, [], [], [], [], type_, c_ast.Constant("int", "0", coord), None, coord)


def number_of(jump: Any, coord: Any) -> Any:
    """Where a `jmp_buf` has its number, at no place of the author's."""
    return c_ast.ArrayRef(c_ast.StructRef(jump, "->", c_ast.ID("registers", coord), coord), c_ast.Constant("int", "0", coord))


def one(coord: Any) -> Any:
    return c_ast.Constant("int", "1", coord)


def conditional(node: Any, call: Any) -> bool:
    """Whether a call within an expression isn't evaluated each time, or something of it is evaluated before."""
    if node is call:
        return False
    child = next(child for _, child in node.children() if any(it is call for it in within(child)))
    return kind(node) in ("TernaryOp", "ExprList") or kind(node) == "BinaryOp" and node.op in ("&&", "||") or conditional(child, call)


def put_in_place(node: Any, old: Any, new: Any) -> None:
    """Puts a node in place of another one somewhere below."""
    for name in node.__slots__:
        value = getattr(node, name, None)
        if value is old:
            setattr(node, name, new)
        elif isinstance(value, list):
            value[:] = [new if inner is old else inner for inner in value]
            for inner in value:
                if isinstance(inner, c_ast.Node):
                    put_in_place(inner, old, new)
        elif isinstance(value, c_ast.Node):
            put_in_place(value, old, new)


def marks_in(body: Any) -> int:
    """How many marks of `setjmp` a function has."""
    return sum(called_name(it) == MARK for it in within(body))
