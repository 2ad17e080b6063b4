"""Variables with GNU C's `cleanup`: where the scope of one is left, a function gets its address. The calls are written out at each such place.

A declaration gets a mark behind it, a call of `__cbi_cleanup`; from there to the end of its block the variable is held. What leaves by `return`, `break`, `continue` or
`goto` calls for those that are held here and not there, the last one first; the value of a `return` is found out before.
"""
import copy
from typing import Any, Dict, Iterator, List, NamedTuple, Optional, Sequence, Set, Tuple

from pycparser import c_ast

from cbi_port.lines import Refusal, Token
from cbi_port.neighbours import OPENS, closes_struct, closing, declared_name, like, split
from cbi_port.trees import LOOPS, ends_by_itself, is_jump, is_statements, kind

MARK = "__cbi_cleanup"
BEHIND = ("=", ";", ",", "[", ")")


# The tokens.

def marks(within: Sequence[Token], out: Sequence[Token], behind: Sequence[Token], inner: bool) -> Optional[List[Token]]:
    """The marks of what an attribute says of the variables of its declaration; None where it can't be kept. `inner` where all of it stands within an expression's statements."""
    place = around(out)
    if not place and not inner or out and (out[-1].text in ("struct", "union") or out[-1].text == "}" and closes_struct(out)) or lives_on(out):
        return []   # of a type, or of what lives as long as the program, which gcc passes over
    at = next(at for at, it in enumerate(within) if it.text.strip("_") == "cleanup")
    function = within[at + 2:closing(within, at + 1)]
    names = declared(out, behind)
    if len(function) != 1 or not names or place not in ("", "{"):
        return None
    words = [[MARK, "(", function[0].text, ",", name, ")", ";"] for name in names]
    return [like(within[at], it, "name" if it[0].isalpha() or it[0] == "_" else "mark") for row in words for it in row]


def around(out: Sequence[Token]) -> str:
    """The innermost bracket that is open behind these tokens."""
    depth = 0
    for token in reversed(out):
        depth += (token.text in (")", "]", "}")) - (token.text in OPENS)
        if depth < 0:
            return token.text
    return ""


def lives_on(out: Sequence[Token]) -> bool:
    """Whether the declaration that these tokens end with has storage of its own."""
    for token in reversed(out):
        if token.text in (";", "{", "}"):
            return False
        if token.text in ("static", "extern"):
            return True
    return False


def declared(out: Sequence[Token], behind: Sequence[Token]) -> List[str]:
    """The variables that an attribute belongs to: the one whose declarator ends before it, or those that come behind it."""
    while behind and behind[0].text.startswith("__attribute"):
        behind = behind[closing(behind, 1) + 1:]
    if not behind or behind[0].text in BEHIND:
        name = declared_name(out)
        return [name] if name else []
    end, depth = 0, 0
    while end < len(behind) and not (behind[end].text == ";" and depth == 0):
        depth += (behind[end].text in ("(", "[", "{")) - (behind[end].text in (")", "]", "}"))
        end += 1
    if end == len(behind):
        return []
    parts = split(behind[:end], ",")
    names: List[str] = []
    for part in parts[:1] if out and out[-1].text == "*" else parts:
        cut = next((at for at, it in enumerate(part) if it.text in ("=", "[") or it.text.startswith("__attribute")), len(part))
        if not cut or part[cut - 1].kind != "name":
            return []
        names.append(part[cut - 1].text)
    return names


# The trees.

class Held(NamedTuple):
    """A variable that is held; `hidden` where another one has its name."""
    number: int
    function: str
    name: str
    hidden: bool


Stack = Tuple[Held, ...]


class Place(NamedTuple):
    """What is held at a statement, and what is held where `break` and `continue` go."""
    held: Stack
    broken: Stack
    continued: Stack


def write_out(units: Sequence[Any], problems: List[Refusal]) -> None:
    """Writes the calls into all functions that have such variables."""
    for unit in units:
        for item in unit.tree.ext if unit.tree is not None else []:
            if kind(item) == "FuncDef" and any(is_mark(it) for it in everything(item.body, unit.bodies)):
                Cleanups(item, unit.bodies, problems).run()


def everything(node: Any, bodies: Dict[str, Any]) -> Iterator[Any]:
    """A node and all below it, with what stands within expressions."""
    yield node
    if is_statements(node) and node.name.name in bodies:
        yield from everything(bodies[node.name.name], bodies)
    for _, child in node.children():
        yield from everything(child, bodies)


def is_mark(node: Any) -> bool:
    return kind(node) == "FuncCall" and kind(node.name) == "ID" and node.name.name == MARK


def shared(left: Stack, right: Stack) -> int:
    """How many variables are held in both of two places."""
    count = 0
    while count < min(len(left), len(right)) and left[count].number == right[count].number:
        count += 1
    return count


class Cleanups:
    """The pass over a function."""

    def __init__(self, item: Any, bodies: Dict[str, Any], problems: List[Refusal]) -> None:
        self.item, self.bodies, self.problems = item, bodies, problems
        self.result = item.decl.type.type
        self.labels: Dict[str, Stack] = {}
        self.numbers: Dict[int, int] = {}
        self.done: Set[int] = set()
        self.values = 0

    def run(self) -> None:
        self.find_labels(self.item.body, ())
        self.statement(self.item.body, Place((), (), ()))

    def find_labels(self, node: Any, held: Stack) -> Stack:
        """Notes what is held at each label; what is held behind a node."""
        if is_mark(node):
            return self.with_mark(node, held)
        if kind(node) == "Label":
            self.labels[node.name] = held
        if is_statements(node) and node.name.name in self.bodies:
            self.find_labels(self.bodies[node.name.name], held)
        inner = held
        for _, child in node.children():
            inner = self.find_labels(child, inner)
        return held if kind(node) == "Compound" else inner

    def with_mark(self, node: Any, held: Stack) -> Stack:
        function, variable = node.args.exprs
        number = self.numbers.setdefault(id(node), len(self.numbers))
        return (*held, Held(number, function.name, variable.name, False))

    def refuse(self, node: Any, what: str, advice: str) -> None:
        self.problems.append(Refusal(node.coord.line if node.coord else 0, what, advice))

    def calls(self, held: Sequence[Held], node: Any) -> List[Any]:
        """The calls for variables that are held no longer, the last one first."""
        coord = node.coord
        for it in held:
            if it.hidden:
                self.refuse(node, f"a `cleanup` of `{it.name}` where another `{it.name}` hides it", "another name for one of them")
        return [c_ast.FuncCall(c_ast.ID(it.function, coord), c_ast.ExprList([c_ast.UnaryOp("&", c_ast.ID(it.name, coord), coord)], coord), coord) for it in reversed(held)]

    def rows(self, items: Sequence[Any], place: Place) -> Tuple[List[Any], Stack]:
        """Statements one after another, and what is held behind them."""
        found: List[Any] = []
        for item in items:
            if is_mark(item):
                place = place._replace(held=self.with_mark(item, place.held))
                continue
            place = self.hiding([item], place)
            found.extend(self.statement(item, place))
        return found, place.held

    def hiding(self, items: Sequence[Any], place: Place) -> Place:
        names = {it.name for it in items if kind(it) == "Decl"}
        if not names & {it.name for it in place.held}:
            return place
        return place._replace(held=tuple(it._replace(hidden=it.hidden or it.name in names) for it in place.held))

    def one(self, node: Any, place: Place) -> Any:
        rows = self.statement(node, place)
        return rows[0] if len(rows) == 1 else c_ast.Compound(rows, node.coord)

    def statement(self, node: Any, place: Place) -> List[Any]:
        """What a statement becomes."""
        what = kind(node)
        if what == "Compound":
            self.block(node, place)
            return [node]
        if what in ("Case", "Default"):
            node.stmts, held = self.rows(node.stmts or [], place)
            if len(held) > len(place.held):
                self.refuse(node, "a `cleanup` between the labels of a `switch`", "a block behind the label")
            return [node]
        self.expressions(node, place)
        if what == "Label":
            node.stmt = self.one(node.stmt, place)
        elif what in LOOPS or what == "Switch":
            inner = self.hiding(node.init.decls, place) if what == "For" and kind(node.init) == "DeclList" else place
            inner = inner._replace(broken=place.held, continued=place.continued if what == "Switch" else place.held)
            node.stmt = self.one(node.stmt, inner)
        elif what == "If":
            for name in ("iftrue", "iffalse"):
                if getattr(node, name) is not None:
                    setattr(node, name, self.one(getattr(node, name), place))
        return self.leaving(node, place)

    def block(self, node: Any, place: Place) -> None:
        items = node.block_items or []
        rows, held = self.rows(items, place)
        last = items[-1] if items else node
        if not ends_by_itself(items[-1:]):
            rows += self.calls(held[len(place.held):], last)
        node.block_items = rows

    def expressions(self, node: Any, place: Place) -> None:
        """The statements within the expressions of a statement."""
        for name, child in node.children():
            if is_statements(child) and child.name.name in self.bodies and id(child) not in self.done:
                self.done.add(id(child))
                body = self.bodies[child.name.name]
                rows, held = self.rows(body.block_items or [], place)
                if len(held) > len(place.held):
                    self.refuse(child, "a `cleanup` in a statement within an expression", "a function for it")
                body.block_items = rows
            elif kind(child) not in ("Compound", "If", "Switch", "Label", "Case", "Default", *LOOPS) and name not in ("stmt", "iftrue", "iffalse"):
                self.expressions(child, place)

    def leaving(self, node: Any, place: Place) -> List[Any]:
        """What a statement that may leave scopes becomes."""
        what, held = kind(node), place.held
        if what == "Break":
            return self.left(node, held[shared(held, place.broken):])
        if what == "Continue":
            return self.left(node, held[shared(held, place.continued):])
        if what == "Goto":
            return self.left(node, held[shared(held, self.labels.get(node.name, held)):])
        if is_jump(node) and held:
            self.refuse(node, "a `goto` by an address out of a scope with a `cleanup`", "a `goto` with a label")
        return self.returned(node, held) if what == "Return" and held else [node]

    def left(self, node: Any, held: Sequence[Held]) -> List[Any]:
        return [c_ast.Compound([*self.calls(held, node), node], node.coord)] if held else [node]

    def returned(self, node: Any, held: Stack) -> List[Any]:
        """A `return` behind the calls; its value is found out before them."""
        if node.expr is None or kind(node.expr) == "Constant":
            return self.left(node, held)
        if kind(self.result) == "TypeDecl" and getattr(self.result.type, "names", None) == ["void"]:
            return [c_ast.Compound([node.expr, *self.calls(held, node), c_ast.Return(None, node.coord)], node.coord)]
        self.values += 1
        name, coord = f"cbi_value_{self.values}", node.coord
        type_ = inner = copy.deepcopy(self.result)
        while kind(inner) != "TypeDecl":
            inner = inner.type
        inner.declname = name
        kept = c_ast.Decl(name, [], [], [], [], type_, node.expr, None, coord)
        return [c_ast.Compound([kept, *self.calls(held, node), c_ast.Return(c_ast.ID(name, coord), coord)], coord)]
