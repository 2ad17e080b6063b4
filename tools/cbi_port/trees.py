"""What a tree of C holds: names, jumps, and statements within expressions."""
from typing import Any, Dict, List, NamedTuple, Set

LOOPS = ("While", "DoWhile", "For")
CONTROL = (*LOOPS, "If", "Compound", "Return", "Switch", "Goto", "Label", "Break", "Continue")


def kind(node: Any) -> str:
    return type(node).__name__


def without_casts(node: Any) -> Any:
    """What is cast to a pointer, and cast again."""
    while kind(node) == "Cast" and kind(node.to_type.type) == "PtrDecl":
        node = node.expr
    return node


def holds(node: Any, wanted: Any) -> bool:
    """Whether a statement has, somewhere in it, one that is wanted."""
    if node is None:
        return False
    return wanted(node) or any(holds(child, wanted) for _, child in node.children())


def replace(node: Any, name: str, child: Any) -> None:
    """Puts a child in the place of another one, by the name that `children` gives it."""
    if name.endswith("]"):
        head, _, index = name[:-1].partition("[")
        getattr(node, head)[int(index)] = child
    else:
        setattr(node, name, child)


def mentions(node: Any, name: str) -> bool:
    if kind(node) == "ID" and node.name == name:
        return True
    return any(mentions(child, name) for _, child in node.children())


def names_under_address(body: Any) -> Set[str]:
    """The names whose address is taken somewhere in a body."""
    found: Set[str] = set()
    stack: List[Any] = [body]
    while stack:
        node = stack.pop()
        if kind(node) == "UnaryOp" and node.op == "&":
            inner = node.expr
            while kind(inner) in ("StructRef", "ArrayRef"):
                inner = inner.name
            if kind(inner) == "ID":
                found.add(inner.name)
        if node is not None:
            stack.extend(child for _, child in node.children())
    return found


def declared_outside(node: Any) -> Set[str]:
    """The names that are declared `extern` within a body."""
    found = {node.name} if kind(node) == "Decl" and "extern" in (node.storage or []) else set()
    return found.union(*(declared_outside(child) for _, child in node.children()))


def holds_open(node: Any) -> bool:
    """Whether a declarator may have an array of a length that the program finds out."""
    if kind(node) == "ArrayDecl":
        return kind(node.dim) not in ("Constant", "NoneType") or holds_open(node.type)
    return kind(node) == "PtrDecl" and holds_open(node.type)


def gives_value(node: Any) -> bool:
    """Whether a `return` with a value stands in a body, or may stand in what GNU C has within an expression."""
    if kind(node) == "Return" and node.expr is not None or kind(node) == "ID" and node.name.startswith("__cbi_statement"):
        return True
    return any(gives_value(child) for _, child in node.children())


def is_statements(node: Any) -> bool:
    return kind(node) == "FuncCall" and kind(node.name) == "ID" and node.name.name.startswith("__cbi_statement")


def direct_of(node: Any) -> Any:
    """The statement within an expression before which nothing of it is evaluated."""
    if kind(node) == "Assignment" and kind(node.lvalue) == "ID":
        node = node.rvalue
    while kind(node) == "Cast":
        node = node.expr
    return node if is_statements(node) else None


def leading(node: Any) -> List[Any]:
    """The statements within an expression that C lets be evaluated before all else of it (6.5p3)."""
    if is_statements(node):
        return [node]
    if kind(node) == "BinaryOp" and node.op in ("&&", "||"):
        return leading(node.left)
    if kind(node) == "TernaryOp":
        return leading(node.cond)
    if kind(node) == "ExprList":
        return leading(node.exprs[0])
    if kind(node) == "FuncCall":
        return [found for it in [node.name, *(node.args.exprs if node.args is not None else [])] for found in leading(it)]
    if kind(node) in ("Cast", "UnaryOp", "Assignment", "BinaryOp", "ArrayRef", "StructRef") and getattr(node, "op", "") != "sizeof":
        return [found for _, child in node.children() for found in leading(child)]
    return []


def goes_before(node: Any) -> bool:
    """Whether a statement may become several ones, since some stand within an expression of it."""
    if kind(node) in ("Compound", "While", "DoWhile", "For", "Label"):
        return False
    if kind(node) in ("If", "Switch"):
        node = node.cond
    return bool(leading(node.expr if kind(node) == "Return" else node))


def ends_by_itself(rest: List[Any]) -> bool:
    last = rest[-1] if rest else None
    while kind(last) == "Compound" and last.block_items:
        last = last.block_items[-1]
    return kind(last) in ("Break", "Return", "Continue", "Goto")


def breaks(node: Any) -> int:
    """How many times a statement leaves the `switch` around it."""
    if kind(node) == "Break":
        return 1
    if kind(node) in ("While", "DoWhile", "For", "Switch") or node is None:
        return 0
    return sum(breaks(child) for _, child in node.children())


def cases_within(switch: Any) -> bool:
    """Whether a label of a `switch` stands within another statement."""
    items = (switch.stmt.block_items or []) if kind(switch.stmt) == "Compound" else [switch.stmt]

    def stray(node: Any, top: bool) -> bool:
        if node is None or kind(node) == "Switch":
            return False
        if kind(node) in ("Case", "Default"):
            return not top or any(stray(item, kind(item) in ("Case", "Default")) for item in node.stmts or [])
        return any(stray(child, False) for _, child in node.children())
    return any(stray(item, True) for item in items)


def is_jump(node: Any) -> bool:
    return kind(node) == "Goto" or kind(node) == "FuncCall" and kind(node.name) == "ID" and node.name.name == "__cbi_goto"


def leaves_loop(node: Any) -> bool:
    """Whether a `goto` stands within a loop or a `switch`."""
    if node is None:
        return False
    if kind(node) in (*LOOPS, "Switch"):
        return holds(node, is_jump)
    return any(leaves_loop(child) for _, child in node.children())


class Look(NamedTuple):
    """What a tree has somewhere in it: labels, jumps, jumps within loops, labels of a `switch` within other statements, and labels of one that is around it."""
    label: bool
    jump: bool
    leaves: bool
    cased: bool
    stray: bool


class Cuts:
    """Which statements of a function have to be cut into segments: its tree is looked at once, from the leaves on."""

    def __init__(self, body: Any) -> None:
        self.body = body
        self.known: Dict[int, bool] = {}
        found = self.look(body)
        self.any = found.label or found.jump or found.cased

    def look(self, node: Any) -> Look:
        rows = [self.look(child) for _, child in node.children()]
        what = kind(node)
        label, jump, leaves, cased, stray = map(any, zip(*rows)) if rows else (False,) * 5
        jump = jump or is_jump(node)
        if what in LOOPS or what == "Switch":
            leaves = jump
        found = Look(label or what == "Label", jump, leaves, cased or what == "Switch" and cases_within(node), what != "Switch" and (stray or what in ("Case", "Default")))
        self.known[id(node)] = found.label or found.leaves or found.cased or found.stray
        return found

    def is_cut(self, node: Any) -> bool:
        """Whether a statement has to be cut; one that stands elsewhere is looked at by itself."""
        found = self.known.get(id(node))
        return is_cut(node) if found is None else found


def is_cut(node: Any) -> bool:
    """Whether a statement has to be cut into segments."""
    return holds(node, lambda it: kind(it) == "Label") or leaves_loop(node) or holds(
        node, lambda it: kind(it) == "Switch" and cases_within(it)) or has_stray_case(node)


def has_stray_case(node: Any) -> bool:
    if node is None or kind(node) == "Switch":
        return False
    return kind(node) in ("Case", "Default") or any(has_stray_case(child) for _, child in node.children())
