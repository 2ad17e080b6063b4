"""Functions within functions (GNU C): each becomes a function of its own, which gets the addresses of what it uses of those around it.

Before the text is read, such a function is moved behind all others, under a name that says where it was; a mark stays in its place. Then each variable of a function
around it that it uses, itself or by another one that it calls, becomes a pointer: a parameter of the moved function, or a variable outside functions where its address is
taken, which has room for one call of the function around it alone.
"""
import copy
from typing import Any, Dict, Iterator, List, NamedTuple, Optional, Sequence, Set, Tuple

from pycparser import c_ast

from cbi_port.lines import Refusal, Token
from cbi_port.long_jumps import declared_int
from cbi_port.neighbours import OPENS, closing, like, opening
from cbi_port.scopes import AROUND
from cbi_port.trees import is_statements, kind, replace

MARK, IN = "__cbi_nested", "__in__"
CONTROL = {"if", "while", "for", "switch", "return", "sizeof", "else", "do", "goto", "case", "typeof", "__typeof__", "__typeof", "__attribute__", "asm", "__asm__", "_Alignas", "_Generic"}


# The tokens.

def lifted(tokens: Sequence[Token]) -> List[Token]:
    """The tokens with such functions behind the end, and a mark in the place of each."""
    taken = {it.text for it in tokens if it.kind == "name"}
    found: List[Token] = []
    behind: List[Token] = []
    at = 0
    while at < len(tokens):
        token = tokens[at]
        if token.text == "{" and token.kind == "mark":
            close = closing(tokens, at)
            found.append(token)
            found.extend(body(tokens[at + 1:close], defined_name(found[:-1]), behind, taken))
            at = close
            continue
        found.append(token)
        at += 1
    return found + behind


def defined_name(out: Sequence[Token]) -> str:
    """The function whose body begins behind these tokens, where the `)` of its parameters stands last."""
    if not out or out[-1].text != ")":
        return ""
    begin = opening(out)
    name = out[begin - 1] if begin else out[0]
    return name.text if name.kind == "name" and name.text not in CONTROL else ""


def body(tokens: Sequence[Token], outer: str, behind: List[Token], taken: Set[str]) -> List[Token]:
    """What stands between braces, without the functions in it."""
    found: List[Token] = []
    at = 0
    while at < len(tokens):
        token = tokens[at]
        found.append(token)
        at += 1
        if token.text != "{" or token.kind != "mark":
            continue
        close = closing(tokens, at - 1)
        name = defined_name(found[:-1])
        begin = head_of(found[:-1]) if name else None
        if begin is None:
            found.extend(body(tokens[at:close], outer, behind, taken))
            at = close
            continue
        new = fresh(f"{name}{IN}{outer}", taken)
        place = opening(found[:-1]) - 1
        head = [*found[begin:place], like(found[place], new, "name"), *found[place + 1:]]
        found[begin:] = [like(found[place], it, "name" if it[0].isalpha() or it[0] == "_" else "mark") for it in (MARK, "(", new, ",", name, ")", ";")]
        behind.extend([*head, *body(tokens[at:close], new, behind, taken), tokens[close]])
        at = close + 1
    return found


def fresh(name: str, taken: Set[str]) -> str:
    found, count = name, 1
    while found in taken:
        count += 1
        found = f"{name}_{count}"
    taken.add(found)
    return found


def head_of(out: Sequence[Token]) -> Optional[int]:
    """Where the declaration begins that ends with the `)` of a function's parameters; None where no type stands before the name."""
    name = opening(out) - 1
    begin = name
    while begin and out[begin - 1].text not in (";", "{", "}", ":", ")"):
        begin -= 1
    words = [it.text for it in out[begin:name]]
    return begin if words and words[-1] not in CONTROL and all(it.kind == "name" or it.text == "*" for it in out[begin:name]) else None


# The trees.

class Variable(NamedTuple):
    """A variable of a function; `type` is that of its declaration, or None where another function can't be told of it."""
    number: int
    name: str
    owner: str
    type: Any
    by_element: bool


class Inner(NamedTuple):
    """A function within one, by the name that it has now."""
    name: str


class Local(NamedTuple):
    """A type or a constant of a function."""
    owner: str


Names = Dict[str, Any]


def bind(units: Sequence[Any], problems: List[Refusal]) -> None:
    """Gives the moved functions of all files what they use."""
    for unit in units:
        items = {item.decl.name: item for item in unit.tree.ext if kind(item) == "FuncDef"} if unit.tree is not None else {}
        moved = [name for name in items if IN in name]
        for name in [name for name in items if name not in moved and any(is_mark(it) for it in everything(items[name].body, unit.bodies))]:
            Family(items[name], items, unit, units, problems).run()


def everything(node: Any, bodies: Dict[str, Any]) -> Iterator[Any]:
    """A node and all below it, with what stands within expressions."""
    yield node
    if is_statements(node) and node.name.name in bodies:
        yield from everything(bodies[node.name.name], bodies)
    for _, child in node.children():
        yield from everything(child, bodies)


def is_mark(node: Any) -> bool:
    return kind(node) == "FuncCall" and kind(node.name) == "ID" and node.name.name == MARK


def innermost(declarator: Any) -> Any:
    while kind(declarator) != "TypeDecl":
        declarator = declarator.type
    return declarator


def without_value(node: Any) -> Any:
    node.init = None
    return node


def with_types(item: Any) -> None:
    """Puts the types of parameters that stand behind `)` before their names."""
    args, behind = item.decl.type.args, {it.name: it for it in item.param_decls or []}
    if args is not None and any(kind(it) == "ID" for it in args.params):
        args.params = [behind.get(it.name) or without_value(declared_int(it.name, it.coord)) if kind(it) == "ID" else it for it in args.params]
        item.param_decls = None


class Family:
    """A function, and those within it. The walk is made twice: first to see who uses what, then to write it."""

    def __init__(self, item: Any, items: Dict[str, Any], unit: Any, units: Sequence[Any], problems: List[Refusal]) -> None:
        self.root, self.items, self.unit, self.units, self.problems = item, items, unit, units, problems
        self.variables: Dict[int, Variable] = {}
        self.used: Dict[str, Dict[int, Variable]] = {}      # of each function within, the variables of those around it
        self.asked: Dict[str, Set[str]] = {}                # the functions within that a function names
        self.escaping: Set[str] = set()
        self.writing = False
        self.now = ""

    def run(self) -> None:
        self.function(self.root, {})
        moved = list(self.used)
        more = True
        while more:
            before = sum(map(len, self.used.values()))
            for name in moved:
                for other in self.asked[name]:
                    self.used[name].update({key: it for key, it in self.used[other].items() if it.owner != name})
            more = before != sum(map(len, self.used.values()))
        self.escaping = {name for name in self.escaping if self.used[name]}
        if self.escaping and self.may_come_back():
            self.refuse(self.root.decl, f"the address of a function within `{self.root.decl.name}`, which may be called while it runs", "a function of its own, with what it uses as parameters")
        self.writing = True
        self.function(self.root, {})
        self.put_in_place(moved)

    def refuse(self, node: Any, what: str, advice: str = "a function of its own, with what it uses as parameters") -> None:
        if self.writing or kind(node) == "Decl":
            self.problems.append(Refusal(node.coord.line if node.coord else 0, what, advice))

    def may_come_back(self) -> bool:
        """Whether the function around all may be called while it runs: by its name, or by way of others."""
        named = {item.decl.name: {it.name for it in everything(item.body, unit.bodies) if kind(it) == "ID"}
                 for unit in self.units if unit.tree is not None for item in unit.tree.ext if kind(item) == "FuncDef"}
        name = self.root.decl.name
        seen: Set[str] = set()
        waiting = [self.root.decl.name, *self.used]
        if any(name in names for other, names in named.items()) and self.as_value(name):
            return True
        while waiting:
            for other in named.get(waiting.pop(), set()) - seen:
                if other == name:
                    return True
                seen.add(other)
                waiting.append(other)
        return False

    def as_value(self, name: str) -> bool:
        """Whether a function's name stands somewhere as a value, so that a pointer may call it."""
        return any(kind(child) == "ID" and child.name == name and not (kind(node) == "FuncCall" and way == "name")
                   for unit in self.units if unit.tree is not None for root in [unit.tree, *unit.bodies.values()] for node in everything(root, {}) for way, child in node.children())

    # The walk.

    def function(self, item: Any, names: Names) -> None:
        outer, self.now = self.now, item.decl.name
        names = dict(names)
        inner: List[Tuple[Any, Names]] = []
        with_types(item)
        for it in item.decl.type.args.params if item.decl.type.args is not None else []:
            if kind(it) == "Decl":
                self.visit(it.type, names, inner)
                self.declare(it, names, True)
        self.block(item.body, names, inner)
        self.now = outer
        for moved, seen in inner:
            self.function(moved, seen)

    def block(self, node: Any, names: Names, inner: List[Tuple[Any, Names]]) -> None:
        marked = {it.args.exprs[1].name: it.args.exprs[0].name for it in node.block_items or [] if is_mark(it) and it.args.exprs[0].name in self.items}
        rows = []
        for item in node.block_items or []:
            ahead = kind(item) == "Decl" and kind(item.type) == "FuncDecl" and item.name in marked
            if is_mark(item) and item.args.exprs[1].name not in marked:
                continue    # it couldn't be read
            if is_mark(item) or ahead:
                name = item.name if ahead else item.args.exprs[1].name
                names[name] = Inner(marked[name])
                if not ahead:
                    self.used.setdefault(marked[name], {})
                    self.asked.setdefault(marked[name], set())
                    inner.append((self.items[marked[name]], dict(names)))
                continue
            rows.append(self.visit(item, names, inner))
        if self.writing:
            node.block_items = rows

    def declare(self, node: Any, names: Names, parameter: bool = False) -> None:
        if not node.name or kind(node.type) == "FuncDecl" and not parameter:
            names.pop(node.name, None)
            return
        known = self.variables.get(id(node))
        if known is None:
            known = self.variables[id(node)] = self.variable(node, names, parameter)
        names[node.name] = known

    def variable(self, node: Any, names: Names, parameter: bool) -> Variable:
        type_: Any = copy.deepcopy(node.type)
        if parameter and kind(type_) == "ArrayDecl":
            type_ = c_ast.PtrDecl([], type_.type, node.coord)
        by_element = kind(type_) == "ArrayDecl" and kind(type_.dim) != "Constant"
        if kind(type_) == "ArrayDecl" and by_element:
            type_ = type_.type
        below = list(everything(type_, {}))
        if any(kind(it) == "ID" or kind(it) in ("Struct", "Union", "Enum") and self.is_inner(it, names) or kind(it) == "IdentifierType" and isinstance(names.get("type " + it.names[0]), Local)
               for it in below) or kind(type_) == "FuncDecl":
            type_ = None
        return Variable(len(self.variables) + 1, node.name, self.now, type_, by_element)

    def is_inner(self, node: Any, names: Names) -> bool:
        inner = node.values if kind(node) == "Enum" else node.decls
        return inner is not None or isinstance(names.get(f"tag {node.name}"), Local)

    def visit(self, node: Any, names: Names, inner: List[Tuple[Any, Names]]) -> Any:
        """Goes through a node; what it becomes."""
        what = kind(node)
        if what == "Compound":
            self.block(node, dict(names), inner)
            return node
        if what == "For":
            names = dict(names)
        if what == "ID":
            return self.name(node, names)
        if what == "FuncCall" and kind(node.name) == "ID":
            return self.call(node, names, inner)
        if what == "UnaryOp" and node.op == "&" and kind(node.expr) == "ID" and isinstance(names.get(node.expr.name), Inner):
            return self.name(node.expr, names)
        if what == "UnaryOp" and node.op in ("sizeof", "&") and kind(node.expr) == "ID":
            self.whole(node, names)
        self.types(node, names)
        if what == "Decl":
            self.declare(node, names)
        for way, child in node.children():
            if what == "StructRef" and way == "field" or what == "NamedInitializer" and kind(child) == "ID":
                continue
            new = self.visit(child, names, inner)
            if new is not child:
                replace(node, way, new)
        return node

    def types(self, node: Any, names: Names) -> None:
        """Types and constants of a function, which those within it can't be told of."""
        what = kind(node)
        if what == "Typedef":
            names["type " + node.name] = Local(self.now)
        if what == "Enumerator":
            names[node.name] = Local(self.now)
        if what in ("Struct", "Union", "Enum") and self.is_inner(node, {}):
            names[f"tag {node.name}"] = Local(self.now)
        asked = names.get(f"tag {node.name}") if what in ("Struct", "Union", "Enum") else names.get("type " + node.names[0]) if what == "IdentifierType" else None
        if isinstance(asked, Local) and asked.owner != self.now:
            self.refuse(node, "a type of the function around a function", "the type outside functions")

    def whole(self, node: Any, names: Names) -> None:
        known = names.get(node.expr.name)
        if isinstance(known, Variable) and known.owner != self.now and known.by_element:
            self.refuse(node, f"`{node.op}` of an array of the function around a function", "the number that is meant")

    # Names.

    def name(self, node: Any, names: Names) -> Any:
        known = names.get(node.name)
        if isinstance(known, Inner):
            self.asked.get(self.now, set()).add(known.name)
            self.escaping.add(known.name) if not self.writing else None
            return self.with_set(known.name, c_ast.ID(known.name, node.coord), names, node) if self.writing else node
        if isinstance(known, Local) and known.owner != self.now:
            self.refuse(node, f"`{node.name}` of the function around a function", "an enumeration outside functions")
            return c_ast.Constant("int", "0", node.coord) if self.writing else node
        if not isinstance(known, Variable) or known.owner == self.now:
            return node
        self.used[self.now][known.number] = known
        if not self.writing:
            return node
        if known.type is None:
            self.refuse(node, f"`{node.name}` of the function around a function, by its type", "a type from outside functions")
        pointer = c_ast.ID(self.pointer(known, self.now), node.coord)
        return pointer if known.by_element else c_ast.UnaryOp("*", pointer, node.coord)

    def pointer(self, it: Variable, function: str) -> str:
        return f"{AROUND[function in self.escaping]}{it.name}_{it.number}"

    def address(self, it: Variable, names: Names, node: Any) -> Any:
        """The address of a variable, as the function has it through which the walk goes."""
        if it.owner != self.now:
            return c_ast.ID(self.pointer(it, self.now), node.coord)
        if names.get(it.name) != it:
            self.refuse(node, f"a function that uses `{it.name}`, where another `{it.name}` hides it", "another name for one of them")
        own = c_ast.ID(it.name, node.coord)
        return own if it.by_element else c_ast.UnaryOp("&", own, node.coord)

    def with_set(self, name: str, code: Any, names: Names, node: Any) -> Any:
        """What names a function, behind what sets the variables by which it finds what it uses."""
        if name not in self.escaping or name == self.now:
            return code
        rows = [c_ast.Assignment("=", c_ast.ID(self.pointer(it, name), node.coord), self.address(it, names, node), node.coord)
                for it in self.used[name].values() if it.owner == self.now or self.now not in self.escaping]
        return c_ast.ExprList([*rows, code], node.coord) if rows else code

    def call(self, node: Any, names: Names, inner: List[Tuple[Any, Names]]) -> Any:
        known = names.get(node.name.name)
        if is_statements(node) and node.name.name in self.unit.bodies:
            self.block(self.unit.bodies[node.name.name], dict(names), inner)
            return node
        skipped = 1 if node.name.name == "offsetof" else 0 if node.name.name == "__cbi_label" else None
        rows = [it if skipped is not None and at >= skipped else self.visit(it, names, inner) for at, it in enumerate(node.args.exprs if node.args is not None else [])]
        if self.writing and node.args is not None:
            node.args.exprs = rows
        if not isinstance(known, Inner):
            node.name = self.visit(node.name, names, inner)
            return node
        self.asked.get(self.now, set()).add(known.name)
        if not self.writing:
            return node
        node.name = c_ast.ID(known.name, node.name.coord)
        if known.name in self.escaping:
            return self.with_set(known.name, node, names, node)
        given = [self.address(it, names, node) for it in self.used[known.name].values() if it.type is not None]
        if given:
            node.args = c_ast.ExprList([*given, *rows], node.coord)
        return node

    # The moved functions.

    def put_in_place(self, moved: Sequence[str]) -> None:
        """Puts them before the function that had them, with their parameters and the variables that they need."""
        rows: List[Any] = []
        for name in moved:
            item = self.items[name]
            item.decl.storage = ["static"]
            self.unit.tree.ext.remove(item)
            used = [it for it in self.used[name].values() if it.type is not None]
            if name in self.escaping:
                rows += [self.declared(it, name, item, ["static"]) for it in used]
            elif used:
                args = item.decl.type.args
                own = [it for it in args.params if not (kind(it) == "Typename" and getattr(it.type.type, "names", None) == ["void"] and kind(it.type) == "TypeDecl")] if args is not None else []
                item.decl.type.args = c_ast.ParamList([*(self.declared(it, name, item, []) for it in used), *own], item.decl.coord)
            self.labels(item)
        at = self.unit.tree.ext.index(self.root)
        heads = [c_ast.Decl(name, [], [], ["static"], [], copy.deepcopy(self.items[name].decl.type), None, None, self.items[name].decl.coord) for name in moved]
        self.unit.tree.ext[at:at] = [*rows, *heads, *(self.items[name] for name in moved)]

    def declared(self, it: Variable, function: str, item: Any, storage: List[str]) -> Any:
        name, coord = self.pointer(it, function), item.decl.coord
        type_ = c_ast.PtrDecl([], copy.deepcopy(it.type), coord)
        innermost(type_).declname = name
        return c_ast.Decl(name, [], [], storage, [], type_, None, None, coord)

    def labels(self, item: Any) -> None:
        """Refuses what goes to a label of a function around; something that goes nowhere stands in its place."""
        own = {it.name for it in everything(item.body, self.unit.bodies) if kind(it) == "Label"}
        for node in list(everything(item.body, self.unit.bodies)):
            for way, child in node.children():
                if kind(child) == "Goto" and child.name not in own:
                    self.refuse(child, "a `goto` out of a function within a function", "a value that the function returns, and a `goto` behind its call")
                    replace(node, way, c_ast.EmptyStatement(child.coord))
                if kind(child) == "FuncCall" and kind(child.name) == "ID" and child.name.name == "__cbi_label" and child.args.exprs[0].name not in own:
                    self.refuse(child, "the address of a label of the function around a function", "a number for each label, and a `switch`")
                    replace(node, way, c_ast.Constant("int", "0", child.coord))


def is_moved(name: str) -> bool:
    """Whether a function stood within another one."""
    return IN in name
