"""Statements (C99 6.8) and the declarations within functions."""
from typing import Any, Optional, Tuple

from cbi_port.blocks import Block, Break, Continue, Declare, Do, Empty, Evaluate, For, If, Return, Rows, Statement, While
from cbi_port.conversions import number
from cbi_port.initialisers import Initialisers
from cbi_port.lines import Refusal
from cbi_port.nodes import Assign, Call, Name, Node, Null, Number, Part
from cbi_port.scopes import Scope, Symbol
from cbi_port.trees import direct_of, ends_by_itself, goes_before, kind, leading
from cbi_port.types import INT, UCHAR, Array, CType, Function, Int, Pointer, Struct, Void, is_complete, is_long, is_open, spelled
from cbi_port.values import Value, word


def is_line(row: Statement) -> bool:
    """Whether a `for` may begin with a statement."""
    return isinstance(row, (Evaluate, Empty)) or isinstance(row, Declare) and row.behind is None


class Statements(Initialisers):
    """Writes statements into the function's body."""

    def statement(self, node: Any) -> None:
        self.function.fresh_statement()
        at = self.place_of(node)
        if at >= 0:
            self.last_place = at
        outer, loops = self.scope, len(self.function.loops)
        try:
            getattr(self, "st_" + kind(node), self.st_expression)(node)
        except Refusal as refusal:
            self.tell(refusal, node)
            if kind(node) in ("If", "While", "DoWhile", "For"):
                self.within_refused(node)
            self.scope = outer
            del self.function.loops[loops:]

    def within_refused(self, node: Any) -> None:
        """Looks at what a statement has whose condition is refused, so that what is refused of it is told too."""
        self.function.loops.append("loop")
        for inner in (getattr(node, name, None) for name in ("iftrue", "iffalse", "stmt")):
            if inner is not None:
                self.statement(inner)

    def add(self, row: Statement) -> None:
        """Writes a statement behind those that are there."""
        self.function.add(row)

    def do(self, code: Node, node: Any = None) -> None:
        """Writes an expression as a statement."""
        self.add(Evaluate(code, self.place_of(node) if node is not None else -1))

    def gathered(self, *nodes: Any) -> Tuple[Statement, ...]:
        """What some statements become."""
        def write() -> None:
            for node in nodes:
                self.statement(node)
        return self.function.gathered(write)

    def st_expression(self, node: Any) -> None:
        self.function.whole = node
        self.lead(node)
        value = self.value(node, False)
        self.add(self.evaluated(value, self.place_of(node)))

    def evaluated(self, value: Value, at: int = -1) -> Statement:
        """A value as a statement, where it does something."""
        return Empty(at) if value.pure else Evaluate(value.code, at)

    def lead(self, node: Any) -> None:
        """Says which statements within the expression may stand before it."""
        self.function.direct = direct_of(node)
        self.function.leading = {id(it): it for it in leading(node)}

    def st_Pragma(self, node: Any) -> None:
        self.add(Empty())

    def st_StaticAssert(self, node: Any) -> None:
        self.add(Empty())

    def st_EmptyStatement(self, node: Any) -> None:
        self.add(Empty(self.place_of(node)))

    def st_Typedef(self, node: Any) -> None:
        self.count("typedefs")
        align = self.said_alignment(node)
        self.scope.names[node.name] = symbol = Symbol(node.name, "type", self.resolve(node.type, node.name))
        symbol.align, symbol.quals = align, self.quals_of(node.type)

    def st_Compound(self, node: Any) -> None:
        outer, self.scope = self.scope, Scope(self.scope)
        rows = self.gathered(*(node.block_items or []))
        self.scope = outer
        self.add(Block(rows, self.place_of(node)))

    def body(self, node: Any) -> Statement:
        """A statement that another one has, in braces where it may be more than one."""
        rows = self.gathered(node)
        if kind(node) in ("Decl", "Case", "Default", "Typedef", "DeclList") or goes_before(node):
            return Block(rows)
        return rows[0] if len(rows) == 1 else Rows(rows)

    def condition(self, node: Any) -> Node:
        self.function.fresh_statement()
        return self.truth(self.value(node)).code

    def st_If(self, node: Any) -> None:
        self.function.fresh_statement()
        self.lead(node.cond)
        value = self.truth(self.value(node.cond))
        dead = (value.constant == 0, value.constant is not None and value.constant != 0)
        before = dict(self.function.last_member)
        self.function.dead += dead[0]
        then = self.body(node.iftrue) if node.iftrue is not None else Empty()
        self.function.dead += dead[1] - dead[0]
        if node.iffalse is not None or ends_by_itself([node.iftrue]):
            self.function.last_member = before
        other = None
        if node.iffalse is not None:
            if not isinstance(then, Block) and self.holds_if(node.iftrue):
                then = Block(then.items if isinstance(then, Rows) else (then,))
            other = self.body(node.iffalse)
        self.function.dead -= dead[1]
        self.add(self.headed(If(value.code, then, other, self.place_of(node)), node))

    def holds_if(self, node: Any) -> bool:
        """Whether an `else` behind the statement would be taken by an `if` in it."""
        while node is not None:
            if kind(node) == "If":
                return node.iffalse is None or self.holds_if(node.iffalse)
            node = node.stmt if kind(node) in ("While", "For", "Label") else None
        return False

    def st_While(self, node: Any) -> None:
        condition = self.condition(node.cond)
        self.add(self.headed(While(condition, self.loop(node.stmt), self.place_of(node)), node))

    def st_DoWhile(self, node: Any) -> None:
        body = self.loop(node.stmt)
        if kind(node.stmt) != "Compound":
            body = Block(body.items if isinstance(body, Rows) else (body,))
        self.add(self.headed(Do(body, self.condition(node.cond), self.place_of(node)), node))

    def loop(self, node: Any) -> Statement:
        """The body of a loop."""
        self.function.loops.append("loop")
        body = self.body(node) if node is not None else Empty()
        self.function.loops.pop()
        return body

    def st_For(self, node: Any) -> None:
        outer, self.scope = self.scope, Scope(self.scope)
        first: Statement = Empty()
        before: Optional[Tuple[Statement, ...]] = None
        if node.init is not None and kind(node.init) == "DeclList":
            before = self.gathered(*node.init.decls)
            if len(before) == len(node.init.decls) == 1 and is_line(before[0]):
                first, before = before[0], None
        elif node.init is not None:
            first = self.evaluated(self.value(node.init, False))
        rows = self.function.gathered(lambda: self.rounds(node, first))
        for row in rows if before is None else [Block((*before, *rows), self.place_of(node))]:
            self.add(row)
        self.scope = outer

    def rounds(self, node: Any, first: Statement) -> None:
        """A `for` that begins with a statement of one line."""
        condition = self.condition(node.cond) if node.cond is not None else None
        self.function.fresh_statement()
        step = self.value(node.next, False) if node.next is not None else None
        at = self.place_of(node)
        self.add(self.headed(For(first, condition, step.code if step is not None and not step.pure else None, self.loop(node.stmt), at), node))

    def st_Return(self, node: Any) -> None:
        function = self.function
        result = function.result
        if node.expr is None:
            code = None if isinstance(result, Void) else Number(result, 0) if isinstance(result, Int) and not is_long(result) else Null(
                result) if not self.model.in_bytes or is_long(result) else word(0)
            self.add(self.model.leave(Return(code), None, self.place_of(node)))
            return
        self.lead(node.expr)
        value = self.value(node.expr)
        if isinstance(result, Void):
            if isinstance(value.type, Void) or not value.pure:
                self.add(Block((Evaluate(value.code), self.model.leave(Return(), None)), self.place_of(node)))
            else:
                self.add(self.model.leave(Return(), None, self.place_of(node)))
            return
        if isinstance(value.type, Void):
            raise self.refuse(node, "`return` of a value of a function that gives none", "`return;`, or a function that gives the value's type")
        value = self.converted(value, result, result != UCHAR, node)
        if is_long(result):
            code = Call(result, "cbi_long_copy", (Name(result, "cbi_result"), self.long_code(value)))
        elif isinstance(result, Struct):
            code = self.model.copy_to(Name(result, "cbi_result"), value, result)
        else:
            code = value.code
        self.add(self.model.leave(Return(code), (code, result), self.place_of(node)))

    def st_Break(self, node: Any) -> None:
        loops = self.function.loops
        target = loops[-1] if loops else None
        if isinstance(target, tuple) and target[0] == "flat":
            self.add(self.jump(target[2], self.place_of(node)))
        elif isinstance(target, tuple) and target[0] == "chain":
            raise self.refuse(node, "`break` at this place of a `switch`", "an `if` around the rest")
        else:
            self.add(Break(self.place_of(node)))

    def st_Continue(self, node: Any) -> None:
        for target in reversed(self.function.loops):
            if target == "loop":
                self.add(Continue(self.place_of(node)))
                return
            if target[0] == "flat" and target[1] is not None:
                self.add(self.jump(target[1], self.place_of(node)))
                return
            if target[0] == "once":
                target[2].append(True)
                self.add(Block((Evaluate(Assign(INT, target[1], Number(INT, 1))), Break()), self.place_of(node)))
                return
        raise self.refuse(node, "`continue` outside a loop", "a loop around it")

    def jump(self, number: int, at: int = -1) -> Statement:
        """Goes on with another segment of a function that jumps."""
        return Block((Evaluate(Assign(INT, self.function.flat, Number(INT, number))), Continue()), at)

    # Declarations in functions.

    def st_DeclList(self, node: Any) -> None:
        for decl in node.decls:
            self.statement(decl)

    def st_Decl(self, node: Any) -> None:
        if node.name is None:
            self.tag_alone(node.type)
            return
        storage = node.storage or []
        hint = ""
        type_ = self.resolve(node.type, hint)
        if isinstance(type_, Function):
            self.local_function(node, type_)
            return
        if "extern" in storage:
            symbol = self.external(node, type_)
            self.scope.names[node.name] = symbol
            return
        if "static" in storage:
            self.count("static variables of functions")
            self.local_static(node, type_)
            return
        self.automatic(node, type_)

    def local_function(self, node: Any, type_: Function) -> None:
        symbol = self.externals.get(node.name) or self.unit_symbol(node.name)
        if symbol is not None:
            self.kinds.one(symbol.type, type_)
        if symbol is None:
            if self.library_function(node.name, node) is not None:
                return
            symbol = Symbol(node.name, "function", type_)
            symbol.outer = True
            symbol.at = self.place_of(node)
            self.externals[node.name] = symbol
        self.scope.names[node.name] = symbol

    def local_static(self, node: Any, type_: CType) -> None:
        symbol = Symbol(node.name, "variable", type_, self.names.take(f"{self.function.name}_{node.name}", node.name))
        symbol.outer = symbol.static = symbol.inner = True
        symbol.align, symbol.quals = self.said_alignment(node), self.quals_of(node.type)
        symbol.at = self.place_of(node)
        self.scope.names[node.name] = symbol
        self.begin_static(symbol, node.init, node)

    def local_name(self, name: str) -> str:
        """What a local is called in the text."""
        if self.function.flat is not None or name in self.function.outer_names or not self.names.may_be_local(name):
            return self.names.take(name)
        return name

    def automatic(self, node: Any, type_: CType) -> None:
        hoisted = self.function.hoisted.get(id(node))
        found = None
        if hoisted is not None:
            symbol = hoisted
            self.scope.names[node.name] = symbol
            type_ = symbol.type
        else:
            if isinstance(type_, Array) and not is_complete(type_) and not (type_.count is None and node.init is not None):
                if not is_open(type_):
                    raise self.refuse(node, f"`{node.name}`, an array of unknown length", "its length in brackets, or elements in braces")
                self.open_array(node, type_)
                return
            symbol = Symbol(node.name, "variable", type_, self.local_name(node.name))
            symbol.align, symbol.quals = self.said_alignment(node), self.quals_of(node.type)
            if isinstance(type_, Pointer):
                self.kinds.characters.mark(self.kinds.characters.variables, type_.to)
            self.scope.names[node.name] = symbol
            if isinstance(type_, Array) and type_.count is None:
                type_, found = self.leaves(type_, node.init)
                symbol.type = type_
        if isinstance(type_, Void) or isinstance(type_, Struct) and not type_.complete:
            raise self.refuse_type(node, f"`{node.name}` of the type {spelled(type_)}", type_)
        self.lead(node.init)
        self.model.declare_local(symbol, node, found)

    def open_array(self, node: Any, type_: Array) -> None:
        """An array whose length is found out as the program runs (6.7.5.2p4)."""
        self.count("arrays of variable length")
        self.model.open_array(node, type_)

    def lasting_scalar(self, type_: CType, word: str) -> Node:
        """Room for a number for as long as the function runs."""
        return Part(type_, Name(type_, self.function.lasting(word)), "value")
