"""Jumps (C99 6.8.6.1): functions with `goto` become a loop over their segments, and one number says which is next.

Only statements that hold a label, or jump out of a loop, are cut into segments; all others stay as they are.
"""
from typing import Any, List, Optional

from cbi_port.blocks import Block, Break, Continue, Empty, Evaluate, If, Statement, While
from cbi_port.lines import Refusal
from cbi_port.nodes import Assign, Call, Cast, Comma, Name, Node, Number, Unary, marked, spot
from cbi_port.scopes import Scope, Symbol
from cbi_port.switches import Switches
from cbi_port.trees import CONTROL, Cuts, is_jump, kind
from cbi_port.types import INT, Array, Function, Struct, Void, is_complete, is_long
from cbi_port.values import Value


NOTHING = Value(Void(), Number(Void(), 0))


class Jumps(Switches):
    """Functions that jump."""

    def prepare(self, item: Any) -> None:
        body = self.function
        self.cuts = Cuts(item.body)
        if not self.cuts.any:
            return
        self.count("functions with jumps")
        body.flat = self.lasting_scalar(INT, "int")
        self.jumping = body
        body.segments = 0
        body.case_segments = {}
        body.done, body.out = [*body.out, Evaluate(Assign(INT, body.flat, Number(INT, 0)))], []
        body.before = len(body.done)

    def finish(self, item: Any) -> None:
        if self.function.flat is not None:
            body = self.function
            body.segment(-1)
            rounds = Block((*body.done[body.before:], Break()))
            body.out = [*body.done[:body.before], While(Number(INT, 1), rounds)]
            self.hold_labels(item)

    def hold_labels(self, item: Any) -> None:
        for name, at in getattr(self.function, "wanted_labels", {}).items():
            if name not in self.function.defined_labels:
                self.problems.append(Refusal(at, f"`goto {name}` without its label", "the label"))

    def new_segment(self) -> int:
        self.function.segments += 1
        return int(self.function.segments)

    def segment(self, number: int, falls: bool = True, node: Any = None) -> None:
        """Ends a segment, and begins another one."""
        self.function.last_member.clear()
        if falls:
            self.do(self.next_is(number), node)
        self.function.segment(number)

    def next_is(self, number: int) -> Node:
        """Says which segment is next."""
        return Assign(INT, self.function.flat, Number(INT, number))

    def parted(self, condition: Node, yes: int, no: int, node: Any) -> None:
        """Says which of two segments is next by the condition of a statement."""
        self.add(self.headed(If(condition, Evaluate(self.next_is(yes)), Evaluate(self.next_is(no)), self.place_of(node)), node))

    def label_segment(self, name: str) -> int:
        owner = self.label_owner
        if name not in owner.labels:
            owner.segments += 1
            owner.labels[name] = owner.segments
        return int(owner.labels[name])

    @property
    def label_owner(self) -> Any:
        """The function whose labels are named, also where a static variable of it begins with them."""
        return self.function if self.function.flat is not None else self.jumping

    def must_cut(self, node: Any) -> bool:
        """Whether a statement is cut into segments."""
        return self.cuts.is_cut(node)

    # Statements at the level of the segments.

    def statement(self, node: Any) -> None:
        if self.function.flat is None or self.function.held or not (self.must_cut(node) or self.at_level and kind(node) in ("Decl", "DeclList", "Compound")):
            level, self.at_level = self.at_level, False
            super().statement(node)
            self.at_level = level
            return
        self.function.fresh_statement()
        try:
            getattr(self, "cut_" + kind(node))(node)
        except AttributeError as error:
            if "cut_" not in str(error):
                raise
            self.problems.append(self.refuse(node, f"a jump in a {kind(node)}", "a loop with `break` and `continue`"))
        except Refusal as refusal:
            self.tell(refusal, node)

    at_level = True
    jumping: Any = None
    cuts: Cuts

    def st_expression(self, node: Any) -> None:
        if is_jump(node) and kind(node) == "FuncCall":
            if self.function.flat is None or not self.model.in_bytes:
                raise self.refuse(node, "a jump to a computed label", "a `switch`", True)
            value = self.value(node.args.exprs[0])
            self.add(Block((Evaluate(Assign(INT, self.function.flat, Cast(INT, "int", value.code))), Continue()), self.place_of(node)))
            return
        super().st_expression(node)

    def cut_FuncCall(self, node: Any) -> None:
        self.st_expression(node)

    def level_statement(self, node: Any) -> None:
        level, self.at_level = self.at_level, True
        self.statement(node)
        self.at_level = level

    def cut_Compound(self, node: Any) -> None:
        outer, self.scope = self.scope, Scope(self.scope)
        for item in node.block_items or []:
            self.level_statement(item)
        self.scope = outer

    def cut_DeclList(self, node: Any) -> None:
        for decl in node.decls:
            self.level_statement(decl)

    def cut_Decl(self, node: Any) -> None:
        if node.name is not None and not (node.storage and set(node.storage) & {"static", "extern", "typedef"}):
            type_ = self.resolve(node.type)
            if not isinstance(type_, Function) and (is_complete(type_) or isinstance(type_, Array) and type_.count is None and node.init is not None):
                if isinstance(type_, Array) and type_.count is None:
                    type_, _ = self.leaves(type_, node.init)
                if not isinstance(type_, Void):
                    symbol = Symbol(node.name, "variable", type_, self.local_name(node.name))
                    symbol.quals = self.quals_of(node.type)
                    self.scope.names[node.name] = symbol
                    self.function.fixed.extend(self.function.gathered(lambda: self.model.declare_bare(symbol)))
                    self.function.hoisted[id(node)] = symbol
                    if node.init is None:
                        return
        super().statement(node)

    def cut_Label(self, node: Any) -> None:
        self.function.defined_labels.add(node.name)
        self.function.dead = 0
        self.segment(self.label_segment(node.name), True, node)
        if node.stmt is not None:
            self.level_statement(node.stmt)

    def cut_Goto(self, node: Any) -> None:
        self.st_Goto(node)

    def st_Goto(self, node: Any) -> None:
        self.function.wanted_labels.setdefault(node.name, self.place_of(node))
        self.add(self.jump(self.label_segment(node.name), self.place_of(node)))

    def st_Label(self, node: Any) -> None:
        raise self.refuse(node, "a label within an expression", "a label in the function")

    def cut_If(self, node: Any) -> None:
        yes, no, end = self.new_segment(), self.new_segment(), self.new_segment()
        self.lead(node.cond)
        value = self.truth(self.value(node.cond))
        dead = self.function.dead
        self.parted(value.code, yes, no if node.iffalse is not None else end, node)
        self.segment(yes, False)
        self.function.dead = dead + (value.constant == 0)
        self.level_statement(node.iftrue)
        if node.iffalse is not None:
            self.add(self.jump(end))
            self.segment(no, False)
            self.function.dead = dead + (value.constant is not None and value.constant != 0)
            self.level_statement(node.iffalse)
        self.function.dead = dead
        self.segment(end)

    def cut_While(self, node: Any) -> None:
        test, begin, end = self.new_segment(), self.new_segment(), self.new_segment()
        self.segment(test)
        self.parted(self.condition(node.cond), begin, end, node)
        self.segment(begin, False)
        self.round(node.stmt, test, end)
        self.add(self.jump(test))
        self.segment(end, False)

    def round(self, node: Any, again: Optional[int], end: int) -> None:
        self.function.loops.append(("flat", again, end))
        self.level_statement(node)
        self.function.loops.pop()

    def cut_DoWhile(self, node: Any) -> None:
        begin, test, end = self.new_segment(), self.new_segment(), self.new_segment()
        self.segment(begin)
        self.round(node.stmt, test, end)
        self.segment(test)
        self.add(self.headed(If(self.condition(node.cond), self.jump(begin), None, self.place_of(node)), node))
        self.segment(end)

    def cut_For(self, node: Any) -> None:
        test, begin, step, end = (self.new_segment() for _ in range(4))
        outer, self.scope = self.scope, Scope(self.scope)
        if node.init is not None:
            self.level_statement(node.init)
        self.segment(test)
        if node.cond is not None:
            self.parted(self.condition(node.cond), begin, end, node)
            self.segment(begin, False)
        self.round(node.stmt, step, end)
        self.segment(step)
        if node.next is not None:
            super().statement(node.next)
        self.add(self.jump(test))
        self.segment(end, False)
        self.scope = outer

    def cut_Switch(self, node: Any) -> None:
        self.count("switches")
        value = self.promoted(self.value(node.cond))
        if is_long(value.type):
            room = Unary(value.type, "&", Name(value.type, self.function.lasting("long")))
            self.do(Call(value.type, "cbi_long_copy", (room, self.long_code(value))), node)
            held = Value(value.type, room)
        else:
            name = self.lasting_scalar(value.type, "int" if value.type.signed or value.bits is not None else "unsigned")
            self.do(Assign(value.type, name, value.code), node)
            held = Value(value.type, name)
        cases: List[Any] = []

        def find(inner: Any) -> None:
            if inner is None or kind(inner) == "Switch":
                return
            if kind(inner) in ("Case", "Default"):
                cases.append(inner)
            for _, child in inner.children():
                find(child)
        find(node.stmt)
        end = self.new_segment()
        default = end
        for case in cases:
            number = self.function.case_segments[id(case)] = self.new_segment()
            if kind(case) == "Default":
                default = number
        for case in cases:
            if kind(case) == "Case":
                self.function.fresh_statement()
                self.add(If(self.label_test(held, case, []).inner, self.jump(self.function.case_segments[id(case)]), note=self.case_note([case])))
        self.add(self.jump(default))
        self.function.loops.append(("flat", self.outer_again(), end))
        self.level_statement(node.stmt)
        self.function.loops.pop()
        self.segment(end)

    def outer_again(self) -> Optional[int]:
        """Where `continue` goes from within a `switch`."""
        for target in reversed(self.function.loops):
            if isinstance(target, tuple) and target[0] == "flat" and target[1] is not None:
                return int(target[1])
        return None

    def cut_Case(self, node: Any) -> None:
        number = self.function.case_segments.get(id(node))
        if number is None:
            raise self.refuse(node, "a `case` outside its `switch`", "a `case` in a `switch`")
        self.function.dead = 0
        self.segment(number, True, node)
        for item in node.stmts or []:
            self.level_statement(item)

    cut_Default = cut_Case

    # Statements within expressions, of GNU C.

    def statement_value(self, node: Any, name: str, used: bool) -> Value:
        body = self.unit.bodies.get(name)
        items = list(body.block_items or []) if body is not None else []
        outer, self.scope = self.scope, Scope(self.scope)
        direct, led = self.function.direct, self.function.leading
        self.function.held += 1
        try:
            if node is self.function.direct:
                return self.behind_statements(items, used)
            if id(node) in self.function.leading and any(kind(item) in CONTROL for item in items):
                value = self.behind_statements(items, used)
                if isinstance(value.type, (Struct, Void)) or value.constant is not None:
                    return value
                text, value = self.keep(value)
                self.do(text)
                return value
            return self.within_commas(node, items, used)
        finally:
            self.function.held -= 1
            self.scope = outer
            self.function.direct, self.function.leading = direct, led

    def behind_statements(self, items: List[Any], used: bool) -> Value:
        """Where nothing else is evaluated before: the statements stand before the one that has the value."""
        for item in items[:-1]:
            self.own_statement(item)
        if not items:
            return NOTHING
        last = items[-1]
        if kind(last) in (*CONTROL, "Decl", "EmptyStatement"):
            self.own_statement(last)
            return NOTHING
        self.lead(last)
        return self.value(last, used)

    def own_statement(self, item: Any) -> None:
        if kind(item) == "Decl" and item.name is not None and not item.storage:
            self.renamed(item)
        super().statement(item)

    def renamed(self, node: Any) -> None:
        """Declares a variable at the function's beginning under a name that no other has."""
        type_ = self.resolve(node.type)
        if isinstance(type_, Function):
            return
        if isinstance(type_, Array) and type_.count is None and node.init is not None:
            type_, _ = self.leaves(type_, node.init)
        if not is_complete(type_):
            return
        symbol = Symbol(node.name, "variable", type_, self.names.take(node.name))
        symbol.quals = self.quals_of(node.type)
        self.pending_symbol = symbol
        self.function.fixed.extend(self.function.gathered(lambda: self.model.declare_bare(symbol)))
        self.function.hoisted[id(node)] = symbol

    def part_of_commas(self, row: Statement, node: Any) -> Node:
        """A statement as a part of an expression."""
        if not isinstance(row, Evaluate):
            raise self.refuse(node, "a statement within an expression", "a function, or the statement before")
        code: Node = marked(row.code, row.at) if spot(row.code) < 0 else row.code
        return code

    def within_commas(self, node: Any, items: List[Any], used: bool) -> Value:
        parts: List[Node] = []
        value = NOTHING
        for item in items:
            last = item is items[-1]
            if kind(item) in CONTROL:
                raise self.refuse(node, "a statement within an expression", "a function, or the statement before")
            if kind(item) in ("EmptyStatement", "Typedef"):
                if kind(item) == "Typedef":
                    self.st_Typedef(item)
                continue
            if kind(item) in ("Decl", "DeclList"):
                for decl in (item.decls if kind(item) == "DeclList" else [item]):
                    self.renamed(decl)
                    rows = self.function.gathered(lambda: super(Jumps, self).statement(decl))
                    parts.extend(self.part_of_commas(row, node) for row in rows if not isinstance(row, Empty))
                continue
            value = self.value(item, used if last else False)
            if not last and not value.pure:
                parts.append(value.code)
            if not last:
                value = NOTHING
        if not parts:
            return value
        code = self.long_code(value) if value.constant is not None and is_long(value.type) else value.code
        return Value(value.type, Comma(value.type, (*parts, code)), None, False, value.bits)
