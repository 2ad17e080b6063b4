"""`setjmp` and `longjmp` (C99 7.13) as unwinding: `longjmp` says where to, and returns; behind each call that a jump may leave stands a test.

Such calls come before the rest of their expression, each into a name of its own, since nothing may be done behind one that a jump has left. C
leaves the order of operands open; where it doesn't (`&&`, `||`, `?:` and commas), statements stand in place of the operators.
"""
from dataclasses import replace
from typing import Any, Dict, List, Optional, Sequence, Set

from cbi_port.blocks import Block, Continue, Evaluate, If, Return, Statement
from cbi_port.lines import Refusal
from cbi_port.long_jumps import CALLING_BACK, JUMPS, MARK, Reach, called_name, holds_jump, marks_in, may_jump, reach_of, within
from cbi_port.nodes import Assign, Binary, Call, Group, Name, Node, Number, Part, Unary
from cbi_port.reader import HEADERS
from cbi_port.tails import Tails
from cbi_port.trees import LOOPS, is_statements, kind
from cbi_port.types import INT, VOID, CType, Int, Pointer, Struct, Void, is_long, is_whole, to_function
from cbi_port.values import Value

# What a statement evaluates first.
FIRST = {"If": "cond", "Switch": "cond", "Return": "expr", "Decl": "init"}
# Expressions that are never places.
VALUES = {"FuncCall", "BinaryOp", "TernaryOp", "Cast"}
OTHERS = {*LOOPS, "Compound", "Case", "Default", "Label", "Goto", "Break", "Continue", "DeclList", "Typedef", "EmptyStatement", "Pragma", "StaticAssert"}


def does_something(node: Any) -> bool:
    """Whether an expression by itself has an effect, or may have one."""
    return kind(node) in ("FuncCall", "Assignment") or kind(node) == "UnaryOp" and node.op in ("++", "--", "p++", "p--")


class Unwinding(Tails):
    """Functions that jumps may leave."""

    units: Sequence[Any]
    words: Set[str]
    reach: Reach
    last_room: Any = None       # where the last call puts what it gives

    def nothing(self, result: CType) -> Statement:
        raise NotImplementedError

    def find_jumps(self) -> None:
        """Finds out what jumps may leave. A function that the library calls can't be left so."""
        self.reach = reach_of(self.units) if self.words & JUMPS else Reach(set(), False, set())
        back = sorted(self.words & CALLING_BACK)
        if self.reach.by_pointer and back:
            at = next(index for index, token in enumerate(self.tokens) if token.text == back[0] and token.kind == "name" and not token.file.startswith(HEADERS))
            self.problems.append(Refusal(at, f"`{back[0]}` where a function that is called by a pointer may be left by `longjmp`", "a sort or a call of your own"))

    def prepare(self, item: Any) -> None:
        body = self.function
        body.marks = marks_in(item.body) if not self.in_prelude and self.reach.defined else 0
        body.jumps = not self.in_prelude and (item.decl.name in self.reach.functions or bool(body.marks))
        super().prepare(item)

    def tails_of(self, item: Any) -> Dict[int, Any]:
        return {} if self.function.jumps else super().tails_of(item)

    def must_cut(self, node: Any) -> bool:
        """A loop that a jump of `setjmp` may leave is cut into segments, as one that `goto` leaves."""
        return super().must_cut(node) or bool(self.function.marks) and self.loops_with_jumps(node)

    def loops_with_jumps(self, node: Any) -> bool:
        if node is None:
            return False
        if kind(node) in (*LOOPS, "Switch"):
            return holds_jump(node, self.reach)
        return any(self.loops_with_jumps(child) for _, child in node.children())

    # Statements.

    def body(self, node: Any) -> Statement:
        if not self.function.jumps or kind(node) == "Compound":
            return super().body(node)
        return Block(self.gathered(node))

    def statement(self, node: Any) -> None:
        what = kind(node)
        first = getattr(node, FIRST[what]) if what in FIRST else None if what in OTHERS else node
        if not self.function.jumps or first is None or not holds_jump(first, self.reach):
            super().statement(node)
            return
        floor = self.function.floor
        self.function.fresh_statement()
        try:
            self.lead_calls(first)
            self.function.floor = dict(self.function.pools)
            super().statement(node)
        except Refusal as refusal:
            self.tell(refusal, node)
        finally:
            self.function.floor = floor

    def lead_calls(self, node: Any) -> None:
        """Puts the calls of an expression that jumps may leave before it, in its order."""
        if node is None or not holds_jump(node, self.reach):
            return
        if is_statements(node):
            raise self.refuse(node, "a call that `longjmp` may leave in statements within an expression", "the statements before it")
        if kind(node) == "BinaryOp" and node.op in ("&&", "||") and holds_jump(node.right, self.reach):
            self.lead_joined(node)
            return
        if kind(node) == "TernaryOp" and (holds_jump(node.iftrue, self.reach) or holds_jump(node.iffalse, self.reach)):
            self.lead_choice(node)
            return
        if kind(node) == "ExprList":
            for item in node.exprs[:-1]:
                self.statement(item)
            self.lead_calls(node.exprs[-1])
            self.function.replaced[id(node)] = self.value(node.exprs[-1])
            return
        if kind(node) == "FuncCall":
            self.lead_operands([*([] if kind(node.name) == "ID" else [node.name]), *(node.args.exprs if node.args is not None else [])])
        else:
            self.lead_operands([child for _, child in node.children()])
        if may_jump(node, self.reach):
            self.function.replaced[id(node)] = self.led(self.value(node), node)
            self.add(self.test(self.place_of(node)))

    def lead_operands(self, items: List[Any]) -> None:
        """The operands from left to right: what does something comes before a call on its right that a jump may leave."""
        for index, item in enumerate(items):
            if holds_jump(item, self.reach):
                self.lead_calls(item)
            elif kind(item) in VALUES and any(does_something(it) for it in within(item)) and any(holds_jump(later, self.reach) for later in items[index + 1:]):
                self.function.replaced[id(item)] = self.led(self.value(item), item)

    def led(self, value: Value, node: Any) -> Value:
        """Puts a call, and gives its value from where that is kept."""
        if isinstance(value.type, Void):
            self.do(value.code, node)
            return Value(VOID, Number(VOID, 0))
        if isinstance(value.type, Struct):
            self.do(value.code, node)
            return Value(value.type, Group(value.type, self.last_room))
        code, kept = self.keep(value)
        self.do(code, node)
        return kept

    def room(self, type_: Any) -> Node:
        self.last_room = super().room(type_)
        return self.last_room

    def lead_joined(self, node: Any) -> None:
        """`&&` and `||`: the right side is evaluated in a statement of its own."""
        room = self.lasting_scalar(INT, "int")
        self.lead_side(node.left, room, node)
        rows = self.function.gathered(lambda: self.lead_side(node.right, room, node))
        joined = If(room if node.op == "&&" else Unary(INT, "!", room), Block(rows), None, self.place_of(node))
        self.add(self.noted_as(joined, node, "head" if node.op == "&&" else "turned", node.op))
        self.function.replaced[id(node)] = Value(INT, room)

    def noted_as(self, row: If, node: Any, kind_: str, sign: str) -> Statement:
        """A statement in place of an operator, with a note that says which one the author wrote."""
        said: int = self.note(node, kind_, sign)
        return replace(row, note=said) if said >= 0 else row

    def lead_side(self, side: Any, room: Node, node: Any) -> None:
        """Keeps whether one side of `&&` or `||` isn't zero."""
        self.lead_calls(side)
        self.do(Assign(INT, room, self.truth(self.value(side), True).code), node)

    def lead_choice(self, node: Any) -> None:
        """`?:`: each arm is evaluated in a statement of its own."""
        self.lead_calls(node.cond)
        type_: Any = self.type_of(node)
        if isinstance(type_, Struct) or is_whole(type_) and not is_long(type_):
            raise self.refuse(node, "a struct that a call gives which `longjmp` may leave, in an arm of `?:`", "an `if`")
        room = None if isinstance(type_, Void) else self.room_for(type_)
        condition = self.truth(self.value(node.cond)).code
        arms = [Block(self.function.gathered(lambda: self.lead_arm(arm, type_, room, node))) for arm in (node.iftrue, node.iffalse)]
        self.add(self.noted_as(If(condition, arms[0], arms[1], self.place_of(node)), node, "head", "?"))
        self.function.replaced[id(node)] = Value(VOID, Number(VOID, 0)) if room is None else Value(type_, room)

    def lead_arm(self, arm: Any, type_: Any, room: Optional[Node], node: Any) -> None:
        """Keeps the value of an arm of `?:`."""
        self.lead_calls(arm)
        value = self.value(arm, not isinstance(type_, Void))
        code = value.code if room is None else Call(type_, "cbi_long_copy", (room, self.long_code(self.converted(value, type_)))) if is_long(type_) else (
            Assign(type_, room, self.converted(value, type_, True, node).code))
        if room is not None or not value.pure:
            self.do(code, node)

    def room_for(self, type_: Any) -> Node:
        """A place that holds a scalar for as long as the function runs."""
        if is_long(type_):
            return Unary(type_, "&", Name(type_, self.function.lasting("long")))
        if isinstance(type_, Pointer) and not to_function(type_):
            return self.lasting_scalar(type_, "unsigned") if self.model.in_bytes else Name(type_, self.function.lasting(self.model.base(type_)))
        return self.lasting_scalar(type_, "unsigned" if isinstance(type_, Int) and not type_.signed and type_.rank >= 3 else "int")

    def test(self, at: int) -> Statement:
        """What stands behind a call: where a jump goes on in this function it does, and else the function returns."""
        body = self.function
        rows: List[Statement] = []
        to, given = (Part(INT, Name(INT, "cbi_jumps"), word) for word in ("to", "value"))
        for number in range(1, body.marks + 1):
            mark, came = (self.scope.find(f"cbi_{word}_{number}") for word in ("mark", "came"))
            assert mark is not None and came is not None
            sets = [Assign(INT, Name(INT, came.text), given), Assign(INT, to, Number(INT, 0)), self.next_is(self.label_segment(f"cbi_back_{number}"))]
            rows.append(If(Binary(INT, "==", to, Name(INT, mark.text)), Block((*map(Evaluate, sets), Continue()))))
        if body.name == "main":
            rows.append(Evaluate(Call(VOID, "abort", ())))
        rows.append(self.model.leave(Return() if isinstance(body.result, Void) else self.nothing(body.result), None))
        return If(to, Block(tuple(rows)), None, at)

    # Expressions.

    def value(self, node: Any, used: bool = True) -> Value:
        held: Optional[Value] = self.function.replaced.get(id(node))
        return held if held is not None else super().value(node, used)

    def of_FuncCall(self, node: Any, used: bool) -> Value:
        name = called_name(node)
        if name == MARK:
            return Value(INT, Call(INT, "cbi_jump_mark", ()), pure=False)
        if name in JUMPS and name not in self.reach.defined and not self.in_prelude:
            arguments: List[Any] = node.args.exprs if node.args is not None else []
            if len(arguments) != 2:
                raise self.refuse(node, "a call with another number of arguments", "an argument for each parameter")
            return Value(VOID, Call(VOID, "cbi_jump", tuple(self.converted(self.value(it), INT, True, node).code for it in arguments)), pure=False)
        return super().of_FuncCall(node, used)
