"""`switch` (C99 6.8.4.2): branches of one `if` where each group ends by itself, else a loop of one round."""
from typing import Any, List, Optional, Sequence, Tuple

from cbi_port.blocks import Block, Do, Evaluate, If, Statement
from cbi_port.conversions import number
from cbi_port.nodes import Assign, Binary, Call, Group, Name, Node, Number, Unary
from cbi_port.scopes import Scope, Symbol
from cbi_port.statements import Statements
from cbi_port.trees import breaks, ends_by_itself, kind, mentions
from cbi_port.types import INT, Array, Int, is_complete, is_float, is_long, spelled
from cbi_port.values import Value


def any_of(tests: Sequence[Node]) -> Node:
    """Whether one of the tests holds; all of them are made."""
    found = tests[0]
    for it in tests[1:]:
        found = Binary(INT, "|", found, it)
    return found


class Switches(Statements):
    """Writes `switch`."""

    def st_Switch(self, node: Any) -> None:
        self.count("switches")
        self.lead(node.cond)
        value = self.value(node.cond)
        if not isinstance(value.type, Int) or is_float(value.type):
            raise self.refuse(node, f"a `switch` of a `{spelled(value.type)}`", "a `switch` of a number")
        value = self.promoted(value)
        before, groups = self.groups(node)
        plain = self.is_plain(groups)
        if is_long(value.type):
            room = Unary(value.type, "&", Name(value.type, self.function.lasting("long")))
            set_, held = [Evaluate(Call(value.type, "cbi_long_copy", (room, self.long_code(value))))], Value(value.type, room)
        elif plain and value.pure and kind(node.cond) == "ID":
            set_, held = [], value
        else:
            name = self.lasting_scalar(value.type, "int" if value.type.signed or value.bits is not None else "unsigned")
            set_, held = [Evaluate(Assign(value.type, name, value.code))], Value(value.type, name)
        outer, self.scope = self.scope, Scope(self.scope)

        def write() -> None:
            self.hoist(before, groups)
            if plain:
                self.chain(groups, held)
            else:
                self.once(groups, held, node)
        rows = self.function.gathered(write)
        self.scope = outer
        self.add(Block((*set_, *rows), self.place_of(node)))

    def groups(self, node: Any) -> Tuple[List[Any], List[Tuple[List[Any], List[Any]]]]:
        """What stands before the first label, and the labels with the statements behind them."""
        items = (node.stmt.block_items or []) if kind(node.stmt) == "Compound" else [node.stmt]
        before: List[Any] = []
        groups: List[Tuple[List[Any], List[Any]]] = []
        for item in items:
            if kind(item) not in ("Case", "Default"):
                (groups[-1][1] if groups else before).append(item)
                continue
            labels = [item]
            rest = list(item.stmts or [])
            while len(rest) == 1 and kind(rest[0]) in ("Case", "Default"):
                labels.append(rest[0])
                rest = list(rest[0].stmts or [])
            if groups and not groups[-1][1]:
                groups[-1][0].extend(labels)
                groups[-1][1].extend(rest)
            else:
                groups.append((labels, rest))
        return before, groups

    def is_plain(self, groups: List[Tuple[List[Any], List[Any]]]) -> bool:
        """Whether each group ends by itself, so that the groups are branches of one `if`."""
        if len(groups) > 60:
            return False
        for index, (_, rest) in enumerate(groups):
            last = rest[-1] if rest else None
            inner = last
            while kind(inner) == "Compound" and inner.block_items:
                inner = inner.block_items[-1]
            ends = kind(inner) in ("Break", "Return", "Continue")
            if not ends and index + 1 < len(groups):
                return False
            found = sum(breaks(item) for item in rest)
            if found > (1 if kind(inner) == "Break" else 0):
                return False
        return True

    def hoist(self, before: List[Any], groups: List[Tuple[List[Any], List[Any]]]) -> None:
        """Declares first what more than one group has."""
        for item in before:
            if kind(item) == "Decl" and item.name and not item.storage and kind(item.type) != "FuncDecl":
                self.forward_declaration(item)
            elif kind(item) in ("Typedef", "Decl"):
                self.statement(item)
        for index, (_, rest) in enumerate(groups):
            for item in rest:
                if kind(item) == "Decl" and item.name and not item.storage and kind(item.type) != "FuncDecl" and any(
                        mentions(later, item.name) for _, others in groups[index + 1:] for later in others):
                    self.forward_declaration(item)

    def forward_declaration(self, node: Any) -> None:
        """Declares a variable without its value, which comes where the declaration stands."""
        type_ = self.resolve(node.type)
        if isinstance(type_, Array) and type_.count is None and node.init is not None:
            type_, _ = self.leaves(type_, node.init)
        if not is_complete(type_):
            raise self.refuse(node, f"`{node.name}`, an array of unknown length, at this place", "`malloc`")
        symbol = Symbol(node.name, "variable", type_, self.local_name(node.name))
        symbol.quals = self.quals_of(node.type)
        self.scope.names[node.name] = symbol
        self.model.declare_bare(symbol)
        self.function.hoisted[id(node)] = symbol

    def label_test(self, held: Value, label: Any, others: List[Any]) -> Group:
        """Whether a label is the one to go to, in parentheses."""
        if kind(label) == "Default":
            others_ = [self.label_test(held, other, []) for other in others]
            return Group(INT, Unary(INT, "!", Group(INT, any_of(others_))) if others_ else Number(INT, 1))
        expr = label.expr
        if kind(expr) == "FuncCall" and kind(expr.name) == "ID" and expr.name.name == "__cbi_range":
            low, high = (number(self.constant(it), held.type) for it in expr.args.exprs)
            tests = [Group(INT, self.operated(sign, held, it, label).code) for sign, it in ((">=", low), ("<=", high))]
            return Group(INT, Binary(INT, "&", tests[0], tests[1]))
        return Group(INT, self.operated("==", held, number(held.type.wrap(self.constant(expr)), held.type), label).code)

    def group_test(self, held: Value, labels: List[Any], others: List[Any]) -> Node:
        """Whether one of the labels is the one to go to; `others` are those that a `default` leaves out."""
        mine = [label for label in labels if kind(label) != "Default"]
        if len(mine) < len(labels):
            return self.label_test(held, next(it for it in labels if kind(it) == "Default"), [it for it in others if it not in mine])
        tests = [self.label_test(held, label, []) for label in labels]
        return tests[0].inner if len(tests) == 1 else any_of(tests)

    def chain(self, groups: List[Tuple[List[Any], List[Any]]], held: Value) -> None:
        """Branches of one `if`."""
        found: List[Tuple[Optional[Node], Statement, int, int]] = []
        for index, (labels, rest) in enumerate(groups):
            default = any(kind(label) == "Default" for label in labels)
            later = [label for others, _ in groups[index + 1:] for label in others]
            test = (None if index else Number(INT, 1)) if default and not later else self.group_test(held, labels, later)
            note = -1 if default and not later else self.case_note(labels)
            found.append((test, Block(self.function.gathered(lambda: self.grouped(rest, ("chain",)))), self.place_of(labels[0]), note))
        whole: Optional[Statement] = None
        behind = -1
        for index, (test, rows, at, note) in reversed(list(enumerate(found))):
            whole = rows if test is None else If(test, rows, whole, -1 if index else at, behind, note)
            behind = at
        if whole is not None:
            self.add(whole)

    def grouped(self, rest: List[Any], how: Any) -> None:
        self.function.last_member.clear()
        self.function.loops.append(how)
        outer, self.scope = self.scope, Scope(self.scope) if how[0] == "chain" else self.scope
        for item in rest:
            if how[0] == "chain" and item is rest[-1]:
                self.last_of_chain(item)
            else:
                self.statement(item)
        self.scope = outer
        self.function.loops.pop()

    def last_of_chain(self, node: Any) -> None:
        """The last statement of a branch, without the `break` that ends it."""
        if kind(node) == "Break":
            return
        if kind(node) == "Compound" and node.block_items:
            outer, self.scope = self.scope, Scope(self.scope)

            def write() -> None:
                for item in node.block_items[:-1]:
                    self.statement(item)
                self.last_of_chain(node.block_items[-1])
            rows = self.function.gathered(write)
            self.scope = outer
            self.add(Block(rows, self.place_of(node)))
            return
        self.statement(node)

    def once(self, groups: List[Tuple[List[Any], List[Any]]], held: Value, node: Any) -> None:
        """A loop of one round, so that `break` leaves it; what fell through is kept in a flag."""
        falls = [index for index, (_, rest) in enumerate(groups[:-1]) if not ends_by_itself(rest)]
        on = self.lasting_scalar(INT, "int") if falls else None
        again = self.lasting_scalar(INT, "int")
        used: List[bool] = []
        every = [label for labels, _ in groups for label in labels if kind(label) == "Case"]
        rounds: List[Statement] = []
        for index, (labels, rest) in enumerate(groups):
            default = any(kind(label) == "Default" for label in labels)
            test = self.group_test(held, labels, every if default else [])
            if index - 1 in falls and on is not None:
                test = Binary(INT, "|", on, Group(INT, test))
            rows = self.function.gathered(lambda: self.grouped(rest, ("once", again, used)))
            falling = [Evaluate(Assign(INT, on, Number(INT, 1)))] if index in falls and on is not None else []
            rounds.append(If(test, Block((*falling, *rows)), None, self.place_of(labels[0]), note=self.case_note(labels)))
        for name in (again if used else None, on):
            if name is not None:
                self.do(Assign(INT, name, Number(INT, 0)))
        self.add(Do(Block(tuple(rounds)), Number(INT, 0)))
        if used:
            rows = self.function.gathered(lambda: self.st_Continue(node))
            self.add(If(again, rows[0]))
