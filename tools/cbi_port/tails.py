"""Tail calls of a function to itself: they become rounds of a loop, so that they take no room (`cbi` has 512 calls at once).

That is done where nothing can see the difference: no object of the function has an address, and each parameter is one scalar.
"""
from typing import Any, Dict, Iterator, List, Tuple

from cbi_port.blocks import Block, Break, While
from cbi_port.jumps import Jumps
from cbi_port.nodes import Name, Number, bare
from cbi_port.scopes import Symbol
from cbi_port.trees import LOOPS, kind
from cbi_port.types import INT, CType, Int, Pointer, Void, is_whole
from cbi_port.values import Place, Value


def within(node: Any) -> Iterator[Any]:
    """A node and all below it."""
    yield node
    for _, child in node.children():
        yield from within(child)


def outside_loops(node: Any) -> Iterator[Any]:
    """A node and all below it, but what stands in loops."""
    if kind(node) not in LOOPS:
        yield node
        for _, child in node.children():
            yield from outside_loops(child)


def last_statements(node: Any, last: bool = True) -> Iterator[Any]:
    """The statements behind which a function without a result does nothing more; `last` says that of the node."""
    if kind(node) in ("Compound", "Case", "Default"):
        items = (node.block_items if kind(node) == "Compound" else node.stmts) or []
        for item, after in zip(items, items[1:] + [None]):
            yield from last_statements(item, last if after is None else kind(after) == "Return" and after.expr is None)
    elif kind(node) == "If":
        for branch in (node.iftrue, node.iffalse):
            yield from last_statements(branch, last)
    elif kind(node) == "Switch":
        yield from last_statements(node.stmt, False)
    elif last and node is not None:
        yield node


def is_piece(type_: CType) -> bool:
    """Whether a value of the type is kept in one piece."""
    return isinstance(type_, (Int, Pointer)) and not is_whole(type_)


class Tails(Jumps):
    """Functions that call themselves last."""

    def prepare(self, item: Any) -> None:
        super().prepare(item)
        body = self.function
        body.tails = self.tails_of(item) if body.flat is None and not self.in_prelude else {}
        body.parameters = [self.scope.names[it.name] for it in self.own_parameters(item)] if body.tails else []
        if body.tails:
            self.count("functions with tail calls")
            body.loops.append("loop")
            body.done, body.out = body.out, []

    def finish(self, item: Any) -> None:
        super().finish(item)
        if self.function.tails:
            body = self.function
            body.out = [*body.done, While(Number(INT, 1), Block((*body.out, Break())))]

    def tails_of(self, item: Any) -> Dict[int, Any]:
        """The calls in place of which the function may begin again, by their statements."""
        name, count = item.decl.name, len(self.own_parameters(item))
        symbol = self.scope.find(name)
        if symbol is None or symbol.kind != "function" or name == "main" or symbol in self.makers_of_text.known or not self.is_bare(item, symbol):
            return {}

        def is_tail(call: Any) -> bool:
            given = call.args.exprs if kind(call) == "FuncCall" and call.args is not None else []
            return kind(call) == "FuncCall" and kind(call.name) == "ID" and call.name.name == name and len(given) == count
        found = {id(it): it.expr for it in outside_loops(item.body) if kind(it) == "Return" and is_tail(it.expr)}
        if isinstance(symbol.type.result, Void):
            found.update((id(it), it) for it in last_statements(item.body) if is_tail(it))
        return found

    def own_parameters(self, item: Any) -> List[Any]:
        """The declarations of a function's parameters; none stands for `void`."""
        args = item.decl.type.args
        return [it for it in args.params if kind(it) == "Decl"] if args is not None else []

    def is_bare(self, item: Any, symbol: Symbol) -> bool:
        """Whether each parameter is one scalar with a name, no object of a function has an address, and nothing in it hides the function's name."""
        parameters, type_ = self.own_parameters(item), symbol.type
        if item.param_decls or type_.more or len(parameters) != len(type_.parameters) or not all(it.name and is_piece(to) for it, to in zip(parameters, type_.parameters)):
            return False
        names = {it.name for it in parameters}
        for node in within(item.body):
            if kind(node) in ("CompoundLiteral", "Typedef", "Struct", "Union") or kind(node) == "ID" and node.name.startswith("__cbi_"):
                return False
            if kind(node) == "Decl" and not set(node.storage or []) & {"static", "extern"}:
                if not self.is_scalar(node.type):
                    return False
                names.add(node.name)
        return item.decl.name not in names and not names & self.function.addressed

    def is_scalar(self, declarator: Any) -> bool:
        """Whether a declarator is surely that of one scalar."""
        inner = declarator.type if kind(declarator) == "TypeDecl" else None
        return kind(declarator) == "PtrDecl" or kind(inner) == "Enum" or kind(inner) == "IdentifierType" and is_piece(self.resolve(declarator))

    def st_Return(self, node: Any) -> None:
        if not self.begins_again(node):
            super().st_Return(node)

    def st_expression(self, node: Any) -> None:
        if not self.begins_again(node):
            super().st_expression(node)

    def begins_again(self, node: Any) -> bool:
        """Writes a tail call: the parameters get the values of the arguments, and the function begins again."""
        call = self.function.tails.get(id(node))
        if call is None or self.function.held:
            return False
        self.lead(call)
        arguments = call.args.exprs if call.args is not None else []
        values = [self.converted(self.value(it), symbol.type, True, it) for it, symbol in zip(arguments, self.function.parameters)]
        changed = [(symbol, value) for symbol, value in zip(self.function.parameters, values) if bare(value.code) != Name(symbol.type, symbol.text)]
        self.add(Block(self.function.gathered(lambda: self.rounds_again(changed, node)), self.place_of(node)))
        return True

    def rounds_again(self, changed: List[Tuple[Symbol, Value]], node: Any) -> None:
        """Gives the parameters that change their values, and goes to the next round."""
        if len(changed) > 1:
            kept = [(symbol, self.keep(value)) for symbol, value in changed]
            for _, (row, _) in kept:
                self.do(row, node)
            changed = [(symbol, value) for symbol, (_, value) in kept]
        for symbol, value in changed:
            self.do(self.assigned(Place(symbol.type, Name(symbol.type, symbol.text)), value, False, node).code, node)
        self.st_Continue(node)
