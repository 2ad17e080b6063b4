"""Definitions of functions (C99 6.9.1): their heads, parameters and bodies, and what stands at their ends."""
from typing import Any, Dict, List, Sequence, Tuple

from cbi_port.blocks import Definition, Head, Nothing, Return, Statement
from cbi_port.body import Body
from cbi_port.dispatch import signature
from cbi_port.late import left
from cbi_port.library import Library
from cbi_port.nested import is_moved
from cbi_port.nodes import Name, Null, Number
from cbi_port.reader import Unit
from cbi_port.scopes import Scope, Symbol
from cbi_port.trees import declared_outside, gives_value, holds_open, kind, names_under_address
from cbi_port.types import INT, CType, Function, Pointer, Struct, Void, is_whole, spelled, to_function
from cbi_port.unwinding import Unwinding
from cbi_port.wrappers import OBJECT


class Functions(Unwinding, Library):
    """Writes functions."""

    scopes: Dict[str, Scope]

    def function_number(self, symbol: Symbol) -> int:
        """The number that stands for a function's address."""
        self.use(symbol)
        if symbol not in self.dispatch.numbers:
            self.count("functions with an address")
        return self.dispatch.number(symbol)

    def define(self, symbol: Symbol, item: Any, unit: Unit) -> None:
        """Writes a function's definition."""
        self.unit = unit
        type_ = symbol.type
        self.function = body = Body(symbol.name, type_.result)
        self.scope = Scope(self.scopes[unit.file])
        if symbol.object is not None:
            self.scope.names[OBJECT] = Symbol(OBJECT, "type", symbol.object)
        body.addressed = names_under_address(item)
        body.outer_names = declared_outside(item.body)
        self.last_place = max(self.place_of(item.decl), 0)
        names, entry = self.parameters(item, type_)
        self.prepare(item)
        main = symbol.name == "main" and symbol.unit != "prelude"
        begins = main and symbol.text == "main"
        self.at_level = True
        for inner in item.body.block_items or []:
            self.level_statement(inner)
        self.finish(item)
        last = self.at_end(item, type_, symbol)
        head = Head("main", "int", 0, ()) if begins else signature(self.model, symbol.text, type_, type_.parameters, names)
        first = (*body.declarations(), *self.model.entry(body), *entry, *body.first_rows)
        found = Definition(head, first, tuple(body.out), last, begins, symbol, self.place_of(item.decl), self.place_of(item.body))
        self.put_definition(left(found, bool(body.frame)), self.tokens[max(self.place_of(item.decl), 0)].file)

    def put_definition(self, found: Definition, file: str) -> None:
        """Puts a function where it belongs."""
        symbol = found.symbol
        symbol.emitted = True
        if symbol.unit == "prelude":
            self.sheet.tail.append(found)
        elif symbol.object is not None or symbol in self.makers_of_text.known or is_moved(symbol.name):
            self.sheet.apart.append((file, found))
        else:
            self.sheet.put(file, found)

    def at_end(self, item: Any, type_: Function, symbol: Symbol) -> Tuple[Statement, ...]:
        """What stands behind the last statement of a function."""
        last = item.body.block_items[-1] if item.body.block_items else None
        if kind(last) == "Return":
            return ()
        rows: List[Statement] = []
        if not isinstance(type_.result, Void) and symbol.text != "main" and not gives_value(item.body):
            rows.append(self.model.leave(self.nothing(type_.result), None))
        elif self.function.ends or self.model.in_bytes:
            rows.append(self.model.leave(Nothing(), None))
        if symbol.name == "main" and symbol.unit != "prelude" and symbol.text != "main" and not isinstance(type_.result, Void):
            rows = [*(rows or [Nothing()]), Return(Number(INT, 0))]
        return tuple(rows)

    def nothing(self, result: CType) -> Statement:
        """What a function returns that has no `return` with a value: its callers may hand on what they got."""
        if is_whole(result):
            return Return(Name(result, "cbi_result"))
        return Return(Null(result) if isinstance(result, Pointer) and not to_function(result) and not self.model.in_bytes else Number(result, 0))

    def parameters(self, item: Any, type_: Function) -> Tuple[List[str], List[Statement]]:
        names: List[str] = []
        entry: List[Statement] = []
        args = item.decl.type.args
        nodes = [it for it in args.params if kind(it) != "EllipsisParam"] if args is not None else []
        if len(nodes) == 1 and not type_.parameters:
            nodes = []
        for index, (node, inner) in enumerate(zip(nodes, type_.parameters)):
            name = getattr(node, "name", None) or f"cbi_unnamed_{index}"
            if isinstance(inner, Struct) and not inner.complete:
                raise self.refuse_type(node, f"a parameter of type {spelled(inner)}", inner)
            symbol = Symbol(name, "variable", inner, self.local_name(name) if not name.startswith("cbi_unnamed") else name)
            if kind(node) == "Decl" and kind(node.type) in ("PtrDecl", "TypeDecl"):
                symbol.quals = self.quals_of(node.type)
            self.scope.names[name] = symbol
            text, rows = self.model.take_parameter(symbol)
            names.append(text)
            entry.extend(rows)
        self.open_parameters({it.name: it for it in item.param_decls or []}, nodes)
        return names, entry

    def open_parameters(self, behind: Dict[str, Any], nodes: Sequence[Any]) -> None:
        """Finds out the lengths in the types of parameters, as the function begins (6.9.1p10)."""
        for node in nodes:
            decl = behind.get(node.name, node) if getattr(node, "name", None) else node
            type_ = decl.type if kind(decl) in ("Decl", "Typename") else None
            if kind(type_) == "ArrayDecl":
                if type_.dim is not None and self.known(type_.dim) is None and not (kind(type_.dim) == "ID" and type_.dim.name == "*"):
                    value = self.value(type_.dim)
                    if not value.pure:
                        self.do(value.code, decl)
                type_ = type_.type
            if type_ is not None and holds_open(type_):
                found = self.resolve(type_)
                symbol = self.scope.names[decl.name]
                symbol.type = Pointer(found) if type_ is not decl.type else found
