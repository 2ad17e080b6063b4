"""Functions of a text that give memory of the library (`xmalloc`): a copy for each type of object that is asked of them.

Where a cell keeps what was stored in it, memory is made for objects of a type. Such a function gives a `void *`, so what is to lie there is known
at its calls alone. A copy holds it by pointers to that type; all copies stand on the lines of the one that the text has.
"""
import copy
from typing import Any, Callable, Dict, List, NamedTuple, Optional, Set, Tuple

from cbi_port.nodes import Call, Node
from cbi_port.objects import goes_on, is_sum
from cbi_port.scopes import Symbol
from cbi_port.trees import kind, replace, without_casts
from cbi_port.types import CHAR, CType, Function, Pointer, Void, spelled, to_function
from cbi_port.values import Value

MAKERS = {"malloc", "calloc", "realloc"}
IN_PRELUDE = "__cbi_value_"   # how the prelude names the functions that stand for those of the library
OBJECT = "cbi_object"  # how a copy names the type of what it holds
NULLS = ("0", "NULL")


class Wrapper(NamedTuple):
    """`held` are the variables and parameters that hold the memory."""
    symbol: Symbol
    item: Any
    unit: Any
    held: Set[str]

    @property
    def parameters(self) -> List[str]:
        args = self.item.decl.type.args
        return [getattr(it, "name", None) or "" for it in args.params] if args is not None else []


def is_generic(type_: Any, word: str = "void") -> bool:
    """Whether a declarator is that of a `void *`, or of a pointer to another type that is named by one word."""
    return kind(type_) == "PtrDecl" and kind(type_.type) == "TypeDecl" and getattr(type_.type.type, "names", None) == [word]


def declared(node: Any) -> List[Any]:
    """The declarations within a body."""
    found = [node] if kind(node) == "Decl" else []
    return found + [it for _, child in node.children() for it in declared(child)]


class Reader:
    """Says whether a function does nothing with the memory that it gives but make it, ask whether there is any, and hand it on."""

    def __init__(self, held: Set[str], makes: Callable[[Any], bool], takes: Callable[[str, int], bool]) -> None:
        self.held, self.makes, self.takes = held, makes, takes
        self.made = False

    def is_memory(self, node: Any) -> bool:
        node = without_casts(node)
        what = kind(node)
        if what == "ID":
            return node.name in self.held
        if what == "Constant":
            return node.value in NULLS
        if what == "FuncCall":
            return self.makes(node.name)
        if what == "Assignment":
            return node.op == "=" and kind(node.lvalue) == "ID" and node.lvalue.name in self.held and self.is_memory(node.rvalue)
        return what == "TernaryOp" and self.is_memory(node.iftrue) and self.is_memory(node.iffalse)

    def clean_memory(self, node: Any) -> bool:
        """Whether what gives memory has nothing in it that does more with some."""
        node = without_casts(node)
        what = kind(node)
        if what == "FuncCall":
            self.made = True
            return self.clean_call(node)
        if what == "Assignment":
            return self.clean_memory(node.rvalue)
        if what == "TernaryOp":
            return self.either(node.cond) and self.clean_memory(node.iftrue) and self.clean_memory(node.iffalse)
        return True

    def either(self, node: Any) -> bool:
        return node is None or (self.clean_memory(node) if self.is_memory(node) else self.clean(node))

    def clean_call(self, node: Any) -> bool:
        """A call: memory goes to parameters alone that take memory of any type."""
        by_name = kind(node.name) == "ID"
        for place, argument in enumerate(node.args.exprs if node.args is not None else []):
            inner = without_casts(argument)
            if kind(inner) == "ID" and inner.name in self.held:
                if not self.takes(node.name.name if by_name else "", place):
                    return False
            elif not self.clean(argument):
                return False
        return by_name or self.makes(node.name)

    def clean(self, node: Any) -> bool:
        """Whether a statement or a value does with memory what is said above."""
        what = kind(node)
        if what == "ID":
            return node.name not in self.held
        if what == "FuncCall":
            return self.clean_memory(node) if self.is_memory(node) else self.clean_call(node)
        if what == "Return":
            return node.expr is not None and self.is_memory(node.expr) and self.clean_memory(node.expr)
        if what == "Assignment" and self.is_memory(node):
            return self.clean_memory(node)
        if what == "Decl" and node.name in self.held:
            return node.init is None or self.is_memory(node.init) and self.clean_memory(node.init)
        if what == "UnaryOp" and node.op == "!" or what == "BinaryOp" and node.op in ("==", "!=", "&&", "||"):
            return all(self.either(child) for _, child in node.children())
        if what in ("If", "While", "DoWhile", "For"):
            return self.either(node.cond) and all(self.clean(child) for name, child in node.children() if name != "cond")
        return all(self.clean(child) for _, child in node.children())


class Wrappers:
    """The wrappers of a program, and their copies."""

    def __init__(self, program: Any) -> None:
        self.program = program
        self.known: Dict[Symbol, Wrapper] = {}
        self.copies: Dict[Tuple[Symbol, CType], Symbol] = {}
        self.cast: Optional[Set[str]] = None

    def find(self) -> None:
        """Finds those that the text defines; one may call another."""
        while True:
            before = len(self.known)
            for symbol, item, unit in self.program.definitions:
                if symbol not in self.known and self.may_be(symbol, item):
                    wrapper = Wrapper(symbol, item, unit, self.held_by(item))
                    if self.is_clean(wrapper):
                        self.known[symbol] = wrapper
            if len(self.known) == before:
                return

    def may_be(self, symbol: Symbol, item: Any) -> bool:
        type_ = symbol.type
        if not isinstance(type_, Function) or not type_.known or type_.more or not isinstance(type_.result, Pointer) or item.param_decls:
            return False
        return isinstance(type_.result.to, Void) or type_.result.to == CHAR and symbol.name in self.are_cast()

    def are_cast(self) -> Set[str]:
        """The functions of which a call is cast to a pointer to what is no character: one that gives a `char *` may give memory of any type by that."""
        if self.cast is None:
            self.cast, stack = set(), [unit.tree for unit in self.program.units if unit.tree is not None]
            while stack:
                node = stack.pop()
                if kind(node) == "Cast" and kind(node.expr) == "FuncCall" and kind(node.expr.name) == "ID" and kind(node.to_type.type) == "PtrDecl" and not any(
                        is_generic(node.to_type.type, word) for word in ("char", "void")):
                    self.cast.add(node.expr.name.name)
                stack.extend(child for _, child in node.children())
        return self.cast

    def held_by(self, item: Any) -> Set[str]:
        """The names of `void *` by which memory may be held (of `char *`, where such a one is given): variables, and parameters that are made longer or given back."""
        words = ("void", "char") if is_generic(item.decl.type.type, "char") else ("void",)
        held = {it.name for it in declared(item.body) if any(is_generic(it.type, word) for word in words) and "static" not in (it.storage or [])}
        args = item.decl.type.args
        generic = {it.name for it in (args.params if args is not None else []) if kind(it) == "Decl" and any(is_generic(it.type, word) for word in words)}
        stack = [item.body]
        while stack:
            node = stack.pop()
            if kind(node) == "FuncCall" and kind(node.name) == "ID" and node.args is not None:
                held |= {inner.name for place, inner in enumerate(map(without_casts, node.args.exprs))
                         if kind(inner) == "ID" and inner.name in generic and self.lengthens(node.name.name, place)}
            stack.extend(child for _, child in node.children())
        return held

    def of_text(self, name: str) -> Optional[Symbol]:
        for symbol, _, _ in self.program.definitions:
            if symbol.name == name:
                found: Symbol = symbol
                return found
        return None

    def lengthens(self, name: str, place: int) -> bool:
        """Whether an argument is memory that is made longer."""
        symbol = self.of_text(name)
        if symbol is None:
            return name == "realloc" and place == 0
        wrapper = self.known.get(symbol)
        return wrapper is not None and wrapper.parameters[place:place + 1] != [] and wrapper.parameters[place] in wrapper.held

    def makes(self, callee: Any) -> bool:
        """Whether what is called may give memory: a function that does, or a pointer to one."""
        if kind(callee) != "ID":
            return bool(self.program.givers.are_named())
        symbol = self.of_text(callee.name)
        if symbol is not None:
            return symbol in self.known
        return callee.name in MAKERS or self.is_pointer(callee.name) and bool(self.program.givers.are_named())

    def is_pointer(self, name: str) -> bool:
        """Whether a name is that of a variable outside functions that points to a function which gives a `void *`."""
        tables = [self.program.externals, *self.program.statics.values()]
        types = [table[name].type for table in tables if name in table and table[name].kind == "variable"]
        return any(to_function(it) and isinstance(it.to.result, Pointer) and isinstance(it.to.result.to, Void) for it in types)

    def takes(self, name: str, place: int) -> bool:
        """Whether an argument may be memory of any type."""
        symbol = self.of_text(name)
        if symbol is None:
            return name in ("free", "realloc", "memset") and place == 0
        row = symbol.type.parameters[place:place + 1] if isinstance(symbol.type, Function) else ()
        return bool(row) and isinstance(row[0], Pointer) and isinstance(row[0].to, Void)

    def is_clean(self, wrapper: Wrapper) -> bool:
        reader = Reader(wrapper.held, self.makes, self.takes)
        return reader.clean(wrapper.item.body) and reader.made

    # Calls.

    def call(self, symbol: Symbol, arguments: Any, node: Any) -> Value:
        """A call of a wrapper: of the copy for the type that its value is converted to."""
        program, wrapper = self.program, self.known[symbol]
        type_ = symbol.type
        if len(arguments) != len(type_.parameters):
            raise program.refuse(node, f"{len(arguments)} arguments where {len(type_.parameters)} are wanted", "an argument for each parameter")
        values = [program.value(without_casts(it) if name in wrapper.held else it) for it, name in zip(arguments, wrapper.parameters)]

        def call(made: Symbol) -> Node:
            given = [program.passed(value, it, node).code for value, it in zip(values, made.type.parameters)]
            return Call(made.type.result, made.text, tuple(given), made, program.place_of(node))

        def fresh(to: Optional[CType]) -> Node:
            if to is not None and goes_on(to) and any(is_sum(it) for it in arguments):
                raise program.refuse(node, "an array at a struct's end that goes on behind it", "a pointer to memory of malloc", True)
            return call(self.copy_for(wrapper, to))
        noted = len(program.to_generic)
        generic = call(symbol)
        del program.to_generic[noted:]
        return Value(Pointer(Void()) if isinstance(type_.result.to, Void) else type_.result, generic, pure=False, fresh=fresh)

    def copy_for(self, wrapper: Wrapper, to: Any) -> Symbol:
        """The copy that makes memory for objects of a type."""
        key = (wrapper.symbol, to)
        made = self.copies.get(key)
        if made is None or not made.used:
            made = made or self.copied(wrapper, to)
            made.used = not self.program.function.quiet
            self.copies[key] = made
            if made.used:
                self.program.waiting.append((made, made.node, wrapper.unit))
        return made

    def made_for(self, symbol: Symbol, to: Any) -> Symbol:
        """The copy of a wrapper for a type; of another function itself."""
        return self.copies.get((symbol, to), symbol)

    def copied(self, wrapper: Wrapper, to: Any) -> Symbol:
        symbol, pointer = wrapper.symbol, Pointer(to)
        parameters = tuple(pointer if name in wrapper.held else it for name, it in zip(wrapper.parameters, symbol.type.parameters))
        word = "".join(letter if letter.isalnum() else "p" if letter == "*" else "_" for letter in spelled(to).replace("struct ", "").replace(" ", ""))
        made = Symbol(symbol.name, "function", Function(pointer, parameters, False, True), self.program.names.take(f"{symbol.text}_{word}", symbol.name.rpartition(IN_PRELUDE)[2]))
        made.outer = made.static = made.defined = True
        made.unit, made.object = symbol.unit, to
        made.node = copy.deepcopy(wrapper.item)
        self.retype(made.node.body, wrapper.held)
        return made

    def retype(self, node: Any, held: Set[str]) -> None:
        """Declares what holds the memory as a pointer to the object, and leaves out its casts to other pointers."""
        for name, child in node.children():
            inner = without_casts(child)
            makes = kind(inner) == "FuncCall" and self.makes(inner.name)
            if inner is not child and (makes or kind(inner) == "ID" and inner.name in held):
                replace(node, name, inner)
            if kind(child) == "Decl" and child.name in held:
                child.type.type.type.names = [OBJECT]
            self.retype(inner, held)

    def generic_ones(self, names: Set[str]) -> None:
        """Says which wrappers are called where no type is known: these stay as they are. `names` are those that the text has so far."""
        for symbol in self.known:
            symbol.used = symbol.used or symbol.text in names
