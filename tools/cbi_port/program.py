"""Whole programs (C99 6.9): linkage, definitions, and the text that all of it becomes."""
import re
from dataclasses import replace
from typing import Any, Dict, List, Optional, Sequence, Set, Tuple

from cbi_port import Ported, aliases, forms
from cbi_port.blocks import Declare
from cbi_port.body import Body
from cbi_port.bounds import BoundedBytes
from cbi_port.bytes import Bytes
from cbi_port.dispatch import Dispatch
from cbi_port.functions import Functions
from cbi_port.helpers import Helpers
from cbi_port.late import Choice
from cbi_port.kinds import Concluded, Kinds
from cbi_port.library import TYPED
from cbi_port.lines import Refusal, Sheet, Token
from cbi_port.makers import Makers
from cbi_port.names import names_of
from cbi_port.objects import Objects
from cbi_port.reader import HEADERS, Unit, prelude_index, read_prelude
from cbi_port.scopes import TAKEN, Names, Scope, Symbol, plain_name
from cbi_port.system import Named, asked
from cbi_port.trees import kind
from cbi_port.types import INT, VOID, Array, CType, Function, Int, Struct, is_complete, spelled
from cbi_port.unions import Unions
from cbi_port.wrappers import Wrappers

MODELS: Dict[str, Any] = {"cells": Objects, "bytes": BoundedBytes, "flat": Bytes}
WRAPS = "signed integers wrap where they overflow (--wrap), as gcc's -fwrapv has it"
DEFINITION = "its definition, or the file that has it beside the others"


def prelude_text(name: str) -> str:
    """What a name of the prelude is called in the text."""
    plain = name.strip("_")
    return plain if plain.startswith("cbi_") else ("cbi_own_" if name.startswith("__") else "cbi_") + plain


class Program(Functions):
    """A translation of files into one text, with one model of memory."""

    def __init__(self, units: Sequence[Unit], tokens: List[Token], memory: str, args: Any, stderr: bool, named: Named = (), wrap: bool = False,
                 values: str = "none", concluded: Optional[Concluded] = None) -> None:
        self.tokens, self.units, self.values = tokens, units, values
        self.sheet = Sheet(tokens, units[0].file if units else "")
        self.problems: List[Refusal] = []
        self.liberties, self.counts = {}, {}
        self.names, self.tags = Names(), Names()
        self.names.used |= {token.text for token in tokens if token.kind == "name"}
        self.words = {plain_name(token.text) for token in tokens if token.kind == "name" and not token.file.startswith(HEADERS)}
        self.tags.used = set(TAKEN)
        called = {plain_name(token.text) for token, after in zip(tokens, tokens[1:]) if token.kind == "name" and after.text == "("}
        self.floats = bool(self.words & {"float", "double"} | self.words & called & set(forms.FLOAT_NAMES)) or any(
            token.kind == "number" and token.text[:2] not in ("0x", "0X") and re.search("[.eE]", token.text) for token in tokens)
        self.asked = asked(tokens, self.words, args, stderr, named)
        self.liberties.update(dict.fromkeys(self.asked.told + [WRAPS] * wrap))
        self.prelude_parts = ["FLOATS"] * self.floats + ["BYTES"] * (memory != "cells") + forms.parts_of(tokens, self.floats) + self.asked.parts
        self.lengths = {}
        self.structs, self.externals, self.by_node, self.headers, self.forwards = [], {}, {}, {}, {}
        self.statics: Dict[str, Dict[str, Symbol]] = {}
        self.in_prelude, self.wrap = False, wrap
        self.args, self.stderr = args, stderr
        self.copied: Dict[Struct, None] = {}
        self.cleared: Dict[Struct, None] = {}
        self.makers: Dict[str, CType] = {}
        self.makers_if: Dict[str, CType] = {}
        self.resized: Dict[str, CType] = {}
        self.movers: Dict[Tuple[str, str], CType] = {}
        self.sorters: Dict[str, CType] = {}
        self.sorters_with: Dict[str, CType] = {}
        self.searchers: Dict[str, CType] = {}
        self.sort_call = self.sort_call_with = ""
        self.union_helpers: Set[Any] = set()
        self.unions = Unions(self)
        self.later: List[Choice] = []
        self.from_generic: List[CType] = []                     # what becomes a pointer to characters
        self.to_generic: List[Tuple[int, CType]] = []           # what a pointer to characters becomes that was computed, and where
        self.fresh_types: Set[str] = set()
        self.globals: List[Declare] = []     # those that stand on the first line
        self.library_names: Set[str] = set()
        self.wrappers: Dict[str, Symbol] = {}
        self.makers_of_text = Wrappers(self)
        self.givers = Makers(self)
        self.kinds = Kinds(self, concluded or {})
        self.exit_functions = bool(self.words & {"atexit"})
        self.wrapped: Set[str] = self.asked.wrapped
        self.keeps_sizes = "realloc" in self.words
        self.prelude_names = prelude_index()
        self.names.used |= {prelude_text(name) for name in self.prelude_names}
        self.prelude_units: Dict[str, Unit] = {}
        self.prelude_symbols: Dict[str, Symbol] = {}
        self.prelude_scope = Scope()
        self.model: Objects = MODELS[memory](self)
        self.dispatch = Dispatch(self.model)
        self.model.own_calls = self.model.calls()
        self.first = Body("cbi_init", VOID)
        self.function = self.first
        self.scope = Scope()
        self.scopes: Dict[str, Scope] = {}
        self.definitions: List[Tuple[Symbol, Any, Unit]] = []
        self.added: List[str] = []
        self.wide_strings: Dict[int, Symbol] = {}

    # The names of whole files.

    def unit_symbol(self, name: str) -> Optional[Symbol]:
        return self.statics.get(self.unit.file, {}).get(name)

    def survey(self, unit: Unit) -> None:
        """Declares what stands outside functions."""
        self.unit = unit
        self.scope = self.scopes[unit.file] = Scope()
        self.statics.setdefault(unit.file, {})
        for item in unit.tree.ext:
            try:
                self.outer(item, unit)
            except Refusal as refusal:
                self.tell(refusal, item)

    def outer(self, item: Any, unit: Unit) -> None:
        self.last_place = max(self.place_of(item), 0)
        if kind(item) == "Typedef":
            type_ = self.resolve(item.type, item.name)
            align = self.said_alignment(item)
            self.scope.names[item.name] = symbol = Symbol(item.name, "type", type_)
            symbol.align, symbol.quals = align, self.quals_of(item.type)
            if not item.name.startswith("__") and self.is_users(item):
                self.count("typedefs")
        elif kind(item) == "Decl":
            if item.name is None:
                self.tag_alone(item.type)
                return
            type_ = self.resolve(item.type)
            if isinstance(type_, Function):
                self.outer_symbol(item, type_, "function", "static" in (item.storage or []), unit)
            else:
                symbol = self.outer_symbol(item, type_, "variable", "static" in (item.storage or []), unit)
                symbol.align = max(symbol.align, self.said_alignment(item))
                if "extern" not in (item.storage or []) or item.init is not None:
                    symbol.defined = True
                if item.init is not None:
                    symbol.init, symbol.node, symbol.unit = item.init, item, unit.file
                    if isinstance(symbol.type, Array) and symbol.type.count is None:
                        symbol.type, _ = self.leaves(symbol.type, item.init)
        elif kind(item) == "FuncDef":
            type_ = self.definition_type(item)
            symbol = self.outer_symbol(item.decl, type_, "function", "static" in (item.decl.storage or []), unit)
            if symbol.defined:
                if "inline" in (item.decl.funcspec or []):
                    return
                if "inline" not in (symbol.node.decl.funcspec or []):
                    raise self.refuse(item.decl, f"`{item.decl.name}`, which is defined twice", "one definition")
                self.definitions = [it for it in self.definitions if it[0] is not symbol]
            symbol.defined, symbol.node, symbol.unit = True, item, unit.file
            symbol.type = type_ if type_.known or not symbol.type.known else Function(type_.result, symbol.type.parameters, type_.more or symbol.type.more, True)
            self.definitions.append((symbol, item, unit))

    def is_users(self, item: Any) -> bool:
        at = self.place_of(item)
        return 0 <= at < len(self.tokens) and any(self.tokens[at].file == unit.file for unit in self.units)

    def definition_type(self, item: Any) -> Function:
        """The type of a defined function, also where its parameters' types stand behind `)`."""
        type_: Any = self.resolve(item.decl.type)
        if item.param_decls or item.decl.type.args is not None and any(kind(it) == "ID" for it in item.decl.type.args.params):
            known = {decl.name: self.adjusted(self.resolve(decl.type)) for decl in item.param_decls or []}
            names = [it.name for it in item.decl.type.args.params] if item.decl.type.args is not None else []
            self.count("functions with types behind their parameters")
            for it in known.values():
                self.kinds.hide(it)
            return Function(type_.result, tuple(known.get(name, INT) for name in names), False, False)
        if item.decl.type.args is None:
            return Function(type_.result, (), False, False)
        found: Function = type_
        return found

    def outer_symbol(self, node: Any, type_: CType, what: str, static: bool, unit: Unit) -> Symbol:
        name = node.name
        table = self.statics[unit.file] if static or name in self.statics[unit.file] else self.externals
        symbol = table.get(name)
        if symbol is None and name in self.scope.names and self.scope.names[name].kind == what:
            symbol = self.scope.names[name]
        if symbol is not None and symbol.kind != what:
            raise self.refuse(node, f"`{name}`, declared as two things", "two names")
        if symbol is None:
            symbol = Symbol(name, what, type_)
            symbol.outer = True
            symbol.static = static
            symbol.at = self.place_of(node)
            symbol.unit = unit.file
            symbol.text = self.outer_name(name, what, table)
            table[name] = symbol
        else:
            self.kinds.one(symbol.type, type_)
        if isinstance(symbol.type, Array) and symbol.type.count is None or isinstance(type_, Function) and type_.known and not symbol.type.known and not symbol.defined:
            symbol.type = type_
        symbol.quals = self.quals_of(node.type)
        self.scope.names[name] = symbol
        return symbol

    def outer_name(self, name: str, what: str, table: Dict[str, Symbol]) -> str:
        if self.in_prelude:
            return prelude_text(name)
        if name == "main" and what == "function":
            return "main"
        if name in TAKEN or name.startswith("cbi_") or "$" in name or len(name) > 62 or name in self.given:
            return self.names.take(name)
        self.given.add(name)
        return name

    given: Set[str] = set()

    def external(self, node: Any, type_: CType) -> Symbol:
        """What an `extern` within a function names."""
        symbol = self.scopes[self.unit.file].names.get(node.name) or self.externals.get(node.name)
        if symbol is None:
            symbol = Symbol(node.name, "variable", type_)
            symbol.outer = True
            symbol.at = self.place_of(node)
            symbol.text = self.outer_name(node.name, "variable", self.externals)
            symbol.quals = self.quals_of(node.type)
            self.externals[node.name] = symbol
        else:
            self.kinds.one(symbol.type, type_)
        if isinstance(symbol.type, Array) and symbol.type.count is None:
            symbol.type = type_
        return symbol

    # The prelude.

    def prelude_symbol(self, name: str) -> Optional[Symbol]:
        known, file = self.prelude_symbols.get(name), self.prelude_names.get(name)
        if known is not None and known.defined or file is None or file in self.prelude_units:
            return known
        unit, scope, function, inside = getattr(self, "unit", None), self.scope, self.function, self.in_prelude
        self.prelude_units[file] = unit_ = read_prelude(file, self.tokens, self.prelude_parts, self.asked.header)
        self.in_prelude = True
        before = len(self.definitions)
        externals, self.externals = self.externals, self.prelude_symbols
        try:
            self.survey(unit_)
        finally:
            self.externals = externals
            self.unit, self.scope, self.function, self.in_prelude = unit, scope, function, inside
        for symbol in self.prelude_symbols.values():
            symbol.unit = "prelude"
        for found, item, _ in self.definitions[before:]:
            self.waiting.append((found, item, unit_))
        del self.definitions[before:]
        return self.prelude_symbols.get(name)

    waiting: List[Tuple[Symbol, Any, Unit]] = []

    # Globals.

    def begin_static(self, symbol: Symbol, init: Any, node: Any) -> None:
        """Declares what lives as long as the program, with what it begins with."""
        symbol.declared = True
        symbol.init = symbol.init or init
        if isinstance(symbol.type, Array) and symbol.type.count is None and init is not None:
            symbol.type, _ = self.leaves(symbol.type, init)
        if isinstance(symbol.type, Array) and symbol.type.count is None:
            symbol.type = symbol.type._replace(count=1)
        if not is_complete(symbol.type):
            raise self.refuse_type(node, f"`{symbol.name}` of the type {spelled(symbol.type)}", symbol.type)
        outer, self.function, self.begins = self.function, self.first, True
        try:
            found = self.model.declare_static(symbol, init, node)
        finally:
            self.function, self.begins = outer, False
        if found is not None:
            self.place_global(found, symbol)

    def place_global(self, found: Declare, symbol: Symbol) -> None:
        token = self.tokens[symbol.at] if 0 <= symbol.at < len(self.tokens) else None
        if self.in_prelude or token is None or token.file != self.sheet.first or symbol.inner:
            self.globals.append(found)
        else:
            self.sheet.put(token.file, replace(found, at=symbol.at))

    def run(self) -> Ported:
        """The whole translation; `self.problems` has what can't be kept."""
        self.given, self.waiting = set(), []
        for unit in self.units:
            if unit.tree is not None:
                self.survey(unit)
        aliases.put(self)
        self.begin_main()
        self.find_jumps()
        if not self.model.in_bytes:
            self.makers_of_text.find()
        for unit in self.units:
            if unit.tree is not None:
                self.unit = unit
                self.translate(unit)
        self.late()
        return self.assembled()

    def begin_main(self) -> None:
        symbol = self.externals.get("main")
        if self.partial and (symbol is None or not symbol.defined):
            return
        if symbol is None or not symbol.defined:
            last = max(place for place, token in enumerate(self.tokens) if token.file)
            self.problems.append(Refusal(last, "no `main`", "a definition of `int main(void)`"))
            return
        again = sum(1 for token in self.tokens if token.text == "main" and token.kind == "name" and any(token.file == unit.file for unit in self.units)) > 1
        if symbol.type.parameters or again or self.exit_functions or not isinstance(symbol.type.result, Int) or symbol.type.result.size != 4 or not symbol.type.result.signed:
            symbol.text = "cbi_user_main"
            self.names.authors[symbol.text] = "main"

    def translate(self, unit: Unit) -> None:
        """Writes a file's globals and functions in their order."""
        defined = {id(item): symbol for symbol, item, _ in self.definitions}
        for item in unit.tree.ext:
            self.scope = self.scopes[unit.file]
            self.function = self.first
            self.last_place = max(self.place_of(item), 0)
            try:
                if kind(item) == "FuncDef" and id(item) in defined:
                    self.define_or_wait(defined[id(item)], item, unit)
                elif kind(item) == "Decl" and item.name is not None and kind(item.type) != "FuncDecl":
                    symbol = self.scope.names.get(item.name)
                    if symbol is not None and symbol.kind == "variable" and not symbol.declared and symbol.defined and self.is_here(symbol, item):
                        self.scope = self.scopes.get(symbol.unit, self.scope)
                        self.begin_static(symbol, symbol.init, symbol.node or item)
            except Refusal as refusal:
                self.tell(refusal)
        self.function = self.first

    def define_or_wait(self, symbol: Symbol, item: Any, unit: Unit) -> None:
        """A static function of a header waits until it is called."""
        if symbol.static and not self.is_users(item) or symbol in self.makers_of_text.known:
            self.waiting.append((symbol, item, unit))
            return
        self.define(symbol, item, unit)

    def is_here(self, symbol: Symbol, item: Any) -> bool:
        """Whether a global's declaration is the one at which it is written."""
        symbol.at = self.place_of(item)
        return True

    def late(self) -> None:
        """What is written once all else is known: functions of the prelude that are called, and then what these call."""
        done: Set[int] = set()
        more = True
        self.in_prelude = True
        if self.exit_functions:
            for name in ("__cbi_exit_now", "__cbi_run_exits"):
                found = self.prelude_symbol(name)
                if found is not None:
                    found.used = True
        while more:
            more = False
            self.plan_helpers()
            if self.makers_of_text.known:
                self.makers_of_text.generic_ones(names_of(*self.sheet.every()))
            for symbol, item, unit in list(self.waiting):
                if symbol.used and id(item) not in done:
                    done.add(id(item))
                    more = True
                    self.in_prelude = symbol.unit == "prelude"
                    try:
                        self.define(symbol, item, unit)
                    except Refusal as refusal:
                        if self.in_prelude:
                            refusal.construct += f" (in the prelude, {symbol.name})"
                        self.tell(refusal)
                    if self.in_prelude:
                        self.added.append(symbol.text)
                    self.in_prelude = True
            for symbol in list(self.prelude_symbols.values()):
                if symbol.kind == "variable" and symbol.used and not symbol.declared:
                    more = True
                    self.function = self.first
                    self.scope = Scope()
                    self.begin_static(symbol, symbol.init, symbol.node)
            more = self.givers.use(self.givers.live()) or more
        for symbol in list(self.externals.values()) if not self.partial else []:
            if symbol.kind == "variable" and symbol.used and not symbol.defined:
                self.problems.append(Refusal(symbol.at, f"`{symbol.name}`, which is declared and never defined", DEFINITION))
            if symbol.kind == "function" and symbol.used and not symbol.defined:
                typed = symbol.name in TYPED
                self.problems.append(Refusal(symbol.at, f"`{symbol.name}`" + ("" if typed else ", which isn't defined"), DEFINITION, typed))
        self.kinds.settle()
        moved = [at for at, type_ in self.to_generic if not self.kinds.is_text(type_)]
        if not self.model.in_bytes and moved and not all(map(self.kinds.is_text, self.from_generic)):
            self.problems.append(Refusal(max(moved[0], 0), "a computed `char *` that becomes a `void *`", "a pointer to what is there", True))
        self.problems.extend([] if self.model.in_bytes else self.kinds.characters.problems())
        self.problems.extend([*self.unions.problems(), *self.givers.finish()])
        self.in_prelude = False

    def plan_helpers(self) -> None:
        pass

    def assembled(self) -> Ported:
        return Helpers(self).ported()
