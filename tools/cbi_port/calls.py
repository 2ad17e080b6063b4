"""Calls (C99 6.5.2.2), also by pointers, and arguments of which no parameter tells the type (7.15)."""
from typing import Any, List, Optional, Sequence, Tuple

from cbi_port.conversions import number
from cbi_port.nodes import Call, Node
from cbi_port.operators import Operators
from cbi_port.scopes import BUILTIN, Symbol, plain_name
from cbi_port.trees import kind
from cbi_port.types import (DOUBLE, FLOAT, INT, UINT, VOID, Array, CType, Function, Int, List_, Pointer, Quals, Struct, align_alone, align_of, exactly, is_long,
                            is_pointer, is_whole, promoted, size_of, spelled)
from cbi_port.values import Value, retyped, word


class Calls(Operators):
    """Calls of functions of the text, by name and by pointer."""

    def of_FuncCall(self, node: Any, used: bool) -> Value:
        arguments = list(node.args.exprs) if node.args is not None else []
        if kind(node.name) == "ID":
            name = node.name.name
            if name == "__cbi_generic":
                return self.value(self.selected(node, arguments), used)
            if name.startswith(("__cbi_statement", "__cbi_va_arg", "__cbi_same", "__cbi_align", "__cbi_range", "__cbi_label", "__cbi_goto")) or name == "offsetof":
                return self.special(node, name, arguments, used)
            if name.startswith(BUILTIN):
                return self.builtin_call(node, plain_name(name), arguments, used)
            symbol = self.scope.find(name)
            if symbol is None or symbol.kind == "function" and not symbol.defined:
                found = self.library_call(name, node, arguments, used, symbol)
                if found is not None:
                    return found
                symbol = symbol or self.by_use(node, name)
            if symbol.kind == "function":
                if self.function.dead and not symbol.defined and symbol.unit != "prelude":
                    return self.nowhere(symbol.type)
                if symbol in self.makers_of_text.known:
                    made: Value = self.makers_of_text.call(symbol, arguments, node)
                    return made
                self.use(symbol)
                return self.called(symbol.text, symbol, symbol.type, arguments, node, used)
        value = self.value(node.name)
        type_ = value.type.to if is_pointer(value.type) else value.type
        if not isinstance(type_, Function):
            raise self.refuse(node, f"a call of a `{spelled(value.type)}`", "a function or a pointer to one")
        if isinstance(value.origin, Symbol) and value.origin.kind == "function":
            return self.called(value.origin.text, value.origin, type_, arguments, node, used)
        return self.called_by_pointer(value, type_, arguments, node, used)

    def nowhere(self, type_: Any) -> Value:
        """A call of a function that isn't defined, where it is never evaluated."""
        result = type_.result
        if isinstance(result, Int):
            return number(0, result)
        return self.model.null(result) if is_pointer(result) else Value(VOID, Call(VOID, "abort", ()), pure=False)

    def by_use(self, node: Any, name: str) -> Symbol:
        """A function that its call declares (C90 6.3.2.2)."""
        symbol = self.externals.get(name)
        if symbol is None:
            symbol = Symbol(name, "function", Function(INT, (), False, False))
            symbol.outer = True
            self.externals[name] = symbol
        symbol.at = self.place_of(node) if symbol.at < 0 else symbol.at
        return symbol

    def called(self, name: str, symbol: Optional[Symbol], type_: Function, arguments: Sequence[Any], node: Any, used: bool) -> Value:
        """A call by name."""
        real = symbol.type if symbol is not None else type_
        type_ = real if symbol is not None and isinstance(real, Function) else type_
        result = type_.result
        given = [self.room(result)] if is_whole(result) else []
        values = [self.value(argument) for argument in arguments]
        if type_.known:
            if len(values) < len(type_.parameters) or len(values) > len(type_.parameters) and not type_.more:
                raise self.refuse(node, f"{len(values)} arguments where {len(type_.parameters)} are wanted", "an argument for each parameter")
        elif symbol is not None and symbol.defined and not type_.more:
            # C leaves it undefined what a parameter is that gets no argument.
            missing = type_.parameters[len(values):]
            if any(is_whole(it) for it in missing):
                raise self.refuse(node, f"{len(values)} arguments where {len(type_.parameters)} are wanted", "an argument for each parameter")
            values += [number(0)._replace(null=True) for _ in missing]
            dropped = values[len(type_.parameters):]
            if not all(it.pure for it in dropped):
                raise self.refuse(node, f"{len(values)} arguments where {len(type_.parameters)} are wanted", "an argument for each parameter")
            values = values[:len(type_.parameters)]
        for value, parameter in zip(values, type_.parameters):
            given.append(self.passed(value, parameter, node).code)
        if type_.more:
            given.append(self.more(values[len(type_.parameters):], node))
        elif len(values) > len(type_.parameters):
            if symbol is not None and symbol.defined:
                raise self.refuse(node, f"{len(values)} arguments where {len(type_.parameters)} are wanted", "an argument for each parameter")
            given.extend(self.passed(it, self.by_default(it), node).code for it in values[len(type_.parameters):])
        return Value(result, Call(result, name, tuple(given), symbol, self.place_of(node)), pure=False)

    def by_default(self, value: Value) -> CType:
        """6.5.2.2p6."""
        found: CType = promoted(value.type, value.bits) if isinstance(value.type, Int) else value.type
        return DOUBLE if found == FLOAT else found

    def passed(self, value: Value, type_: CType, node: Any) -> Value:
        """An argument as a parameter of the type takes it."""
        value = self.converted(value, type_, True, node)
        if is_long(type_):
            return value._replace(code=self.long_code(value))
        return value

    def room(self, type_: CType) -> Node:
        """A place for what a call gives, as the call takes it."""
        if is_long(type_):
            return self.long_room(type_)
        return self.model.spare(type_)

    def more(self, values: Sequence[Value], node: Any) -> Node:
        """The arguments behind the last parameter, stored one after another."""
        return self.model.more_arguments([self.converted(it, self.by_default(it), False, node) for it in values], node)

    # Calls by pointers: a function for each kind of call goes through all functions that it may be.

    def called_by_pointer(self, value: Value, type_: Function, arguments: Sequence[Any], node: Any, used: bool) -> Value:
        values = [self.value(argument) for argument in arguments]
        if type_.known and (len(values) < len(type_.parameters) or len(values) > len(type_.parameters) and not type_.more):
            raise self.refuse(node, f"{len(values)} arguments where {len(type_.parameters)} are wanted", "an argument for each parameter")
        kinds = list(type_.parameters) if type_.known else [self.by_default(it) for it in values]
        gives = self.givers.may_give(type_)
        name = "" if gives else self.dispatcher(type_, kinds)
        given = [self.room(type_.result)] if is_whole(type_.result) else []
        given.append(value.code)
        for it, parameter in zip(values, kinds):
            given.append(self.passed(it, parameter, node).code)
        if type_.more:
            given.append(self.more(values[len(kinds):], node))
        if gives:
            made: Value = self.givers.called(value, type_, kinds, given, node, arguments)
            return made
        return Value(type_.result, Call(type_.result, name, tuple(given), None, self.place_of(node)), pure=False)

    def dispatcher(self, type_: Function, kinds: Sequence[CType]) -> str:
        """The function for a kind of calls by pointers."""
        before = len(self.dispatch.kinds)
        name = self.dispatch.kind(type_, kinds)
        if len(self.dispatch.kinds) > before:
            self.count("kinds of calls by pointers")
        return name

    # What stands for GNU C, and va_arg.

    def selected(self, node: Any, arguments: Sequence[Any]) -> Any:
        """The expression that a `_Generic` selects (C11 6.5.1.1)."""
        quiet, self.function.quiet = self.function.quiet, True
        try:
            type_ = self.value(arguments[0]).type
        finally:
            self.function.quiet = quiet
        default, found = None, None
        seen: List[Tuple[CType, Quals]] = []
        for label, chosen in zip(arguments[1::2], arguments[2::2]):
            if kind(label) == "ID":
                default = chosen
                continue
            entry, quals = self.type_under_sizeof(label.expr), self.quals_of(label.expr)
            if any(exactly(entry, other) and quals == others for other, others in seen):
                raise self.refuse(node, f"a `_Generic` with two entries for `{spelled(entry)}`", "one of the two entries")
            seen.append((entry, quals))
            # The value of an object has its type without qualifiers (6.3.2.1p2).
            if not quals and exactly(entry, type_):
                if found is not None:
                    raise self.refuse(node, f"a `_Generic` with two entries that `{spelled(type_)}` is compatible with", "one of the two entries")
                found = chosen
        if found is None and default is None:
            raise self.refuse(node, f"a `_Generic` without an entry for `{spelled(type_)}`", "a `default`")
        return default if found is None else found

    def special(self, node: Any, name: str, arguments: Sequence[Any], used: bool) -> Value:
        if name == "offsetof":
            return self.offset(node, arguments)
        if name == "__cbi_va_arg":
            return self.next_argument(node, arguments, used)
        if name == "__cbi_same_types":
            left, right = (self.type_under_sizeof(argument.expr) for argument in arguments)
            return number(int(exactly(left, right)))
        if name.startswith("__cbi_align"):
            inner = arguments[0].expr
            type_ = self.type_under_sizeof(inner)
            alone = name == "__cbi_align_alone" and kind(inner) != "StructRef"
            return number(max(align_alone(type_) if alone else align_of(type_), self.said_alignment(inner)), UINT)
        if name.startswith("__cbi_statement"):
            return self.statement_value(node, name, used)
        if name == "__cbi_range":
            raise self.refuse(node, "a range here", "each value by itself")
        if name == "__cbi_label":
            if not self.model.in_bytes:
                raise self.refuse(node, "the address of a label", "a `switch`", True)
            label = arguments[0].name
            self.label_owner.wanted_labels.setdefault(label, self.place_of(node))
            at = self.label_segment(label)
            return Value(Pointer(VOID), retyped(Pointer(VOID), word(at)), at)
        raise self.refuse(node, "a jump to a computed label, within an expression", "a `switch`", True)

    def offset(self, node: Any, arguments: Sequence[Any]) -> Value:
        type_ = self.resolve(arguments[0].type)
        way: List[Any] = []
        inner = arguments[1]
        while kind(inner) in ("StructRef", "ArrayRef"):
            way.insert(0, inner)
            inner = inner.name
        total = 0
        for step in [inner, *way]:
            if kind(step) == "ArrayRef":
                if not isinstance(type_, Array):
                    raise self.refuse(node, "`offsetof` of no element", "a member of the struct behind the comma")
                type_ = type_.of
                total += size_of(type_) * self.constant(step.subscript)
                continue
            field = step.name if kind(step) == "ID" else step.field.name
            members = type_.find(field) if isinstance(type_, Struct) else None
            if members is None:
                raise self.refuse(node, f"`offsetof` of `{field}`, which is no member", "the name of a member that the struct has")
            for member in members:
                total += member.at
                type_ = member.type
        return number(total, UINT)

    def next_argument(self, node: Any, arguments: Sequence[Any], used: bool) -> Value:
        """`va_arg` (7.15.1.1)."""
        place = self.place(arguments[0])
        if not isinstance(place.type, List_):
            if is_pointer(place.type) and isinstance(place.type.to, List_):
                place = self.model.target(self.model.load(place))
            else:
                raise self.refuse(node, "`va_arg` of no `va_list`", "a `va_list`")
        type_ = self.type_under_sizeof(arguments[1].expr)
        self.count("lists of arguments")
        return self.model.next_argument(place, type_, node)
