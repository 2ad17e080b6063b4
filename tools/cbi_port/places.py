"""Constants (C99 6.4.4, 6.4.5) and places (6.3.2.1)."""
from typing import Any, List

from cbi_port import forms
from cbi_port.authors import Authors
from cbi_port.constants import bytes_of, characters_of, written_name
from cbi_port.conversions import number
from cbi_port.declarations import Declarations
from cbi_port.floats import Floats
from cbi_port.kinds import counts_bytes
from cbi_port.nodes import Index, Number, marked
from cbi_port.scopes import AROUND, Symbol
from cbi_port.trees import kind
from cbi_port.types import (CHAR, INT, LLONG, LONG, UCHAR, UINT, ULLONG, ULONG, Array, CType, Function, Int, Pointer, Struct, Void, is_complete, is_float,
                            is_long, is_pointer, size_of, spelled)
from cbi_port.values import Place, Value, retyped


class Places(Authors, Floats, Declarations):
    """What stands for a value by itself, and where objects lie."""

    def of_Constant(self, node: Any, used: bool) -> Value:
        text = node.value
        at = self.place_of(node)
        if node.type == "string" and node.value[0] == "L":
            place = self.wide_string(node)
            return self.model.load(place, node)
        if node.type == "string":
            if forms.names_arguments(node.value) and not self.in_prelude:
                raise self.refuse(node, "a form that names its arguments by number", "arguments in the form's order")
            value = self.model.string(self.string_text(node), size_of(self.string_type(node)))
            return value._replace(code=marked(value.code, at)) if not self.model.in_bytes else value
        if "'" in text:
            return self.character(node, text, at)
        if any(word in node.type for word in ("float", "double")) or not text.lower().startswith("0x") and ("." in text or "e" in text.lower()):
            return self.float_constant(node, text)
        return self.integer(text, at, node)

    def integer(self, text: str, at: int, node: Any) -> Value:
        digits = text.rstrip("uUlL")
        suffix = text[len(digits):].lower()
        try:
            value = int(digits, 0) if not (digits.startswith("0") and digits.isdigit()) else int(digits, 8)
        except ValueError:
            raise self.refuse(node, f"`{text}`", "a whole number of C99") from None
        decimal = not digits.startswith("0") or digits == "0"
        row: List[Int] = [INT, UINT, LONG, ULONG, LLONG, ULLONG]
        if "u" in suffix:
            row = [it for it in row if not it.signed]
        elif decimal:
            row = [it for it in row if it.signed]
        least = 5 if suffix.count("l") == 2 else 4 if "l" in suffix else 3
        for type_ in row:
            if type_.rank >= least and value <= type_.most:
                if is_long(type_):
                    return number(value, type_)
                spelling = str(value) if digits.lower().startswith("0b") else digits
                return Value(type_, Number(type_, value, not type_.signed, spelling + "u" * (not type_.signed), at), value, null=value == 0)
        return number(ULLONG.wrap(value), ULLONG)

    def character(self, node: Any, text: str, at: int) -> Value:
        data = bytes_of(text)
        if len(data) == 1:
            value = CHAR.wrap(data[0])
            if len(text) == 3 and 32 <= ord(text[1]) < 127 or len(text) == 4 and text[2] in "ntrabfv\\'\"?0":
                return Value(INT, Number(INT, value, False, text, at), value, null=value == 0)
            return number(value)
        value = 0
        for byte in data:
            value = value << 8 | byte
        return number(INT.wrap(value))

    def wide_string(self, node: Any) -> Place:
        """The array of a string of wide characters."""
        symbol = self.wide_strings.get(id(node))
        if symbol is None:
            from pycparser import c_ast
            symbol = Symbol("cbi_wide", "variable", self.string_type(node), self.names.take("cbi_wide"))
            symbol.outer = True
            items = [c_ast.Constant("int", str(byte), node.coord) for byte in characters_of(node.value)]
            self.begin_static(symbol, c_ast.InitList(items + [c_ast.Constant("int", "0", node.coord)], node.coord), node)
            self.wide_strings[id(node)] = symbol
        return self.model.variable(symbol)

    def string_text(self, node: Any) -> str:
        if node.value[0] == "L":
            raise self.refuse(node, "a string of wide characters", "a string")
        return str(node.value)

    def string_type(self, node: Any) -> CType:
        if node.value[0] == "L":
            return Array(INT, len(characters_of(node.value)) + 1)
        return Array(CHAR, len(bytes_of(node.value)) + 1)

    # Places (6.3.2.1)

    def place(self, node: Any, quiet: bool = False) -> Place:
        """The place of a left side; None or a refusal where it is none."""
        what = kind(node)
        if what == "ID":
            return self.named_place(node)
        if what == "UnaryOp" and node.op == "*":
            value = self.value(node.expr)
            if not is_pointer(value.type):
                raise self.refuse(node, f"`*` of a `{spelled(value.type)}`", "a pointer there: `&` of the object, or a cast of an address to a pointer")
            if isinstance(value.type.to, Function):
                return Place(value.type.to, retyped(value.type.to, value.code), value.pure)
            return self.model.target(value, node)
        if what == "ArrayRef":
            return self.element_place(node)
        if what == "StructRef":
            return self.member_place(node)
        if what == "CompoundLiteral":
            return self.literal_place(node)
        if what == "Constant" and node.type == "string" and node.value[0] == "L":
            return self.wide_string(node)
        if what == "Constant" and node.type == "string":
            value = self.value(node)
            return self.model.target(value, node)._replace(type=self.string_type(node), pointer=None, flat=True, code=value.code)
        if what == "UnaryOp" and node.op in ("__real__", "__extension__"):
            return self.place(node.expr)
        if what == "FuncCall" and kind(node.name) == "ID" and node.name.name == "__cbi_generic":
            return self.place(self.selected(node, node.args.exprs))
        value = self.value(node)
        if isinstance(value.type, Struct):
            return self.model.target(value.as_type(Pointer(value.type)), node)
        raise self.refuse(node, "no place where one must stand", "a variable, an element or a member")

    def named_place(self, node: Any) -> Place:
        symbol = self.scope.find(node.name)
        if symbol is None and node.name == "__func__":
            from pycparser import c_ast
            return self.place(c_ast.Constant("string", f'"{written_name(self.function.name)}"', node.coord))
        if symbol is None and node.name.startswith("__cbi_"):
            symbol = self.prelude_symbol(node.name)
            if node.name == "__cbi_errors" and not self.in_prelude and not self.stderr:
                self.liberties["what is written to stderr is left out (--stderr joins it)"] = None
        if symbol is None:
            if self.partial or node.name.startswith(AROUND):
                raise self.follow(node)
            raise self.refuse(node, f"`{node.name}`, which isn't declared", "its declaration before that line, or `#include` of the header that has it")
        symbol = self.variable_of_library(symbol)
        if symbol.kind == "function":
            self.use(symbol)
            value = self.model.function(symbol, node)
            return Place(symbol.type, retyped(symbol.type, value.code))
        if symbol.kind == "refused":
            raise self.follow(node)
        if symbol.kind == "type":
            raise self.refuse(node, f"the type `{node.name}` as a value", "a variable of it, or a cast to it")
        if self.of_system(symbol) and not self.function.dead:
            raise self.missing(node, node.name)
        self.use(symbol)
        place = self.model.variable(symbol)._replace(quals=symbol.quals)
        return place._replace(code=marked(place.code, self.place_of(node))) if place.pointer is None and not place.flat else place

    def element_place(self, node: Any) -> Place:
        base, index = node.name, node.subscript
        if kind(base) in ("ID", "ArrayRef", "StructRef"):
            symbol = self.scope.find(base.name) if kind(base) == "ID" else None
            if symbol is None or symbol.kind == "variable" and isinstance(symbol.type, Array):
                place = self.place(base)
                if isinstance(place.type, Array):
                    at = self.index(self.value(index))
                    found = self.model.element(place, at, node)
                    if found is not None:
                        return found._replace(quals=place.quals | place.type.quals)
                    return self.model.target(self.model.add(self.model.load(place, node), at, "+", node), node)
                return self.indexed(self.model.load(place, node), self.value(index), node)
        left, right = self.value(base), self.value(index)
        if not is_pointer(left.type):
            left, right = right, left
        return self.indexed(left, right, node)

    def indexed(self, pointer: Value, index: Value, node: Any) -> Place:
        if not is_pointer(pointer.type):
            pointer, index = index, pointer
        if not is_pointer(pointer.type) or not isinstance(index.type, Int):
            raise self.refuse(node, "`[]` without a pointer", "an array or a pointer, and a number")
        index = self.index(index)
        if not self.model.in_bytes and not isinstance(pointer.type.to, (Array, Void)) and is_complete(pointer.type.to) and not counts_bytes(pointer.type):
            return Place(pointer.type.to, Index(pointer.type.to, pointer.code, index.code), pointer.pure and index.pure, quals=pointer.type.quals)
        return self.model.target(self.model.add(pointer, index, "+", node), node)

    def index(self, value: Value) -> Value:
        """A number by which a pointer is moved."""
        if is_float(value.type):
            raise self.refuse(None, f"a `{spelled(value.type)}` as an index", "a whole number")
        if is_long(value.type):
            return self.converted(value, INT)
        if value.type == UCHAR:
            return self.promoted(value)
        return value

    def member_place(self, node: Any) -> Place:
        if node.type == "->":
            pointer = self.value(node.name)
            if not is_pointer(pointer.type) or not isinstance(pointer.type.to, Struct):
                raise self.refuse(node, f"`->` of a `{spelled(pointer.type)}`", "a pointer to a struct")
            outer = self.model.target(pointer, node)
        else:
            outer = self.place(node.name)
        struct = outer.type
        way = struct.find(node.field.name) if isinstance(struct, Struct) and struct.complete else None
        if way is None:
            raise self.refuse_type(node, f"no member `{node.field.name}` in a {spelled(struct)}", struct)
        for member in way:
            quals = outer.quals | member.quals
            outer = self.model.member(outer, member, outer.type, node)._replace(quals=quals)
        return outer
