"""Expressions (C99 6.5): each gives a value, or a place."""
from typing import Any, Optional, Tuple

from cbi_port.conversions import number
from cbi_port.kinds import counts_bytes
from cbi_port.nodes import Assign, Behind, Binary, Call, Cast, Choice, Comma, Group, Name, Node, Number, Part, Unary, Wide, bare, sequence
from cbi_port.places import Places
from cbi_port.scopes import BUILTIN, Symbol, plain_name
from cbi_port.trees import kind, leading
from cbi_port.types import (BOOL, INT, UCHAR, UINT, VOID, Array, CType, Function, Int, Pointer, Struct, Void, common, is_complete, is_float, is_long,
                            is_open, is_pointer, promoted, same, size_of, spelled)
from cbi_port.unions import CHANGED
from cbi_port.values import Leaf, Place, Value, retyped

LONG_NAMES = {"+": "add", "-": "sub", "*": "mul", "/": "div", "%": "rem", "&": "and", "|": "or", "^": "xor", "<<": "shl", ">>": "shr"}


class Expressions(Places):
    """The values of expressions."""

    def value(self, node: Any, used: bool = True) -> Value:
        outer = self.last_place
        at = self.place_of(node)
        if at >= 0:
            self.last_place = at
        try:
            return self.noted(node, getattr(self, "of_" + kind(node), self.of_other)(node, used))
        finally:
            self.last_place = outer

    def of_other(self, node: Any, used: bool) -> Value:
        raise self.refuse(node, f"an expression of the form {kind(node)}", "the same in operators and calls of C99")

    def type_of(self, node: Any) -> CType:
        """The type of an expression that isn't evaluated, without decay."""
        quiet, self.function.quiet = self.function.quiet, True
        try:
            if kind(node) in ("ID", "ArrayRef", "StructRef", "CompoundLiteral") or kind(node) == "UnaryOp" and node.op == "*":
                place = self.place(node, True)
                if place is not None:
                    type_: CType = place.type
                    return type_
            if kind(node) == "Constant" and node.type == "string":
                return self.string_type(node)
            found: CType = self.value(node).type
            return found
        finally:
            self.function.quiet = quiet

    def sign_before(self, node: Any, sign: str) -> int:
        """Where the operator is that stands before a node; -1 where none is found."""
        at = self.place_of(node)
        return next((index for index in range(at - 1, max(at - 40, 0), -1) if self.tokens[index].text == sign), -1)

    # 6.5.1

    def of_ID(self, node: Any, used: bool) -> Value:
        name = node.name
        if name == "__cbi_same":
            return self.function.same[-1]
        symbol = self.scope.find(name)
        if symbol is not None and symbol.kind == "constant":
            return number(symbol.constant, symbol.type)
        symbol = self.function_named(name, symbol, node)
        if symbol is not None and symbol.kind == "function":
            if self.function.dead and not symbol.defined:
                return self.model.null(Pointer(symbol.type))
            if self.of_system(symbol):
                raise self.missing(node, name)
            self.use(symbol)
            return self.model.function(symbol, node)
        place = self.place(node, True)
        assert place is not None
        return self.model.load(place, node)

    def function_named(self, name: str, symbol: Optional[Symbol], node: Any) -> Optional[Symbol]:
        """What a name means where it may be that of a function of the library, which a text declares at most."""
        if name.startswith(BUILTIN):
            return self.outer_function(plain_name(name)) or self.library_function(plain_name(name), node)
        if symbol is None or symbol.kind == "function" and not symbol.defined and symbol.unit != "prelude":
            return self.library_function(name, node) or symbol
        return symbol

    def use(self, symbol: Symbol) -> None:
        """Asks for a function; of one that gives memory the calls say which copies there are."""
        if not self.function.quiet and symbol not in self.makers_of_text.known:
            symbol.used = True

    def of_CompoundLiteral(self, node: Any, used: bool) -> Value:
        place = self.place(node)
        return self.model.load(place, node)

    # 6.5.3

    def of_ArrayRef(self, node: Any, used: bool) -> Value:
        return self.model.load(self.place(node), node)

    def of_StructRef(self, node: Any, used: bool) -> Value:
        return self.model.load(self.place(node), node)

    def of_UnaryOp(self, node: Any, used: bool) -> Value:
        sign = node.op
        if sign in ("++", "--", "p++", "p--"):
            return self.stepped(node, sign, used)
        if sign == "sizeof":
            return self.size(node)
        if sign == "&":
            return self.address_of(node)
        if sign == "*":
            place = self.place(node)
            if isinstance(place.type, Function):
                return Value(Pointer(place.type), retyped(Pointer(place.type), place.code), pure=place.pure)
            if isinstance(place.type, Void):
                return Value(VOID, retyped(VOID, place.code))
            return self.model.load(place, node)
        value = self.value(node.expr)
        if sign == "!":
            truth = self.truth(value)
            constant = None if truth.constant is None else int(not truth.constant)
            return Value(INT, Unary(INT, "!", truth.code), constant, value.pure)
        if not isinstance(value.type, Int):
            raise self.refuse(node, f"`{sign}` of a `{spelled(value.type)}`", "a number as the operand: a member, an element, or a cast to a type of numbers")
        value = self.promoted(value)
        if sign == "+":
            return value
        return self.negated(value, sign, node)

    def negated(self, value: Value, sign: str, node: Any) -> Value:
        type_ = value.type
        if is_float(type_):
            if sign != "-":
                raise self.refuse(node, f"`{sign}` of a `{spelled(type_)}`", "a whole number")
            return self.float_negated(value)
        if value.constant is not None:
            return number(type_.wrap(-value.constant if sign == "-" else ~value.constant), type_)
        if is_long(type_):
            name = ("cbi_long_neg" if type_.signed and not self.wraps(type_) else "cbi_long_minus") if sign == "-" else "cbi_long_not"
            found = Value(type_, Call(type_, name, (self.long_room(type_), value.code)), pure=value.pure)
            return found if value.wide is None else self.cut_long(found, value.wide)
        if sign == "-" and self.wraps(type_):
            return self.wrapped_around(self.negated(self.converted(value, UINT), sign, node))
        return Value(type_, Unary(type_, sign, value.code), pure=value.pure)

    def wraps(self, type_: CType) -> bool:
        """Whether what overflows in a type of signed numbers wraps, as gcc's -fwrapv has it."""
        return self.wrap and not self.in_prelude and isinstance(type_, Int) and type_.signed and type_.rank >= 3

    def wrapped_around(self, value: Value) -> Value:
        """A number that was computed without a sign, as an int."""
        return Value(INT, Cast(INT, "int", value.code), value.constant, value.pure)

    def address_of(self, node: Any) -> Value:
        inner = node.expr
        if kind(inner) == "ID":
            symbol = self.function_named(inner.name, self.scope.find(inner.name), inner)
            if symbol is not None and symbol.kind == "function":
                return self.value(inner)
            if symbol is not None and symbol.open is not None:
                return self.value(inner).as_type(Pointer(symbol.open))
        if kind(inner) == "UnaryOp" and inner.op == "*":
            value = self.value(inner.expr)
            if is_pointer(value.type):
                return value
        place = self.place(inner)
        found: Value = self.model.address(place, node)
        return found._replace(type=found.type._replace(quals=place.quals)) if place.quals and is_pointer(found.type) else found

    def size(self, node: Any) -> Value:
        inner = node.expr
        if kind(inner) == "ID":
            symbol = self.scope.find(inner.name)
            if symbol is not None and symbol.lengths is not None:
                length: Value = symbol.lengths
                return length
        type_ = self.type_under_sizeof(inner)
        if is_open(type_):
            if leading(inner):
                raise self.refuse(node, "`sizeof` of an array of unknown length that statements within an expression give", "the size itself")
            return self.size_value(type_)
        if isinstance(type_, Struct) and not type_.complete or isinstance(type_, Array) and not is_complete(type_):
            raise self.refuse_type(node, f"`sizeof` of a {spelled(type_)}", type_)
        if kind(inner) in ("StructRef",) :
            way = self.place_quiet(inner)
            if way is not None and way.member is not None:
                raise self.refuse(node, "`sizeof` of a bit-field", "the size of its type")
        value = number(size_of(type_), UINT)
        return value._replace(origin=("sizeof", type_))

    def place_quiet(self, node: Any) -> Optional[Place]:
        quiet, self.function.quiet = self.function.quiet, True
        try:
            return self.place(node)
        finally:
            self.function.quiet = quiet

    def stepped(self, node: Any, sign: str, used: bool) -> Value:
        """`++` and `--` (6.5.2.4, 6.5.3.1)."""
        place = self.place(node.expr)
        return self.step(place, sign[-1], sign[0] == "p", used, node)

    def step(self, place: Place, sign: str, behind: bool, used: bool, node: Any) -> Value:
        type_ = place.type
        natural = not place.memory and place.member is None and not place.stored and not self.wraps(type_) and (
            isinstance(type_, Int) and not is_float(type_) and (type_.rank >= 3 and type_.size == 4 or type_.size == 1 and type_.rank == 1)
            or is_pointer(type_) and not isinstance(type_.to, (Void, Function, Array)) and not self.model.in_bytes and not counts_bytes(type_))
        if isinstance(type_, (Void, Struct, Array)):
            raise self.refuse(node, f"`{sign}{sign}` of a `{spelled(type_)}`", "a number or a pointer")
        if natural:
            place = self.model.within(place, CHANGED)
            if is_pointer(type_) and not is_complete(type_.to):
                raise self.refuse(node, f"a moved `{spelled(type_)}`", "a pointer to a complete type", True)
            code: Node = Behind(type_, sign + sign, place.code) if behind else Unary(type_, sign + sign, place.code)
            if type_ == UCHAR and used:
                return Value(type_, self.byte_of(code), pure=False, raw=Group(type_, code))
            return Value(type_, code, pure=False)
        before, place = self.model.pin(place)
        one = number(1)
        old = self.model.load(place, node)
        if behind and used:
            return self.old_value(before, place, old, sign, node)
        new = self.operated("+" if sign == "+" else "-", old, one, node)
        return self.after(before, self.assigned(place, new, used, node))

    def old_value(self, before: Optional[Node], place: Place, old: Value, sign: str, node: Any) -> Value:
        """The old value of a place that is stepped."""
        spare, kept = self.keep(old)
        new = self.operated(sign, kept, number(1), node)
        stored = self.assigned(place, new, False, node)
        return Value(kept.type, sequence(kept.type, before, spare, stored.code, kept.code), pure=False, bits=old.bits)

    def byte_of(self, code: Node) -> Node:
        """A char of the text, which has a sign, as one without."""
        return Binary(UCHAR, "&", code, Number(INT, 255))

    def keep(self, value: Value) -> Tuple[Node, Value]:
        """Stores a value beside; what does it, and the value from there."""
        type_ = value.type
        if is_long(type_):
            name = self.long_room(type_)
            return Call(type_, "cbi_long_copy", (name, self.long_code(value))), Value(type_, name)
        if is_pointer(type_) and not self.model.in_bytes and not isinstance(type_.to, Function):
            kept: Node = Name(type_, self.temporary(self.model.base(type_)))
            return Assign(type_, kept, value.code), value._replace(code=kept, pure=True, raw=None)
        word = "unsigned" if isinstance(type_, Int) and not type_.signed and type_.rank >= 3 and value.bits is None or (
            is_pointer(type_) and self.model.in_bytes) else "int"
        kept = self.scalar_room(type_, word)
        return Assign(type_, kept, value.code), value._replace(code=kept, pure=True, raw=None)

    def scalar_room(self, type_: CType, word: str) -> Node:
        """Room for a number within a statement."""
        return Part(type_, Name(type_, self.temporary(word)), "value")

    def after(self, before: Optional[Node], value: Value) -> Value:
        if before is None:
            return value
        return value._replace(code=sequence(value.type, before, value.code), pure=False, raw=None)

    # 6.5.4

    def of_Cast(self, node: Any, used: bool) -> Value:
        type_ = self.resolve(node.to_type.type)
        inner = node.expr
        if isinstance(type_, Void):
            value = self.value(inner, False)
            if isinstance(value.type, Void):
                return value
            return Value(VOID, Cast(VOID, "void", value.code), pure=value.pure)
        value = self.value(inner)
        if isinstance(type_, Struct) and type_.union and value.type is not type_:
            return self.model.load(self.cast_to_union(type_, value, inner, node), node)
        if isinstance(type_, (Array, Function)):
            raise self.refuse(node, f"a cast to `{spelled(type_)}`", "a cast to a pointer")
        result = self.converted(value, type_, False, node)
        return result._replace(origin=None) if result.origin != "fresh" else result

    def cast_to_union(self, type_: Struct, value: Value, inner: Any, node: Any) -> Place:
        """A union of GNU C that is made of a value of one of its members."""
        for member in type_.members:
            if same(member.type, value.type):
                return self.model.literal(type_, {(member,): Leaf(member.type, inner)}, node)
        raise self.refuse(node, f"a cast of a `{spelled(value.type)}` to a union without such a member", "a union whose member is assigned")

    # 6.5.16

    def of_Assignment(self, node: Any, used: bool) -> Value:
        place = self.place(node.lvalue)
        if node.op == "=":
            if isinstance(place.type, Struct):
                value = self.value(node.rvalue)
                if value.type is not place.type:
                    raise self.refuse(node, f"a {spelled(value.type)} assigned to a {spelled(place.type)}", "a value of that type")
                return self.model.copy(place, value, used, node)
            return self.assigned(place, self.value(node.rvalue), used, node)
        return self.compound(place, node.op[:-1], self.value(node.rvalue), used, node)

    def assigned(self, place: Place, value: Value, used: bool, node: Any) -> Value:
        """Stores a value to a place."""
        type_ = place.type
        if isinstance(type_, (Array, Function, Void)):
            raise self.refuse(node, f"an assignment to a `{spelled(type_)}`", "an assignment to a variable, an element or a member")
        value = self.converted(value, type_, True, node)
        if is_long(type_):
            if place.member is not None:
                value = self.cut_long(value, place.member.width)
            return self.model.copy(place, value._replace(code=self.long_code(value)) if value.constant is None else value, used, node)._replace(wide=value.wide)
        if place.member is not None and isinstance(type_, Int) and place.member.width < 32:
            value = self.cut(value, place.member.width, type_)
        return self.model.store(place, value, used)

    def cut_long(self, value: Value, bits: int) -> Value:
        """A number of 64 bits as a bit-field keeps it."""
        if bits == 64:
            return value
        type_ = value.type
        if value.constant is not None:
            whole = value.constant & ((1 << bits) - 1)
            return number(whole - (1 << bits) if type_.signed and whole >> (bits - 1) else whole, type_)._replace(wide=bits)
        code = Call(type_, "cbi_long_cut", (self.long_room(type_), self.long_code(value), Number(INT, bits), Number(INT, int(type_.signed))))
        return Value(type_, code, None, value.pure, wide=bits)

    def cut(self, value: Value, bits: int, type_: Int) -> Value:
        """A value as a bit-field keeps it."""
        if type_ == BOOL:
            return value
        if value.constant is not None:
            whole = value.constant & ((1 << bits) - 1)
            return number(whole - (1 << bits) if type_.signed and whole >> (bits - 1) else whole)
        return self.masked(value, bits, type_.signed, INT)

    def compound(self, place: Place, sign: str, value: Value, used: bool, node: Any) -> Value:
        type_ = place.type
        if is_pointer(type_):
            natural = not place.memory and not self.model.in_bytes and not place.stored and not isinstance(type_.to, (Void, Array, Function)) and not counts_bytes(type_)
            if natural and is_complete(type_.to):
                place = self.model.within(place, CHANGED)
                return Value(type_, Assign(type_, place.code, self.index(value).code, sign + "="), pure=False)
        elif not isinstance(type_, Int):
            raise self.refuse(node, f"`{sign}=` of a `{spelled(type_)}`", "a number on the left: a member, an element or a variable of a type of numbers")
        elif isinstance(value.type, Int) and not is_float(value.type) and not is_float(type_) and not place.memory and place.member is None and not is_long(value.type) and not (
                sign in ("+", "-", "*", "<<") and self.wraps(promoted(type_) if sign == "<<" else common(promoted(type_), promoted(value.type, value.bits)))) and (
                type_.rank >= 3 and type_.size == 4 or type_.size == 1 and type_.rank == 1 and (type_ != UCHAR or sign in "+-*&|^")):
            place = self.model.within(place, CHANGED)
            code = Assign(type_, place.code, self.promoted(value).code, sign + "=")
            if type_ == UCHAR and used:
                return Value(type_, self.byte_of(code), pure=False, raw=Group(type_, code))
            return Value(type_, code, pure=False)
        before, place = self.model.pin(place)
        if not value.pure and value.constant is None:
            spare, value = self.keep(value)
            before = spare if before is None else Comma(value.type, (before, spare))
        new = self.operated(sign, self.model.load(place, node), value, node)
        return self.after(before, self.assigned(place, new, used, node))

    # 6.5.15, 6.5.17

    def of_ExprList(self, node: Any, used: bool) -> Value:
        parts = [self.value(item, False) for item in node.exprs[:-1]]
        last = self.value(node.exprs[-1], used)
        code = self.long_code(last) if is_long(last.type) else last.code
        row = [part.code for part in parts if not isinstance(bare(part.code), Wide)]
        return Value(last.type, Comma(last.type, (*row, code)), None, all(part.pure for part in parts) and last.pure, last.bits)

    def of_TernaryOp(self, node: Any, used: bool) -> Value:
        same_as = kind(node.iftrue) == "ID" and node.iftrue.name == "__cbi_same"
        condition = self.value(node.cond)
        before: Optional[Node] = None
        if same_as:
            before, condition = self.keep(condition)
            self.function.same.append(condition)
        left = self.if_live(node.iftrue, used, condition.constant != 0)
        right = self.if_live(node.iffalse, used, condition.constant is None or condition.constant == 0)
        if same_as:
            self.function.same.pop()
        return self.after(before, self.chosen(condition, left, right, node))

    def if_live(self, node: Any, used: bool, live: bool) -> Value:
        """A value that is evaluated at most where `live`: what isn't may name functions that are nowhere."""
        self.function.dead += not live
        try:
            return self.value(node, used)
        finally:
            self.function.dead -= not live

    def chosen(self, condition: Value, left: Value, right: Value, node: Any) -> Value:
        truth = self.truth(condition)
        type_ = self.arm_type(left, right, node)
        if not isinstance(type_, Void):
            left, right = (self.converted(self.promoted(it) if isinstance(it.type, Int) else it, type_, False, node) for it in (left, right))
        constant = None
        if truth.constant is not None:
            constant = left.constant if truth.constant else right.constant
        if isinstance(type_, Void):
            left, right = (it if isinstance(it.type, Void) else Value(VOID, Cast(VOID, "void", it.code)) for it in (left, right))
        if is_long(type_):
            left, right = (it._replace(code=self.long_code(it)) for it in (left, right))
        code = Choice(type_, truth.code, left.code, right.code, self.sign_before(node.iftrue, "?"), self.sign_before(node.iffalse, ":"))
        if truth.constant is not None and constant is not None and condition.pure:
            return number(constant, type_) if isinstance(type_, Int) and not is_long(type_) else Value(type_, code, constant)
        null = left.null and right.null
        return Value(type_, code, constant if truth.constant is not None else None, truth.pure and left.pure and right.pure, null=null)

    def arm_type(self, left: Value, right: Value, node: Any) -> CType:
        if isinstance(left.type, Int) and isinstance(right.type, Int):
            return common(promoted(left.type, left.bits), promoted(right.type, right.bits))
        if isinstance(left.type, Void) or isinstance(right.type, Void):
            return VOID
        if left.type is right.type or isinstance(left.type, Struct):
            whole: CType = left.type
            return whole
        if is_pointer(left.type) and is_pointer(right.type):
            if left.null and isinstance(left.type.to, Void):
                return right.type
            if right.null and isinstance(right.type.to, Void):
                return left.type
            arm: Pointer = left.type if not isinstance(right.type.to, Void) or isinstance(left.type.to, Void) else right.type
            return arm._replace(quals=left.type.quals | right.type.quals)
        return left.type if is_pointer(left.type) else right.type

    # 6.5.2.2 and the rest in calls.py.

    def of_Typename(self, node: Any, used: bool) -> Value:
        raise self.refuse(node, "a type where a value is wanted", "a variable, or a cast of a value to the type")
