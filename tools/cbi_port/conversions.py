"""Conversions (C99 6.3) of values, and numbers."""
from typing import TYPE_CHECKING, Any

from cbi_port.declarations import Context
from cbi_port.nodes import ASSIGN, EQUAL, Binary, Call, Cast, Name, Node, Number, Part, Unary, Wide, bare, held
from cbi_port.types import BOOL, INT, UINT, VOID, CType, Function, Int, Pointer, Struct, Void, is_float, is_long, promoted, same, spelled
from cbi_port.values import Value, retyped, word

if TYPE_CHECKING:
    from cbi_port.body import Kept


def number(constant: int, type_: CType = INT) -> Value:
    """A number as a value of a type."""
    if is_long(type_):
        return Value(type_, Wide(type_, constant), constant)
    unsigned = isinstance(type_, Int) and not type_.signed and type_.rank >= 3
    return Value(type_, Number(type_, constant, unsigned and constant >= 0), constant, null=constant == 0)


def fits(from_: CType, to: CType) -> bool:
    """Whether each value of one type is one of the other."""
    return isinstance(from_, Int) and isinstance(to, Int) and to.least <= from_.least and from_.most <= to.most


class Conversions(Context):
    """Brings values to types."""

    def converted(self, value: Value, type_: CType, implicit: bool = False, node: Any = None) -> Value:
        """The value in a type. Where `implicit`, it goes to a place of the type, which converts it too."""
        from_ = value.type
        if isinstance(type_, Void):
            return Value(VOID, Cast(VOID, "void", value.code), pure=value.pure)
        if isinstance(type_, Struct) or isinstance(from_, Struct):
            if type_ is not from_:
                raise self.refuse(node, f"a {spelled(from_)} where a {spelled(type_)} is wanted", "a value of that type")
            return value
        if isinstance(from_, Void):
            raise self.refuse(node, "a value of a function that gives none", "a function that gives one")
        if isinstance(type_, Int):
            if type_ == BOOL:
                return self.boolean(value)
            if not isinstance(from_, Int):
                return self.converted(self.model.number_of(value, node), type_, implicit, node)
            return self.to_number(value, type_, implicit)
        if isinstance(type_, Pointer):
            if isinstance(from_, Int):
                if value.constant == 0:
                    return self.model.null(type_)
                return self.model.pointer_of(value, type_, node)
            return self.model.to_pointer(value, type_, implicit, node)
        if same(type_, from_):
            return value
        if isinstance(type_, Function):
            return value
        raise self.refuse(node, f"a {spelled(from_)} where a {spelled(type_)} is wanted", "a value of that type")

    def to_number(self, value: Value, type_: Int, implicit: bool) -> Value:
        from_ = value.type
        if is_float(type_) or is_float(from_):
            return value if type_ == from_ else self.between(value, type_)
        if value.constant is not None:
            constant = type_.wrap(value.constant)
            if constant == value.constant and not is_long(type_) and not is_long(from_) and implicit:
                return value.as_type(type_)
            if constant == value.constant and from_.signed == type_.signed and not is_long(type_) and not is_long(from_):
                return value.as_type(type_)
            return number(constant, type_)
        if is_long(type_):
            return self.long_of(value, type_)
        if is_long(from_):
            value = self.low_half(value)
            from_ = UINT
        if value.bits is not None:
            from_ = INT
        if type_.rank >= 3:
            if type_.signed == promoted(from_).signed or implicit:
                return value.as_type(type_)._replace(bits=None)
            return Value(type_, Cast(type_, "int" if type_.signed else "unsigned", value.code), pure=value.pure, raw=value.raw)
        return self.narrowed(value, from_, type_, implicit)

    def between(self, value: Value, type_: Int) -> Value:
        raise NotImplementedError

    def float_truth(self, value: Value, one: bool) -> Value:
        raise NotImplementedError

    def narrowed(self, value: Value, from_: Int, type_: Int, implicit: bool) -> Value:
        """To a type of fewer bits than int has."""
        if fits(from_, type_) and value.bits is None:
            return value.as_type(type_)
        if type_.size == 1:
            if implicit:
                return value.as_type(type_)._replace(bits=None)
            if type_.signed:
                return Value(type_, Cast(type_, "char", value.code), pure=value.pure)
        return self.masked(value, 8 * type_.size, type_.signed, type_)

    def masked(self, value: Value, bits: int, signed: bool, type_: CType) -> Value:
        """The lowest bits of a number, as an int."""
        code = value.code if promoted(value.type).signed else Cast(INT, "int", value.code)
        lowest = Binary(INT, "&", held(code, EQUAL), Number(INT, (1 << bits) - 1))
        if not signed:
            return Value(type_, retyped(type_, lowest), pure=value.pure)
        half = Number(INT, 1 << (bits - 1))
        return Value(type_, retyped(type_, Binary(INT, "-", Binary(INT, "^", lowest, half), half)), pure=value.pure)

    def boolean(self, value: Value) -> Value:
        if value.type == BOOL:
            return value
        if value.constant is not None and not is_float(value.type):
            return number(int(value.constant != 0), BOOL)
        return self.truth(value, True).as_type(BOOL)

    def truth(self, value: Value, one: bool = False) -> Value:
        """A scalar that is zero where the value is; 0 or 1 where `one`."""
        if isinstance(value.type, (Struct, Void)):
            raise self.refuse(None, f"a {spelled(value.type)} as a condition", "a number or a pointer")
        self.kinds.characters.compared(value.code)
        if is_float(value.type):
            return self.float_truth(value, one)
        if is_long(value.type):
            if value.constant is not None:
                return number(int(value.constant != 0))
            return Value(INT, Call(INT, "cbi_long_is", (value.code,)), pure=value.pure)
        code = value.raw if value.raw is not None else value.code
        if not one:
            return Value(INT, code, value.constant, value.pure)
        if isinstance(value.type, Pointer):
            return self.model.not_null(value)
        return Value(INT, Binary(INT, "!=", held(code, EQUAL + 1), Number(INT, 0)), None if value.constant is None else int(value.constant != 0), value.pure)

    # Numbers of 64 bits: in the text they are pointers to their halves.

    def long_code(self, value: Value) -> Node:
        """The number as it is handed on."""
        if value.constant is None:
            return held(value.code, ASSIGN)
        return self.long_of_halves(value, self.long_room(value.type))

    def long_of_halves(self, value: Value, room: Node) -> Node:
        """A constant, put where there is room."""
        assert value.constant is not None
        bits = value.constant & ((1 << 64) - 1)
        return Call(value.type, "cbi_long_of", (room, word(bits >> 32), word(bits & 0xffffffff)))

    def long_room(self, type_: CType) -> Node:
        """Room for a number of 64 bits within a statement."""
        return Unary(type_, "&", Name(type_, self.temporary("long")))

    def long_of(self, value: Value, type_: Int) -> Value:
        if is_long(value.type):
            return value.as_type(type_)._replace(wide=None)
        maker = "cbi_long_unsigned" if not promoted(value.type).signed and value.bits is None else "cbi_long_int"
        return Value(type_, Call(type_, maker, (self.long_room(type_), value.code)), pure=value.pure)

    def low_half(self, value: Value) -> Value:
        if value.constant is not None:
            return number(value.constant & 0xffffffff, UINT)
        code = bare(value.code)
        if isinstance(code, Unary) and code.sign == "&" and value.origin == "name":
            return Value(UINT, Part(UINT, code.operand, "low"), pure=value.pure)
        return Value(UINT, Part(UINT, value.code, "low", True), pure=value.pure)

    def temporary(self, what: "Kept") -> str:
        return self.function.temporary(what)

    def decayed(self, value: Value) -> Value:
        return value

    def promoted(self, value: Value) -> Value:
        type_ = promoted(value.type, value.bits)
        return value.as_type(type_)._replace(bits=None)
