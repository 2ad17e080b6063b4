"""Floating numbers (C99 5.2.4.2.2, 6.3.1.4, 6.3.1.5) by functions of the prelude, to the bit as IEEE 754 rounds to nearest.

A double is handed on as the two halves of its bits, and a float is a number without a sign that has its bits.
"""
import math
import re
import struct
from fractions import Fraction
from typing import Any, Optional, Tuple

from cbi_port.conversions import Conversions, number
from cbi_port.nodes import Binary, Call, Node, Unary
from cbi_port.types import DOUBLE, FLOAT, INT, LDOUBLE, UINT, ULLONG, Int, common, is_float, is_long, is_whole
from cbi_port.values import Value, retyped, word

NAMES = {"+": "add", "-": "sub", "*": "mul", "/": "div", "<": "less", "<=": "most", ">": "less_turned", ">=": "most_turned", "==": "same", "!=": "same"}


def bits_of(number_: float, type_: Int) -> int:
    """The bits of a number in a type; OverflowError where it is too great for a float."""
    if type_ == FLOAT:
        return int(struct.unpack("<I", struct.pack("<f", number_))[0])
    return int(struct.unpack("<Q", struct.pack("<d", number_))[0])


def number_of(bits: int, type_: Int) -> float:
    if type_ == FLOAT:
        return float(struct.unpack("<f", struct.pack("<I", bits))[0])
    return float(struct.unpack("<d", struct.pack("<Q", bits))[0])


def nearest_float(value: Fraction) -> int:
    """The bits of the float that is nearest to a number that isn't negative; of two, the even one."""
    try:
        near = bits_of(float(value), FLOAT)
    except OverflowError:
        return 0x7f800000 if value >= Fraction(2) ** 128 - Fraction(2) ** 103 else 0x7f7fffff
    found = [bits for bits in (near - 1, near, near + 1) if 0 <= bits < 0x7f800000]
    if not found:
        return near
    return min(found, key=lambda bits: (abs(Fraction(number_of(bits, FLOAT)) - value), bits & 1))


def read_constant(text: str) -> Optional[Tuple[int, Int]]:
    """The bits of a floating constant (6.4.4.2), and its type; None where it is none of C99."""
    found = re.match(r"(?i)^(0x[0-9a-f]*\.?[0-9a-f]*(?:p[+-]?\d+)|\d*\.?\d*(?:e[+-]?\d+)?)([flFL]?)$", text)
    if not found:
        return None
    digits, suffix = found[1], found[2].lower()
    type_ = {"f": FLOAT, "l": LDOUBLE}.get(suffix, DOUBLE)
    if type_ == FLOAT:
        return nearest_float(whole_hex(digits) if digits.lower().startswith("0x") else Fraction(digits)), type_
    try:
        return bits_of(float.fromhex(digits) if digits.lower().startswith("0x") else float(digits), type_), type_
    except OverflowError:
        return bits_of(math.inf, type_), type_


def whole_hex(digits: str) -> Fraction:
    mantissa, _, power = digits[2:].lower().partition("p")
    whole, _, part = mantissa.partition(".")
    return Fraction(int(whole + part or "0", 16)) * Fraction(2) ** (int(power or "0") - 4 * len(part))


class Floats(Conversions):
    """Values of floating types."""

    def by_prelude(self, name: str, type_: Int, pure: bool, *given: Node) -> Value:
        found = self.prelude_symbol("__cbi_" + name)
        assert found is not None
        self.use(found)
        rooms = [self.long_room(type_)] if is_whole(type_) else []
        return Value(type_, Call(type_, found.text, (*rooms, *given), found), pure=pure)

    def float_constant(self, node: Any, text: str) -> Value:
        found = read_constant(text)
        if found is None:
            raise self.refuse(node, f"`{text}`", "a number of C99")
        return number(*found)

    def as_double(self, value: Value) -> Value:
        if value.type != FLOAT:
            return value.as_type(DOUBLE)
        if value.constant is not None:
            return number(bits_of(number_of(value.constant, FLOAT), DOUBLE), DOUBLE)
        return self.by_prelude("double_of_single", DOUBLE, value.pure, value.code)

    def between(self, value: Value, type_: Int) -> Value:
        """To or from a floating type."""
        if is_float(type_):
            return self.to_float(value, type_)
        value = self.as_double(value)
        if value.constant is not None:
            found = number_of(value.constant, DOUBLE)
            if math.isfinite(found) and type_.least <= math.trunc(found) <= type_.most:
                return number(math.trunc(found), type_)
        given = self.long_code(value)
        if is_long(type_):
            return self.by_prelude("long_of_double" if type_.signed else "wide_of_double", type_, value.pure, given)
        if type_.size == 4:
            return self.by_prelude("int_of_double" if type_.signed else "unsigned_of_double", type_, value.pure, given)
        return self.to_number(self.by_prelude("int_of_double", INT, value.pure, given), type_, False)

    def to_float(self, value: Value, type_: Int) -> Value:
        if is_float(value.type):
            if value.type == type_:
                return value
            wide = self.as_double(value)
            if type_ != FLOAT:
                return wide.as_type(type_)
            if wide.constant is not None and not math.isnan(number_of(wide.constant, DOUBLE)):
                found = number_of(wide.constant, DOUBLE)
                if abs(found) < 2.0 ** 127:
                    return number(bits_of(found, FLOAT), FLOAT)
            return self.by_prelude("single_of_double", FLOAT, wide.pure, self.long_code(wide))
        value = self.promoted(value)
        if value.constant is not None and abs(value.constant) <= 1 << 24:
            return number(bits_of(float(value.constant), type_), type_)
        if value.constant is not None and type_ != FLOAT:
            return number(bits_of(float(value.constant), type_), type_)
        head = "single_of" if type_ == FLOAT else "double_of"
        if is_long(value.type):
            return self.by_prelude(f"{head}_{'long' if value.type.signed else 'wide'}", type_, value.pure, self.long_code(value))
        return self.by_prelude(f"{head}_{'int' if value.type.signed or value.bits is not None else 'unsigned'}", type_, value.pure, value.code)

    def float_truth(self, value: Value, one: bool) -> Value:
        if value.constant is not None:
            return number(int(value.constant & ((1 << (8 * value.type.size - 1)) - 1) != 0))
        if value.type == FLOAT:
            bits = Binary(UINT, "&", value.code, word(0x7fffffff))
            return self.truth(Value(UINT, bits, pure=value.pure), one) if one else Value(INT, retyped(INT, bits), pure=value.pure)
        return self.by_prelude("double_is", INT, value.pure, self.long_code(value))

    def float_negated(self, value: Value) -> Value:
        if value.constant is not None:
            return number(value.constant ^ 1 << (8 * value.type.size - 1), value.type)
        if value.type == FLOAT:
            return Value(FLOAT, Binary(FLOAT, "^", value.code, word(1 << 31)), pure=value.pure)
        return self.by_prelude("double_neg", value.type, value.pure, self.long_code(value))

    def float_operated(self, sign: str, left: Value, right: Value, node: Any) -> Value:
        if sign not in NAMES:
            raise self.refuse(node, f"`{sign}` of a `{(left if is_float(left.type) else right).type.name}`", "a whole number")
        type_ = common(left.type, right.type)
        left, right = (self.as_double(self.to_float(it, type_)) for it in (left, right))
        known = self.computed_float(sign, left, right, type_)
        if known is not None:
            return known
        pure = left.pure and right.pure
        given = [self.long_code(left), self.long_code(right)]
        if sign not in "+-*/":
            found = self.by_prelude("double_" + NAMES[sign], INT, pure, *given)
            return Value(INT, Unary(INT, "!", found.code), pure=pure) if sign == "!=" else found
        result = self.by_prelude("double_" + NAMES[sign], DOUBLE, pure, *given)
        return self.to_float(result, type_)

    def computed_float(self, sign: str, left: Value, right: Value, type_: Int) -> Optional[Value]:
        """What an operator gives of two constants, where that is a number."""
        if left.constant is None or right.constant is None:
            return None
        a, b = number_of(left.constant, DOUBLE), number_of(right.constant, DOUBLE)
        if not math.isfinite(a) or not math.isfinite(b) or sign == "/" and b == 0:
            # As gcc computes where a variable begins: a NaN has no sign there, and one that is computed as the program runs has.
            invalid = a != a or b != b or sign == "/" and a == b == 0
            return number(0x7fc00000 if type_ == FLOAT else 0x7ff8000000000000, type_) if self.begins and sign in "+-*/" and invalid else None
        if sign not in "+-*/":
            return number(int({"<": a < b, ">": a > b, "<=": a <= b, ">=": a >= b, "==": a == b, "!=": a != b}[sign]))
        found = {"+": a + b, "-": a - b, "*": a * b}[sign] if sign != "/" else a / b
        if not math.isfinite(found) or type_ == FLOAT and abs(found) >= 2.0 ** 127:
            return None
        return number(bits_of(found, type_), type_)

    # What the prelude wants: a double's bits, and back.

    def lib___cbi_bits(self, node: Any, arguments: Any, used: bool) -> Value:
        value = self.converted(self.value(arguments[0]), DOUBLE)
        return value.as_type(ULLONG)

    def lib___cbi_of_single(self, node: Any, arguments: Any, used: bool) -> Value:
        value = self.converted(self.value(arguments[0]), UINT)
        return value.as_type(FLOAT)

    def lib_inf(self, node: Any, arguments: Any, used: bool) -> Value:
        return number(0x7ff0000000000000, DOUBLE)

    lib_huge_val = lib_infl = lib_huge_vall = lib_inf

    def lib_inff(self, node: Any, arguments: Any, used: bool) -> Value:
        return number(0x7f800000, FLOAT)

    lib_huge_valf = lib_inff

    def lib___cbi_of_bits(self, node: Any, arguments: Any, used: bool) -> Value:
        value = self.converted(self.value(arguments[0]), ULLONG)
        return value.as_type(DOUBLE)
