"""Operators of two operands (C99 6.5.5 to 6.5.14)."""
from typing import Any, Optional

from cbi_port.conversions import number
from cbi_port.expressions import LONG_NAMES, Expressions
from cbi_port.nodes import COND, Binary, Call, Unary, held
from cbi_port.types import INT, UINT, Int, Void, common, is_float, is_long, is_pointer, spelled
from cbi_port.values import Value


def divided(left: int, right: int) -> int:
    """Division that truncates towards zero."""
    return abs(left) // abs(right) * (1 if (left < 0) == (right < 0) else -1)


def computed(sign: str, left: int, right: int, type_: Int) -> Optional[int]:
    """What an operator gives of two constants of a type; None where C leaves it undefined."""
    if sign in ("/", "%"):
        if right == 0:
            return None
        quotient = divided(left, right)
        return type_.wrap(quotient if sign == "/" else left - quotient * right)
    if sign in ("<<", ">>"):
        if not 0 <= right < 8 * type_.size:
            return None
        return type_.wrap(left << right if sign == "<<" else left >> right)
    found = {"+": left + right, "-": left - right, "*": left * right, "&": left & right, "|": left | right, "^": left ^ right}[sign]
    if type_.signed and type_.wrap(found) != found:
        return type_.wrap(found)
    return type_.wrap(found)


class Operators(Expressions):
    """Binary operators."""

    def of_BinaryOp(self, node: Any, used: bool) -> Value:
        sign = node.op
        if sign in ("&&", "||"):
            return self.joined(node, sign)
        left, right = self.value(node.left), self.value(node.right)
        at = self.sign_before(node.right, sign)
        return self.operated(sign, left, right, node, at)

    def joined(self, node: Any, sign: str) -> Value:
        left = self.truth(self.value(node.left))
        live = left.constant is None or bool(left.constant) == (sign == "&&")
        right = self.truth(self.if_live(node.right, True, live))
        code = Binary(INT, sign, left.code, right.code, self.sign_before(node.right, sign))
        constant = None
        if left.constant is not None and bool(left.constant) == (sign == "||"):
            constant = int(bool(left.constant))
        elif left.constant is not None and right.constant is not None:
            constant = int(bool(right.constant))
        if constant is not None and left.pure:
            return number(constant)
        return Value(INT, code, None, left.pure and right.pure)

    def operated(self, sign: str, left: Value, right: Value, node: Any, at: int = -1) -> Value:
        """An operator's value; both operands are evaluated."""
        if isinstance(left.type, Void) or isinstance(right.type, Void):
            raise self.refuse(node, f"`{sign}` of a `void`", "a function that returns a value, or the call as a statement of its own")
        if is_pointer(left.type) or is_pointer(right.type):
            return self.with_pointer(sign, left, right, node)
        if not isinstance(left.type, Int) or not isinstance(right.type, Int):
            raise self.refuse(node, f"`{sign}` of a `{spelled(left.type)}` and a `{spelled(right.type)}`", "two numbers, or for `+` and `-` a pointer and a whole number")
        left, right = self.promoted(left), self.promoted(right)
        if is_float(left.type) or is_float(right.type):
            return self.float_operated(sign, left, right, node)
        if sign in ("<<", ">>"):
            return self.shifted(sign, left, right, at)
        type_ = common(left.type, right.type)
        if sign in ("<", ">", "<=", ">=", "==", "!="):
            return self.ordered(sign, left, right, type_, at)
        if left.constant is not None and right.constant is not None:
            found = computed(sign, type_.wrap(left.constant), type_.wrap(right.constant), type_)
            if found is not None:
                return number(found, type_)
        if is_long(type_):
            return self.of_width(self.long_operated(sign, left, right, type_), sign, left, right)
        if self.wraps(type_) and sign in "+-*":
            return self.wrapped_around(self.operated(sign, self.converted(left, UINT), self.converted(right, UINT), node, at))
        return Value(type_, Binary(type_, sign, left.code, right.code, at), None, left.pure and right.pure)

    def of_width(self, found: Value, sign: str, left: Value, right: Value) -> Value:
        """gcc computes with bit-fields of more than 32 bits in their own width."""
        widths = [it.wide or 64 for it in (left, right) if is_long(it.type)]
        if max(widths) == 64:
            return found
        return self.cut_long(found, max(widths))

    def long_operated(self, sign: str, left: Value, right: Value, type_: Int) -> Value:
        left, right = self.converted(left, type_), self.converted(right, type_)
        name = LONG_NAMES[sign]
        if sign in "+-*/%" and not type_.signed or sign in "+-*" and self.wraps(type_):
            name = {"add": "plus", "sub": "less", "mul": "times", "div": "over", "rem": "rest"}[name]
        code = Call(type_, f"cbi_long_{name}", (self.long_room(type_), self.long_code(left), self.long_code(right)))
        return Value(type_, code, None, left.pure and right.pure)

    def shifted(self, sign: str, left: Value, right: Value, at: int) -> Value:
        type_ = left.type
        if is_long(right.type):
            right = self.converted(right, INT)
        if left.constant is not None and right.constant is not None:
            found = computed(sign, left.constant, right.constant, type_)
            if found is not None:
                return number(found, type_)
        if is_long(type_):
            name = {"<<": "shl", ">>": "sar" if type_.signed else "shr"}[sign]
            code = Call(type_, f"cbi_long_{name}", (self.long_room(type_), self.long_code(left), held(self.converted(right, INT, True).code, COND)))
            shifted = Value(type_, code, None, left.pure and right.pure)
            return shifted if left.wide is None else self.cut_long(shifted, left.wide)
        if self.wraps(type_) and sign == "<<":
            return self.wrapped_around(self.shifted(sign, self.converted(left, UINT), right, at))
        return Value(type_, Binary(type_, sign, left.code, right.code, at), None, left.pure and right.pure)

    def ordered(self, sign: str, left: Value, right: Value, type_: Int, at: int) -> Value:
        pure = left.pure and right.pure
        if left.constant is not None and right.constant is not None:
            a, b = type_.wrap(left.constant), type_.wrap(right.constant)
            return number(int({"<": a < b, ">": a > b, "<=": a <= b, ">=": a >= b, "==": a == b, "!=": a != b}[sign]))
        if is_long(type_):
            one, other = [self.long_code(self.converted(it, type_)) for it in (left, right)]
            name = "same" if sign in ("==", "!=") else ("before" if type_.signed else "below") + "_turned" * (sign not in ("<", ">="))
            call = Call(INT, f"cbi_long_{name}", (one, other))
            return Value(INT, call if sign in ("==", "<", ">") else Unary(INT, "!", call), None, pure)
        return Value(INT, Binary(INT, sign, left.code, right.code, at), None, pure)

    def with_pointer(self, sign: str, left: Value, right: Value, node: Any) -> Value:
        if sign in ("+", "-") and is_pointer(left.type) and isinstance(right.type, Int):
            return self.model.add(left, self.index(right), sign, node)
        if sign == "+" and is_pointer(right.type) and isinstance(left.type, Int):
            return self.model.add(right, self.index(left), sign, node)
        if sign == "-" and is_pointer(left.type) and is_pointer(right.type):
            return self.model.difference(left, right, node)
        if sign in ("<", ">", "<=", ">=", "==", "!="):
            if isinstance(left.type, Int):
                left = self.beside(left, right, node)
            if isinstance(right.type, Int):
                right = self.beside(right, left, node)
            return self.model.compared(sign, left, right, node)
        raise self.refuse(node, f"`{sign}` of a pointer", "a whole number in place of the pointer: an index, or a difference of two pointers")

    def beside(self, value: Value, pointer: Value, node: Any) -> Value:
        """A number that is compared with a pointer."""
        return self.converted(value, pointer.type, False, node)
