"""Functions that GNU C has beside the library, and that C99 can say."""
from typing import Any, Dict, Optional, Sequence, Tuple

from cbi_port.conversions import number
from cbi_port.nodes import Assign, Call, Comma, Number, sequence
from cbi_port.scopes import Symbol
from cbi_port.switches import Switches
from cbi_port.trees import kind
from cbi_port.types import INT, LLONG, LONG, UINT, ULLONG, ULONG, VOID, Int, Pointer, Struct, Void, is_float, spelled
from cbi_port.values import Value, retyped

KINDS = {"add": 0, "sub": 1, "mul": 2}
# What each function of overflows computes, the type of its operands where its name says it, and whether it only asks.
OVERFLOWS: Dict[str, Tuple[int, Optional[Int], bool]] = {}
for _word, _number in KINDS.items():
    OVERFLOWS[f"{_word}_overflow"] = (_number, None, False)
    OVERFLOWS[f"{_word}_overflow_p"] = (_number, None, True)
    for _begin, _end, _type in (("s", "", INT), ("s", "l", LONG), ("s", "ll", LLONG), ("u", "", UINT), ("u", "l", ULONG), ("u", "ll", ULLONG)):
        OVERFLOWS[f"{_begin}{_word}{_end}_overflow"] = (_number, _type, False)


# What gcc never calls a function of the text for: what no library has, and what it writes in its place.
NEVER_CALLED = {"alloca", "object_size", "prefetch", "trap", "unreachable", *OVERFLOWS,
                *(f"bswap{bits}" for bits in (16, 32, 64)),
                *(word + end for word in ("clrsb", "clz", "ctz", "ffs", "parity", "popcount") for end in ("", "l", "ll")),
                *(word + end for word in ("copysign", "fabs", "huge_val", "inf", "nan") for end in ("", "f", "l")),
                "abs", "labs", "llabs", "imaxabs", "isfinite", "isgreater", "isgreaterequal", "isinf", "isless", "islessequal", "islessgreater",
                "isnan", "isnormal", "isunordered", "signbit"}


class GnuCalls(Switches):
    """Calls of functions that begin with `__builtin_`."""

    def outer_function(self, name: str) -> Optional[Symbol]:
        """The function of the text that is meant by `__builtin_NAME`, as a linker finds it."""
        symbol = self.externals.get(name) if name not in NEVER_CALLED else None
        return symbol if symbol is not None and symbol.kind == "function" and symbol.defined else None

    def builtin_call(self, node: Any, name: str, arguments: Sequence[Any], used: bool) -> Value:
        """`__builtin_NAME(..)`: what the library has, whatever the text calls by that name."""
        symbol = self.outer_function(name)
        if symbol is not None:
            self.use(symbol)
            return self.called(symbol.text, symbol, symbol.type, arguments, node, used)
        found = self.library_call(name, node, arguments, used, None)
        if found is None:
            raise self.refuse(node, f"`__builtin_{name}`", "a function of your own")
        return found

    def overflowing(self, node: Any, arguments: Sequence[Any], what: int, type_: Optional[Int], asks: bool) -> Value:
        """A sum, difference or product of whole numbers of any size, and whether its type takes it."""
        if len(arguments) != 3:
            raise self.refuse(node, f"{len(arguments)} arguments where 3 are wanted", "an argument for each parameter")
        values = [self.value(it) for it in arguments]
        operands = [self.converted(it, type_) if type_ is not None else it for it in values[:2]]
        if not all(isinstance(it.type, Int) for it in operands):
            raise self.refuse(node, "an operand that is no number", "whole numbers for the first two arguments")
        operands = [self.promoted(it) for it in operands]
        signs = [int(it.type.signed) for it in operands]
        wide = [self.long_code(self.converted(it, LLONG if it.type.signed else ULLONG)) for it in operands]
        target = values[2].type if asks else values[2].type.to if isinstance(values[2].type, Pointer) else None
        if not isinstance(target, Int):
            raise self.refuse(node, f"a result of type `{spelled(values[2].type)}`", "a pointer to a number")
        room = self.long_room(ULLONG)
        bits = values[2].bits or values[2].wide or 8 * target.size if asks else 1 if target.rank == 0 else 8 * target.size
        given = [(wide[0], Number(INT, signs[0])), (wide[1], Number(INT, signs[1])), (Number(INT, what), Number(INT, bits), Number(INT, int(target.signed)))]
        call = Call(INT, "cbi_computed", (room, *(it for row in given for it in row)))
        if asks:
            return Value(INT, call, pure=False)
        before, place = self.model.pin(self.model.target(values[2], node))
        flag = self.scalar_room(INT, "int")
        store = self.assigned(place, Value(ULLONG, room), False, node)
        return Value(INT, sequence(INT, before, Assign(INT, flag, call), store.code, flag), pure=False)

    def lib___builtin_expect(self, node: Any, arguments: Sequence[Any], used: bool) -> Value:
        value = self.converted(self.value(arguments[0]), LONG)
        other = self.value(arguments[1], False)
        if other.pure:
            return value
        kept, value = self.keep(value)
        return self.after(Comma(LONG, (kept, other.code)), value)

    def lib___builtin_constant_p(self, node: Any, arguments: Sequence[Any], used: bool) -> Value:
        quiet, self.function.quiet = self.function.quiet, True
        try:
            value = self.value(arguments[0])
            text = kind(arguments[0]) == "Constant"
        finally:
            self.function.quiet = quiet
        return number(int(value.constant is not None and isinstance(value.type, Int) or text))

    def lib___builtin_choose_expr(self, node: Any, arguments: Sequence[Any], used: bool) -> Value:
        return self.value(arguments[1] if self.constant(arguments[0]) else arguments[2], used)

    def lib_classify_type(self, node: Any, arguments: Sequence[Any], used: bool) -> Value:
        """Which kind of type a value has, by gcc's numbers (typeclass.h)."""
        quiet, self.function.quiet = self.function.quiet, True
        try:
            type_ = self.value(arguments[0]).type
        finally:
            self.function.quiet = quiet
        if isinstance(type_, Struct):
            return number(13 if type_.union else 12)
        return number(0 if isinstance(type_, Void) else 5 if isinstance(type_, Pointer) else 8 if is_float(type_) else 1)

    def lib_unreachable(self, node: Any, arguments: Sequence[Any], used: bool) -> Value:
        return Value(VOID, Call(VOID, "abort", ()), pure=False)

    lib_trap = lib_unreachable

    def lib_prefetch(self, node: Any, arguments: Sequence[Any], used: bool) -> Value:
        values = [it for it in (self.value(argument, False) for argument in arguments[:1]) if not it.pure]
        return Value(VOID, retyped(VOID, values[0].code) if values else Number(VOID, 0), pure=not values)

    def lib_object_size(self, node: Any, arguments: Sequence[Any], used: bool) -> Value:
        raise self.refuse(node, "`__builtin_object_size`", "the size itself")
