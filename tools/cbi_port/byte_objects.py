"""Objects in memory as bytes (C99 6.2.6): one array holds all objects whose address or layout matters, as i386 would lay them out.

A pointer is the number of a byte. Variables whose address nobody takes stay variables of the text.
"""
from dataclasses import replace
from typing import Any, Dict, List, Optional, Tuple

from cbi_port.blocks import Declarator, Declare, Empty, Evaluate, Leaving, Statement
from cbi_port.constants import bytes_of
from cbi_port.conversions import number
from cbi_port.nodes import EQUAL, Assign, Binary, Call, Cast, Comma, Group, Name, Node, Number, Part, bare, decimal, held, product, sequence, spot
from cbi_port.objects import Objects
from cbi_port.scopes import Symbol
from cbi_port.trees import kind
from cbi_port.types import (CHAR, INT, SCHAR, SHORT, UINT, VALIST, VOID, Array, CType, Function, Int, List_, Member, Pointer, Struct, Void, align_of,
                            is_complete, is_long, is_open, is_whole, size_of, spelled, spread)
from cbi_port.values import Leaf, Place, Value, retyped, word

BASE = 4096
STACK = 1 << 20
FRAME = Part(UINT, Name(UINT, "cbi_frame"), "value")     # where the objects of a function begin

def moved(code: Node, by: int) -> Node:
    """An address that is moved by a constant."""
    if by == 0:
        return code
    plain, known = bare(code), decimal(code)
    if known is not None:
        return word(known + by & 0xffffffff)
    if isinstance(plain, Binary) and plain.sign == "+" and plain.sign_at < 0 and spot(plain.right) < 0:
        last = decimal(plain.right)
        if last is not None and last + by >= 0:
            return replace(plain, right=word(last + by))
    return Binary(UINT, "+" if by > 0 else "-", code, word(abs(by)))


class ByteObjects(Objects):
    """The model of memory in which objects are laid out in bytes."""

    in_bytes = True
    bounded = False            # whether each access is held to the objects' bounds
    words = 1000000            # of memory
    frames = 16                # to how many bytes the objects of a function are aligned

    def __init__(self, program: Any) -> None:
        super().__init__(program)
        self.image = bytearray()
        self.strings: Dict[bytes, int] = {}
        self.addressed = addressed_everywhere(program.units)

    def hold_size(self, struct: Struct, node: Any) -> None:
        pass

    # Types.

    def base(self, type_: CType) -> Tuple[str, int]:
        if isinstance(type_, (Pointer, List_, Struct, Array, Function)):
            return "unsigned", 0
        return super().base(type_)

    def declare(self, type_: CType, name: str, forward: bool = False, bits: Optional[int] = None) -> Declarator:
        return Declarator(type_, self.base(type_)[0], 0, name)

    def whole(self, type_: CType) -> Tuple[str, int]:
        return ("struct cbi_long", 1) if is_long(type_) else ("unsigned", 0)

    # Where things lie.

    def static_room(self, size: int, align: int) -> int:
        while len(self.image) % max(align, 1):
            self.image.append(0)
        at = BASE + len(self.image)
        self.image.extend(bytes(max(size, 1)))
        return at

    def frame_room(self, size: int, align: int = 4) -> Node:
        body = self.program.function
        if body is self.program.first:
            return word(self.static_room(size, align))
        if align > 16:
            # A frame is aligned to 16 bytes.
            at, body.frame = body.frame, body.frame + size + align
            return Group(UINT, Binary(UINT, "&", moved(FRAME, at + align - 1), word((1 << 32) - align)))
        at = -(-body.frame // align) * align
        body.frame = at + max(size, 1)
        return moved(FRAME, at)

    def room_of(self, symbol: Symbol) -> int:
        """The bytes of what lives as long as the program, with the elements that GNU C lets an array at a struct's end begin with."""
        size, type_ = size_of(symbol.type), symbol.type
        if symbol.init is None or not isinstance(type_, Struct) or not type_.flexible:
            return size
        last = type_.members[-1]
        _, found = self.program.leaves(type_, symbol.init)
        ends = [path[1] + 1 for path in found if path[0] is last and len(path) > 1]
        strings = [len(bytes_of(leaf.node.value)) + 1 for path, leaf in found.items() if path == (last,)]
        return max(size, last.at + max(ends + strings, default=0) * size_of(last.type.of))

    def alignment(self, symbol: Symbol) -> int:
        """To what a variable is aligned, by its type or by an attribute."""
        return max(symbol.align, align_of(symbol.type), 4)

    def in_memory(self, symbol: Symbol) -> bool:
        if isinstance(symbol.type, (Array, Struct)):
            return True
        return symbol.name in (self.addressed if symbol.outer else self.program.function.addressed)

    def variable(self, symbol: Symbol) -> Place:
        if symbol.memory:
            return Place(symbol.type, symbol.memory, memory=True)
        if symbol.kept is not None:
            return Place(symbol.type, symbol.kept)
        if symbol.outer and self.in_memory(symbol):
            symbol.memory = word(self.static_room(self.room_of(symbol), max(self.alignment(symbol), 4)))
            return Place(symbol.type, symbol.memory, memory=True)
        return Place(symbol.type, Name(symbol.type, symbol.text))

    def target(self, pointer: Value, node: Any = None) -> Place:
        return Place(pointer.type.to, pointer.code, pointer.pure, memory=True, quals=pointer.type.quals)

    def member(self, outer: Place, member: Member, struct: Struct, node: Any = None) -> Place:
        return Place(member.type, moved(outer.code, member.at), outer.pure, memory=True, member=member if member.bits is not None else None)

    def within(self, place: Place, what: str) -> Place:
        return place

    def element(self, place: Place, index: Value, node: Any = None) -> Optional[Place]:
        return None

    def pin(self, place: Place) -> Tuple[Optional[Node], Place]:
        if place.pure or not place.memory:
            return None, place
        name = self.program.scalar_room(UINT, "unsigned")
        return Assign(UINT, name, place.code), place._replace(code=name, pure=True)

    # Loading and storing.

    def load(self, place: Place, node: Any = None) -> Value:
        type_ = place.type
        if not place.memory:
            if isinstance(type_, Function):
                return Value(Pointer(type_), retyped(Pointer(type_), place.code))
            return super().load(place, node)
        address, pure = place.code, place.pure
        if isinstance(type_, (Array, Function)):
            to = Pointer(type_.of, place.quals | type_.quals) if isinstance(type_, Array) else Pointer(type_)
            return Value(to, retyped(to, place.code), decimal(place.code), pure)
        if isinstance(type_, Struct):
            return Value(type_, retyped(type_, place.code), None, pure)
        if isinstance(type_, Void):
            raise self.program.refuse(node, "a `void` as a value", "a value")
        if place.member is not None:
            return self.load_bits(place, pure)
        if is_long(type_):
            return Value(type_, Call(type_, "cbi_load_long", (self.program.long_room(type_), address)), pure=pure)
        size = size_of(type_)
        if size == 1:
            call = Call(type_, "cbi_load_byte", (address,))
            return Value(type_, Cast(type_, "char", call), pure=pure, raw=call) if type_ in (CHAR, SCHAR) else Value(type_, call, pure=pure)
        if size == 2:
            return Value(type_, Call(type_, f"cbi_load_{'short' if type_ == SHORT else 'half'}", (address,)), pure=pure)
        call = Call(type_, "cbi_load_word", (address,))
        if isinstance(type_, Int) and type_.signed:
            return Value(type_, Cast(type_, "int", call), pure=pure, raw=call)
        return Value(type_, call, pure=pure)

    def load_bits(self, place: Place, pure: bool) -> Value:
        member = place.member
        assert member is not None
        type_ = member.type
        if is_long(type_):
            call = Call(type_, "cbi_load_long_bits", (self.program.long_room(type_), place.code, *self.bits_of(member), Number(INT, int(type_.signed))))
            return Value(type_, call, pure=pure, wide=member.width if member.width < 64 else None)
        call = Call(INT, f"cbi_load_{'signed' if type_.signed else 'bits'}", (place.code, *self.bits_of(member)))
        if member.width == 32 and not type_.signed:
            return Value(UINT, Cast(UINT, "unsigned", call), pure=pure)
        return Value(INT, call, pure=pure, bits=min(member.width, 31))

    def bits_of(self, member: Member) -> Tuple[Node, Node]:
        """Where a bit-field begins in its unit, and its width."""
        return Number(INT, member.shift), Number(INT, member.width)

    def store(self, place: Place, value: Value, used: bool) -> Value:
        if not place.memory:
            return super().store(place, value, used)
        type_ = place.type
        given, address = value.code, place.code
        if place.member is not None:
            member = place.member
            call = Call(INT, "cbi_store_bits", (address, *self.bits_of(member), given))
            if member.width == 32 and not type_.signed:
                return Value(UINT, Cast(UINT, "unsigned", call), pure=False)
            return Value(INT, call, pure=False, bits=min(member.width, 31))
        size = size_of(type_)
        if size == 1:
            call = Call(type_, "cbi_store_byte", (address, given))
            return Value(type_, Cast(type_, "char", call), pure=False, raw=call) if used and type_ in (CHAR, SCHAR) else Value(type_, call, pure=False)
        if size == 2:
            return Value(type_, Call(type_, f"cbi_store_{'short' if type_ == SHORT else 'half'}", (address, given)), pure=False)
        call = Call(type_, "cbi_store_word", (address, given))
        return Value(type_, Cast(type_, "int", call) if isinstance(type_, Int) and type_.signed and used else call, pure=False)

    def address(self, place: Place, node: Any = None) -> Value:
        if isinstance(place.type, Function):
            return Value(Pointer(place.type), retyped(Pointer(place.type), place.code))
        if place.member is not None:
            raise self.program.refuse(node, "`&` of a bit-field", "a member without a width")
        if not place.memory:
            raise self.program.refuse(node, "`&` of what has no place", "`&` of a variable")
        return Value(Pointer(place.type), retyped(Pointer(place.type), place.code), decimal(place.code), place.pure)

    def copy(self, place: Place, value: Value, used: bool, node: Any = None) -> Value:
        if is_long(place.type):
            if not place.memory:
                return super().copy(place, value, used, node)
            if place.member is not None:
                call = Call(place.type, "cbi_store_long_bits", (place.code, *self.bits_of(place.member), self.program.long_code(value)))
                return Value(place.type, call, pure=False)
            return Value(place.type, Call(place.type, "cbi_store_long", (place.code, self.program.long_code(value))), pure=False)
        return Value(place.type, self.copy_to(place.code, value, place.type), pure=False)

    def copy_to(self, target: Node, value: Value, struct: CType) -> Node:
        return Call(struct, "cbi_copy", (target, value.code, word(size_of(struct))))

    # Pointers.

    def null(self, type_: CType) -> Value:
        return Value(type_, retyped(type_, word(0)), 0, null=True)

    def not_null(self, value: Value) -> Value:
        return Value(INT, Binary(INT, "!=", held(value.code, EQUAL + 1), Number(INT, 0)), None if value.constant is None else int(value.constant != 0), value.pure)

    def function(self, symbol: Symbol, node: Any = None) -> Value:
        at = self.program.function_number(symbol)
        return Value(Pointer(symbol.type), retyped(Pointer(symbol.type), word(at)), at, origin=symbol)

    def string(self, token: str, length: int) -> Value:
        data = bytes_of(token) + b"\0"
        if data not in self.strings:
            self.strings[data] = self.static_room(len(data), 1)
            at = self.strings[data] - BASE
            self.image[at:at + len(data)] = data
        return Value(Pointer(CHAR), retyped(Pointer(CHAR), word(self.strings[data])), self.strings[data])

    def number_of(self, value: Value, node: Any) -> Value:
        if value.constant is not None:
            return number(value.constant, UINT)
        return value.as_type(UINT)._replace(raw=None, origin=None)

    def pointer_of(self, value: Value, type_: CType, node: Any) -> Value:
        inner = self.program.converted(value, UINT)
        found: Value = inner.as_type(type_)._replace(null=False)
        return found

    def to_pointer(self, value: Value, type_: Any, implicit: bool, node: Any) -> Value:
        return value.as_type(type_)

    def step_size(self, to: CType, node: Any) -> Tuple[int, List[Node]]:
        """The bytes from one element to the next: a number, and factors that the program finds out."""
        if isinstance(to, (Void, Function)):
            return 1, []
        if is_open(to):
            inner, count, lengths = spread(to)
            return count * size_of(inner), lengths
        if not is_complete(to):
            raise self.program.refuse(node, f"a moved pointer to {spelled(to)}", "a pointer to a complete type")
        return size_of(to), []

    def add(self, pointer: Value, index: Value, sign: str, node: Any = None) -> Value:
        size, more = self.step_size(pointer.type.to, node)
        pure = pointer.pure and index.pure
        if index.constant is not None and not more:
            by = index.constant * size * (1 if sign == "+" else -1)
            constant = None if pointer.constant is None else (pointer.constant + by) & 0xffffffff
            return Value(pointer.type, retyped(pointer.type, moved(pointer.code, by)), constant, pure)
        bytes_ = index.code if size == 1 and not more else product(UINT, [index.code, word(size), *more])
        return Value(pointer.type, Binary(pointer.type, sign, pointer.code, bytes_), None, pure)

    def difference(self, left: Value, right: Value, node: Any = None) -> Value:
        size, more = self.step_size(left.type.to, node)
        if left.constant is not None and right.constant is not None and not more:
            return number(INT.wrap(left.constant - right.constant) // max(size, 1))
        code: Node = Cast(INT, "int", Binary(UINT, "-", left.code, right.code))
        pure = left.pure and right.pure
        if size == 0:
            return number(0)
        if more:
            return Value(INT, Binary(INT, "/", code, Cast(INT, "int", product(UINT, [word(size), *more]))), None, pure)
        return Value(INT, code if size == 1 else Binary(INT, "/", code, Number(INT, size)), None, pure)

    def compared(self, sign: str, left: Value, right: Value, node: Any = None) -> Value:
        constant = None
        if left.constant is not None and right.constant is not None:
            a, b = left.constant, right.constant
            constant = int({"<": a < b, ">": a > b, "<=": a <= b, ">=": a >= b, "==": a == b, "!=": a != b}[sign])
            return number(constant)
        return Value(INT, Binary(INT, sign, left.code, right.code), None, left.pure and right.pure)

    # Calls.

    def spare(self, type_: CType) -> Node:
        return self.beside_room(size_of(type_))

    def beside_room(self, size: int) -> Node:
        """Room for what a statement keeps beside, which no name of the text has."""
        return self.frame_room(size)

    def more_arguments(self, values: List[Value], node: Any) -> Node:
        if not values:
            return word(0)
        total = sum(-(-size_of(value.type) // 4) * 4 for value in values)
        base = self.beside_room(total)
        parts: List[Node] = []
        at = 0
        for value in values:
            place = Place(value.type, moved(base, at), memory=True)
            if is_whole(value.type):
                parts.append(self.copy(place, value, False).code)
            else:
                parts.append(Call(value.type, "cbi_store_word", (place.code, value.code)))
            at += -(-size_of(value.type) // 4) * 4
        return sequence(VALIST, *parts, base)

    def next_argument(self, place: Place, type_: CType, node: Any) -> Value:
        size = -(-size_of(type_) // 4) * 4
        if not place.memory:
            after = Binary(UINT, "+", place.code, word(size))
            code = sequence(UINT, Assign(VALIST, place.code, after), Binary(UINT, "-", place.code, word(size)))
        else:
            code = Call(UINT, "cbi_next", (place.code, word(size)))
        wide = type_ if is_whole(type_) or size_of(type_) == 4 else INT
        return self.load(Place(wide, code, False, memory=True), node)

    def take_parameter(self, symbol: Symbol) -> Tuple[str, List[Statement]]:
        name = f"cbi_in_{symbol.text}"
        if isinstance(symbol.type, Struct) or symbol.name in self.program.function.addressed:
            symbol.memory = self.frame_room(size_of(symbol.type), self.alignment(symbol))
            place = self.variable(symbol)
            given = Value(symbol.type, Name(symbol.type, name))
            stored = self.copy(place, given, False) if is_whole(symbol.type) else self.store(place, given, False)
            return name, [Evaluate(stored.code)]
        return super().take_parameter(symbol)

    def entry(self, body: Any) -> List[Statement]:
        if not body.frame:
            return []
        enter = Call(UINT, "cbi_enter", (word(-(-body.frame // self.frames) * self.frames),))
        return [Declare(Declarator(UINT, "struct cbi_unsigned", 0, "cbi_frame")), Evaluate(Assign(UINT, FRAME, enter))]

    def leave(self, row: Statement, value: Optional[Tuple[Node, CType]], at: int = -1) -> Statement:
        body = self.program.function
        plain = super().leave(row, value)
        ends, body.ends = body.ends, [*body.ends, Evaluate(Call(VOID, "cbi_leave", (FRAME,)))]
        framed = super().leave(row, value)
        body.ends = ends
        return Leaving(plain, framed, at)

    # Declarations.

    def declare_bare(self, symbol: Symbol) -> None:
        if self.in_memory(symbol):
            symbol.memory = self.frame_room(size_of(symbol.type), self.alignment(symbol))
            self.program.add(Empty())
            return
        self.program.add(Declare(self.declare(symbol.type, symbol.text)))

    def declare_local(self, symbol: Symbol, node: Any, found: Any) -> None:
        program, type_ = self.program, symbol.type
        if not self.in_memory(symbol):
            super().declare_local(symbol, node, found)
            return
        if not symbol.memory:
            symbol.memory = self.frame_room(size_of(type_), self.alignment(symbol))
        place = self.variable(symbol)
        if node.init is None:
            program.add(Empty(program.place_of(node)))
            return
        if isinstance(type_, (Array, Struct)) and (kind(node.init) == "InitList" or isinstance(type_, Array)):
            if found is None:
                type_, found = program.leaves(type_, node.init)
            self.begin_parts(place, type_, found, node)
            return
        value = program.value(node.init if kind(node.init) != "InitList" else node.init.exprs[0])
        if isinstance(type_, Struct):
            program.do(self.copy(place, program.converted(value, type_, True, node), False, node).code, node)
        else:
            program.do(program.assigned(place, value, False, node).code, node)

    def open_array(self, node: Any, type_: Array) -> None:
        program = self.program
        function = program.function
        holder = program.lasting_scalar(Pointer(type_.of), "unsigned")
        function.first_rows.append(Evaluate(Assign(holder.type, holder, word(0))))
        symbol = Symbol(node.name, "variable", Pointer(type_.of))
        symbol.kept = holder
        program.scope.names[node.name] = symbol
        symbol.lengths, symbol.open = program.size_value(type_), type_
        free = Call(VOID, "cbi_free", (holder,))
        program.do(free, node)
        program.do(Assign(holder.type, holder, Call(holder.type, "cbi_malloc", (symbol.lengths.code,))), node)
        function.ends.append(Evaluate(free))

    def literal(self, type_: CType, found: Any, node: Any) -> Place:
        program = self.program
        base = self.frame_room(size_of(type_))
        place = Place(type_, base, memory=True)
        if program.function is program.first and self.static_parts(place, type_, found, node):
            return place
        rows = [] if program.is_full(type_, found) else [self.clear(place)]
        for path, leaf in found.items():
            rows.append(program.assignment(program.part(place, path, node), leaf, node))
        return Place(type_, sequence(type_, *rows, base), False, memory=True)

    def store_string(self, place: Place, text: str, data: bytes, length: int, type_: Any) -> Node:
        count = type_.count if isinstance(type_.count, int) else len(data)
        copy = Call(type_, "cbi_copy", (place.code, self.string(text, len(data)).code, word(length)))
        return Comma(type_, (copy, Call(type_, "cbi_zero", (moved(place.code, length), word(count - length))))) if count > length else copy

    def clear(self, place: Place) -> Node:
        return Call(VOID, "cbi_zero", (place.code, word(size_of(place.type))))

    def declare_static(self, symbol: Symbol, init: Any, node: Any) -> Optional[Declare]:
        program, type_ = self.program, symbol.type
        if not self.in_memory(symbol):
            return super().declare_static(symbol, init, node)
        place = self.variable(symbol)
        if init is None:
            return None
        if isinstance(type_, (Array, Struct)) and (kind(init) == "InitList" or isinstance(type_, Array)):
            type_, found = program.leaves(type_, init)
        else:
            found = {(): Leaf(type_, init if kind(init) != "InitList" else init.exprs[0])}
        if not self.static_parts(place, type_, found, node):
            program.first.out.extend(program.assignments(place, found, node))
        return None

    def static_parts(self, place: Place, type_: CType, found: Any, node: Any) -> bool:
        """Writes constants into memory as it begins; whether all were constants."""
        program = self.program
        rows = []
        for path, leaf in found.items():
            program.function.fresh_statement()
            part = program.part(place, path, node)
            at = decimal(part.code)
            if at is None:
                return False
            if isinstance(leaf.type, Array):
                data = (bytes_of(leaf.node.value) + b"\0")[:leaf.type.count if isinstance(leaf.type.count, int) else None]
                rows.append((at, data, None))
                continue
            if isinstance(leaf.type, Struct):
                return False
            value = program.value(leaf.node)
            value = program.converted(value, leaf.type, True, leaf.node)
            if part.member is not None and value.constant is not None:
                value = program.cut(value, part.member.width, leaf.type) if part.member.width < 32 else value
            if value.constant is None:
                return False
            size = size_of(leaf.type)
            rows.append((at, (value.constant & ((1 << (8 * size)) - 1)).to_bytes(size, "little"), part.member))
        for at, data, member in rows:
            self.write(at - BASE, data, member)
        return True

    def write(self, at: int, data: bytes, member: Optional[Member]) -> None:
        if member is None:
            self.image[at:at + len(data)] = data
            return
        mask = ((1 << member.width) - 1) << member.shift
        size = (member.shift + member.width + 7) // 8
        old = int.from_bytes(self.image[at:at + size], "little")
        new = int.from_bytes(data, "little") << member.shift & mask
        self.image[at:at + size] = (old & ~mask | new).to_bytes(size, "little")


def addressed_everywhere(units: Any) -> Any:
    from cbi_port.trees import names_under_address
    found = set()
    for unit in units:
        if unit.tree is not None:
            found |= names_under_address(unit.tree)
            for body in unit.bodies.values():
                found |= names_under_address(body)
    return found
