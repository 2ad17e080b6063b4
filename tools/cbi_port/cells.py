"""Memory as the dialect has it (C99 6.2.6, 6.3.2): a cell for each scalar, which gives back what was stored in it."""
from typing import Any, Dict, List, Optional, Tuple

from cbi_port.alike import all_words, begins_with, cells, innermost, is_address, is_prefix, like_char, one_type
from cbi_port.blocks import Declarator, Record
from cbi_port.conversions import number
from cbi_port.kinds import WAS_VOID, counts_bytes
from cbi_port.nodes import (ADD, ASSIGN, EQUAL, POSTFIX, UNARY, Assign, Behind, Binary, Call, Cast, Group, Index, Name, Node, Null, Number, Part, String,
                            Unary, held, level, product, sequence, walk)
from cbi_port.scopes import Symbol
from cbi_port.types import (CHAR, INT, UCHAR, VALIST, Array, CType, Function, Int, List_, Member, Pointer, Struct, Void, is_complete, is_long, is_open,
                            is_whole, same, spelled, spread, to_function)
from cbi_port.unions import ADVICE, CHANGED, HELPERS, READ, STORED, TOUCHED
from cbi_port.values import Place, Value, retyped


MOST_CELLS = 1000000  # the dialect has somewhat more, of which the prelude wants some


class Cells:
    """The model of memory in which objects are the dialect's own."""

    in_bytes = False
    own_calls: Dict[str, Any]
    pointer_word = "void *"

    def __init__(self, program: Any) -> None:
        self.program = program

    def calls(self) -> Dict[str, Any]:
        """Calls of the library that go by the model."""
        from cbi_port.library import TypedCalls
        return TypedCalls(self.program).table()

    def hold_size(self, struct: Struct, node: Any) -> None:
        """Refuses a struct of more scalars than an object of the dialect has."""
        if cells(struct) > MOST_CELLS:
            raise self.program.refuse(node, f"a struct of more than {MOST_CELLS:,} scalars", "smaller arrays", True)

    # Types as the dialect spells them.

    def base(self, type_: CType) -> Tuple[str, int]:
        if isinstance(type_, Pointer):
            to = type_.to
            if isinstance(to, Function):
                return "int", 0
            to = innermost(to)[0] if isinstance(to, Array) else to
            if isinstance(to, Void) or isinstance(to, Struct) and not to.complete:
                return "void", 1
            base, stars = self.base(to)
            return base, stars + 1
        if isinstance(type_, Array):
            return self.base(type_.of)
        if isinstance(type_, Struct):
            return f"struct {type_.tag}", 0
        if isinstance(type_, List_):
            return "int", 1
        if isinstance(type_, Void):
            return "void", 0
        if isinstance(type_, Int):
            if type_.size == 8:
                return "struct cbi_long", 0
            if type_.size == 1 and type_.rank == 1:
                return "char", 0
            return ("int" if type_.rank < 3 or type_.signed else "unsigned"), 0
        raise self.program.refuse(None, f"`{spelled(type_)}`", "whole numbers")

    def spell(self, type_: CType) -> str:
        base, stars = self.base(type_)
        return base + " " * bool(stars) + "*" * stars

    def declare(self, type_: CType, name: str, forward: bool = False, bits: Optional[int] = None) -> Declarator:
        """The declarator of an object."""
        bounds: List[int] = []
        inner = type_
        while isinstance(inner, Array):
            bounds.append(max(int(inner.count or 0), 1))
            inner = inner.of
        base, stars = ("void", 1) if forward else self.base(inner)
        if bits is not None and bits < 32:
            base, stars = "int", 0
        return Declarator(type_, base, stars, name, tuple(bounds))

    def record(self, struct: Struct) -> Record:
        """A struct's definition."""
        rows = [Declarator(INT, "int", 0, "cbi_is")] if struct.union else []
        for member in struct.members:
            forward = member.name in struct.forward and isinstance(innermost(member.type)[0], Pointer) and not to_function(innermost(member.type)[0])
            rows.append(self.declare(member.type, self.member_name(member), forward, member.bits))
        return Record(struct.tag, tuple(rows) or (Declarator(INT, "int", 0, "cbi_none"),))

    def member_name(self, member: Member) -> str:
        from cbi_port.scopes import TAKEN
        return member.name + "_" if member.name in TAKEN else member.name

    # Places.

    def variable(self, symbol: Symbol) -> Place:
        if symbol.kept is not None:
            return Place(symbol.type, symbol.kept)
        if symbol.pointer:
            pointer = Name(Pointer(symbol.type), symbol.pointer)
            return Place(symbol.type, Unary(symbol.type, "*", pointer), pointer=pointer)
        return Place(symbol.type, Name(symbol.type, symbol.text))

    def target(self, pointer: Value, node: Any = None) -> Place:
        """The place to which a pointer points."""
        to = pointer.type.to
        if isinstance(to, Void) or WAS_VOID in pointer.type.quals:
            self.program.kinds.hide(to)
            raise self.program.refuse(node, "`*` of a `void *`", "a pointer to a type", True)
        if isinstance(to, Array):
            return Place(to, pointer.code, pointer.pure, flat=True, quals=pointer.type.quals)
        if pointer.null:
            pointer = pointer._replace(code=Cast(pointer.type, self.spell(pointer.type), Null(pointer.type)))
        return Place(to, Unary(to, "*", pointer.code), pointer.pure, pointer=held(pointer.code, POSTFIX), quals=pointer.type.quals)

    def member(self, outer: Place, member: Member, struct: Struct, node: Any = None) -> Place:
        name = self.member_name(member)
        if struct.union:
            return self.union_member(outer, member, struct, node)
        if outer.union is not None:
            return self.part_of_union(outer, member, node)
        if isinstance(member.type, Array) and not member.type.count:
            raise self.program.refuse(node, "an array of no length at a struct's end", "a pointer to memory of malloc", True)
        code = Part(member.type, outer.pointer if outer.pointer is not None else outer.code, name, outer.pointer is not None, member)
        inner = innermost(member.type)[0]
        stored = member.name in struct.forward and isinstance(inner, Pointer) and not to_function(inner)
        return Place(member.type, code, outer.pure, member=member if member.bits is not None else None, stored=stored)

    def part_of_union(self, outer: Place, member: Member, node: Any) -> Place:
        """A member of a struct that is a member of a union."""
        if isinstance(member.type, Array) and not member.type.count:
            raise self.program.refuse(node, "an array of no length at a struct's end", "a pointer to memory of malloc", True)
        inner = innermost(member.type)[0]
        return outer._replace(type=member.type, union=outer.union[:4] + (outer.union[4] + [(member, member.name in outer.type.forward and isinstance(
            inner, Pointer) and not to_function(inner))],), member=member if member.bits is not None else None)

    def union_member(self, outer: Place, member: Member, struct: Struct, node: Any) -> Place:
        program = self.program
        if outer.union is not None or not program.unions.keeps(struct, member):
            raise program.refuse(node, f"`{member.name}` of {struct!r}, of which parts are looked at", ADVICE, True)
        number_ = struct.members.index(member) + 1
        pointer = outer.pointer if outer.pointer is not None else Unary(Pointer(outer.type), "&", outer.code)
        return Place(member.type, outer.code, outer.pure, union=(struct, number_, pointer, self.member_name(member), []))

    def within(self, place: Place, what: str) -> Place:
        """A member of a union as a place with which is done what is said."""
        if place.union is None:
            if what in (STORED, CHANGED):
                self.program.unions.moved(place.code)
            return place
        struct, number_, pointer, name, way = place.union
        if isinstance(place.type, Array) and not way:
            what = TOUCHED
        self.program.unions.note(struct, struct.members[number_ - 1].name, pointer, what)
        helper = HELPERS[what]
        kept = place.type if not way else struct.members[number_ - 1].type
        call = Call(Pointer(kept), f"cbi_{helper}_{struct.tag}_{name}", (pointer,))
        self.program.union_helpers.add((struct, number_, helper))
        if way:
            code: Node = call
            for member, _ in way:
                code = Part(member.type, code, self.member_name(member), code is call, member)
            return Place(place.type, code, place.pure, member=place.member, stored=way[-1][1])
        inner = innermost(place.type)[0]
        stored = struct.members[number_ - 1].name in struct.forward and isinstance(inner, Pointer) and not to_function(inner)
        if what == TOUCHED:
            return Place(place.type, self.cast(Pointer(inner), call) if stored else call, place.pure, flat=True)
        return Place(place.type, Unary(place.type, "*", call), place.pure, pointer=call, stored=stored)

    def cast(self, type_: CType, code: Node) -> Node:
        """A pointer as one of another kind, by way of `void *`."""
        return Cast(type_, self.spell(type_), Cast(type_, "void *", code))

    def element(self, place: Place, index: Value, node: Any = None) -> Optional[Place]:
        """An element of an array that is a place; None where it must go by a pointer."""
        if place.flat or place.union is not None:
            return None
        return Place(place.type.of, Index(place.type.of, place.code, index.code), place.pure and index.pure, stored=place.stored)

    def pin(self, place: Place) -> Tuple[Optional[Node], Place]:
        """A place that can be named twice, and what is done first for it."""
        place = self.within(place, CHANGED)
        if place.pure:
            return None, place
        pointer = self.address(place)
        name = Name(pointer.type, self.program.function.temporary(self.base(pointer.type)))
        return Assign(pointer.type, name, pointer.code), Place(place.type, Unary(place.type, "*", name), True, member=place.member, pointer=name, stored=place.stored)

    # Loading and storing.

    def load(self, place: Place, node: Any = None) -> Value:
        place = self.within(place, READ)
        type_ = place.type
        if isinstance(type_, Array):
            return self.decayed(place)
        if isinstance(type_, Function):
            return Value(Pointer(type_), retyped(Pointer(type_), place.code))
        if is_whole(type_):
            wide = place.member.width if place.member is not None and place.member.width < 64 else None
            if place.pointer is not None:
                return Value(type_, retyped(type_, place.pointer), pure=place.pure, wide=wide)
            return Value(type_, Unary(type_, "&", place.code), pure=place.pure, origin="name" if level(place.code) == POSTFIX else None, wide=wide)
        if place.stored:
            return Value(type_, Cast(type_, self.spell(type_), place.code), pure=place.pure)
        if type_ == UCHAR and place.member is None:
            return Value(type_, Binary(type_, "&", held(place.code, EQUAL), Number(INT, 255)), pure=place.pure, raw=held(place.code, POSTFIX))
        bits = place.member.bits if place.member else None
        if bits is not None and bits < 32:
            return Value(INT, retyped(INT, place.code), pure=place.pure, bits=bits)
        return Value(type_, retyped(type_, place.code), pure=place.pure)

    def decayed(self, place: Place) -> Value:
        type_ = place.type
        pointer = Pointer(type_.of, place.quals | type_.quals)
        if place.flat:
            return Value(pointer, retyped(pointer, place.code), pure=place.pure)
        code = place.code
        inner = type_.of
        while isinstance(inner, Array):
            code = Unary(inner, "*", code)
            inner = inner.of
        return Value(pointer, self.cast(pointer, code) if place.stored else retyped(pointer, code), pure=place.pure)

    def store(self, place: Place, value: Value, used: bool) -> Value:
        """Stores a value that was converted to the place's type."""
        place = self.within(place, STORED)
        code = Assign(place.type, place.code, value.code)
        result = Value(place.type, code, pure=False)
        if not used:
            return result
        if place.stored:
            return Value(place.type, Cast(place.type, self.spell(place.type), code), pure=False)
        if place.type == UCHAR and place.member is None:
            return Value(UCHAR, Binary(UCHAR, "&", code, Number(INT, 255)), pure=False, raw=Group(UCHAR, code))
        if place.member is not None and place.member.width < 32:
            return result.as_type(INT)._replace(bits=place.member.bits)
        return result

    def address(self, place: Place, node: Any = None) -> Value:
        if place.union is not None:
            if not self.program.unions.is_told(place.union[0]):
                raise self.program.refuse(node, "`&` of a union's member", "a struct with a member for each kind of value", True)
            place = self.within(place, STORED)      # what points to it may store there
        if place.member is not None:
            raise self.program.refuse(node, "`&` of a bit-field", "a member without a width")
        type_ = place.type
        if isinstance(type_, Function):
            return Value(Pointer(type_), retyped(Pointer(type_), place.code))
        if isinstance(type_, Array):
            return self.decayed(place).as_type(Pointer(type_))
        if place.pointer is not None and not place.stored:
            return Value(Pointer(type_), retyped(Pointer(type_), place.pointer), pure=place.pure)
        code = Unary(Pointer(type_), "&", place.code)
        return Value(Pointer(type_), self.cast(Pointer(type_), code) if place.stored else code, pure=place.pure)

    def copy(self, place: Place, value: Value, used: bool, node: Any = None) -> Value:
        """Stores a struct, a union or a number of 64 bits."""
        target = self.load_place(place)
        self.program.unions.forget(target)
        if is_long(place.type):
            if value.constant is not None:
                return Value(place.type, retyped(place.type, self.program.long_of_halves(value, target)), pure=False)
            return Value(place.type, Call(place.type, "cbi_long_copy", (target, value.code)), pure=False)
        return Value(place.type, Call(place.type, self.copier(place.type), (target, value.code)), pure=False)

    def load_place(self, place: Place) -> Node:
        """A pointer to a place that is to be stored to."""
        place = self.within(place, STORED)
        return place.pointer if place.pointer is not None else Unary(Pointer(place.type), "&", place.code)

    def copier(self, struct: Struct) -> str:
        struct.copied = True
        self.program.copied.setdefault(struct, None)
        return f"cbi_copy_{struct.tag}"

    # Pointers.

    def null(self, type_: CType) -> Value:
        if to_function(type_) :
            return Value(type_, Number(type_, 0), null=True)
        return Value(type_, Null(type_), null=True)

    def not_null(self, value: Value) -> Value:
        nothing = self.null(value.type).code
        return Value(INT, Binary(INT, "!=", held(value.code, EQUAL + 1), nothing), pure=value.pure)

    def function(self, symbol: Symbol, node: Any = None) -> Value:
        return Value(Pointer(symbol.type), Number(Pointer(symbol.type), self.program.function_number(symbol)), origin=symbol)

    def string(self, token: str, length: int) -> Value:
        return Value(Pointer(CHAR), String(Pointer(CHAR), token))

    def number_of(self, value: Value, node: Any) -> Value:
        if value.null:
            return number(0)
        if to_function(value.type):
            return value.as_type(INT)
        raise self.program.refuse(node, "a pointer as a number", "the pointer itself, or a place counted from the beginning", True)

    def pointer_of(self, value: Value, type_: CType, node: Any) -> Value:
        if to_function(type_) and not is_long(value.type):
            return value.as_type(type_)
        raise self.program.refuse(node, "a number as a pointer", "the pointer itself, or NULL", True)

    def to_pointer(self, value: Value, type_: Any, implicit: bool, node: Any) -> Value:
        from_ = value.type
        if isinstance(from_, List_) or isinstance(type_, List_):
            return value.as_type(type_)
        if value.null:
            return self.null(type_)
        handed = self.program.kinds.characters.is_handed_on(value.code, type_.to)
        self.program.kinds.flows(value, type_, handed)
        if to_function(from_) != to_function(type_):
            if isinstance(type_.to, (Void, Function)) or isinstance(from_.to, (Void, Function)):
                raise self.program.refuse(node, "a pointer to a function as another pointer", "a pointer to a function", True)
        if to_function(type_):
            return value.as_type(type_)
        if value.fresh is not None:
            if isinstance(type_.to, Void) or isinstance(type_.to, Struct) and not type_.to.complete:
                if value.origin == "unknown":
                    raise self.program.refuse(node, "memory of `calloc` or `realloc` without a type", "a pointer to the type that it is to hold", True)
                return value.as_type(type_)._replace(fresh=None)
            self.program.fresh_types.add(self.spell(type_.to) if not isinstance(type_.to, Array) else "array")
            return Value(type_, retyped(type_, value.fresh(spread(type_.to)[0] if is_open(type_.to) else type_.to)), pure=False)
        if isinstance(type_.to, Void):
            if not handed:
                self.generic(from_, value, type_)
            if implicit or isinstance(from_.to, Void):
                return value.as_type(type_)
            return Value(type_, Cast(type_, "void *", value.code), pure=value.pure)
        if isinstance(from_.to, Void):
            made = value.as_type(type_) if implicit else Value(type_, Cast(type_, self.spell(type_), value.code), pure=value.pure)
            if like_char(type_.to) and not self.program.in_prelude:  # which takes characters alone
                self.program.from_generic.append(from_.to)
                self.program.kinds.characters.look(made.code, from_.to, self.program.refuse(node, "", "").at)
            return made
        if not self.alike(from_.to, type_.to):
            raise self.program.refuse(node, f"a `{spelled(from_)}` as a `{spelled(type_)}`",
                                      "the right kind from the beginning, or `void *` between the two", True)
        if self.spell(from_) == self.spell(type_):
            return value.as_type(type_)
        return Value(type_, self.cast(type_, value.code), pure=value.pure)

    def generic(self, from_: Any, value: Value, type_: Any) -> None:
        """Notes a pointer to characters that was computed and becomes a `void *`."""
        if like_char(from_.to) and level(value.code) in (ADD, UNARY, ASSIGN) and not any(isinstance(it, String) for it in walk(value.code)):
            self.program.to_generic.append((self.program.last_place, type_.to))

    def alike(self, from_: CType, to: CType) -> bool:
        """Whether memory of one type may be looked at as another, cell by cell."""
        left, right = innermost(from_)[0], innermost(to)[0]
        if same(left, right) or like_char(left) and like_char(right):
            return True
        if isinstance(left, Int) and isinstance(right, Int):
            return left.size == right.size == 4 and left.signed == right.signed
        if isinstance(left, Pointer) and isinstance(right, Pointer):
            return not to_function(left) and not to_function(right) and self.alike_ends(left, right)
        if isinstance(left, Struct) and isinstance(right, Struct):
            return not left.complete or not right.complete or one_type(left, right) or is_prefix(left, right) or is_prefix(right, left) or begins_with(
                left, right) or begins_with(right, left)
        if isinstance(left, Struct) or isinstance(right, Struct):
            struct: Any = left if isinstance(left, Struct) else right
            other = right if isinstance(left, Struct) else left
            return begins_with(struct, other) and (all_words(struct) or isinstance(other, Struct))
        return False

    def alike_ends(self, left: Pointer, right: Pointer) -> bool:
        return isinstance(left.to, Void) or isinstance(right.to, Void) or self.alike(left.to, right.to)

    def add(self, pointer: Value, index: Value, sign: str, node: Any = None) -> Value:
        to = pointer.type.to
        self.program.kinds.want(to, CHAR)
        if isinstance(to, (Void, Function)) or not is_complete(to) and not isinstance(to, Array) or counts_bytes(pointer.type):
            raise self.program.refuse(node, "a moved `void *`", "a `char *`, or a pointer to what is there", True)
        by = index.code
        if isinstance(to, Array):
            _, count, lengths = spread(to)
            by = product(INT, [by, *lengths] + [Number(INT, count)] * (count != 1))
        return Value(pointer.type, Binary(pointer.type, sign, pointer.code, by), pure=pointer.pure and index.pure)

    def difference(self, left: Value, right: Value, node: Any = None) -> Value:
        if not self.spell(left.type) == self.spell(right.type):
            right = self.to_pointer(right, left.type, False, node)
        to = left.type.to
        for it in (left.type, right.type):
            self.program.kinds.want(it.to, CHAR)
        if isinstance(to, Void) or counts_bytes(left.type) or counts_bytes(right.type):
            raise self.program.refuse(node, "a difference of two `void *`", "pointers to what is there", True)
        code = Binary(INT, "-", left.code, right.code)
        _, count, lengths = spread(to)
        if count != 1 or lengths:
            per = product(INT, [*(Cast(INT, "int", it) for it in lengths), Number(INT, count)])
            code = Binary(INT, "/", code, per)
        return Value(INT, code, pure=left.pure and right.pure)

    def compared(self, sign: str, left: Value, right: Value, node: Any = None) -> Value:
        self.program.kinds.characters.compared(left.code, right.code)
        if to_function(left.type) or to_function(right.type):
            left, right = (it._replace(code=Number(it.type, 0)) if it.null else it for it in (left, right))
            return Value(INT, Binary(INT, sign, left.code, right.code), pure=left.pure and right.pure)
        if self.spell(left.type) != self.spell(right.type) and not left.null and not right.null:
            if not (sign in ("==", "!=") and (isinstance(left.type.to, Void) or isinstance(right.type.to, Void))):
                right = Value(left.type, self.cast(left.type, right.code), pure=right.pure)
        return Value(INT, Binary(INT, sign, left.code, right.code), pure=left.pure and right.pure)

    # Calls.

    def whole(self, type_: CType) -> Tuple[str, int]:
        """How what is handed on by its place is spelled, and its stars."""
        return self.base(type_)[0], 1

    def spare(self, type_: Any) -> Node:
        return Unary(Pointer(type_), "&", Name(type_, self.program.function.temporary((f"struct {type_.tag}", 0))))

    def more_arguments(self, values: List[Value], node: Any) -> Node:
        if not values:
            return Null(VALIST)
        total = sum(cells(value.type) for value in values)
        name = Name(VALIST, self.program.function.array(total))
        parts: List[Node] = []
        at = 0
        for value in values:
            type_ = value.type
            cell = Index(INT, name, Number(INT, at))
            if is_whole(type_):
                to = Cast(type_, f"{self.base(type_)[0]} *", Cast(type_, "void *", Unary(type_, "&", cell)))
                copier = self.copier(type_) if isinstance(type_, Struct) else "cbi_long_copy"
                parts.append(Call(type_, copier, (to, value.code if isinstance(type_, Struct) else self.program.long_code(value))))
            elif is_address(type_):
                parts.append(Assign(type_, self.pointer_cell(type_, Unary(VALIST, "&", cell)), value.code))
            else:
                parts.append(Assign(type_, cell, value.code))
            at += cells(type_)
        return sequence(VALIST, *parts, name)

    def pointer_cell(self, type_: CType, at: Node) -> Node:
        """A cell of a list of arguments as one that has a pointer."""
        return Unary(type_, "*", Cast(Pointer(type_), self.spell(type_) + "*", Cast(type_, "void *", at)))

    def next_argument(self, place: Place, type_: CType, node: Any) -> Value:
        self.program.kinds.hide(type_)
        if is_whole(type_):
            count = Number(INT, cells(type_))
            before = Binary(VALIST, "-", place.code, count)
            value = Cast(type_, f"{self.base(type_)[0]} *", Cast(type_, "void *", before))
            return Value(type_, sequence(type_, Assign(VALIST, place.code, count, "+="), value), pure=False)
        next_ = Behind(VALIST, "++", place.code)
        if is_address(type_):
            return Value(type_, self.pointer_cell(type_, next_), pure=False)
        cell: Node = Unary(type_, "*", next_)
        if isinstance(type_, Int) and not type_.signed and type_.rank >= 3:
            cell = Cast(type_, "unsigned", cell)
        found: Value = self.program.promoted(Value(type_, cell, pure=False))
        return found
