"""The types of C (C99 6.2.5, 6.2.7, 6.7.2): 32 bits for int, long and pointers, laid out as on i386."""
from typing import TYPE_CHECKING, Any, FrozenSet, List, NamedTuple, Optional, Sequence, Set, Tuple, Union

if TYPE_CHECKING:
    from typing_extensions import TypeGuard


Quals = FrozenSet[str]      # const, volatile, restrict
PLAIN: Quals = frozenset()


class Void(NamedTuple):
    """`at` is the declarator of the pointer to it, where that says which `void *` it is (kinds.py)."""
    name: str = "void"
    at: Any = None

    def __eq__(self, other: object) -> bool:
        return isinstance(other, Void)

    def __ne__(self, other: object) -> bool:
        return not self == other

    def __hash__(self) -> int:
        return hash(Void)


class Int(NamedTuple):
    """`size` in bytes; `rank` as C99 6.3.1.1 orders them. `enum` says of which enumeration it is the type, which `exactly` alone asks."""
    name: str
    size: int
    signed: bool
    rank: int
    enum: Any = None

    def __eq__(self, other: object) -> bool:
        return isinstance(other, Int) and (self.name, self.size, self.signed, self.rank) == (other.name, other.size, other.signed, other.rank)

    def __ne__(self, other: object) -> bool:
        return not self == other

    def __hash__(self) -> int:
        return hash((self.name, self.size, self.signed, self.rank))

    @property
    def least(self) -> int:
        return -(1 << (8 * self.size - 1)) if self.signed else 0

    @property
    def most(self) -> int:
        return 1 if self.rank == 0 else (1 << (8 * self.size - self.signed)) - 1

    def wrap(self, value: int) -> int:
        """The value brought into the type (6.3.1.2, 6.3.1.3)."""
        if self.rank == 0:
            return int(value != 0)
        value &= (1 << (8 * self.size)) - 1
        return value - (1 << (8 * self.size)) if value > self.most else value


class Pointer(NamedTuple):
    """`quals` are those of what it points to, which `exactly` alone asks."""
    to: Any
    quals: Quals = PLAIN

    def __eq__(self, other: object) -> bool:
        return isinstance(other, Pointer) and bool(self.to == other.to)

    def __ne__(self, other: object) -> bool:
        return not self == other

    def __hash__(self) -> int:
        return hash((Pointer, self.to))


class Length(NamedTuple):
    """How many elements an array has where the program finds it out: the node that has the number."""
    code: Any


class Array(NamedTuple):
    """`count` is None where it isn't known, and a `Length` where the program finds it out. `quals` are those of an element, which `exactly` alone asks."""
    of: Any
    count: Any
    quals: Quals = PLAIN

    def __eq__(self, other: object) -> bool:
        return isinstance(other, Array) and bool((self.of, self.count) == (other.of, other.count))

    def __ne__(self, other: object) -> bool:
        return not self == other

    def __hash__(self) -> int:
        return hash((self.of, self.count))


class Function(NamedTuple):
    """`known` where the parameters' types are told."""
    result: Any
    parameters: Tuple[Any, ...]
    more: bool
    known: bool


class Member(NamedTuple):
    """`at` in bytes; `bits` is the width of a bit-field and `shift` where it begins in its unit of the type's size."""
    name: str
    type: Any
    at: int
    bits: Optional[int] = None
    shift: int = 0
    quals: Quals = PLAIN

    @property
    def width(self) -> int:
        """The bits of a bit-field."""
        return self.bits or 0


class Asked(NamedTuple):
    """A member as it is declared, with what attributes say of it."""
    name: str
    type: Any
    bits: Optional[int] = None
    packed: bool = False
    align: int = 0
    quals: Quals = PLAIN


class Struct:
    """A struct or union; its identity is what makes it one type."""

    def __init__(self, tag: str, union: bool) -> None:
        self.tag, self.union = tag, union
        self.members: List[Member] = []
        self.complete = False
        self.size = 0
        self.align = 1
        self.flexible = False
        self.refused = False
        self.pack = 0               # the most that a member is aligned to, where it is said
        self.at = -1
        self.forward: Set[str] = set()  # members that point to a struct that is completed later
        self.copied = False

    def find(self, name: str) -> Optional[Tuple[Member, ...]]:
        """The members on the way to a name, through those without a name."""
        for member in self.members:
            if member.name == name:
                return (member,)
        for member in self.members:
            if member.name.startswith("cbi_nameless") and isinstance(member.type, Struct):
                way = member.type.find(name)
                if way:
                    return (member, *way)
        return None

    def __repr__(self) -> str:
        return ("union " if self.union else "struct ") + self.tag


class List_(NamedTuple):
    """A `va_list`."""
    name: str = "va_list"


VOID = Void()
BOOL = Int("_Bool", 1, False, 0)
CHAR = Int("char", 1, True, 1)
SCHAR = Int("signed char", 1, True, 1)
UCHAR = Int("unsigned char", 1, False, 1)
SHORT = Int("short", 2, True, 2)
USHORT = Int("unsigned short", 2, False, 2)
INT = Int("int", 4, True, 3)
UINT = Int("unsigned", 4, False, 3)
LONG = Int("long", 4, True, 4)
ULONG = Int("unsigned long", 4, False, 4)
LLONG = Int("long long", 8, True, 5)
ULLONG = Int("unsigned long long", 8, False, 5)
# Floating types are kept by their bits; of the greatest ranks, as 6.3.1.8 has them above all others.
FLOAT = Int("float", 4, False, 20)
DOUBLE = Int("double", 8, False, 21)
LDOUBLE = Int("long double", 8, False, 22)
VALIST = List_()
CType = Union[Void, Int, Pointer, Array, Function, Struct, List_]


def base_type(names: Sequence[str]) -> Optional[CType]:
    """The type of some words; None where they name none."""
    words = list(names)
    if words == ["void"]:
        return VOID
    if "float" in words or "double" in words:
        return FLOAT if "float" in words else LDOUBLE if "long" in words else DOUBLE
    if "_Bool" in words:
        return BOOL
    signed = "unsigned" not in words
    if any(word not in ("char", "short", "int", "long", "signed", "unsigned") for word in words):
        return None
    if "char" in words:
        return UCHAR if not signed else SCHAR if "signed" in words else CHAR
    if "short" in words:
        return SHORT if signed else USHORT
    if words.count("long") == 2:
        return LLONG if signed else ULLONG
    if "long" in words:
        return LONG if signed else ULONG
    return INT if signed else UINT


def size_of(type_: CType) -> int:
    if isinstance(type_, Int):
        return type_.size
    if isinstance(type_, Array):
        return type_.count * size_of(type_.of) if isinstance(type_.count, int) else 0
    if isinstance(type_, Struct):
        return type_.size
    return 1 if isinstance(type_, (Void, Function)) else 4


def align_of(type_: CType) -> int:
    if isinstance(type_, Int):
        return min(type_.size, 4)
    if isinstance(type_, Array):
        return align_of(type_.of)
    return type_.align if isinstance(type_, Struct) else 4


def align_alone(type_: CType) -> int:
    """What an object of a type is aligned to that is no member of another: i386 has numbers of 64 bits at 8 bytes there."""
    if isinstance(type_, Array):
        return align_alone(type_.of)
    return 8 if isinstance(type_, Int) and type_.size == 8 and type_ != LDOUBLE else align_of(type_)


def is_open(type_: CType) -> bool:
    """An array of which some length is found out as the program runs."""
    return isinstance(type_, Array) and (isinstance(type_.count, Length) or is_open(type_.of))


def has_open(type_: CType) -> bool:
    """A type that is such an array, or points to one."""
    return is_open(type_) or isinstance(type_, (Array, Pointer)) and has_open(type_.of if isinstance(type_, Array) else type_.to)


def spread(type_: CType) -> Tuple[CType, int, List[Any]]:
    """What an array holds at last, how many of it, and the nodes of the counts that the program finds out."""
    count, lengths = 1, []
    while isinstance(type_, Array):
        if isinstance(type_.count, Length):
            lengths.append(type_.count.code)
        else:
            count *= int(type_.count or 0)
        type_ = type_.of
    return type_, count, lengths


def is_complete(type_: CType) -> bool:
    if isinstance(type_, Array):
        return isinstance(type_.count, int) and is_complete(type_.of)
    if isinstance(type_, Struct):
        return type_.complete
    return not isinstance(type_, (Void, Function))


def lay_out(struct: Struct, members: Sequence[Asked]) -> None:
    """Gives each member its place, as the System V rules for i386 do."""
    at = 0  # in bits
    for name, type_, bits, packed, said, quals in members:
        most = 1 if packed else struct.pack
        align = max(min(align_of(type_), most) if most else align_of(type_), said)
        if struct.union:
            at = 0
        if bits is not None:
            at = lay_bits(struct, at, Asked(name, type_, bits, most > 0), align, said)
            continue
        struct.align = max(struct.align, align)
        at = -(-at // (8 * align)) * 8 * align
        struct.members.append(Member(name, type_, at // 8, quals=quals))
        at += 8 * size_of(type_)
        struct.size = max(struct.size, at // 8)
        struct.flexible = isinstance(type_, Array) and not type_.count
    struct.size = -(-struct.size // struct.align) * struct.align
    struct.complete = True


def lay_bits(struct: Struct, at: int, asked: Asked, align: int, said: int) -> int:
    """Gives a bit-field its place; where the next one may begin. Where anything is said of how members are packed, one follows the other without a gap."""
    name, type_, bits, tight = asked.name, asked.type, asked.bits or 0, asked.packed
    unit = 8 * align_of(type_)
    if bits == 0:
        return int(-(-at // unit) * unit)
    if said:
        at = -(-at // (8 * said)) * 8 * said
    if not tight and -(-(at % unit + bits) // unit) > 8 * size_of(type_) // unit:
        at = -(-at // unit) * unit
    start = at // 8 * 8 if tight else at // unit * unit
    if name:
        struct.align = max(struct.align, align)
        struct.members.append(Member(name, type_, start // 8, bits, at - start))
    struct.size = max(struct.size, (at + bits + 7) // 8)
    return int(at + bits)


def promoted(type_: Any, bits: Optional[int] = None) -> Any:
    """6.3.1.1p2; a bit-field of fewer bits than int has is an int."""
    if isinstance(type_, Int):
        if bits is not None and type_.rank <= 4 and bits < 32:
            return INT
        if type_.rank < 3:
            return INT
        if type_.enum is not None:
            return type_._replace(enum=None)
    return type_


def common(left: Int, right: Int) -> Int:
    """6.3.1.8, of promoted types."""
    if left == right:
        return left
    if left.rank < right.rank:
        left, right = right, left
    if left.signed == right.signed or not left.signed:
        return left
    if right.rank < left.rank and right.size < left.size:
        return left
    if right.rank == left.rank or right.size == left.size:
        return {3: UINT, 4: ULONG, 5: ULLONG}[left.rank]
    return left


def is_number(type_: CType) -> "TypeGuard[Int]":
    return isinstance(type_, Int)


def is_long(type_: CType) -> "TypeGuard[Int]":
    """Of 64 bits."""
    return isinstance(type_, Int) and type_.size == 8


def is_float(type_: CType) -> bool:
    """A floating type."""
    return isinstance(type_, Int) and type_.rank >= FLOAT.rank


def is_whole(type_: CType) -> bool:
    """A value that is handed on by its place: a struct, a union or a number of 64 bits."""
    return isinstance(type_, Struct) or is_long(type_)


def is_pointer(type_: CType) -> "TypeGuard[Pointer]":
    return isinstance(type_, Pointer)


def to_function(type_: CType) -> "TypeGuard[Pointer]":
    return isinstance(type_, Pointer) and isinstance(type_.to, Function)


def same(left: CType, right: CType) -> bool:
    """Whether two types are compatible (6.2.7)."""
    if isinstance(left, Array) and isinstance(right, Array):
        return same(left.of, right.of) and (not isinstance(left.count, int) or not isinstance(right.count, int) or left.count == right.count)
    if isinstance(left, Pointer) and isinstance(right, Pointer):
        return same(left.to, right.to)
    if isinstance(left, Function) and isinstance(right, Function):
        if not same(left.result, right.result):
            return False
        if not left.known or not right.known:
            return True
        return len(left.parameters) == len(right.parameters) and left.more == right.more and all(
            map(same, left.parameters, right.parameters))
    if isinstance(left, Struct) or isinstance(right, Struct):
        return left is right
    return type(left) is type(right) and left == right


def exactly(left: CType, right: CType) -> bool:
    """Whether two types are compatible also in how what they point to is qualified, and in their enumerations (6.7.2.2p4, 6.7.3p9)."""
    if isinstance(left, Pointer) and isinstance(right, Pointer):
        return left.quals == right.quals and exactly(left.to, right.to)
    if isinstance(left, Array) and isinstance(right, Array):
        return same(left, right) and left.quals == right.quals and exactly(left.of, right.of)
    if isinstance(left, Function) and isinstance(right, Function):
        return same(left, right) and exactly(left.result, right.result) and (
            not left.known or not right.known or all(map(exactly, left.parameters, right.parameters)))
    if isinstance(left, Int) and isinstance(right, Int) and left.enum is not None and right.enum is not None:
        return bool(left.enum == right.enum)
    return same(left, right)


def spelled(type_: CType) -> str:
    """The type as a message names it."""
    if isinstance(type_, Pointer):
        if isinstance(type_.to, Function):
            return f"{spelled(type_.to.result)} (*)()"
        text = spelled(type_.to)
        return text + ("*" if text.endswith("*") else " *")
    if isinstance(type_, Array):
        return f"{spelled(type_.of)}[{type_.count if isinstance(type_.count, int) else ''}]"
    if isinstance(type_, Function):
        return f"{spelled(type_.result)}()"
    return repr(type_) if isinstance(type_, Struct) else type_.name
