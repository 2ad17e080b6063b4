"""Unions (C99 6.7.2.1p14) where a cell keeps what was stored in it: those whose members are used by their names alone, each for what was stored in it."""
from typing import Any, Dict, Iterator, List, Set, Tuple

from cbi_port.lines import Refusal
from cbi_port.nodes import Name, Node, Part, Unary, bare, walk
from cbi_port.types import Array, CType, Int, Member, Pointer, Struct, is_float, spread

# What is done with a member; an array is touched where an element of it is read or stored.
STORED, READ, CHANGED, TOUCHED = "stored", "read", "changed", "touched"
HELPERS = {STORED: "put", READ: "get", CHANGED: "use", TOUCHED: "put"}  # the function that gives the member's place
ADVICE = "a struct with a member for each kind of value"


def innermost(type_: CType) -> CType:
    return spread(type_)[0]


def has_number(type_: CType) -> bool:
    """Whether a number is in it, which another member might show in its own way."""
    type_ = innermost(type_)
    return isinstance(type_, Int) or isinstance(type_, Struct) and any(has_number(member.type) for member in type_.members)


def object_of(pointer: Node) -> Node:
    """What a pointer points to."""
    pointer = bare(pointer)
    return bare(pointer.operand) if isinstance(pointer, Unary) and pointer.sign == "&" else Unary(None, "*", pointer)


def outer_objects(whole: Node) -> Iterator[Node]:
    """An object, and those that it is a member of."""
    yield whole
    while isinstance(whole, Part):
        whole = object_of(whole.base) if whole.arrow else bare(whole.base)
        yield whole


class Unions:
    """Which unions a program keeps with a cell for each member, and what it does with the members."""

    def __init__(self, program: Any) -> None:
        self.program = program
        self.seen: Dict[Tuple[Struct, str], Set[str]] = {}       # what is done with a member
        self.places: Dict[Tuple[Struct, str], int] = {}          # where it is read first
        self.other: Dict[Struct, Tuple[int, str]] = {}           # where one is read behind another one that was stored at the same place

    def is_told(self, union: Struct) -> bool:
        """Whether it is known elsewhere which member a union has: a struct around it has a number."""
        outside = [struct for struct in self.program.structs if any(member.type is union for member in struct.members)]
        return bool(outside) and all(any(isinstance(member.type, Int) for member in struct.members) for struct in outside)

    def has_tag(self, union: Struct) -> bool:
        """Whether a struct around a union says which member it has, of which at most one is a number."""
        return sum(1 for member in union.members if isinstance(member.type, Int)) <= 1 and self.is_told(union)

    def may_be_named(self, union: Struct) -> bool:
        """Whether a union may be kept as long as its members are used by their names: no number of it shows as another one, a struct around it says which
        member it has, of which at most one is an integer and one a floating number, or the tables of a parser say it (bison's YYSTYPE)."""
        if not all(map(self.may_be_place, union.members)):
            return False
        floats = [is_float(member.type) for member in union.members if isinstance(member.type, Int)]
        told = self.is_told(union) and floats.count(False) <= 1 and floats.count(True) <= 1
        return told or union.tag.endswith("STYPE") or sum(1 for member in union.members if has_number(member.type)) <= 1

    def may_be_place(self, member: Member) -> bool:
        """Whether a member may be told apart from the others by its name: one value, or an array of pointers."""
        if isinstance(member.type, Array):
            return bool(member.type.count) and isinstance(innermost(member.type), Pointer)
        return member.bits is None and isinstance(member.type, (Int, Pointer, Struct))

    def keeps(self, union: Struct, member: Member) -> bool:
        """Whether a member is a place of its own in the text."""
        return self.has_tag(union) and not isinstance(member.type, Array) and member.bits is None or self.may_be_named(union)

    def note(self, union: Struct, name: str, pointer: Node, what: str) -> None:
        """What is done with a member: at the end it is known whether each that is read was stored, too."""
        if self.program.function.quiet or self.has_tag(union):
            return
        last, way = self.program.function.last_member, pointer
        if what in (READ, CHANGED) and last.get(way, name) != name:
            self.other.setdefault(union, (self.program.last_place, name))
        if what in (STORED, TOUCHED):
            last[way] = name
        self.seen.setdefault((union, name), set()).add(what)
        if what in (READ, CHANGED):
            self.places.setdefault((union, name), self.program.last_place)

    def forget(self, pointer: Node) -> None:
        """A union that was stored as a whole, or within one, has what the other one had."""
        known, whole = self.program.function.last_member, object_of(pointer)
        for it in [it for it in known if whole in outer_objects(object_of(it))]:
            del known[it]

    def moved(self, variable: Node) -> None:
        """A variable has another value, so that a way through it leads elsewhere."""
        known, variable = self.program.function.last_member, bare(variable)
        for it in [it for it in known if isinstance(variable, Name) and variable.name in {inner.name for inner in walk(it) if isinstance(inner, Name)}]:
            del known[it]

    def problems(self) -> List[Refusal]:
        """Unions of which a member is read that was stored as another one."""
        found = []
        for (union, name), seen in self.seen.items():
            if union not in self.other and seen & {READ, CHANGED} and not seen & {STORED, TOUCHED}:
                self.other[union] = (self.places[union, name], name)
        for union, (at, name) in self.other.items():
            found.append(Refusal(at, f"`{name}` of {union!r}, which is read where another member was stored", ADVICE, True))
        return found

