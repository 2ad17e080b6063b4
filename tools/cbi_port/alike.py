"""Types by the cells that hold them: how many these are, and which types look at the same cells in the same way."""
import re
from typing import FrozenSet, Tuple

from cbi_port.types import Array, CType, Function, Int, List_, Pointer, Struct, is_long, same, size_of, spread, to_function


def cells(type_: CType) -> int:
    """How many cells a type has."""
    if isinstance(type_, Array):
        return type_.count * cells(type_.of) if isinstance(type_.count, int) else 0
    if isinstance(type_, Struct):
        if type_.union:
            return 1 + sum(cells(member.type) for member in type_.members)
        return sum(cells(member.type) for member in type_.members) or 1
    return 2 if is_long(type_) else 1


def innermost(type_: CType) -> Tuple[CType, int]:
    """What an array holds at last, and how many of it."""
    inner, count, _ = spread(type_)
    return inner, count


def is_address(type_: CType) -> bool:
    """Whether a value is a pointer in the text."""
    return isinstance(type_, Pointer) and not to_function(type_) or isinstance(type_, List_)


def like_char(type_: CType) -> bool:
    return isinstance(type_, Int) and type_.size == 1 and type_.rank == 1


def all_words(struct: Struct) -> bool:
    return all(size_of(innermost(member.type)[0]) == 4 and member.bits is None and not isinstance(innermost(member.type)[0], Struct)
               or isinstance(member.type, Struct) and all_words(member.type) for member in struct.members) and not struct.union


def has_union(type_: CType) -> bool:
    type_, _ = innermost(type_)
    return isinstance(type_, Struct) and (type_.union or any(has_union(member.type) for member in type_.members))


def begins_with(struct: CType, type_: CType) -> bool:
    """Whether the first member, or the first one of that, is of the type, at the same cells."""
    while isinstance(struct, Struct) and not struct.union and struct.members:
        first = struct.members[0].type
        if same(first, type_):
            return True
        if isinstance(type_, Struct) and isinstance(struct, Struct) and is_prefix(type_, struct):
            return True
        inner, _ = innermost(first)
        if isinstance(first, Array) and same(inner, type_):
            return True
        if isinstance(type_, Int) and same(first, type_):
            return True
        struct = first
    return False


def one_type(left: CType, right: CType, given: FrozenSet[Tuple[int, int]] = frozenset()) -> bool:
    """Whether types of two files are one: structs of the same tag whose members have the same names and types (6.2.7)."""
    if isinstance(left, Struct) and isinstance(right, Struct):
        pair = (id(left), id(right))
        if left is right or pair in given or not left.complete and not right.complete and tag_of(left) == tag_of(right):
            return True
        if (tag_of(left), left.union, left.size, len(left.members)) != (tag_of(right), right.union, right.size, len(right.members)):
            return False
        return all((one.name, one.at, one.bits, one.shift) == (other.name, other.at, other.bits, other.shift) and one_type(one.type, other.type, given | {pair})
                   for one, other in zip(left.members, right.members))
    if isinstance(left, Pointer) and isinstance(right, Pointer):
        return one_type(left.to, right.to, given)
    if isinstance(left, Array) and isinstance(right, Array):
        return left.count == right.count and one_type(left.of, right.of, given)
    if isinstance(left, Function) and isinstance(right, Function):
        return (len(left.parameters), left.more, left.known) == (len(right.parameters), right.more, right.known) and one_type(
            left.result, right.result, given) and all(one_type(one, other, given) for one, other in zip(left.parameters, right.parameters))
    return same(left, right)


def tag_of(struct: Struct) -> str:
    """The tag that the text gives a struct; of the second one of a name the port has a number behind it."""
    return re.sub(r"_\d+$", "", struct.tag)


def is_prefix(short: Struct, long: Struct) -> bool:
    """Whether one struct's members are the first ones of the other."""
    if short.union or long.union or not short.complete or not long.complete or len(short.members) > len(long.members):
        return False
    return all(same(left.type, right.type) and left.bits is None and right.bits is None and left.at == right.at
               for left, right in zip(short.members, long.members))
