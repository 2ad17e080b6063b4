"""What an expression of the text is while it grows: values and places, each with the node of the typed tree that has it."""
from typing import Any, Callable, NamedTuple, Optional

from cbi_port.nodes import Converted, Node, Number
from cbi_port.types import PLAIN, UINT, CType, Member, Quals


class Value(NamedTuple):
    """A value of a type. A struct, a union and a number of 64 bits are handed on by where they lie.

    `constant` is its number where that is known. `raw` is a node that is zero where the value is. `fresh` gives
    the node for memory of the library that is to hold objects of a type. `null` is a null pointer constant.
    """
    type: Any                   # a CType: what it is is asked where it is used
    code: Node
    constant: Optional[int] = None
    pure: bool = True
    bits: Optional[int] = None
    raw: Optional[Node] = None
    fresh: Optional[Callable[[Optional[CType]], Node]] = None
    null: bool = False
    origin: Any = None
    wide: Optional[int] = None  # the width of a bit-field of more than 32 bits, in which gcc computes

    def as_type(self, type_: Any) -> "Value":
        """The value in a type that is kept in the same way."""
        return self._replace(type=type_, code=retyped(type_, self.code))


class Place(NamedTuple):
    """Where an object lies: `code` is a left side, or, in `memory`, the number of its first byte.

    `pointer` is a node that points there, where one is at hand. An array that is `flat` is handed on by a pointer to its first element.
    `stored` where a pointer lies as `void *`.
    """
    type: Any                   # a CType
    code: Node
    pure: bool = True
    memory: bool = False
    member: Optional[Member] = None
    pointer: Optional[Node] = None
    flat: bool = False
    stored: bool = False
    union: Any = None
    quals: Quals = PLAIN


class Leaf(NamedTuple):
    """A value of an initialiser for a place: `type` is that of the place, a CType."""
    type: Any
    node: Any


def retyped(type_: Any, code: Node) -> Node:
    """A node in a type that is kept in the same way."""
    return code if code.type == type_ else Converted(type_, code)


def word(value: int) -> Number:
    """A number of 32 bits without a sign, as the text writes it."""
    return Number(UINT, value, True)
