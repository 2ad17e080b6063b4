"""Objects that are looked at by their characters: a `void *` that becomes a `char *`, where the object may be something else.

With a cell for each scalar the characters of an object aren't there, so such a program needs bytes. kinds.py joins both sides of a conversion; here each one goes from
a pointer to the next. A look is a conversion of a `void *` to a pointer to characters, whose value isn't only compared or converted back. Another type is taken to be
kept apart from characters where both come to one `void *` that is also converted to a pointer to that type: as in a list of anything, or where a number says what is
there. That is a guess: a function that looks at any object by its characters and gives it back goes unseen where it is called with both. So do arguments that stand for
`...`. Memory of which the type isn't seen may be either.
"""
from typing import Any, Dict, List, NamedTuple, Optional, Set

from cbi_port.alike import has_union, innermost, like_char
from cbi_port.lines import Refusal
from cbi_port.types import CType, Struct, Void, same, spelled

Ways = Dict[int, Set[int]]


class Look(NamedTuple):
    """The value, to what it pointed before, where it stands, and whether it is evaluated."""
    code: Any
    type: Void
    place: int
    counts: bool


def key_of(type_: CType) -> Optional[int]:
    """Which `void *` it is, where that is known."""
    return id(type_.at) if isinstance(type_, Void) and type_.at is not None else None


def has_characters_alone(type_: CType) -> bool:
    """Whether the cells of a type are its bytes."""
    inner = innermost(type_)[0]
    if isinstance(inner, Struct):
        plain = inner.complete and not has_union(inner) and bool(inner.members)
        return plain and all(it.bits is None and has_characters_alone(it.type) for it in inner.members)
    return like_char(inner)


def reached(first: int, ways: Ways) -> Set[int]:
    """All that is reached from one, which is one of them."""
    found, waiting = {first}, [first]
    while waiting:
        more = ways.get(waiting.pop(), set()) - found
        found |= more
        waiting.extend(more)
    return found


class Characters:
    """What goes to each `void *` and from it, and the looks."""

    def __init__(self, program: Any) -> None:
        self.program = program
        self.came: Dict[int, List[CType]] = {}      # the types of the pointers that are converted to a `void *`
        self.gone: Dict[int, List[CType]] = {}      # and those of the pointers that it is converted to
        self.forth: Ways = {}
        self.back: Ways = {}
        self.unseen: Set[int] = set()               # those to which pointers come that aren't seen
        self.made: Ways = {}                        # those to which memory of the library comes without a type, and where
        self.variables: Set[int] = set()            # those that are variables of a function
        self.looks: Dict[int, Look] = {}            # by the node of the value

    # What is seen.

    def goes(self, from_: CType, to: CType) -> None:
        """A pointer to one is converted to a pointer to the other; one of them is a `void *` at least."""
        left, right = key_of(from_), key_of(to)
        if left is not None and right is not None:
            self.forth.setdefault(left, set()).add(right)
            self.back.setdefault(right, set()).add(left)
        elif left is not None and not isinstance(to, Void):
            put(self.gone.setdefault(left, []), to)
        elif right is not None and not isinstance(from_, Void):
            put(self.came.setdefault(right, []), from_)
        elif right is not None:
            self.unseen.add(right)

    def mark(self, marks: Set[int], type_: CType) -> None:
        """Says of a `void *` that it is one of those that are named above."""
        key = key_of(type_)
        if key is not None:
            marks.add(key)

    def memory(self, type_: CType) -> None:
        """Memory of the library comes to a `void *`, where it has no type."""
        key = key_of(type_)
        if key is not None:
            self.made.setdefault(key, set()).add(self.program.last_place)

    def look(self, code: Any, type_: Void, place: int) -> None:
        if key_of(type_) is not None:
            self.looks[id(code)] = Look(code, type_, place, not self.program.function.quiet)

    def is_handed_on(self, code: Any, to: CType) -> bool:
        """Whether a value that is converted is a `void *` once more."""
        look = self.looks.pop(id(code), None) if isinstance(to, Void) else None
        if look is not None:
            self.goes(look.type, to)
        return look is not None

    def compared(self, *codes: Any) -> None:
        """Values that are only compared."""
        for code in codes:
            self.looks.pop(id(code), None)

    # What comes of it.

    def mistaken(self, key: int) -> Optional[CType]:
        """A type whose objects may be there where characters are wanted; None where there is none."""
        ahead = reached(key, self.back)
        for one, types in self.came.items():
            for type_ in types if one in ahead else ():
                if not has_characters_alone(type_) and not self.is_kept_apart(one, type_, ahead):
                    return type_
        if key in self.variables and len(self.made.get(key, ())) == 1 and ahead == {key}:
            # Memory of one call that comes to one variable is all that this becomes.
            return next((it for it in self.gone.get(key, []) if not has_characters_alone(it)), None)
        return None

    def is_kept_apart(self, first: int, type_: CType, ahead: Set[int]) -> bool:
        """Whether a type that comes to a `void *` meets characters on the way to a look, where it is also converted back."""
        return any(self.may_be_characters(it) and self.comes_back(it, type_) for it in reached(first, self.forth) & ahead)

    def may_be_characters(self, key: int) -> bool:
        return any(it in self.unseen or it in self.made or any(map(like_char, self.came.get(it, []))) for it in reached(key, self.back))

    def comes_back(self, key: int, type_: CType) -> bool:
        found = (it for one in reached(key, self.forth) for it in self.gone.get(one, []))
        return any(not has_characters_alone(it) and self.program.model.alike(type_, it) for it in found)

    def problems(self) -> List[Refusal]:
        """A refusal for each look at what may be no characters."""
        found = []
        for look in self.looks.values():
            type_ = self.mistaken(id(look.type.at)) if look.counts else None
            if type_ is not None:
                found.append(Refusal(look.place, f"a `void *` to a `{spelled(type_)}` as characters", "a pointer to what is there", True))
        return found


def put(rows: List[CType], type_: CType) -> None:
    if not any(same(type_, it) for it in rows):
        rows.append(type_)
