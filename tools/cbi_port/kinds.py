"""Kinds of pointers by inference: of what type the objects are that a `void *` of the text points to.

Each `void *` that is declared or written in a cast stands for itself; where a pointer is converted to another one both point to the same objects, so their kinds are
one class (union-find, as CCured finds them). A class has the types of all pointers that come to it or go from it. Where these are one type, or characters alone,
each `void *` of the class may be declared as a pointer to that type, and calls that go by types (`memcpy`, `realloc`) know it. Where they are several types, or a
pointer comes from where it isn't seen, nothing is concluded. What is concluded in one translation is used by the next one (files.py), which looks at each
conversion again.
"""
from typing import Any, Dict, List, Optional, Sequence, Set, Tuple

from cbi_port.alike import like_char
from cbi_port.characters import Characters
from cbi_port.types import CHAR, Array, CType, Function, Int, Pointer, Quals, Struct, Void, same, spread, to_function

WAS_VOID = "void"       # among the qualifiers of a pointer that the text declares as a `void *`
FORTH, BACK, BOTH, NEITHER = 1, 2, 3, 0     # which of two pointers is converted to the other one
Concluded = Dict[int, Tuple[Any, CType]]     # by the id of a declarator of a `void *`: that declarator, and the type of the objects


class Kinds:
    """The classes of a translation. `before` is what the last translation concluded."""

    def __init__(self, program: Any, before: Concluded) -> None:
        self.program, self.before = program, before
        self.parents: Dict[int, int] = {}
        self.nodes: Dict[int, Any] = {}
        self.types: Dict[int, List[CType]] = {}
        self.unknown: Set[int] = set()          # classes that pointers come to which aren't seen
        self.wanted: Set[int] = set()           # what a call or a sum asked the type of
        self.memory: List[CType] = []           # each `void *` that memory of the library comes to without a type
        self.counted: Set[int] = set()          # the declarators that became pointers to a type
        self.seen: Set[Tuple[int, int]] = set()
        self.later: List[Tuple[Struct, Struct]] = []   # structs that weren't complete
        self.characters = Characters(program)

    # What is declared.

    def pointer(self, node: Any, to: CType, quals: Quals) -> Pointer:
        """The type of a declarator of a pointer."""
        if not isinstance(to, Void):
            return Pointer(to, quals)
        known = self.before.get(id(node))
        found = self.moved(known[1]) if known is not None else None
        if found is None:
            return Pointer(Void(at=node), quals)
        if id(node) not in self.counted:
            self.counted.add(id(node))
            self.program.count("pointers to void of one type")
        return Pointer(found, quals | {WAS_VOID})

    def moved(self, type_: CType) -> Optional[CType]:
        """A type of the last translation in this one; None where it isn't known yet."""
        if isinstance(type_, Pointer):
            to = self.moved(type_.to)
            return None if to is None else Pointer(to, type_.quals)
        if isinstance(type_, Struct):
            return next((it for it in self.program.structs if (it.tag, it.at, it.union) == (type_.tag, type_.at, type_.union)), None)
        return type_ if isinstance(type_, (Int, Void)) else None

    # Classes.

    def key(self, void: Void) -> int:
        self.nodes.setdefault(id(void.at), void.at)
        return self.root(id(void.at))

    def root(self, key: int) -> int:
        while self.parents.get(key, key) != key:
            self.parents[key] = self.parents.get(self.parents[key], self.parents[key])
            key = self.parents[key]
        return key

    def join(self, left: int, right: int) -> None:
        if left == right:
            return
        self.parents[right] = left
        for type_ in self.types.pop(right, []):
            self.put(left, type_)
        for marks in (self.unknown, self.wanted):
            if right in marks:
                marks.discard(right)
                marks.add(left)

    def put(self, key: int, type_: CType) -> None:
        rows = self.types.setdefault(key, [])
        if not any(same(type_, it) for it in rows):
            rows.append(type_)

    def one(self, left: CType, right: CType, ways: int = BOTH) -> None:
        """Both are types of the same objects; `ways` says which of the pointers to these is converted to the other one."""
        if isinstance(left, Void) or isinstance(right, Void):
            self.with_void(left, right)
            if ways & FORTH:
                self.characters.goes(left, right)
            if ways & BACK:
                self.characters.goes(right, left)
        elif isinstance(left, Pointer) and isinstance(right, Pointer):
            self.one(left.to, right.to)
        elif isinstance(left, Array) or isinstance(right, Array):
            self.one(spread(left)[0], spread(right)[0], ways)
        elif isinstance(left, Function) and isinstance(right, Function):
            self.calls(left, right, ways)
        elif isinstance(left, Struct) and isinstance(right, Struct):
            self.members(left, right)
        elif isinstance(left, Struct) or isinstance(right, Struct):
            struct, other = (left, right) if isinstance(left, Struct) else (right, left)
            assert isinstance(struct, Struct)
            if struct.members:
                self.one(struct.members[0].type, other)

    def with_void(self, left: CType, right: CType) -> None:
        known = [self.key(it) for it in (left, right) if isinstance(it, Void) and it.at is not None]
        others = [it for it in (left, right) if not isinstance(it, Void)]
        if len(known) == 2:
            self.join(*known)
        elif known and others:
            self.put(known[0], others[0])
        elif known:
            self.unknown.add(known[0])
        for it in [] if known else others:
            self.hide(it)

    def members(self, left: Struct, right: Struct) -> None:
        if left is right or (id(left), id(right)) in self.seen:
            return
        if not left.complete or not right.complete:
            self.later.append((left, right))
            return
        self.seen.add((id(left), id(right)))
        for one, other in zip(left.members, right.members):
            self.one(one.type, other.type)

    def calls(self, left: Function, right: Function, ways: int) -> None:
        """A function is called by a pointer to the other type: its result goes where the pointer does, its arguments come from there."""
        self.values(left.result, right.result, ways)
        for one, other in zip(left.parameters, right.parameters):
            self.values(one, other, {FORTH: BACK, BACK: FORTH}.get(ways, ways))
        if not (left.known and right.known and len(left.parameters) == len(right.parameters)):
            for it in (*left.parameters, *right.parameters):
                self.hide(it)

    def values(self, left: CType, right: CType, ways: int) -> None:
        if isinstance(left, Pointer) and isinstance(right, Pointer):
            self.one(left.to, right.to, ways)
        else:
            self.one(left, right)

    def hide(self, type_: CType) -> None:
        """Pointers of a type come from where they aren't seen."""
        while isinstance(type_, (Pointer, Array)):
            type_ = type_.to if isinstance(type_, Pointer) else type_.of
        if isinstance(type_, Void) and type_.at is not None:
            self.unknown.add(self.key(type_))
            self.characters.mark(self.characters.unseen, type_)

    def want(self, type_: CType, *also: CType) -> None:
        """What a call or a sum asks of a `void *`: the type of its objects, which are also of the types that are named."""
        if isinstance(type_, Void) and type_.at is not None:
            self.wanted.add(self.key(type_))
            for it in also:
                self.put(self.key(type_), it)

    def asked(self, types: Sequence[CType]) -> None:
        """A call asks for the type to which all its pointers point."""
        for type_ in types:
            self.want(type_)
            self.one(types[0], type_)

    def flows(self, value: Any, to: Pointer, handed: bool) -> None:
        """A pointer is converted to another one; `handed` where it is a `void *` once more."""
        if value.null:
            return
        if value.fresh is not None:
            self.want(to.to)
            self.memory += [to.to] * isinstance(to.to, Void)
            self.characters.memory(to.to)
        else:
            self.one(value.type.to, to.to, NEITHER if handed else FORTH)

    def compares(self, function: CType, *types: CType) -> None:
        """A function is called with pointers to these, by a function of the library."""
        parameters = function.to.parameters if to_function(function) else ()
        for it, type_ in zip(parameters, types):
            if isinstance(it, Pointer):
                self.one(it.to, type_, BACK)

    # What is concluded.

    def settle(self) -> None:
        """Structs that are complete by now."""
        rows, self.later = self.later, []
        for left, right in rows:
            self.members(left, right)

    def kind(self, type_: CType) -> Optional[CType]:
        """The one type of a class; None where there is none."""
        if not isinstance(type_, Void) or type_.at is None:
            return None
        key = self.key(type_)
        rows = self.types.get(key, [])
        if key in self.unknown or not rows:
            return None
        if all(map(like_char, rows)):
            return rows[0]
        plain = len(rows) == 1 and isinstance(rows[0], (Int, Struct, Pointer)) and not to_function(rows[0])
        return rows[0] if plain else None

    def is_text(self, type_: CType) -> bool:
        """Whether a `void *` points to characters alone."""
        found = self.kind(type_)
        return found is not None and like_char(found)

    def is_loose(self) -> bool:
        """Whether memory has a cell for each byte, though it is known what it holds."""
        found = [self.kind(it) for it in self.memory]
        return any(it is not None and not like_char(it) for it in found)

    def concluded(self) -> Concluded:
        """What the next translation may use."""
        self.settle()
        found = dict(self.before)
        for key, node in self.nodes.items():
            type_ = self.kind(Void(at=node)) if self.root(key) in self.wanted else None
            if type_ is not None:
                found[key] = (node, type_)
        return found


def counts_bytes(type_: Pointer) -> bool:
    """Whether a pointer is moved by bytes, as GNU C moves a `void *`, though what it points to has more than one."""
    return WAS_VOID in type_.quals and not like_char(type_.to)


def rounds(tokens: Sequence[Any]) -> int:
    """How often a text may be translated with what was concluded; some words ask for a `void *` itself."""
    return 0 if any(token.text in ("_Generic", "__cbi_generic", "__builtin_types_compatible_p", "__cbi_same_types") for token in tokens) else 2
