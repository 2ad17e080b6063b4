"""Initialisers (C99 6.7.8): which place gets which value."""
from typing import Any, Dict, List, Optional, Sequence, Set, Tuple

from cbi_port.blocks import Evaluate
from cbi_port.calls import Calls
from cbi_port.constants import bytes_of, characters_of
from cbi_port.conversions import number
from cbi_port.nodes import Node
from cbi_port.trees import kind
from cbi_port.types import Array, CType, Int, Member, Struct
from cbi_port.values import Leaf, Place

Step = Any  # an index, or a member
Path = Tuple[Step, ...]


def is_char_array(type_: CType) -> bool:
    return isinstance(type_, Array) and isinstance(type_.of, Int) and type_.of.size == 1 and type_.of.rank == 1


def is_string(node: Any) -> bool:
    return kind(node) == "Constant" and node.type == "string" and node.value[0] == '"'


class Cursor:
    def __init__(self, items: Sequence[Any]) -> None:
        self.items, self.at = items, 0

    def peek(self) -> Any:
        return self.items[self.at] if self.at < len(self.items) else None


class Leaves(Dict[Path, Leaf]):
    """Leaves by their paths. Which paths were begun is kept, so that one that is set for the first time needs no search."""

    def __init__(self) -> None:
        super().__init__()
        self.begun: Set[Path] = set()

    def without(self, path: Path) -> None:
        """Takes away what stands at a path or below it."""
        if path in self.begun:
            for old in [it for it in self if it[:len(path)] == path]:
                del self[old]

    def put(self, path: Path, leaf: Leaf) -> None:
        self.without(path)
        self.begun.update(path[:length] for length in range(len(path) + 1))
        self[path] = leaf


class Initialisers(Calls):
    """Walks through initialisers, and writes them as assignments."""

    def leaves(self, type_: CType, node: Any) -> Tuple[CType, Dict[Path, Leaf]]:
        """Where the values of an initialiser go; and the type, with the length of an array that it gives."""
        found = Leaves()
        self.fill(type_, node, (), found)
        if isinstance(type_, Array) and type_.count is None:
            if kind(node) == "InitList" and len(node.exprs) == 1 and is_char_array(type_) and is_string(node.exprs[0]):
                node = node.exprs[0]
            if is_string(node) and is_char_array(type_):
                whole = type_._replace(count=len(bytes_of(node.value)) + 1)
                return whole, {(): Leaf(whole, node)}
            most = max([path[0] for path in found], default=-1) + 1
            literal = self.resolve(node.type.type) if kind(node) == "CompoundLiteral" else None
            if isinstance(literal, Array) and isinstance(literal.count, int):
                most = max(most, literal.count)
            return type_._replace(count=most), found
        return type_, found

    def fill(self, type_: CType, node: Any, path: Path, found: Leaves) -> None:
        if kind(node) == "InitList":
            items = [it for it in node.exprs or [] if not (kind(it) == "ID" and it.name == "__cbi_none")]
            if not isinstance(type_, (Array, Struct)):
                if items:
                    self.fill(type_, items[0], path, found)
                return
            if len(items) == 1 and is_char_array(type_) and is_string(items[0]):
                found.put(path, Leaf(type_, items[0]))
                return
            found.without(path)
            self.aggregate(type_, Cursor(items), path, found, True, [])
            return
        if isinstance(type_, Array) and isinstance(type_.of, Int) and kind(node) == "Constant" and node.type == "string" and node.value[0] == "L":
            from pycparser import c_ast
            data = characters_of(node.value) + [0]
            for index, byte in enumerate(data[:type_.count if isinstance(type_.count, int) else None]):
                found.put(path + (index,), Leaf(type_.of, c_ast.Constant("int", str(byte), node.coord)))
            return
        if isinstance(type_, Array) and not (is_char_array(type_) and is_string(node)):
            if kind(node) == "CompoundLiteral":
                self.fill(type_, node.init, path, found)
                return
            raise self.refuse(node, "an array that begins with no list", "`{ .. }` around its elements")
        found.put(path, Leaf(type_, node))

    def parts(self, type_: Any) -> List[Tuple[Step, CType]]:
        """The members of a struct that an initialiser goes through."""
        members = [(member, member.type) for member in type_.members if member.name]
        return members[:1] if type_.union else members

    def aggregate(self, type_: Any, cursor: Cursor, path: Path, found: Leaves, top: bool, start: List[Any]) -> None:
        """Takes items for the parts of an array or a struct; `start` are the designators that say where it begins."""
        index = 0
        parts = self.parts(type_) if isinstance(type_, Struct) else []
        most = len(parts) if isinstance(type_, Struct) else type_.count if isinstance(type_.count, int) else 1 << 30
        designators = start
        while cursor.peek() is not None:
            item = cursor.peek()
            if kind(item) == "NamedInitializer" and not designators:
                if not top:
                    return
                designators = list(item.name)
            if designators:
                index = self.designated(type_, designators, parts, item, path, found, cursor)
                designators = []
                index += 1
                continue
            if index >= most:
                if not top:
                    return
                raise self.refuse(item, "more initialisers than there are parts", "as many as there are")
            step, inner = parts[index] if isinstance(type_, Struct) else (index, type_.of)
            self.one(inner, item, path + (step,), found, cursor)
            index += 1
            if not top and index >= most:
                return

    def one(self, type_: CType, item: Any, path: Path, found: Leaves, cursor: Cursor) -> None:
        """Takes what one part wants from the list."""
        if kind(item) == "InitList" or not isinstance(type_, (Array, Struct)) or is_char_array(type_) and is_string(item):
            self.fill(type_, item, path, found)
            cursor.at += 1
        elif isinstance(type_, Struct) and self.gives(item, type_):
            found.put(path, Leaf(type_, item))
            cursor.at += 1
        else:
            if isinstance(type_, Struct) and not self.parts(type_) or isinstance(type_, Array) and type_.count == 0:
                return
            self.aggregate(type_, cursor, path, found, False, [])

    def gives(self, node: Any, struct: Struct) -> bool:
        return kind(node) not in ("Constant",) and self.type_of(node) is struct

    def designated(self, type_: Any, designators: List[Any], parts: Sequence[Tuple[Step, CType]], item: Any, path: Path,
                   found: Leaves, cursor: Cursor) -> int:
        """Takes an item that says where it goes; the index of the part that it goes to."""
        first, rest = designators[0], designators[1:]
        last = None
        step: Step
        if isinstance(type_, Struct):
            way = type_.find(first.name) if kind(first) == "ID" else None
            if way is None:
                raise self.refuse(item, "an initialiser of no member", "a member's name")
            index = next((place for place, (member, _) in enumerate(parts) if member is way[0]), len(parts))
            step, inner = way[0], way[0].type
            for member in way[1:]:
                path, step, inner = path + (step,), member, member.type
        else:
            if kind(first) == "FuncCall" and first.name.name == "__cbi_range":
                index, last = (self.constant(it) for it in first.args.exprs)
            else:
                index = self.constant(first)
            if isinstance(type_.count, int) and not 0 <= index < type_.count:
                raise self.refuse(item, "an initialiser past an array's end", "an index within it")
            step, inner = index, type_.of
        value = item.expr if kind(item) == "NamedInitializer" else item
        if rest:
            for place in range(index, index if last is None else last):
                self.aggregate(inner, Cursor([item]), path + (place,), found, False, rest)
            self.aggregate(inner, cursor, path + (step if last is None else last,), found, False, rest)
        else:
            for place in range(index, (last if last is not None else index) + 1):
                at = path + (place if isinstance(type_, Array) else step,)
                inner_cursor = Cursor([value] + list(cursor.items[cursor.at + 1:]))
                self.one(inner, value, at, found, inner_cursor)
            cursor.at += max(inner_cursor.at, 1)
        return last if last is not None else index

    # Assignments.

    def part(self, place: Place, path: Path, node: Any = None) -> Place:
        """The place of a part."""
        for step in path:
            if isinstance(step, Member):
                place = self.model.member(place, step, place.type, node)
            else:
                found = self.model.element(place, number(step), node)
                if found is None:
                    found = self.model.target(self.model.add(self.model.load(place, node), number(step), "+", node), node)
                place = found
        return place

    def assignments(self, place: Place, found: Dict[Path, Leaf], node: Any) -> List[Evaluate]:
        """The values of an initialiser as statements that store them."""
        rows = []
        kept = self.beside_zeros(place.type, found)
        for path, leaf in kept.items():
            self.function.fresh_statement()
            rows.append(Evaluate(self.assignment(self.part(place, path, node), leaf, node)))
        return rows

    def beside_zeros(self, type_: CType, found: Dict[Path, Leaf]) -> Dict[Path, Leaf]:
        """The values without those of unions that get nothing but zeros: they are zero as wholes, and so have each member's zero."""
        within = {path: self.union_within(type_, path) for path in found} if not self.model.in_bytes else {}
        other = {within[path] for path, leaf in found.items() if within.get(path) is not None and not self.is_zero(leaf)}
        return {path: leaf for path, leaf in found.items() if within.get(path) is None or within[path] in other}

    def union_within(self, type_: CType, path: Path) -> Optional[Path]:
        """The way to the outermost union that a way goes through."""
        for at, step in enumerate(path):
            if isinstance(type_, Struct) and type_.union:
                return path[:at]
            type_ = step.type if isinstance(step, Member) else type_.of if isinstance(type_, Array) else type_
        return None

    def is_zero(self, leaf: Leaf) -> bool:
        if isinstance(leaf.type, (Array, Struct)):
            return False
        quiet, self.function.quiet = self.function.quiet, True
        try:
            value = self.value(leaf.node)
        finally:
            self.function.quiet = quiet
        return value.null or value.constant == 0

    def assignment(self, place: Place, leaf: Leaf, node: Any) -> Node:
        if is_char_array(leaf.type):
            return self.spelled_out(place, leaf, node)
        value = self.value(leaf.node)
        if isinstance(leaf.type, Struct):
            if value.type is not leaf.type:
                raise self.refuse(leaf.node, "an initialiser of another type", "a value of the struct's type")
            return self.model.copy(place, value, False, leaf.node).code
        return self.assigned(place, value, False, leaf.node).code

    def spelled_out(self, place: Place, leaf: Leaf, node: Any) -> Node:
        data = bytes_of(leaf.node.value) + b"\0"
        length = min(len(data), leaf.type.count if isinstance(leaf.type.count, int) else len(data))
        return self.model.store_string(place, self.string_text(leaf.node), data, length, leaf.type)

    def literal_place(self, node: Any) -> Place:
        """A compound literal (6.5.2.5)."""
        self.count("compound literals")
        type_ = self.resolve(node.type.type)
        type_, found = self.leaves(type_, node.init)
        return self.model.literal(type_, found, node)

    def is_full(self, type_: CType, found: Dict[Path, Leaf]) -> bool:
        """Whether each scalar of a type has a value."""
        paths = set(found)

        def full(inner: Any, path: Path) -> bool:
            if path in paths:
                return not (is_char_array(inner) and isinstance(inner.count, int) and inner.count > len(bytes_of(found[path].node.value)) + 1)
            if isinstance(inner, Array):
                return isinstance(inner.count, int) and inner.count <= 4096 and all(full(inner.of, path + (it,)) for it in range(inner.count))
            if isinstance(inner, Struct) and not inner.union:
                return all(full(member.type, path + (member,)) for member in inner.members)
            return False
        return full(type_, ())
