"""Declarations (C99 6.7): what type a declarator gives, and what a struct, a union and an enumeration have."""
from typing import TYPE_CHECKING, Any, Dict, List, Optional, Sequence, Set, Tuple

from cbi_port.blocks import Statement
from cbi_port.dispatch import Dispatch
from cbi_port.lines import Refusal, Sheet, Token, real_file
from cbi_port.nodes import Assign, Name, Node, Part, product
from cbi_port.reader import HEADERS
from cbi_port.scopes import Names, Scope, Symbol
from cbi_port.trees import kind
from cbi_port.types import (INT, LDOUBLE, LLONG, UINT, ULLONG, VALIST, VOID, Array, Asked, CType, Function, Int, Length, Pointer, Quals, Struct, base_type,
                            is_float, is_long, is_open, lay_out, size_of, spread)
from cbi_port.values import Place, Value, word

if TYPE_CHECKING:
    from cbi_port.body import Body
    from cbi_port.objects import Objects

SIGNS = ("__cbi_packed", "__cbi_aligned", "__cbi_member_packed", "__cbi_member_aligned")


class Context:
    """What all parts of the translation share."""
    tokens: List[Token]
    sheet: Sheet
    problems: List[Refusal]
    liberties: Dict[str, None]
    counts: Dict[str, int]
    names: Names
    tags: Names
    scope: Scope
    unit: Any
    model: "Objects"
    structs: List[Struct]
    function: "Body"
    in_prelude: bool
    words: Set[str]
    wrap: bool
    begins = False              # where what lives as long as the program begins
    externals: Dict[str, Symbol]
    by_node: Dict[int, CType]
    headers: Dict[Any, Any]
    forwards: Dict[Any, Any]
    pending_key: Any

    def place_of(self, node: Any) -> int:
        """The number of a node's token."""
        coord = getattr(node, "coord", None)
        return int(coord.line) if coord is not None and coord.line else -1

    def refuse(self, node: Any, construct: str, advice: str, bytes_do: bool = False) -> Refusal:
        """The refusal at a node; who calls raises it, or adds it to the problems."""
        at = node if isinstance(node, int) else self.place_of(node)
        if at < 0:
            at = self.last_place
        return Refusal(at, construct, advice, bytes_do)

    def tell(self, refusal: Refusal, node: Any = None) -> None:
        """Adds a refusal to the problems. What the node would have declared isn't missed where it is used."""
        if not refusal.follows:
            self.problems.append(refusal)
        if kind(node) in ("Decl", "Typedef") and node.name is not None and node.name not in self.scope.names:
            self.scope.names[node.name] = Symbol(node.name, "refused", INT)

    def refuse_type(self, node: Any, construct: str, type_: CType) -> Refusal:
        """The refusal of what has a type that isn't complete, or not what is asked of it."""
        found = self.refuse(node, construct, "its whole definition before that line, or `#include` of the header that has it")
        found.follows = isinstance(type_, Struct) and (type_.refused or self.partial)
        return found

    def follow(self, node: Any) -> Refusal:
        """The refusal of what was refused where it is declared."""
        found = self.refuse(node, "what isn't declared", "a declaration")
        found.follows = True
        return found

    last_place = 0
    partial = False  # some headers aren't there, or some of the text couldn't be read: what comes of these isn't told

    def count(self, what: str) -> None:
        if not self.in_prelude:
            self.counts[what] = self.counts.get(what, 0) + 1

    # What the other parts have.
    stderr: bool
    exit_functions: bool
    wide_strings: Dict[int, Symbol]
    wrapped: Set[str]
    wrappers: Dict[str, Symbol]
    library_names: Set[str]
    dispatch: Dispatch
    label_owner: Any
    makers_of_text: Any         # Wrappers
    givers: Any                 # Makers, of functions that are called by pointers
    kinds: Any                  # Kinds

    def value(self, node: Any, used: bool = True) -> Value:
        raise NotImplementedError

    def type_of(self, node: Any) -> CType:
        raise NotImplementedError

    def constant(self, node: Any) -> int:
        raise NotImplementedError

    def add(self, row: Statement) -> None:
        raise NotImplementedError

    def do(self, code: Node, node: Any = None) -> None:
        raise NotImplementedError

    def converted(self, value: Value, type_: CType, implicit: bool = False, node: Any = None) -> Value:
        raise NotImplementedError

    def operated(self, sign: str, left: Value, right: Value, node: Any, at: int = -1) -> Value:
        raise NotImplementedError

    def use(self, symbol: Symbol) -> None:
        raise NotImplementedError

    def literal_place(self, node: Any) -> Place:
        raise NotImplementedError

    def begin_static(self, symbol: Symbol, init: Any, node: Any) -> None:
        raise NotImplementedError

    def prelude_symbol(self, name: str) -> Optional[Symbol]:
        raise NotImplementedError

    def unit_symbol(self, name: str) -> Optional[Symbol]:
        raise NotImplementedError

    def external(self, node: Any, type_: CType) -> Symbol:
        raise NotImplementedError

    def library_function(self, name: str, node: Any) -> Optional[Symbol]:
        raise NotImplementedError

    def library_call(self, name: str, node: Any, arguments: Sequence[Any], used: bool, symbol: Optional[Symbol]) -> Optional[Value]:
        raise NotImplementedError

    def of_system(self, symbol: Symbol) -> bool:
        raise NotImplementedError

    def variable_of_library(self, symbol: Symbol) -> Symbol:
        raise NotImplementedError

    def missing(self, node: Any, name: str) -> Refusal:
        raise NotImplementedError

    def builtin_call(self, node: Any, name: str, arguments: Sequence[Any], used: bool) -> Value:
        raise NotImplementedError

    def outer_function(self, name: str) -> Optional[Symbol]:
        raise NotImplementedError

    def statement_value(self, node: Any, name: str, used: bool) -> Value:
        raise NotImplementedError

    def label_segment(self, name: str) -> int:
        raise NotImplementedError

    def selected(self, node: Any, arguments: Sequence[Any]) -> Any:
        raise NotImplementedError


class Nameless:
    """A type's tree of which the name that it declares isn't asked."""

    def __init__(self, type_: Any) -> None:
        self.type = type_


class Declarations(Context):
    """The types of declarators."""

    def said_alignment(self, node: Any) -> int:
        """What attributes say of a declared name's alignment, or of that of the type by whose name it is declared."""
        said = self.unit.alignments
        if not said:
            return 0
        holder = self.unit.bodies.get(said.get(getattr(node, "name", None)))
        found = max((self.constant(it) for it in holder.block_items), default=0) if holder is not None else 0
        inner = node
        while kind(inner) in ("Decl", "TypeDecl", "ArrayDecl", "Typename", "Typedef", "Nameless"):
            inner = inner.type
        if kind(inner) == "IdentifierType" and len(inner.names) == 1:
            symbol = self.scope.find(inner.names[0])
            found = max(found, symbol.align if symbol is not None and symbol.kind == "type" else 0)
        return int(found)

    def resolve(self, node: Any, hint: str = "") -> CType:
        """The type that a declarator or a type name has."""
        what = kind(node)
        if what in ("TypeDecl", "Typename", "Decl"):
            return self.resolve(node.type, hint)
        if what == "IdentifierType":
            return self.named_type(node)
        if what == "PtrDecl":
            found: CType = self.kinds.pointer(node, self.resolve(node.type), self.quals_of(node.type))
            return found
        if what == "ArrayDecl":
            return self.array_type(node)
        if what == "FuncDecl":
            return self.function_type(node)
        if what in ("Struct", "Union"):
            return self.struct_type(node, hint)
        if what == "Enum":
            return self.enumeration(node)
        raise self.refuse(node, f"a type of the form {what}", "the same in types of C99: numbers, structs, unions, enumerations, arrays and pointers")

    def named_type(self, node: Any) -> CType:
        names = [name for name in node.names if name not in ("const", "volatile", "restrict", "static", "register", "inline")]
        if not names:
            return INT
        if len(names) == 1:
            if names[0] == "__builtin_va_list":
                return VALIST
            if names[0].startswith("__cbi_typeof"):
                body = self.unit.bodies.get(names[0] + "_of")
                inner = body.block_items[0]
                return self.type_under_sizeof(inner.expr)
            symbol = self.scope.find(names[0])
            if symbol is not None and symbol.kind == "type":
                named: CType = symbol.type
                return named
            if symbol is not None and symbol.kind == "refused":
                raise self.follow(node)
        found = base_type(names)
        if found == LDOUBLE and not self.in_prelude and not self.tokens[max(self.place_of(node), 0)].file.startswith(HEADERS):
            self.liberties["a long double is a double"] = None
        if found is None:
            raise self.refuse(node, f"the type `{' '.join(names)}`", "a type of C99 that the text declares")
        return found

    def type_under_sizeof(self, node: Any) -> CType:
        if kind(node) == "Typename":
            return self.resolve(node.type)
        return self.type_of(node)

    prototype = False
    lengths: Dict[int, Length]

    def array_type(self, node: Any) -> CType:
        of = self.resolve(node.type)
        if isinstance(of, Function):
            raise self.refuse(node, "an array of functions", "an array of pointers to functions")
        quals = self.quals_of(node.type)
        if node.dim is None:
            return Array(of, None, quals)
        length = self.known(node.dim)
        if length is None:
            return Array(of, self.length(node), quals)
        if length < 0:
            raise self.refuse(node, "an array of less than no elements", "a length of 0 or more")
        return Array(of, length, quals)

    def quals_of(self, node: Any) -> Quals:
        """How what a declarator or a type name declares is qualified; an array as its elements are (6.7.3p8)."""
        while kind(node) in ("ArrayDecl", "Decl", "Typedef", "Typename"):
            node = node.type
        quals = frozenset(getattr(node, "quals", None) or [])
        if kind(node) == "TypeDecl" and kind(node.type) == "IdentifierType" and len(node.type.names) == 1:
            symbol = self.scope.find(node.type.names[0])
            return quals | symbol.quals if symbol is not None and symbol.kind == "type" else quals
        return quals

    def length(self, node: Any) -> Length:
        """The count of an array that isn't constant (6.7.5.2p5): it is kept where it is declared."""
        if self.prototype or kind(node.dim) == "ID" and node.dim.name == "*":
            return Length(None)
        if self.function.name == "cbi_init":
            raise self.refuse(node, "an array of unknown length outside functions", "a constant length")
        known = self.lengths.get(id(node))
        if known is not None and not self.function.quiet:
            return known
        value = self.value(node.dim)
        if isinstance(value.type, Int):
            value = self.converted(value, UINT, True, node)
        if self.function.quiet:
            return Length(value.code)
        name = Part(UINT, Name(UINT, self.function.lasting("unsigned")), "value")
        self.do(Assign(UINT, name, value.code), node)
        self.lengths[id(node)] = Length(name)
        return self.lengths[id(node)]

    def size_value(self, type_: CType) -> Value:
        """How many bytes an array has whose length is found out as the program runs."""
        inner, count, lengths = spread(type_)
        return Value(UINT, product(UINT, [*lengths, word(count * size_of(inner))]))

    def known(self, node: Any) -> Optional[int]:
        """The value of a constant expression; None where it is none."""
        if kind(node) == "ID" and node.name == "*":
            return None
        value = self.value(node)
        return value.constant if not is_float(value.type) else None

    def constant(self, node: Any) -> int:
        value = self.known(node)
        if value is None:
            raise self.refuse(node, "no constant where one must stand", "a constant expression")
        return value

    def function_type(self, node: Any) -> CType:
        result = self.resolve(node.type)
        if node.args is None:
            return Function(result, (), False, False)
        parameters: List[CType] = []
        more = False
        outer, self.scope = self.scope, Scope(self.scope)
        within, self.prototype = self.prototype, True
        try:
            for param in node.args.params:
                if kind(param) == "EllipsisParam":
                    more = True
                elif kind(param) == "ID":
                    return Function(result, (), False, False)
                else:
                    type_ = self.resolve(param.type)
                    if isinstance(type_, type(VOID)) and len(node.args.params) == 1:
                        return Function(result, (), False, True)
                    parameters.append(self.adjusted(type_))
                    if getattr(param, "name", None):
                        self.scope.names[param.name] = Symbol(param.name, "variable", parameters[-1])
        finally:
            self.scope, self.prototype = outer, within
        return Function(result, tuple(parameters), more, True)

    def adjusted(self, type_: CType) -> CType:
        """6.7.5.3p7 and 8."""
        if isinstance(type_, Array):
            return Pointer(type_.of, type_.quals)
        return Pointer(type_) if isinstance(type_, Function) else type_

    def tag_alone(self, node: Any) -> None:
        """A declaration that declares no name but a tag. `struct S;` declares a type of its block's own (6.7.2.3p7)."""
        if kind(node) in ("Struct", "Union") and node.decls is None and node.name and node.name not in self.scope.tags:
            if self.scope.find_tag(node.name) is not None:
                self.scope.tags[node.name] = Struct(self.tags.take(node.name), kind(node) == "Union")
                self.scope.tags[node.name].at = self.place_of(node)
                return
        self.resolve(node)

    def struct_type(self, node: Any, hint: str) -> CType:
        union = kind(node) == "Union"
        if node.decls is not None and id(node) in self.by_node:
            return self.by_node[id(node)]
        seen = self.seen_before(node, hint)
        if seen is not None:
            return seen
        known: Any = None
        if node.name:
            known = self.scope.tags.get(node.name) if node.decls is not None else self.scope.find_tag(node.name)
        if known is None and node.decls is None:
            known = self.named_before(node)
        if known is not None and node.decls is None:
            whole: CType = known
            return whole
        if known is None or known.complete:
            known = Struct(self.tags.take(node.name or hint or "cbi_nameless"), union)
            if node.name:
                self.scope.tags[node.name] = known
                if node.decls is None:
                    self.forwards.setdefault(self.spot_of(node), []).append((known, [self.unit]))
        known.at = self.place_of(node)
        if node.decls is not None:
            self.by_node[id(node)] = known
            key = self.pending_key
            try:
                self.members(known, node)
            except Refusal:
                known.refused = True
                raise
            self.headers.setdefault(key, (known, self.unit))
        found: Struct = known
        return found

    def spot_of(self, node: Any) -> Tuple[str, str, int]:
        """A struct's name, and where it stands."""
        token = self.tokens[max(self.place_of(node), 0)]
        return node.name, real_file(token.file), token.line

    def named_before(self, node: Any) -> Optional[Struct]:
        """A struct that a header names before it is defined, and that another file has by that place. It is the same one, unless
        the files define it at different places: then each has its own."""
        for known, units in self.forwards.get(self.spot_of(node), []):
            defined = [it.defined[node.name] for it in [*units, self.unit] if node.name in it.defined]
            if self.unit not in units and len({(self.tokens[at].file, self.tokens[at].line) for at in defined}) < 2:
                units.append(self.unit)
                self.scope.tags[node.name] = known
                found: Struct = known
                return found
        return None

    def seen_before(self, node: Any, hint: str) -> Optional[Struct]:
        """A struct of a header that another file had already."""
        if node.decls is None:
            return None
        at = self.place_of(node)
        token = self.tokens[at] if 0 <= at < len(self.tokens) else None
        if token is None:
            return None
        names = tuple(str(getattr(decl, "name", None)) for decl in node.decls)
        key = (node.name, hint, real_file(token.file), token.line, names)
        row: Tuple[Optional[Struct], Any] = self.headers.get(key, (None, None))
        known, unit = row
        if known is not None and unit is not self.unit and known.complete:
            if node.name:
                self.scope.tags[node.name] = known
            self.by_node[id(node)] = known
            self.declare_within(node)
            return known
        self.pending_key = key
        return None

    def declare_within(self, node: Any) -> None:
        """Declares the enumerators and tags that stand within a struct of a header, in a further file that has it."""
        for decl in node.decls:
            inner: Any = getattr(decl, "type", None)
            while kind(inner) in ("ArrayDecl", "PtrDecl", "TypeDecl"):
                inner = inner.type
            if kind(inner) == "Enum" and inner.values is not None or kind(inner) in ("Struct", "Union") and inner.decls is not None:
                self.resolve(inner)

    def members(self, struct: Struct, node: Any) -> None:
        found: List[Asked] = []
        for decl in node.decls:
            if kind(decl) in ("Pragma", "StaticAssert"):
                continue
            if decl.name in SIGNS:
                self.signed_layout(struct, found, decl.name, self.constant(decl.type.dim))
                continue
            type_ = self.resolve(decl.type)
            name = decl.name
            if name is None and getattr(decl, "bitsize", None) is None:
                if not isinstance(type_, Struct):
                    continue
                name = f"cbi_nameless_{len(found)}"
            bits = self.constant(decl.bitsize) if getattr(decl, "bitsize", None) is not None else None
            if is_open(type_):
                raise self.refuse(decl, "an array of unknown length in a struct", "a constant length")
            if bits is not None and isinstance(type_, Int) and (bits > 8 * type_.size or bits < 0):
                raise self.refuse(decl, "a bit-field wider than its type", "a width that fits")
            target = type_
            while isinstance(target, (Pointer, Array)):
                target = target.of if isinstance(target, Array) else target.to
            if isinstance(target, Struct) and not target.complete and target is not struct:
                struct.forward.add(name or "")
            found.append(Asked(name or "", type_, bits, False, self.said_alignment(Nameless(decl.type)), self.quals_of(decl.type)))
        said = {self.constant(decl.type.dim) for decl in node.decls if getattr(decl, "name", None) == "__cbi_packed"} | {1 for it in found if it.packed}
        if max(said, default=1) > 1 and 1 in said and any(it.bits is not None for it in found):
            raise self.refuse(node, "bit-fields that `packed` and `#pragma pack` speak of", "one of the two")
        if said and any(it.bits is not None and it.align for it in found):
            raise self.refuse(node, "a bit-field with an alignment of its own in a packed struct", "a member of its whole type")
        lay_out(struct, found)
        struct.members = [it._replace(type=INT if it.type.signed else UINT) if it.bits is not None and it.bits <= 32 and is_long(it.type) else it
                          for it in struct.members]
        self.structs.append(struct)
        self.model.hold_size(struct, node)
        self.count("structs with bit-fields" if any(member.bits is not None for member in struct.members) else "unions" if struct.union else "")

    def signed_layout(self, struct: Struct, found: "List[Asked]", what: str, amount: int) -> None:
        """What an attribute says of a struct, or of the member before it."""
        if what == "__cbi_packed":
            struct.pack = min(struct.pack or amount, amount)
        elif what == "__cbi_aligned":
            struct.align = max(struct.align, amount)
        elif found:
            last = found[-1]
            found[-1] = last._replace(packed=True) if what == "__cbi_member_packed" else last._replace(align=amount)

    def enumeration(self, node: Any) -> CType:
        if node.values is None:
            known: Optional[CType] = self.scope.find_tag("enum " + str(node.name))
            return known if known is not None else UINT
        if id(node) in self.by_node:
            return self.by_node[id(node)]
        value, least, most = 0, 0, 0
        self.count("enumerations")
        for item in node.values.enumerators:
            if item.value is not None:
                value = self.constant(item.value)
            least, most = min(least, value), max(most, value)
            symbol = Symbol(item.name, "constant", INT, constant=value)
            if not INT.least <= value <= INT.most:
                symbol.type = UINT if value <= UINT.most else base_type(["long", "long"])
            self.scope.names[item.name] = symbol
            value += 1
        type_ = INT if least < 0 else UINT
        if most > (INT.most if least < 0 else UINT.most) or least < INT.least:
            type_ = LLONG if least < 0 else ULLONG
        token = self.tokens[max(self.place_of(node), 0)]
        type_ = type_._replace(enum=(node.name, token.file, token.line, node.values.enumerators[0].name))
        self.by_node[id(node)] = type_
        if node.name:
            self.scope.tags["enum " + node.name] = type_
        return type_
