"""Objects of the dialect (C99 6.7.8, 7.20.3): how they are declared, begun, copied and made of the library's memory."""
from dataclasses import replace
from typing import Any, List, Optional, Tuple

from cbi_port.alike import cells, innermost, is_address
from cbi_port.blocks import Block, Declarator, Declare, Definition, Evaluate, For, Head, If, Nothing, Perhaps, Return, Statement, While, placed
from cbi_port.cells import MOST_CELLS, Cells
from cbi_port.conversions import number
from cbi_port.late import Choice
from cbi_port.nodes import (ADD, EQUAL, LEAST_INT, POSTFIX, Assign, Behind, Binary, Braces, Call, Cast, Group, Index, Later, Name, Node, Null, Number,
                            Part, SizeOf, String, Unary, bare, held, product, sequence)
from cbi_port.scopes import Symbol
from cbi_port.trees import kind
from cbi_port.types import CHAR, INT, UINT, VOID, Array, CType, Int, List_, Pointer, Struct, is_long, is_whole, size_of, spread, to_function
from cbi_port.values import Place, Value, word

ROUNDED = "rounded"    # a count of objects that takes bytes that aren't enough for one as one


def structs_in(type_: CType) -> List[Struct]:
    type_ = innermost(type_)[0]
    if not isinstance(type_, Struct):
        return []
    return [type_] + [inner for member in type_.members for inner in structs_in(member.type)]


def goes_on(type_: CType) -> bool:
    """Whether a struct ends with an array that may be meant as the beginning of one."""
    last = type_.members[-1].type if isinstance(type_, Struct) and type_.members else None
    return isinstance(last, Array) and last.count == 1


def is_sum(node: Any) -> bool:
    while kind(node) == "Cast":
        node = node.expr
    return kind(node) == "BinaryOp" and node.op in "+-"


class Objects(Cells):
    """Declarations and values of whole objects."""

    static_cells = 0  # of what lives as long as the program

    def declare_bare(self, symbol: Symbol) -> None:
        self.program.add(Declare(self.declare(symbol.type, symbol.text), None, self.cleared_if_copied(symbol)))

    def cleared_if_copied(self, symbol: Symbol) -> Optional[Statement]:
        """Structs that are copied as wholes have a value from the beginning, since a copy loads each cell."""
        found: List[Any] = structs_in(symbol.type)
        if not found and isinstance(symbol.type, Array):
            found = [self.maker_name(innermost(symbol.type)[0])]
        if not found:
            return None
        self.program.later.append(Choice(found, Evaluate(self.clear(self.variable(symbol))), None))
        return Perhaps(len(self.program.later) - 1)

    def declare_local(self, symbol: Symbol, node: Any, found: Any) -> None:
        program, type_ = self.program, symbol.type
        hoisted = id(node) in program.function.hoisted
        head = None if hoisted else self.declare(type_, symbol.text)
        at = program.place_of(node)
        place = self.variable(symbol)
        if node.init is None:
            if head is not None:
                program.add(Declare(head, None, self.cleared_if_copied(symbol), at))
            return
        if isinstance(type_, (Array, Struct)) and (kind(node.init) == "InitList" or isinstance(type_, Array)):
            self.declare_parts(symbol, place, head, node, found)
            return
        value = program.value(node.init if kind(node.init) != "InitList" else node.init.exprs[0])
        if is_whole(type_):
            row = program.assigned(place, value, False, node) if is_long(type_) else self.copy(place, program.converted(value, type_, True, node), False, node)
            if head is not None:
                program.add(Declare(head, None, None, at))
            program.do(row.code, node)
        elif head is None:
            program.do(program.assigned(place, value, False, node).code, node)
        else:
            program.add(Declare(head, program.converted(value, type_, True, node).code, None, at))

    def declare_parts(self, symbol: Symbol, place: Place, head: Optional[Declarator], node: Any, found: Any) -> None:
        program, type_ = self.program, symbol.type
        at = program.place_of(node)
        if found is None:
            type_, found = program.leaves(type_, node.init)
        if head is not None and set(found) == {()}:
            program.add(Declare(head, String(type_, program.string_text(found[()].node)), None, at))
            return
        items = self.flat_list(type_, found) if head is not None else None
        if head is not None:
            program.add(Declare(head, None if items is None else Braces(type_, tuple(items)), None, at))
        if items is not None:
            return
        self.begin_parts(place, type_, found, node)

    def begin_parts(self, place: Place, type_: CType, found: Any, node: Any) -> None:
        """Stores the values of an initialiser."""
        program = self.program
        if not program.is_full(type_, found):
            program.do(self.clear(place), node)
        for row in program.assignments(place, found, node):
            program.do(row.code, node)

    def flat_list(self, type_: CType, found: Any) -> Optional[List[Node]]:
        """The items of a flat list, where the dialect takes one."""
        if not isinstance(type_, Array) or isinstance(type_.of, (Array, Struct)) or is_long(type_.of) or not isinstance(type_.count, int):
            return None
        last = max((path[0] for path in found), default=0)
        if last > 2 * len(found) + 16 or list(found) != sorted(found):
            return None
        items = [self.empty(type_.of)] * (last + 1)
        for path, leaf in found.items():
            self.program.function.fresh_statement() if len(found) > 64 else None
            items[path[0]] = self.program.converted(self.program.value(leaf.node), type_.of, True, leaf.node).code
        return items

    def empty(self, type_: CType) -> Node:
        """What an element begins with of which nothing is said."""
        return Null(type_) if is_address(type_) and not self.in_bytes else Number(type_, 0)

    def open_array(self, node: Any, type_: Array) -> None:
        """An array of variable length is memory of `malloc`, which is given back where the function returns."""
        program = self.program
        function = program.function
        inner, count, lengths = spread(type_)
        holder = f"cbi_open_{len(function.ends) + 1}"
        name = Name(Pointer(type_.of), holder)
        function.fixed.append(Declare(self.declare(name.type, holder), Null(name.type)))
        symbol = Symbol(node.name, "variable", Pointer(type_.of), holder)
        program.scope.names[node.name] = symbol
        symbol.lengths, symbol.open = program.size_value(type_), type_
        amount = product(UINT, lengths + [Number(INT, count * cells(inner))] * (count * cells(inner) != 1))
        free = Call(VOID, "free", (name,))
        program.do(free, node)
        program.do(Assign(name.type, name, Call(name.type, "malloc", (amount,))), node)
        function.ends.append(Evaluate(free))

    def literal(self, type_: CType, found: Any, node: Any) -> Place:
        program = self.program
        if program.function.name == "cbi_init":
            name = program.names.take("cbi_literal")
            program.globals.append(Declare(self.declare(type_, name)))
        else:
            program.function.number += 1
            name = f"cbi_literal_{program.function.number}"
            program.function.fixed.append(Declare(self.declare(type_, name)))
        place = Place(type_, Name(type_, name))
        rows = [] if program.is_full(type_, found) else [self.clear(place)]
        for path, leaf in program.beside_zeros(type_, found).items():
            rows.append(program.assignment(program.part(place, path, node), leaf, node))
        if isinstance(type_, Array):
            begin = self.decayed(place)
            return Place(type_, sequence(type_, *rows, begin.code), False, flat=True)
        pointer = sequence(Pointer(type_), *rows, Unary(Pointer(type_), "&", place.code))
        return Place(type_, Unary(type_, "*", pointer), False, pointer=pointer)

    def store_string(self, place: Place, text: str, data: bytes, length: int, type_: Any) -> Node:
        count = type_.count if isinstance(type_.count, int) else len(data)
        return Call(VOID, "cbi_spell", (self.decayed(place).code, String(Pointer(CHAR), text), Number(INT, length), Number(INT, count)))

    def leave(self, row: Statement, value: Optional[Tuple[Node, CType]], at: int = -1) -> Statement:
        """A `return`, behind what is done before one; `value` is what it gives."""
        ends = self.program.function.ends
        if not ends:
            return placed(row, at)
        if value is None or isinstance(bare(value[0]), Number):
            # What is done before it changes no constant.
            return Block((*ends, row), at)
        code, type_ = value
        if is_whole(type_):
            return Block((Evaluate(code), *ends, Return(Name(type_, "cbi_result"))), at)
        base, stars = self.base(type_)
        name: Node = self.program.scalar_room(type_, "unsigned" if base == "unsigned" else "int") if not stars else Name(type_, self.program.function.temporary((base, stars)))
        return Block((Evaluate(Assign(type_, name, code)), *ends, Return(name)), at)

    def copy_to(self, target: Node, value: Value, struct: Any) -> Node:
        return Call(struct, self.copier(struct), (target, value.code))

    # Zeros and copies.

    def clear(self, place: Place) -> Node:
        """Makes all of a place zero."""
        type_, count = innermost(place.type)
        if isinstance(place.type, Array):
            return self.clear_cells(self.decayed(place).code, type_, Number(INT, count))
        return self.clear_cells(place.pointer if place.pointer is not None else Unary(Pointer(type_), "&", place.code), type_, Number(INT, count))

    def clear_cells(self, pointer: Node, type_: CType, count: Node) -> Node:
        if isinstance(type_, Struct):
            self.program.cleared.setdefault(type_, None)
        if is_address(type_):
            pointer = Cast(Pointer(type_), "void **", Cast(Pointer(VOID), "void *", pointer))
        return Call(VOID, f"cbi_clear_{self.maker_name(type_)}", (pointer, count))

    def clear_function(self, struct: Struct) -> Definition:
        outer, count = self.pointed(struct, "cbi_at"), Name(UINT, "cbi_count")
        rows: List[Statement] = [self.set_is(outer, Number(INT, 0))] if struct.union else []
        for member in struct.members:
            rows.append(self.clear_member(outer, member, struct))
        steps = [Evaluate(Behind(it.type, sign, it)) for it, sign in ((outer.pointer, "++"), (count, "--")) if it is not None]
        head = Head(f"cbi_clear_{struct.tag}", "void", 0, (self.declare(Pointer(struct), "cbi_at"), Declarator(UINT, "unsigned", 0, "cbi_count")))
        return Definition(head, (), (While(count, Block((*(rows or [Nothing()]), *steps))),))

    def which(self, union: Place) -> Node:
        """What says which member a union has."""
        assert union.pointer is not None
        return Part(INT, union.pointer, "cbi_is", True)

    def set_is(self, union: Place, value: Node) -> Statement:
        return Evaluate(Assign(INT, self.which(union), value))

    def pointed(self, struct: Struct, name: str) -> Place:
        """The struct that a parameter of a function of the tool's points to."""
        pointer = Name(Pointer(struct), name)
        return Place(struct, Unary(struct, "*", pointer), pointer=pointer)

    def bare_member(self, outer: Place, member: Any, struct: Struct) -> Place:
        inner = innermost(member.type)[0]
        stored = member.name in struct.forward and isinstance(inner, Pointer) and not to_function(inner)
        assert outer.pointer is not None
        return Place(member.type, Part(member.type, outer.pointer, self.member_name(member), True, member), member=member if member.bits is not None else None, stored=stored)

    def clear_member(self, outer: Place, member: Any, struct: Struct) -> Statement:
        place = self.bare_member(outer, member, struct)
        type_ = place.type
        if isinstance(type_, (Array, Struct)) or is_long(type_):
            return Evaluate(self.clear(place))
        return Evaluate(Assign(type_, place.code, self.empty(type_)))

    def copy_function(self, struct: Struct) -> Definition:
        tag, pointer = struct.tag, Pointer(struct)
        to, from_ = self.pointed(struct, "cbi_to"), self.pointed(struct, "cbi_from")
        rows: List[Statement] = [self.set_is(to, self.which(from_))] if struct.union else []
        for index, member in enumerate(struct.members, 1):
            row = self.copy_member(self.bare_member(to, member, struct), self.bare_member(from_, member, struct))
            rows.append(If(Binary(INT, "==", self.which(from_), Number(INT, index)), Block((row,))) if struct.union else row)
        if struct.union:
            self.program.cleared.setdefault(struct, None)
            clear = Call(VOID, f"cbi_clear_{tag}", (Name(pointer, "cbi_to"), word(1)))
            rows.append(If(Binary(INT, "==", self.which(from_), Number(INT, 0)), Evaluate(clear)))
        counter = [Declare(Declarator(INT, "int", 0, "cbi_n"))] * any(isinstance(member.type, Array) for member in struct.members)
        head = Head(f"cbi_copy_{tag}", f"struct {tag}", 1, (self.declare(pointer, "cbi_to"), self.declare(pointer, "cbi_from")))
        return Definition(head, tuple(counter), (*(rows or [Nothing()]), Return(Name(pointer, "cbi_to"))))

    def copy_member(self, left: Place, right: Place) -> Statement:
        type_, count = innermost(left.type)
        copier = self.copier(type_) if isinstance(type_, Struct) else "cbi_long_copy"
        if not isinstance(left.type, Array):
            if is_whole(type_):
                return Evaluate(Call(type_, copier, tuple(Unary(Pointer(type_), "&", it.code) for it in (left, right))))
            return Evaluate(Assign(type_, left.code, right.code))
        at = Name(INT, "cbi_n")
        to, from_ = (held(self.decayed(it._replace(stored=False)).code, POSTFIX) for it in (left, right))
        if is_whole(type_):
            inner: Node = Call(type_, copier, tuple(Binary(Pointer(type_), "+", it, at) for it in (to, from_)))
        else:
            inner = Assign(type_, Index(type_, to, at), Index(type_, from_, at))
        return For(Evaluate(Assign(INT, at, Number(INT, 0))), Binary(INT, "<", at, Number(INT, count)), Behind(INT, "++", at), Evaluate(inner))

    def union_function(self, struct: Struct, index: int, way: str) -> Definition:
        """What gives the place of a union's member: one that the union then has (`put`), must have (`get`), or both (`use`)."""
        member = struct.members[index - 1]
        name, inner = self.member_name(member), innermost(member.type)[0]
        stored = member.name in struct.forward and isinstance(inner, Pointer) and not to_function(inner)
        base, stars = ("void", 2) if stored else self.base(Pointer(member.type)) if not to_function(inner) else ("int", 1)
        at, number_ = self.pointed(struct, "cbi_at"), Number(INT, index)
        # One that was made zero as a whole, of which cbi_is is 0, has each member's zero.
        other = If(self.which(at), Evaluate(Call(VOID, "cbi_other_kind", ())))
        rows: List[Statement] = [If(Binary(INT, "!=", self.which(at), number_), other)] * (way != "put") + [self.set_is(at, number_)] * (way != "get")
        assert at.pointer is not None
        code: Node = Part(member.type, at.pointer, name, True, member)
        if not isinstance(member.type, Array):
            code = Unary(Pointer(member.type), "&", code)
            code = Cast(code.type, f"{base} {'*' * stars}", Cast(code.type, "void *", code)) if stored else code
        head = Head(f"cbi_{way}_{struct.tag}_{name}", base, stars, (self.declare(Pointer(struct), "cbi_at"),))
        return Definition(head, (), (*rows, Return(code)))

    # Memory of the library.

    def fresh(self, count: Value, node: Any, clear: bool) -> Value:
        """Memory of so many bytes. What is to be held says how many cells it is."""
        whole = "cbi_malloc" if self.program.keeps_sizes else "malloc"

        def made(type_: Optional[CType]) -> Node:
            return self.made(type_, node, clear)
        return Value(Pointer(VOID), Call(Pointer(VOID), whole, (self.some(count, CHAR, node),)), pure=False, fresh=made,
                     origin="unknown" if clear or self.program.keeps_sizes else None)

    def made(self, type_: Any, node: Any, clear: bool) -> Node:
        """A call that makes memory for objects of a type; `node` are the factors of its size in bytes."""
        program = self.program
        inner, per = innermost(type_)
        if goes_on(type_) and any(is_sum(it) for it in node):
            raise program.refuse(None, "an array at a struct's end that goes on behind it", "a pointer to memory of malloc", True)
        count = self.objects(type_, node)
        amount = self.some(count, type_, node)
        name, pointer = self.maker_name(inner), Pointer(type_)
        new = Call(pointer, f"cbi_new_{name}", (count.code if per == 1 else Binary(UINT, "*", count.code, Number(INT, per)),))
        if clear or program.keeps_sizes:
            program.makers.setdefault(name, inner)
            return new
        owners: List[Any] = [*structs_in(type_)] or [name]
        program.later.append(Choice(owners, new, Call(pointer, "malloc", (amount,)), name))
        program.makers_if.setdefault(name, inner)
        return Later(pointer, len(program.later) - 1)

    def maker_name(self, type_: CType) -> str:
        if isinstance(type_, Struct):
            return type_.tag
        if isinstance(type_, (Pointer, List_)) and not to_function(type_):
            return "pointers"
        return "long" if is_long(type_) else self.base(type_)[0]

    def some(self, count: Value, type_: CType, nodes: List[Any]) -> Node:
        """How many cells are asked for as memory of so many objects. For none glibc gives memory too: then it is one cell."""
        program = self.program
        if program.keeps_sizes or program.in_prelude or count.constant or len(nodes) == 1 and self.is_some(nodes[0]):
            return self.amount(type_, count)
        if count.constant == 0:
            return Number(INT, 1)
        before: Optional[Node] = None
        if not count.pure:
            before, count = program.keep(count)
        is_none = Group(INT, Binary(INT, "==", held(count.code, EQUAL + 1), Number(INT, 0)))
        code = Binary(UINT, "+", self.amount(type_, count), is_none)
        return code if before is None else sequence(UINT, before, code)

    def is_some(self, node: Any) -> bool:
        """Whether a size isn't zero, as that of a text with its end isn't: `strlen(s) + 1`."""
        if kind(node) != "BinaryOp" or node.op != "+":
            return False
        sides = [node.left, node.right]
        return any(kind(it) == "Constant" and self.program.value(it).constant for it in sides) and any(
            kind(it) == "FuncCall" and kind(it.name) == "ID" and it.name.name == "strlen" for it in sides)

    def amount(self, type_: CType, count: Value) -> Node:
        per = cells(type_)
        inner = innermost(type_)[0]
        if per == 1:
            return held(count.code, ADD)
        each: Node = SizeOf(UINT, f"struct {inner.tag}") if isinstance(inner, Struct) and not isinstance(type_, Array) else Number(INT, per)
        return each if count.constant == 1 else Binary(UINT, "*", count.code, each)

    def objects(self, type_: CType, nodes: List[Any]) -> Value:
        """How many objects of a type so many bytes are."""
        program = self.program
        size = size_of(type_)
        factors: List[Any] = []
        for node in nodes:
            stack = [node]
            while stack:
                it = stack.pop(0)
                if kind(it) == "BinaryOp" and it.op == "*":
                    stack[:0] = [it.left, it.right]
                elif kind(it) == "Cast" and isinstance(program.resolve(it.to_type.type), Int) and size_of(program.resolve(it.to_type.type)) == 4:
                    stack.insert(0, it.expr)
                else:
                    factors.append(it)
        values = [program.value(it) for it in factors]
        for index, value in enumerate(values):
            if value.constant == size and size > 0 and (size > 1 or len(values) > 1):
                rest = values[:index] + values[index + 1:]
                return self.product(rest)
        whole = self.product(values)
        if size <= 1:
            return whole
        if whole.constant is not None:
            return number(-(-whole.constant // size), UINT)
        return Value(UINT, Binary(UINT, "/", Binary(UINT, "+", whole.code, word(size - 1)), word(size)), pure=whole.pure, origin=ROUNDED)

    def product(self, values: List[Value]) -> Value:
        if not values:
            return number(1, UINT)
        values = [self.program.converted(it, UINT, True) if is_long(it.type) else it for it in values]
        result = values[0]
        for it in values[1:]:
            result = self.program.operated("*", result, it, None)
        if result.constant is not None:
            return number(result.constant & 0xffffffff, UINT)
        return result

    # What lives as long as the program, and functions.

    def declare_static(self, symbol: Symbol, init: Any, node: Any) -> Optional[Declare]:
        """The declaration of a global; what it can't begin with in the text is stored at the program's start."""
        program, type_ = self.program, symbol.type
        head = self.declare(type_, symbol.text)
        self.static_cells += cells(type_)
        if self.static_cells > MOST_CELLS:
            raise program.refuse(node, f"more than {MOST_CELLS:,} scalars in variables that live as long as the program", "smaller arrays", True)
        if init is None:
            return Declare(head)
        place = self.variable(symbol)
        if isinstance(type_, (Array, Struct)) and (kind(init) == "InitList" or isinstance(type_, Array)):
            type_, found = program.leaves(type_, init)
            if set(found) == {()}:
                return Declare(head, String(type_, program.string_text(found[()].node)))
            flat = self.static_list(type_, found)
            if flat is not None:
                return Declare(head, Braces(type_, tuple(flat)) if flat else None)
            program.first.out.extend(program.assignments(place, found, node))
            return Declare(head)
        program.function.fresh_statement()
        value = program.value(init if kind(init) != "InitList" else init.exprs[0])
        if is_whole(type_):
            row = program.assigned(place, value, False, node) if is_long(type_) else self.copy(place, value, False, node)
            program.first.out.append(Evaluate(row.code))
            return Declare(head)
        known = self.plain(program.converted(value, type_, True, node))
        if known is not None:
            return Declare(head, known)
        program.first.out.append(Evaluate(program.assigned(place, value, False, node).code))
        return Declare(head)

    def plain(self, value: Value) -> Optional[Node]:
        """A value as a global may begin with it."""
        if value.null:
            return self.empty(value.type)
        if isinstance(value.type, Int) and value.constant is not None:
            constant = -LEAST_INT if value.constant == LEAST_INT else value.constant
            return Number(value.type, constant, constant > 0x7fffffff)
        code = bare(value.code)
        if isinstance(value.type, Pointer) and (to_function(value.type) and isinstance(code, Number) and not code.unsigned and (code.spelling or str(code.value)).isdigit() or isinstance(code, String)):
            return replace(code, at=-1)
        return None

    def static_list(self, type_: CType, found: Any) -> Optional[List[Node]]:
        program = self.program
        if not isinstance(type_, Array) or isinstance(type_.of, (Array, Struct)) or is_long(type_.of):
            return None
        last = max((path[0] for path in found), default=-1)
        if last > 4 * len(found) + 64:
            return None
        items = [self.empty(type_.of)] * (last + 1)
        for path, leaf in found.items():
            known = self.plain(program.converted(program.value(leaf.node), type_.of, True, leaf.node))
            if known is None:
                return None
            items[path[0]] = known
        return items

    def take_parameter(self, symbol: Symbol) -> Tuple[str, List[Statement]]:
        """A parameter's name in the head, and what is done with it first."""
        if not is_whole(symbol.type):
            return symbol.text, []
        name = f"cbi_in_{symbol.text}"
        type_ = symbol.type
        self.program.function.fixed.append(Declare(self.declare(type_, symbol.text)))
        copier = "cbi_long_copy" if is_long(type_) else self.copier(type_)
        return name, [Evaluate(Call(type_, copier, (Unary(type_, "&", Name(type_, symbol.text)), Name(type_, name))))]

    def entry(self, body: Any) -> List[Statement]:
        """What a function does first."""
        return []

    def main_arguments(self, helpers: Any, count: int) -> Tuple[List[Node], List[Statement]]:
        """The arguments of `main`, and what is done before it for them."""
        given: List[Node] = []
        rows: List[Statement] = []
        if count == 0:
            return given, rows
        type_ = Pointer(CHAR)
        table = Name(Pointer(type_), "cbi_words")
        if self.program.args == "first-line":
            number_ = Name(INT, "cbi_count")
            helpers.heads.append(Declare(Declarator(type_, "char", 1, table.name, (66,))))
            rows.append(Declare(Declarator(INT, "int", 0, "cbi_count"), Call(INT, "cbi_first_line", (table,))))
            return [number_, table, Binary(table.type, "+", table, Number(INT, 65))][:count], rows
        texts = ['"prog"'] + [quoted(it) for it in self.program.args or []]
        helpers.heads.append(Declare(Declarator(type_, "char", 1, table.name, (len(texts) + 2,))))
        for index, text in enumerate(texts):
            place, string = Index(type_, table, Number(INT, index)), String(type_, text)
            length = Binary(INT, "+", Call(INT, "cbi_length", (string,)), Number(INT, 1))
            rows += [Evaluate(Assign(type_, place, Call(type_, "malloc", (Number(INT, len(text) + 1),)))),
                     Evaluate(Call(VOID, "cbi_spell", (place, string, length, Number(INT, 1))))]
        given = [Number(INT, len(texts)), table, Binary(table.type, "+", table, Number(INT, len(texts) + 1))]
        return given[:count], rows

    def word_of_main(self, number: Node) -> Node:
        """One of the words of the input's first line."""
        return Index(Pointer(CHAR), Name(Pointer(Pointer(CHAR)), "cbi_words"), number)


def quoted(word: str) -> str:
    data = word.encode("utf-8")
    return '"' + "".join(chr(byte) if 32 <= byte < 127 and chr(byte) not in '"\\?' else f"\\{byte:03o}" for byte in data) + '"'
