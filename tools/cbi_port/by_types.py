"""Functions that are added for a type (C99 7.20.3 to 7.20.5, 7.21.2): memory for objects of it, and how such objects are moved, sorted and searched."""
from typing import Any, List, Optional, Tuple

from cbi_port.alike import cells
from cbi_port.blocks import Block, Declarator, Declare, Definition, Evaluate, For, Head, If, Return, Statement, While
from cbi_port.nodes import Assign, Behind, Binary, Call, Group, Name, Node, Null, Number, Unary
from cbi_port.types import INT, UINT, VOID, CType, Pointer, Struct, is_long, to_function

ANY = Pointer(VOID)
AT, TO, FROM, OLD, ROOM, KEY = (Name(ANY, f"cbi_{word}") for word in ("at", "to", "from", "old", "room", "key"))
COUNT, HAD, N, HALF, I, J, LOW, MIDDLE = (Name(UINT, f"cbi_{word}") for word in ("count", "had", "n", "half", "i", "j", "low", "middle"))
ORDER, SIGN, WITH = Name(INT, "cbi_order"), Name(INT, "cbi_sign"), Name(ANY, "cbi_with")
NULL, ZERO, ONE = Null(ANY), Number(INT, 0), Number(INT, 1)


def op(sign: str, left: Node, right: Node) -> Node:
    return Binary(INT if sign in ("==", "!=", "<", "<=", "&&", "||") else left.type, sign, left, right)


def put(target: Node, value: Node) -> Statement:
    return Evaluate(Assign(target.type, target, value))


def call(name: str, *arguments: Node) -> Call:
    return Call(ANY, name, arguments)


def next_(name: Node) -> Statement:
    return Evaluate(Behind(name.type, "++", name))


def each(name: Node, test: Node, row: Statement) -> Statement:
    """A loop over numbers from 0 on."""
    return For(put(name, ZERO), test, Behind(name.type, "++", name), row)


class ByTypes:
    """The functions for types, where a cell keeps what was stored in it."""

    def __init__(self, program: Any) -> None:
        self.program = program

    def spelling(self, type_: CType) -> Tuple[str, int]:
        """How a pointer to cells of a type is spelled, and its stars; cells of pointers are all alike."""
        if isinstance(type_, Pointer):
            return ("int", 1) if to_function(type_) else ("void", 2)
        base, stars = self.program.model.base(Pointer(type_))
        return base, stars

    def pointer(self, name: Node, type_: CType) -> Declarator:
        """A pointer to objects of a type, as a parameter or a variable."""
        assert isinstance(name, Name)
        return Declarator(Pointer(type_), *self.spelling(type_), name.name)

    def generic(self, name: Node) -> Declarator:
        assert isinstance(name, Name)
        return Declarator(ANY, "void", 1, name.name)

    def number(self, name: Node) -> Declarator:
        assert isinstance(name, Name)
        return Declarator(name.type, "int" if name.type == INT else "unsigned", 0, name.name)

    def store(self, to: Node, from_: Node, type_: CType) -> Statement:
        """An element that is copied; both are pointers."""
        if isinstance(type_, Struct) or is_long(type_):
            return Evaluate(call(self.program.model.copier(type_) if isinstance(type_, Struct) else "cbi_long_copy", to, from_))
        return put(Unary(type_, "*", Group(ANY, to)), Unary(type_, "*", Group(ANY, from_)))

    def copied(self, to: Node, from_: Node, type_: CType, test: Optional[Node] = None) -> Statement:
        """Elements that are copied one after another."""
        return each(N, test if test is not None else op("<", N, COUNT), self.store(op("+", to, N), op("+", from_, N), type_))

    def room(self, type_: CType) -> List[Statement]:
        """Memory for as many objects beside."""
        return [put(ROOM, call("malloc", op("*", COUNT, Number(INT, cells(type_))))), If(op("==", ROOM, NULL), Evaluate(call("abort")))]

    def maker(self, name: str, type_: CType) -> Definition:
        """Memory for so many objects, each zero."""
        keeps, per = self.program.keeps_sizes, cells(type_)
        amount: Node = COUNT if per == 1 else op("*", COUNT, Number(INT, per))
        if not keeps:
            amount = op("+", amount, Group(INT, op("==", COUNT, ZERO)))
        base, stars = self.spelling(type_)
        head = Head(f"cbi_new_{name}", base, min(stars, 1) if base == "void" else stars, (self.number(COUNT),))
        clear = Evaluate(self.program.model.clear_cells(Name(Pointer(type_), "cbi_at"), type_, COUNT))
        return Definition(head, (), (Declare(self.pointer(AT, type_), call("cbi_malloc" if keeps else "malloc", amount)), If(AT, clear), Return(AT)))

    def resizer(self, name: str, type_: CType) -> Definition:
        """Memory that is made longer or shorter."""
        head = Head(f"cbi_resize_{name}", "void", 1, (self.generic(OLD), self.number(COUNT)))
        there = op("!=", OLD, NULL)
        return Definition(head, (), (
            Declare(self.pointer(TO, type_)), Declare(self.pointer(FROM, type_), OLD), Declare(self.number(HAD), ZERO), Declare(self.number(N)),
            If(there, put(HAD, op("/", call("cbi_size_of", OLD), Number(INT, cells(type_))))),
            If(op("&&", there, op("==", COUNT, ZERO)), Block((Evaluate(call("cbi_free", OLD)), Return(NULL)))),
            put(TO, call(f"cbi_new_{name}", COUNT)), If(op("==", TO, NULL), Return(NULL)),
            self.copied(TO, FROM, type_, op("&&", op("<", N, HAD), op("<", N, COUNT))),
            If(there, Evaluate(call("cbi_free", OLD))), Return(TO)))

    def mover(self, name: str, type_: CType) -> Definition:
        """A copy of objects that may overlap with where they go."""
        head = Head(f"cbi_move_{name}", *self.spelling(type_), (self.pointer(TO, type_), self.pointer(FROM, type_), self.number(COUNT)))
        make, check = self.room(type_)
        assert isinstance(make, Evaluate) and isinstance(make.code, Assign)
        return Definition(head, (), (
            Declare(self.number(N)), If(op("||", op("==", COUNT, ZERO), op("==", TO, FROM)), Return(TO)), Declare(self.pointer(ROOM, type_), make.code.value), check,
            self.copied(ROOM, FROM, type_), self.copied(TO, ROOM, type_), Evaluate(call("free", ROOM)), Return(TO)))

    def sorter(self, name: str, type_: CType, compare: str, handed: bool) -> Definition:
        """A sort by merging, which keeps the order of what is equal, as glibc's does; something may be handed to each comparison."""
        sort, more = f"cbi_sort{'_with' * handed}_{name}", [WITH] * handed
        head = Head(sort, "void", 0, (self.pointer(AT, type_), self.number(COUNT), self.number(ORDER), *map(self.generic, more)))
        first = op("<=", call(compare, ORDER, op("+", AT, I), op("+", AT, J), *more), ZERO)
        left, right = [Block((self.store(op("+", ROOM, N), op("+", AT, it), type_), next_(it))) for it in (I, J)]
        return Definition(head, (), (
            Declare(self.pointer(ROOM, type_)), Declare(self.number(HALF), op("/", COUNT, Number(INT, 2))), Declare(self.number(I), ZERO),
            Declare(self.number(J), HALF), Declare(self.number(N), ZERO), If(op("<", COUNT, Number(INT, 2)), Return()),
            Evaluate(call(sort, AT, HALF, ORDER, *more)), Evaluate(call(sort, op("+", AT, HALF), op("-", COUNT, HALF), ORDER, *more)),
            *self.room(type_), While(op("&&", op("<", I, HALF), op("<", J, COUNT)), Block((If(first, left, right), next_(N)))),
            While(op("<", I, HALF), Block((*left.items, next_(N)))),
            each(I, op("<", I, N), self.store(op("+", AT, I), op("+", ROOM, I), type_)), Evaluate(call("free", ROOM))))

    def searcher(self, name: str, type_: CType) -> Definition:
        """A search by halves."""
        head = Head(f"cbi_search_{name}", "void", 1, (self.generic(KEY), self.pointer(AT, type_), self.number(COUNT), self.number(ORDER)))
        there = op("+", AT, MIDDLE)
        rounds = Block((
            put(MIDDLE, op("/", op("+", LOW, COUNT), Number(INT, 2))), put(SIGN, call(self.program.sort_call, ORDER, KEY, there)),
            If(op("==", SIGN, ZERO), Return(there)), If(op("<", SIGN, ZERO), put(COUNT, MIDDLE), put(LOW, op("+", MIDDLE, ONE)))))
        return Definition(head, (), (
            Declare(self.number(LOW), ZERO), Declare(self.number(MIDDLE)), Declare(self.number(SIGN)), While(op("<", LOW, COUNT), rounds), Return(NULL)))
