"""Pointers to functions (C99 6.5.2.2): they are numbers, and each kind of call gets a function that goes through those that it may be."""
from typing import Any, Dict, List, NamedTuple, Optional, Sequence, Tuple

from cbi_port.blocks import Block, Declarator, Definition, Evaluate, Head, If, Return, Statement
from cbi_port.nodes import Binary, Call, Name, Node, Number
from cbi_port.scopes import Symbol
from cbi_port.types import INT, UCHAR, UINT, VALIST, VOID, CType, Function, Int, Pointer, Void, is_float, is_long, is_pointer, is_whole, same, to_function

FUNCTION = "cbi_function"   # the parameter that says which function is meant


def head_of(model: Any, result: CType) -> Tuple[str, int]:
    """How the result of a function is spelled, and its stars."""
    if result == UCHAR:
        return "int", 0  # a char of the text has a sign
    base, stars = model.whole(result) if is_whole(result) else model.base(result)
    return base, stars


def parameter(model: Any, type_: CType, name: str) -> Declarator:
    base, stars = model.whole(type_) if is_whole(type_) else model.base(type_)
    return Declarator(type_, base, stars, name)


def signature(model: Any, name: str, type_: Function, kinds: Sequence[CType], names: Sequence[str], lead: Sequence[Declarator] = ()) -> Head:
    """A function's head. What is handed on by its place is a pointer."""
    rows = [parameter(model, type_.result, "cbi_result")] if is_whole(type_.result) else []
    rows += [*lead, *(parameter(model, it, word) for it, word in zip(kinds, names))]
    if type_.more:
        rows.append(parameter(model, VALIST, "cbi_more"))
    return Head(name, *head_of(model, type_.result), tuple(rows))


class Kind(NamedTuple):
    """A kind of calls: the function that goes through all, and the types of the function that is called and of the arguments. `object` is what memory is to hold
    that the function gives, where the call says it."""
    name: str
    type: Function
    arguments: List[CType]
    object: Optional[CType] = None


class Dispatch:
    """The functions of a program that have an address, and the kinds of calls by pointers."""

    def __init__(self, model: Any) -> None:
        self.model = model
        self.numbers: Dict[Symbol, int] = {}
        self.kinds: Dict[Any, Kind] = {}
        self.made = 0   # how many kinds there have been

    def number(self, symbol: Symbol) -> int:
        """The number that stands for a function's address."""
        return self.numbers.setdefault(symbol, len(self.numbers) + 1)

    def kind(self, type_: Function, arguments: Sequence[CType], object_: Optional[CType] = None) -> str:
        """The name of the function for calls of a kind."""
        key = (head_of(self.model, type_.result), is_float(type_.result),
               tuple((self.model.base(it), is_whole(it), is_float(it)) for it in arguments), type_.more, object_)
        if key not in self.kinds:
            self.made += 1
            self.kinds[key] = Kind(f"cbi_call_{self.made}", type_, list(arguments), object_)
        return self.kinds[key].name

    def keep(self, kinds: Sequence[Kind]) -> None:
        """Leaves out all other kinds."""
        self.kinds = {key: it for key, it in self.kinds.items() if it in kinds}

    def meant(self, kind: Kind) -> List[Symbol]:
        """The functions that a call of a kind may be."""
        known = self.model.program.makers_of_text.known     # whose memory no call drops
        return [symbol for symbol in self.numbers if self.may_be(symbol.type, kind) and not (isinstance(kind.type.result, Void) and symbol in known)]

    def may_be(self, other: Any, kind: Kind) -> bool:
        type_, model = kind.type, self.model
        if not isinstance(other, Function) or other.more != type_.more or not takes_so_many(other, kind):
            return False
        if isinstance(type_.result, Void):
            if is_whole(other.result):
                return False
        elif head_of(model, other.result) != head_of(model, type_.result) or is_float(other.result) != is_float(type_.result):
            return False
        return all(map(self.may_pass, kind.arguments, other.parameters))

    def may_pass(self, from_: CType, to: CType) -> bool:
        """Whether an argument may go to a parameter."""
        if is_whole(from_) or is_whole(to):
            return is_whole(from_) and is_whole(to) and (same(to, from_) or is_long(to) and is_long(from_) and is_float(to) == is_float(from_))
        in_bytes = self.model.in_bytes
        if not in_bytes and is_pointer(from_) != is_pointer(to):
            return False
        if self.model.base(from_) == self.model.base(to):
            return True
        if isinstance(from_, Int) and isinstance(to, Int):
            return is_float(from_) == is_float(to)
        return in_bytes or is_pointer(from_) and is_pointer(to) and not to_function(from_) and not to_function(to) and bool(self.model.alike_ends(from_, to))

    def given(self, from_: CType, to: CType, name: str) -> Node:
        """An argument as a parameter takes it: pointers to different pointers want a cast."""
        code = Name(from_, name)
        if self.model.in_bytes or not is_pointer(from_) or not is_pointer(to) or "void *" in (self.model.spell(from_), self.model.spell(to)):
            return code
        cast: Node = code if self.model.base(from_) == self.model.base(to) else self.model.cast(to, code)
        return cast

    def definition(self, kind: Kind) -> Definition:
        """The function that goes through all that a call of a kind may be."""
        type_, in_bytes = kind.type, self.model.in_bytes
        names = [f"cbi_{place}" for place in range(len(kind.arguments))]
        function = Name(UINT if in_bytes else INT, FUNCTION)
        type_ = type_ if kind.object is None else type_._replace(result=Pointer(kind.object))
        rows: List[Statement] = []
        for symbol in self.meant(kind):
            result = [Name(type_.result, "cbi_result")] * is_whole(type_.result)
            given = [self.given(it, to, word) for it, to, word in zip(kind.arguments, symbol.type.parameters, names)]
            symbol_of = symbol if kind.object is None else self.model.program.makers_of_text.made_for(symbol, kind.object)
            call = Call(type_.result, symbol_of.text, (*result, *given, *[Name(VALIST, "cbi_more")] * type_.more), symbol_of)
            test = Binary(INT, "==", function, Number(INT, self.numbers[symbol], in_bytes))
            rows.append(If(test, Block((Evaluate(call), Return())) if isinstance(type_.result, Void) else Return(call)))
        rows.append(Evaluate(Call(VOID, "cbi_no_function", (function,))))
        head = signature(self.model, kind.name, type_, kind.arguments, names, [parameter(self.model, function.type, FUNCTION)])
        return Definition(head, (), tuple(rows))


def takes_so_many(other: Function, kind: Kind) -> bool:
    """Whether a function is called by so many arguments; one that isn't declared with its parameters leaves the last ones."""
    given = len(kind.arguments)
    return len(other.parameters) == given or len(other.parameters) < given and not kind.type.known and not other.known
