"""Functions that give memory and are called by pointers (`hooks->allocate(n)`): a call goes to copies for the type that its value is converted to.

A call by a pointer gives a `void *`, so that what is to lie in the memory is known where the value is converted. Each type that is asked for has a kind of calls
of its own, which goes to the copies for that type of the wrappers of the text (wrappers.py), and of `malloc`, `calloc` and `realloc` where the text uses these as
values. A function that is no wrapper gives what it gives without a type, too.
"""
from typing import Any, Dict, List, Optional, Sequence, Set

from cbi_port.dispatch import Kind
from cbi_port.lines import Refusal
from cbi_port.names import names_of
from cbi_port.nodes import Call, Node
from cbi_port.objects import goes_on, is_sum
from cbi_port.reader import HEADERS
from cbi_port.scopes import Symbol
from cbi_port.types import CType, Function, Pointer, Void
from cbi_port.values import Value
from cbi_port.wrappers import IN_PRELUDE, MAKERS, Wrapper

ADVICE = "a pointer to the type that it is to hold"


class Makers:
    """The calls by pointers of a program that may give memory."""

    def __init__(self, program: Any) -> None:
        self.program = program
        self.named: Optional[Set[str]] = None     # the names that the text has elsewhere than before `(`
        self.unsure: Set[str] = set()             # kinds of calls that were made here, of which the text needn't have one
        self.untyped: Dict[str, int] = {}           # where a kind of calls is used without a type first

    def of_library(self, name: str) -> Optional[Symbol]:
        """What stands for a function of the library that is used as a value."""
        program = self.program
        if name not in MAKERS | {"free"}:
            return None
        symbol: Symbol = program.prelude_symbol(IN_PRELUDE + name)
        program.names.authors.setdefault(symbol.text, name)
        known = program.makers_of_text.known
        if name in MAKERS and symbol not in known:
            item, unit = next((item, unit) for it, item, unit in program.waiting if it is symbol)
            known[symbol] = Wrapper(symbol, item, unit, {"old"} if name == "realloc" else set())
        return symbol

    def are_named(self) -> Set[str]:
        """The functions that give memory of which the text may take the address."""
        program = self.program
        if self.named is None:
            pairs = zip(program.tokens, program.tokens[1:])
            self.named = {token.text for token, after in pairs if token.kind == "name" and after.text != "(" and not token.file.startswith(HEADERS)}
        names = {it.name for it in program.makers_of_text.known} | (MAKERS - {it.name for it, _, _ in program.definitions})
        return self.named & names

    def may_give(self, type_: Function) -> bool:
        """Whether a call by a pointer to such a function may give memory."""
        program = self.program
        return not program.model.in_bytes and not program.in_prelude and isinstance(type_.result, Pointer) and isinstance(type_.result.to, Void) and bool(self.are_named())

    def called(self, value: Value, type_: Function, kinds: Sequence[CType], given: List[Node], node: Any, arguments: Sequence[Any]) -> Value:
        """A call by a pointer, whose value says by what it is converted to which copies are called; `given` are its arguments."""
        program = self.program
        at = program.place_of(node)

        def call(to: Optional[CType]) -> Node:
            before = len(program.dispatch.kinds)
            name = program.dispatch.kind(type_, kinds, to)
            if len(program.dispatch.kinds) > before:
                self.unsure.add(name)
            self.untyped.setdefault(name, at) if to is None else None
            result = type_.result if to is None else Pointer(to)
            return Call(result, name, tuple(given), None, at)

        def fresh(to: Optional[CType]) -> Node:
            if to is not None and goes_on(to) and any(is_sum(it) for it in arguments):
                raise program.refuse(node, "an array at a struct's end that goes on behind it", "a pointer to memory of malloc", True)
            return call(to)
        return Value(type_.result, call(None), pure=False, fresh=fresh)

    # What is known once all calls are.

    def live(self) -> List[Kind]:
        """The kinds of calls that the text has."""
        kinds = list(self.program.dispatch.kinds.values())
        if not self.unsure:
            return kinds
        there = names_of(*self.program.sheet.every())
        return [it for it in kinds if it.name not in self.unsure or it.name in there]

    def use(self, kinds: Sequence[Kind]) -> bool:
        """Asks for the functions that calls may be, or for their copies; whether there is a new one."""
        wrappers, more = self.program.makers_of_text, False
        for kind in kinds:
            for symbol in self.program.dispatch.meant(kind):
                if kind.object is not None and symbol in wrappers.known:
                    copies = len(wrappers.copies)
                    wrappers.copy_for(wrappers.known[symbol], kind.object)
                    more = more or len(wrappers.copies) > copies
                elif kind.object is not None or not self.is_library(symbol):
                    more = more or not symbol.used
                    symbol.used = True
        return more

    def is_library(self, symbol: Symbol) -> bool:
        return symbol.name.startswith(IN_PRELUDE) and symbol in self.program.makers_of_text.known

    def finish(self) -> List[Refusal]:
        """Leaves out the kinds of calls that the text doesn't have; what is refused of the others."""
        live, found = self.live(), []
        self.program.dispatch.keep(live)
        for kind in live:
            if kind.object is None and any(map(self.is_library, self.program.dispatch.meant(kind))):
                at = self.untyped.get(kind.name, 0)
                found.append(Refusal(at, "memory of a call by a pointer without a type", ADVICE, True))
        return found
