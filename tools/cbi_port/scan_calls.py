"""Calls of the `scanf` family (C99 7.19.6.2) where a cell keeps what was stored in it: each letter must be that of its place's type."""
import re
from typing import Any, Optional, Sequence

from cbi_port import forms
from cbi_port.alike import like_char
from cbi_port.trees import kind
from cbi_port.types import Array, Int, is_float, is_pointer, spelled
from cbi_port.values import Value


class ScanCalls:
    """Rewrites forms by the types of the places that they store to."""

    def __init__(self, program: Any) -> None:
        self.program = program

    def call_scanf(self, node: Any, arguments: Sequence[Any], used: bool) -> Optional[Value]:
        return self.scanned(node, "scanf", arguments, 0)

    def call_fscanf(self, node: Any, arguments: Sequence[Any], used: bool) -> Optional[Value]:
        return self.scanned(node, "fscanf", arguments, 1)

    def call_sscanf(self, node: Any, arguments: Sequence[Any], used: bool) -> Optional[Value]:
        return self.scanned(node, "sscanf", arguments, 1)

    def scanned(self, node: Any, name: str, arguments: Sequence[Any], at: int) -> Optional[Value]:
        """A form whose letters go by the types of the places."""
        program = self.program
        if len(arguments) <= at or kind(arguments[at]) != "Constant" or arguments[at].type != "string":
            return None
        places = [program.type_of(argument) for argument in arguments[at + 1:]]

        def letter(found: "re.Match[str]") -> str:
            drop, width, made, size, what = found[1], found[2], found[3], found[4], found[5]
            if "*" in drop or what == "%" or not places:
                return found[0]
            to = places.pop(0)
            to = to.to if is_pointer(to) else to.of if isinstance(to, Array) else None
            if what[0] in "c[sCS":
                wide = size == "l" or what in "CS"
                inner = to.to if made and is_pointer(to) else to if not made else None
                if inner is None or not (isinstance(inner, Int) and inner.size == 4 and inner.signed if wide else like_char(inner)) or made and wide:
                    raise program.refuse(node, f"`{found[0]}` with a `{spelled(to) if to is not None else 'number'}`", "the letters of its type", True)
                return found[0]
            real = what in "fegaFEGA"
            bytes_ = {"": 4, "l": 8 if real else 4, "L": 8, "q": 8, "z": 4, "t": 4, "ll": 8, "j": 8, "h": 2, "hh": 1}.get(size)
            if not isinstance(to, Int) or to.size != bytes_ or is_float(to) != real:
                raise program.refuse(node, f"`{found[0]}` with a `{spelled(to) if to is not None else 'number'}`", "the letters of its type", True)
            if real:
                return f"%{width}{size.replace('L', 'l')}{what}"
            return f"%{width}{size}{'J' if (what in 'di') != to.signed else ''}{what}"
        if "$" in arguments[at].value and forms.names_arguments(arguments[at].value):
            raise program.refuse(node, "a form that names its arguments by number", "arguments in the form's order")
        form = re.sub(r"%([*'I]*)(\d*)(m?)(hh|h|ll|l|L|q|j|z|t|)(\[\^?\]?[^\]]*\]|[a-zA-Z%])", letter, arguments[at].value)
        from pycparser import c_ast
        found = program.prelude_symbol(name)
        assert found is not None
        program.use(found)
        row = [*arguments[:at], c_ast.Constant("string", form, arguments[at].coord), *arguments[at + 1:]]
        value: Value = program.called(found.text, found, found.type, row, node, True)
        return value
