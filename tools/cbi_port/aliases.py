"""Names that stand for others (GNU C's `alias`): what a declaration names is what another name of the same file has."""
from typing import Any, Dict, List, NamedTuple, Optional, Sequence

from cbi_port.lines import Refusal, Token
from cbi_port.neighbours import declared_name


class Alias(NamedTuple):
    name: str
    target: str
    token: Token


def said(within: Sequence[Token], out: Sequence[Token]) -> Optional[Alias]:
    """What an attribute says of the name whose declarator ends before it; None where that is none outside functions."""
    target = next((it.text[1:-1] for it in within if it.kind == "string"), "")
    name = declared_name(out)
    depth = sum((it.text == "{") - (it.text == "}") for it in out)
    return Alias(name, target, within[0]) if name and target.isidentifier() and not depth else None


def put(program: Any) -> None:
    """Has these names mean what the others do, in all files; one that some file defines is what it defines there."""
    for unit in program.units:
        scope = program.scopes.get(unit.file)
        for it in unit.aliases if scope is not None else ():
            symbol = scope.names.get(it.target)
            known = program.externals.get(it.name)
            if known is not None and known.defined:
                continue
            if symbol is None or not symbol.defined:
                program.problems.append(Refusal(place_of(program, it), f"`{it.name}` as another name of `{it.target}`, which this file doesn't define", "its definition in this file"))
                continue
            for other in program.scopes.values():
                if known is not None and other.names.get(it.name) is known:
                    other.names[it.name] = symbol
            scope.names[it.name] = program.externals[it.name] = symbol


def place_of(program: Any, it: Alias) -> int:
    places: Dict[Any, int] = {}
    for at, token in enumerate(program.tokens):
        places.setdefault((token.file, token.line), at)
    found: List[int] = [places.get((it.token.file, it.token.line), 0)]
    return found[0]
