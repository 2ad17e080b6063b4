"""Functions that run before `main` and behind it (GNU C's `constructor` and `destructor`): `main` begins with calls of them.

Each file gets a function for each priority, which calls its own ones; `main` calls those functions, that of a lesser number first, and those without a number
last. What runs behind `main` is registered with `atexit` before all else, so that it comes behind what the program registers, and the other way round.
"""
import re
from typing import Any, Dict, List, NamedTuple, Optional, Sequence, Tuple

from pycparser import c_ast

from cbi_port.lines import Refusal, Token
from cbi_port.neighbours import closing, declared_name, like
from cbi_port.scopes import BUILTIN
from cbi_port.trees import kind, mentions

WORDS = ("destructor", "constructor")   # in the order in which `main` begins with them
LAST = 65536                            # behind all numbers that gcc takes
ADDED = re.compile(r"cbi_(destructor|constructor)_(\d+)_\d+$")


class Run(NamedTuple):
    """A function that an attribute names."""
    word: str
    priority: int
    name: str
    token: Token


def function_named(out: Sequence[Token], behind: Sequence[Token]) -> str:
    """The function that an attribute belongs to: its declarator ends before it, or comes behind it."""
    if out and out[-1].text == ")":
        return declared_name(out)
    at = 0
    while at + 1 < len(behind) and behind[at].text not in (";", "{"):
        if behind[at + 1].text == "(":
            if behind[at].kind == "name" and not behind[at].text.startswith("__attribute"):
                return behind[at].text
            at = closing(behind, at + 1)
        at += 1
    return ""


def runs_of(within: Sequence[Token], out: Sequence[Token], behind: Sequence[Token]) -> List[Optional[Run]]:
    """What an attribute says of when its function runs; None for a priority that is no number, and where no function is found."""
    found: List[Optional[Run]] = []
    for at, it in enumerate(within):
        word = it.text.strip("_")
        if it.kind != "name" or word not in WORDS:
            continue
        said = within[at + 2:closing(within, at + 1)] if within[at + 1].text == "(" else []
        name = function_named(out, behind)
        bare = [row.text for row in said if row.text not in ("(", ")")]
        number = bare[0] if len(bare) == 1 else ""
        if not name or said and not number.isdigit():
            found.append(None)
        else:
            found.append(Run(word, int(number or LAST), name, it))
    return found


def functions(runs: Sequence[Run], first: int) -> List[Token]:
    """The functions of a file that call what runs before `main`, or register what runs behind it."""
    groups: Dict[Tuple[str, int], Dict[str, Token]] = {}
    for run in runs:
        if not any(run.name in names for (word, _), names in groups.items() if word == run.word):
            groups.setdefault((run.word, run.priority), {})[run.name] = run.token
    tokens: List[Token] = []
    for (word, priority), names in groups.items():
        token = next(iter(names.values()))
        words = ["void", f"cbi_{word}_{priority}_{first}", "(", "void", ")", "{"]
        for name in names:
            words += [name, "(", ")", ";"] if word == "constructor" else [BUILTIN + "atexit", "(", name, ")", ";"]
        tokens.extend(like(token, it, "name" if it[0].isalpha() or it[0] == "_" else "mark") for it in [*words, "}"])
    return tokens


def put_before_main(units: Sequence[Any], problems: List[Refusal]) -> None:
    """Has `main` begin with calls of these functions."""
    items = [item for unit in units if unit.tree is not None for item in unit.tree.ext if kind(item) == "FuncDef"]
    main = next((item for item in items if item.decl.name == "main"), None)
    added = [(WORDS.index(found[1]), int(found[2]), at, item) for at, item in enumerate(items) for found in [ADDED.match(item.decl.name)] if found]
    if main is None or not added:
        return
    if any(mentions(item.body, "main") for item in items):
        problems.append(Refusal(added[0][3].decl.coord.line, "a constructor beside a call of `main`", "a function that `main` calls, in place of `main`"))
    coord = main.body.coord
    calls = [c_ast.FuncCall(c_ast.ID(item.decl.name, coord), None, coord) for _, _, _, item in sorted(added, key=lambda it: it[:3])]
    main.body.block_items = [*calls, *(main.body.block_items or [])]
