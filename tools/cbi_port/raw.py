"""The part of the prelude that is written in the dialect: it is read once, piece by piece, and the pieces that are named come into a text as they stand."""
import os
import re
from typing import Any, Dict, List, NamedTuple, Sequence, Set

from cbi_port.names import STRUCT

HERE = os.path.join(os.path.dirname(os.path.abspath(__file__)), "prelude")
PIECE = re.compile(r"^struct[^{}()\n]*\{[^{}\n]*\};|^[a-z][^{}\n]*\{\n.*?^\}|^[a-z][^(){};\n]*;", re.S | re.M)
NAMED = re.compile(r"(?:struct (\w+) \{|([^({=]*?[ *](\w+)\([^)]*\)) \{|[^;=\[]*?[ *](\w+)(?:\[\d+\])?(?: =[^;]*)?;)")
WORD = re.compile(r"\bcbi_\w+")


class Piece(NamedTuple):
    """A function by its head and its `text`, or a struct or a variable by its declaration alone; and the names that it has."""
    head: str
    text: str
    names: Set[str]
    is_struct: bool


def pieces_of(names: Sequence[str]) -> Dict[str, Piece]:
    """The pieces of files of the prelude by their names."""
    found: Dict[str, Piece] = {}
    for name in names:
        with open(os.path.join(HERE, name)) as file:
            source = re.sub(r"//[^\n]*|/\*.*?\*/", "", file.read(), flags=re.S)
        for piece in PIECE.findall(source):
            row = " ".join(piece.split())
            match = NAMED.match(row)
            if match:
                key = STRUCT + match[1] if match[1] else match[3] or match[4]
                head = match[2] + ";" if match[3] else row
                found[key] = Piece(head, row if match[3] else "", set(WORD.findall(row)), bool(match[1]))
    return found


def files_of(model: Any) -> List[str]:
    """The files that a model of memory wants."""
    return ["raw_bytes.c" if model.in_bytes else "raw_cells.c", *["raw_bounds.c"] * (model.in_bytes and model.bounded), "raw_long.c"]


def wanted(files: Sequence[str], names: Set[str]) -> Dict[str, Piece]:
    """The pieces that are named, and those that these name, in their order."""
    pieces = pieces_of(files)
    found: Set[str] = set()
    todo = set(names)
    while todo:
        name = todo.pop()
        for key in (name, STRUCT + name):
            if key in pieces and key not in found:
                found.add(key)
                todo |= pieces[key].names
    return {name: pieces[name] for name in pieces if name in found}
