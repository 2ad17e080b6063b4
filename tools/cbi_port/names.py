"""A pass over the typed tree: which names of functions, variables and structs it has."""
import re
from typing import Any, List, Sequence, Set

from cbi_port.blocks import Declarator, Definition, Head, Record, Statement, Template
from cbi_port.nodes import Call, Cast, Name, Node, SizeOf, children

STRUCT = "struct "
WORD = re.compile(r"[A-Za-z_]\w*")


def tag(spelling: str) -> str:
    """The name of a struct by which a type is spelled; empty where it is none."""
    return spelling[len(STRUCT):].split(" ")[0] if spelling.startswith(STRUCT) else ""


def named_early(trees: Sequence[Any]) -> Set[str]:
    """The names of functions, among others, that stand before their definitions, so that these are declared first."""
    found: Set[str] = set()
    defined: Set[str] = set()
    for tree in trees:
        names = set(WORD.findall(tree.text)) if isinstance(tree, Template) else names_of(tree)
        if isinstance(tree, Definition):
            defined.add(tree.head.name)
        found |= names - defined
    return found


def names_of(*trees: Any) -> Set[str]:
    """The names in trees."""
    found: Set[str] = set()
    stack = list(trees)
    while stack:
        it = stack.pop()
        if not isinstance(it, (Node, Statement, Definition, Head, Declarator, Record)):
            continue
        if isinstance(it, (Name, Call, Head, Declarator)):
            found.add(it.name)
        if isinstance(it, (Cast, SizeOf)):
            found.add(tag(it.word))
        if isinstance(it, (Head, Declarator)):
            found.add(tag(it.base))
        stack.extend(children(it))
    return found


def words_of(*trees: Any) -> Set[str]:
    """The names in trees, and all words of those that are kept as text."""
    return names_of(*trees).union(*(WORD.findall(tree.text) for tree in trees if isinstance(tree, Template)))


def named_records(records: Sequence[Record], words: Set[str]) -> List[Record]:
    """The structs that words name, and those that these name."""
    by_tag = {it.tag: it for it in records}
    found: Set[str] = set()
    wanted = [it for it in words if it in by_tag]
    while wanted:
        name = wanted.pop()
        if name in by_tag and name not in found:
            found.add(name)
            wanted.extend(names_of(by_tag[name]))
    return [it for it in records if it.tag in found]
