"""A pass over the typed tree: what was left open until a function, or the whole program, was translated."""
from dataclasses import replace
from typing import Any, Callable, List, NamedTuple, Set

from cbi_port.blocks import Declare, Definition, Leaving, Nothing, Perhaps, Statement, placed
from cbi_port.nodes import Later, Node, inner_fields, marked



class Choice(NamedTuple):
    """`copied` where one of the structs (or kinds of cells) is copied as a whole, else `other`; `maker` is the kind of cells that `copied` makes."""
    structs: List[Any]
    copied: Any
    other: Any
    maker: str = ""


def changed(it: Any, change: Callable[[Any], Any]) -> Any:
    """The tree with each node replaced by what `change` gives of it, from the leaves on."""
    if isinstance(it, tuple):
        row = tuple(changed(inner, change) for inner in it)
        return it if all(left is right for left, right in zip(row, it)) else row
    if not isinstance(it, (Node, Statement, Definition)):
        return it
    parts = {}
    for name in inner_fields(type(it)):
        old = getattr(it, name)
        if isinstance(old, (Node, Statement, tuple)):
            new = changed(old, change)
            if new is not old:
                parts[name] = new
    return change(replace(it, **parts) if parts else it)


def left(definition: Definition, framed: bool) -> Definition:
    """A function with what it does where it returns: whether it has objects in memory as bytes is known at its end."""
    def change(it: Any) -> Any:
        return placed(it.framed if framed else it.plain, it.at) if isinstance(it, Leaving) else it
    found: Definition = changed(definition, change)
    return found


def decided(tree: Any, choices: List[Choice], copied: Set[Any]) -> Any:
    """A tree with what goes by the structs that are copied as wholes."""
    def change(it: Any) -> Any:
        if isinstance(it, Declare) and isinstance(it.behind, Nothing):
            return replace(it, behind=None)
        if not isinstance(it, (Later, Perhaps)):
            return it
        choice = choices[it.number]
        chosen = choice.copied if any(struct in copied for struct in choice.structs) else choice.other
        if isinstance(it, Perhaps):
            return Nothing() if chosen is None else changed(chosen, change)
        return marked(changed(chosen, change), it.at)
    return changed(tree, change)
