"""Names and what they mean (C99 6.2.1 to 6.2.4)."""
from typing import Any, Dict, Optional, Set

from cbi_port.types import PLAIN, CType

# Words of the dialect, and what its library declares: no name of a text's own.
TAKEN = {"char", "do", "else", "for", "if", "int", "return", "sizeof", "struct", "unsigned", "void", "while", "break", "continue",
         "NULL", "EOF", "getchar", "putchar", "puts", "malloc", "free", "exit", "abort", "printf", "assert", "auto", "case", "const",
         "default", "double", "enum", "extern", "float", "goto", "inline", "long", "register", "restrict", "short", "signed", "static",
         "switch", "typedef", "union", "volatile", "_Bool", "_Complex", "_Imaginary"}

# What stands before the name of a function that was called as `__builtin_NAME`, so that no function of the text is taken for it.
BUILTIN = "__cbi_builtin_"
# How the pointers begin by which a function finds the variables of those around it: a parameter, or a variable outside functions.
AROUND = ("cbi_up_", "cbi_of_")


def plain_name(name: str) -> str:
    """The name behind `__builtin_`."""
    return name[len(BUILTIN):] if name.startswith(BUILTIN) else name


class Symbol:
    """A name's meaning. `kind` is variable, function, type or constant; `text` is the name in the text."""

    def __init__(self, name: str, kind: str, type_: CType, text: str = "", constant: int = 0) -> None:
        self.name, self.kind, self.text, self.constant = name, kind, text or name, constant
        self.type: Any = type_     # a CType
        self.outer = False         # stands outside functions, or lives as long
        self.static = False
        self.inner = False         # a static one of a function
        self.memory: Any = None    # its first byte's number, where memory is kept as bytes
        self.defined = False
        self.node: Any = None
        self.init: Any = None
        self.unit = ""
        self.pointer = ""          # a local name that points to what it is
        self.kept: Any = None      # the node that has it, where it has no name of its own
        self.declared = False      # its declaration stands in the text
        self.used = False
        self.emitted = False
        self.align = 0             # what its declaration says of its alignment
        self.lengths: Any = None   # of an array whose length is found out as the program runs
        self.open: Any = None      # the type of such an array; `type` is that of a pointer to its elements
        self.quals = PLAIN         # how it is qualified, or the type that it names
        self.object: Any = None    # of a copy of a function that gives memory: the type of what it is for
        self.at = -1


class Scope:
    def __init__(self, parent: Optional["Scope"] = None) -> None:
        self.parent = parent
        self.names: Dict[str, Symbol] = {}
        self.tags: Dict[str, Any] = {}

    def find(self, name: str) -> Optional[Symbol]:
        scope: Optional[Scope] = self
        while scope is not None:
            if name in scope.names:
                return scope.names[name]
            scope = scope.parent
        return None

    def find_tag(self, tag: str) -> Any:
        scope: Optional[Scope] = self
        while scope is not None:
            if tag in scope.tags:
                return scope.tags[tag]
            scope = scope.parent
        return None


class Names:
    """Gives out names that no other thing of the text has."""

    def __init__(self) -> None:
        self.used: Set[str] = set(TAKEN)
        self.authors: Dict[str, str] = {}  # what the author calls it that has a name of the tool's

    def take(self, wanted: str, author: str = "") -> str:
        """A name like this one; `author` is what the author calls the thing, where that isn't what is wanted."""
        author, wanted = author or wanted, wanted.replace("$", "_")[:48]
        name, count = wanted, 1
        while name in self.used:
            count += 1
            name = f"{wanted}_{count}"
        self.used.add(name)
        if not author.startswith("cbi_"):
            self.authors[name] = author
        return name

    def may_be_local(self, name: str) -> bool:
        return name not in TAKEN and not name.startswith("cbi_") and "$" not in name and len(name) < 63
