"""Values of members, elements and dereferences as facts: a pass over the typed tree that has a variable of its own get each of them too, which pairs see.

A value is taken where the program itself has it: what is stored as the value of the assignment (`cbi_seen_1 = t->live = n`, C99 6.5.16p3), what is read in its
place (`if ((cbi_seen_1 = t->live) < n)`). So nothing is read that the program doesn't read there and then, and nothing is read twice.
"""
from dataclasses import replace
from typing import Any, Callable, Dict, List, NamedTuple, Optional, Set, Tuple

from cbi_port.author_texts import Texts, first_name, place_in, stored_in
from cbi_port.blocks import Declarator, Declare, Definition, Evaluate, For, Statement
from cbi_port.lines import NOTE, Token
from cbi_port.nodes import Assign, Behind, Binary, Call, Cast, Choice, Comma, Converted, Group, Index, Look, Node, Number, Part, Unary, bare, inner_fields, spot
from cbi_port.types import CHAR, INT, SCHAR, UCHAR, Array, CType, Int, is_float, is_long

WORDS = ("int", "unsigned", "char")     # the types whose variables pairs see
NO_READ, CALL, CONDITION = 0, 1, 2      # what a value that is read is for
LOADS = {f"cbi_load_{what}" for what in ("word", "byte", "half", "short", "bits", "signed")}
STORES = {f"cbi_store_{what}" for what in ("word", "byte", "half", "short")}
Key = Tuple[str, str]                   # a place in the author's words, and its type in the text


class Sought(NamedTuple):
    """A value that may be seen: `core` is what reads or stores it, and `wrapped` makes of that a node with the value in the type `word`."""
    text: str
    word: str
    stored: bool
    at: int
    core: Node
    wrapped: Callable[[Node], Node]


class Found(NamedTuple):
    """A value that may be seen: in which function, of which place, and what it is read for, or whether it is stored."""
    function: str
    key: Key
    reads: int
    stored: bool


def is_scalar(type_: CType) -> bool:
    """Whether a value is a whole number of at most 32 bits."""
    return isinstance(type_, Int) and not is_long(type_) and not is_float(type_)


def ungrouped(node: Node) -> Node:
    """The node without parentheses and conversions that change nothing."""
    while isinstance(node, (Group, Converted)):
        node = node.inner if isinstance(node, Group) else node.operand
    return node


def byte_in(node: Node) -> Optional[Node]:
    """What has a byte of which the text takes the bits without a sign: `x & 255`."""
    same = isinstance(node, Binary) and node.sign == "&" and node.type == UCHAR and bare(node.right) == Number(INT, 255)
    return ungrouped(node.left) if same and isinstance(node, Binary) else None


def as_byte(code: Node) -> Node:
    return Binary(UCHAR, "&", code, Number(INT, 255))


def is_place(node: Node) -> bool:
    return isinstance(node, (Part, Index)) or isinstance(node, Unary) and node.sign == "*"


def same(code: Node) -> Node:
    return code


class Seeker:
    """Finds the values of a text that may be seen."""

    def __init__(self, program: Any) -> None:
        self.program = program
        self.texts = Texts(program.tokens, program.names.authors)

    def read(self, node: Node) -> Optional[Sought]:
        """A value that a node reads."""
        core = byte_in(node)
        if core is not None and is_place(core) and core.type == UCHAR:
            return self.of_place(core, core, "int", False, lambda it: replace(node, left=it))
        if is_place(node) and node.type != UCHAR and is_scalar(node.type):
            return self.of_place(node, node, self.word(node), False, same)
        return self.called(node, LOADS, "value", place_in)

    def stored(self, node: Node, used: bool) -> Optional[Sought]:
        """A value that a node stores, and then has itself."""
        core = byte_in(node)
        if core is not None and self.target(core, True) is not None:
            return self.of_place(core, self.target(core, True), "int", True, lambda it: replace(node, left=it)) 
        target = self.target(node, used)
        if target is None:
            return self.called(node, STORES, "store", stored_in)
        core = Unary(node.type, node.sign, node.operand, node.at) if isinstance(node, Behind) else node
        if node.type == UCHAR:
            return None if used else self.of_place(core, target, "int", True, as_byte)
        return self.of_place(core, target, self.word(target), True, same)

    def target(self, node: Node, used: bool) -> Optional[Node]:
        """The member, element or dereference to which a node stores."""
        if isinstance(node, Assign):
            found = bare(node.target)
        elif isinstance(node, Unary) and node.sign in ("++", "--") or isinstance(node, Behind) and not used:
            found = bare(node.operand)
        else:
            return None
        return found if is_place(found) and is_scalar(found.type) else None

    def word(self, place: Node) -> str:
        """The type of a place in the text."""
        if isinstance(place, Part) and place.member is not None and place.member.bits is not None and place.member.bits < 32:
            return "int"
        return str(self.program.model.base(place.type)[0])

    def of_place(self, core: Node, place: Optional[Node], word: str, stored: bool, wrapped: Callable[[Node], Node]) -> Optional[Sought]:
        text = self.texts.spelled(place) if place is not None and word in WORDS else None
        name = first_name(place) if place is not None else None
        return Sought(text, word, stored, spot(name), core, wrapped) if text and name is not None else None

    def called(self, node: Node, calls: Set[str], doing: str, place: Callable[[str], Optional[str]]) -> Optional[Sought]:
        """A value in memory that is kept as bytes, which a call of the text reads or stores, by the note at it."""
        call = node.operand if isinstance(node, Cast) and node.word in WORDS else node
        if not isinstance(call, Call) or call.name not in calls or not 0 <= call.note < len(self.program.tokens) or not is_scalar(call.type):
            return None
        note = self.program.tokens[call.note]
        text = place(note.text) if note.kind.startswith(f"{NOTE}{doing} ") else None
        if text is None:
            return None
        if isinstance(node, Cast):
            return Sought(text, node.word, bool(calls is STORES), call.note, call, lambda it: replace(node, operand=it))
        word, wrapped = self.converted(call)
        return Sought(text, word, bool(calls is STORES), call.note, call, wrapped)

    def converted(self, call: Call) -> Tuple[str, Callable[[Node], Node]]:
        """The type in which a call's value is seen, and how it comes into it."""
        type_ = call.type
        if type_ in (CHAR, SCHAR):
            return "char", lambda it: Cast(type_, "char", it)
        if call.name.endswith("_word"):
            return ("int", lambda it: Cast(type_, "int", it)) if type_.signed else ("unsigned", same)
        return "int", same


class Looks:
    """Goes through functions: at first to find what may be seen, then to have the chosen values seen."""

    def __init__(self, program: Any, chosen: Optional[Set[Tuple[str, Key]]] = None, names: Optional[Dict[Key, str]] = None) -> None:
        self.program, self.seeker = program, Seeker(program)
        self.chosen, self.names = chosen, names if names is not None else {}
        self.found: List[Found] = []
        self.function = ""
        self.here: Dict[str, str] = {}

    def definition(self, it: Definition) -> Definition:
        """A function with its looks, and the variables that they are kept in."""
        self.function, self.here = it.head.name, {}
        items = self.inside(it.items, NO_READ)
        declared = [Declare(Declarator(None, word, 0, name)) for name, word in self.here.items()]
        return replace(it, first=(*declared, *it.first), items=items) if declared else it

    def inside(self, it: Any, reads: int) -> Any:
        """What a statement or a node has, with its looks."""
        if isinstance(it, tuple):
            return tuple(self.inside(inner, reads) for inner in it)
        if isinstance(it, Statement):
            return self.statement(it)
        return self.value(it, reads) if isinstance(it, Node) else it

    def statement(self, it: Statement) -> Statement:
        parts = {}
        for name in inner_fields(type(it)):
            old = getattr(it, name)
            if name == "condition":
                new = self.inside(old, CONDITION)
            elif isinstance(old, Node) and (isinstance(it, Evaluate) or isinstance(it, For) and name == "step"):
                new = self.unused(old)
            else:
                new = self.inside(old, NO_READ)
            if new is not old:
                parts[name] = new
        return replace(it, **parts) if parts else it

    def unused(self, node: Node) -> Node:
        """A node whose value nobody uses."""
        if isinstance(node, Group):
            return replace(node, inner=self.unused(node.inner))
        if isinstance(node, Comma):
            return replace(node, parts=tuple(map(self.unused, node.parts)))
        sought = self.seeker.stored(node, False)
        return self.value(node, NO_READ) if sought is None else self.look(sought, NO_READ, lambda: self.parts(node, NO_READ))

    def value(self, node: Node, reads: int) -> Node:
        """A node whose value is used."""
        sought = self.seeker.stored(node, True)
        if sought is None and reads != NO_READ:
            sought = self.seeker.read(node)
        return self.parts(node, reads) if sought is None else self.look(sought, reads, lambda: self.parts(node, reads))

    def look(self, sought: Sought, reads: int, otherwise: Callable[[], Node]) -> Node:
        """A value that is seen where it is chosen."""
        key = (sought.text, sought.word)
        if self.chosen is None:
            self.found.append(Found(self.function, key, NO_READ if sought.stored else reads, sought.stored))
            return otherwise()
        if (self.function, key) not in self.chosen:
            return otherwise()
        name = self.names.setdefault(key, f"cbi_seen_{len(self.names) + 1}")
        self.here[name] = sought.word
        core = self.parts(sought.core, reads)
        return Look(sought.core.type, name, sought.wrapped(core), self.note(sought))

    def note(self, sought: Sought) -> int:
        """The token that says what the author wrote."""
        tokens = self.program.tokens
        token = tokens[sought.at]
        tokens.append(Token(f"{NOTE}{'stored' if sought.stored else 'read'}", sought.text, token.file, token.line))
        return len(tokens) - 1

    # What a node has below it.

    def parts(self, node: Node, reads: int) -> Node:
        """A node that isn't looked at itself, with the looks below it."""
        parts = {}
        for name in inner_fields(type(node)):
            old = getattr(node, name)
            new = self.part(node, name, old, reads)
            if new is not old:
                parts[name] = new
        return replace(node, **parts) if parts else node

    def part(self, node: Node, name: str, old: Any, reads: int) -> Any:
        """A field of a node."""
        if isinstance(old, Node) and self.is_bare_place(node, name):
            return self.parts(old, reads)
        if isinstance(node, Comma):
            return (*map(self.unused, old[:-1]), self.value(old[-1], reads))
        decides = isinstance(node, Choice) and name == "condition" or isinstance(node, Binary) and node.sign in ("&&", "||") and name == "left"
        hands_on = isinstance(node, Call) and reads == NO_READ and self.is_authors(node)
        return self.inside(old, CONDITION if decides else CALL if hands_on else reads)

    def is_bare_place(self, node: Node, name: str) -> bool:
        """Whether what a field has is where something lies, and not the value there."""
        if isinstance(node, Assign):
            return name == "target"
        if isinstance(node, (Behind, Unary)):
            return isinstance(node, Behind) or node.sign in ("&", "++", "--")
        if isinstance(node, Part):
            return not node.arrow
        return isinstance(node, Index) and name == "base" and isinstance(node.base.type, Array)

    def is_authors(self, call: Call) -> bool:
        """Whether a call is one of the author's."""
        noted = 0 <= call.note < len(self.program.tokens) and self.program.tokens[call.note].kind.startswith(f"{NOTE}call ")
        return noted or not call.name.startswith("cbi_")
