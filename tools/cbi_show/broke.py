"""Where a failing run broke: the line and the calls that were active, the first wrong byte, or the loop that it never left. Not proved.

Found by tools/cbi_hunt/broke.py, kept in told.json, and told by text and page from here.
"""
from typing import Any, Dict, Iterator, List, NamedTuple, Optional, Tuple

from cbi_show.files import ending_said, visible

TRAP, OUTPUT, HANG, STATUS = "trap", "output", "hang", "status"
FIRST, LAST = 4, 1       # calls that are told of a long row, at its inner and at its outer end


class Call(NamedTuple):
    """A line of a function that a run was at, with what stands there."""
    file: str
    line: int
    function: str
    text: str = ""

    def at(self) -> str:
        return f"{self.file}:{self.line} in {self.function}"

    def told(self) -> str:
        return self.at() + (f": {self.text}" if self.text else "")


class Wrong(NamedTuple):
    """The first wrong byte of an output: its place from 1, its line and column, and the bytes; none is written or expected where an output ends."""
    byte: int
    line: int
    column: int
    wrote: Optional[int]
    due: Optional[int]


class Access(NamedTuple):
    """What gcc's sanitizers say of a bad access: its name, what it did, what it was near to, and where: the calls of the user's files at the access, where the
    object was freed and where it was allocated, or the line that declares it."""
    name: str
    what: str
    near: str
    used: List[Call]
    freed: List[Call]
    allocated: List[Call]
    declared: Optional[Call] = None


class Broke(NamedTuple):
    """Where a run broke. `calls` are the active ones, the innermost first, each at its line; `exact` where they were followed through the run, while without them
    there is one, at the site that was seen last. `before` is the last statement that was done before, somewhere else; `inside` a function of the port's own."""
    kind: str
    outcome: str
    exact: bool
    calls: List[Call]
    inside: str = ""
    before: Optional[Call] = None
    loop: Optional[Call] = None
    wrong: Optional[Wrong] = None
    access: Optional[Access] = None
    why_not: str = ""


# In words

def title_of(broke: Broke) -> Optional[str]:
    """The title of a hunt whose runs hang: the loop. Other failures have none of their own."""
    if broke.kind != HANG or not broke.loop and not broke.calls:
        return None
    if broke.loop:
        what = f"the loop `{broke.loop.text}`" if broke.loop.text else "the loop"
        return f"The run never leaves {what} at {broke.loop.at()}."
    return f"The run goes on without end; it was last seen at {broke.calls[0].at()}."


def lines_of(broke: Broke) -> Iterator[Tuple[str, str]]:
    """What is told of it, as pairs of a name and what it is."""
    yield from wrong_of(broke)
    if broke.calls:
        inner, *outer = broke.calls
        inside = f", in {broke.inside}" if broke.inside else ""
        yield head_of(broke), f"{inner.at()}{inside}" + (f": {inner.text}" if inner.text else "")
        yield from called_from(outer)
    if broke.before:
        yield "just before", broke.before.told()
    if broke.access:
        yield from access_of(broke.access)
    if broke.why_not:
        yield "not known", broke.why_not


def head_of(broke: Broke) -> str:
    if not broke.exact:
        return "last seen at"
    if broke.kind == TRAP:
        return f"it stopped ({ending_said(broke.outcome)}) at"
    if broke.kind == STATUS:
        return f"it ended with status {broke.outcome.partition(' ')[2]} at"
    if broke.kind == HANG:
        return "when it was cut it was at"
    return "that byte was written at" if broke.wrong and broke.wrong.wrote is not None else "it ended at"


def called_from(outer: List[Call]) -> Iterator[Tuple[str, str]]:
    """The calls around, a line for all of them; of a long row both ends."""
    if not outer:
        return
    shown = [call.at() for call in outer]
    if len(outer) > FIRST + LAST + 1:
        shown = [*shown[:FIRST], f"{len(outer) - FIRST - LAST} more", *shown[-LAST:]]
    yield "called from", ", from ".join(shown)


def wrong_of(broke: Broke) -> Iterator[Tuple[str, str]]:
    wrong = broke.wrong
    if wrong is None:
        return
    place = f"byte {wrong.byte} (line {wrong.line}, column {wrong.column})"
    if wrong.wrote is None:
        yield "first wrong byte", f"{place}: the output ends there, and {byte_of(wrong.due)} is expected"
    elif wrong.due is None:
        yield "first wrong byte", f"{place}: {byte_of(wrong.wrote)}, where the expected output ends"
    else:
        yield "first wrong byte", f"{place}: {byte_of(wrong.wrote)}, and {byte_of(wrong.due)} is expected"


def byte_of(byte: Optional[int]) -> str:
    return "" if byte is None else f"'{visible(bytes([byte]))}'"


def access_of(access: Access) -> Iterator[Tuple[str, str]]:
    """What the sanitizers say, by its places."""
    said = access.name + (f", {access.what}" if access.what else "") + (f", {access.near}" if access.near else "")
    yield "gcc's sanitizers say", said
    for name, calls in (("used here", access.used), ("freed there", access.freed), ("allocated there", access.allocated)):
        if calls:
            yield name, calls[0].at() + "".join(f", {word} {what}" for word, what in called_from(calls[1:])) + (f": {calls[0].text}" if calls[0].text else "")
    if access.declared:
        yield "declared there", access.declared.told()




# As JSON

def plain_of(broke: Optional[Broke]) -> Optional[Dict[str, Any]]:
    """As JSON has it: a dictionary of dictionaries."""
    if broke is None:
        return None

    def plain(value: Any) -> Any:
        if isinstance(value, tuple) and hasattr(value, "_asdict"):
            return {key: plain(part) for key, part in value._asdict().items()}
        return [plain(part) for part in value] if isinstance(value, list) else value

    found: Dict[str, Any] = plain(broke)
    return found


def read_broke(plain: Optional[Dict[str, Any]]) -> Optional[Broke]:
    """From what `plain_of` gave; KeyError or TypeError where it is none."""
    if plain is None:
        return None

    def one(value: Optional[Dict[str, Any]]) -> Optional[Call]:
        return None if value is None else Call(**value)

    def calls(values: List[Dict[str, Any]]) -> List[Call]:
        return [Call(**value) for value in values]

    given = dict(plain)
    access = given.pop("access")
    if access is not None:
        access = Access(access["name"], access["what"], access["near"], calls(access["used"]), calls(access["freed"]), calls(access["allocated"]), one(access["declared"]))
    wrong = given.pop("wrong")
    return Broke(calls=calls(given.pop("calls")), before=one(given.pop("before")), loop=one(given.pop("loop")), wrong=None if wrong is None else Wrong(**wrong),
                 access=access, **given)
