"""Brings C as people write it to the dialect of `cbi`. Not proved; docs/PORTING.md says what it takes.

`port` makes one text of the dialect out of C files; its lines stay those of the first file. What can't be
kept is refused, all of it at once (`Refused`).
"""
import argparse
from typing import Callable, Dict, Iterator, List, NamedTuple, Optional, Sequence, Tuple, Union

WRAPPING = {"-fwrapv", "-fno-strict-overflow"}   # flags of gcc
VALUES = ("none", "some", "all")                  # of how many members, elements and dereferences pairs see the values


class Line(NamedTuple):
    """Whose a line of the text is. Where `added`, the tool wrote all of it, and `file` is empty."""
    file: str
    line: int
    added: bool


class Note(NamedTuple):
    """What the author wrote at a token of the text, which is found by its line and the bytes of ASCII before it there.

    `kind` is `head` for the first word of a statement with a condition, `turned` where the text has the condition the other way round, `case` for a label of a
    `switch`, `truth` for a comparison, or else for a call of the text two words: `call`, `value` or `store` for what the author wrote there, and `number`, `pointer`, `bits` or `object` for what is
    seen of it: a number, an address, whether it is 0, nothing.
    """
    line: int
    column: int
    kind: str
    text: str


class Map(NamedTuple):
    """What the file `OUT.c.lines` has; `names` has the author's name for each of the tool's."""
    lines: List[Line]
    added: List[str]
    names: Dict[str, str]
    notes: List[Note]


class Problem(NamedTuple):
    """What is refused: where, which construct, and what to write in its place."""
    file: str
    line: int
    construct: str
    advice: str

    def __str__(self) -> str:
        return f"{self.file}:{self.line}: {self.construct}: {self.advice}"


class Refused(Exception):
    """Nothing was ported. `problems` in the order of the text."""

    def __init__(self, problems: Sequence[Problem]) -> None:
        super().__init__("\n".join(map(str, problems)))
        self.problems = list(problems)


class Missing(Exception):
    """A tool that the port needs isn't there; the message names the package."""


class Ported(NamedTuple):
    """`lines` has one entry for each line of `text`; `added` are the names of functions that the tool added; `names` and `notes` are as in `Map`. `typed` has the rows of the typed tree."""
    text: bytes
    lines: List[Line]
    added: List[str]
    liberties: List[str]
    counts: Dict[str, int]
    names: Dict[str, str] = {}
    notes: Sequence[Note] = ()
    typed: Callable[[], Iterator[str]] = lambda: iter(())

    def map_text(self) -> str:
        """The map as the file `OUT.c.lines` has it (docs/PORTING.md)."""
        files = list(dict.fromkeys(line.file for line in self.lines if not line.added))
        numbers = {name: number for number, name in enumerate(files, 1)}
        rows = ["cbi-lines 2", f"files {len(files)}", *files, f"functions {len(self.added)}", *self.added]
        rows += [f"names {len(self.names)}", *(f"{name} {author}" for name, author in self.names.items())]
        rows += [f"notes {len(self.notes)}", *(f"{note.line} {note.column} {note.kind}: {note.text}" for note in self.notes)]
        rows += [f"lines {len(self.lines)}"]
        rows += ["added" if line.added else f"{numbers[line.file]} {line.line}" for line in self.lines]
        return "\n".join(rows + ["end"]) + "\n"

    def summary(self) -> str:
        """What was ported, in one line: `14 typedefs, 3 switches, 9 library functions`."""
        words = [f"{count} {name if count != 1 else singular(name)}" for name, count in self.counts.items() if count]
        return ", ".join(words) or "nothing but its lines"


def singular(name: str) -> str:
    """`functions with jumps` becomes `function with jumps`."""
    head, mark, rest = next((name.partition(mark) for mark in (" with ", " of ") if mark in name), (name, "", ""))
    for end, less in (("ches", 2), ("ies", 3), ("s", 1)):
        if head.endswith(end):
            return head[:-less] + ("y" if end == "ies" else "") + mark + rest
    return name


def read_map(text: str) -> Map:
    """A map file of the form 2, or of the form 1, which has no names and no notes; ValueError or IndexError where it is none."""
    rows = text.split("\n")
    if rows[0] not in ("cbi-lines 1", "cbi-lines 2") or rows[-2:] != ["end", ""]:
        raise ValueError("no map of lines")
    at = 1

    def part(word: str) -> List[str]:
        nonlocal at
        name, count = rows[at].split(" ")
        if name != word:
            raise ValueError(f"no {word} in the map of lines")
        at += 1 + int(count)
        return rows[at - int(count):at]
    files, added = part("files"), part("functions")
    first = rows[0].endswith("1")
    names = {} if first else dict(pair(row) for row in part("names"))
    notes = [] if first else [note_of(row) for row in part("notes")]
    return Map([line_of(row, files) for row in part("lines")], added, names, notes)


def pair(row: str) -> Tuple[str, str]:
    name, author = row.split(" ", 1)
    return name, author


def note_of(row: str) -> Note:
    place, _, text = row.partition(": ")
    line, column, kind = place.split(" ", 2)
    return Note(int(line), int(column), kind, text)


def line_of(row: str, files: Sequence[str]) -> Line:
    if row == "added":
        return Line("", 0, True)
    file, line = row.split(" ")
    return Line(files[int(file) - 1], int(line), False)


def for_preprocessor(chosen: argparse.Namespace) -> List[str]:
    """The options of a script that are the preprocessor's."""
    return [f"-{word}{it}" for word in "IDU" for it in getattr(chosen, word)] + [word for it in chosen.include for word in ("-include", it)]


def wraps(chosen: argparse.Namespace) -> bool:
    """Whether signed integers wrap, by the options of a script: its own, or the flags of the author's build."""
    return bool(chosen.wrap or WRAPPING & set(chosen.cflags.split()))


def port(files: Sequence[str], cpp: Sequence[str] = (), args: Optional[Union[str, Sequence[str]]] = None,
         stderr: bool = False, memory: str = "auto", named: Sequence[Tuple[str, Optional[bytes]]] = (), wrap: bool = False, values: str = "none") -> Ported:
    """The files as one text of the dialect.

    `cpp` are options of the preprocessor (`-I`, `-D`). `args` are the words behind the program's name: a list, or
    "first-line" for those of the first line of the input. `stderr` joins what goes to stderr to the output. `named` are the
    files that the text may open, by their names; the one without bytes is the one input. `wrap` lets signed numbers wrap. `values` says
    of how many members, elements and dereferences pairs see the values: "none", "some" or "all".
    Raises `Refused`, `Missing` for want of a tool, and OSError for a file that can't be read.
    """
    from cbi_port.files import port_files
    return port_files(files, list(cpp), args, stderr, memory, named, wrap, values)
