"""Whose a line is: of the C text itself, or of the files that it was ported from. Not proved."""
import os
from typing import TYPE_CHECKING, Dict, FrozenSet, List, NamedTuple, Optional, Sequence, Tuple

import cbi_show.files
from cbi_show.files import Fault

if TYPE_CHECKING:
    from cbi_port import Note

OF_PORT = "cbi_"   # how names begin that the porter gives to what it adds


class Spot(NamedTuple):
    """A place as a person knows it. Where `added`, the porter wrote it, and the line is one of the text that it made."""
    file: str
    line: int
    added: bool = False


class Where(NamedTuple):
    """The files that are shown, by name, the first one first; of a ported text whose each of its lines is, which functions the porter added, what the author calls
    that has another name there, and what he wrote where the porter left a note."""
    main: str
    files: Dict[str, List[str]]
    lines: Optional[List[Tuple[str, int, bool]]] = None
    added: FrozenSet[str] = frozenset()
    names: Dict[str, str] = {}
    notes: "Sequence[Note]" = ()

    def spot(self, line: int, function: str) -> Spot:
        if self.lines is None:
            return Spot(self.main, line)
        file, number, added = self.lines[line - 1] if line <= len(self.lines) else ("", 0, True)
        return Spot(self.main, line, True) if added or function in self.added else Spot(file, number)

    def called(self, name: str) -> str:
        """What the author calls it."""
        return self.names.get(name, name)

    def named_function(self, name: str) -> str:
        """The same of a function, which may be one of the library that the port has."""
        called = self.called(name)
        return called[len(OF_PORT):] if self.lines and called.startswith(OF_PORT) else called

    def text(self, spot: Spot) -> Optional[str]:
        """The line at a spot; none where it isn't there, or is none of a person's."""
        lines = self.files.get(spot.file, [])
        return lines[spot.line - 1] if not spot.added and spot.line <= len(lines) else None

    def named(self, spot: Spot) -> str:
        """`line 41`, or where there are several files `bank.c:41`."""
        if spot.added:
            return "what the port added"
        return f"line {spot.line}" if len(self.files) < 2 else f"{spot.file}:{spot.line}"

    def at(self, line: int, function: str) -> str:
        """`line 41, main`."""
        return f"{self.named(self.spot(line, function))}, {self.called(function)}"


def one_file(name: str, lines: Optional[List[str]]) -> Where:
    """A text that is shown as it was compiled."""
    return Where(name, {name: lines} if lines else {})


def ported(text: str, map_name: str, folder: str = "") -> Where:
    """A ported text with the files that its map names, from a folder on; one that isn't there any more is shown without its lines."""
    from cbi_port import read_map
    try:
        read = read_map(cbi_show.files.decoded(cbi_show.files.read_bytes(map_name)))
    except (ValueError, IndexError):
        raise Fault(f"{map_name}: no map of lines, as cbi-port writes one")
    names = list(dict.fromkeys(line.file for line in read.lines if not line.added))
    files = {}
    for name in names:
        try:
            files[name] = cbi_show.files.read_source(os.path.join(folder, name))
        except Fault:
            files[name] = []
    lines = [(line.file, line.line, line.added) for line in read.lines]
    return Where(names[0] if names else text, files, lines, frozenset(read.added), read.names, read.notes)
