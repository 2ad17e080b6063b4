"""Real bugs of real programs as records: where a program's source comes from, how it is built, and the change that puts a bug back.

A module real_bugs_NAME.py beside this file has a list BUGS. Patches, drivers and generators of inputs stand in real/; nothing of a program does.
A generator is called with COUNT, FOLDER, SEED and the words of its record, and writes that many inputs into the folder; CBI_SOURCE names the
folder of the program's source, whose tests it may take.
"""
import glob
import importlib
import os
import re
from dataclasses import dataclass
from typing import Dict, List, Optional, Tuple

HERE = os.path.dirname(os.path.abspath(__file__))
FILES = os.path.join(HERE, "real")


@dataclass(frozen=True)
class Program:
    """A program of a package of Debian's. `files` are those that are compiled, as seen from `folder` of its source; a `driver` of ours, with a main that reads the input, stands before them.
    `build` are lines of a shell that are done in the source's folder before (configure, make). `schemes` are the sites that are looked at, where all would be too many."""
    name: str
    package: str
    version: str
    files: Tuple[str, ...]
    folder: str = "."
    driver: Optional[str] = None
    options: Tuple[str, ...] = ()
    build: Tuple[str, ...] = ()
    arguments: Optional[str] = None
    memory: str = "auto"
    turns: int = 10000000
    schemes: Optional[str] = None

    def texts(self) -> List[str]:
        """What is compiled, as seen from the folder: all but headers."""
        return ([self.driver] if self.driver else []) + [name for name in self.files if not name.endswith(".h")]


@dataclass(frozen=True)
class Bug:
    """A bug. `patch` puts it back into the source of the program's version; one that is in that version still has none, and `mend` is the patch by which it goes. `kind` is how it shows
    (wrong output, crash, hang), and `mended` where it was: a version, a patch of the package. A run has failed where a trap ends it, or where the output isn't that of the mended program as gcc
    builds it; with `traps_alone` by a trap alone. `others` is how many inputs that don't fail are hunted at most, where few of the `count` fail."""
    name: str
    program: Program
    kind: str
    what: str
    mended: str
    inputs: Tuple[str, ...]
    function: str
    patch: Optional[str] = None
    mend: Optional[str] = None
    count: int = 600
    seed: int = 1
    others: Optional[int] = None
    traps_alone: bool = False
    hangs: bool = False


# Which lines a patch changes

HUNK = re.compile(r"@@ -(\d+)(?:,\d+)? \+(\d+)(?:,\d+)? @@")


class Group:
    """Lines of a patch that stand together: the first line of each side behind which they stand, and how many each side has."""

    def __init__(self, old: int, new: int) -> None:
        self.start, self.count = (old, new), [0, 0]

    def lines(self, side: int) -> List[int]:
        """The lines of a side; where it has none, those around the place."""
        first = self.start[side]
        return list(range(first, first + self.count[side])) or [line for line in (first - 1, first) if line > 0]


def lines_of(patch: str, side: int) -> Dict[str, List[int]]:
    """Of each file of a unified diff the lines that it changes: those of the old text (side 0) or of the new one (1)."""
    found: Dict[str, List[int]] = {}
    name, at, group = "", [0, 0], None  # type: str, List[int], Optional[Group]
    for row in patch.splitlines() + ["@@ -1 +1 @@"]:
        changes = row[:1] in ("+", "-") and not row.startswith(("--- ", "+++ "))
        if group and not changes:
            found.setdefault(name, []).extend(group.lines(side))
            group = None
        head = HUNK.match(row)
        if row.startswith("+++ "):
            name = row[4:].split("\t")[0].split("/", 1)[-1]
        elif head:
            at = [int(head[1]), int(head[2])]
        elif changes:
            group = group or Group(at[0], at[1])
            group.count[row[0] == "+"] += 1
            at[row[0] == "+"] += 1
        elif row.startswith(" ") or not row:
            at = [at[0] + 1, at[1] + 1]
    return found


def text_of(name: str) -> str:
    with open(os.path.join(FILES, name), encoding="utf-8") as file:
        return file.read()


def changed_lines(bug: Bug) -> Dict[str, List[int]]:
    """The lines of a bug in the text that is hunted, by file as seen from the source's folder."""
    return lines_of(text_of(bug.patch), 1) if bug.patch else lines_of(text_of(bug.mend), 0) if bug.mend else {}


def every_bug() -> List[Bug]:
    """The bugs of all modules of records."""
    names = sorted(os.path.basename(path)[:-3] for path in glob.glob(os.path.join(HERE, "real_bugs_*.py")))
    return [bug for name in names for bug in importlib.import_module(name).BUGS]
