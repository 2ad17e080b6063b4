"""What gcc makes of a program: its outputs, and which lines each run came to, by gcov.

A driver runs the program's `main` in a child for each input. Where the child is ended by a signal (also by one that says that it takes
too long), a handler on a stack of its own writes the coverage first, so that a crash has one as well, and gcov reads it. Of a run that came
to its end the driver itself computes the lines from gcc's counters, as `corpus_notes.py` has it from gcc's notes, since a file and a call of gcov
for each run take ten times as long. The first runs of each program are read by gcov, too: where it says anything else, or the notes aren't
read, gcov reads all runs.
"""
import json
import os
import subprocess
from typing import Dict, FrozenSet, List, NamedTuple, Optional, Sequence, Set, Tuple

from corpus_notes import Counting, NotesError, counting, read_notes

DRIVER = os.path.join(os.path.dirname(os.path.abspath(__file__)), "corpus_driver.c")
A_CALL = 200  # runs between two calls of gcov
SURE = 20  # runs of which it is looked whether gcov has the lines that are computed


class CoverageError(Exception):
    """What gcov says can't be used."""


class Covered(NamedTuple):
    """How each run ended, the lines with code, and of each run the lines that it came to."""
    statuses: List[int]
    lines: List[int]
    runs: List[FrozenSet[int]]


class Driven(NamedTuple):
    """How a run ended, and where that is known a 1 for each line with code that it came to."""
    status: int
    marks: str


def write(path: str, text: str) -> str:
    with open(path, "w", encoding="ascii") as file:
        file.write(text)
    return path


def build(folder: str, name: str, text: str, coverage: bool) -> str:
    """The program with the driver, in a folder of its own."""
    home = os.path.join(folder, name)
    os.makedirs(home, exist_ok=True)
    source = write(os.path.join(home, "program.c"), text)
    common = ["gcc", "-std=gnu99", "-w", "-O0", "-g", "-c"]
    subprocess.run(common + (["-DCOVERED"] if coverage else []) + ["-o", "driver.o", DRIVER], cwd=home, check=True)
    subprocess.run(common + (["--coverage"] if coverage else []) + ["-Dmain=program_main", "-o", "program.o", source], cwd=home, check=True)
    subprocess.run(["gcc", "-o", "program", "driver.o", "program.o"] + (["--coverage"] if coverage else []), cwd=home, check=True)
    return home


def drive(home: str, lines: List[str], table: Sequence[str] = ()) -> List[Driven]:
    done = subprocess.run([os.path.join(home, "program"), *table], input="".join(line + "\n" for line in lines), stdout=subprocess.PIPE, cwd=home,
                          universal_newlines=True, check=True)
    return [Driven(int(status), marks) for status, _, marks in (line.partition(" ") for line in done.stdout.split("\n")[:-1])]


def outputs(home: str, given: List[str], target: List[str]) -> List[int]:
    """Writes what a program that is built writes on each input; answers its statuses."""
    return [run.status for run in drive(home, [f"{one} {out}" for one, out in zip(given, target)])]


def table_of(home: str) -> Optional[Tuple[str, Counting]]:
    """Writes the table by which the driver computes lines, where gcc's notes are read."""
    try:
        with open(os.path.join(home, "program.gcno"), "rb") as file:
            counts = counting(read_notes(file.read(), os.path.join(home, "program.c")))
        named = subprocess.run(["nm", os.path.join(home, "program")], stdout=subprocess.PIPE, universal_newlines=True, check=True).stdout
        places = {words[-1]: int(words[0], 16) for words in map(str.split, named.split("\n")) if len(words) == 3}
        offsets = [places[f"__gcov0.{name}"] - places["main"] + 8 * number for name, count in counts.counters for number in range(count)]
    except (NotesError, OSError, KeyError, subprocess.CalledProcessError):
        return None
    numbers = [len(offsets), *offsets, len(counts.lines)]
    for forms in counts.lines.values():
        numbers.append(len(forms))
        for form in forms:
            numbers.append(len(form))
            numbers.extend(number for term in form.items() for number in term)
    return write(os.path.join(home, "table"), " ".join(map(str, [len(numbers), *numbers]))), counts


class Coverage:
    """A program with coverage that is run on inputs."""

    def __init__(self, home: str, sure: bool):
        """`sure` asks that gcov reads each run."""
        self.home, self.table = home, None if sure else table_of(home)
        self.every: Set[int] = set()
        self.known: Dict[str, FrozenSet[int]] = {}
        self.places = [os.path.join(home, f"c{number}") for number in range(A_CALL)]
        for place in self.places:
            if not os.path.isdir(place):
                os.mkdir(place)
                os.symlink(os.path.join(home, "program.gcno"), os.path.join(place, "program.gcno"))

    def computed(self, marks: str) -> FrozenSet[int]:
        if marks not in self.known:
            lines = self.table[1].lines if self.table else ()
            self.known[marks] = frozenset(line for line, mark in zip(lines, marks) if mark == "1")
        return self.known[marks]

    def some(self, given: List[str], target: List[str], sure: int) -> Tuple[List[int], List[FrozenSet[int]]]:
        """Runs on some inputs, the first of which gcov reads in any case: their statuses and lines."""
        words = [" ".join(names) + (" sure" if number < sure else "") for number, names in enumerate(zip(given, target, self.places))]
        runs = drive(self.home, words, [self.table[0]] if self.table else [])
        read = counted(self.home, [os.path.join(place, "program.gcda") for place, _ in zip(self.places, runs)], self.every)
        lines = []
        for number, (run, seen) in enumerate(zip(runs, read)):
            lines.append(self.computed(run.marks) if run.marks else seen)
            if run.marks and number < sure and lines[-1] != seen:
                raise NotesError(f"gcov has other lines: {sorted(lines[-1] ^ seen)}")
        return [run.status for run in runs], lines


def coverage(folder: str, name: str, text: str, given: List[str], target: List[str], sure: bool = False) -> Covered:
    """Runs the program on each input, and reads which lines it came to. `target` are the files for what it writes."""
    cover = Coverage(build(folder, name, text, True), sure)
    found = Covered([], [], [])
    try:
        for start in range(0, len(given), A_CALL):
            statuses, lines = cover.some(given[start:start + A_CALL], target[start:start + A_CALL], 0 if start else SURE)
            found.statuses.extend(statuses)
            found.runs.extend(lines)
    except NotesError:
        return coverage(folder, name, text, given, target, True)
    return Covered(found.statuses, sorted(cover.every.union(cover.table[1].lines if cover.table else ())), found.runs)


def counted(home: str, files: List[str], every: Set[int]) -> List[FrozenSet[int]]:
    """Of each file of counters the lines that gcov has with a count above 0; the file goes. All lines with code are added to `every`."""
    there = [file for file in files if os.path.exists(file)]
    if not there:
        return [frozenset()] * len(files)
    # Its status isn't 0 where a run left half a file; that one has no coverage.
    done = subprocess.run(["gcov", "-t", "-j"] + there, cwd=home, stdout=subprocess.PIPE, stderr=subprocess.DEVNULL, check=False)
    if not done.stdout:
        raise CoverageError(f"gcov says nothing: status {done.returncode}")
    found: Dict[str, Set[int]] = {}
    for text in filter(None, done.stdout.split(b"\n")):
        said = json.loads(text)
        for file in said["files"]:
            if file["file"].endswith("program.c"):
                every.update(line["line_number"] for line in file["lines"])
                found.setdefault(said["data_file"], set()).update(line["line_number"] for line in file["lines"] if line["count"] > 0)
    for name in there:
        os.remove(name)
    return [frozenset(found.get(name, ())) for name in files]
