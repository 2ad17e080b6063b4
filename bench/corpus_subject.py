"""A program of the corpus with faults in it, as `cbi` takes it and as gcc does, and what is known of its runs.

A program outside the dialect is ported by `tools/cbi_port`; its rows are told by the lines and functions that its author wrote.
"""
import os
import sys
from functools import lru_cache
from typing import Dict, List, NamedTuple, Optional, Sequence, Tuple

from corpus_files import Subject, functions
from corpus_gcc import Covered, build, coverage, outputs, write
from corpus_collections import Collection, Counters, Narrow, Read, build_counter, read_collection, read_fewer
from corpus_runs import CallError, Inputs, Runs, processor_seconds, text_of
from corpus_scores import Place

sys.path.insert(0, os.path.join(os.path.dirname(os.path.abspath(__file__)), "..", "tools"))

import cbi_show.rows  # noqa: E402
from cbi_show import files, seen  # noqa: E402

try:
    import cbi_port
except ImportError:
    cbi_port = None


class NotTaken(Exception):
    """A program that neither is in the dialect nor is ported."""


class Built(NamedTuple):
    """A program file, its text in the dialect, and the line of the author for each line of that: None where the porter added it.

    `lines` is None where the text is the author's own."""
    program: str
    text: str
    lines: Optional[List[Optional[int]]]

    def line(self, line: int, function: str) -> Optional[int]:
        if self.lines is None:
            return line
        return None if function.startswith("cbi_") or not 1 <= line <= len(self.lines) else self.lines[line - 1]


def inputs_in(folder: str, count: int) -> Inputs:
    """The names of so many inputs, and of what is due on them."""
    return Inputs([os.path.join(folder, f"input{place}") for place in range(count)], [os.path.join(folder, f"due{place}") for place in range(count)])


def make_inputs(subject: Subject, folder: str, count: int, seed: int) -> None:
    """Writes inputs from a seed, and what the right version as gcc builds it writes on them."""
    os.makedirs(folder, exist_ok=True)
    inputs = inputs_in(folder, count)
    for path, data in zip(inputs.given, subject.inputs(count, seed)):
        with open(path, "wb") as file:
            file.write(data)
    outputs(build(folder, "right", subject.text(), False), inputs.given, inputs.due)


class Bench:
    """Where a program of the corpus is measured, on inputs that are there, in a scratch folder."""

    def __init__(self, subject: Subject, runs: Runs, folder: str, inputs: Inputs):
        self.subject, self.runs, self.inputs = subject, runs, inputs
        self.folder = os.path.join(folder, subject.name)
        os.makedirs(self.folder, exist_ok=True)
        self.functions = functions(subject.lines)
        self.counter = build_counter(self.folder)

    def some(self, count: int, times: int = 1) -> Inputs:
        """The inputs of so many runs, where each input has so many."""
        fewer = count // times
        return Inputs(self.inputs.given[:fewer] * times, self.inputs.due[:fewer] * times)

    def built(self, name: str, text: str) -> Built:
        """The program file of a text; one that the dialect refuses is ported first."""
        source = write(os.path.join(self.folder, f"{name}.c"), text)
        program = os.path.join(self.folder, f"{name}.cbi")
        try:
            return Built(self.runs.compiled(source, program), source, None)
        except CallError as refused:
            if cbi_port is None:
                raise NotTaken(f"{self.subject.name}: outside of the dialect, and there is no porter")
            try:
                ported = cbi_port.port([source])
            except Exception as error:  # whatever a porter says, it is told
                raise NotTaken(f"{self.subject.name}: not ported: {str(error)[:200]}") from refused
        target = os.path.join(self.folder, f"{name}.ported.c")
        with open(target, "wb") as file:
            file.write(ported.text)
        try:
            self.runs.compiled(target, program)
        except CallError as refused:
            raise NotTaken(f"{self.subject.name}: ported, and refused: {str(refused)[-60:]}")
        return Built(program, target, [None if line.added else line.line for line in ported.lines])

    def collected(self, built: Built, inputs: Inputs, rate: int, name: str) -> Tuple[str, float]:
        """The file of a collection of a run on each of some inputs, and how many seconds of a processor they took."""
        began = processor_seconds()
        path = self.runs.collect(built.program, inputs, rate, os.path.join(self.folder, name))
        return path, processor_seconds() - began

    def read(self, built: Built, path: str, counts: Sequence[int] = ()) -> Collection:
        """A collection of runs of a program, with what the first so many had, each of `counts`."""
        return read_collection(self.counter, path, len(program_of(built).sites), counts)

    def read_fewer(self, path: str, counts: Sequence[int], narrow: Narrow) -> Read:
        """The same, and these runs with fewer sites."""
        return read_fewer(self.counter, path, counts, narrow)

    def covered(self, name: str, text: str, count: int) -> Tuple[Covered, float]:
        began = processor_seconds()
        found = coverage(self.folder, name, text, self.inputs.given[:count], [os.path.join(self.folder, f"out{place}") for place in range(count)])
        return found, processor_seconds() - began

    def other_output(self, count: int) -> List[bool]:
        """Whether what gcc's program wrote last, for `covered`, is other than what is due."""
        return [read(os.path.join(self.folder, f"out{place}")) != read(self.inputs.due[place]) for place in range(count)]


def read(path: str) -> bytes:
    with open(path, "rb") as file:
        return file.read()


class Ranked(NamedTuple):
    """The rows of a ranking as `cbi` writes them, where they point, and how many seconds of a processor it took."""
    rows: List[files.Row]
    places: List[Place]
    seconds: float


def ranked(runs: Runs, built: Built, collection: str, policy: str = "all") -> Ranked:
    began = processor_seconds()
    text = text_of([runs.cbi, "rank", f"--policy={policy}", "--", built.program, collection])
    seconds = processor_seconds() - began
    rows = [files.ranking_row("the ranking", number, line) for number, line in enumerate(text.split("\n")[1:], 2) if line]
    places = [Place(built.line(row.line, row.function), row.function, row.text, row.f, row.s, row.predicate, row.importance) for row in rows]
    return Ranked(rows, places, seconds)


class Known(NamedTuple):
    """What is known of a program before it runs: where each predicate is, which counters of its site each sums up, and the tokens of each function."""
    built: Built
    places: Dict[int, Place]
    counters: Counters
    parts: Dict[str, List[str]]

    def lines(self) -> Dict[int, Optional[int]]:
        return {number: place.line for number, place in self.places.items()}


def known_of(built: Built) -> Known:
    places: Dict[int, Place] = {}
    counters: Counters = {}
    for number, (site, text, several) in program_of(built).numbered().items():
        places[number] = Place(built.line(site.line, site.function), site.function, text, 0, 0, number)
        counters.setdefault(site.number, []).append((number, several))
    return Known(built, places, counters, cbi_show.rows.bodies(files.read_source(built.text)))


class Sections(NamedTuple):
    """Where `cbi-hunt` shows the rows of a ranking: those that it leads with, and why each of the others is folded."""
    leading: List[Place]
    folded: List[Place]
    why: List[str]


def shown(known: Known, ranking: Ranked, tried: int) -> Sections:
    """The rows in the order in which `cbi-hunt` shows them, without what cards bring together; `tried` is how many predicates were looked at."""
    why = []
    for row, place in zip(ranking.rows, ranking.places):
        weak = seen.expected_by_chance(row, tried) >= 1
        unrelated = bool(row.importance) and cbi_show.rows.unrelated(row, known.parts)
        why.append("added" if place.line is None else "unrelated" if unrelated else "weak" if weak else "" if row.importance else "unimportant")
    if "" not in why and "weak" in why:
        why[why.index("weak")] = ""
    order = sorted(range(len(why)), key=lambda at: (("", "unrelated", "unimportant", "weak", "added").index(why[at]), at))
    return Sections([ranking.places[at] for at in order if not why[at]], [ranking.places[at] for at in order if why[at]], why)


@lru_cache(maxsize=4)
def read_at(program: str, made: float) -> files.Program:
    """A program file; `made` is its time, so that one that is made anew is read again."""
    return files.read_program(program)


def program_of(built: Built) -> files.Program:
    return read_at(built.program, os.path.getmtime(built.program))


def without_pairs(runs: Runs, built: Built) -> Tuple[Built, Narrow]:
    """The same program with the sites of branches and returns alone."""
    narrow = Built(runs.compiled(built.text, f"{built.program}.narrow", "branches,returns"), built.text, built.lines)
    kept = [site.scheme != "pairs" for site in program_of(built).sites]
    if sum(kept) != len(program_of(narrow).sites):
        raise NotTaken(f"{built.program}: {sum(kept)} sites without pairs, and {len(program_of(narrow).sites)} in the program without")
    numbers = iter(range(sum(kept)))
    return narrow, Narrow(program_of(narrow).identity, [next(numbers) if one else None for one in kept])


def best_pair(runs: Runs, known: Known, collection: str) -> List[Place]:
    """The two predicates of the best pair, or none."""
    lines = text_of([runs.cbi, "pairs", "--", known.built.program, collection]).split("\n")
    best = lines[1].split(" ")
    return [] if best[1] == "none" else [known.places[int(best[1])], known.places[int(best[2])]]


def first_card(runs: Runs, known: Known, collection: str) -> List[Place]:
    """The first leader with those that fall with it."""
    found: List[Place] = []
    for line in text_of([runs.cbi, "cards", "--", known.built.program, collection]).split("\n"):
        words = line.split(" ")
        if words[0] == "card" and words[1] != "1" or words[0] == "end":
            break
        if words[0] in ("card", "near"):
            found.append(known.places[int(words[2] if words[0] == "card" else words[1])])
    return found


def chosen_places(places: Dict[int, Place], order: Sequence[int]) -> List[Place]:
    return [places[number] for number in order]
