"""What gcc's notes of a program (the file .gcno) say: how often a block was run, as sums of the counters that gcc keeps, and which blocks stand in a line.

gcc counts only some of the arcs between blocks. The others follow, since as many arcs are passed to a block as from it; but that holds only of a run that
came to its end, so what others came to is asked of gcov. A line was run where one of the blocks was that have it as their last line, or, where there is
no such block, one that has it at all: that is when gcov has a count above 0 for it. Notes of gcc before 12 are spelled otherwise, and aren't read.
"""
import struct
from typing import Dict, Iterator, List, NamedTuple, Tuple

FUNCTION, BLOCKS, ARCS, LINES = 0x01000000, 0x01410000, 0x01430000, 0x01450000
ON_TREE = 1
OLDEST = b"B2"  # gcc 12

Form = Dict[int, int]  # a sum of counters: how often each is taken


class NotesError(Exception):
    """Notes that aren't read."""


class Arc(NamedTuple):
    source: int
    target: int
    counted: bool


class Graph(NamedTuple):
    """A function: its blocks, of which 0 is where it begins and 1 where it ends, its arcs, and the lines of each block."""
    name: str
    blocks: int
    arcs: List[Arc]
    lines: Dict[int, List[int]]


class Words:
    """Numbers and strings of a record."""

    def __init__(self, data: bytes):
        self.data, self.at = data, 0

    def __bool__(self) -> bool:
        return self.at < len(self.data)

    def number(self) -> int:
        self.at += 4
        return int(struct.unpack_from("<I", self.data, self.at - 4)[0])

    def text(self) -> str:
        length = self.number()
        self.at += length
        return self.data[self.at - length:self.at].rstrip(b"\0").decode("latin-1")


def records(data: bytes) -> Iterator[Tuple[int, Words]]:
    head = Words(data)
    if data[:4] != b"oncg" or data[7:5:-1] < OLDEST:
        raise NotesError(f"notes {data[:8]!r}")
    head.at = 16
    head.text()
    head.number()
    while head:
        tag, length = head.number(), head.number()
        if not tag:
            return
        yield tag, Words(data[head.at:head.at + length])
        head.at += length


def read_notes(data: bytes, source: str) -> List[Graph]:
    """The functions; lines are those of the file `source` alone."""
    found: List[Graph] = []
    try:
        for tag, words in records(data):
            if tag == FUNCTION:
                words.at = 12
                found.append(Graph(words.text(), 0, [], {}))
            elif tag == BLOCKS:
                found[-1] = found[-1]._replace(blocks=words.number())
            elif tag == ARCS:
                block = words.number()
                while words:
                    target, flags = words.number(), words.number()
                    found[-1].arcs.append(Arc(block, target, not flags & ON_TREE))
            elif tag == LINES:
                block = words.number()
                found[-1].lines.setdefault(block, []).extend(lines_of(words, source))
    except (IndexError, struct.error) as error:
        raise NotesError(str(error)) from error
    return found


def lines_of(words: Words, source: str) -> Iterator[int]:
    """The lines of a block: 0 stands before the name of a file, and before an empty one at the end."""
    here = False
    while words:
        line = words.number()
        if line == 0:
            here = words.text() == source
        elif here:
            yield line


def plus(one: Form, other: Form, sign: int) -> Form:
    total = dict(one)
    for counter, times in other.items():
        total[counter] = total.get(counter, 0) + sign * times
    return {counter: times for counter, times in total.items() if times}


def arc_forms(graph: Graph, first: int) -> Dict[int, Form]:
    """How often each arc was passed; the counters are numbered from `first`. Arcs without one make a tree, so one after the other follows."""
    known: Dict[int, Form] = {}
    for number, arc in enumerate(graph.arcs):
        if arc.counted:
            known[number] = {first + len(known): 1}
    at: Dict[int, List[int]] = {block: [] for block in range(graph.blocks)}
    for number, arc in enumerate(graph.arcs):
        for block in {arc.source, arc.target}:
            at[block].append(number)
    waiting = list(range(2, graph.blocks))
    while waiting:
        block = waiting.pop()
        unknown = [number for number in at[block] if number not in known]
        if len(unknown) != 1:
            continue
        total: Form = {}
        for number in at[block]:
            arc = graph.arcs[number]
            if number in known and arc.source != arc.target:
                total = plus(total, known[number], 1 if (arc.source == block) != (graph.arcs[unknown[0]].source == block) else -1)
        known[unknown[0]] = total
        waiting.extend({graph.arcs[unknown[0]].source, graph.arcs[unknown[0]].target} - {0, 1})
    if len(known) != len(graph.arcs):
        raise NotesError(f"{graph.name}: the counts of {len(graph.arcs) - len(known)} arcs don't follow")
    return known


def block_forms(graph: Graph, first: int) -> List[Form]:
    """How often each block was run: as often as arcs to it were passed, and the first one as often as those from it."""
    known = arc_forms(graph, first)
    found: List[Form] = [{} for _ in range(graph.blocks)]
    for number, arc in enumerate(graph.arcs):
        found[arc.target] = plus(found[arc.target], known[number], 1)
        if arc.source == 0:
            found[0] = plus(found[0], known[number], 1)
    return found


class Counting(NamedTuple):
    """How many counters each function has, in their order, and of each line with code the forms of which one is above 0 where it was run."""
    counters: List[Tuple[str, int]]
    lines: Dict[int, List[Form]]


def counting(graphs: List[Graph]) -> Counting:
    counters: List[Tuple[str, int]] = []
    ending: Dict[int, List[Form]] = {}
    having: Dict[int, List[Form]] = {}
    first = 0
    for graph in graphs:
        forms = block_forms(graph, first)
        counters.append((graph.name, sum(arc.counted for arc in graph.arcs)))
        first += counters[-1][1]
        for block, lines in graph.lines.items():
            for place, line in enumerate(lines, 1):
                having.setdefault(line, []).append(forms[block])
                if place == len(lines):
                    ending.setdefault(line, []).append(forms[block])
    return Counting(counters, {line: ending.get(line, forms) for line, forms in sorted(having.items())})
