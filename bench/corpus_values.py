"""Measures what values of members, elements and dereferences that pairs see (`cbi-port --values`) do to where `cbi` points: of each fault the
place of the first line near it in `lines`, `bugs` and `rank`, at rate 1, with each way.

    corpus_values.py CBI --faults seen|judged [--ways none,some,all] [--inputs N] [--work FOLDER]

All texts go through the port. Open faults alone are measured: those of some programs are the ones by which the way was chosen (`seen`), and those of
others judged it once (`judged`).
"""
import argparse
import os
import sys
import tempfile
from typing import Dict, Iterator, List, NamedTuple, Optional

from corpus_files import Fault, Subject, functions, read_corpus
from corpus_listed import pointed
from corpus_runs import CallError, Runs
from corpus_scores import NEAR, Place, first_of
from corpus_subject import Bench, Built, inputs_in, known_of, make_inputs, program_of, ranked

import cbi_port
from cbi_show import files

LISTS = ("lines", "bugs", "rank")
SEED = 1
PROGRAMS = {"seen": ["allocator", "bank", "hashtable", "tree"], "judged": ["bignum", "board", "calculator", "calendar", "csv", "editor", "frames", "heap", "huffman", "json", "lz", "matrix", "maze", "rational", "regex", "request",
                       "scheduler", "stackvm", "turtle", "wrap"]}


class Measured(NamedTuple):
    """A fault with a way: how many runs fail, its sites, and the places of the first line near it and of it itself."""
    failing: int
    sites: int
    near: Dict[str, Optional[float]]
    exact: Dict[str, Optional[float]]


def ported(bench: Bench, name: str, text: str, values: str) -> Built:
    """The program file of a text, ported with a way."""
    source = os.path.join(bench.folder, f"{name}.c")
    with open(source, "w", encoding="ascii") as file:
        file.write(text)
    found = cbi_port.port([source], values=values)
    target = os.path.join(bench.folder, f"{name}.{values}.c")
    with open(target, "wb") as out:
        out.write(found.text)
    lines = [None if line.added else line.line for line in found.lines]
    return Built(bench.runs.compiled(target, target[:-2] + ".cbi"), target, lines)


def measured(bench: Bench, fault: Fault, values: str, count: int) -> Measured:
    built = ported(bench, fault.name, bench.subject.text((fault,)), values)
    collection, _ = bench.collected(built, bench.some(count), 1, f"{fault.name}.{values}.runs")
    failing = sum(run.label == "fail" for run in files.read_collection(collection))
    _, own = pointed(bench.runs.cbi, known_of(built), collection)
    lists: Dict[str, List[Place]] = {"lines": own.lines, "bugs": [bug[0] for bug in own.bugs], "rank": ranked(bench.runs, built, collection).places}
    changed = fault.lines()
    near = {name: first_of(lists[name], lambda line: any(abs(line - one) <= NEAR for one in changed)) for name in LISTS}
    exact = {name: first_of(lists[name], lambda line: line in changed) for name in LISTS}
    os.remove(collection)
    return Measured(failing, len(program_of(built).sites), near, exact)


def place(found: Optional[float]) -> str:
    return "-" if found is None else f"{found:.0f}"


def rows(subject: Subject, runs: Runs, folder: str, count: int, ways: List[str]) -> Iterator[str]:
    """A row for each fault of a program."""
    inputs = os.path.join(folder, subject.name, "inputs")
    make_inputs(subject, inputs, count, SEED)
    bench = Bench(subject, runs, folder, inputs_in(inputs, count))
    for fault in subject.faults:
        if fault.group() != "open":
            continue
        try:
            found = [measured(bench, fault, way, count) for way in ways]
        except (CallError, cbi_port.Refused) as wrong:
            yield f"| {fault.title()} | {str(wrong)[:80]} |"
            continue
        cells = [f"{' '.join(place(it.near[name]) for name in LISTS)} ({' '.join(place(it.exact[name]) for name in LISTS)}) {it.sites}" for it in found]
        yield f"| {fault.title()} | {found[0].failing} | {' | '.join(cells)} |"


def main() -> int:
    parser = argparse.ArgumentParser(description=__doc__, formatter_class=argparse.RawDescriptionHelpFormatter)
    parser.add_argument("cbi")
    parser.add_argument("--faults", choices=sorted(PROGRAMS), default="seen")
    parser.add_argument("--ways", default="none,some,all")
    parser.add_argument("--inputs", type=int, default=300)
    parser.add_argument("--work")
    said = parser.parse_args()
    ways = said.ways.split(",")
    folder = said.work or tempfile.mkdtemp(prefix="corpus-values-")
    sys.setrecursionlimit(20000)
    runs = Runs(os.path.realpath(said.cbi), folder, 1, SEED)
    print(f"| Fault | Failing of {said.inputs} | " + " | ".join(f"{way}: {' '.join(LISTS)} (the line itself) sites" for way in ways) + " |")
    for subject in read_corpus(PROGRAMS[said.faults]):
        for row in rows(subject, runs, folder, said.inputs, ways):
            print(row, flush=True)
    return 0


if __name__ == "__main__":
    sys.exit(main())
