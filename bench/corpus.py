#!/usr/bin/env python3
"""Measures how far what `cbi lines`, `bugs`, `rank`, `cards` and `pairs` print is from known faults, beside coverage-based ranking on the same runs.

usage: corpus.py CBI [--faults all|open|kept|new] [--runs N,..] [--rates D,..] [--again N,K] [--three N,..] [--table NAME:N,..] [--jobs N] [--results FILE] [--write FILE ..] [NAME ..]
       corpus.py --from FILE [--write FILE ..]

Each fault of `bench/corpus/` is put in, and run on N inputs made from a seed (100, 1,000 and 10,000), whose due outputs are those of the right
version as gcc builds it: with each visit observed, and with banks of mean distance D (1, 5 and 100), and at these N runs (1,000) with K on an
input (10). gcc's build of the same text is run on the same inputs, and gcov tells to which lines each run came. Programs with three faults
have them all at once, too (1,000 runs), and one of them has its table of rows and faults (allocator, 3,000 and 30,000 runs).
Results are kept as JSON in FILE, and a second call with the same FILE measures what isn't there yet; what was measured stands in FILE.lines
at once. With --write the tables and plots of docs/EVIDENCE.md and docs/reference/FAULTS.md, or what README has of them, are made anew of them. What the
columns mean stands in docs/EVIDENCE.md.
With --from they are made of what FILE has, and nothing is measured.
"""
import argparse
import json
import os
import shutil
import subprocess
import sys
import tempfile
import time
from concurrent.futures import FIRST_COMPLETED, Executor, Future, ProcessPoolExecutor, wait
from typing import Dict, Iterator, List, NamedTuple, Set, Tuple

import corpus_tables
from corpus_files import Subject, names, read_subject
from corpus_gcc import CoverageError
from corpus_measure import TOLD_RUNS, Measure
from corpus_results import PARTS, Results, ResultsError, keep, load
from corpus_runs import CallError, Runs, processor_seconds
from corpus_subject import Bench, NotTaken, inputs_in, make_inputs
from corpus_three import Three

IN_MEMORY = "/dev/shm"
ROOM = 8 << 30
RIGHT_RUNS = 100


class Work(NamedTuple):
    """What is to be measured of a program: its right version, some of its faults, three at once, and the table. `inputs` is the folder of its inputs, and
    `fails` has the first runs that each fault fails, as far as that is known."""
    name: str
    right: bool
    faults: Tuple[str, ...]
    three: Tuple[int, ...]
    tables: Tuple[int, ...]
    chosen: argparse.Namespace
    inputs: str = ""
    fails: Dict[str, Set[int]] = {}

    def title(self) -> str:
        return self.name if self.right else " ".join([self.name, *self.faults, *["three at once"] * bool(self.three), *["the table"] * bool(self.tables)])

    def inputs_needed(self) -> int:
        return int(max([RIGHT_RUNS, *(self.chosen.runs if self.faults else []), *self.three, *self.tables]))

    def size(self) -> int:
        """How many runs that are, about."""
        return int(len(self.faults) * max(self.chosen.runs) * (len(self.chosen.rates) + 1) + 4 * sum(self.three) + 4 * max(self.tables, default=0))

    def seconds(self, results: Results) -> float:
        """How long that takes, about: of a program that isn't taken at all nothing is known."""
        right = results["programs"].get(self.name)
        return float(self.size() * right["seconds"] / right["runs"]) if right else 0.0

    def pieces(self) -> List["Work"]:
        """The same as work for several processes, what goes on after the inputs are there."""
        none = self._replace(right=False, faults=(), three=(), tables=())
        whole = [none._replace(faults=(fault,)) for fault in self.faults]
        return whole + [none._replace(three=self.three)] * bool(self.three) + [none._replace(tables=self.tables)] * bool(self.tables)


class Done(NamedTuple):
    """What was measured, and how many seconds it took, by the clock and of a processor."""
    work: Work
    found: Results
    passed: float
    used: float


def numbers(text: str) -> List[int]:
    return [int(word) for word in text.split(",") if word]


def table(text: str) -> Tuple[str, List[int]]:
    name, _, counts = text.partition(":")
    return name, numbers(counts)


def arguments() -> argparse.Namespace:
    parser = argparse.ArgumentParser(usage="\n".join((__doc__ or "").split("\n")[2:4]).replace("usage: ", ""))
    parser.add_argument("cbi", nargs="?")
    parser.add_argument("--faults", choices=("all", "open", "kept", "new"), default="open")
    parser.add_argument("--runs", type=numbers, default=[100, 1000, 10000])
    parser.add_argument("--rates", type=numbers, default=[1, 5, 100])
    parser.add_argument("--again", type=numbers, default=[1000, 10])
    parser.add_argument("--three", type=numbers, default=[1000])
    parser.add_argument("--table", type=table, default=("allocator", [3000, 30000]))
    parser.add_argument("--seed", type=int, default=1)
    parser.add_argument("--jobs", type=int, default=os.cpu_count() or 1)
    parser.add_argument("--results")
    parser.add_argument("--from", dest="made", metavar="FILE")
    parser.add_argument("--write", action="append")
    parser.add_argument("names", nargs="*")
    chosen = parser.parse_intermixed_args()
    if bool(chosen.cbi) == bool(chosen.made) or chosen.made and chosen.results:
        parser.error("either CBI, which measures, or --from FILE, which measures nothing")
    if chosen.made and not os.path.isfile(chosen.made):
        parser.error(f"--from {chosen.made}: there is no such file")
    chosen.cbi = os.path.abspath(chosen.cbi or "")
    return chosen


def whole(found: Results, chosen: argparse.Namespace) -> bool:
    return all(f"lines {rate} {count}" in found["ways"] for rate in chosen.rates for count in chosen.runs)


def missing(subject: Subject, chosen: argparse.Namespace, known: Results) -> Work:
    """What is to be measured of a program, and isn't yet."""
    of_kind = [fault for fault in subject.faults if fault.group() in (("open", "kept") if chosen.faults == "all" else (chosen.faults,))]
    faults = [fault.name for fault in of_kind if not (fault.title() in known["faults"] and whole(known["faults"][fault.title()], chosen))]
    opened = bool(subject.three()) and chosen.faults not in ("kept", "new")
    three = [count for count in chosen.three if opened and f"{subject.name} {count}" not in known["three"]]
    tables = [count for count in chosen.table[1] if opened and subject.name == chosen.table[0] and f"{subject.name} {count}" not in known["tables"]]
    return Work(subject.name, False, tuple(faults), tuple(three), tuple(tables), chosen)


def scratch() -> str:
    """Where many small files cost least: in memory, where there is room for them."""
    if os.path.isdir(IN_MEMORY) and os.access(IN_MEMORY, os.W_OK) and shutil.disk_usage(IN_MEMORY).free > ROOM:
        return IN_MEMORY
    return tempfile.gettempdir()


def measure(work: Work) -> Done:
    """Measures what is to be measured of a program: first its right version, for which the inputs are made, and in other calls the rest."""
    began, used = time.monotonic(), processor_seconds()
    found: Results = {part: {} for part in PARTS}
    with tempfile.TemporaryDirectory(prefix="corpus-", dir=scratch()) as folder:
        try:
            subject = read_subject(work.name)
            if work.right:
                make_inputs(subject, work.inputs, work.inputs_needed(), work.chosen.seed)
            bench = Bench(subject, Runs(work.chosen.cbi, folder, 1, work.chosen.seed), folder, inputs_in(work.inputs, work.inputs_needed()))
            (measure_right if work.right else measure_faults)(work, bench, found)
        except (NotTaken, CallError, CoverageError, subprocess.CalledProcessError) as error:
            found["not taken"][work.title()] = str(error)[:200]
    return Done(work, found, time.monotonic() - began, processor_seconds() - used)


def measure_right(work: Work, bench: Bench, found: Results) -> None:
    add(found, work.chosen, "programs", work.name, Measure(bench, work.chosen.rates, work.chosen.runs, work.chosen.again).right_version(RIGHT_RUNS))


def measure_faults(work: Work, bench: Bench, found: Results) -> None:
    chosen, taken = work.chosen, Measure(bench, work.chosen.rates, work.chosen.runs, work.chosen.again)
    for fault in bench.subject.faults:
        if fault.name in work.faults:
            add(found, chosen, "faults", fault.title(), taken.fault(fault))
    for count in work.three:
        add(found, chosen, "three", f"{work.name} {count}", Three(bench, count, work.fails if count <= TOLD_RUNS else {}).measured())
    if work.tables:
        three = Three(bench, max(work.tables), {})
        for count in work.tables:
            add(found, chosen, "tables", f"{work.name} {count}", three.table(count))


def add(found: Results, chosen: argparse.Namespace, part: str, name: str, measured: Results) -> None:
    """Keeps what was measured, also in a file beside the results, so that it isn't lost with its program; and tells of it."""
    found[part][name] = measured
    if chosen.results:
        with open(chosen.results + ".lines", "a", encoding="ascii") as file:
            file.write(json.dumps([part, name, measured]) + "\n")
    if part != "programs":
        print(f"{time.strftime('%H:%M:%S')} {part} {name}: {measured['failed']} of {measured['runs']} runs failed", file=sys.stderr, flush=True)


def take(results: Results, done: Done, which: str) -> float:
    """Adds what was measured to the results, and tells of it; answers how many seconds of a processor it took."""
    name, title = done.work.name, done.work.title()
    results["not taken"].pop(title, None)
    for part in PARTS[:-2]:
        results[part].update(done.found[part])
    for part, seconds in zip(PARTS[-2:], (done.passed, done.used)):
        results[part][name] = results[part].get(name, 0) + seconds
    lacking = "".join(f"; {why}" for why in done.found["not taken"].values())
    print(f"{which} {title}: {done.passed:.0f} s, {done.used:.0f} of a processor{lacking}", flush=True)
    return done.used


def with_fails(work: Work, results: Results) -> Work:
    """Three faults at once need the runs that each fails alone: those that are known by now aren't made again."""
    known = [fault for fault in results["faults"].values() if fault["program"] == work.name and fault["runs"] >= max(work.three, default=0)]
    return work._replace(fails={fault["fault"]: set(fault["fails"]) for fault in known if "fails" in fault})


def each(work: List[Work], results: Results, pool: Executor, jobs: int) -> Iterator[Done]:
    """What comes of each piece of work, as it comes. One is begun when a process is free, with what is known by then."""
    at_work: Set["Future[Done]"] = set()
    left = list(work)
    while left or at_work:
        while left and len(at_work) < jobs:
            at_work.add(pool.submit(measure, with_fails(left.pop(0), results)))
        ended, at_work = wait(at_work, return_when=FIRST_COMPLETED)
        yield from (one.result() for one in ended)


def measure_all(chosen: argparse.Namespace, work: List[Work], results: Results) -> None:
    began, used = time.monotonic(), 0.0
    with tempfile.TemporaryDirectory(prefix="corpus-", dir=scratch()) as folder, ProcessPoolExecutor(chosen.jobs) as pool:
        work = [one._replace(inputs=os.path.join(folder, one.name)) for one in work]
        for done in each([one._replace(right=True) for one in work], results, pool, chosen.jobs):
            used += take(results, done, "right version of")
        # What takes longest comes first, so that at the end all have work.
        longest = sorted((piece for one in work for piece in one.pieces()), key=lambda piece: -piece.seconds(results))
        for number, done in enumerate(each(longest, results, pool, chosen.jobs), 1):
            used += take(results, done, f"{number}/{len(longest)}")
            keep(chosen.results, results)
    print(f"{time.monotonic() - began:.0f} s by the clock with {chosen.jobs} at a time, {used:.0f} s of a processor, on {os.cpu_count()} processors "
          f"with a load of {os.getloadavg()[2]:.1f}")


def main() -> int:
    chosen = arguments()
    try:
        results = load(chosen.made or chosen.results)
    except ResultsError as error:
        sys.exit(f"corpus.py: {error}")
    if not chosen.made:
        work = [one for one in (missing(read_subject(name), chosen, results) for name in chosen.names or names()) if one.size()]
        if work:
            measure_all(chosen, work, results)
    print(corpus_tables.summary(results))
    if chosen.write:
        corpus_tables.write_documents(results, chosen.write)
    return 0


if __name__ == "__main__":
    sys.exit(main())
