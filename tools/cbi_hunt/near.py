"""Makes neighbours of one failing input, so that there is more to compare: the input made smaller, and what small changes make of it, each run and judged as any other. Not proved."""
import argparse
import concurrent.futures
import itertools
import os
import random
import shutil
from typing import Any, Dict, Iterator, List, NamedTuple, Optional, Tuple

from cbi_show import files
from cbi_hunt.again import Again, Repeater, program_for
from cbi_hunt.changes import digest_of, neighbours
from cbi_hunt.counts import Told
from cbi_hunt.inputs import Inputs
from cbi_hunt.kept import Kept
from cbi_hunt.mutants import Made
from cbi_hunt.runs import Plan, judged
from cbi_hunt.smaller import Smaller, Wanted
from cbi_show.files import Fault, count_of, harmless, status_of
from cbi_show.seen import ending_of

TRIES = 10         # for each neighbour that is wanted, at most
ROUND = 64         # runs that are made from the same numbers, whatever the number of processors
MOST_POOL = 200    # inputs whose pieces are put into others
FEW = 10           # failing inputs from which on neighbours aren't needed
SUGGESTED = 200


class End(NamedTuple):
    """How a run ended, and what it counts as."""
    outcome: str
    label: str


def label_of(plan: Plan, path: str, run: Again) -> str:
    """What a run counts as, as for a run of the hunt."""
    if run.outcome.startswith("trapped ") or run.outcome == "cut turns" and plan.hangs:
        return "fail"
    if not run.outcome.startswith("ended "):
        return "none"
    if plan.status and status_of(run.outcome):
        return "fail"
    return judged(plan, path, run.output, run.outcome) if plan.oracle else "pass"


class Judge:
    """Runs inputs and judges them, some at a time."""

    def __init__(self, plan: Plan, kept: Kept, program: str, jobs: int):
        self.plan, self.program, self.jobs = plan, program, jobs
        self.folder = kept.path("worker-near")
        os.makedirs(self.folder, exist_ok=True)
        self.repeaters = [Repeater(plan, self.folder, str(number)) for number in range(ROUND)]

    def ends(self, paths: List[str]) -> List[End]:
        """How the runs on at most a round of inputs end."""
        def end(number: int) -> End:
            run = self.repeaters[number].run(self.program, paths[number])
            return End(ending_of(run.outcome, self.plan.status), label_of(self.plan, paths[number], run))

        with concurrent.futures.ThreadPoolExecutor(self.jobs) as pool:
            return list(pool.map(end, range(len(paths))))

    def ends_on(self, pieces: List[bytes]) -> List[End]:
        paths = [os.path.join(self.folder, f"{number}.input") for number in range(len(pieces))]
        for path, data in zip(paths, pieces):
            with open(path, "wb") as file:
                file.write(data)
        return self.ends(paths)

    def first_failing(self, inputs: Inputs) -> Optional[Tuple[int, End]]:
        """The smallest input that fails, by its place; of those that were given, if one of these fails."""
        order = sorted(range(len(inputs.paths)), key=lambda place: (place >= inputs.given, os.path.getsize(inputs.paths[place]), inputs.names[place]))
        for start in range(0, len(order), ROUND):
            places = order[start:start + ROUND]
            for place, end in zip(places, self.ends([os.path.abspath(inputs.paths[place]) for place in places])):
                if end.label == "fail":
                    return place, end
        return None


class Around(NamedTuple):
    """Neighbours, and how many of the inputs that were tried fail alike, don't fail, fail otherwise, or aren't told of."""
    pieces: List[bytes]
    failing: int
    passing: int
    otherwise: int
    unknown: int


def around(judge: Judge, tried: Iterator[bytes], wanted: int, end: End, told: Told) -> Around:
    """As many of these inputs as are wanted that fail as the first one does, or don't fail."""
    kept: List[bytes] = []
    count = {"alike": 0, "pass": 0, "otherwise": 0, "none": 0}
    left = TRIES * wanted
    while len(kept) < wanted and left > 0:
        pieces = list(itertools.islice(tried, min(ROUND, left)))
        left -= len(pieces)
        for data, one in zip(pieces, judge.ends_on(pieces)):
            if len(kept) == wanted:
                break
            what = one.label if one.label != "fail" else "alike" if one.outcome == end.outcome else "otherwise"
            count[what] += 1
            kept += [data] if what in ("alike", "pass") else []
        told.show(f"neighbours: {len(kept)} of {wanted}, of which {count['alike']} fail")
        if not pieces:
            break
    told.clear()
    return Around(kept, count["alike"], count["pass"], count["otherwise"], count["none"])


def shortened(plan: Plan, kept: Kept, program: str, data: bytes, end: End) -> Tuple[bytes, int]:
    """The input made smaller as long as it fails alike, and in how many runs."""
    outcome, _, status = end.outcome.partition(" ") if end.outcome.startswith("ended") else (end.outcome, "", "")
    smaller = Smaller(plan, kept.folder, Wanted(program, (), outcome, int(status or 0)), Told())
    return smaller.of(data) or data, smaller.steps


def refuse(inputs: Inputs) -> None:
    if inputs.expected:
        raise Fault("--neighbours needs an oracle, or runs that crash: files of expected output don't say what the program should write on an input that is made. With a program that works, "
                    """--oracle-shell './works <"$1" | cmp -s - "$2"' judges every input""")


def add_neighbours(chosen: argparse.Namespace, plan: Plan, kept: Kept, inputs: Inputs, jobs: int) -> str:
    """Adds neighbours of the smallest failing input; answers what is told of it."""
    refuse(inputs)
    program = program_for(chosen, plan.cbi, kept, "plain")
    made = Made(kept, "neighbours", {"given": inputs.digest(), "program": files.read_program(program).identity, "seed": chosen.seed, "wanted": chosen.neighbours, "turns": chosen.turns,
                                     "oracle": plan.oracle, "hangs": plan.hangs, "status": plan.status})
    names, about = made.there()
    if not names:
        names, about = make_anew(chosen, plan, kept, inputs, Judge(plan, kept, program, jobs), made)
    inputs.add(names, [os.path.join(made.folder, name) for name in names], own=False)
    return said(about) if about else "no neighbours were made, since no input fails"


def make_anew(chosen: argparse.Namespace, plan: Plan, kept: Kept, inputs: Inputs, judge: Judge, made: Made) -> Tuple[List[str], Dict[str, Any]]:
    """Makes them and writes them; answers their names, and what is told of them. Where no input fails there are none."""
    try:
        found = judge.first_failing(inputs)
        if found is None:
            return [], {}
        place, end = found
        data, others = files.read_bytes(inputs.paths[place]), [files.read_bytes(path) for path in inputs.paths[:MOST_POOL]]
        small, steps = shortened(plan, kept, judge.program, data, end)
        known = {digest_of(files.read_bytes(path)) for path in inputs.paths}
        tried = itertools.chain([] if digest_of(small) in known else [small], neighbours(small, others, known, random.Random(f"{chosen.seed} near {chosen.neighbours}")))
        near = around(judge, tried, chosen.neighbours, end, Told())
        about = {"of": inputs.names[place], "size": len(data), "smaller": len(small), "steps": steps, "wanted": chosen.neighbours, **near._replace(pieces=[])._asdict()}
        return made.write(near.pieces, "neighbour", about), about
    finally:
        shutil.rmtree(judge.folder, ignore_errors=True)


def said(about: Dict[str, Any]) -> str:
    """How many there are, and how they went."""
    smaller = f", made smaller to {count_of(about['smaller'], 'byte')} in {count_of(about['steps'], 'run')}" if about["smaller"] < about["size"] else ""
    left = [f"{count} {what}" for count, what in ((about["otherwise"], "that fail otherwise"), (about["unknown"], "of which nothing says whether they fail")) if count]
    out = f"; left out: {' and '.join(left)}" if left else ""
    number = about["failing"] + about["passing"]
    fewer = f"; {about['wanted']} were asked for" if number < about["wanted"] else ""
    of = f"{about['of']} of {count_of(about['size'], 'byte')}{smaller}"
    return harmless(f"{count_of(number, 'neighbour')} of the failing input {of}: {about['failing']} fail, {about['passing']} don't{out}{fewer}")


def suggestion(chosen: argparse.Namespace, inputs: Inputs, failing: int) -> List[str]:
    """What may help where few inputs fail."""
    if chosen.neighbours or not 0 < failing < FEW:
        return []
    more = ""
    if inputs.expected:
        more = "with an oracle in place of expected outputs, "
    few = f"Only {count_of(failing, 'input')} {'fails' if failing == 1 else 'fail'}"
    return [f"{few}: {more}--neighbours {SUGGESTED} makes and judges inputs near the smallest of them."]
