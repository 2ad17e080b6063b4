"""A hunt from its words to its end: compiles, makes runs, collects, ranks and shows. Not proved."""
import argparse
import os
import shlex
import sys
from typing import List, Optional, Tuple

from cbi_show import files
from cbi_hunt.collecting import collect, sample_of
from cbi_hunt.flaky import flaky_note
from cbi_hunt.given import check_given
from cbi_hunt.inputs import Inputs, inputs_of
from cbi_hunt.kept import Kept, folder_of
from cbi_hunt.looks import Hunt, newline_note
from cbi_hunt.making import make_runs, processors
from cbi_hunt.mutants import add_mutants
from cbi_hunt.near import add_neighbours, refuse
from cbi_hunt.oracles import oracle_of
from cbi_hunt.room import with_room
from cbi_hunt.runs import Plan
from cbi_hunt.showing import show
from cbi_hunt.signals import heed, heed_now, interrupted
from cbi_hunt.since import Before, make_old, old_words, set_aside
from cbi_hunt.texts import text_of, transform
from cbi_hunt.told import keep_failing, notes
from cbi_hunt.words import arguments
from cbi_show.bugs import check_lists
from cbi_show.calls import executable
from cbi_show.files import FOUND, INTERRUPTED, NOTHING, Fault

# The rate at which each visit is looked at.
EVERY = 1


def plan_of(chosen: argparse.Namespace, kept: Kept, inputs: Inputs, cbi: str) -> Tuple[Plan, List[str], Optional[Before]]:
    """How runs are made, what is told of a port and of inputs that were made, and how the old version did, where there is one."""
    told = text_of(chosen, cbi, kept, inputs)
    program, parts = kept.path("program"), []
    if chosen.parts > 1:
        os.makedirs(kept.path("parts"), exist_ok=True)
        parts = [transform(chosen, cbi, kept.path("source.c"), kept.path("parts", str(part)), part) for part in range(chosen.parts)]
    oracle = oracle_of(chosen)
    chosen.rate = chosen.rate or kept.begun_rate() or EVERY
    plan = Plan(cbi, program, chosen.rate, chosen.seed, chosen.turns, oracle, [], [], None, parts, chosen.oracle_timeout, chosen.hangs == "fail",
                chosen.status == "fail")
    if chosen.mutate:
        told.append(add_mutants(chosen, plan, kept, inputs, chosen.jobs or processors()))
    if chosen.neighbours:
        told.append(add_neighbours(chosen, plan, kept, inputs, chosen.jobs or processors()))
    before, outputs = make_old(chosen, plan, kept.folder, inputs) if chosen.since else (None, None)
    inputs.expected = outputs or inputs.expected
    plan = plan._replace(own=inputs.own, names=inputs.names, inputs=[os.path.abspath(path) for path in inputs.paths],
                         expected=inputs.expected and [os.path.abspath(path) for path in inputs.expected])
    kept.settle({"program": files.read_program(program).identity, "rate": plan.rate, "seed": plan.seed, "turns": plan.turns, "parts": chosen.parts,
                 "oracle": chosen.oracle or chosen.oracle_shell, "inputs": inputs.digest(), "hangs": chosen.hangs, "status": chosen.status,
                 "since": files.read_program(kept.path("since", "program")).identity if before else None})
    return plan, told, before


def runs_of(chosen: argparse.Namespace, plan: Plan) -> Tuple[int, List[str]]:
    """How many runs are made, and what is told of it: where each visit is looked at, a run is fixed by its input, and by the part of the sites that it looks at."""
    inputs = len(plan.inputs)
    most = inputs * max(1, len(plan.parts))
    if plan.rate > EVERY or not chosen.runs or chosen.runs <= most:
        return chosen.runs or inputs, []
    each = f"each input's run for each of the {len(plan.parts)} parts" if plan.parts else "each input's run"
    return most, [f"{most} runs in place of {chosen.runs}: where every visit is looked at (--rate 1) {each} is the same each time, so that more runs are copies"]


def hunt(chosen: argparse.Namespace, cbi: str, folder: str) -> int:
    kept = Kept(folder)
    inputs = inputs_of(chosen, folder)
    if chosen.neighbours:
        refuse(inputs)
    plan, told, before = plan_of(chosen, kept, inputs, cbi)
    heed_now()
    runs, capped = runs_of(chosen, plan)
    told += capped
    count, whole = make_runs(chosen, plan, kept, runs, before.label if before else None)
    heed_now()
    if not count.runs():
        print("No run was made.")
        return INTERRUPTED
    sample = sample_of(count.marks, chosen.seed)
    collect(plan, kept, kept.made(), sample.runs if sample else None)
    if before:
        set_aside(kept.path("runs"), plan, before)
    this = Hunt(chosen, plan, kept, inputs, count, sample.told if sample else None, before)
    keep_failing(this)
    newline = newline_note(this)
    found = show(this, list(notes(this, whole, told, newline)), newline, flaky_note(this))
    return INTERRUPTED if not whole else FOUND if found else NOTHING


def main() -> int:
    chosen = arguments(sys.argv[1:])
    heed(interrupted)
    check_given(chosen)
    if chosen.since:
        old_words(chosen)
    cbi = executable(chosen.cbi)
    check_lists(cbi)
    chosen.command = " ".join(shlex.quote(word) for word in ["cbi-hunt", *sys.argv[1:]])
    with folder_of(chosen) as folder:
        return with_room(chosen, folder, lambda: hunt(chosen, cbi, folder))
