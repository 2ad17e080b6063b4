#!/usr/bin/env python3
"""How many runs the hunt of examples/bc takes at each rate until it points at the cause.

    bc_rates.py WORK --executable CBI [--count N] [--seed S] [--rate D ..] [--runs N,N,..] [--text TEXT]

WORK is the folder of work of examples/bc/hunt, whose runs looked at each visit. What runs at rate D would have collected is drawn from these (thinned.c): each visit is kept by the chance 1/D, anew
each time that a run is taken. So it isn't run, but computed; the rankings are those of CBI. A collection holds 16,777,216 site lines, so there is a greatest number of runs at each rate.
"""
import argparse
import glob
import os
import re
import subprocess
import sys
import tempfile
from typing import Dict, List, NamedTuple, Optional, Sequence

from real_bug import HERE
from timing import Timed, timed

RUNS = "20,50,100,200,300,400,500,750,1000,1500,2000,3000,5000,10000,20000,50000,100000"


class Listed(NamedTuple):
    """A list of one collection: where the text stands in it, from 1, how many there are, and what it took."""
    place: Optional[int]
    total: int
    took: Timed


def thinned(folder: str, batches: Sequence[str], rate: int, seed: int, runs: str) -> Dict[int, str]:
    """The collections of so many runs at a rate, by the number of their runs."""
    program = os.path.join(folder, "thinned")
    if not os.path.exists(program):
        subprocess.run(["gcc", "-O2", "-o", program, os.path.join(HERE, "thinned.c"), "-lm"], check=True)
    done = subprocess.run([program, str(rate), str(seed), os.path.join(folder, f"rate{rate}"), runs, *batches], stdout=subprocess.PIPE, check=True)
    found: Dict[int, str] = {}
    for line in done.stdout.decode().splitlines():
        path, made, lines = line.rsplit(" ", 2)
        found[int(made)] = path
        print(f"rate {rate}: {made} runs have {int(lines):,} site lines, {os.path.getsize(path) / max(1, int(made)) / 1000:.0f} KB a run", flush=True)
    return found


def listed(words: List[str], head: str, text: str, folder: str) -> Listed:
    """Calls a command that lists predicates, one a line that begins with `head`."""
    out = os.path.join(folder, "listed")
    took = timed(words, out)
    if took.status:
        raise SystemExit(f"{' '.join(words)}: {took.said}")
    with open(out, encoding="utf-8") as file:
        rows = [row for row in file.read().splitlines() if re.match(head, row)]
    return Listed(next((place for place, row in enumerate(rows, 1) if text in row), None), len(rows), took)


def failing_in(path: str) -> int:
    with open(path, encoding="utf-8") as file:
        return sum(line.startswith("run ") and " label fail " in line for line in file)


def show(cbi: str, program: str, path: str, text: str, folder: str) -> str:
    """The places of a predicate in three lists of a collection, in a row of a table."""
    lists = [listed([cbi, "rank", program, path], r"\d+,", f",{text},", folder), listed([cbi, "lines", "--most=1000", program, path], "line ", f" {text}", folder),
             listed([cbi, "bugs", program, path], "bug ", f" {text}", folder)]
    cells = [f"{one.place or '-'} of {one.total}" for one in lists]
    return " | ".join([str(failing_in(path)), *cells, f"{lists[0].took.seconds:.1f} s, {lists[0].took.memory} MB"])


def main() -> int:
    parser = argparse.ArgumentParser(description="How many runs the hunt of examples/bc takes at each rate.")
    parser.add_argument("work", metavar="WORK", help="the folder of work of examples/bc/hunt")
    parser.add_argument("--executable", metavar="CBI", default="cbi", help="the executable cbi")
    parser.add_argument("--count", metavar="N", type=int, default=1000, help="how many programs were hunted (1000)")
    parser.add_argument("--seed", metavar="S", type=int, default=1, help="which visits are kept (1)")
    parser.add_argument("--rate", metavar="D", type=int, nargs="+", default=[1, 100, 1000], help="the rates (1 100 1000)")
    parser.add_argument("--runs", metavar="N,N,..", default=RUNS, help="how many runs are ranked")
    parser.add_argument("--text", metavar="TEXT", default="a_count < v_count", help="the predicate that is looked for")
    chosen = parser.parse_args()
    home = os.path.join(chosen.work, f"hunt{chosen.count}")
    batches = sorted(glob.glob(os.path.join(home, "batches", "*")), key=lambda path: int(os.path.basename(path).split("-")[0]))
    for rate in chosen.rate:
        with tempfile.TemporaryDirectory(dir=chosen.work) as folder:
            made = thinned(folder, batches, rate, chosen.seed, chosen.runs)
            print("| Rate | Runs | Failing | Row | Line | Bug | To rank |\n|---|---|---|---|---|---|---|")
            for runs, path in sorted(made.items()):
                print(f"| {rate} | {runs:,} | {show(chosen.executable, os.path.join(home, 'program'), path, chosen.text, folder)} |", flush=True)
    return 0


if __name__ == "__main__":
    sys.exit(main())
