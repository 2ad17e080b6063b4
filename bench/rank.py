#!/usr/bin/env python3
"""Times `rank` on a large collection, beside a script over numpy that counts all runs anew in each round.

usage: rank.py CBI [RUNS [SITES [ENTRIES]]]     where CBI is the built tool (README.md says how it is built)
       rank.py --numpy PROG COLL                the script over numpy alone: the ranking goes to standard output

Makes a program with SITES branches (60,000) and a collection of RUNS runs (100,000) of ENTRIES sites each (100), of which a tenth fail,
for one of 20 causes: each cause is a branch that is true in all of its runs. Printed are the processor seconds and the most memory of each process,
and whether both wrote the same bytes. With pandas there, the columns of the ranking are read and their types printed.
"""
import importlib
import os
import subprocess
import sys
import tempfile
from random import Random
from typing import Any

from made import HEADER, Seen, leader, passes, read_entries, row_of, seen_with_cause, sites_of, write_collection, write_program
from timing import compared

CAUSES = 20


def rank_by_numpy(program_path: str, path: str) -> None:
    numpy: Any = importlib.import_module("numpy")
    count, held = sites_of(program_path), read_entries(path)
    run_of, site_of = numpy.array(held.run_of), numpy.array(held.site_of)
    shown = [numpy.array(held.true_of), numpy.array(held.false_of)]
    fails = numpy.array(held.fails)
    left = numpy.ones(len(fails), dtype=bool)
    print(HEADER)
    rank = 0
    while True:
        here = left[run_of]
        failing_here, passing_here = here & fails[run_of], here & ~fails[run_of]
        c = numpy.bincount(site_of[failing_here], minlength=count)
        d = numpy.bincount(site_of[passing_here], minlength=count)
        rated = []
        for kind in (0, 1):
            a = numpy.bincount(site_of[failing_here & shown[kind]], minlength=count)
            b = numpy.bincount(site_of[passing_here & shown[kind]], minlength=count)
            for site in numpy.nonzero(a.astype(float) * d > b.astype(float) * c)[0]:
                numbers = (int(a[site]), int(b[site]), int(c[site]), int(d[site]))
                if passes(numbers):
                    rated.append((2 * int(site) + kind, numbers))
        best = leader(rated, int((left & fails).sum()))
        if best is None:
            return
        rank += 1
        print(row_of(rank, best))
        site, kind = divmod(best.predicate, 2)
        left[run_of[(site_of == site) & shown[kind]]] = False


def types_of(path: str) -> str:
    """The types that pandas gives the columns, where it is there."""
    script = "import pandas, sys; print(pandas.read_csv(sys.argv[1]).dtypes.to_string())"
    told = subprocess.run([sys.executable, "-c", script, path], stdout=subprocess.PIPE, stderr=subprocess.DEVNULL, universal_newlines=True, check=False)
    return told.stdout if told.returncode == 0 else "  no pandas here"


def main() -> None:
    if sys.argv[1:2] == ["--numpy"]:
        rank_by_numpy(sys.argv[2], sys.argv[3])
        return
    if not 2 <= len(sys.argv) <= 5 or sys.argv[1].startswith("-"):
        sys.exit(__doc__)
    tool = os.path.abspath(sys.argv[1])
    runs, sites, entries = (int(sys.argv[2 + k]) if len(sys.argv) > 2 + k else most for k, most in enumerate((100000, 60000, 100)))

    def see(chance: Random, failing: bool) -> Seen:
        return seen_with_cause(chance, failing, sites, entries, CAUSES)

    with tempfile.TemporaryDirectory() as folder:
        path, held, out = (os.path.join(folder, name) for name in ("program", "runs", "out.csv"))
        write_collection(held, write_program(path, sites), runs, see)
        print(f"{runs} runs with {entries} of {sites} sites, {os.path.getsize(held) / 1e6:.0f} MB")

        def tell(said: str) -> str:
            with open(out, encoding="ascii") as rows:
                return f"{max(0, sum(1 for _ in rows) - 1)} leaders"

        compared([("cbi", [tool, "rank", path, held]), ("numpy", [sys.executable, os.path.abspath(__file__), "--numpy", path, held])], out, tell)
        print(types_of(out))


if __name__ == "__main__":
    main()
