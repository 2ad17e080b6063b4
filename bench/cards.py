#!/usr/bin/env python3
"""Times `cards` on a large collection, beside a script over numpy that counts all runs anew for each leader and each card.

usage: cards.py CBI [RUNS [SITES [ENTRIES]]]     where CBI is the built tool (README.md says how it is built)
       cards.py --numpy PROG COLL                the script over numpy alone: the cards go to standard output

Makes a program with SITES branches (60,000) and a collection of RUNS runs (100,000) of ENTRIES sites each (100), of which a tenth fail, for one of 20 causes:
each cause is a branch that is true in all of its runs, and a second branch is true in three of four of them. Printed are the processor seconds and the most
memory of each process, and whether both wrote the same bytes.
"""
import importlib
import os
import sys
import tempfile
from random import Random
from typing import Any, Dict, Tuple

from made import Numbers, Seen, importance, leader, passes, read_entries, sites_of, text_of, write_collection, write_program
from timing import compared

CAUSES = 20
NEAR = 5
# The numbers of each predicate that passes.
Found = Dict[int, Numbers]


def seen_with_neighbour(chance: Random, failing: bool, sites: int, entries: int) -> Seen:
    """What a run sees where a cause shows at two sites: at the first in each run that it has fail, at the second in three of four."""
    seen = {site: site >= 2 * CAUSES and chance.random() < 0.5 for site in chance.sample(range(sites), entries - 2)}
    if failing:
        cause = chance.randrange(CAUSES)
        seen[cause] = True
        seen[cause + CAUSES] = chance.random() < 0.75
    return seen


class Runs:
    """The entries of a collection's runs, as arrays."""

    def __init__(self, program_path: str, path: str) -> None:
        self.numpy: Any = importlib.import_module("numpy")
        self.sites = sites_of(program_path)
        held = read_entries(path)
        self.names = held.names
        self.run_of, self.site_of = self.numpy.array(held.run_of), self.numpy.array(held.site_of)
        self.shown = [self.numpy.array(held.true_of), self.numpy.array(held.false_of)]
        self.fails = self.numpy.array(held.fails)

    def true_in(self, predicate: int) -> Any:
        """In which runs a predicate was true."""
        site, kind = divmod(predicate, 2)
        was = self.numpy.zeros(len(self.fails), dtype=bool)
        was[self.run_of[(self.site_of == site) & self.shown[kind]]] = True
        return was

    def count(self, which: Any) -> Any:
        """How many of these entries each site has."""
        return self.numpy.bincount(self.site_of[which], minlength=self.sites)

    def passing(self, left: Any) -> Tuple[Found, int]:
        """The numbers of each predicate that passes over the runs left, and how many of these fail."""
        here = left[self.run_of]
        failing_here, passing_here = here & self.fails[self.run_of], here & ~self.fails[self.run_of]
        c, d = self.count(failing_here), self.count(passing_here)
        found = {}
        for kind in (0, 1):
            a, b = self.count(failing_here & self.shown[kind]), self.count(passing_here & self.shown[kind])
            for site in self.numpy.nonzero(a.astype(float) * d > b.astype(float) * c)[0]:
                numbers = (int(a[site]), int(b[site]), int(c[site]), int(d[site]))
                if passes(numbers):
                    found[2 * int(site) + kind] = numbers
        return found, int((left & self.fails).sum())


def shares(found: Found, failing: int) -> Dict[int, int]:
    """The importance of each of these predicates in millionths."""
    parts = {predicate: importance(numbers, failing) for predicate, numbers in found.items()}
    return {predicate: 1000000 * top // bottom for predicate, (top, bottom) in parts.items()}


def deal_by_numpy(program_path: str, path: str) -> None:
    runs = Runs(program_path, path)
    left = runs.numpy.ones(len(runs.fails), dtype=bool)
    found, failing = runs.passing(left)
    before = shares(found, failing)
    place = 0
    while True:
        best = leader(found.items(), failing)
        if best is None:
            break
        predicate = best.predicate
        was, place = runs.true_in(predicate), place + 1
        after = shares(*runs.passing(~was))
        falls = sorted((after.get(other, 0) - share, other) for other, share in before.items() if other != predicate and share > after.get(other, 0))
        first = min(runs.names[run] for run in runs.numpy.nonzero(was & runs.fails)[0])
        print(f"card {place} {predicate} main {predicate // 2 + 1} {text_of(predicate)}")
        print(f"truth {int((was & runs.fails).sum())} {int((was & ~runs.fails).sum())} first {first}")
        for fall, other in falls[:NEAR]:
            print(f"near {other} {-fall} {text_of(other)}")
        left &= ~was
        found, failing = runs.passing(left)
    print("end")


def main() -> None:
    if sys.argv[1:2] == ["--numpy"]:
        deal_by_numpy(sys.argv[2], sys.argv[3])
        return
    if not 2 <= len(sys.argv) <= 5 or sys.argv[1].startswith("-"):
        sys.exit(__doc__)
    tool = os.path.abspath(sys.argv[1])
    runs, sites, entries = (int(sys.argv[2 + k]) if len(sys.argv) > 2 + k else most for k, most in enumerate((100000, 60000, 100)))

    def see(chance: Random, failing: bool) -> Seen:
        return seen_with_neighbour(chance, failing, sites, entries)

    with tempfile.TemporaryDirectory() as folder:
        path, held, out = (os.path.join(folder, name) for name in ("program", "runs", "out"))
        write_collection(held, write_program(path, sites), runs, see)
        print(f"{runs} runs with {entries} of {sites} sites, {os.path.getsize(held) / 1e6:.0f} MB")

        def tell(said: str) -> str:
            with open(out, encoding="ascii") as lines:
                return f"{sum(line.startswith('card ') for line in lines)} cards"

        compared([("cbi", [tool, "cards", path, held]), ("numpy", [sys.executable, os.path.abspath(__file__), "--numpy", path, held])], out, tell)


if __name__ == "__main__":
    main()
