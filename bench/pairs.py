#!/usr/bin/env python3
"""Times `pairs` on a large collection, beside a script over numpy with the same bits.

usage: pairs.py CBI [RUNS [SITES [ENTRIES]]]     where CBI is the built tool (README.md says how it is built)
       pairs.py --numpy PROG COLL                the script over numpy alone: the text goes to standard output

Makes a program with SITES branches (500) and two collections of RUNS runs (100,000) of ENTRIES sites each (100), of which a tenth fail, so that there are
twice as many candidates as sites. In the first collection the runs fail by chance, and no pair is skipped. In the second they fail where two of the branches are true, and the
sites are seen ever more seldom, so that most pairs are skipped. Printed are the processor seconds and the most memory of each process, how many pairs were
counted, and whether both wrote the same bytes.
"""
import importlib
import os
import sys
import tempfile
from fractions import Fraction
from random import Random
from typing import Any, Dict, List, Optional, Set, Tuple

from made import Numbers, Seen, importance, log_of, passes, read_entries, sites_of, text_of, write_collection, write_program
from timing import compared

MOST = 1000
# The pair that says most so far: its importance, its predicates and its numbers.
Best = Optional[Tuple[Fraction, int, int, Numbers]]


def chosen_sites(chance: Random, sites: int, entries: int, skewed: bool) -> Set[int]:
    """The sites that a run sees; where they are skewed, mostly those with small numbers."""
    if not skewed:
        return set(chance.sample(range(sites), entries))
    seen = {0, 1}
    while len(seen) < entries:
        seen.add(int(sites * chance.random() ** 3))
    return seen


def seen_sides(chance: Random, failing: bool, sites: int, entries: int, skewed: bool) -> Seen:
    """What a run sees; where the sites are skewed it fails just where the first two are both true."""
    sides = {site: chance.random() < 0.5 for site in chosen_sites(chance, sites, entries, skewed)}
    if skewed:
        sides[0], sides[1] = chance.choice([(True, True)] if failing else [(True, False), (False, True), (False, False)])
    return sides


def rows_of(numpy: Any, path: str, count: int) -> Tuple[List[Any], int]:
    """Of each predicate whether it is true in each failing and each successful run, and whether it is known, as bits."""
    held = read_entries(path)
    run_of, site_of, true_of, false_of = (numpy.array(column) for column in (held.run_of, held.site_of, held.true_of, held.false_of))
    fails = numpy.array(held.fails)
    place = numpy.where(fails, numpy.cumsum(fails), numpy.cumsum(~fails)) - 1
    rows = []
    for kind in (fails, ~fails):
        here = kind[run_of]
        for column in (true_of, false_of, None):
            picked = here if column is None else here & column
            bits = numpy.zeros((count, (int(kind.sum()) + 63) // 64 * 64), dtype=bool)
            bits[site_of[picked], place[run_of[picked]]] = True
            rows.append(numpy.packbits(bits, axis=1).view(numpy.uint16))
    groups = []
    for at in (0, 3):
        truth = numpy.empty((2 * count, rows[at].shape[1]), dtype=numpy.uint16)
        truth[0::2], truth[1::2] = rows[at], rows[at + 1]
        groups.append((truth, numpy.repeat(rows[at + 2], 2, axis=0)))
    return groups, int(fails.sum())


def share(numbers: Numbers, failing: int) -> Fraction:
    top, bottom = importance(numbers, failing)
    return Fraction(top, bottom)


def bound(least: int, failing: int) -> Fraction:
    """The greatest importance of a pair of which one predicate is true in so many failing runs, and the other in no fewer."""
    own, whole = log_of(least), log_of(failing)
    return Fraction(0) if own == 0 or whole == 0 else Fraction(2 * own, own + whole)


def listed_of(own: List[Numbers], failing: int) -> List[int]:
    """The predicates whose pairs are looked at: those that pass by their importance, and then the others by the failing runs in which they were true."""
    rated = []
    for predicate, numbers in enumerate(own):
        if numbers[0] >= 1:
            is_listed = passes(numbers)
            rated.append((not is_listed, -share(numbers, failing) if is_listed else Fraction(-numbers[0]), predicate))
    return [predicate for _, _, predicate in sorted(rated)][:MOST]


def print_best(best: Best) -> None:
    if best is None:
        print("best none")
        return
    value, left, right, numbers = best
    print("best", left, right, *numbers, int(1000000 * value))
    for word, predicate in (("left", left), ("right", right)):
        print(word, "main", predicate // 2 + 1, text_of(predicate))


def pairs_by_numpy(program_path: str, path: str) -> None:
    numpy: Any = importlib.import_module("numpy")
    ones = numpy.array([bin(number).count("1") for number in range(1 << 16)], dtype=numpy.uint8)

    def count(rows: Any) -> Any:
        return ones[rows].sum(axis=1, dtype=numpy.int64)

    groups, failing = rows_of(numpy, path, sites_of(program_path))
    own: List[Numbers] = list(zip(*(count(rows).tolist() for rows in (groups[0][0], groups[1][0], groups[0][1], groups[1][1]))))
    listed = listed_of(own, failing)
    picked = [(truth[listed], known[listed], known[listed] & ~truth[listed]) for truth, known in groups]
    bounds: Dict[int, Fraction] = {}
    total = counted = skipped = 0
    best: Best = None
    for left in range(len(listed)):
        limits = []
        for right in range(left + 1, len(listed)):
            key = min(own[listed[left]][0], own[listed[right]][0])
            if key not in bounds:
                bounds[key] = bound(key, failing)
            limits.append(bounds[key])
        total += len(limits)
        kept = [left + 1 + k for k, limit in enumerate(limits) if best is None or limit >= best[0]]
        if not kept:
            skipped += len(limits)
            continue
        (a, c), (b, d) = ((count(truth[kept] & truth[left]), count(truth[kept] & truth[left] | false[kept] | false[left])) for truth, _, false in picked)
        numbers_of = dict(zip(kept, zip(a.tolist(), b.tolist(), c.tolist(), d.tolist())))
        for k, limit in enumerate(limits):
            if best is not None and limit < best[0]:
                skipped += 1
                continue
            counted += 1
            numbers = numbers_of[left + 1 + k]
            if passes(numbers):
                value = share(numbers, failing)
                if best is None or value > best[0]:
                    best = (value, listed[left], listed[left + 1 + k], numbers)
    print(f"pairs {total} counted {counted} skipped {skipped}")
    print_best(best)


def main() -> None:
    if sys.argv[1:2] == ["--numpy"]:
        pairs_by_numpy(sys.argv[2], sys.argv[3])
        return
    if not 2 <= len(sys.argv) <= 5 or sys.argv[1].startswith("-"):
        sys.exit(__doc__)
    tool = os.path.abspath(sys.argv[1])
    runs, sites, entries = (int(sys.argv[2 + k]) if len(sys.argv) > 2 + k else most for k, most in enumerate((100000, 500, 100)))
    with tempfile.TemporaryDirectory() as folder:
        path, held, out = (os.path.join(folder, name) for name in ("program", "runs", "out"))
        identity = write_program(path, sites)

        def tell(said: str) -> str:
            with open(out, encoding="ascii") as lines:
                return lines.readline().strip()

        for skewed in (False, True):

            def see(chance: Random, failing: bool, skewed: bool = skewed) -> Seen:
                return seen_sides(chance, failing, sites, entries, skewed)

            write_collection(held, identity, runs, see)
            print(f"{runs} runs with {entries} of {sites} sites, {os.path.getsize(held) / 1e6:.0f} MB")
            compared([("cbi", [tool, "pairs", path, held]), ("numpy", [sys.executable, os.path.abspath(__file__), "--numpy", path, held])], out, tell)


if __name__ == "__main__":
    main()
