#!/usr/bin/env python3
"""Times `session` on many edits, beside a script with a dict that counts all runs anew for each leader.

usage: sessions.py CBI [ADDS [RELABELS [RANKS [SITES [ENTRIES]]]]]     where CBI is the built tool (README.md says how it is built)
       sessions.py --dict EDITS SITES                                   the script with a dict alone: the rankings go to standard output

Makes edits of a program with SITES branches (1,000): ADDS additions of reports (100,000) of ENTRIES sites each (10), of which a tenth fail, for one of
5 causes; and among them RELABELS relabellings (10,000) and RANKS rankings (100). Printed are the processor seconds and the most memory of each
process, and whether both wrote the same bytes.
"""
import os
import random
import sys
import tempfile
from typing import Dict, Iterator, List, Tuple

from made import HEADER, Numbers, fails, leader, row_of, run_line, seen_with_cause, site_lines, write, write_program
from timing import compared

CAUSES = 5

# A site line: the site, and how often its condition was true and false.
Entry = Tuple[int, int, int]
# A run: its label and its site lines.
Run = Tuple[str, List[Entry]]


def edits(adds: int, relabels: int, ranks: int, sites: int, entries: int) -> Iterator[str]:
    """The parts of the edits' file."""
    chance = random.Random(1)
    later = ["relabel"] * relabels + ["rank"] * ranks
    places = sorted(chance.randrange(1, adds + 1) for _ in later)
    chance.shuffle(later)
    yield "cbi-edits 1\n"
    for run in range(1, adds + 1):
        yield "add " + run_line(run) + site_lines(seen_with_cause(chance, fails(run), sites, entries, CAUSES))
        while places and places[0] == run:
            places.pop(0)
            kind = later.pop()
            yield "rank\n" if kind == "rank" else f"relabel {chance.randrange(1, run + 1)} {chance.choice(('fail', 'pass', 'none'))}\n"
    yield "end\n"


def recount(runs: List[Run], sites: int) -> List[Numbers]:
    """The numbers of each predicate over labelled runs."""
    numbers = [[0, 0, 0, 0] for _ in range(2 * sites)]
    for label, seen in runs:
        if label == "none":
            continue
        side = 0 if label == "fail" else 1
        for site, true, false in seen:
            for kind, count in ((0, true), (1, false)):
                row = numbers[2 * site + kind]
                row[2 + side] += 1
                row[side] += count > 0
    return [(a, b, c, d) for a, b, c, d in numbers]


def write_ranking(runs: List[Run], sites: int) -> None:
    print(HEADER)
    rank = 0
    while True:
        best = leader(enumerate(recount(runs, sites)), sum(label == "fail" for label, _ in runs))
        if best is None:
            return
        rank += 1
        print(row_of(rank, best))
        site, kind = divmod(best.predicate, 2)
        runs = [run for run in runs if not any(entry[0] == site and entry[1 + kind] > 0 for entry in run[1])]


def rank_by_dict(path: str, sites: int) -> None:
    held: Dict[int, Run] = {}
    entries: List[Entry] = []
    with open(path, encoding="ascii") as text:
        for line in text:
            words = line.split()
            if words[0] == "add":
                entries = []
                held[int(words[2])] = (words[words.index("label") + 1], entries)
            elif words[0] == "site":
                entries.append((int(words[1]), int(words[2]), int(words[3])))
            elif words[0] == "relabel":
                held[int(words[1])] = (words[2], held[int(words[1])][1])
            elif words[0] == "remove":
                del held[int(words[1])]
            elif words[0] == "rank":
                write_ranking(list(held.values()), sites)


def main() -> None:
    if sys.argv[1:2] == ["--dict"]:
        rank_by_dict(sys.argv[2], int(sys.argv[3]))
        return
    if not 2 <= len(sys.argv) <= 7 or sys.argv[1].startswith("-"):
        sys.exit(__doc__)
    tool = os.path.abspath(sys.argv[1])
    given = [int(word) for word in sys.argv[2:]]
    adds, relabels, ranks, sites, entries = given + [100000, 10000, 100, 1000, 10][len(given):]
    with tempfile.TemporaryDirectory() as folder:
        path, held, out = (os.path.join(folder, name) for name in ("program", "edits", "out.csv"))
        write_program(path, sites)
        write(held, edits(adds, relabels, ranks, sites, entries))
        print(f"{adds} additions of {entries} of {sites} sites, {relabels} relabellings, {ranks} rankings, {os.path.getsize(held) / 1e6:.0f} MB")

        def tell(said: str) -> str:
            with open(out, encoding="ascii") as rows:
                return f"{sum(row == HEADER + chr(10) for row in rows)} rankings"

        script = [sys.executable, os.path.abspath(__file__), "--dict", held, str(sites)]
        compared([("cbi", [tool, "session", "--program", path, held]), ("dict", script)], out, tell)


if __name__ == "__main__":
    main()
