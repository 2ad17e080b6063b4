#!/usr/bin/env python3
"""Times `collect` on many reports, beside a script with a dict that does the same.

usage: collect.py CBI [REPORTS [ENTRIES]]      where CBI is the built tool (README.md says how it is built)
       collect.py --dict PROG FILE...          the script with a dict alone: the collection goes to standard output

Makes a program with 1,000 branches and REPORTS reports (100,000) of ENTRIES sites each (100), as one collection, as 100 collections in
turn, and as 10,000 files of one report each beside a collection of the rest. Printed are the processor seconds and the most memory of
each process, and whether both wrote the same bytes.
"""
import hashlib
import os
import random
import sys
import tempfile
from typing import Dict, Iterable, Iterator, List, Tuple

from made import collection, ending_of, run_line, write, write_program
from timing import compared

SITES = 1000
MOST_REPORTS = 100000
MOST_MARKS = 16777216


def sites_of(chance: random.Random, entries: int) -> str:
    """The site lines of a run."""
    numbers = sorted(chance.sample(range(SITES), entries))
    return "".join(f"site {number} {chance.randrange(1, 1000)} {chance.randrange(1000)} 0\n" for number in numbers)


def report(identity: str, run: int, sites: str) -> str:
    outcome, label = ending_of(run)
    return f"cbi-report 2\nprogram {identity}\nrun {run}\noutcome {outcome}\nlabel {label}\nwork {run} 0 0\n{sites}end\n"


def make(folder: str, reports: int, entries: int) -> Tuple[str, List[Tuple[str, List[str]]]]:
    """Writes the files; answers the program's path, and each way to give the reports."""
    path = os.path.join(folder, "program")
    identity = write_program(path, SITES)
    chance = random.Random(1)
    runs = [(run, sites_of(chance, entries)) for run in range(1, reports + 1)]

    def collected(name: str, some: List[Tuple[int, str]]) -> str:
        return write(os.path.join(folder, name), collection(identity, (run_line(run, run) + sites for run, sites in some)))

    one = [collected("all", runs)]
    parts = [collected(f"part{k}", runs[k::100]) for k in range(100)]
    alone = min(10000, reports)
    mixed = [write(os.path.join(folder, f"r{run}"), [report(identity, run, sites)]) for run, sites in runs[:alone]]
    mixed.append(collected("rest", runs[alone:]))
    return path, [("one collection", one), ("100 collections", parts), (f"{alone} reports and a collection", mixed)]


def fields_of_run(words: List[str]) -> Tuple[int, str]:
    return int(words[1]), " ".join(words[2:])


def read(path: str, identity: str) -> Iterator[Tuple[int, str, List[str]]]:
    """The runs of a file: each with what it says, and its site lines."""
    with open(path, encoding="ascii") as text:
        first = text.readline().split()
        if text.readline().split() != ["program", identity]:
            sys.exit(f"{path}: another program")
        if first[0] == "cbi-report":
            run = int(text.readline().split()[1])
            outcome = text.readline().split(" ", 1)[1].strip()
            rest = outcome + " " + text.readline().strip() + " " + text.readline().strip()
            yield run, rest, checked(line for line in text if line != "end\n")
            return
        run, rest = 0, ""  # no run has the number 0
        sites: List[str] = []
        for line in text:
            if line.startswith("site "):
                sites.append(line)
                continue
            if run:
                yield run, rest, checked(sites)
            if line == "end\n":
                return
            run, rest = fields_of_run(line.split())
            sites = []


def checked(lines: Iterable[str]) -> List[str]:
    """The site lines, whose numbers are read, rise and are the program's."""
    last, kept = -1, []
    for line in lines:
        _, site, first, second, third = line.split()
        if not last < int(site) < SITES or int(first) + int(second) + int(third) == 0 or int(third) != 0:
            sys.exit(f"a bad line: {line}")
        last = int(site)
        kept.append(line)
    return kept


def collect_by_dict(path: str, files: List[str]) -> None:
    with open(path, "rb") as text:
        identity = hashlib.sha256(text.read()).hexdigest()
    held: Dict[int, Tuple[str, List[str]]] = {}
    marks = given = 0
    for name in files:
        for run, rest, sites in read(name, identity):
            given += 1
            if run in held:
                if held[run] != (rest, sites):
                    sys.exit(f"Conflict run {run}")
                continue
            marks += len(sites)
            if len(held) >= MOST_REPORTS or marks > MOST_MARKS:
                sys.exit(f"too many at run {run}")
            held[run] = (rest, sites)
    out = sys.stdout
    out.write(f"cbi-collection 2\nprogram {identity}\n")
    for run in sorted(held):
        rest, sites = held[run]
        out.write(f"run {run} {rest}\n")
        out.writelines(sites)
    out.write("end\n")
    print(f"added {len(held)} repeated {given - len(held)}", file=sys.stderr)


def main() -> None:
    if sys.argv[1:2] == ["--dict"]:
        collect_by_dict(sys.argv[2], sys.argv[3:])
        return
    if not 2 <= len(sys.argv) <= 4 or sys.argv[1].startswith("-"):
        sys.exit(__doc__)
    tool = os.path.abspath(sys.argv[1])
    reports = int(sys.argv[2]) if len(sys.argv) > 2 else MOST_REPORTS
    entries = int(sys.argv[3]) if len(sys.argv) > 3 else 100
    with tempfile.TemporaryDirectory() as folder:
        path, ways = make(folder, reports, entries)
        for what, files in ways:
            size = sum(os.path.getsize(name) for name in files) / 1e6
            print(f"{what}: {reports} reports of {entries} sites, {size:.0f} MB")
            script = [sys.executable, os.path.abspath(__file__), "--dict", path, *files]
            commands = [("cbi", [tool, "collect", "--program", path, *files]), ("dict", script)]
            compared(commands, os.path.join(folder, "out"), lambda said: said.splitlines()[-1] if said else "")


if __name__ == "__main__":
    main()
