#!/usr/bin/env python3
"""Hunts real bugs of real programs, and makes a table of what came.

    real.py [NAME..] --executable CBI --work FOLDER [--table FILE] [--page FILE] [--sources FOLDER] [--jobs N] [--count N] [--others N] [--again] [--list]

NAME is a bug or a program; without one all are taken. The sources are Debian's, by apt-get, or from the folder of --sources (PACKAGE/ or PACKAGE_VERSION.dsc). What was measured before is
taken from the folder of work; --again measures anew. A source or tool that is missing is reported, and the bug left out. The table is written after each bug.
"""
import argparse
import hashlib
import json
import os
import sys
import time
from dataclasses import replace
from typing import Any, Dict, Iterator, List

from pages import fill_in
from real_bug import Bug, every_bug
from real_hunt import chosen_runs, hunted, ochiai, places_of, report_of, shown
from real_inputs import made
from real_native import sanitizers
from real_source import Missing, Sources
from real_table import parts_of, table_of

MOST_SANITIZED = 10   # failing inputs that sanitizers look at


def told(name: str, what: str, since: float) -> None:
    print(f"{name}: {what} ({time.process_time() + sum(os.times()[2:4]) - since:.1f} s)", flush=True)


def sum_of(path: str) -> str:
    """The SHA-256 of a file, by which the executable that measured is known again (dist/MANIFEST has that of a release)."""
    with open(path, "rb") as file:
        return hashlib.sha256(file.read()).hexdigest()


def lines_of_files(folder: str, names: List[str]) -> int:
    total = 0
    for name in names:
        with open(os.path.join(folder, name), "rb") as file:
            total += file.read().count(b"\n")
    return total


def measured(bug: Bug, sources: Sources, executable: str, jobs: int) -> Dict[str, Any]:
    """All steps of a bug: source, inputs, hunt, places, coverage, sanitizers."""
    begun = time.process_time() + sum(os.times()[2:4])
    mended, broken = sources.mended(bug), sources.broken(bug)
    told(bug.name, "the source", begun)
    work = os.path.join(sources.work, bug.program.name, f"{bug.name}.hunt")
    os.makedirs(work, exist_ok=True)
    inputs = made(bug, mended, broken, work)
    told(bug.name, f"{inputs.total} inputs, on {len(inputs.failing)} of which gcc's build fails", begun)
    keep = os.path.join(work, "kept")
    done = hunted(bug, broken, inputs, keep, executable, jobs)
    came = shown(bug, broken, keep)
    told(bug.name, f"{came.runs} runs, {came.failing} of them failing", begun)
    places = {name: places_of(rows, bug) for name, rows in came.lists.items()}
    if came.failing:
        places["ochiai"], *_ = ochiai(bug, broken, came, inputs.inputs)
        told(bug.name, "coverage", begun)
    names = [name for name, fails in chosen_runs(came) if fails] or inputs.failing
    failing = [os.path.join(inputs.inputs, name) for name in names[:MOST_SANITIZED]]
    first = came.lists["bugs"][:1]
    return {"name": bug.name, "program": bug.program.name, "version": bug.program.version, "kind": bug.kind, "what": bug.what, "mended": bug.mended,
            "lines": lines_of_files(os.path.join(broken, bug.program.folder), list(bug.program.files)), "tokens": came.tokens, "sites": came.sites, "schemes": bug.program.schemes, "report": report_of(os.path.join(keep, "runs")), "made": inputs.total,
            "failing": len(inputs.failing), "runs": came.runs, "failed": came.failing, "places": places, "sanitizer": sanitizers(bug.program, broken, failing), "seconds": done.seconds,
            "first": first[0] if first else None, "cbi": came.version, "executable": sum_of(executable)}


def result_of(bug: Bug, sources: Sources, chosen: argparse.Namespace) -> Dict[str, Any]:
    """What was measured before, or is now."""
    path = os.path.join(sources.work, "results", f"{bug.name}.json")
    if chosen.again or not os.path.exists(path):
        found = measured(replace(bug, count=chosen.count or bug.count, others=bug.others if chosen.others is None else chosen.others), sources, os.path.abspath(chosen.executable), chosen.jobs)
        os.makedirs(os.path.dirname(path), exist_ok=True)
        with open(path, "w", encoding="utf-8") as file:
            json.dump(found, file, indent=1)
    with open(path, encoding="utf-8") as file:
        read: Dict[str, Any] = json.load(file)
        return read


def chosen_bugs(names: List[str]) -> List[Bug]:
    """The bugs that are named, or whose program is, in the order of the names; without a name all."""
    bugs = every_bug()
    unknown = set(names) - {bug.name for bug in bugs} - {bug.program.name for bug in bugs}
    if unknown:
        raise SystemExit(f"real.py: there is no bug and no program {', '.join(sorted(unknown))} (--list names all)")
    return list(dict.fromkeys(bug for name in names for bug in bugs if name in (bug.name, bug.program.name))) if names else bugs


def results_of(bugs: List[Bug], chosen: argparse.Namespace) -> Iterator[Dict[str, Any]]:
    """One bug after another; what is missing for one is reported, and the bug left out."""
    sources = Sources(os.path.abspath(chosen.work), chosen.sources and os.path.abspath(chosen.sources))
    for bug in bugs:
        try:
            yield result_of(bug, sources, chosen)
        except Missing as missing:
            print(f"{bug.name}: left out: {missing}", flush=True)


def main() -> int:
    parser = argparse.ArgumentParser(description="Hunts real bugs of real programs, and makes a table of what came.")
    parser.add_argument("names", metavar="NAME", nargs="*", help="a bug or a program (all)")
    parser.add_argument("--executable", metavar="CBI", default="cbi", help="the executable cbi")
    parser.add_argument("--work", metavar="FOLDER", default="work", help="where all of it stands (work)")
    parser.add_argument("--table", metavar="FILE", help="where the table goes, or else to out")
    parser.add_argument("--page", metavar="FILE", help="a page into which the table is written, such as docs/EVIDENCE.md")
    parser.add_argument("--sources", metavar="FOLDER", help="takes sources from there, and gets none")
    parser.add_argument("--jobs", metavar="N", type=int, default=1, help="how many runs go on at a time (1)")
    parser.add_argument("--count", metavar="N", type=int, help="makes so many inputs for each bug in place of its record's number")
    parser.add_argument("--others", metavar="N", type=int, help="hunts at most so many inputs that don't fail, in place of the record's number")
    parser.add_argument("--again", action="store_true", help="measures anew what was measured before")
    parser.add_argument("--list", action="store_true", help="names the bugs, and ends")
    chosen = parser.parse_args()
    bugs = chosen_bugs(chosen.names)
    if chosen.list:
        print("\n".join(f"{bug.name}: {bug.what}" for bug in bugs))
        return 0
    os.makedirs(chosen.work, exist_ok=True)
    results = []
    for result in results_of(bugs, chosen):
        results.append(result)
        if chosen.table:
            with open(chosen.table, "w", encoding="utf-8") as file:
                file.write(table_of(results))
        if chosen.page:
            fill_in(chosen.page, parts_of(results))
    if results and not (chosen.table or chosen.page):
        print(table_of(results), end="")
    return 0


if __name__ == "__main__":
    sys.exit(main())
