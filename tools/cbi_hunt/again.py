"""Runs of a hunt that are made again, with all in view: plain, or with one site, or with all. Not proved."""
import argparse
import os
import re
import subprocess
from typing import Dict, List, NamedTuple, Optional, Tuple

from cbi_show import files
from cbi_hunt.kept import Kept
from cbi_hunt.runs import Plan
from cbi_hunt.signals import heed_now
from cbi_show.calls import call_to
from cbi_show.files import Fault, Program


class Again(NamedTuple):
    """What came of a run: how it ended, what it wrote, its sites, and the site that was seen last."""
    outcome: str
    output: str
    sites: Dict[int, Tuple[int, int, int]]
    last: Optional[int]


def schemes_of(chosen: argparse.Namespace) -> List[str]:
    return [f"--schemes={chosen.schemes}"] if chosen.schemes else []


def program_for(chosen: argparse.Namespace, cbi: str, kept: Kept, mode: str, part: str = "") -> str:
    """The program of the hunt's text in another mode; it stands in the hunt's folder."""
    path = kept.path(mode + part.replace("/", "of"))
    call_to(path, [cbi, "transform", f"--mode={mode}", *schemes_of(chosen), *([f"--part={part}"] if part else []), "--", kept.path("source.c")])
    return path


def for_predicate(chosen: argparse.Namespace, cbi: str, kept: Kept, program: Program, predicate: int) -> Tuple[str, Tuple[int, ...]]:
    """A program with the site of one predicate alone, and the counters of that site which the predicate sums up."""
    site, _, counters = program.numbered()[predicate]
    return program_for(chosen, cbi, kept, "full", f"{site.number}/{len(program.sites)}"), counters


class Repeater:
    """Makes runs again, in files of its own."""

    def __init__(self, plan: Plan, folder: str, name: str = "again"):
        self.plan = plan
        self.report, self.output = os.path.join(folder, f"{name}.report"), os.path.join(folder, f"{name}.output")

    def run(self, program: str, path: str) -> Again:
        heed_now()
        words = [self.plan.cbi, "run", f"--input={path}", f"--turns={self.plan.turns}", f"--report={self.report}", "--", program]
        with open(self.output, "wb") as out:
            done = subprocess.run(words, stdin=subprocess.DEVNULL, stdout=out, stderr=subprocess.PIPE, check=False)
        said = done.stderr.decode(errors="replace")
        if done.returncode:
            raise Fault(f"cbi run: {said.strip() or done.returncode}")
        run = files.parse_report(self.report, files.decoded(files.read_bytes(self.report))).run
        last = re.search(r"^last .*?(\d+)$", said, re.MULTILINE)
        return Again(run.outcome, self.output, run.sites, int(last[1]) if last else None)

    def close(self) -> None:
        for path in (self.report, self.output):
            if os.path.exists(path):
                os.remove(path)
