"""How the runs of a hunt went, and the line of progress that says so. Not proved."""
import os
import sys
import time
from typing import Callable, Dict, List, Optional, Set

from cbi_show import files
from cbi_hunt.collecting import Mark
from cbi_hunt.kept import Kept
from cbi_hunt.runs import Plan

# Seconds between two lines of progress in a file, unless the environment says others; 0 is none.
MINUTE, OF_PROGRESS = 60, "CBI_PROGRESS"

# What a run counts as: by the place of its input, its outcome and its label.
Relabel = Callable[[int, str, str], str]


class Count:
    """How many runs ended how, which inputs failed, and how many site lines each run has; `near` has those of neighbours by label; `relabel` may have runs count as something else than their reports say."""

    def __init__(self, plan: Plan, relabel: Optional[Relabel] = None):
        self.plan, self.relabel = plan, relabel
        # Of runs that something judged, by the places of their inputs: the labels in their reports.
        self.labels: Dict[int, Set[str]] = {}
        self.aside: Set[int] = set()
        self.succeeded_inputs: Set[int] = set()
        self.failed = self.succeeded = self.neither = self.cut = self.other_status = 0
        self.failing_inputs: Dict[int, str] = {}
        self.failing_runs: Dict[int, int] = {}
        self.hanging_inputs: Dict[int, int] = {}
        self.marks: List[Mark] = []
        self.near: Dict[str, int] = {"fail": 0, "pass": 0, "none": 0, "cut": 0}

    def add(self, collection: str) -> None:
        for head in files.read_heads(collection):
            place = self.plan.input_of(head.number)
            run = head._replace(label=self.relabel(place, head.outcome, head.label)) if self.relabel else head
            if head.label == "fail" and run.label == "none":
                self.aside.add(place)
            if run.outcome.startswith("ended") and not (self.plan.status and files.status_of(run.outcome)):
                self.labels.setdefault(place, set()).add(head.label)
            self.marks.append(Mark(run.number, run.sites, run.label == "fail"))
            self.cut += run.outcome.startswith("cut")
            self.failed += run.label == "fail"
            self.succeeded += run.label == "pass"
            self.neither += run.label == "none"
            if self.plan.is_neighbour(self.plan.input_of(run.number)):
                self.near[run.label] += 1
                self.near["cut"] += run.outcome.startswith("cut")
            self.other_status += run.label == "pass" and files.status_of(run.outcome) != 0
            if run.label == "pass":
                self.succeeded_inputs.add(place)
            if run.outcome == "cut turns":
                self.hanging_inputs.setdefault(place, run.number)
            if run.label == "fail":
                self.failing_inputs.setdefault(place, run.outcome)
                self.failing_runs.setdefault(place, run.number)

    def runs(self) -> int:
        return len(self.marks)

    def failing_own(self) -> List[int]:
        """The failing inputs that are no neighbours."""
        return [place for place in sorted(self.failing_inputs) if not self.plan.is_neighbour(place)]


def counted(plan: Plan, kept: Kept, relabel: Optional[Relabel] = None) -> Count:
    """How all runs went that are there."""
    count = Count(plan, relabel)
    for batch in kept.made():
        count.add(kept.batch_path(batch))
    return count


class Told:
    """A line on a terminal that changes. Where err is a file or a pipe, a line of its own comes there after a minute, and then each minute."""

    def __init__(self) -> None:
        self.wanted = sys.stderr.isatty()
        said = os.environ.get(OF_PROGRESS, "")
        self.apart = int(said) if said.isdigit() and said.isascii() else MINUTE
        self.shown, self.written = 0.0, time.monotonic()

    def show(self, line: str) -> None:
        """Shows a line in place of the one before, ten times a second at most."""
        if self.wanted and time.monotonic() - self.shown > 0.1:
            self.shown = time.monotonic()
            sys.stderr.write(f"\r{line}\x1b[K")
            sys.stderr.flush()
        if not self.wanted and self.apart and time.monotonic() - self.written >= self.apart:
            self.written = time.monotonic()
            print(f"cbi-hunt: {line}", file=sys.stderr, flush=True)

    def clear(self) -> None:
        if self.wanted:
            sys.stderr.write("\r\x1b[K")
            sys.stderr.flush()

    def tell(self, line: str) -> None:
        """A line of its own, which stays."""
        if self.wanted:
            sys.stderr.write(f"\r{line}\x1b[K\n")
            sys.stderr.flush()


class Progress(Told):
    """How far the runs are."""

    def __init__(self, runs: int, count: Count):
        super().__init__()
        self.count, self.runs, self.start, self.before = count, runs, time.monotonic(), count.runs()

    def step(self) -> None:
        done = self.count.runs()
        passed = time.monotonic() - self.start
        left = int(passed * (self.runs - done) / (done - self.before)) if done > self.before else None
        time_left = "" if left is None else f", {left // 60}:{left % 60:02} left"
        self.show(f"{done} of {self.runs} runs, {self.count.failed} failed, {self.count.cut} cut{time_left}")
