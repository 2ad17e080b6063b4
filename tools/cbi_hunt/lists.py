"""Makes the runs of a batch by calls of `cbi runs`, each of which makes many. Not proved.

What comes of a batch is what calls of `cbi bank` and `cbi run` make of it, run by run, to the byte.
"""
import os
import re
import subprocess
import time
from typing import Callable, Dict, List, Optional

from cbi_hunt.runs import Batch, Plan, Runner, asked, outcome_of
from cbi_show.calls import call, call_to
from cbi_show.files import Fault, status_of

MOST_LINES = 10000     # of one call
FIRST_LINES = 1        # of the first call, by which it is seen how long a run takes
SECONDS = 1.0          # how long a call may take, so that progress is told, and a stop is heeded
MOST_NAME = 4095       # bytes of a name in a list
LARGE = re.compile(r"refusal 28 InputTooLarge line ([0-9]+)")


def makes_lists(cbi: str) -> bool:
    """Whether the executable has the command `runs`; older ones, as hosts may have them, don't know it."""
    words = [cbi, "runs", "--inputs=a", "--rate=0", "--seed=0", "b"]
    done = subprocess.run(words, stdin=subprocess.DEVNULL, stdout=subprocess.DEVNULL, stderr=subprocess.PIPE, check=False)
    return done.stderr == b"cbi: bad value of --rate\n"


def runner_of(plan: Plan, folder: str, stopped: Callable[[], bool]) -> Runner:
    return ListRunner(plan, folder, stopped) if makes_lists(plan.cbi) else Runner(plan, folder, stopped)


def may_stand(path: str) -> bool:
    """Whether a name may stand in a list."""
    try:
        name = path.encode("utf-8")
    except UnicodeEncodeError:
        return False
    return 1 <= len(name) <= MOST_NAME and b"\n" not in name and b"\0" not in name


def retold(text: bytes, keep: Callable[[int], bool], relabel: Callable[[int, bytes], Optional[bytes]]) -> bytes:
    """A collection with those runs alone, and other labels where `relabel` gives one for a run with its outcome and label."""
    lines: List[bytes] = []
    kept = True
    for line in text.split(b"\n"):
        if line.startswith(b"run "):
            head, _, rest = line.partition(b" label ")
            run, outcome = head[4:].split(b" ", 1)
            kept = keep(int(run))
            if kept:
                label = relabel(int(run), outcome + b" " + rest.split(b" ", 1)[0])
                line = line if label is None else head + b" label " + label + b" " + rest.split(b" ", 1)[1]
        elif not line.startswith(b"site "):
            kept = True
        if kept:
            lines.append(line)
    return b"\n".join(lines)


class ListRunner(Runner):
    """Makes runs in a scratch folder of its own, many in one call. `stopped` is asked between calls."""

    def __init__(self, plan: Plan, folder: str, stopped: Callable[[], bool]):
        super().__init__(plan, folder, stopped)
        self.lines = FIRST_LINES
        self.links: Dict[str, str] = {}
        self.wanted: Dict[int, str] = {}
        self.list, self.wants = os.path.join(folder, "inputs"), os.path.join(folder, "wanted")

    def name_of(self, path: str) -> str:
        """The file's name as a list can have it: a link to the file, where its own can't stand there."""
        if may_stand(path):
            return path
        if path not in self.links:
            self.links[path] = os.path.join(self.folder, f"link{len(self.links)}")
            os.symlink(path, self.links[path])
        return self.links[path]

    def wanted_of(self, place: int) -> str:
        """What the output on an input is to equal. Where an oracle judges it is the output of one run where that is right, and else what no such
        output equals."""
        if self.plan.expected:
            return self.plan.expected[place]
        if place not in self.wanted:
            self.wanted[place] = self.judged_output(place)
        return self.wanted[place]

    def judged_output(self, place: int) -> str:
        plan, output, report = self.plan, os.path.join(self.folder, f"output{place}"), os.path.join(self.folder, "judged")
        try:
            with open(output, "wb") as out:
                call([plan.cbi, "run", f"--input={plan.inputs[place]}", f"--turns={plan.turns}", f"--report={report}", "--", plan.program], out)
        except Fault as fault:
            raise Fault(f"the input {plan.names[place]}: {fault}")
        with open(report, encoding="ascii") as file:
            outcome = outcome_of(file.read())
        if outcome.startswith("ended ") and not (plan.status and status_of(outcome)):
            self.judged[place] = asked(plan, plan.inputs[place], output, outcome).label
            if self.judged[place] == "fail":
                size = os.path.getsize(output)
                with open(output, "wb") as out:
                    out.write(b"" if size else b"\n")
        return output

    def relabel(self, run: int, told: bytes) -> Optional[bytes]:
        """Another label than a run's own: of one that was cut, or ended with a status other than 0, where such a run counts as failed, and of one of which the oracle can't tell."""
        if told == b"cut turns none" and self.plan.hangs:
            return b"fail"
        if self.plan.status and status_of(told.decode("ascii").rpartition(" ")[0]):
            return b"fail"
        if told.startswith(b"ended ") and self.judged.get(self.plan.input_of(run)) == "none":
            return b"none"
        return None

    def make_part(self, first: int, last: int, program: str, target: str, keep: Callable[[int], bool]) -> None:
        """Makes these runs of a program, and leaves those that are to be kept."""
        plan, places = self.plan, [self.plan.input_of(run) for run in range(first, last + 1)]
        words = [plan.cbi, "runs", f"--inputs={self.list}", f"--rate={plan.rate}", f"--seed={plan.seed}", f"--first={first}", f"--turns={plan.turns}"]
        if plan.expected or plan.oracle:
            words.append(f"--expect={self.wants}")
            self.write_list(self.wants, [self.wanted_of(place) for place in places])
        self.write_list(self.list, [plan.inputs[place] for place in places])
        try:
            call_to(target, words + ["--", program])
        except Fault as fault:
            large = LARGE.search(str(fault))
            on = f"run {first + int(large[1]) - 1}, on the input {plan.names[places[int(large[1]) - 1]]}" if large else f"runs {first} to {last}"
            raise Fault(f"{on}: {fault}")
        if plan.parts or plan.hangs or plan.status or "none" in self.judged.values():
            with open(target, "rb") as file:
                text = file.read()
            with open(target, "wb") as file:
                file.write(retold(text, keep, self.relabel))

    def write_list(self, path: str, names: List[str]) -> None:
        with open(path, "wb") as file:
            file.writelines(self.name_of(name).encode("utf-8") + b"\n" for name in names)

    def make_lines(self, first: int, last: int, number: int) -> List[str]:
        """Makes these runs; answers the names of their collections, each of the whole program's runs."""
        plan = self.plan
        made = os.path.join(self.folder, f"lines{number}")
        if not plan.parts:
            self.make_part(first, last, plan.program, made, lambda run: True)
            return [made]
        wide: List[str] = []
        for part, program in enumerate(plan.parts):
            if any(plan.part_of(run) == part for run in range(first, last + 1)):
                self.make_part(first, last, program, made, lambda run, part=part: plan.part_of(run) == part)  # type: ignore[misc]
                wide.append(f"{made}.{part}")
                call_to(wide[-1], [plan.cbi, "widen", f"--whole={plan.program}", f"--part={part}/{len(plan.parts)}", "--", program, made])
        return wide

    def make_batch(self, batch: Batch, target: Callable[[Batch], str]) -> Optional[Batch]:
        """Makes the runs of a batch, as many a call as take some time, until it is stopped, and collects them in the file that `target` names."""
        files: List[str] = []
        run = batch.first
        while run <= batch.last and not self.stopped():
            last = min(batch.last, run + self.lines - 1)
            begun = time.monotonic()
            files += self.make_lines(run, last, len(files))
            taken = max(time.monotonic() - begun, 1e-6)
            self.lines = max(1, min(MOST_LINES, int((last + 1 - run) * SECONDS / taken)))
            run = last + 1
        if not files:
            return None
        made = Batch(batch.first, run - 1)
        self.collect(target(made), self.plan.program, files)
        for file in files:
            os.remove(file)
        return made
