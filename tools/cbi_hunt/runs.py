"""The runs of a hunt: their plan, and batches of them made by calls of `cbi`. Not proved.

A run's number says everything about it: its input, and the seed's stream for its bank. So a batch is the same
wherever and whenever it is made, which is what lets a hunt go on where it stopped, and lets hosts share it.
"""
import json
import os
import platform
import shutil
import signal
import subprocess
import tempfile
import zipfile
from typing import Callable, Dict, List, NamedTuple, Optional, Sequence, Tuple

from cbi_show.calls import HERE, call, call_to
from cbi_show.files import FOUND, Fault, status_of

# How many numbers a run's bank has. It is drawn round and round.
BANK_NUMBERS = 256
# What an oracle answers: 0 is right, 125 is `I can't tell`, as for `git bisect run`, and up to 124 is wrong.
ORACLE_UNKNOWN = 125
# Where an oracle finds the status with which the run ended.
OF_STATUS = "CBI_STATUS"
# How an oracle that a shell reads is called: its text stands behind these words, and then the shell's name for itself.
SHELL = ["sh", "-c"]


class Plan(NamedTuple):
    """What a run is made with, whatever its number. Of the inputs so many are the hunt's own, and behind them stand neighbours of a failing one; 0 where all are."""
    cbi: str
    program: str
    rate: int
    seed: int
    turns: int
    oracle: Optional[List[str]]
    names: List[str]
    inputs: List[str]
    expected: Optional[List[str]]
    parts: Sequence[str] = ()
    patience: int = 10
    hangs: bool = False
    status: bool = False
    own: int = 0

    def is_neighbour(self, place: int) -> bool:
        return 0 < self.own <= place

    def input_of(self, run: int) -> int:
        """The place of a run's input: the inputs in turn, again and again."""
        return (run - 1) % len(self.inputs)

    def part_of(self, run: int) -> int:
        """The part of the sites that a run looks at: the parts in turn, and for an input another one each time that it comes round."""
        return (self.input_of(run) + (run - 1) // len(self.inputs)) % len(self.parts)

    def program_of(self, run: int) -> str:
        """The program that makes a run: the whole one, or where there are parts, that of the run's part."""
        return self.parts[self.part_of(run)] if self.parts else self.program


class Batch(NamedTuple):
    first: int
    last: int

    def name(self) -> str:
        return f"{self.first}-{self.last}"


# Oracles

class Answer(NamedTuple):
    """What an oracle said of a run: a label, and what it wrote to err."""
    label: str
    err: str


def oracle_name(plan: Plan) -> str:
    """What an oracle is called where something is told of it."""
    words = plan.oracle or []
    return words[2] if words[:2] == SHELL else words[0]


def input_name(plan: Plan, path: str) -> str:
    """What a person calls an input, whose file may be one that goes with the hunt."""
    return plan.names[plan.inputs.index(path)] if path in plan.inputs else "an input that was made"


def judged(plan: Plan, name: str, output: str, outcome: str) -> str:
    return asked(plan, name, output, outcome).label


def asked(plan: Plan, name: str, output: str, outcome: str) -> Answer:
    """Has the oracle judge what a run on an input wrote, and its status, which stands in its environment. One that takes too long is ended, with all that it began."""
    words = [*(plan.oracle or []), name, output]
    try:
        begun = subprocess.Popen(words, stdin=subprocess.DEVNULL, stdout=subprocess.DEVNULL, stderr=subprocess.PIPE, start_new_session=True,
                                 env={**os.environ, OF_STATUS: str(status_of(outcome))})
    except OSError as error:
        raise Fault(f"the oracle {oracle_name(plan)} doesn't start: {error.strerror}")
    try:
        _, err = begun.communicate(timeout=plan.patience)
    except subprocess.TimeoutExpired:
        raise Fault(f"the oracle {oracle_name(plan)} took more than {plan.patience} s on {input_name(plan, name)}: --oracle-timeout allows it more")
    finally:
        if begun.poll() is None:
            os.killpg(begun.pid, signal.SIGKILL)
            begun.wait()
    status, said = begun.returncode, err.decode(errors="replace")
    if not 0 <= status <= ORACLE_UNKNOWN:
        last = f"; it wrote {said.strip().splitlines()[-1]}" if said.strip() else ""
        raise Fault(f"the oracle {oracle_name(plan)} ended with status {status} on {input_name(plan, name)}: 0 says right, 1 to 124 wrong, and 125 neither{last}")
    return Answer("pass" if status == 0 else "none" if status == ORACLE_UNKNOWN else "fail", said)


def outcome_of(report: str) -> str:
    """How the run of a report ended."""
    return next((line[len("outcome "):] for line in report.split("\n") if line.startswith("outcome ")), "")


class Runner:
    """Makes runs in a scratch folder of its own. `stopped` is asked between runs."""

    def __init__(self, plan: Plan, folder: str, stopped: Callable[[], bool]):
        self.plan = plan
        self.folder = folder
        self.stopped = stopped
        self.bank, self.output = os.path.join(folder, "bank"), os.path.join(folder, "output")
        self.judged: Dict[int, str] = {}

    def make(self, run: int) -> str:
        """Makes a run; answers the name of its report. At rate 1 each visit is observed, as by a run without a bank."""
        plan, place = self.plan, self.plan.input_of(run)
        report = os.path.join(self.folder, f"report{run}")
        banked = [f"--bank={self.bank}"] if plan.rate > 1 else []
        words = [plan.cbi, "run", *banked, f"--input={plan.inputs[place]}", f"--turns={plan.turns}", f"--run={run}", f"--report={report}"]
        words += ([f"--expect={plan.expected[place]}"] if plan.expected else []) + ["--", plan.program_of(run)]
        try:
            if banked:
                with open(self.bank, "wb") as out:
                    call([plan.cbi, "bank", f"--rate={plan.rate}", f"--count={BANK_NUMBERS}", f"--seed={plan.seed}", f"--stream={run}"], out)
            with open(self.output if plan.oracle else os.devnull, "wb") as out:
                call(words, out)
        except Fault as fault:
            raise Fault(f"run {run}, on the input {plan.names[place]}: {fault}")
        if plan.oracle or plan.hangs or plan.status:
            self.label(report, place)
        return report

    def label(self, report: str, place: int) -> None:
        """Puts the oracle's answer into the report of a run that ended, and `fail` into that of one that was cut, or ended with a status other than 0, where such a run counts as failed.

        A sampled run writes what every run on its input writes, so an input is judged once.
        """
        with open(report, encoding="ascii") as file:
            text = file.read()
        outcome = outcome_of(text)
        if self.plan.hangs and outcome == "cut turns":
            relabelled = text.replace("\nlabel none\n", "\nlabel fail\n")
        elif self.plan.status and status_of(outcome):
            relabelled = text.replace("\nlabel pass\n", "\nlabel fail\n")
        elif self.plan.oracle and outcome.startswith("ended "):
            if place not in self.judged:
                self.judged[place] = judged(self.plan, self.plan.inputs[place], self.output, outcome)
            relabelled = text.replace("\nlabel pass\n", f"\nlabel {self.judged[place]}\n")
        else:
            return
        with open(report, "w", encoding="ascii", newline="\n") as file:
            file.write(relabelled)

    def make_batch(self, batch: Batch, target: Callable[[Batch], str]) -> Optional[Batch]:
        """Makes the runs of a batch until it is stopped, and collects their reports in the file that `target` names."""
        reports = []
        for run in range(batch.first, batch.last + 1):
            if self.stopped():
                break
            reports.append(self.make(run))
        if not reports:
            return None
        made = Batch(batch.first, batch.first + len(reports) - 1)
        self.collect(target(made), self.plan.program, self.widened(made, reports) if self.plan.parts else reports)
        for report in reports:
            os.remove(report)
        return made

    def collect(self, target: str, program: str, files: List[str]) -> None:
        call_to(target, [self.plan.cbi, "collect", f"--program={program}", "--"] + files)

    def widened(self, made: Batch, reports: List[str]) -> List[str]:
        """The reports as collections of the whole program, one for each part that has runs."""
        plan, of_part, wide = self.plan, os.path.join(self.folder, "of_part"), []
        for part, program in enumerate(plan.parts):
            own = [report for run, report in enumerate(reports, made.first) if plan.part_of(run) == part]
            if own:
                self.collect(of_part, program, own)
                wide.append(os.path.join(self.folder, f"wide{part}"))
                call_to(wide[-1], [plan.cbi, "widen", f"--whole={plan.program}", f"--part={part}/{len(plan.parts)}", "--", program, of_part])
        return wide


# Batches that are sent to other hosts

MODULES = ("cbi_show/__init__.py", "cbi_show/calls.py", "cbi_show/files.py", "cbi_hunt/__init__.py", "cbi_hunt/lists.py", "cbi_hunt/runs.py")
BEGIN = """\
import sys
from cbi_hunt import lists, runs
from cbi_show import files
files.call_main("cbi-hunt", lambda: runs.make_packed(sys.path[0], lists.runner_of))
"""


def pack(plan: Plan, batch: Batch, path: str) -> None:
    """Writes all that a batch needs into one file that `python3` runs: these modules, the plan, the program, and inputs."""
    places = sorted({plan.input_of(run) for run in range(batch.first, batch.last + 1)})
    about = {"cbi": plan.cbi, "rate": plan.rate, "seed": plan.seed, "turns": plan.turns, "oracle": plan.oracle,
             "count": len(plan.inputs), "expected": bool(plan.expected), "parts": len(plan.parts), "patience": plan.patience, "hangs": plan.hangs,
             "status": plan.status, "first": batch.first, "last": batch.last}
    with zipfile.ZipFile(path, "w", zipfile.ZIP_DEFLATED) as packed:
        packed.writestr("__main__.py", BEGIN)
        packed.writestr("plan.json", json.dumps(about))
        packed.write(plan.program, "program")
        for part, program in enumerate(plan.parts):
            packed.write(program, f"part{part}")
        for module in MODULES:
            packed.write(os.path.join(HERE, module), module)
        for place in places:
            packed.write(plan.inputs[place], f"input{place}")
            if plan.expected:
                packed.write(plan.expected[place], f"expected{place}")


def unpack(path: str, folder: str) -> Tuple[Plan, Batch]:
    with zipfile.ZipFile(path) as packed:
        packed.extractall(folder)
        about = json.loads(packed.read("plan.json").decode())
    inputs = [os.path.join(folder, f"input{place}") for place in range(about["count"])]
    expected = [os.path.join(folder, f"expected{place}") for place in range(about["count"])] if about["expected"] else None
    parts = [os.path.join(folder, f"part{part}") for part in range(about["parts"])]
    cbi = shutil.which(about["cbi"])
    if cbi is None:
        raise Fault(f"{about['cbi']} isn't on the path, which is {os.environ.get('PATH', '')}")
    plan = Plan(cbi, os.path.join(folder, "program"), about["rate"], about["seed"], about["turns"], about["oracle"], inputs, inputs, expected, parts,
                about["patience"], about["hangs"], about["status"])
    return plan, Batch(about["first"], about["last"])


def make_packed(path: str, runner_of: Callable[[Plan, str, Callable[[], bool]], Runner]) -> int:
    """Makes the batch of a packed file, on whatever host this is; its collection stands beside it, as PATH.runs. A fault has
    the name of the host, by which it is known where."""
    try:
        with tempfile.TemporaryDirectory(prefix="cbi-hunt-") as folder:
            plan, batch = unpack(path, folder)
            runner_of(plan, folder, lambda: False).make_batch(batch, lambda made: path + ".runs")
    except Fault as fault:
        raise Fault(f"on {platform.node()}: {fault}")
    return FOUND
