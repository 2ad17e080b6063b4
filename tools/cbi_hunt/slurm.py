"""Makes runs as tasks of Slurm: nothing here schedules. Not proved."""
import argparse
import os
import shutil
import subprocess
from typing import List

from cbi_hunt.runs import Batch
from cbi_show.files import Fault

NAME = "slurm"
MOST_TASKS = 1000  # of an array; a cluster takes 1,001, unless its MaxArraySize says otherwise
# A task is a batch: the line with its number. The folder is one that all nodes see.
TASK = """\
#!/bin/sh
exec python3 "$(sed -n "${SLURM_ARRAY_TASK_ID}p" NAMES)"
"""


class Slurm:
    """Arrays of jobs at work.

    A task whose node was lost is queued again by Slurm itself; one that ended badly is made again with the next arrays, as long as others came.
    """

    name, again = NAME, True

    def __init__(self, chosen: argparse.Namespace):
        for word in ("sbatch", "scancel"):
            if not shutil.which(word):
                raise Fault(f"--farm {NAME} asks for Slurm, and there is no {word} on the path")
        self.most = f"%{chosen.jobs}" if chosen.jobs else ""
        self.waiting: List["subprocess.Popen[bytes]"] = []
        self.numbers: List[str] = []

    def begin(self, folder: str, batches: List[Batch]) -> None:
        """Hands the batches over, in as many arrays as it takes. ^C doesn't come to who waits for them."""
        self.waiting, self.numbers = [], []
        with open(os.path.join(folder, "said"), "ab") as told:
            for place in range(0, len(batches), MOST_TASKS):
                some = batches[place:place + MOST_TASKS]
                script, names = os.path.join(folder, f"task{place}"), f"names{place}"
                with open(os.path.join(folder, names), "w", encoding="ascii") as file:
                    file.writelines(batch.name() + "\n" for batch in some)
                with open(script, "w", encoding="ascii") as file:
                    file.write(TASK.replace("NAMES", names))
                words = ["sbatch", "--parsable", "--wait", "--requeue", "--job-name=cbi-hunt", f"--array=1-{len(some)}{self.most}", f"--chdir={folder}",
                         "--output=said", "--open-mode=append", script]
                self.waiting.append(subprocess.Popen(words, stdin=subprocess.DEVNULL, stdout=subprocess.PIPE, stderr=told, start_new_session=True))
                self.numbers.append(first_line(self.waiting[-1]))

    def ended(self) -> bool:
        return all([one.poll() is not None for one in self.waiting])

    def status(self) -> int:
        return max(one.returncode or 0 for one in self.waiting)

    def cancel(self, *words: str) -> None:
        known = [number for number in self.numbers if number]
        if known:
            subprocess.run(["scancel", *words, *known], stdin=subprocess.DEVNULL, stdout=subprocess.DEVNULL, stderr=subprocess.DEVNULL, check=False)

    def hold(self) -> None:
        """Begins no batch any more."""
        self.cancel("--state=PENDING")

    def end(self) -> None:
        """Lets go of the batches that nodes are at."""
        self.cancel()
        for one in self.waiting:
            one.wait()


def first_line(process: "subprocess.Popen[bytes]") -> str:
    """The number of a job, which `--parsable` writes as soon as there is one; on a farm of clusters its cluster stands behind it."""
    assert process.stdout
    return process.stdout.readline().decode("ascii", "replace").strip().split(";")[0]
