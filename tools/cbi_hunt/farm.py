"""Makes runs on other hosts, by GNU parallel or by Slurm. Not proved."""
import argparse
import os
import re
import shutil
import signal
import subprocess
import sys
import tempfile
import time
from typing import Dict, List, Tuple, Union

from cbi_hunt import runs
from cbi_show import files
from cbi_hunt.counts import Progress
from cbi_hunt.kept import Kept
from cbi_hunt.runs import Batch, Plan
from cbi_hunt.signals import heed_now, heeded
from cbi_hunt.slurm import NAME, Slurm
from cbi_show.files import Fault, count_of


# A host that has gone is noticed in half a minute, where ssh by itself may wait for hours.
WATCHFUL_SSH = "ssh -o ConnectTimeout=10 -o ServerAliveInterval=10 -o ServerAliveCountMax=3"
# How what the farm says begins where something is wrong. What rsync says then follows from that.
TOLD_TROUBLE = re.compile("cbi-hunt: |ssh: |Timeout, server |Connection |Host key verification failed|bash: |sh: |parallel: Error|sbatch: error: |slurmstepd: error: |.*: Permission denied")
MOST_TROUBLES = 5


def hosts_of(path: str) -> int:
    """How many hosts a file for --sshloginfile names."""
    return sum(1 for line in files.decoded(files.read_bytes(path)).split("\n") if line.strip() and not line.lstrip().startswith("#"))


def parallel_words(chosen: argparse.Namespace) -> List[str]:
    """The call of GNU parallel: each packed batch goes to a host, is run there, and its collection comes back.

    A batch that comes to nothing is given to another host, so a host that is down, or has no `cbi`, is done without.
    One that each host failed at ends it. What the hosts say is told as it comes, also of a batch that is tried again.
    """
    found = shutil.which("parallel")
    said = subprocess.run([found, "--version"], env=environment_of_farm(), stdin=subprocess.DEVNULL, stdout=subprocess.PIPE, check=False).stdout if found else b""
    if not said.startswith(b"GNU parallel"):
        raise Fault("--farm asks for GNU parallel on the path" + (", and parallel here is another tool" if found else ""))
    if not os.path.isfile(chosen.farm):
        raise Fault(f"--farm {chosen.farm}: there is no such file")
    words = [str(found), "--sshloginfile", os.path.abspath(chosen.farm), "--workdir", ".", "--transferfile", "{}", "--return", "{}.runs", "--cleanup"]
    words += ["--ungroup", "--retries", str(1 + hosts_of(chosen.farm)), "--halt", "soon,fail=1"]
    return words + (["--jobs", str(chosen.jobs)] if chosen.jobs else []) + ["python3", "{}"]


def home_of_farm() -> str:
    """The folder that GNU parallel takes for our home: ours, or that of temporary files where we have none to write to below the root."""
    home = os.path.expanduser("~")
    fits = os.path.isdir(home) and not os.path.samefile(home, "/") and os.access(home, os.W_OK)
    return home if fits else tempfile.gettempdir()


def environment_of_farm() -> Dict[str, str]:
    return {"PARALLEL_SSH": WATCHFUL_SSH, **os.environ, "HOME": home_of_farm()}


class Parallel:
    """GNU parallel at work, in a session of its own: ^C doesn't come to it, so that it can bring to an end what hosts are at."""

    name = "parallel"

    def __init__(self, chosen: argparse.Namespace):
        self.words = parallel_words(chosen)

    def begin(self, folder: str, batches: List[Batch]) -> None:
        names = os.path.join(folder, "names")
        with open(names, "w", encoding="ascii") as file:
            file.writelines(batch.name() + "\n" for batch in batches)
        with open(names, "rb") as given, open(os.path.join(folder, "said"), "ab") as told:
            self.engine = subprocess.Popen(self.words, cwd=folder, env=environment_of_farm(), stdin=given, stdout=told, stderr=told, start_new_session=True)

    def ended(self) -> bool:
        return self.engine.poll() is not None

    def status(self) -> int:
        return self.engine.returncode

    @property
    def again(self) -> bool:
        """Whether batches that didn't come back are made again. Of those that no host could make there is no hope."""
        return not self.engine.returncode

    def hold(self) -> None:
        """Begins no batch any more."""
        self.engine.send_signal(signal.SIGHUP)

    def end(self) -> None:
        """Lets go of the batches that hosts are at."""
        self.engine.terminate()
        self.engine.wait()


Farm = Union[Parallel, Slurm]


def troubles_of(said: str) -> Tuple[List[str], List[str]]:
    """What went wrong on the farm by its own words, each once; and the last that it said."""
    with open(said, encoding="utf-8", errors="replace") as told:
        lines = [line.strip() for line in told if line.strip()]
    found = dict.fromkeys(re.sub("^cbi-hunt: ", "", line) for line in lines if TOLD_TROUBLE.match(line))
    return list(found)[:MOST_TROUBLES], lines[-1:]


def make_on_farm(chosen: argparse.Namespace, plan: Plan, kept: Kept, batches: List[Batch], progress: Progress) -> bool:
    """Shares the batches out; answers whether all were made. What hosts made by then is taken over after ^C too.

    The batches stand beneath what parallel takes for the home folder, since it then has the same place beneath the home of a host;
    nodes of Slurm see the home folder itself.
    """
    farm: Farm = Slurm(chosen) if chosen.farm == NAME else Parallel(chosen)
    with tempfile.TemporaryDirectory(prefix=".cbi-hunt-", dir=home_of_farm()) as folder:
        for batch in batches:
            runs.pack(plan._replace(cbi=chosen.cbi), batch, os.path.join(folder, batch.name()))
        left = batches
        while True:
            farm.begin(folder, left)
            if not watch_farm(farm, folder, kept, progress):
                return False
            lost = [batch for batch in left if not os.path.exists(kept.batch_path(batch))]
            # A batch that was made on a host which then went away has ended well there, and hasn't come back.
            if not farm.again or not lost or len(lost) == len(left):
                break
            left = lost
        judge_farm(farm, os.path.join(folder, "said"), progress, chosen)
    return True


def judge_farm(farm: Farm, said: str, progress: Progress, chosen: argparse.Namespace) -> None:
    """Where runs are missing that is a fault, with what the hosts said; where none is, it is told which host couldn't help."""
    (troubles, last), made = troubles_of(said), progress.count.runs()
    progress.clear()
    if made < progress.runs:
        on = "; a call with the same words goes on from there" if chosen.keep and made else ""
        told = f"the farm made {count_of(made, 'run')} of {progress.runs}, and {farm.name} ended with status {farm.status()}{on}"
        raise Fault("\n  ".join([told, *(troubles or last)]))
    for line in troubles:
        print(f"cbi-hunt: other hosts made up for this: {line}", file=sys.stderr)


def watch_farm(farm: Farm, folder: str, kept: Kept, progress: Progress) -> bool:
    """Takes over the collections as they come back. After ^C no batch is begun, and those that hosts are at are waited
    for; after a second ^C they are let go."""
    try:
        wait_for_farm(farm, folder, kept, progress)
        return True
    except KeyboardInterrupt:
        heeded()
        farm.hold()
    try:
        progress.tell("waiting for the batches that hosts are at; ^C again lets go of them")
        wait_for_farm(farm, folder, kept, progress)
    except KeyboardInterrupt:
        heeded()
        farm.end()
        take_over(folder, kept, progress)
    return False


def wait_for_farm(farm: Farm, folder: str, kept: Kept, progress: Progress) -> None:
    while not farm.ended():
        heed_now()
        take_over(folder, kept, progress)
        time.sleep(0.2)
    take_over(folder, kept, progress)


def take_over(folder: str, kept: Kept, progress: Progress) -> None:
    """Moves whole collections to the batches, which may be of another file system; one that is still coming has no end yet."""
    for name in [name for name in os.listdir(folder) if re.fullmatch(r"[0-9]+-[0-9]+\.runs", name)]:
        path = os.path.join(folder, name)
        if not files.read_bytes(path).endswith(b"end\n"):
            continue
        target = os.path.join(kept.batches, name[:-5])
        shutil.copyfile(path, target + ".part")
        os.replace(target + ".part", target)
        os.remove(path)
        progress.count.add(target)
    progress.step()
