"""Runs of a program on inputs with banks, collected: the one place of the corpus where `cbi` makes runs.

`Runs.collect` hides how they are made: by calls of `cbi runs` where the executable has that command, else by a call of `cbi run` each.
Run R is on input R, and its bank is that which `bank --rate D --count 256 --seed S --stream R` writes, so both ways give the same collection;
`corpus_runs_check.py` compares them.
"""
import os
import resource
import subprocess
from typing import List, NamedTuple, Optional

# Starts calls, so many at a time; each line of its input is the words of one. Of a call that ends otherwise than well the number is written.
SPAWNER = r"""
#include <fcntl.h>
#include <stdio.h>
#include <stdlib.h>
#include <string.h>
#include <sys/wait.h>
#include <unistd.h>
static pid_t at_work[64];
static int which[64], busy;
static void wait_for_one(void)
{
    int status, i;
    pid_t done = wait(&status);
    for (i = 0; i < busy; i++)
        if (at_work[i] == done) {
            if (status != 0)
                printf("%d\n", which[i]);
            busy--;
            at_work[i] = at_work[busy];
            which[i] = which[busy];
        }
}
int main(int count, char **words)
{
    static char line[65536];
    int jobs = count > 1 ? atoi(words[1]) : 1, number = 0, nowhere = open("/dev/null", O_RDWR);
    while (fgets(line, sizeof line, stdin)) {
        char *argument[64], *word = strtok(line, "\t\n");
        int n = 0;
        for (; word && n < 63; word = strtok(NULL, "\t\n"))
            argument[n++] = word;
        argument[n] = NULL;
        if (busy == jobs)
            wait_for_one();
        which[busy] = number++;
        at_work[busy] = vfork();
        if (at_work[busy] == 0) {
            dup2(nowhere, 0);
            dup2(nowhere, 1);
            dup2(nowhere, 2);
            execv(argument[0], argument);
            _exit(127);
        }
        busy++;
    }
    while (busy)
        wait_for_one();
    return 0;
}
"""
BANK_NUMBERS = 256
TURNS = 1000000
FILES_A_CALL = 500


class CallError(Exception):
    """A call ended otherwise than it should."""


class Inputs(NamedTuple):
    """Files of inputs, and of what is due on them."""
    given: List[str]
    due: List[str]


def call(words: List[str], out: Optional[str] = None) -> str:
    """Calls a program; answers what it said on standard error."""
    with open(out or os.devnull, "wb") as file:
        done = subprocess.run(words, stdin=subprocess.DEVNULL, stdout=file, stderr=subprocess.PIPE, check=False)
    said = done.stderr.decode(errors="replace").strip()
    if done.returncode:
        raise CallError(f"{' '.join(words[:3])} ..: status {done.returncode} {said[:400]}")
    return said


def processor_seconds() -> float:
    """What this process and those that it waited for have used of a processor, which other work on the machine doesn't change."""
    return sum(used.ru_utime + used.ru_stime for used in map(resource.getrusage, (resource.RUSAGE_SELF, resource.RUSAGE_CHILDREN)))


def text_of(words: List[str]) -> str:
    done = subprocess.run(words, stdin=subprocess.DEVNULL, stdout=subprocess.PIPE, stderr=subprocess.PIPE, check=False)
    if done.returncode:
        raise CallError(f"{' '.join(words[:3])} ..: status {done.returncode} {done.stderr.decode(errors='replace').strip()[:400]}")
    return done.stdout.decode("latin-1")


class Runs:
    """Makes runs with so many processes at a time, in a scratch folder."""

    def __init__(self, cbi: str, folder: str, jobs: int, seed: int, singly: bool = False):
        """`singly` asks that runs can be made by a call each, also where the executable makes many at once."""
        self.cbi, self.folder, self.jobs, self.seed = cbi, folder, jobs, seed
        self.many = "runs" in self.commands()
        os.makedirs(os.path.join(folder, "banks"), exist_ok=True)
        self.spawner = os.path.join(folder, "spawn")
        if singly or not self.many:
            with open(self.spawner + ".c", "w", encoding="ascii") as file:
                file.write(SPAWNER)
            call(["gcc", "-O1", "-w", "-o", self.spawner, self.spawner + ".c"])

    def commands(self) -> List[str]:
        """The words with which the lines of the usage begin."""
        done = subprocess.run([self.cbi], stdin=subprocess.DEVNULL, stdout=subprocess.DEVNULL, stderr=subprocess.PIPE, check=False)
        return [word for line in done.stderr.decode(errors="replace").split("\n") for word in line.split()[:1]]

    def compiled(self, text: str, target: str, schemes: str = "branches,returns,pairs") -> str:
        call([self.cbi, "transform", "--mode=sampled", f"--schemes={schemes}", "--", text], target)
        return target

    def bank(self, rate: int, run: int) -> str:
        """The bank of a run; it is the same for every program, so it is made once."""
        path = os.path.join(self.folder, "banks", f"{rate}-{run}")
        if not os.path.exists(path):
            call([self.cbi, "bank", f"--rate={rate}", f"--count={BANK_NUMBERS}", f"--seed={self.seed}", f"--stream={run}"], f"{path}.{os.getpid()}")
            os.replace(f"{path}.{os.getpid()}", path)
        return path

    def collect(self, program: str, inputs: Inputs, rate: int, target: str) -> str:
        """A run on each input, collected in the file `target`."""
        if self.many:
            self.collect_at_once(program, inputs, rate, target)
        else:
            self.collect_singly(program, inputs, rate, target)
        return target

    def collect_at_once(self, program: str, inputs: Inputs, rate: int, target: str) -> None:
        lists = []
        for name, paths in (("given", inputs.given), ("due", inputs.due)):
            lists.append(f"{target}.{name}")
            with open(lists[-1], "w", encoding="utf-8") as file:
                file.writelines(path + "\n" for path in paths)
        call([self.cbi, "runs", f"--inputs={lists[0]}", f"--expect={lists[1]}", f"--rate={rate}", f"--seed={self.seed}", f"--turns={TURNS}", "--", program],
             target)
        for path in lists:
            os.remove(path)

    def all_of(self, calls: List[List[str]]) -> None:
        """Makes calls, some at a time; the first that isn't well is told in its own words."""
        lines = "".join("\t".join(words) + "\n" for words in calls)
        done = subprocess.run([self.spawner, str(self.jobs)], input=lines, stdout=subprocess.PIPE, universal_newlines=True, check=True)
        for number in done.stdout.split():
            call(calls[int(number)])
            raise CallError(f"{' '.join(calls[int(number)][:3])} .. ended badly once")

    def collect_singly(self, program: str, inputs: Inputs, rate: int, target: str) -> None:
        reports = [f"{target}.{run}" for run in range(1, len(inputs.given) + 1)]
        calls = []
        for run, report in enumerate(reports, 1):
            bank = [] if rate == 1 else [f"--bank={self.bank(rate, run)}"]
            calls.append([self.cbi, "run", *bank, f"--input={inputs.given[run - 1]}", f"--expect={inputs.due[run - 1]}", f"--turns={TURNS}", f"--run={run}",
                          f"--report={report}", "--", program])
        self.all_of(calls)
        parts = []
        for start in range(0, len(reports), FILES_A_CALL):
            parts.append(f"{target}.part{start}")
            call([self.cbi, "collect", f"--program={program}", "--"] + reports[start:start + FILES_A_CALL], parts[-1])
        call([self.cbi, "collect", f"--program={program}", "--"] + parts, target)
        for path in reports + parts:
            os.remove(path)
