#!/usr/bin/env python3
"""Times many runs of one program: by calls of `bank` and `run`, by one call of `runs`, by `study`, and by `cbi-hunt`.

usage: hunting.py CBI [RUNS [MOST]]      where CBI is the built tool (README.md says how it is built)

The runs (10,000) are those of `examples/lookup`, on its 250 inputs in turn, at rate 1. Calls of `bank` and `run` make a tenth of them, in a shell loop; `study`
makes runs on inputs of its own. With MOST, such as 1000000, each power of ten times RUNS up to there is made by `runs`, in lots of 100,000 where a collection
holds no more, and by `cbi-hunt`. Of each way are printed the runs a second, the processor seconds and the memory of its largest process, and whether the same
runs came to the same bytes; before and after, the load of the machine: under load the seconds by the clock say nothing of the tool.
"""
import hashlib
import os
import sys
import tempfile
from typing import Iterator, List, NamedTuple, Set, Tuple

from timing import Timed, timed

TOP = os.path.join(os.path.dirname(os.path.abspath(__file__)), "..")
LOOKUP = os.path.join(TOP, "examples", "lookup")
HUNT = os.path.join(TOP, "tools", "cbi-hunt")
MOST_RUNS = 100000  # of a collection
LOOP = """\
set -e
cd "$1"
mkdir reports
run=0
while read -r name; do
    run=$((run + 1))
    "$0" bank --rate 1 --count 256 --seed 1 --stream $run >bank
    "$0" run --bank bank --input "$name" --run $run --report reports/$run program >output 2>sites
done <few
find reports -type f | xargs "$0" collect --program program
"""
LOTS = """\
set -e
cd "$1"
first=1
for lot in lots/*; do
    "$0" runs --inputs $lot --rate 1 --seed 1 --first $first program
    first=$((first + $(wc -l <$lot)))
done
"""


class Way(NamedTuple):
    """One way to make runs: its name and words, how many runs it makes, and the file with what it collected; none where it writes it to out."""

    name: str
    words: List[str]
    runs: int
    kept: str = ""


class Bench:
    """The tool, and a folder with the program and its inputs."""

    def __init__(self, cbi: str, folder: str) -> None:
        self.cbi, self.folder, self.out = cbi, folder, os.path.join(folder, "out")
        self.names: List[str] = []

    def path(self, *names: str) -> str:
        return os.path.join(self.folder, *names)

    def prepare(self) -> None:
        """The program, and a file for each line of the inputs."""
        self.done(timed([self.cbi, "transform", "--mode", "sampled", os.path.join(LOOKUP, "lookup.c")], self.path("program")))
        with open(os.path.join(LOOKUP, "inputs"), "rb") as file:
            lines = file.read().splitlines(keepends=True)
        for number, line in enumerate(lines):
            self.names.append(self.path(f"input{number}"))
            with open(self.names[-1], "wb") as file:
                file.write(line)

    def done(self, it: Timed) -> Timed:
        if it.status != 0:
            sys.exit(f"status {it.status}: {it.said[-300:]}")
        return it

    def write_list(self, name: str, first: int, count: int) -> str:
        """A list of the inputs of as many runs, from this one on."""
        with open(self.path(name), "w", encoding="utf-8") as file:
            file.writelines(self.names[(first + number - 1) % len(self.names)] + "\n" for number in range(count))
        return self.path(name)

    def runs(self, count: int) -> Way:
        """One call of `runs`."""
        names = self.write_list(f"list{count}", 1, count)
        return Way("cbi runs", [self.cbi, "runs", "--inputs", names, "--rate", "1", "--seed", "1", self.path("program")], count)

    def lots(self, count: int) -> Way:
        """A call of `runs` for each lot of as many runs as a collection holds."""
        os.makedirs(self.path("lots"))
        for lot, first in enumerate(range(1, count + 1, MOST_RUNS)):
            self.write_list(os.path.join("lots", f"{lot:05}"), first, min(MOST_RUNS, count + 1 - first))
        return Way("cbi runs, in lots", ["bash", "-c", LOTS, self.cbi, self.folder], count)

    def calls(self, count: int) -> Way:
        """Calls of `bank` and `run`, one after another."""
        self.write_list("few", 1, count)
        return Way("bank and run", ["bash", "-c", LOOP, self.cbi, self.folder], count)

    def study(self, count: int) -> Way:
        words = [self.cbi, "study", "--runs", str(count), "--seed", "1", "--rate", "1", "--turns", "1000000", os.path.join(LOOKUP, "lookup.c")]
        return Way("cbi study", words, count)

    def hunt(self, count: int, jobs: int) -> Way:
        """A hunt, with its ranking and its page."""
        kept = self.path(f"hunt{count}_{jobs}")
        words = [HUNT, os.path.join(LOOKUP, "lookup.c"), "--inputs", os.path.join(LOOKUP, "inputs"), "--cbi", self.cbi, "--runs", str(count), "--rate", "1",
                 "--jobs", str(jobs), "--keep", kept, "--html", self.path("page.html")]
        return Way(f"cbi-hunt --jobs {jobs}", words, count, os.path.join(kept, "runs"))

    def take(self, way: Way) -> str:
        """Makes the runs in one way, and prints what it took; the hash of what it collected."""
        it = self.done(timed(way.words, self.out))
        rate = way.runs / max(it.passed, 0.001)
        print(f"{way.name:18} {way.runs:8} runs {it.passed:8.1f} s {rate:9.0f} runs a second {it.seconds:7.2f} s of processor {it.memory:6} MB", flush=True)
        if not way.kept:
            return it.digest
        with open(way.kept, "rb") as file:
            return hashlib.sha256(file.read()).hexdigest()


def told_load() -> None:
    print("load", *(f"{load:.1f}" for load in os.getloadavg()), f"on {os.cpu_count()} processors", flush=True)


def alike(digests: Set[str]) -> None:
    print("  the same bytes" if len(digests) == 1 else "  OTHER BYTES", flush=True)


def larger(runs: int, most: int) -> Iterator[int]:
    """Ten times as many runs, and so on."""
    while runs * 10 <= most:
        runs *= 10
        yield runs


def numbers(words: List[str]) -> Tuple[int, int]:
    runs = int(words[0]) if words else 10000
    return runs, int(words[1]) if len(words) > 1 else 0


def main() -> None:
    if not 2 <= len(sys.argv) <= 4 or sys.argv[1].startswith("-"):
        sys.exit(__doc__)
    runs, most = numbers(sys.argv[2:])
    told_load()
    with tempfile.TemporaryDirectory() as folder:
        bench = Bench(os.path.abspath(sys.argv[1]), folder)
        bench.prepare()
        few = max(1, runs // 10)
        alike({bench.take(bench.calls(few)), bench.take(bench.runs(few))})
        alike({bench.take(bench.runs(runs)), bench.take(bench.hunt(runs, 1)), bench.take(bench.hunt(runs, 2))})
        bench.take(bench.study(runs))
        for count in larger(runs, most):
            bench.take(bench.lots(count) if count > MOST_RUNS else bench.runs(count))
            bench.take(bench.hunt(count, 1))
    told_load()


if __name__ == "__main__":
    main()
