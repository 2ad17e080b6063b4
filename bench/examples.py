#!/usr/bin/env python3
"""Times the examples on long inputs: plain, with each visit observed, sampled with made banks of mean 1, 10, 100 and 1000, and built by gcc.

usage: examples.py [--instructions] CBI      where CBI is the built tool (README.md says how it is built)

The inputs are made here, and meet none of the examples' bugs. Printed are processor seconds and the most memory of each run, and what it did more work on
than plain; gcc's are those of the program at -O0, where gcc is on the path. With --instructions the instructions of the runs on inputs of 42 KB are
printed, as callgrind counts them.
"""
import os
import random
import shutil
import subprocess
import sys
import tempfile
from typing import List, Tuple

from timing import instructions, timed

TURNS = "100000000"
BYTES = 2000000
WAYS = [("full", "full", 1)] + [(f"1/{rate}", "sampled", rate) for rate in (1, 10, 100, 1000)]
HERE = os.path.join(os.path.dirname(os.path.abspath(__file__)), "..", "examples")


def longest_words(chance: random.Random, size: int) -> str:
    """Words of at most twelve letters."""
    return "".join("abcdefghijklmnop"[chance.randrange(16)] * chance.randint(1, 12) + " " for _ in range(size // 7))[:size - 1] + "\n"


def lookups(chance: random.Random, size: int) -> str:
    """Letters that all have a value, and then their values."""
    return "a=1 b=2 c=3 d=4 " + "".join("abcd"[chance.randrange(4)] + ("=5 ", "? ")[chance.randrange(2)] for _ in range(size // 3)) + "\n"


def digits(chance: random.Random, size: int) -> str:
    return "".join(f"{chance.randrange(1000):03} " for _ in range(size // 4)) + "\n"


def prepared(tool: str, folder: str, name: str, mode: str, rate: int) -> List[str]:
    """The call of a run of an example, whose program and bank are made."""
    program, bank, source = os.path.join(folder, "program"), os.path.join(folder, "bank"), os.path.join(HERE, name, name + ".c")
    with open(program, "wb") as out:
        subprocess.run([tool, "transform", "--mode", mode, source], stdout=out, check=True)
    with open(bank, "wb") as out:
        subprocess.run([tool, "bank", "--rate", str(rate), "--count", "4096", "--seed", "1"], stdout=out, check=True)
    return [tool, "run", "--turns", TURNS, "--bank", bank, "--input", os.path.join(folder, "input"), program]


def measured(tool: str, folder: str, name: str, mode: str, rate: int) -> Tuple[float, int, str]:
    """The processor seconds and megabytes of a run, and the hash of its output."""
    status, seconds, _, memory, digest, said = timed(prepared(tool, folder, name, mode, rate), os.path.join(folder, "out"))
    return seconds, memory, digest if status == 0 else f"status {status} {said}"


def time_runs(tool: str, folder: str, name: str) -> None:
    plain, memory, same = measured(tool, folder, name, "plain", 1)
    print(f"{name:9} plain        {plain:7.2f} s {memory:6} MB", flush=True)
    for how, mode, rate in WAYS:
        seconds, memory, digest = measured(tool, folder, name, mode, rate)
        print(f"{name:9} {how:12} {seconds:7.2f} s {memory:6} MB  {seconds / plain:5.2f} times {'' if digest == same else 'OTHER OUTPUT ' + digest}", flush=True)
    gcc = shutil.which("gcc")
    if gcc:
        built = os.path.join(folder, "built")
        subprocess.run([gcc, "-w", "-O0", "-o", built, os.path.join(HERE, name, name + ".c")], check=True)
        _, seconds, _, memory, digest, _ = timed(["sh", "-c", f"{built} <{folder}/input"], os.path.join(folder, "out"))
        print(f"{name:9} gcc -O0      {seconds:7.2f} s {memory:6} MB  {'' if digest == same else 'OTHER OUTPUT'}", flush=True)


def count_runs(tool: str, folder: str, name: str) -> None:
    plain = 0
    for how, mode, rate in [("plain", "plain", 1), *WAYS]:
        count = instructions(prepared(tool, folder, name, mode, rate))
        if count is None:
            sys.exit("there is no valgrind: Debian's package of that name has it")
        plain = plain or count
        print(f"{name:9} {how:12} {count:12} instructions  {count / plain:5.2f} times", flush=True)


def main() -> None:
    words = sys.argv[1:]
    counts = "--instructions" in words
    words = [word for word in words if word != "--instructions"]
    if len(words) != 1 or words[0].startswith("-"):
        sys.exit(__doc__)
    for name, make in (("longest", longest_words), ("lookup", lookups), ("greatest", digits)):
        with tempfile.TemporaryDirectory() as folder:
            with open(os.path.join(folder, "input"), "w") as out:
                out.write(make(random.Random(7), 42000 if counts else BYTES))
            (count_runs if counts else time_runs)(words[0], folder, name)


if __name__ == "__main__":
    main()
