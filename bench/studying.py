#!/usr/bin/env python3
"""Times studies: how long the runs of a study take, and how much of that is the making of their banks.

usage: studying.py CBI      where CBI is the built tool (README.md says how it is built)

For each program of examples/ it prints the processor seconds and the most memory of a study of one run, of 1,000 and of 10,000 runs, at rates 1, 10, 100 and 1000.
A bank of 256 numbers at rate D takes 256 times D words of the generator on average, so what is more at a greater rate is mostly the making of banks; the study of one
run is mostly the compiling.
"""
import os
import sys
import tempfile

from timing import timed

HERE = os.path.join(os.path.dirname(os.path.abspath(__file__)), "..", "examples")


def main() -> None:
    if len(sys.argv) != 2 or sys.argv[1].startswith("-"):
        sys.exit(__doc__)
    tool = sys.argv[1]
    for name in ("longest", "lookup", "greatest"):
        for rate in (1, 10, 100, 1000):
            for runs in (1, 1000, 10000):
                with tempfile.TemporaryDirectory() as folder:
                    words = [tool, "study", "--runs", str(runs), "--seed", "7", "--rate", str(rate), "--turns", "100000", os.path.join(HERE, name, name + ".c")]
                    status, seconds, _, memory, _, said = timed(words, os.path.join(folder, "out"))
                    with open(os.path.join(folder, "out")) as out:
                        last = out.read().splitlines()[-1:]
                print(f"{name:9} 1/{rate:<5} {runs:6} runs {seconds:7.2f} s {memory:6} MB  {last[0] if status == 0 else f'status {status} {said}'}", flush=True)


if __name__ == "__main__":
    main()
