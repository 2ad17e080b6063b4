#!/usr/bin/env python3
"""Times `rank`, by each policy, and `cards` on a collection with thousands of leaders.

usage: leaders.py CBI [OTHER [RUNS [LEADERS]]]     where CBI is the built tool (README.md says how it is built), and OTHER one of another version; - for none

Makes a program with twice LEADERS branches (25,000) and a collection of RUNS runs (100,000), of which a fourth fail: each of these has a branch of its own true,
which no other failing run observes while there are no more failing runs than LEADERS, and every run observes three branches of the other half. Printed are the
processor seconds and the most memory of each process, and whether both tools wrote the same bytes.
"""
import os
import sys
import tempfile
from random import Random
from typing import Iterator, List

from made import collection, site_lines, write, write_program
from timing import compared

# How many sites of the other half a run observes.
OTHERS = 3
CALLS = (["rank", "--policy", "all"], ["rank", "--policy", "failing"], ["rank", "--policy", "relabel"], ["cards"])


def runs_of(runs: int, leaders: int) -> Iterator[str]:
    """The lines of each run."""
    chance = Random(1)
    for run in range(1, runs + 1):
        seen = {leaders + site: chance.random() < 0.5 for site in chance.sample(range(leaders), OTHERS)}
        if run % 4:
            yield f"run {run} ended 0 label pass work 0 0 0\n" + site_lines({chance.randrange(leaders): False, **seen})
        else:
            yield f"run {run} trapped 6 label fail work 0 0 0\n" + site_lines({(run // 4 - 1) % leaders: True, **seen})


def listed(path: str, command: List[str]) -> str:
    """How many leaders a command wrote."""
    with open(path, encoding="ascii") as lines:
        return f"{sum(line[:1].isdigit() or line.startswith('card ') for line in lines)} leaders by {' '.join(command)}"


def compare(tools: List[str], path: str, held: str, out: str) -> None:
    """Times each command by each tool."""
    for command in CALLS:

        def tell(said: str, words: List[str] = command) -> str:
            return said or listed(out, words)

        compared([(str(number), [tool, *command, path, held]) for number, tool in enumerate(tools, 1)], out, tell)


def main() -> None:
    words = sys.argv[1:]
    if not 1 <= len(words) <= 4 or words[0].startswith("-"):
        sys.exit(__doc__)
    tools = [os.path.abspath(tool) for tool in words[:2] if tool != "-"]
    runs, leaders = (int(words[2 + k]) if len(words) > 2 + k else most for k, most in enumerate((100000, 25000)))
    with tempfile.TemporaryDirectory() as folder:
        path, held, out = (os.path.join(folder, name) for name in ("program", "runs", "out"))
        write(held, collection(write_program(path, 2 * leaders), runs_of(runs, leaders)))
        print(f"{runs} runs with {OTHERS + 1} of {2 * leaders} sites, {os.path.getsize(held) / 1e6:.0f} MB")
        compare(tools, path, held, out)


if __name__ == "__main__":
    main()
