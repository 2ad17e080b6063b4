#!/usr/bin/env python3
"""Times a loop of 10,000,000 turns without sites, with each visit of its sites observed, and sampled.

usage: sampling.py CBI          the built tool (README.md says how it is built)
       sampling.py --nodes CBI  how many nodes a turn takes, by kind, without timing

The loop is compiled by `transform`. It has one site, its condition, or two, with a condition within it. Printed are processor seconds and the most
memory of each run, plain, full, and sampled with made banks of mean 1, 10, 100 and 1000; and what the sampled run counted: fast and slow choices,
and tests.
"""
import os
import random
import subprocess
import sys
import tempfile
from typing import Dict, Iterator, List, Optional

from timing import timed

TURNS = "100000000"
ROUNDS = 10000000
MEANS = (1, 10, 100, 1000)


def loop(rounds: int, sites: int) -> str:
    """The text of a loop, and within it a condition where there are two sites."""
    body = "if (turn & 1) odd = odd + 1;" if sites == 2 else "odd = odd + 1;"
    return f"int main(void) {{ int turn = 0; int odd = 0; for (; turn < {rounds}; turn = turn + 1) {body} return 0; }}\n"


def compiled(tool: str, text: str, mode: str) -> str:
    """The file of the text's program in this mode, with the sites of its conditions."""
    words = [tool, "transform", "--mode", mode, "--schemes", "branches", "-"]
    return subprocess.run(words, input=text.encode(), stdout=subprocess.PIPE, check=True).stdout.decode()


def draws(mean: int) -> Iterator[int]:
    """Numbers of a bank of this mean: the tosses of a coin up to the first that falls so."""
    chance = random.Random(mean)
    while True:
        count = 1
        while chance.random() * mean >= 1:
            count += 1
        yield count


def walked(text: str, bank: Iterator[int]) -> Dict[str, int]:
    """How often a run of this one function comes to each kind of node."""
    rows = text.split("\n")
    first = rows.index("locals 1 1") + 1
    nodes = [row.split() for row in rows[first:-2]]
    cells: Dict[int, Optional[int]] = {}
    operands: List[int] = []
    seen: Dict[str, int] = {}
    copy, shared, place = 0, next(bank), 0
    while True:
        row = nodes[place]
        kind, words = row[0], row[1:]
        seen[kind] = seen.get(kind, 0) + 1
        place = int(words[-1]) if words else 0
        if kind == "push":
            operands.append(int(words[1]))
        elif kind == "local":
            operands.append(int(words[0]))
        elif kind == "load":
            held = cells[operands.pop()]
            assert held is not None, "a cell without a value"
            operands.append(held)
        elif kind == "store":
            value, cell = operands.pop(), operands.pop()
            cells[cell] = value
            operands.append(value)
        elif kind == "drop":
            operands.pop()
        elif kind == "dup":
            operands.append(operands[-1])
        elif kind == "clear":
            cells[int(words[0])] = None
        elif kind == "math":
            b, a = operands.pop(), operands.pop()
            operands.append({"lt": int(a < b), "and": a & b, "add": a + b}[words[0]])
        elif kind == "fork":
            place = int(words[0]) if operands.pop() else int(words[1])
        elif kind == "import":
            copy = shared
        elif kind == "export":
            shared = copy
        elif kind == "skip":
            copy -= int(words[0])
        elif kind == "test":
            copy -= 1
            if copy == 0:
                seen["observed"] = seen.get("observed", 0) + 1
                copy = next(bank)
        elif kind == "choose":
            place = int(words[1]) if copy > int(words[0]) else int(words[2])
        elif kind == "return":
            return seen


def print_nodes(tool: str, rounds: int = 100000) -> None:
    """Nodes a turn, and how many of them belong to sampling."""
    for sites in (1, 2):
        text = loop(rounds, sites)
        for mode, mean in [("plain", 1), ("full", 1)] + [("sampled", mean) for mean in MEANS]:
            seen = walked(compiled(tool, text, mode), draws(mean))
            observed = seen.pop("observed", 0)
            own = {kind: seen[kind] / rounds for kind in ("mark", "choose", "test", "skip") if kind in seen}
            parts = " ".join(f"{kind} {count:.3f}" for kind, count in own.items())
            print(f"sites {sites} {mode:8} mean {mean:4} nodes {sum(seen.values()) / rounds:6.2f} a turn: {parts} observed {observed / rounds:.4f}")


def print_times(tool: str) -> None:
    with tempfile.TemporaryDirectory() as folder:
        path = {name: os.path.join(folder, name) for name in ("program", "bank", "report", "out")}
        for sites in (1, 2):
            text = loop(ROUNDS, sites)
            for mode, mean in [("plain", 1), ("full", 1)] + [("sampled", mean) for mean in MEANS]:
                with open(path["program"], "w", encoding="ascii") as file:
                    file.write(compiled(tool, text, mode))
                timed([tool, "bank", "--rate", str(mean), "--count", "65536", "--seed", "7"], path["bank"])
                words = [tool, "run", "--turns", TURNS, "--bank", path["bank"], "--report", path["report"], "--run", "1", path["program"]]
                status, seconds, _, memory, _, _ = min(timed(words, path["out"]) for _ in range(3))
                with open(path["report"], encoding="ascii") as report:
                    work = next(line.strip() for line in report if line.startswith("work "))
                print(f"sites {sites} {mode:8} mean {mean:4} {seconds:6.2f} s {memory:5} MB status {status} {work}", flush=True)
                os.remove(path["report"])


def main() -> None:
    if len(sys.argv) == 3 and sys.argv[1] == "--nodes":
        print_nodes(sys.argv[2])
    elif len(sys.argv) == 2 and not sys.argv[1].startswith("-"):
        print_times(sys.argv[1])
    else:
        sys.exit(__doc__)


if __name__ == "__main__":
    main()
