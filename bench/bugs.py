#!/usr/bin/env python3
"""Times `lines` and `bugs` on a collection with thousands of leaders, beside a script in Python that looks at all predicates in each round.

usage: bugs.py [--instructions] CBI [RUNS [LEADERS]]     where CBI is the built tool (README.md says how it is built)
       bugs.py --plain COMMAND MOST PROG COLL            the script alone: what the command writes goes to standard output

Makes a program with LEADERS branches (25,000) and a collection of RUNS runs (100,000), of which a fourth fail: each of these has one branch true, in turn, and
three false; a run that passes has four false. So each branch leads for its own failing runs. Printed are the processor seconds and the most memory of each
process, and whether both wrote the same bytes; with --instructions those of each command, as callgrind counts them (Debian's `valgrind`).
"""
import os
import sys
import tempfile
from collections import Counter
from random import Random
from typing import Counter as Counts, Dict, Iterator, List, NamedTuple, Tuple

from made import Entries, collection, read_entries, site_lines, text_of, write, write_program
from timing import compared, instructions

# How many further sites a run observes.
OTHERS = 3
# Lines of one function that are so many lines apart are one, and a bug has so many places.
APART, PLACES = 3, 3
# What is timed: the command, how many lines or bugs it lists at most.
CALLS = (("lines", 10), ("lines", 1000), ("bugs", 10), ("bugs", 100))


class Found(NamedTuple):
    """A predicate by its order, with its numbers and its strength in millionths."""

    order: Tuple[int, int, int, int]
    numbers: Tuple[int, int, int, int]
    strength: int

    @property
    def predicate(self) -> int:
        return self.order[3]

    @property
    def line(self) -> int:
        return self.predicate // 2 + 1


def runs_of(runs: int, leaders: int) -> Iterator[str]:
    """The lines of each run."""
    chance = Random(1)
    for run in range(1, runs + 1):
        seen = {site: False for site in chance.sample(range(leaders), OTHERS + 1)}
        if run % 4:
            yield f"run {run} ended 0 label pass work 0 0 0\n" + site_lines(seen)
        else:
            del seen[max(seen)]
            yield f"run {run} trapped 6 label fail work 0 0 0\n" + site_lines({**seen, (run // 4 - 1) % leaders: True})


class Runs:
    """What the runs of a collection observed, and which failing runs are live: the numbers of each predicate over these and all passing runs are kept."""

    def __init__(self, held: Entries) -> None:
        self.names, self.fails = held.names, held.fails
        self.failing, self.passing = sum(held.fails), len(held.fails) - sum(held.fails)
        self.live = {run for run, fails in enumerate(held.fails) if fails}
        self.sites: List[List[int]] = [[] for _ in held.fails]
        self.true: List[List[int]] = [[] for _ in held.fails]
        self.true_in: Dict[int, List[int]] = {}
        for run, site, was_true, was_false in zip(held.run_of, held.site_of, held.true_of, held.false_of):
            self.sites[run].append(site)
            self.true[run] += [2 * site + kind for kind, was in enumerate((was_true, was_false)) if was]
        self.counts: Tuple[Counts[int], Counts[int], Counts[int], Counts[int]] = (Counter(), Counter(), Counter(), Counter())
        for run, fails in enumerate(held.fails):
            self.counts[0 if fails else 1].update(self.true[run])
            self.counts[2 if fails else 3].update(self.sites[run])
            for predicate in self.true[run] if fails else ():
                self.true_in.setdefault(predicate, []).append(run)

    def found(self, predicate: int) -> Found:
        numbers = (self.counts[0][predicate], self.counts[1][predicate], self.counts[2][predicate // 2], self.counts[3][predicate // 2])
        true, live = numbers[0] + numbers[1], len(self.live)
        runs = live + self.passing
        top, bottom = max(0, numbers[0] * self.passing - numbers[1] * live) ** 2, live * self.passing * true * (runs - true)
        # Fractions with divisors of at most N^4 are apart by 1/N^8, so they stand as whole numbers once each is multiplied by that.
        scaled = (top << 8 * runs.bit_length()) // bottom if bottom else 0
        return Found((-scaled, -numbers[0], -numbers[2] - numbers[3], predicate), numbers, 1000000 * top // bottom if bottom else 0)

    def best_first(self) -> List[Found]:
        """The predicates that are true in a live run, the best first."""
        return sorted(self.found(predicate) for predicate, count in self.counts[0].items() if count)

    def take(self, predicate: int) -> int:
        """Takes a predicate's own runs out; the least number of them."""
        own = [run for run in self.true_in[predicate] if run in self.live]
        for run in own:
            self.counts[0].subtract(self.true[run])
            self.counts[2].subtract(self.sites[run])
        self.live.difference_update(own)
        return min(self.names[run] for run in own)


def thinned(found: List[Found], most: int) -> List[Found]:
    """The first of these, without those near one before them."""
    kept: Dict[int, Found] = {}
    for it in found:
        if len(kept) == most:
            break
        if not any(line in kept for line in range(it.line - APART, it.line + APART + 1)):
            kept[it.line] = it
    return list(kept.values())


def words_of(*words: object) -> str:
    return " ".join(map(str, words))


def list_lines(runs: Runs, most: int) -> None:
    found = runs.best_first()
    print(words_of("lines", runs.failing, runs.passing, len({it.line for it in found})))
    for number, it in enumerate(thinned(found, most), 1):
        print(words_of("line", number, it.predicate, "main", it.line, *it.numbers, it.strength, text_of(it.predicate)))
    print("end")


def list_bugs(runs: Runs, most: int) -> None:
    print(words_of("bugs", runs.failing, runs.passing))
    for number in range(1, most + 1):
        found = thinned(runs.best_first(), PLACES)
        if not found:
            break
        it = found[0]
        print(words_of("bug", number, it.predicate, "main", it.line, *it.numbers, it.strength, "first", runs.take(it.predicate), text_of(it.predicate)))
        for other in found[1:]:
            print(words_of("also", "main", other.line, *other.numbers[:2], other.strength, text_of(other.predicate)))
    print(words_of("rest", len(runs.live)))
    print("end")


def compare(tool: str, path: str, held: str, out: str) -> None:
    for command, most in CALLS:
        print(f"{command} --most {most}")
        plain = [sys.executable, os.path.abspath(__file__), "--plain", command, str(most), path, held]
        compared([("cbi", [tool, command, "--most", str(most), path, held]), ("plain", plain)], out, lambda said: said or "nothing told")


def count_instructions(tool: str, path: str, held: str) -> None:
    for command, most in CALLS:
        print(f"{command} --most {most}: {instructions([tool, command, '--most', str(most), path, held])} instructions", flush=True)


def main() -> None:
    if sys.argv[1:2] == ["--plain"]:
        command, most, _, held = sys.argv[2:]
        (list_lines if command == "lines" else list_bugs)(Runs(read_entries(held)), int(most))
        return
    words = sys.argv[1:]
    counting = words[:1] == ["--instructions"]
    tool, *numbers = words[1:] if counting else words or [""]
    if not tool or tool.startswith("-") or len(numbers) > 2:
        sys.exit(__doc__)
    runs, leaders = (int(numbers[k]) if len(numbers) > k else most for k, most in enumerate((100000, 25000)))
    with tempfile.TemporaryDirectory() as folder:
        path, held, out = (os.path.join(folder, name) for name in ("program", "runs", "out"))
        write(held, collection(write_program(path, leaders), runs_of(runs, leaders)))
        print(f"{runs} runs with {OTHERS + 1} of {leaders} sites, {os.path.getsize(held) / 1e6:.0f} MB")
        (count_instructions(os.path.abspath(tool), path, held) if counting else compare(os.path.abspath(tool), path, held, out))


if __name__ == "__main__":
    main()
