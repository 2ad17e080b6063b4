#!/usr/bin/env python3
"""Hunts a rare fault of the corpus with many runs, as a test farm makes them: here, by GNU parallel, or as tasks of Slurm.

usage: farming.py CBI FOLDER [--fault NAME/FAULT] [--runs N] [--inputs N] [--one-in N] [--rate D] [--jobs J] [--farm FILE|slurm]

Of a seeded generator's inputs so many are kept in FOLDER (100,000) that exactly one in N of them fails (10,000), as gcc's builds of the right
version and of the one with the fault tell. `cbi-hunt` makes N runs (1,000,000) on these in turn at rate D (100), and it is told how many failed, how
many of these the ranked sample has, how long it took, and which of the first rows are within five lines of the fault. A second call goes on.
"""
import argparse
import csv
import os
import subprocess
import sys
import time
from typing import Dict, Iterator, List, Tuple

from corpus_files import Fault, Subject, read_subject
from corpus_gcc import build, outputs, write
from corpus_scores import NEAR
from corpus_subject import read

TOOLS = os.path.join(os.path.dirname(os.path.abspath(__file__)), "..", "tools")
AT_ONCE = 1000


def find_inputs(subject: Subject, fault: Fault, folder: str, count: int, one_in: int) -> None:
    """Writes inputs with what is due on each, one in so many of which fails."""
    inputs, scratch = os.path.join(folder, "inputs"), os.path.join(folder, "made")
    os.makedirs(inputs, exist_ok=True)
    os.makedirs(scratch, exist_ok=True)
    wanted = {True: count // one_in, False: count - count // one_in}
    kept: List[Tuple[bytes, bytes]] = []
    homes = build(scratch, "right", subject.text(), False), build(scratch, "faulty", subject.text((fault,)), False)
    seed = 0
    while any(wanted.values()):
        seed += 1
        for data, expected, fails in judged_inputs(subject, homes, scratch, seed):
            if wanted[fails]:
                wanted[fails] -= 1
                kept.append((data, expected))
    # Failing inputs are found at the beginning, and stand among the others by their bytes.
    for place, (data, expected) in enumerate(sorted(kept)):
        for name, text in ((f"{place:06}", data), (f"{place:06}.expected", expected)):
            with open(os.path.join(inputs, name), "wb") as file:
                file.write(text)


def judged_inputs(subject: Subject, homes: Tuple[str, str], scratch: str, seed: int) -> Iterator[Tuple[bytes, bytes, bool]]:
    """Some inputs of the generator, with what is due on each, and whether it fails; `homes` are the right version and the one with the fault, built."""
    given, due, out = ([os.path.join(scratch, f"{what}{place}") for place in range(AT_ONCE)] for what in ("given", "due", "out"))
    made = subject.inputs(AT_ONCE, seed)
    for path, data in zip(given, made):
        with open(path, "wb") as file:
            file.write(data)
    outputs(homes[0], given, due)
    statuses = outputs(homes[1], given, out)
    for data, right, other, status in zip(made, due, out, statuses):
        expected = read(right)
        yield data, expected, status > 127 or read(other) != expected


def rows_of(cbi: str, program: str, collection: str) -> List[Dict[str, str]]:
    done = subprocess.run([cbi, "rank", program, collection], stdout=subprocess.PIPE, check=True)
    return list(csv.DictReader(done.stdout.decode().split("\n")))


def told(what: str, rows: List[Dict[str, str]], fault: Fault) -> None:
    """The first rows, and which of them are near the fault. It is one of a program that isn't ported, so lines are those of its text."""
    print(f"{what}: {len(rows)} rows")
    for row in rows[:5]:
        near = any(abs(int(row["line"]) - line) <= NEAR for line in fault.lines())
        print(f"  {row['rank']}. {row['text']} at {row['function']}:{row['line']}, f {row['f']}, s {row['s']}" + (", near the fault" if near else ""))


def arguments() -> argparse.Namespace:
    parser = argparse.ArgumentParser()
    parser.add_argument("cbi")
    parser.add_argument("folder")
    parser.add_argument("--fault", default="calculator/remainder_by_zero")
    parser.add_argument("--runs", type=int, default=1000000)
    parser.add_argument("--inputs", type=int, default=100000)
    parser.add_argument("--one-in", type=int, default=10000)
    parser.add_argument("--rate", type=int, default=100)
    parser.add_argument("--jobs", type=int, default=os.cpu_count() or 1)
    parser.add_argument("--farm")
    return parser.parse_args()


def hunt(chosen: argparse.Namespace, cbi: str, text: str, kept: str) -> None:
    """The hunt, whose page and words stand in a file."""
    words = [sys.executable, os.path.join(TOOLS, "cbi-hunt"), text, "--inputs", os.path.join(chosen.folder, "inputs"), "--runs", str(chosen.runs), "--rate",
             str(chosen.rate), "--keep", kept, "--cbi", cbi, "--jobs", str(chosen.jobs)] + (["--farm", chosen.farm] if chosen.farm else [])
    began = time.monotonic()
    with open(kept + ".out", "wb") as out:
        status = subprocess.run(words, stdout=out, check=False).returncode
    print(f"{chosen.runs} runs at rate {chosen.rate}: status {status}, {time.monotonic() - began:.0f} s by the clock")


def count_failing(path: str) -> int:
    with open(path, "rb") as file:
        return sum(line.startswith(b"run ") and b" label fail " in line for line in file)


def rank(cbi: str, kept: str, fault: Fault) -> None:
    """The rows of the sample that the hunt took."""
    batches = [os.path.join(kept, "batches", one) for one in sorted(os.listdir(os.path.join(kept, "batches")))]
    sample = os.path.join(kept, "runs")
    print(f"{len(batches)} batches have {sum(map(count_failing, batches))} failing runs, the sample has {count_failing(sample)}")
    told("by the sample", rows_of(cbi, os.path.join(kept, "program"), sample), fault)


def main() -> int:
    chosen = arguments()
    chosen.folder, cbi = os.path.abspath(chosen.folder), os.path.abspath(chosen.cbi)
    os.makedirs(chosen.folder, exist_ok=True)
    name, _, title = chosen.fault.partition("/")
    subject = read_subject(name)
    fault = [one for one in subject.faults if one.name == title and not one.kept][0]
    text = os.path.join(chosen.folder, f"{name}.c")
    if not os.path.exists(text):
        began = time.monotonic()
        find_inputs(subject, fault, chosen.folder, chosen.inputs, chosen.one_in)
        write(text, subject.text((fault,)))
        print(f"{chosen.inputs} inputs, {chosen.inputs // chosen.one_in} of which fail, in {time.monotonic() - began:.0f} s", flush=True)
    kept = os.path.join(chosen.folder, f"hunt-{os.path.basename(chosen.farm or 'here')}")
    hunt(chosen, cbi, text, kept)
    rank(cbi, kept, fault)
    return 0


if __name__ == "__main__":
    sys.exit(main())
