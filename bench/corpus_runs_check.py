#!/usr/bin/env python3
"""Looks whether `cbi runs` makes the collections that calls of `cbi bank`, `run` and `collect` make, byte by byte.

usage: corpus_runs_check.py CBI [--runs N] [--rates D,D] [NAME ..]

The right version and each fault that isn't kept back of some programs of the corpus (calculator, matrix) is run on N inputs (40) both ways,
one on an input and two on each of half of them. The status is 1 where a collection differs, or where CBI has no `runs`.
"""
import argparse
import os
import sys
import tempfile
from typing import Iterator, List, Tuple

from corpus import numbers, scratch
from corpus_files import Subject, read_subject
from corpus_runs import Inputs, Runs
from corpus_subject import Bench, inputs_in, make_inputs


def texts(subject: Subject) -> Iterator[Tuple[str, str]]:
    yield "right", subject.text()
    for fault in subject.faults:
        if not fault.kept:
            yield fault.name, subject.text((fault,))


def differs(runs: Runs, program: str, inputs: Inputs, rate: int, folder: str) -> bool:
    """Makes the same runs both ways."""
    targets: List[bytes] = []
    for way, many in (("at once", runs.collect_at_once), ("singly", runs.collect_singly)):
        target = os.path.join(folder, way)
        many(program, inputs, rate, target)
        with open(target, "rb") as file:
            targets.append(file.read())
    return targets[0] != targets[1]


def main() -> int:
    parser = argparse.ArgumentParser()
    parser.add_argument("cbi")
    parser.add_argument("--runs", type=int, default=40)
    parser.add_argument("--rates", type=numbers, default=[1, 5, 100])
    parser.add_argument("names", nargs="*", default=["calculator", "matrix"])
    chosen = parser.parse_intermixed_args()
    bad = made = 0
    for name in chosen.names:
        with tempfile.TemporaryDirectory(prefix="corpus-", dir=scratch()) as folder:
            runs = Runs(os.path.abspath(chosen.cbi), folder, 1, 1, singly=True)
            if not runs.many:
                print(f"{chosen.cbi} has no command `runs`")
                return 1
            subject = read_subject(name)
            make_inputs(subject, os.path.join(folder, "inputs"), chosen.runs, 1)
            bench = Bench(subject, runs, folder, inputs_in(os.path.join(folder, "inputs"), chosen.runs))
            for title, text in texts(subject):
                built = bench.built(title, text)
                for rate in chosen.rates:
                    for times in (1, 2):
                        made += 1
                        if differs(runs, built.program, bench.some(chosen.runs, times), rate, folder):
                            bad += 1
                            print(f"{name}/{title} at rate {rate}, {times} runs an input: other bytes")
    print(f"{made} collections of {chosen.runs} runs made both ways, {bad} differ")
    return 1 if bad else 0


if __name__ == "__main__":
    sys.exit(main())
