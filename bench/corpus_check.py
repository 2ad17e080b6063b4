#!/usr/bin/env python3
"""Looks whether the corpus is what it says: right versions without a warning, faults that some runs show.

usage: corpus_check.py [--runs N] [--seed S] [--numbers] [--new] [NAME ..]

Each right version is built by gcc -Wall -Wextra with its checks of addresses and of undefined behaviour, and run on N inputs (300), where none of them
may find anything. Then each fault is put in, with --new each of the second set that is kept back alone, and it is told how many of these inputs
fail: by a check, or by other output. With --numbers the files of faults are written anew, with the numbers of their lines. The status is 1 where
something isn't as it should be.
"""
import argparse
import os
import subprocess
import sys
import tempfile
from typing import List, NamedTuple, Tuple

from corpus_files import CORPUS, CorpusError, Fault, Subject, read_corpus, spelled

GCC = ["gcc", "-std=c99", "-Wall", "-Wextra", "-O1", "-g", "-fsanitize=address,undefined", "-fno-sanitize-recover=all"]
QUIET = {"ASAN_OPTIONS": "detect_leaks=0:symbolize=0", "PATH": os.environ.get("PATH", "")}
SECONDS = 5


class Done(NamedTuple):
    status: int
    output: bytes
    said: str


def built(folder: str, name: str, text: str) -> Tuple[str, str]:
    """The program, and what gcc says of it."""
    source, target = os.path.join(folder, name + ".c"), os.path.join(folder, name)
    with open(source, "w", encoding="ascii") as file:
        file.write(text)
    done = subprocess.run(GCC + ["-o", target, source], stderr=subprocess.PIPE, check=False)
    said = done.stderr.decode()
    if done.returncode:
        raise CorpusError(f"{name} isn't compiled:\n{said}")
    return target, said


def run(program: str, given: bytes) -> Done:
    try:
        done = subprocess.run([program], input=given, stdout=subprocess.PIPE, stderr=subprocess.PIPE, env=QUIET, timeout=SECONDS, check=False)
        return Done(done.returncode, done.stdout, done.stderr.decode(errors="replace"))
    except subprocess.TimeoutExpired:
        return Done(-1, b"", "no end")


def check_fault(subject: Subject, fault: Fault, folder: str, inputs: List[bytes], due: List[bytes]) -> str:
    program, _ = built(folder, f"{subject.name}_{fault.name}", subject.text((fault,)))
    done = [run(program, given) for given in inputs]
    other = sum(one.output != right and not one.said for one, right in zip(done, due))
    stopped = sum(bool(one.said) and one.said != "no end" for one in done)
    endless = sum(one.said == "no end" for one in done)
    fails = f"{other + stopped + endless:5} of {len(inputs)} fail: {other} other output, {stopped} stopped, {endless} without end"
    return f"  {fault.kind:24} {fault.name:32} {fails}"


def check(subject: Subject, folder: str, runs: int, seed: int, new: bool) -> bool:
    """Tells of a program and its faults, or of its new ones alone; answers whether its right version is right."""
    inputs = subject.inputs(runs, seed)
    program, said = built(folder, subject.name, subject.text())
    done = [run(program, given) for given in inputs]
    bad = [place for place, one in enumerate(done) if one.said or one.status not in (0, 1)]
    kinds = len({one.output for one in done})
    size = sum(map(len, inputs)) // len(inputs)
    print(f"{subject.name}: {len(subject.lines)} lines, {len(subject.faults)} faults, {kinds} outputs on {len(inputs)} inputs of {size} bytes", flush=True)
    if said:
        print(said)
    for place in bad[:2]:
        print(f"  input {place}: status {done[place].status} {done[place].said[:400]}\n  {inputs[place]!r}")
    for fault in [fault for fault in subject.faults if fault.new or not new]:
        print(check_fault(subject, fault, folder, inputs, [one.output for one in done]), flush=True)
    if subject.three():
        built(folder, subject.name + "_three", subject.text(subject.three()))
    return not bad and not said


def main() -> int:
    parser = argparse.ArgumentParser()
    parser.add_argument("--runs", type=int, default=300)
    parser.add_argument("--seed", type=int, default=1)
    parser.add_argument("--numbers", action="store_true")
    parser.add_argument("--new", action="store_true")
    parser.add_argument("names", nargs="*")
    chosen = parser.parse_args()
    right = True
    for subject in read_corpus(chosen.names):
        if chosen.numbers:
            with open(os.path.join(CORPUS, subject.name, "faults"), "w", encoding="ascii") as file:
                file.write(spelled(subject))
        with tempfile.TemporaryDirectory() as folder:
            right &= check(subject, folder, chosen.runs, chosen.seed, chosen.new)
    return 0 if right else 1


if __name__ == "__main__":
    try:
        sys.exit(main())
    except CorpusError as error:
        sys.exit(str(error))
