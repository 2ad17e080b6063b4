"""The inputs of a bug: made by its generator, with what the mended program writes, and which of them fail as gcc builds the program."""
import os
import shutil
import subprocess
import sys
from typing import List, NamedTuple

from real_bug import FILES, Bug
from real_native import ADDRESSES, built, output_of
from real_source import Missing


class Made(NamedTuple):
    """The folder of the inputs that are hunted and that of expected outputs; how many inputs were made, and which of these fail as gcc builds the program."""
    inputs: str
    expected: str
    total: int
    failing: List[str]


def generated(bug: Bug, folder: str, source: str) -> List[str]:
    """The names of the inputs that its generator makes."""
    generator = os.path.join(FILES, bug.inputs[0])
    os.makedirs(folder)
    words = [sys.executable, generator, str(bug.count), folder, str(bug.seed), *bug.inputs[1:]]
    done = subprocess.run(words, stdout=subprocess.PIPE, stderr=subprocess.STDOUT, env={**os.environ, "CBI_SOURCE": source}, check=False)
    if done.returncode:
        raise Missing(f"{bug.inputs[0]}: {done.stdout.decode('utf-8', 'replace').strip()[-200:]}")
    return sorted(os.listdir(folder))


def wrong_build(bug: Bug, broken: str) -> str:
    """By which it is said how many inputs fail: with AddressSanitizer, but where the bug shows in the output anyway."""
    return built(bug.program, broken, "plain", ["-O1"]) if bug.kind == "wrong output" else built(bug.program, broken, "addresses", ADDRESSES)


def made(bug: Bug, mended: str, broken: str, work: str) -> Made:
    """Makes the inputs. Where few fail, only so many of the others are hunted as the record says."""
    whole, inputs, expected = (os.path.join(work, name) for name in ("made", "inputs", "expected"))
    for folder in (whole, inputs, expected):
        shutil.rmtree(folder, ignore_errors=True)
    names = generated(bug, whole, mended)
    right, wrong = built(bug.program, mended, "plain", ["-O1"]), wrong_build(bug, broken)
    os.makedirs(inputs)
    os.makedirs(expected)
    failing: List[str] = []
    others = 0
    for name in names:
        path = os.path.join(whole, name)
        status, output = output_of(right, bug.program, path)
        if status is None:
            continue
        fails = output_of(wrong, bug.program, path) != (status, output)
        failing += [name] if fails else []
        others += not fails
        if fails or bug.others is None or others <= bug.others:
            os.link(path, os.path.join(inputs, name))
            with open(os.path.join(expected, name), "wb") as file:
                file.write(output)
    if not os.listdir(inputs):
        raise Missing("on no input does the mended program come to its end")
    return Made(inputs, expected, len(names), failing)
