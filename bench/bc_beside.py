#!/usr/bin/env python3
"""What gcc's build, gdb, AddressSanitizer and coverage say of the programs that examples/bc hunted: the rows of its page.

    bc_beside.py WORK [--count N] [--failing N] [--others N]

WORK is the folder of work of examples/bc/hunt. All inputs are run as bc's makefile built it and with AddressSanitizer; gdb looks at each crash, and gcov reads the first so many failing runs and others.
"""
import argparse
import os
import re
import shutil
import subprocess
import sys
from collections import Counter
from typing import Counter as Counts
from typing import Dict, List, NamedTuple, Optional, Sequence, Tuple

import corpus_scores
from real_bug import HERE
from real_bugs_bc import BC
from real_native import ADDRESSES, FILE_LINES, built, coverage, error_in, ran

sys.path.insert(0, os.path.join(os.path.dirname(HERE), "tools"))
from cbi_show.hunted import read_hunted  # noqa: E402

PLACES = (("storage.c", 185), ("storage.c", 172))   # the wrong line, and that of the hunt's row
FRAME = re.compile(r"^#\d+ +(?:0x[0-9a-f]+ in )?(\w+) \(.*?(?: at (.+:\d+))?$", re.MULTILINE)


class Hunted(NamedTuple):
    """A hunt of examples/bc: the folder of the source, and the inputs, each with whether it fails by the hunt."""
    source: str
    inputs: List[Tuple[str, bool]]


def hunted(work: str, count: int) -> Hunted:
    told = read_hunted(os.path.join(work, f"hunt{count}", "told.json"))
    failed = set(told.names.values())
    folder = os.path.join(work, f"inputs{count}")
    return Hunted(os.path.join(work, "bc"), [(os.path.join(folder, name), name in failed) for name in sorted(os.listdir(folder))])


def stack_of(program: str, path: str) -> List[Tuple[str, str]]:
    """The functions of the stack that gdb shows where a run ends, the innermost first, each with its place where it has one."""
    done = subprocess.run(["gdb", "-nx", "-batch", "-ex", "set width 0", "-ex", f"run <{path} >/dev/null", "-ex", "bt", program], stdin=subprocess.DEVNULL, stdout=subprocess.PIPE, stderr=subprocess.DEVNULL, check=False)
    return [(name, place) for name, place in FRAME.findall(done.stdout.decode("utf-8", "replace"))]


def own(stack: Sequence[Tuple[str, str]]) -> str:
    """A stack in a line: its innermost function, and the program's calls."""
    calls = [f"{name} ({os.path.basename(place)})" for name, place in stack if place and os.path.basename(place).split(":")[0] in {os.path.basename(file) for file in BC.files}]
    first = stack[0][0] if stack else "nothing"
    return " from ".join(([first] if not calls or not calls[0].startswith(first + " ") else []) + calls)


def counted(rows: Sequence[str]) -> List[str]:
    return [f"  {times}: {row}" for row, times in Counter(rows).most_common()]


def crashes(hunt: Hunted) -> None:
    """Runs all inputs as the makefile built bc, and looks at the stack of each crash."""
    program = os.path.join(hunt.source, "bc", "bc")
    ended = [(path, ran(program, BC, path).returncode) for path, _ in hunt.inputs]
    crashed = [path for path, status in ended if status < 0 or status >= 124]
    print(f"as its makefile builds it: {len(ended) - len(crashed)} of {len(ended)} runs end well, {len(crashed)} crash or hang; {sum(fails for _, fails in hunt.inputs)} fail by the hunt")
    if crashed and shutil.which("gdb"):
        stacks = [stack_of(program, path) for path in crashed]
        print(f"gdb at these: more_arrays is in {sum(any(name == 'more_arrays' for name, _ in stack) for stack in stacks)} of {len(stacks)} stacks", *counted([own(stack) for stack in stacks]), sep="\n")


def addresses(hunt: Hunted) -> None:
    home = built(BC, hunt.source, "addresses", ADDRESSES)
    found: Counts[Tuple[str, bool]] = Counter()
    for path, fails in hunt.inputs:
        error = error_in(ran(home, BC, path).stderr.decode("utf-8", "replace"))
        if error:
            found[f"{error[0]}, {error[1]}", fails] += 1
    print(f"AddressSanitizer stops in {sum(found.values())} of {len(hunt.inputs)} runs", *(f"  {times}: {said}, {'failing' if fails else 'other'} by the hunt" for (said, fails), times in found.most_common()), sep="\n")


def suspicious(hunt: Hunted, most_failing: int, most_others: int) -> None:
    """The first lines by Ochiai over gcov, and the places of those that matter."""
    runs = [one for one in hunt.inputs if one[1]][:most_failing] + [one for one in hunt.inputs if not one[1]][:most_others]
    cover = coverage(BC, hunt.source, [path for path, _ in runs])
    visits = corpus_scores.visits([(fails, lines) for (_, fails), lines in zip(runs, cover.runs)])
    failures = sum(fails for _, fails in runs)
    scores = corpus_scores.suspicious(corpus_scores.ochiai, cover.coded, visits, failures, len(runs) - failures)
    print(f"Ochiai over gcov, of {len(runs)} runs, {failures} of them failing, {len(cover.coded)} lines")
    for line in sorted(scores, key=lambda one: -scores[one])[:10]:
        others, failing = visits.get(line, [0, 0])
        print(f"  {place_of(scores, line)}: {cover.files[line // FILE_LINES]}:{line % FILE_LINES} in {cover.functions[line]}, {failing} failing and {others} others")
    for name, line in PLACES:
        number = next((number for number, file in enumerate(cover.files) if os.path.basename(file) == name), None)
        print(f"  {name}:{line} has the place {place_of(scores, (number or 0) * FILE_LINES + line)}")


def place_of(scores: Dict[int, float], line: int) -> str:
    """The places that a line shares with its equals."""
    if line not in scores:
        return "none"
    above, equal = sum(one > scores[line] for one in scores.values()), sum(one == scores[line] for one in scores.values())
    return f"{above + 1}" if equal == 1 else f"{above + 1} to {above + equal}"


def main(words: Optional[List[str]] = None) -> int:
    parser = argparse.ArgumentParser(description="What others say of the programs that examples/bc hunted.")
    parser.add_argument("work", metavar="WORK", help="the folder of work of examples/bc/hunt")
    parser.add_argument("--count", metavar="N", type=int, default=1000, help="how many programs were hunted (1000)")
    parser.add_argument("--failing", metavar="N", type=int, default=100, help="failing runs that gcov reads (100)")
    parser.add_argument("--others", metavar="N", type=int, default=200, help="other runs that gcov reads (200)")
    chosen = parser.parse_args(words)
    hunt = hunted(os.path.abspath(chosen.work), chosen.count)
    crashes(hunt)
    addresses(hunt)
    suspicious(hunt, chosen.failing, chosen.others)
    return 0


if __name__ == "__main__":
    sys.exit(main())
