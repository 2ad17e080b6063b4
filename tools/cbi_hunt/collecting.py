"""Makes one collection of all batches, or of a sample of the runs where a collection holds no more. Not proved."""
import hashlib
import os
import tempfile
from typing import List, NamedTuple, Optional, Set

from cbi_hunt.kept import Kept
from cbi_hunt.runs import Batch, Plan
from cbi_show.calls import call_to
from cbi_show.hunted import Sample

MOST_RUNS = 100000        # of a collection
MOST_MARKS = 16777216     # site lines of a collection
FILES_A_CALL = 500        # of one `cbi collect`
FAILING = 10              # one in so many ranked runs is a failing one, where there are as many


def key_of(seed: int, run: int) -> bytes:
    """A run's place in the sample: it goes by the seed and the number alone, so it is the same in every call."""
    return hashlib.sha256(f"{seed} {run}".encode("ascii")).digest()


class Mark(NamedTuple):
    """A run: its number, how many site lines it has, and whether it failed."""
    run: int
    sites: int
    failed: bool


class Drawn(NamedTuple):
    """The runs of a sample, and what is told of them."""
    runs: Set[int]
    told: Sample


def sample_of(marks: List[Mark], seed: int) -> Optional[Drawn]:
    """The runs that are ranked where a collection doesn't hold all: as many as fit in the order of their keys, so an even sample. Where fewer than a tenth of
    these failed, failing runs are taken first, up to a tenth, and the others evenly. None where all fit."""
    if len(marks) <= MOST_RUNS and sum(mark.sites for mark in marks) <= MOST_MARKS:
        return None
    order = sorted(marks, key=lambda mark: key_of(seed, mark.run))
    drawn = even = fitting(order)
    failing = [mark for mark in order if mark.failed]
    wanted = min(len(failing), len(even) // FAILING)
    if sum(mark.failed for mark in even) < wanted:
        drawn = fitting(failing[:wanted] + [mark for mark in order if not mark.failed])
    kept = sum(mark.failed for mark in drawn)
    return Drawn({mark.run for mark in drawn}, Sample(kept, len(failing), len(drawn) - kept, len(marks) - len(failing), drawn is even))


def fitting(order: List[Mark]) -> List[Mark]:
    """The first of them, as many as a collection holds."""
    total, found = 0, []
    for mark in order[:MOST_RUNS]:
        total += mark.sites
        if total > MOST_MARKS:
            break
        found.append(mark)
    return found


def sampled_copy(source: str, target: str, sample: Set[int]) -> int:
    """A collection with the runs of the sample alone, and how many these are."""
    kept, count = True, 0
    with open(source, "rb") as lines, open(target, "wb") as out:
        for line in lines:
            if line.startswith(b"run "):
                kept = int(line.split(b" ", 2)[1]) in sample
                count += kept
            elif line == b"end\n":
                kept = True
            if kept:
                out.write(line)
    return count


def collect(plan: Plan, kept: Kept, batches: List[Batch], sample: Optional[Set[int]]) -> None:
    """Merges the batches into one collection, as a tree, so that no call has too many files."""
    with tempfile.TemporaryDirectory(prefix="merge-", dir=kept.folder) as folder:
        paths = [kept.batch_path(batch) for batch in batches]
        if sample is not None:
            copies = [os.path.join(folder, f"sampled{number}") for number in range(len(paths))]
            paths = [copy for path, copy in zip(paths, copies) if sampled_copy(path, copy, sample)]
        level = 0
        while len(paths) > FILES_A_CALL:
            groups = [paths[start:start + FILES_A_CALL] for start in range(0, len(paths), FILES_A_CALL)]
            merged = [os.path.join(folder, f"merged{level}.{number}") for number in range(len(groups))]
            for target, group in zip(merged, groups):
                merge(plan, target, group)
            paths, level = merged, level + 1
        merge(plan, kept.path("runs"), paths)


def merge(plan: Plan, target: str, paths: List[str]) -> None:
    call_to(target, [plan.cbi, "collect", f"--program={plan.program}", "--"] + paths)
