"""What a collection of runs says: `corpus_counts.c` reads it once, and counts its lines before they come here.

Run R of a collection of the corpus is that on input R, so the first runs are those on the first inputs.
"""
import os
import subprocess
from typing import Dict, Iterator, List, NamedTuple, Optional, Sequence, Set, Tuple

COUNTER = os.path.join(os.path.dirname(os.path.abspath(__file__)), "corpus_counts.c")
LABELS = {"f": "fail", "p": "pass", "n": "none"}
HEAD = "cbi-collection 2\nprogram {}\n"
END = b"end\n"

Counters = Dict[int, List[Tuple[int, Tuple[int, ...]]]]
# Of each site and each set of its counters that were above 0, how many failing and successful runs had it.
Marks = Dict[Tuple[int, int], Tuple[int, int]]


class Tally(NamedTuple):
    """How many failing and successful runs had a predicate true, and how many of them observed it."""
    failing: int
    successful: int
    observed_failing: int
    observed_successful: int


class Tallies(NamedTuple):
    of: Dict[int, Tally]
    failures: int
    successes: int


class Narrow(NamedTuple):
    """A program with some of the sites of another one: of each site of that its number here, or none."""
    identity: str
    sites: List[Optional[int]]


class Collection(NamedTuple):
    """A file of runs: their labels, where the first one begins and each ends, and what sites the first so many had."""
    path: str
    labels: List[str]
    ends: List[int]
    marks: Dict[int, Marks]
    lines: int

    def first(self, count: int, target: str) -> str:
        """A file of the first runs alone; the collection's own where it has no others."""
        if count >= len(self.labels):
            return self.path
        with open(self.path, "rb") as source, open(target, "wb") as file:
            file.write(source.read(self.ends[count]) + END)
        return target

    def failing(self, count: int) -> Iterator[Tuple[int, bytes]]:
        """The failing ones of the first runs by their numbers, each with its lines."""
        with open(self.path, "rb") as file:
            for number, label in enumerate(self.labels[:count], 1):
                if label == "fail":
                    file.seek(self.ends[number - 1])
                    yield number, file.read(self.ends[number] - self.ends[number - 1])


def build_counter(folder: str) -> str:
    target = os.path.join(folder, "corpus_counts")
    subprocess.run(["gcc", "-std=gnu99", "-O2", "-w", "-o", target, COUNTER], check=True)
    return target


class Read(NamedTuple):
    """A collection; its runs with the sites alone whose predicates aren't all true or all false wherever they are observed; and the same of a program with fewer
    sites. A predicate that is true wherever it is observed, or nowhere, passes no test, by whatever runs: so rankings and cards of all are those of `fewer`."""
    whole: Collection
    fewer: Collection
    narrow: Collection


def counted(call: List[str], path: str) -> Tuple[Collection, List[List[str]]]:
    """What the counter says of a collection, and of each run where it ends in files with fewer sites."""
    said = subprocess.run(call, stdout=subprocess.PIPE, universal_newlines=True, check=True).stdout.split("\n")
    found = Collection(path, [], [len(HEAD.format("0" * 64))], {}, 0)
    marks: Marks = {}
    ends: List[List[str]] = []
    for words in map(str.split, said[:-1]):
        if words[0] in LABELS:
            found.labels.append(LABELS[words[0]])
            found.ends.append(int(words[1]))
            ends.append(words[2:])
        elif words[0] == "first":
            marks = found.marks[int(words[1])] = {}
        elif words[0] == "lines":
            found = found._replace(lines=int(words[1]))
        else:
            marks[int(words[0]), int(words[1])] = int(words[2]), int(words[3])
    return found, ends


def read_collection(counter: str, path: str, sites: int, counts: Sequence[int] = ()) -> Collection:
    """Reads a file of runs by the built counter, with what the first so many had, each of `counts`."""
    return counted([counter, path, str(sites), "", "", "", *map(str, sorted(counts))], path)[0]


def read_fewer(counter: str, path: str, counts: Sequence[int], narrow: Narrow) -> Read:
    """The same, and these runs with fewer sites in files beside it."""
    names = [f"{path}.fewer", f"{path}.narrow", f"{path}.sites"]
    with open(path, "r", encoding="ascii") as file:
        head = file.readline() + file.readline()
    for name, text in zip(names, (head, HEAD.format(narrow.identity), "".join("-\n" if site is None else f"{site}\n" for site in narrow.sites))):
        with open(name, "w", encoding="ascii") as file:
            file.write(text)
    whole, ends = counted([counter, path, str(len(narrow.sites)), *names, *map(str, sorted(counts))], path)
    fewer, other = (Collection(name, whole.labels, whole.ends[:1] + [int(words[place]) for words in ends], {}, 0) for place, name in enumerate(names[:2]))
    return Read(whole, fewer, other)


# How often predicates were true

def observed(marks: Marks, counters: Counters) -> int:
    """How many predicates were looked at in some run."""
    return sum(len(counters[site]) for site in {site for site, _ in marks})


def tallies(collection: Collection, count: int, counters: Counters) -> Tallies:
    """Of each predicate that was true in some of the first runs, in how many."""
    found, every = {}, collection.marks[count]
    for site, several in counters.items():
        marks = [(mask, every[site, mask]) for mask in range(1, 8) if (site, mask) in every]
        seen = [sum(counts[place] for _, counts in marks) for place in (0, 1)]
        for predicate, sums in several if marks else ():
            true = [sum(counts[place] for mask, counts in marks if any(mask >> one & 1 for one in sums)) for place in (0, 1)]
            if sum(true):
                found[predicate] = Tally(true[0], true[1], seen[0], seen[1])
    labels = collection.labels[:count]
    return Tallies(found, labels.count("fail"), labels.count("pass"))


def true_runs(collection: Collection, count: int, counters: Counters, predicates: Sequence[int]) -> List[Set[int]]:
    """Of each predicate those of the first runs that failed and in which it was true."""
    of_predicate = {number: (site, sums) for site, several in counters.items() for number, sums in several}
    wanted: Dict[bytes, List[Tuple[int, Tuple[int, ...]]]] = {}
    for place, predicate in enumerate(predicates):
        site, sums = of_predicate[predicate]
        wanted.setdefault(b"%d" % site, []).append((place, sums))
    found: List[Set[int]] = [set() for _ in predicates]
    for number, run in collection.failing(count):
        for line in run.split(b"\n")[1:-1]:
            _, name, *counts = line.split(b" ")
            for place, sums in wanted.get(name, ()):
                if any(counts[one] != b"0" for one in sums):
                    found[place].add(number)
    return found
