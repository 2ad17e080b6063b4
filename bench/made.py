"""What the scripts beside this file share: programs, collections and edits that are made, and the rule by which predicates are ranked."""
import hashlib
import random
from typing import Callable, Dict, Iterable, Iterator, List, NamedTuple, Optional, Tuple

HEADER = "rank,predicate,scheme,function,line,text,f,s,fobs,sobs,failure,context,increase,importance"

# Of a predicate: the failing and the successful runs in which it was true, and those in which it was looked at.
Numbers = Tuple[int, int, int, int]
# The sites that a run saw, and at each whether its condition was true.
Seen = Dict[int, bool]


def program(sites: int) -> str:
    """The text of a program with branches alone."""
    rows = ["cbi-program 1", "texts 0", "globals 0", "functions 1", "function main value 0 0 2", "main 0", f"sites {sites}"]
    rows += [f"site branch 0 {number + 1} {number} if" for number in range(sites)]
    return "\n".join(rows + ["locals", "push i 0 1", "return", "end", ""])


def write(path: str, parts: Iterable[str]) -> str:
    """Writes a file of these parts; its path."""
    with open(path, "w", encoding="ascii") as out:
        out.writelines(parts)
    return path


def write_program(path: str, sites: int) -> str:
    """Writes the program's file; its identity."""
    text = program(sites)
    write(path, [text])
    return hashlib.sha256(text.encode("ascii")).hexdigest()


def fails(run: int) -> bool:
    """Each tenth run fails."""
    return run % 10 == 0


def ending_of(run: int) -> Tuple[str, str]:
    """The outcome and the label of a run."""
    return ("trapped 6", "fail") if fails(run) else ("ended 0", "pass")


def run_line(run: int, work: int = 0) -> str:
    outcome, label = ending_of(run)
    return f"run {run} {outcome} label {label} work {work} 0 0\n"


def site_lines(seen: Seen) -> str:
    return "".join(f"site {site} {int(seen[site])} {int(not seen[site])} 0\n" for site in sorted(seen))


def collection(identity: str, runs: Iterable[str]) -> Iterator[str]:
    """The parts of a collection of these runs."""
    yield f"cbi-collection 2\nprogram {identity}\n"
    yield from runs
    yield "end\n"


def write_collection(path: str, identity: str, runs: int, see: Callable[[random.Random, bool], Seen]) -> None:
    """Writes a collection of as many runs; `see` gives what a run sees, of which it is told whether it fails."""
    chance = random.Random(1)
    write(path, collection(identity, (run_line(run) + site_lines(see(chance, fails(run))) for run in range(1, runs + 1))))


def seen_with_cause(chance: random.Random, failing: bool, sites: int, entries: int, causes: int) -> Seen:
    """What a run sees where the first sites are the causes: one of them is true in a failing run, and none in another."""
    seen = set(chance.sample(range(sites), entries - 1))
    cause = chance.randrange(causes) if failing else None
    if cause is not None:
        seen.add(cause)
    return {site: site == cause or (site >= causes and chance.random() < 0.5) for site in sorted(seen)}


def sites_of(program_path: str) -> int:
    """How many sites a program file has."""
    with open(program_path, encoding="ascii") as text:
        return int(next(line for line in text if line.startswith("sites ")).split()[1])


class Entries(NamedTuple):
    """A collection by columns: of each run its number and whether it fails, and of each of its site lines the run's place, the site, and which counters are positive."""

    names: List[int]
    fails: List[bool]
    run_of: List[int]
    site_of: List[int]
    true_of: List[bool]
    false_of: List[bool]


def read_entries(path: str) -> Entries:
    """Reads a collection."""
    held = Entries([], [], [], [], [], [])
    with open(path, encoding="ascii") as text:
        for line in text:
            words = line.split()
            if words[0] == "run":
                held.names.append(int(words[1]))
                held.fails.append("fail" in words)
            elif words[0] == "site":
                held.run_of.append(len(held.fails) - 1)
                held.site_of.append(int(words[1]))
                held.true_of.append(words[2] != "0")
                held.false_of.append(words[3] != "0")
    return held


def log_of(number: int) -> int:
    """The logarithm of base 2 in sixteen binary places, by repeated squaring of a mantissa of 62 places."""
    if number == 0:
        return 0
    exponent = number.bit_length() - 1
    mantissa, places = number << (62 - exponent), 0
    for _ in range(16):
        square = mantissa * mantissa >> 62
        reaches = square >= 1 << 63
        places = places * 2 + reaches
        mantissa = square >> 1 if reaches else square
    return exponent * 65536 + places


def importance(numbers: Numbers, failing: int) -> Tuple[int, int]:
    """The importance of a predicate, as a fraction."""
    a, b, c, d = numbers
    top, bottom = a * d - b * c, (a + b) * (c + d)
    own, whole = log_of(a), log_of(failing)
    return (0, 1) if own == 0 or whole == 0 else (2 * top * own, top * whole + own * bottom)


def passes(numbers: Numbers) -> bool:
    """Whether a predicate's numbers pass the test of its increase."""
    a, b, c, d = numbers
    surplus = a * d - b * c
    return surplus > 0 and 38416 * (a * (c - a) * d**3 + b * (d - b) * c**3) < surplus**2 * c * d * 10000


class Leader(NamedTuple):
    """The predicate of the greatest importance, with that as a fraction, and its numbers."""

    top: int
    bottom: int
    predicate: int
    numbers: Numbers


def leader(rated: Iterable[Tuple[int, Numbers]], failing: int) -> Optional[Leader]:
    """The leader of those that pass; of equal ones the one with the least number."""
    best = None
    for predicate, numbers in sorted(rated):
        if passes(numbers):
            top, bottom = importance(numbers, failing)
            if best is None or top * best.bottom > best.top * bottom:
                best = Leader(top, bottom, predicate, numbers)
    return best


def text_of(predicate: int) -> str:
    return "if is " + ("true", "false")[predicate % 2]


def row_of(rank: int, best: Leader) -> str:
    """The row of a leader in a ranking."""
    top, bottom, predicate, (a, b, c, d) = best
    shares = [1000000 * x // y for x, y in ((a, a + b), (c, c + d), (a * d - b * c, (a + b) * (c + d)), (top, bottom))]
    return ",".join(str(word) for word in [rank, predicate, "branches", "main", predicate // 2 + 1, text_of(predicate), a, b, c, d, *shares])
