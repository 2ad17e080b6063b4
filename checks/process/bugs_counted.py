"""Suspicious lines and bugs by plain counting: each number anew from the runs, each strength as a fraction. It shares nothing with what is compared with it."""
from fractions import Fraction
from typing import Dict, FrozenSet, List, NamedTuple, Set, Tuple

MILLION = 1000000
# A bug's further places stand more than so many lines apart.
APART = 3
# Which scheme goes first where all else is equal.
SCHEMES = ("branch", "return", "pair")
# What the predicates of a site say, and the counters of which one is positive where that is true.
TRUTHS = (("true", {0}), ("false", {1}))
RELATIONS = (("<", {0}), ("<=", {0, 1}), (">", {2}), (">=", {1, 2}), ("==", {1}), ("!=", {0, 2}))

Counters = Tuple[int, int, int]


class Predicate(NamedTuple):
    """A predicate: its number, its site and that site's scheme, its place, its text, and the counters of which one is positive where it is true."""

    number: int
    site: int
    scheme: str
    function: str
    line: int
    text: str
    counters: FrozenSet[int]


class Run(NamedTuple):
    """A run that failed or passed, with the counters of the sites that it observed."""

    number: int
    fails: bool
    sites: Dict[int, Counters]

    def observes(self, predicate: Predicate) -> bool:
        return predicate.site in self.sites

    def has_true(self, predicate: Predicate) -> bool:
        return self.observes(predicate) and any(self.sites[predicate.site][counter] for counter in predicate.counters)


class Counted(NamedTuple):
    """A predicate with the failing and the passing runs in which it is true, those in which its site is observed, and its strength."""

    predicate: Predicate
    a: int
    b: int
    c: int
    d: int
    strength: Fraction

    @property
    def place(self) -> Tuple[str, int]:
        return self.predicate.function, self.predicate.line

    @property
    def millionths(self) -> int:
        return self.strength.numerator * MILLION // self.strength.denominator


def read_predicates(program: str) -> List[Predicate]:
    """The predicates of a program file."""
    rows = [line.split() for line in program.splitlines()]
    names = [row[1] for row in rows if row[0] == "function"]
    found: List[Predicate] = []
    for site, row in enumerate(row for row in rows if row[0] == "site"):
        scheme, function, line = row[1], names[int(row[2])], int(row[3])
        for word, counters in TRUTHS if scheme == "branch" else RELATIONS:
            text = f"{row[5]} is {word}" if scheme == "branch" else f"{row[5]} {word} {row[7] if scheme == 'pair' else 0}"
            found.append(Predicate(len(found), site, scheme, function, line, text, frozenset(counters)))
    return found


def read_runs(collection: str) -> List[Run]:
    """The runs of a collection that failed or passed."""
    runs: List[Run] = []
    sites: Dict[int, Counters] = {}
    for row in (line.split() for line in collection.splitlines()):
        if row[0] == "run":
            sites = {}
            label = row[row.index("label") + 1]
            if label in ("fail", "pass"):
                runs.append(Run(int(row[1]), label == "fail", sites))
        elif row[0] == "site":
            sites[int(row[1])] = (int(row[2]), int(row[3]), int(row[4]))
    return runs


def strength(a: int, b: int, failing: int, passing: int) -> Fraction:
    """The square of the coefficient of correlation of failing with a predicate's truth, 0 where it isn't positive or isn't defined."""
    runs, true = failing + passing, a + b
    above = max(0, a * passing - b * failing)
    below = failing * passing * true * (runs - true)
    return Fraction(above * above, below) if below else Fraction(0)


def counted(predicate: Predicate, failing: List[Run], passing: List[Run]) -> Counted:
    a, b = (sum(run.has_true(predicate) for run in runs) for runs in (failing, passing))
    c, d = (sum(run.observes(predicate) for run in runs) for runs in (failing, passing))
    return Counted(predicate, a, b, c, d, strength(a, b, len(failing), len(passing)))


def best_first(predicates: List[Predicate], failing: List[Run], passing: List[Run]) -> List[Counted]:
    """The predicates that are true in a failing run, the best first."""
    found = [it for it in (counted(predicate, failing, passing) for predicate in predicates) if it.a]
    return sorted(found, key=lambda it: (-it.strength, -it.a, -it.c - it.d, SCHEMES.index(it.predicate.scheme), it.predicate.number))


def thinned(found: List[Counted], apart: int) -> List[Counted]:
    """These without each that has one of its function at most so many lines apart before it, so with one for each place at most."""
    kept: List[Counted] = []
    for it in found:
        if not any(it.place[0] == other.place[0] and abs(it.place[1] - other.place[1]) <= apart for other in kept):
            kept.append(it)
    return kept


def lines_of(program: str, collection: str, most: int = 10, apart: int = 3) -> str:
    """The text of suspicious lines."""
    runs = read_runs(collection)
    failing, passing = [run for run in runs if run.fails], [run for run in runs if not run.fails]
    found = best_first(read_predicates(program), failing, passing)
    places: Set[Tuple[str, int]] = {it.place for it in found}
    text = [f"lines {len(failing)} {len(passing)} {len(places)}"]
    for number, it in enumerate(thinned(found, apart)[:most], 1):
        text.append(f"line {number} {it.predicate.number} {it.place[0]} {it.place[1]} {it.a} {it.b} {it.c} {it.d} {it.millionths} {it.predicate.text}")
    return "\n".join([*text, "end", ""])


def bugs_of(program: str, collection: str, most: int = 10, also: int = 3) -> str:
    """The text of bugs."""
    runs, predicates = read_runs(collection), read_predicates(program)
    live, passing = [run for run in runs if run.fails], [run for run in runs if not run.fails]
    text = [f"bugs {len(live)} {len(passing)}"]
    for number in range(1, most + 1):
        found = best_first(predicates, live, passing)
        if not found:
            break
        best, *others = thinned(found, APART)[:also]
        own = [run.number for run in live if run.has_true(best.predicate)]
        text.append(f"bug {number} {best.predicate.number} {best.place[0]} {best.place[1]} {best.a} {best.b} {best.c} {best.d} {best.millionths} first {min(own)} {best.predicate.text}")
        text += [f"also {it.place[0]} {it.place[1]} {it.a} {it.b} {it.millionths} {it.predicate.text}" for it in others]
        live = [run for run in live if run.number not in own]
    return "\n".join([*text, f"rest {len(live)}", "end", ""])
