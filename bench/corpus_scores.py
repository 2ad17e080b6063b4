"""How far each way of pointing is from a fault.

A way gives places (lines) in an order. A fault is found by line where a place is one of its lines, near where a place is within five lines
of one, and by function where a place is in its function. Where a fault's line has no code, the lines with code before and behind it stand for it.
"""
import math
import random
from collections import Counter
from functools import lru_cache
from statistics import mean, median_high
from typing import Callable, Dict, FrozenSet, Iterable, Iterator, List, NamedTuple, Optional, Sequence, Set, Tuple

from corpus_collections import Tallies, Tally

NEAR = 5
APART = 3  # lines of a function that one line of a thinned list stands for, on each side
QUANTILE = 1.96
SHUFFLES = 5


class Place(NamedTuple):
    """Where a row points; `line` is None where that is no line of the program as its author has it."""
    line: Optional[int]
    function: str
    text: str
    failing: int
    successful: int
    predicate: int
    importance: int = 0


class Target(NamedTuple):
    """The lines of a fault, those around them, and its function's, all with code."""
    lines: Set[int]
    near: Set[int]
    function: Set[int]


class Found(NamedTuple):
    """The place of the first row or line that is right, from 1; None where none is.

    `walk` and `alone` are shares of the lines with code that are looked at until a line of the fault: `walk` goes on at each place to the lines
    around it, the same for rows and for lists of lines, and `alone` takes the lines of a list one by one, which rows don't allow."""
    line: Optional[float]
    near: Optional[float]
    function: Optional[float]
    walk: Optional[float] = None
    alone: Optional[float] = None


class Right(NamedTuple):
    """How many lines have code, and how many of these are lines of the fault, near it, and in its function."""
    coded: int
    line: int
    near: int
    function: int


def target_of(changed: Iterable[int], coded: Sequence[int], functions: Dict[int, str]) -> Target:
    lines: Set[int] = set()
    for line in changed:
        if line in coded:
            lines.add(line)
            continue
        before = [one for one in coded if one < line]
        behind = [one for one in coded if one > line]
        lines.update(before[-1:] + behind[:1])
    named = {functions[line] for line in changed if line in functions}
    near = {one for one in coded if any(abs(one - line) <= NEAR for line in changed)} | lines
    return Target(lines, near, {one for one in coded if functions.get(one) in named} | lines)


# Rows

def first_of(places: Sequence[Place], wanted: Callable[[int], bool]) -> Optional[float]:
    for number, place in enumerate(places, 1):
        if place.line is not None and wanted(place.line):
            return float(number)
    return None


def found_by_rows(places: Sequence[Place], target: Target, coded: Sequence[int], changed: Sequence[int], functions: Dict[int, str]) -> Found:
    named = {functions[line] for line in changed if line in functions}
    return Found(first_of(places, lambda line: line in target.lines or line in changed),
                 first_of(places, lambda line: line in target.near or any(abs(line - one) <= NEAR for one in changed)),
                 first_of(places, lambda line: functions.get(line) in named),
                 walked([place.line for place in places if place.line is not None], target.lines, coded, surroundings(coded)))


def surroundings(coded: Sequence[int]) -> Dict[int, List[int]]:
    return surrounded(tuple(coded))


@lru_cache(maxsize=4)
def surrounded(coded: Tuple[int, ...]) -> Dict[int, List[int]]:
    """The lines with code around each line up to the last, the nearest first."""
    found: Dict[int, List[int]] = {}
    for line in range(1, max(coded) + NEAR + 1):
        near = [one for one in coded if abs(one - line) <= NEAR]
        found[line] = sorted(near, key=lambda one: (abs(one - line), one))
    return found


def walked(order: Iterable[int], wanted: Set[int], coded: Sequence[int], around: Dict[int, List[int]]) -> float:
    """The share of lines with code that are looked at until a wanted one, going by an order of lines and at each by those around it;
    behind the end of the order the rest is looked at by chance."""
    looked: Set[int] = set()
    for line in order:
        for near in around.get(line, []):
            looked.add(near)
            if near in wanted:
                return len(looked) / len(coded)
    rest = len(coded) - len(looked)
    return (len(looked) + (rest + 1) / (len(wanted) + 1)) / len(coded)


# Lines by how suspicious they are

def tarantula(failing: int, successful: int, failures: int, successes: int) -> float:
    bad = failing / failures if failures else 0.0
    good = successful / successes if successes else 0.0
    return bad / (bad + good) if bad + good else 0.0


def ochiai(failing: int, successful: int, failures: int, successes: int) -> float:
    below = math.sqrt(failures * (failing + successful))
    return failing / below if below else 0.0


def dstar(failing: int, successful: int, failures: int, successes: int) -> float:
    below = successful + failures - failing
    return failing * failing / below if below else math.inf if failing else 0.0


FORMULAS: Dict[str, Callable[[int, int, int, int], float]] = {"Tarantula": tarantula, "Ochiai": ochiai, "DStar": dstar}


def visits(runs: Iterable[Tuple[bool, FrozenSet[int]]]) -> Dict[int, List[int]]:
    """Of each line, how many successful and how many failing runs came to it."""
    found: Dict[int, List[int]] = {}
    for (failed, lines), times in Counter(runs).items():
        for line in lines:
            found.setdefault(line, [0, 0])[failed] += times
    return found


def suspicious(formula: Callable[[int, int, int, int], float], coded: Sequence[int], found: Dict[int, List[int]], failures: int,
               successes: int) -> Dict[int, float]:
    """How suspicious each line is, by how many successful and failing runs came to it."""
    scores = {}
    for line in coded:
        successful, failing = found.get(line, (0, 0))
        scores[line] = formula(failing, successful, failures, successes)
    return scores


def expected(scores: Dict[int, float], wanted: Set[int]) -> Optional[float]:
    """The place of the first wanted line where equals stand in an order by chance."""
    there = [line for line in wanted if line in scores]
    if not there:
        return None
    best = max(scores[line] for line in there)
    above = sum(score > best for score in scores.values())
    equal = sum(score == best for score in scores.values())
    right = sum(scores[line] == best for line in there)
    return above + (equal + 1) / (right + 1)


def found_by_lines(scores: Dict[int, float], target: Target, coded: Sequence[int]) -> Found:
    """By a list of lines; a line that isn't in it stands behind it, where the order is by chance."""
    every = {**{line: -math.inf for line in coded}, **scores}
    alone = expected(every, target.lines)
    return Found(expected(scores, target.lines), expected(scores, target.near), expected(scores, target.function),
                 walked_by_lines(scores, target, coded), None if alone is None else alone / len(every))


def orders(scores: Dict[int, float], coded: Sequence[int]) -> Iterator[List[int]]:
    """Some orders of the lines by how suspicious they are, in each of which equals stand by chance."""
    chance = random.Random(1)
    for _ in range(SHUFFLES):
        order = list(coded)
        chance.shuffle(order)
        yield sorted((line for line in order if line in scores), key=lambda line: -scores[line])


def walked_by_lines(scores: Dict[int, float], target: Target, coded: Sequence[int]) -> float:
    """As `walked`, by lines and those around them: the mean of some orders."""
    around = surroundings(coded)
    return mean(walked(order, target.lines, coded, around) for order in orders(scores, coded))


def thinned(order: Iterable[int], functions: Dict[int, str]) -> List[int]:
    """The lines of an order without those that have one of their function before them in the list, at most three lines away."""
    kept: List[int] = []
    for line in order:
        if not any(abs(line - one) <= APART and functions.get(line) == functions.get(one) for one in kept):
            kept.append(line)
    return kept


def found_by_thinned(scores: Dict[int, float], target: Target, coded: Sequence[int], functions: Dict[int, str]) -> Found:
    """By a thinned list; where equals make several, the median of some."""
    several = [thinned(order, functions) for order in orders(scores, sorted({*coded, *scores}))]

    def place(wanted: Set[int]) -> Optional[float]:
        middle = median_high([next((number for number, line in enumerate(order, 1) if line in wanted), math.inf) for order in several])
        return None if middle == math.inf else float(middle)

    return Found(place(target.lines), place(target.near), place(target.function))


# Lines by chance

def right_lines(target: Target, coded: Sequence[int]) -> Right:
    return Right(len(coded), len(target.lines), len(target.near), len(target.function))


def within_by_chance(right: int, coded: int, most: int) -> float:
    """How likely one of so many lines, drawn by chance out of all with code, is a right one: 1 - C(coded - right, most) / C(coded, most)."""
    drawn = min(most, coded)
    return 1 - math.comb(coded - right, drawn) / math.comb(coded, drawn)


# Predicates without elimination

def increase(t: Tally) -> float:
    return t.failing / (t.failing + t.successful) - t.observed_failing / (t.observed_failing + t.observed_successful) if t.failing + t.successful else 0.0


def passes(t: Tally) -> bool:
    """The test of docs/METHOD.md."""
    a, b, c, d = t
    return a * d > b * c and (a * d - b * c) ** 2 * c * d * 10000 > 38416 * (a * (c - a) * d ** 3 + b * (d - b) * c ** 3)


def importance(t: Tally, failures: int) -> float:
    if not passes(t) or t.failing < 2 or failures < 2:
        return 0.0
    return 2 / (1 / increase(t) + math.log(failures) / math.log(t.failing))


def by_increase(found: Tallies) -> List[int]:
    """The predicates that pass, by falling Increase and then by how many failing runs they have."""
    passing = [predicate for predicate, tally in found.of.items() if passes(tally)]
    return sorted(passing, key=lambda predicate: (-increase(found.of[predicate]), -found.of[predicate].failing, predicate))


def by_importance(found: Tallies) -> List[int]:
    """The same by falling Importance."""
    passing = [predicate for predicate, tally in found.of.items() if passes(tally)]
    return sorted(passing, key=lambda predicate: (-importance(found.of[predicate], found.failures), predicate))


def strength(failing: int, successful: int, failures: int, successes: int) -> float:
    """The chi-square of a fact and failing, over the number of runs: 1 where the fact is true in all failing and in no other runs; 0 where it is no sign of failing."""
    true, ahead = failing + successful, failing * successes - successful * failures
    below = failures * successes * true * (failures + successes - true)
    return ahead * ahead / below if ahead > 0 and below else 0.0


def by_line(found: Tallies, lines: Dict[int, Optional[int]]) -> Dict[str, Dict[int, float]]:
    """Each line with a predicate, three ways: by Ochiai of how often failing runs came to it, and by Ochiai and by chi-square of its best predicate's truth."""
    ways: Dict[str, Dict[int, float]] = {"reach": {}, "truth": {}, "chi": {}}
    for predicate, tally in found.of.items():
        line = lines[predicate]
        if line is None:
            continue
        whole = found.failures, found.successes
        scored = (("reach", ochiai(tally.observed_failing, tally.observed_successful, *whole)), ("truth", ochiai(tally.failing, tally.successful, *whole)),
                  ("chi", strength(tally.failing, tally.successful, *whole)))
        for way, score in scored:
            ways[way][line] = max(ways[way].get(line, 0.0), score)
    return ways
