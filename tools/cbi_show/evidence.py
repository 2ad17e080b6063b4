"""How sure a fact is: Fisher's exact test, over inputs and not over runs. Not proved.

Runs on one input fail all or none, so another run of it is no further evidence. An input counts as one in which a fact was true where it was so in one of its runs at least.
"""
import math
from typing import Dict, FrozenSet, Hashable, Iterable, List, NamedTuple, Optional, Set

from cbi_show.files import read_collection
from cbi_show.reports import PATTERNS, Table

# From how many facts on that chance alone would make look as strong a title is doubted.
DOUBT = 0.05


class Evidence(NamedTuple):
    """In how many failing inputs and in how many others something was so, of how many."""
    failing: int
    successful: int
    all_failing: int
    all_successful: int

    def by_chance(self) -> float:
        return by_chance(*self)


def log_choose(whole: int, part: int) -> float:
    return math.lgamma(whole + 1) - math.lgamma(part + 1) - math.lgamma(whole - part + 1)


def by_chance(failing: int, successful: int, all_failing: int, all_successful: int) -> float:
    """How likely it is that a fact which has nothing to do with failing is true of so many that fail (Fisher's exact test, one side): a draw of as many as it is true
    of, out of all, has at least so many failing ones."""
    true = failing + successful
    every = log_choose(all_failing + all_successful, true)
    return min(1.0, math.fsum(math.exp(log_choose(all_failing, hits) + log_choose(all_successful, true - hits) - every)
                              for hits in range(failing, min(all_failing, true) + 1) if true - hits <= all_successful))


class Event(NamedTuple):
    """What may be seen in a run: `pieces` are the sites with their patterns that it is true by, and `sites` those at which it is looked for."""
    pieces: FrozenSet[int]
    sites: FrozenSet[int]


def event_of(table: Table, predicate: int) -> Event:
    return Event(table.pieces_of(predicate), frozenset([table.sites[predicate].number]))


def event_at(sites: Iterable[int]) -> Event:
    """That one of these sites was seen."""
    numbers = frozenset(sites)
    return Event(frozenset(site * PATTERNS + pattern for site in numbers for pattern in range(PATTERNS)), numbers)


class Looked(NamedTuple):
    """A run that failed or succeeded: a bit for each event, whether it was so and whether it was looked for."""
    run: int
    input: int
    failed: bool
    true: int
    seen: int


class Looks:
    """Where inputs have several runs: which of these events were so in which run."""

    def __init__(self, collection: str, events: Dict[Hashable, Event], inputs: int):
        self.bits = {key: 1 << place for place, key in enumerate(events)}
        self.runs: List[Looked] = []
        at: Dict[int, List[Hashable]] = {}
        for key, event in events.items():
            for site in event.sites:
                at.setdefault(site, []).append(key)
        for run in read_collection(collection):
            if run.label not in ("fail", "pass"):
                continue
            true = seen = 0
            for site in at.keys() & run.sites.keys():
                less, equal, greater = run.sites[site]
                piece = site * PATTERNS + (less > 0) + 2 * (equal > 0) + 4 * (greater > 0)
                for key in at[site]:
                    seen |= self.bits[key]
                    true |= self.bits[key] if piece in events[key].pieces else 0
            self.runs.append(Looked(run.number, (run.number - 1) % inputs, run.label == "fail", true, seen))

    def evidence(self, key: Hashable, runs: Optional[Iterable[Looked]] = None, among_seen: bool = False) -> Evidence:
        """By inputs, over all runs or over these; among those that looked, where it is said."""
        bit = self.bits[key]
        sets: List[Set[int]] = [set(), set(), set(), set()]
        for run in self.runs if runs is None else runs:
            if not among_seen or run.seen & bit:
                sets[2 if run.failed else 3].add(run.input)
            if run.true & bit:
                sets[0 if run.failed else 1].add(run.input)
        return Evidence(*map(len, sets))

    def both(self, left: Hashable, right: Hashable) -> Evidence:
        """By inputs, that two events were so in one run, among the inputs of which a run says whether they were: both, or one that was looked for and wasn't so."""
        pair = self.bits[left] | self.bits[right]
        sets: List[Set[int]] = [set(), set(), set(), set()]
        for run in self.runs:
            true = run.true & pair == pair
            if true or run.seen & ~run.true & pair:
                sets[2 if run.failed else 3].add(run.input)
            if true:
                sets[0 if run.failed else 1].add(run.input)
        return Evidence(*map(len, sets))

    def without(self, taken: Set[int]) -> List[Looked]:
        return [run for run in self.runs if run.run not in taken]

    def behind(self, rows: List[Hashable], policy: str) -> List[Evidence]:
        """The evidence of each row of a ranking, among the runs that those before it left: set aside all or the failing ones, or counted as successful."""
        left, found = list(self.runs), []
        for key in rows:
            found.append(self.evidence(key, left, True))
            bit = self.bits[key]
            if policy == "relabel":
                left = [run._replace(failed=run.failed and not run.true & bit) for run in left]
            else:
                left = [run for run in left if not run.true & bit or policy == "failing" and not run.failed]
        return found
