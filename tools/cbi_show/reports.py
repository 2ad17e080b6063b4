"""What the runs of a collection saw, as a table of sites; and which bug of those that `cbi bugs` lists a failing run belongs to. Not proved.

Only runs that failed or succeeded count.
"""
from array import array
from typing import Dict, FrozenSet, Iterable, List, NamedTuple, Tuple

from cbi_show.bugs import Also, Bugs, Found
from cbi_show.files import Fault, Program, Run, Site

MILLION = 1000000
PATTERNS = 8      # of three counters, each of which moved or not

Counts = Tuple[int, int, int, int]
Moved = Dict[int, List[int]]


class Round(NamedTuple):
    """A bug with the numbers of its own failing runs, of which `live` were left when it was found, and with its further places."""
    leader: Found
    live: int
    runs: List[int]
    also: List[Found]


def strength_of(a: int, b: int, failing: int, successful: int) -> int:
    """The strength of a predicate that is true in so many of the failing and of the other runs, as docs/METHOD.md has it: in millionths, rounded down."""
    e, divisor = max(0, a * successful - b * failing), failing * successful * (a + b) * (failing + successful - a - b)
    return e * e * MILLION // divisor if divisor else 0


class Table:
    """Runs as a table: for each site in how many failing and other runs which of its counters moved. `left_out` are sites whose predicates aren't asked for."""

    def __init__(self, program: Program, left_out: FrozenSet[int] = frozenset()):
        self.program, self.left_out = program, left_out
        self.failing: List[Tuple[int, "array[int]"]] = []
        self.successful = 0
        self.failed: Moved = {}
        self.passed: Moved = {}
        self.facts: Dict[int, List[Tuple[int, str, List[int]]]] = {}
        self.sites: Dict[int, Site] = {}
        self.named: Dict[Tuple[str, int, str], List[int]] = {}
        for number, (site, text, counters) in program.numbered().items():
            self.sites[number] = site
            self.named.setdefault((site.function, site.line, text), []).append(number)
            patterns = [pattern for pattern in range(PATTERNS) if any(pattern >> counter & 1 for counter in counters)]
            self.facts.setdefault(site.number, []).append((number, text, patterns))

    def add(self, run: Run) -> None:
        """Takes a run in, which counts where it failed or succeeded."""
        if run.label not in ("fail", "pass"):
            return
        moved = array("I", (site * PATTERNS + (less > 0) + 2 * (equal > 0) + 4 * (greater > 0) for site, (less, equal, greater) in run.sites.items()))
        if run.label == "fail":
            self.failing.append((run.number, moved))
        else:
            self.successful += 1
        self.count(self.failed if run.label == "fail" else self.passed, moved, 1)

    def count(self, table: Moved, moved: "array[int]", by: int) -> None:
        for piece in moved:
            site, pattern = divmod(piece, PATTERNS)
            if site not in table:
                table[site] = [0] * PATTERNS
            table[site][pattern] += by

    def patterns_of(self, predicate: int) -> List[int]:
        """The patterns of its site in which a predicate is true."""
        return next(patterns for number, _, patterns in self.facts[self.sites[predicate].number] if number == predicate)

    def pieces_of(self, predicate: int) -> FrozenSet[int]:
        """A predicate as what a run has that it is true in: one of these."""
        site = self.sites[predicate].number
        return frozenset(site * PATTERNS + pattern for pattern in self.patterns_of(predicate))

    def runs_with(self, predicates: Iterable[int]) -> Dict[int, List[int]]:
        """For each of these predicates the numbers of the failing runs in which it is true, in their order."""
        pieces = {predicate: self.pieces_of(predicate) for predicate in predicates}
        found: Dict[int, List[int]] = {predicate: [] for predicate in pieces}
        for number, moved in sorted(self.failing) if pieces else []:
            here = frozenset(moved)
            for predicate, wanted in pieces.items():
                if not wanted.isdisjoint(here):
                    found[predicate].append(number)
        return found

    def within(self, runs: Iterable[int]) -> Moved:
        """For each site in how many of these failing runs which of its counters moved."""
        wanted, table = frozenset(runs), {}  # type: FrozenSet[int], Moved
        for number, moved in self.failing:
            if number in wanted:
                self.count(table, moved, 1)
        return table

    def counts_of(self, predicate: int) -> Counts:
        """a, b, c and d over all runs."""
        return self.counts_in(self.failed, predicate)

    def counts_in(self, failed: Moved, predicate: int) -> Counts:
        """The same, where `failed` counts the failing runs that are asked about."""
        site, none, patterns = self.sites[predicate].number, [0] * PATTERNS, self.patterns_of(predicate)
        failing, passing = failed.get(site, none), self.passed.get(site, none)
        return sum([failing[pattern] for pattern in patterns]), sum([passing[pattern] for pattern in patterns]), sum(failing), sum(passing)

    # Bugs

    def rounds(self, bugs: Bugs) -> List[Round]:
        """The bugs with their own runs: of the failing runs that no bug above has, those in which its predicate is true."""
        live, left = {site: list(moved) for site, moved in self.failed.items()}, dict(self.failing)
        found: List[Round] = []
        for bug in bugs.bugs:
            pieces = self.pieces_of(bug.leader.predicate) if bug.leader.predicate in self.sites else frozenset()
            own = sorted(number for number, moved in left.items() if not pieces.isdisjoint(moved))
            if (len(own), own[:1]) != (bug.leader.a, [bug.first]):
                raise Fault("the bugs aren't of these reports: cbi bugs lists those of a collection")
            found.append(Round(bug.leader, len(left), own, [self.placed(one, live) for one in bug.also]))
            for number in own:
                self.count(live, left.pop(number), -1)
        return found

    def placed(self, also: Also, live: Moved) -> Found:
        """A further place with its predicate: of those with this text there, the one that is true in as many runs; of several such the one whose site was observed in most."""
        there = self.named.get((also.function, also.line, also.text), [])
        counted = {predicate: self.counts_in(live, predicate) for predicate in there if self.sites[predicate].number not in self.left_out}
        fitting = [predicate for predicate, (a, b, _, _) in counted.items() if (a, b) == (also.a, also.b)]
        if not fitting:
            raise Fault("the bugs aren't of these reports: cbi bugs lists those of a collection")
        best = max(fitting, key=lambda predicate: (sum(counted[predicate][2:]), -predicate))
        return Found(best, also.function, also.line, *counted[best], also.strength, also.text)
