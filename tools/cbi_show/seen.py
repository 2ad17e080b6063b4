"""What a collection says beside its ranking: bugs and suspicious lines, how runs ended, which runs a row is about, and where failing runs go. Not proved.

A collection is read once, run after run; a second time where inputs have several runs, since tests count inputs.
"""
from collections import Counter
from typing import Counter as Counts
from typing import Dict, FrozenSet, Hashable, List, NamedTuple, Optional, Set, Tuple

from cbi_show.bugs import Listed, Lister
from cbi_show.evidence import DOUBT, Event, Evidence, Looks, event_at, event_of
from cbi_show.files import Program, Row, read_collection, status_of
from cbi_show.reports import Round, Table
from cbi_show.where import Spot, Where

# How many lines are told that failing runs come to.
MOST_PLACES = 5
MOST_LOOKED = 30   # places that inputs are counted of


class Totals(NamedTuple):
    runs: int
    failing: int
    successful: int
    neither: int


class Truth(NamedTuple):
    """What runs say of a predicate: how many it was true in, how the failing ones of these ended, and which they are."""
    failing: int
    successful: int
    endings: Dict[str, int]
    runs: List[int]


class Place(NamedTuple):
    """A line that failing runs are seen at more often than others, with how many of each were seen there, and how many such lines chance alone would make."""
    function: str
    spot: Spot
    failing: int
    successful: int
    expected: float

    def sure(self) -> bool:
        return self.expected < DOUBT


class Seen(NamedTuple):
    """`observed` is how many facts were looked at; `chances` has for each row, and `bug_chances` for each bug, how many of these chance alone would make look as strong. `both` is the evidence of
    the pair that is asked of, by inputs, where these have several runs."""
    totals: Totals
    endings: Dict[Tuple[str, str], int]
    truths: Dict[int, Truth]
    places: List[Place]
    observed: int
    table: Table
    listed: Listed
    rounds: List[Round]
    chances: Dict[int, float]
    bug_chances: List[float]
    both: Optional[Evidence]
    outcomes: Dict[int, str]
    inputs: Tuple[int, int]

    def failing_endings(self) -> Dict[str, int]:
        return {outcome: count for (label, outcome), count in self.endings.items() if label == "fail"}

    def endings_of(self, runs: List[int]) -> Dict[str, int]:
        """How these failing runs ended, what is most frequent first."""
        return dict(Counter(self.outcomes[run] for run in runs).most_common())


class Asked(NamedTuple):
    """What is asked of a collection: the rows, whose the lines are, how many inputs the runs are of, where that is known, what is done with the runs of a row, which sites aren't looked at, whether an exit
    status other than 0 fails, and the two predicates of a pair."""
    rows: List[Row]
    where: Where
    inputs: Optional[int] = None
    policy: str = "all"
    left_out: FrozenSet[int] = frozenset()
    by_status: bool = False
    pair: Tuple[int, ...] = ()


def ending_of(outcome: str, by_status: bool = False) -> str:
    """How a run ended, without its status but where that is what failed."""
    status = status_of(outcome) if by_status else 0
    return f"ended {status}" if status else "ended" if outcome.startswith("ended ") else outcome


class Reading:
    """A collection, read once."""

    def __init__(self, collection: str, program: Program, asked: Asked):
        self.table = Table(program, asked.left_out)
        self.endings: Counts[Tuple[str, str]] = Counter()
        self.outcomes: Dict[int, str] = {}
        self.inputs: Tuple[Set[int], Set[int]] = (set(), set())
        self.at: Dict[str, Counts[Tuple[str, Spot]]] = {"fail": Counter(), "pass": Counter()}
        self.spots = {site.number: (asked.where.called(site.function), asked.where.spot(site.line, site.function)) for site in program.sites}
        observed: Set[int] = set()
        for run in read_collection(collection):
            outcome = ending_of(run.outcome, asked.by_status and run.label == "fail")
            self.endings[run.label, outcome] += 1
            if run.label == "none":
                continue
            observed.update(run.sites)
            self.table.add(run)
            self.at[run.label].update({self.spots[site] for site in run.sites if not self.spots[site][1].added})
            self.inputs[run.label == "pass"].add((run.number - 1) % asked.inputs if asked.inputs else run.number)
            if run.label == "fail":
                self.outcomes[run.number] = outcome
        self.observed = sum(len(program.sites[site].predicates()) for site in observed - asked.left_out)
        labels: Counts[str] = Counter()
        for (label, _), count in self.endings.items():
            labels[label] += count
        self.totals = Totals(sum(labels.values()), labels["fail"], labels["pass"], labels["none"])

    def several(self) -> bool:
        """Whether inputs have several runs."""
        return self.totals.failing + self.totals.successful > len(self.inputs[0] | self.inputs[1])

    def sites_at(self, place: Tuple[str, Spot]) -> List[int]:
        return [site for site, spot in self.spots.items() if spot == place]


def seen_in(collection: str, program: Program, lister: Lister, asked: Asked) -> Seen:
    """What the runs of a collection say of the rows, of the bugs that are listed of them, and of themselves."""
    reading = Reading(collection, program, asked)
    table, rows = reading.table, [row.predicate for row in asked.rows]
    listed = lister(asked.left_out)
    rounds = table.rounds(listed.bugs)
    places = often(reading)
    looks: Optional[Looks] = None
    if asked.inputs and reading.several():
        events: Dict[Hashable, Event] = {predicate: event_of(table, predicate) for predicate in [*rows, *(one.leader.predicate for one in rounds), *asked.pair]}
        events.update({place: event_at(reading.sites_at(place)) for place in places[:MOST_LOOKED]})
        looks = Looks(collection, events, asked.inputs)
    truths = {predicate: truth_of(table, predicate, runs, reading.outcomes) for predicate, runs in table.runs_with(rows).items()}
    chances = [reading.observed * one.by_chance() for one in looks.behind(list(rows), asked.policy)] if looks else [expected_by_chance(row, reading.observed) for row in asked.rows]
    return Seen(reading.totals, dict(reading.endings), truths, told_places(places, reading, looks), reading.observed, table, listed, rounds,
                dict(zip(rows, chances)), [reading.observed * one.by_chance() for one in evidence_of(rounds, table.successful, looks)],
                looks.both(*asked.pair) if looks and asked.pair else None, reading.outcomes,
                (len(reading.inputs[0]), len(reading.inputs[1])))


def expected_by_chance(row: Row, tried: int) -> float:
    """How many of so many predicates would look as strong as this row by chance alone, where each run is of an input of its own."""
    return tried * Evidence(row.f, row.s, row.fobs, row.sobs).by_chance()


def truth_of(table: Table, predicate: int, runs: List[int], outcomes: Dict[int, str]) -> Truth:
    return Truth(len(runs), table.counts_of(predicate)[1], dict(Counter(outcomes[run] for run in runs).most_common()), runs)


def evidence_of(rounds: List[Round], successful: int, looks: Optional[Looks]) -> List[Evidence]:
    """The evidence of each bug, among the failing runs that were live and all others."""
    if looks is None:
        return [Evidence(one.leader.a, one.leader.b, one.live, successful) for one in rounds]
    taken: Set[int] = set()
    found = []
    for one in rounds:
        found.append(looks.evidence(one.leader.predicate, looks.without(taken)))
        taken.update(one.runs)
    return found


# Where failing runs go

def often(reading: "Reading") -> List[Tuple[str, Spot]]:
    """The lines that failing runs are seen at more often than others, the greatest difference first."""
    failing, successful = reading.at["fail"], reading.at["pass"]
    share = {place: failing[place] / reading.totals.failing - (successful[place] / reading.totals.successful if reading.totals.successful else 1) for place in failing}
    return sorted((place for place in failing if share[place] > 0), key=lambda place: (-share[place], place[1]))


def told_places(places: List[Tuple[str, Spot]], reading: "Reading", looks: Optional[Looks]) -> List[Place]:
    """The same with how many of the lines that runs were seen at chance alone would make as striking: those that it would make none of stand first."""
    tried = len(set(reading.at["fail"]) | set(reading.at["pass"]))
    found = []
    for place in places[:MOST_LOOKED]:
        failing, successful = reading.at["fail"][place], reading.at["pass"][place]
        evidence = looks.evidence(place) if looks else Evidence(failing, successful, reading.totals.failing, reading.totals.successful)
        found.append(Place(*place, failing, successful, tried * evidence.by_chance()))
    return sorted(found, key=lambda place: not place.sure())
