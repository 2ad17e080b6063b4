"""What is shown of bugs and of suspicious lines, apart from the form that it is shown in. Not proved.

Each is joined with its line of the source, in the words that stand there; what only the code has that a port added is left out, and counted.
"""
import heapq
from typing import Dict, Iterable, Iterator, List, NamedTuple, Optional, Tuple

from cbi_show.bugs import Found
from cbi_show.evidence import DOUBT
from cbi_show.reports import Round, Table, strength_of
from cbi_show.seen import Seen
from cbi_show.source import Fact, clipped
from cbi_show.where import Spot
from cbi_show.wording import Told, Wording

MOST_ALSO = 3      # further places of a bug
MOST_WAY = 3       # branches on the way to it
LEAST_WAY = 30000  # their strength, in millionths
MOST_LINES = 10    # suspicious lines
APART = 3          # lines of a function of which one is shown


class Stated(NamedTuple):
    """A predicate with its counts, in words; of a branch the statements without a site that it leads to."""
    found: Found
    told: Told
    leads: Tuple[Spot, ...] = ()


class BugShown(NamedTuple):
    """A bug as it is shown: its fact; how many failing runs were left when it was found, and which are its own; how many facts chance alone would make look as strong; further
    places; branches on the way there; the lines that run only where its fact is true; and how its runs ended."""
    number: int
    lead: Stated
    live: int
    runs: List[int]
    expected: float
    also: List[Stated]
    way: List[Stated]
    only: List[int]
    endings: Dict[str, int]

    def weak(self) -> bool:
        """Whether chance alone may have made its fact look so strong."""
        return self.expected >= DOUBT


class Answer(NamedTuple):
    """Bugs and suspicious lines. `failing` and `successful` are runs, `inputs` the same in inputs; `left_out` is how many places of what a port added failing runs were seen at."""
    bugs: List[BugShown]
    lines: List[Stated]
    failing: int
    successful: int
    inputs: Tuple[int, int]
    observed: int
    left_out: int

    def several(self) -> bool:
        """Whether inputs have several runs."""
        return sum(self.inputs) < self.failing + self.successful

    def told_apart(self) -> bool:
        """Whether there are runs that failed and others, so that a fact can tell them apart."""
        return self.failing > 0 and self.successful > 0

    def strong(self) -> List[BugShown]:
        """The bugs whose facts are beyond chance."""
        return [bug for bug in self.bugs if not bug.weak()]

    def weak(self) -> List[BugShown]:
        return [bug for bug in self.bugs if bug.weak()]

    def leading(self) -> List[BugShown]:
        """The bugs that are shown at once: those beyond chance, or where none is the first one."""
        return self.strong() or self.bugs[:1] if self.told_apart() else []

    def first(self) -> Optional[BugShown]:
        leading = self.leading()
        return leading[0] if leading else None

    def folded(self) -> List[BugShown]:
        return [bug for bug in self.bugs if bug not in self.leading()] if self.told_apart() else []


def stated(found: Found, wording: Wording) -> Optional[Stated]:
    site = wording.site(found.predicate)
    told = wording.told(site, found.text) if site else None
    return Stated(found, told) if told else None


def apart(found: Iterable[Stated], most: int) -> List[Stated]:
    """The first so many of them without any that has one of its function within three lines before it."""
    kept: List[Stated] = []
    for one in found:
        if len(kept) == most:
            break
        if all((one.told.function, one.told.spot.file) != (other.told.function, other.told.spot.file) or abs(one.told.spot.line - other.told.spot.line) > APART for other in kept):
            kept.append(one)
    return kept


def in_words(found: Iterable[Found], wording: Wording) -> Iterable[Stated]:
    """Those that go with failing at all."""
    for one in found:
        said = stated(one, wording) if one.strength else None
        if said:
            yield said


def way_to(bug: Round, lead: Stated, also: List[Stated], seen: Seen, wording: Wording, whole: bool) -> List[Stated]:
    """Branches that its runs took and few others, at most three quarters of these; the one that most took stands first. Where visits are sampled, not each of its runs has seen them."""
    table, own = seen.table, seen.table.within(bug.runs)
    found: List[Found] = []
    taken = {(one.told.spot, one.told.function) for one in [lead, *also]}
    for site, moved in own.items():
        if site in table.left_out or table.program.sites[site].scheme != "branches":
            continue
        for predicate, text, patterns in table.facts[site]:
            a, others = sum(moved[pattern] for pattern in patterns), table.counts_of(predicate)
            strength = strength_of(a, others[1], len(bug.runs), table.successful)
            if whole and a < len(bug.runs) or strength < LEAST_WAY or 4 * others[1] > 3 * table.successful:
                continue
            where = table.program.sites[site]
            found.append(Found(predicate, where.function, where.line, a, others[1], sum(moved), others[3], strength, text))
    found.sort(key=lambda one: (-one.strength, one.function != lead.found.function, -one.line if one.line <= lead.found.line else one.line, one.predicate))
    shown: List[Stated] = []
    for one in found:
        said = stated(one, wording) if len(shown) < MOST_WAY else None
        if said and (said.told.spot, said.told.function) not in taken:
            taken.add((said.told.spot, said.told.function))
            shown.append(said)
    return sorted(shown, key=lambda said: (-said.found.b, said.told.spot))


def bug_shown(bug: Round, expected: float, seen: Seen, wording: Wording, whole: bool) -> Optional[BugShown]:
    lead = stated(bug.leader, wording)
    if lead is None:
        return None
    lead = with_leads(lead, wording)
    also = apart([lead, *in_words(bug.also, wording)], MOST_ALSO + 1)[1:]
    site = wording.site(bug.leader.predicate)
    only = [line for line in wording.only_at(site, bug.leader.text) if line != lead.told.spot.line] if site else []
    return BugShown(0, lead, bug.live, bug.runs, expected, also, way_to(bug, lead, also, seen, wording, whole), only, seen.endings_of(bug.runs))


# Statements without a site

def with_leads(said: Stated, wording: Wording) -> Stated:
    return said._replace(leads=tuple(one.spot for one in wording.reach().led().get(said.found.predicate, [])))


def suspicious(seen: Seen, wording: Wording) -> Iterator[Stated]:
    """The lines that go with failing, the strongest first: those with a site by their best fact; and behind each that is as strong those without one, by the branch that leads to them."""
    def order(said: Stated) -> Tuple[int, int, int]:
        found = said.found
        return (-found.strength, -found.a, -(found.c + found.d))

    own = (with_leads(said, wording) for said in in_words(seen.listed.lines.lines, wording))
    return iter(heapq.merge(own, sorted(reached(seen, wording), key=order), key=order))


def reached(seen: Seen, wording: Wording) -> Iterator[Stated]:
    """Of each branch the first statement that it leads to and that is further away than what is told with it."""
    for predicate, led in wording.reach().led().items():
        site, counts = seen.table.sites[predicate], seen.table.counts_of(predicate)
        strength = strength_of(counts[0], counts[1], len(seen.table.failing), seen.table.successful)
        told = wording.told(site, wording.numbered[predicate][1]) if strength and site.number not in seen.table.left_out else None
        far = [one for one in led if told and (one.spot.file != told.spot.file or abs(one.spot.line - told.spot.line) > APART)]
        if told and far:
            at = f" at {wording.where.named(told.spot)}" if told.fact.code else ""
            fact = Fact(clipped((wording.where.text(far[0].spot) or "").strip()), f"runs only where {told.fact.past()}{at}")
            yield Stated(Found(predicate, site.function, site.line, *counts, strength, wording.numbered[predicate][1]), Told(fact, far[0].spot, wording.where.called(far[0].function)))


def left_out_of(table: Table) -> int:
    """At how many places of what a port added failing runs were seen, of which nothing else is told."""
    return len({(table.program.sites[site].function, table.program.sites[site].line) for site in table.left_out if site in table.failed})


def answer_of(seen: Seen, wording: Wording) -> Answer:
    whole = sum(seen.inputs) == seen.totals.failing + seen.totals.successful
    shown = [bug_shown(bug, expected, seen, wording, whole) for bug, expected in zip(seen.rounds, seen.bug_chances)]
    bugs = [bug._replace(number=number) for number, bug in enumerate((bug for bug in shown if bug), 1)]
    lines = apart(suspicious(seen, wording), MOST_LINES)
    return Answer(bugs, lines, len(seen.table.failing), seen.table.successful, seen.inputs, seen.observed, left_out_of(seen.table))
