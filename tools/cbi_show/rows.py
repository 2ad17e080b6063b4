"""What cbi-show shows: bugs and suspicious lines, and each row of a ranking, apart from the form that it is shown in. Not proved.

A row is joined with its line of the source, with the runs in which its predicate was true, and with its
card; then rows stand in sections: those that point at a failure, pairs of variables that the program never
brings together, rows of importance 0, and those that chance alone would make. None is hidden.
"""
import math
import re
from typing import Dict, Iterable, List, NamedTuple, Optional, Set

from cbi_show.answer import Answer, answer_of
from cbi_show.bugs import Lister
from cbi_show.evidence import Evidence
from cbi_show.files import Card, Fault, Pair, Program, Ranking, Row
from cbi_show.hunted import Hunted, Sample
from cbi_show.seen import Asked, Seen, Totals, Truth, seen_in
from cbi_show.source import Fact
from cbi_show.where import Spot, Where
from cbi_show.wording import Wording

# The quantile of a 95 % interval, as docs/METHOD.md has it.
QUANTILE = 1.96
# A pair is shown where its importance is so much above that of the first row, in millionths.
PAIR_ABOVE = 100000


class Bands(NamedTuple):
    """A thermometer: shares that sum up to 1, and its length beside that of the greatest number of runs."""
    context: float
    sure: float
    unsure: float
    successful: float
    length: float


class Near(NamedTuple):
    predicate: int
    fall: int
    fact: Fact
    function: Optional[str]
    spot: Optional[Spot]


class Shown(NamedTuple):
    """A row as it is shown. `function` is what the author calls that of the row; `by_chance` is how many predicates chance alone would make look as strong, where that is known."""
    row: Row
    function: str
    fact: Fact
    spot: Spot
    source: Optional[str]
    bands: Bands
    truth: Optional[Truth]
    first: Optional[int]
    near: List[Near]
    by_chance: Optional[float]

    @property
    def text(self) -> str:
        return self.fact.text()

    def weak(self) -> bool:
        """Whether chance alone would make a predicate look as strong."""
        return self.by_chance is not None and self.by_chance >= 1


class PairShown(NamedTuple):
    """Two predicates that say more together than the first row does."""
    pair: Pair
    left: Fact
    right: Fact


class View(NamedTuple):
    """All that is shown: bugs and lines, where the runs are there; and of the rows `together` has those of the first section, each list those whose runs are mostly the same."""
    where: Where
    totals: Optional[Totals]
    answer: Optional[Answer]
    together: List[List[Shown]]
    unrelated: List[Shown]
    unimportant: List[Shown]
    weak: List[Shown]
    added: List[Shown]
    carded: bool
    seen: Optional[Seen]
    pair: Optional[PairShown]
    hunted: Optional[Hunted]

    def sample(self) -> Optional[Sample]:
        """Which runs are ranked, where these aren't all that a hunt made."""
        return self.hunted.sample if self.hunted else None

    def leading(self) -> List[Shown]:
        return [shown for group in self.together for shown in group]

    def every(self) -> List[Shown]:
        return self.leading() + self.unrelated + self.unimportant + self.weak + self.added

    def first(self) -> Optional[Shown]:
        """The first row of the first section, or else the first at all; but none of what a port added."""
        rows = self.leading() or self.unrelated + self.unimportant + self.weak
        return min(rows, key=lambda shown: shown.row.rank) if rows else None

    def found(self) -> bool:
        """Whether something is shown that may be the bug."""
        return bool(self.every() or self.answer and self.answer.strong())


# Thermometers

def surely(row: Row) -> float:
    """The lower bound of the interval on Increase: above zero exactly where the test of docs/METHOD.md passes.

    That test compares the shares of failing and of successful runs in which the predicate was true, among those
    that observed it. Increase is their difference times a positive number of the row, so its interval is as well.
    """
    a, b, c, d = row.f, row.s, row.fobs, row.sobs
    if not (a + b and c and d):
        return 0.0
    spread = QUANTILE * math.sqrt(a * (c - a) / c ** 3 + b * (d - b) / d ** 3)
    return max(0.0, a / c - b / d - spread) * c * d / ((a + b) * (c + d))


def bands(row: Row, most: int) -> Bands:
    """The thermometer of a row: its length goes by the logarithm of the runs in which the predicate was true."""
    true = row.f + row.s
    failure = row.f / true if true else 0.0
    observed = row.fobs + row.sobs
    context = min(row.fobs / observed if observed else 0.0, failure)
    sure = min(surely(row), failure - context)
    length = math.log(1 + true) / math.log(1 + most) if most else 0.0
    return Bands(context, sure, failure - context - sure, 1 - failure, length)


def doubted(bands: Bands) -> Bands:
    """The thermometer of a row that chance alone may have made: nothing is for sure."""
    return bands._replace(sure=0.0, unsure=bands.sure + bands.unsure)


# Names of the source

TOKEN = re.compile(r"""/\*.*?\*/ | //[^\n]* | "(?:\\.|[^"\\\n])*" | '(?:\\.|[^'\\\n])*' | ^[ \t]*\#[^\n]* | [A-Za-z_]\w* | \S""",
                   re.DOTALL | re.MULTILINE | re.VERBOSE)
NAME = re.compile(r"[A-Za-z_]\w*")


def tokens_of(source: List[str]) -> List[str]:
    """Names and signs; comments, strings, characters and directives are left out."""
    found = TOKEN.findall("\n".join(source))
    return [piece for piece in found if not piece.startswith(("/*", "//", '"', "'")) and not piece.lstrip().startswith("#")]


def bodies(source: List[str]) -> Dict[str, List[str]]:
    """The tokens of each function's body, by the name before its parameters."""
    found: Dict[str, List[str]] = {}
    depth, opened, name, last = 0, 0, "", ""
    for token in tokens_of(source):
        if depth == 0 and token == "(" and opened == 0:
            name = last
        opened += (token == "(") - (token == ")")
        depth += (token == "{") - (token == "}")
        if depth and name:
            found.setdefault(name, []).append(token)
        elif token in ("}", ";"):
            name = ""
        last = token
    return found


def statements(body: List[str]) -> Iterable[Set[str]]:
    """The names of each statement; the head of a `for` is one with what follows up to its `;`."""
    names: Set[str] = set()
    opened = 0
    for token in body:
        opened += (token == "(") - (token == ")")
        if token in ("{", "}", ";") and opened <= 0:
            yield names
            names = set()
        elif NAME.fullmatch(token):
            names.add(token)
    yield names


def unrelated(row: Row, parts: Optional[Dict[str, List[str]]]) -> bool:
    """Whether a row compares two variables that no statement of the row's function names together.

    Such counters go up side by side in many programs, and their relation then only says how far a run came.
    """
    words = row.text.split(" ")
    if row.scheme != "pairs" or len(words) != 3 or parts is None or row.function not in parts:
        return False
    left, _, right = words
    if not NAME.fullmatch(right):
        return False
    return not any(left in names and right in names for names in statements(parts[row.function]))


# Rows

def check_program(ranking: Ranking, program: Program) -> None:
    """A ranking of another program has other predicates, which would point at wrong lines."""
    numbered = program.numbered()
    for row in ranking.rows:
        site, text, _ = numbered.get(row.predicate, (None, None, None))
        if site is None or (text, site.line, site.function) != (row.text, row.line, row.function):
            raise Fault(f"the ranking's row {row.rank} isn't of this program: predicate {row.predicate} is "
                        + (f"`{text}` of line {site.line}" if site else "none of its") + f", and not `{row.text}` of line {row.line}")


# Sections

def near_of(card: Optional[Card], wording: Wording, rows: Dict[int, Row]) -> List[Near]:
    """What falls with a row, with function and line where the program or the ranking tells them; but for what only the code has that a port added."""
    found = []
    for predicate, fall, text in card.near if card else []:
        site = wording.site(predicate)
        told = wording.told(site, text) if site else None
        if told:
            found.append(Near(predicate, fall, told.fact, told.function, told.spot))
        elif site is None:
            row = rows.get(predicate)
            fact, spot = wording.fact(predicate, row.scheme if row else "", text), wording.where.spot(row.line, row.function) if row else None
            found.append(Near(predicate, fall, fact, wording.where.called(row.function) if row else None, spot))
    return found


def mostly_same(one: Shown, other: Shown) -> bool:
    """Whether the other row loses at least half of its importance where the runs of the first are taken away."""
    return any(near.predicate == other.row.predicate and 2 * near.fall >= other.row.importance for near in one.near)


def grouped(shown: List[Shown]) -> List[List[Shown]]:
    """A row whose runs are mostly those of an earlier one stands behind it."""
    groups: List[List[Shown]] = []
    for row in shown:
        home = next((group for group in groups if any(mostly_same(one, row) for one in group)), None)
        if home is None:
            groups.append([row])
        else:
            home.append(row)
    return groups


def totals_of(ranking: Ranking, seen: Optional[Seen]) -> Optional[Totals]:
    if seen:
        return seen.totals
    if ranking.study:
        return Totals(ranking.study.runs, ranking.study.failed, ranking.study.ended, ranking.study.cut)
    return None


def pair_of(pair: Optional[Pair], ranking: Ranking, wording: Wording, inputs: Optional[Evidence]) -> Optional[PairShown]:
    """The best pair, where it says clearly more than the first row, and more than chance alone would make one of so many pairs say.

    One of the first row with another fact that leaves none of its runs out says no more than the row itself. Where inputs have several runs it is they that count for chance.
    """
    if pair is None or not ranking.rows or pair.importance < ranking.rows[0].importance + PAIR_ABOVE:
        return None
    first = ranking.rows[0]
    if first.predicate in (pair.left.predicate, pair.right.predicate) and (pair.failing, pair.successful) == (first.f, first.s):
        return None
    evidence = inputs or Evidence(pair.failing, pair.successful, pair.known_failing, pair.known_successful)
    if pair.tried * evidence.by_chance() >= 1:
        return None
    facts = []
    for side in (pair.left, pair.right):
        site = wording.site(side.predicate)
        facts.append(wording.fact(side.predicate, site.scheme if site else "", side.text))
    return PairShown(pair, facts[0], facts[1])


class Given(NamedTuple):
    """The files that a ranking is shown with, as far as they are there; `lister` lists the lines and bugs of the collection."""
    where: Where
    source: Optional[List[str]] = None
    program: Optional[Program] = None
    cards: Dict[int, Card] = {}
    collection: Optional[str] = None
    lister: Optional[Lister] = None
    pair: Optional[Pair] = None
    hunted: Optional[Hunted] = None


def view_of(ranking: Ranking, given: Given) -> View:
    """Joins the files; what isn't given is left out."""
    if given.program:
        check_program(ranking, given.program)
    rows = {row.predicate: row for row in ranking.rows}
    wording, parts = Wording(given.source, given.program, given.where), bodies(given.source) if given.source else None
    asked = Asked(ranking.rows, given.where, given.hunted.inputs if given.hunted else None, given.hunted.policy if given.hunted else "all", wording.left_out(),
                  bool(given.hunted and given.hunted.by_status), (given.pair.left.predicate, given.pair.right.predicate) if given.pair else ())
    seen = seen_in(given.collection, given.program, given.lister, asked) if given.collection and given.program and given.lister else None
    most = max((row.f + row.s for row in ranking.rows), default=0)
    shown = [shown_of(row, most, given, wording, seen, rows) for row in ranking.rows]
    added, shown = [one for one in shown if one.spot.added], [one for one in shown if not one.spot.added]
    apart = [one for one in shown if one.row.importance and unrelated(one.row, parts)]
    zero = [one for one in shown if not one.row.importance and not one.weak()]
    weak = [one for one in shown if one.weak() and one not in apart]
    leading = [one for one in shown if one not in apart and one not in zero and one not in weak]
    if not leading and weak:
        leading, weak = weak[:1], weak[1:]
    return View(given.where, totals_of(ranking, seen), answer_of(seen, wording) if seen else None, grouped(leading), apart, zero, weak, added, bool(given.cards), seen,
                pair_of(given.pair, ranking, wording, seen.both if seen else None), given.hunted)


def shown_of(row: Row, most: int, given: Given, wording: Wording, seen: Optional[Seen], rows: Dict[int, Row]) -> Shown:
    card = given.cards.get(row.predicate)
    truth = seen.truths[row.predicate] if seen else Truth(card.failing, card.successful, {}, []) if card else None
    first = card.first if card else truth.runs[0] if truth and truth.runs else None
    chance = seen.chances[row.predicate] if seen else None
    site = wording.site(row.predicate)
    spot = wording.spot(site) if site else given.where.spot(row.line, row.function)
    told = wording.told(site, row.text) if site and spot.added else None
    fact, spot = (told.fact, told.spot) if told else (wording.fact(row.predicate, row.scheme, row.text), spot)
    shown = Shown(row, told.function if told else given.where.called(row.function), fact, spot, given.where.text(spot), bands(row, most), truth, first, near_of(card, wording, rows), chance)
    return shown._replace(bands=doubted(shown.bands)) if shown.weak() else shown
