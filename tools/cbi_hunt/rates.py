"""Which rate, and how many runs of an input: what is seen of a fact where one visit in so many is looked at. Not proved.

At rate D a visit is looked at with probability 1/D, whatever the others are. So of a fact that an input comes to m times, K runs of it see nothing with (1 - 1/D)^(mK),
and look at it mK/D times on average.
"""
import itertools
import math
import statistics
from typing import List, NamedTuple, Optional, Tuple

from cbi_show import files
from cbi_hunt.looks import Hunt
from cbi_show.files import count_of

MANY_VISITS = 10 ** 9       # of all runs, from which on a hunt is slow
MANY_MARKS = 10 ** 6        # site lines of all runs, from which on its memory grows
LOOKED_AT = 200             # runs that visits are counted of
RATES = (1000, 100, 10)
LOOKS = 10                  # times that half of the sites are to be looked at in all runs of an input
SURE = 0.95


def chance(rate: int, times: int, runs: int) -> float:
    """How likely it is that runs of an input see a fact which it comes to so many times."""
    return 1.0 if rate == 1 else -math.expm1(times * runs * math.log1p(-1 / rate))


def runs_for(rate: int, times: int = 1, sure: float = SURE) -> int:
    """How many runs of an input see such a fact at least so surely."""
    if rate == 1:
        return 1
    runs = max(1, math.ceil(math.log1p(-sure) / (times * math.log1p(-1 / rate))) - 1)
    return runs if chance(rate, times, runs) >= sure else runs + 1


class Visits(NamedTuple):
    """What runs visit: how many visits and sites a run has on average, and how often half of the sites are visited at least by a run that comes there."""
    visits: float
    sites: float
    half: int


def visits_in(collection: str) -> Optional[Visits]:
    """Of the first runs of a collection in which each visit was looked at."""
    runs: List[List[int]] = [[sum(counters) for counters in run.sites.values()] for run in itertools.islice(files.read_collection(collection), LOOKED_AT)]
    every = [visits for run in runs for visits in run]
    return Visits(sum(every) / len(runs), len(every) / len(runs), statistics.median_low(every)) if every else None


def advised(visits: Visits) -> Tuple[int, int]:
    """A rate, and how many runs of an input look at half of its sites often enough. The rate is the greatest one that isn't above the visits that a run makes of the average site."""
    rate = next((rate for rate in RATES if visits.visits >= rate * visits.sites), RATES[-1])
    return rate, max(1, math.ceil(LOOKS * rate / visits.half))


def percent(share: float) -> str:
    return f"{100 * share:.0f} %" if share >= 0.095 else f"{100 * share:.1f} %"


def rate_line(hunt: Hunt) -> Optional[str]:
    """Where a hunt that looks at each visit has much to look at, what another rate would see."""
    marks = sum(mark.sites for mark in hunt.count.marks)
    visits = visits_in(hunt.kept.path("runs")) if hunt.plan.rate == 1 and hunt.count.runs() else None
    if visits is None or marks < MANY_MARKS and visits.visits * hunt.count.runs() < MANY_VISITS:
        return None
    why = "memory grows" if marks >= MANY_MARKS else "runs are slow"
    return f"{why}: {advice(visits, len(hunt.inputs.names))}"


def advice(visits: Visits, inputs: int) -> str:
    rate, runs = advised(visits)
    looks = runs * visits.half // rate
    return (f"a run makes {visits.visits:,.0f} visits of {visits.sites:,.0f} sites, half of these {count_of(visits.half, 'time')} or more. With --rate {rate} --runs {inputs * runs} ({runs} an input) "
            f"an input sees half of its sites about {count_of(looks, 'time')} or more, and a fact that occurs once in it with {percent(chance(rate, 1, runs))} ({percent(SURE)} need {runs_for(rate)} runs an input)")


def more_runs(rate: int, runs: int, inputs: int) -> str:
    """What more runs would see where one visit in so many is looked at."""
    each = max(1, runs // inputs)
    wanted = runs_for(rate)
    seen = f"a fact that occurs once in an input is seen by {count_of(each, 'run')} of it with {percent(chance(rate, 1, each))}"
    return f"More runs (--runs): at --rate {rate} {seen}" + (f", and by {wanted} with {percent(SURE)} (--runs {wanted * inputs})." if each < wanted else ".")
