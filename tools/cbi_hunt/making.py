"""Makes the runs of a hunt that aren't there yet, here or on a farm. Not proved."""
import argparse
import os
from typing import Optional, Tuple

from cbi_hunt.counts import Count, Progress, Relabel, counted
from cbi_hunt.farm import make_on_farm
from cbi_hunt.here import make_here
from cbi_hunt.kept import Kept, missing_batches
from cbi_hunt.runs import Plan

LEAST_BATCH, MOST_BATCH = 25, 10000


def processors() -> int:
    return len(os.sched_getaffinity(0)) if hasattr(os, "sched_getaffinity") else os.cpu_count() or 1


def make_runs(chosen: argparse.Namespace, plan: Plan, kept: Kept, runs: int, relabel: Optional[Relabel] = None) -> Tuple[Count, bool]:
    """Makes the runs that aren't there yet; answers how they went, and whether all were made."""
    made, count = kept.made(), counted(plan, kept, relabel)
    jobs = chosen.jobs or processors()
    size = max(LEAST_BATCH, min(MOST_BATCH, runs // (8 * jobs)))
    batches = missing_batches(made, runs, size)
    progress = Progress(max(runs, count.runs()), count)
    if not batches:
        return count, True
    try:
        whole = make_on_farm(chosen, plan, kept, batches, progress) if chosen.farm else make_here(plan, kept, batches, jobs, progress)
    finally:
        progress.clear()
        kept.clean()
    return (count if whole else counted(plan, kept, relabel)), whole
