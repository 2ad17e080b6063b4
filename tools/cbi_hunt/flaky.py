"""Asks the oracle a second time: a run on an input is always the same, so another verdict is the oracle's doing. Not proved."""
import time
from typing import List, Optional

from cbi_hunt.again import Repeater, program_for
from cbi_hunt.looks import Hunt
from cbi_hunt.runs import asked, oracle_name
from cbi_show.files import Fault, count_of

MOST_AGAIN, SECONDS = 40, 5.0   # inputs that are judged again, and how long that may take


def judged_places(hunt: Hunt) -> List[int]:
    """The inputs that the oracle judged, failing and others in turn, spread evenly over all."""
    labels = hunt.count.labels
    failing = [place for place in sorted(labels) if "fail" in labels[place]]
    others = [place for place in sorted(labels) if "fail" not in labels[place]]
    half = MOST_AGAIN // 2
    spread = [[places[number * len(places) // half] for number in range(half)] if len(places) > half else places for places in (failing, others)]
    return [place for pair in zip(*(places + [-1] * (half - len(places)) for places in spread)) for place in pair if place >= 0]


def verdict_again(hunt: Hunt, repeater: Repeater, program: str, place: int) -> str:
    """What it says this time; nothing that it says where it fails."""
    path = hunt.inputs.paths[place]
    run = repeater.run(program, path)
    try:
        return asked(hunt.plan, path, run.output, run.outcome).label
    except Fault:
        return ""


def flaky_note(hunt: Hunt) -> Optional[str]:
    """Tells that the oracle gave two verdicts on the same input and output."""
    labels = hunt.count.labels
    if not hunt.plan.oracle:
        return None
    found, tried = [place for place in sorted(labels) if len(labels[place]) > 1], len(labels)
    if not found and not hunt.chosen.farm:
        program, repeater = program_for(hunt.chosen, hunt.plan.cbi, hunt.kept, "plain"), Repeater(hunt.plan, hunt.kept.folder)
        begun, tried = time.monotonic(), 0
        for place in judged_places(hunt):
            if time.monotonic() - begun > SECONDS:
                break
            tried += 1
            if verdict_again(hunt, repeater, program, place) not in labels[place]:
                found.append(place)
        repeater.close()
    if not found:
        return None
    return (f"The oracle {oracle_name(hunt.plan)} is flaky: it gave two verdicts on the same input and output for {len(found)} of {count_of(tried, 'input')} "
            f"that it judged twice (as {hunt.inputs.names[found[0]]}). What follows goes by its verdicts, and may be noise.")
