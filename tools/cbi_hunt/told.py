"""What cbi-hunt tells of its runs beside the ranking. Not proved."""
import argparse
import os
import shutil
from typing import Iterator, List, Optional

from cbi_hunt.collecting import MOST_MARKS, MOST_RUNS
from cbi_hunt.counts import Count
from cbi_hunt.inputs import MOST_BYTES, Inputs
from cbi_hunt.looks import Hunt, oracle_note
from cbi_hunt.near import suggestion
from cbi_hunt.rates import more_runs, rate_line
from cbi_show.files import count_of, harmless
from cbi_show.hunted import Sample
from cbi_show.told import short_name

NO_FAILURE = """\
No run failed, so there is nothing to compare. What may help:
- Where the bug shows in what the program writes, say what it should write: NAME.expected, --expect or --oracle.
- Give inputs on which it fails.{cut}"""
ONLY_FAILURES = """\
All runs that count failed, so there is nothing to compare them with. What may help:{more}
- Give inputs on which the program does as it should.{beside}"""
MOST_HIDDEN = 3


def summary(count: Count, inputs: Inputs) -> str:
    """How the runs went on the hunt's own inputs."""
    near = count.near
    runs = count.runs() - near["fail"] - near["pass"] - near["none"]
    neither = f", {count.neither - near['none']} neither" if count.neither > near["none"] else ""
    cut = f" ({count.cut - near['cut']} cut)" if count.cut > near["cut"] else ""
    return (f"{count_of(runs, 'run')} on {count_of(min(inputs.own, runs), 'input')}: "
            f"{count.failed - near['fail']} failed, {count.succeeded - near['pass']} succeeded{neither}{cut}")


def keep_failing(hunt: Hunt) -> None:
    """Keeps copies of the inputs that failed."""
    if hunt.chosen.keep:
        for place in hunt.count.failing_own():
            target = hunt.kept.path("failing", hunt.inputs.names[place])
            os.makedirs(os.path.dirname(target), exist_ok=True)
            shutil.copyfile(hunt.inputs.paths[place], target)


def failing_line(hunt: Hunt) -> Optional[str]:
    """Names the inputs that failed."""
    names = [short_name(hunt.inputs.names[place]) for place in hunt.count.failing_own()]
    if not names:
        return None
    shown = ", ".join(names[:5]) + (f" and {len(names) - 5} more" if len(names) > 5 else "")
    return harmless(f"failing inputs: {shown}" + (f", in {os.path.join(hunt.chosen.keep, 'failing')}" if hunt.chosen.keep else ""))


def cut_line(count: Count, chosen: argparse.Namespace) -> Optional[str]:
    """Says that runs which were cut are left out, and the word that takes them in."""
    if not count.hanging_inputs or chosen.hangs == "fail":
        return None
    return "runs that were cut hang, or need more turns than --turns allows; they are left out (--hangs fail counts them as failed)"


def hidden_line(inputs: Inputs) -> Optional[str]:
    if not inputs.hidden:
        return None
    rest = f" and {len(inputs.hidden) - MOST_HIDDEN} more" if len(inputs.hidden) > MOST_HIDDEN else ""
    return harmless(f"not taken, since hidden: {', '.join(inputs.hidden[:MOST_HIDDEN])}{rest}")


def large_line(inputs: Inputs) -> Optional[str]:
    """Names the inputs that are left out, since `cbi` takes none that large."""
    if not inputs.large:
        return None
    rest = f" and {len(inputs.large) - MOST_HIDDEN} more" if len(inputs.large) > MOST_HIDDEN else ""
    return harmless(f"left out, since larger than {MOST_BYTES:,} bytes: {', '.join(inputs.large[:MOST_HIDDEN])}{rest}")


def sample_line(sample: Optional[Sample], chosen: argparse.Namespace) -> Optional[str]:
    """Says which runs are ranked, where these aren't all."""
    if sample is None:
        return None
    room = f"a collection holds {MOST_RUNS} runs with {MOST_MARKS} site lines: "
    if sample.even:
        return f"{room}ranked is an even sample of {count_of(sample.failing + sample.others, 'run')}, by the seed {chosen.seed}"
    every = "the one failing run" if sample.all_failing == 1 else f"all {sample.failing} failing runs"
    failing = every if sample.failing == sample.all_failing else f"{sample.failing} of the {sample.all_failing} failing runs"
    weighed = "so is how often runs fail" if chosen.policy == "relabel" else "how often runs fail is weighed back"
    return (f"{room}ranked are {failing} and {sample.others} of the {sample.all_others} others, drawn evenly by the seed {chosen.seed}; "
            f"counts, bars and importance are of these, and {weighed}")


def notes(hunt: Hunt, whole: bool, told: List[str], newline: Optional[str]) -> Iterator[str]:
    """The lines that sum up a hunt. Where no run succeeded, what is told of the last newline is among the advice."""
    yield summary(hunt.count, hunt.inputs) + ("" if whole else "; interrupted, so this is what there is")
    for line in (failing_line(hunt), *map(harmless, told), hidden_line(hunt.inputs), large_line(hunt.inputs), cut_line(hunt.count, hunt.chosen), newline if hunt.count.succeeded else None,
                 sample_line(hunt.sample, hunt.chosen), rate_line(hunt)):
        if line:
            yield line


def beside(inputs: Inputs, given: str, other: str, what: str) -> str:
    """Where a folder of AFL++ was given by itself, that the folder above it has the rest."""
    if inputs.folder is None or os.path.basename(os.path.normpath(inputs.folder)) != given:
        return ""
    above = os.path.dirname(os.path.abspath(inputs.folder))
    return f"\n- Name the folder above ({os.path.relpath(above)}): its {other} has {what}." if os.path.isdir(os.path.join(above, other)) else ""


def helps(hunt: Hunt) -> List[str]:
    """What may help where some runs failed and others didn't, and no fact is beyond chance. Another run on an input is no further evidence, but where visits are sampled it may see more."""
    chosen = hunt.chosen
    more = suggestion(chosen, hunt.inputs, len(hunt.count.failing_own()))
    more += ["More inputs that differ, also in little" + ("." if hunt.inputs.expected else " (--mutate N makes them).")]
    if chosen.rate > 1:
        more += ["A smaller rate (--rate 1 looks at every visit).", more_runs(chosen.rate, hunt.count.runs(), len(hunt.inputs.names))]
    if chosen.schemes:
        more.append("All kinds of sites: leave --schemes out.")
    return more


def advice(hunt: Hunt, newline: Optional[str]) -> str:
    """What to do where nothing can be told apart, since no run failed or none succeeded."""
    count, inputs = hunt.count, hunt.inputs
    if not count.failed:
        cut = f"\n- {count_of(count.cut, 'run was', 'runs were')} cut: allow more turns (--turns), or count them as failed (--hangs fail)." if count.cut else ""
        status = f"\n- {count_of(count.other_status, 'run')} ended with an exit status other than 0: count such runs as failed (--status fail)." if count.other_status else ""
        changed = "\n- Count outputs that are other ones than the old version's as failing (--changed fail)." if hunt.before and not hunt.before.changed and not inputs.expected and not hunt.plan.oracle else ""
        failure = NO_FAILURE.replace("No run failed,", "No input fails in the new version alone,") if hunt.before else NO_FAILURE
        return failure.format(cut=cut + status + changed + beside(inputs, "queue", "crashes", "inputs that AFL++ saw crash"))
    more: List[str] = []
    if inputs.has_carriage_returns():
        more.append("The expected outputs have carriage returns, and the program writes none: take them out (tr -d '\\r').")
    if newline:
        more.append(newline + ".")
    said = oracle_note(hunt)
    if said:
        more.append(said)
    return ONLY_FAILURES.format(more="".join(f"\n- {line}" for line in more), beside=beside(inputs, "crashes", "queue", "inputs that AFL++ saw end"))
