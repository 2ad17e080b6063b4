"""Looks again at failing runs: the smallest input, what it wrote beside what is expected, and how the run is made again. Not proved."""
import argparse
import dataclasses
import os
import re
import shlex
import shutil
import sys
from collections import Counter
from typing import Counter as Counts
from typing import List, Optional, Tuple

from cbi_show import files
import cbi_port
from cbi_hunt.again import Repeater, for_predicate, program_for
from cbi_hunt.counts import Count, Told
from cbi_hunt.inputs import Inputs
from cbi_hunt.kept import Kept
from cbi_hunt.runs import Plan, asked, oracle_name
from cbi_hunt.since import Before
from cbi_hunt.smaller import Smaller, Wanted
from cbi_hunt.words import TURNS
from cbi_show.answer import Answer, BugShown
from cbi_show.files import Program, count_of, status_of
from cbi_show.hunted import Example, File, Hanging, Sample
from cbi_show.seen import ending_of
from cbi_show.wording import Wording

TOOLS = os.path.dirname(os.path.dirname(os.path.realpath(__file__)))
CONTROL = re.compile(r"[\x00-\x1f\x7f]")
MOST_PRINTED = 160     # bytes of an input that a command writes by itself
MOST_LOOKED = 20       # failing inputs that are looked at for the last newline
MOST_HANGING = 5


@dataclasses.dataclass
class Hunt:
    """What belongs to a hunt while it is at work."""
    chosen: argparse.Namespace
    plan: Plan
    kept: Kept
    inputs: Inputs
    count: Count
    sample: Optional[Sample] = None
    before: Optional[Before] = None


# What was written beside what is expected

def first_difference(wrote: bytes, due: bytes) -> Tuple[int, bytes, bytes]:
    """The first line that differs, with both of them; line 0 where none does."""
    ours, theirs = wrote.splitlines(keepends=True), due.splitlines(keepends=True)
    for number in range(max(len(ours), len(theirs))):
        one = ours[number] if number < len(ours) else b""
        other = theirs[number] if number < len(theirs) else b""
        if one != other:
            return number + 1, one, other
    return 0, b"", b""


def last_line(data: bytes) -> bytes:
    lines = data.splitlines(keepends=True)
    return lines[-1] if lines else b""


# The command that makes a run again

def printed(data: bytes) -> str:
    """A `printf` that writes these bytes."""
    def of(byte: int) -> str:
        if byte in (37, 92):
            return "%%" if byte == 37 else "\\\\"
        return chr(byte) if 32 <= byte <= 126 else {10: "\\n", 9: "\\t"}.get(byte, f"\\{byte:03o}")
    return "printf " + shlex.quote("".join(map(of, data)))


def quoted(word: str) -> str:
    """A word as a shell reads it, in which no control byte comes to a terminal."""
    if not CONTROL.search(word):
        return shlex.quote(word)
    return "$'" + CONTROL.sub(lambda found: f"\\{ord(found[0]):03o}", word.replace("\\", "\\\\").replace("'", "\\'")) + "'"


def script(name: str) -> str:
    """What a script is called by: its name where it is on the path, or else its place."""
    return name if shutil.which(name) else quoted(os.path.join(TOOLS, name))


def expected_for(hunt: Hunt, name: str, made: bool) -> Tuple[str, str]:
    """How a run is told what it should write: a command that comes before it, and its option."""
    inputs, chosen = hunt.inputs, hunt.chosen
    if inputs.expected is None or made:
        return "", ""
    place = inputs.names.index(name)
    if chosen.changed == "fail":
        return "", f" --expect {quoted(os.path.join(chosen.keep, 'since', 'outputs', str(place)))}" if chosen.keep else ""
    if inputs.lines is None:
        return "", f" --expect {quoted(inputs.expected[place])}"
    if chosen.keep:
        return "", f" --expect {quoted(os.path.join(chosen.keep, 'expected', name))}"
    target = f"expected.{name}"
    return f"sed -n {inputs.line_of(place)}p {quoted(chosen.expect)} >{target}; ", f" --expect {target}"


def command_for(hunt: Hunt, name: str, path: str, data: bytes, made: bool) -> str:
    """A command that makes a run again and says how it ended, with paths that are there when the hunt has ended."""
    chosen = hunt.chosen
    cbi = quoted(chosen.cbi) if shutil.which(chosen.cbi) else quoted(hunt.plan.cbi)
    before, expect = expected_for(hunt, name, made)
    run = f"{script('cbi-explain')} -- {cbi} run" + (f" --turns {chosen.turns}" if chosen.turns != TURNS else "") + f"{expect} --input "
    if chosen.keep:
        place = hunt.inputs.names.index(name)
        folder = "neighbours" if hunt.plan.is_neighbour(place) else "failing"
        file = os.path.join(chosen.keep, "smallest") if made else os.path.join(chosen.keep, folder, name)
        return f"{run}{quoted(file)} {quoted(os.path.join(chosen.keep, 'plain'))}"
    compiled = f"{before}{cbi} transform --mode plain {quoted(chosen.text)} | {run}"
    if chosen.ported:
        words = ["--quiet", *(["--args", chosen.args] if chosen.args else []), *["--stderr"] * chosen.stderr, *["--wrap"] * cbi_port.wraps(chosen), *(["--memory", chosen.memory] if chosen.memory != "auto" else []),
                 *chosen.texts, *chosen.cpp]
        compiled = f"{before}{script('cbi-port')} {' '.join(map(quoted, words))} | {cbi} transform --mode plain - | {run}"
    given = hunt.inputs.lines is None and hunt.inputs.names.index(name) < hunt.inputs.given
    if not made and given:
        return f"{compiled}{quoted(path)} -"
    if len(data) <= MOST_PRINTED or made or hunt.inputs.lines is None or hunt.inputs.names.index(name) >= hunt.inputs.given:
        return f"{printed(data)} >input; {compiled}input -"
    return f"sed -n {hunt.inputs.line_of(hunt.inputs.names.index(name))}p {quoted(hunt.inputs.lines)} >input; {compiled}input -"


# Failing runs

def file_of(hunt: Hunt, place: int) -> Optional[File]:
    """An input as it can be opened when the hunt has ended; none where it goes with the hunt."""
    inputs, chosen, name = hunt.inputs, hunt.chosen, hunt.inputs.names[place]
    size = os.path.getsize(inputs.paths[place])
    if chosen.keep:
        return File(os.path.join(chosen.keep, "failing", name), size)
    if place >= inputs.given:
        return None
    return File(f"{inputs.lines}:{inputs.line_of(place)}" if inputs.lines else inputs.paths[place], size)


def examples_of(hunt: Hunt, answer: Optional[Answer], program: Program) -> List[Example]:
    """The smallest failing input of each bug; where there is none that of all failing runs."""
    bugs = answer.bugs if answer and answer.told_apart() else []
    if not bugs:
        one = example_of(hunt, sorted(hunt.count.failing_runs.values()), None, program)
        return [one] if one else []
    made = [example_of(hunt, bug.runs, bug, program) for bug in bugs]
    return [one for one in made if one]


def example_of(hunt: Hunt, runs: List[int], bug: Optional[BugShown], program: Program) -> Optional[Example]:
    """The smallest failing input of these runs, a neighbour where all are of such. The one of the first bug is made smaller, where that is asked for."""
    plan, inputs = hunt.plan, hunt.inputs
    places = {plan.input_of(run): run for run in reversed(runs)}
    if not places:
        return None
    place = min(places, key=lambda place: (plan.is_neighbour(place), os.path.getsize(inputs.paths[place]), inputs.names[place]))
    name, path, run = inputs.names[place], inputs.paths[place], places[place]
    data = files.read_bytes(path)
    plain, repeater = program_for(hunt.chosen, plan.cbi, hunt.kept, "plain"), Repeater(plan, hunt.kept.folder)
    ended = repeater.run(plain, path).outcome
    outcome, status = ending_of(ended), status_of(ended) if plan.status else 0
    fewer, steps = made_smaller(hunt, bug, program, data, ended) if hunt.chosen.minimize and bug and bug.number == 1 else (None, 0)
    if fewer is not None:
        path = hunt.kept.path("smallest")
        with open(path, "wb") as file:
            file.write(fewer)
        repeater.run(plain, path)
    wrote = files.read_bytes(repeater.output)
    repeater.close()
    due = files.read_bytes(inputs.expected[place]) if inputs.expected and fewer is None else None
    line, ours, theirs = first_difference(wrote, due) if due is not None else (0, b"", b"")
    shown = data if fewer is None else fewer
    again = command_for(hunt, name, path, shown, fewer is not None)
    return Example(name, run, shown[:4096], len(shown), outcome, ours[:4096] if line else last_line(wrote)[:4096], theirs[:4096] if line else None, line, again,
                   len(data) if fewer is not None else None, steps, status)


def made_smaller(hunt: Hunt, bug: BugShown, program: Program, data: bytes, ended: str) -> Tuple[Optional[bytes], int]:
    """The input made smaller, with how many runs that took; none where nothing can be made smaller."""
    outcome, status = ending_of(ended), status_of(ended) if hunt.plan.status else 0
    old, changed = (hunt.kept.path("since", "plain"), hunt.before.changed) if hunt.before else (None, False)
    if outcome == "ended" and not hunt.plan.oracle and not status and not changed:
        print("cbi-hunt: --minimize needs an oracle where runs fail by wrong output: nothing says what the program should write on a smaller input", file=sys.stderr)
        return None, 0
    single, counters = for_predicate(hunt.chosen, hunt.plan.cbi, hunt.kept, program, bug.lead.found.predicate)
    smaller = Smaller(hunt.plan, hunt.kept.folder, Wanted(single, counters, outcome, status, old, changed), Told())
    fewer = smaller.of(data)
    os.remove(single)
    return (fewer, smaller.steps) if fewer is not None and len(fewer) < len(data) else (None, 0)


# What may be wrong with what is expected

def newline_note(hunt: Hunt) -> Optional[str]:
    """Tells where outputs and what is expected differ in the last newline alone."""
    inputs = hunt.inputs
    if not inputs.expected:
        return None
    places = [place for place in sorted(hunt.count.failing_inputs) if hunt.count.failing_inputs[place].startswith("ended")][:MOST_LOOKED]
    if not places:
        return None
    plain, repeater, found = program_for(hunt.chosen, hunt.plan.cbi, hunt.kept, "plain"), Repeater(hunt.plan, hunt.kept.folder), []
    for place in places:
        repeater.run(plain, inputs.paths[place])
        wrote, due = files.read_bytes(repeater.output), files.read_bytes(inputs.expected[place])
        if wrote != due and wrote.rstrip(b"\n") == due.rstrip(b"\n") and abs(len(wrote) - len(due)) == 1:
            found.append((inputs.names[place], len(wrote) > len(due)))
    repeater.close()
    if not found:
        return None
    name, more = found[0]
    whose = "the program writes one more than is expected" if more else "one more is expected than the program writes"
    return f"{len(found)} of {count_of(len(places), 'failing input')} that {'was' if len(places) == 1 else 'were'} looked at differ in the last newline alone: on {name} {whose}"


def oracle_note(hunt: Hunt) -> Optional[str]:
    """What the oracle wrote to err on a run that it calls wrong, where it calls all of them wrong."""
    places = sorted(place for place, outcome in hunt.count.failing_inputs.items() if outcome.startswith("ended"))
    if not hunt.plan.oracle or not places:
        return None
    repeater = Repeater(hunt.plan, hunt.kept.folder)
    run = repeater.run(program_for(hunt.chosen, hunt.plan.cbi, hunt.kept, "plain"), hunt.inputs.paths[places[0]])
    said = asked(hunt.plan, hunt.inputs.paths[places[0]], run.output, run.outcome).err.strip()
    repeater.close()
    return f"The oracle {oracle_name(hunt.plan)} calls all of them wrong, and wrote to err: {said.splitlines()[-1]}" if said else None


# Runs without end

def hanging_places(hunt: Hunt, program: Program, wording: Wording) -> List[Hanging]:
    """Where a few of the runs that were cut were seen last, each with how many of these."""
    if not hunt.plan.hangs or not hunt.count.hanging_inputs or not program.sites:
        return []
    full, repeater = program_for(hunt.chosen, hunt.plan.cbi, hunt.kept, "full"), Repeater(hunt.plan, hunt.kept.folder)
    found: Counts[Hanging] = Counter()
    for place in sorted(hunt.count.hanging_inputs)[:MOST_HANGING]:
        last = repeater.run(full, hunt.inputs.paths[place]).last
        if last is not None:
            site = program.sites[last]
            spot = wording.spot(site)
            found[Hanging("" if spot.added else spot.file, 0 if spot.added else spot.line, wording.where.called(site.function), wording.statement(site), 0)] += 1
    repeater.close()
    return [one._replace(times=times) for one, times in found.most_common()]
