"""The answer of a hunt in words: the bugs, each with its place, its fact, its inputs and how they fail, and the suspicious lines. Text, page and SARIF have it from here. Not proved."""
import re
from typing import Dict, Iterator, List, NamedTuple, Optional, Tuple

from cbi_show import broke
from cbi_show.answer import BugShown, Stated
from cbi_show.files import count_of, ending_said, share, visible
from cbi_show.hunted import Example, File, Hanging
from cbi_show.reach import MOST_NAMED, named_lines
from cbi_show.rows import PAIR_ABOVE, Near, PairShown, Shown, View
from cbi_show.seen import MOST_PLACES, Place, Totals
from cbi_show.where import Spot, Where

AROUND = 2        # lines of source before and behind the one that is told
MOST_ONLY = 6     # lines behind it that run only where its fact is true
MOST_NAMES = 3
NEAR = 10         # lines around a fact in which changes are told
NO_ROWS = "No predicate passes the test: the runs don't say where the bug is. More inputs may help, or a smaller --rate."
NO_FACT = "No fact is beyond chance."
HELPS = ["More inputs that differ, also in little."]
ONLY_HERE = "<- runs only where this is true"
PLACES = "Where failing runs go"
PLACES_SAID = "Lines that failing runs reach more often than others, beyond chance (Fisher's exact test, corrected for the number of lines tested)."
PLACES_WEAK = "Lines that failing runs reach more often than others; some would by chance."
LINES = "Suspicious lines"
LINES_SAID = ("Each line by its best fact, one for each three around. Strength is the square of the correlation between the fact and failing: "
              "1 where it was true in all failing runs and in no other.")
RANKING = "The ranking of cbi rank"
PAIR = "Two facts that say more together"


def share_of(part: int, whole: int) -> str:
    return share(part * 1000000 // whole) if part < whole else "100 %"


def part_of(part: int, whole: int, what: str = "") -> str:
    """`all 41 failing runs`, `none of the 207 others`, `both failing runs`, `3 of the 9`, `the one failing run`."""
    many, one = (f" {what}s", f" {what}") if what else ("", "")
    if part == whole and whole > 0:
        return {1: f"the one{one}", 2: f"both{many}"}.get(whole, f"all {whole}{many}")
    return f"{part or 'none'} of the {whole}{many}"


def capital(text: str) -> str:
    return text[:1].upper() + text[1:]


# Bugs

def unit(view: View) -> str:
    """What is counted: inputs, where it is known of which input a run is and all runs are ranked."""
    return "run" if view.hunted is None or view.sample() else "input"


def headline(view: View) -> str:
    """How many bugs explain how many of what failed, and how many are left. An input is explained where one of its runs is."""
    answer, hunted = view.answer, view.hunted
    if answer is None or not answer.strong():
        return NO_FACT
    strong = answer.strong()
    runs = [run for bug in strong for run in bug.runs]
    explained, failing = (len(set(map(hunted.place_of, runs))), answer.inputs[0]) if hunted and not view.sample() else (len(runs), answer.failing)
    if hunted and hunted.own and not view.sample():
        return f"{bugs_said(view)} {explained_with_neighbours(view, runs)}."
    left = f"; {failing - explained} {'is' if failing - explained == 1 else 'are'} left over" if explained < failing else ""
    every = answer.failing + answer.successful
    of = f"{every} ranked runs" if view.sample() else f"{every} runs" + (f" on {sum(answer.inputs)} inputs" if answer.several() else "") if hunted is None or answer.several() else f"{every} inputs"
    return f"{bugs_said(view)} {part_of(explained, failing, 'failing ' + unit(view))}{left} ({of})."


def bugs_said(view: View) -> str:
    """`1 bug explains`, `2 bugs, perhaps fewer, explain`."""
    strong = view.answer.strong() if view.answer else []
    fewer = ", perhaps fewer," if any(same_as(bug, view) for bug in strong) else ""
    return f"{count_of(len(strong), 'bug')}{fewer} {'explains' if len(strong) == 1 else 'explain'}"


def explained_with_neighbours(view: View, runs: List[int]) -> str:
    """Of the hunt's own failing inputs, and of failing neighbours, how many these runs are on."""
    answer, hunted = view.answer, view.hunted
    if answer is None or hunted is None:
        return ""
    near, own = hunted.neighbours_of(runs), len(hunted.names)
    explained, neighbours = len(set(map(hunted.place_of, runs))) - near, answer.inputs[0] - own
    of = f"{count_of(hunted.own, 'input')}, {count_of(hunted.inputs - hunted.own, 'neighbour')}"
    beside = f" and {part_of(near, neighbours, 'failing neighbour')}" if neighbours else ""
    return f"{part_of(explained, own, 'failing input')}{beside} ({of})"


def letter(bug: BugShown, view: View) -> str:
    """`A. `, `B. `; nothing for a bug that is shown alone."""
    alone = view.answer is not None and len(view.answer.leading()) == 1 and bug is view.answer.first()
    return "" if alone else f"{chr(64 + bug.number)}. "


def perhaps(bug: BugShown) -> str:
    """What stands before a fact that chance alone would make look as strong."""
    return "Perhaps by chance, " if bug.weak() else ""


class Title(NamedTuple):
    """What a bug is called by: a doubt, its place and its fact; and before these the loop that its run never leaves, where it hangs."""
    doubt: str
    spot: Spot
    function: str
    said: Stated
    endless: Optional[str]

    def text(self) -> str:
        return f"{self.doubt}{self.spot.file}:{self.spot.line} in {self.function}: {self.said.told.fact.past()}"


def title_of(bug: BugShown, view: View) -> Title:
    example = view.hunted.example_of(bug.number) if view.hunted else None
    return Title(perhaps(bug), bug.lead.told.spot, bug.lead.told.function, bug.lead, endless_of(example))


def endless_of(example: Optional[Example]) -> Optional[str]:
    """The loop that a run never leaves, as a sentence."""
    return broke.title_of(example.broke) if example and example.broke else None


def endless_first(view: View) -> Optional[str]:
    """The same of the smallest failing input, where no fact is beyond chance: it is known of this run, whatever the others are."""
    strong = view.answer is not None and bool(view.answer.leading()) and bool(view.answer.strong())
    return endless_of(view.hunted.example_of(1)) if view.hunted and not strong else None


def counts_of_bug(bug: BugShown, view: View) -> str:
    """In how many failing and other runs its fact was true, of how many that looked there."""
    found, came = bug.lead.found, "came there" if view.hunted and view.hunted.rate == 1 else "looked there"
    near = view.hunted.neighbours_of(bug.runs) if view.hunted else 0
    later = view.answer is not None and bug.live < view.answer.failing
    others = f"no other {came}" if not found.d else "not in the one other that did" if (found.b, found.d) == (0, 1) else f"in {part_of(found.b, found.d, 'other')} that did"
    missing = f" {count_of(bug.live - found.c, 'failing run')} did not {came.replace('came', 'come').replace('looked', 'look')}." if found.c < bug.live else ""
    if later:
        return f"Of the {count_of(bug.live, 'failing run')} that no bug above explains, true in {part_of(found.a, found.c)} that {came}, and {others}.{missing}{of_neighbours(near)}{of_a_part(bug)}"
    return f"True in {part_of(found.a, found.c, 'failing run')} that {came}, and {others}.{missing}{of_neighbours(near)}{of_a_part(bug)}"


def of_a_part(bug: BugShown) -> str:
    """That a fact goes with failing and is no cause by itself, where it is true without a failure more often."""
    return " It was true more often without a failure, so it is a part of the cause at most." if bug.lead.found.b > bug.lead.found.a and not bug.weak() else ""


def of_neighbours(near: int) -> str:
    return f" Of these failing runs {near} {'is' if near == 1 else 'are'} on neighbours of an input." if near else ""


def expected_of(number: float) -> str:
    return f"{number:.0f}" if number >= 10 else f"{number:.1f}" if number >= 0.95 else f"{number:.2g}"


def doubt(bug: BugShown, view: View) -> Optional[str]:
    """That it may look so strong by chance."""
    if not bug.weak() or view.answer is None:
        return None
    return f"Weak evidence: of {view.answer.observed:,} facts tested, about {expected_of(bug.expected)} would look this strong by chance{' (counted by inputs)' if view.answer.several() else ''}."


def same_as(bug: BugShown, view: View) -> Optional[str]:
    """That a bug may be one that stands above it: half of its failing inputs at least are among those of that one, of which other runs saw another fact."""
    if not view.hunted or not view.answer:
        return None
    places = {view.hunted.place_of(run) for run in bug.runs}
    for other in view.answer.bugs[:bug.number - 1]:
        shared = len(places & {view.hunted.place_of(run) for run in other.runs})
        if 2 * shared >= len(places):
            return f"{shared} of its {count_of(len(places), 'failing input')} {'is' if shared == 1 else 'are'} among those of {chr(64 + other.number)}, by other runs"
    return None


def helps(view: View) -> List[str]:
    return view.hunted.helps if view.hunted and view.hunted.helps else HELPS


def brief(said: Stated, view: View) -> str:
    """`line 16, find: if (e) was false (41 failing, 3 others)`."""
    return f"{view.where.named(said.told.spot)}, {said.told.function}: {said.told.fact.past()} ({said.found.a} failing, {count_of(said.found.b, 'other')})"


def way_step(said: Stated, view: View) -> str:
    took = "failing runs alone" if not said.found.b else f"{count_of(said.found.b, 'other')} too"
    return f"{view.where.named(said.told.spot)}, {said.told.function}: {said.told.fact.past()} ({took})"


class Line(NamedTuple):
    """A line of an excerpt: whether it is the one of the fact, and whether it runs only where that is true."""
    number: int
    text: str
    marked: bool
    only: bool


def excerpt(bug: BugShown, view: View, around: int = AROUND) -> List[Line]:
    """The lines around that of a bug, and a few of those that run only where its fact is true."""
    spot = bug.lead.told.spot
    if view.where.text(spot) is None:
        return []
    lines = view.where.files[spot.file]
    last = len(lines) - (1 if lines[-1] == "" else 0)
    only = [number for number in bug.only if spot.line < number <= spot.line + MOST_ONLY]
    until = max([spot.line + around, *only])
    return [Line(number, lines[number - 1], number == spot.line, number in bug.only) for number in range(max(1, spot.line - around), min(last, until) + 1)]


def led_to(bug: BugShown, view: View) -> List[str]:
    """The statements without a fact of their own that its branch leads to and that don't stand in its excerpt."""
    shown = {line.number for line in excerpt(bug, view)}
    far = [spot for spot in bug.lead.leads if spot.file != bug.lead.told.spot.file or spot.line not in shown]
    return [f"{view.where.named(spot)}: {(view.where.text(spot) or '').strip()}" for spot in far[:MOST_NAMED]]


def files_of(bug: BugShown, view: View) -> List[File]:
    return view.hunted.files_of(bug.runs) if view.hunted else []


def named_files(files: List[File]) -> str:
    """`lookup/inputs:141 (14 bytes), .. and 38 more`."""
    rest = f" and {len(files) - MOST_NAMES} more" if len(files) > MOST_NAMES else ""
    return ", ".join(f"{file.path} ({count_of(file.size, 'byte')})" for file in files[:MOST_NAMES]) + rest


def about(bug: BugShown, view: View) -> Iterator[Tuple[str, List[str]]]:
    """What is told of a bug beside its fact: how its runs ended, the way there, further places, its inputs, and where its smallest one broke."""
    example, same = view.hunted.example_of(bug.number) if view.hunted else None, same_as(bug, view)
    if same:
        yield "perhaps the same bug", [same]
    if bug.endings:
        yield "ended by", [ended_by(bug.endings)]
    changed = changed_near(bug.lead.told.spot, view)
    if changed and view.hunted and view.hunted.since:
        yield f"changed since {view.hunted.since.old}", [changed]
    if bug.way:
        yield "way there", [way_step(said, view) for said in bug.way]
    led = led_to(bug, view)
    if led:
        yield "leads to", led
    if bug.also:
        yield "also", [brief(said, view) for said in bug.also]
    files = files_of(bug, view)
    if files:
        yield "failing inputs", [named_files(files)]
    if example:
        yield from ((what, [value]) for what, value in example_of(example))


def alone(view: View) -> Iterator[Tuple[str, List[str]]]:
    """What is told of the smallest failing input where there is no bug that it is of."""
    example = view.hunted.example_of(1) if view.hunted and not (view.answer and view.answer.leading()) else None
    if example:
        yield from ((what, [value]) for what, value in example_of(example))


def left_over(view: View) -> Optional[str]:
    """How many facts are folded, and of how many failing runs that no bug explains."""
    answer = view.answer
    folded = answer.folded() if answer else []
    if answer is None or not folded:
        return None
    runs = sum(len(bug.runs) for bug in folded)
    facts = "1 weak fact" if len(folded) == 1 else f"{len(folded)} weak facts"
    return f"{facts} about {count_of(runs, 'other failing run')}: by chance, more than 1 hunt in 20 has one this strong"


def left_out(view: View) -> Optional[str]:
    """That what a port added is left out."""
    places = view.answer.left_out if view.answer else 0
    return f"{count_of(places, 'place')} in code that the port added {'is' if places == 1 else 'are'} left out." if places else None


def line_of(said: Stated, view: View) -> str:
    answer, found = view.answer, said.found
    totals = (answer.failing, answer.successful) if answer else (0, 0)
    leads = f"; leads to {named_lines(said.leads, view.where)}" if said.leads else ""
    return f"{view.where.named(said.told.spot)}, {said.told.function}: {said.told.fact.past()} ({found.a} of {totals[0]} failing, {found.b} of {count_of(totals[1], 'other')}){leads}"


# Two versions

def since_line(view: View) -> Optional[str]:
    """How the old and the new version did on the same inputs."""
    since = view.hunted.since if view.hunted else None
    if since is None:
        return None
    names = f" ({', '.join(map(short_name, since.names))}{f' and {since.both - len(since.names)} more' if since.both > len(since.names) else ''})" if since.names else ""
    both = f", {since.both} in both versions and set aside{names}" if since.both else ", none in both versions"
    mended = f", {since.mended} in the old one alone (mended)" if since.mended else ""
    return f"Since {since.old}: of {count_of(since.inputs, 'input')} {since.alone or 'none'} {'fails' if since.alone == 1 else 'fail'} in the new version alone{both}{mended}."


def changed_near(spot: Spot, view: View) -> Optional[str]:
    """The lines near this one that the old version hasn't."""
    since = view.hunted.since if view.hunted else None
    lines = [line for line in (since.changed.get(spot.file, []) if since else []) if abs(line - spot.line) <= NEAR]
    if since is None or not lines:
        return None
    spans = [(low, high) for low, high in zip(*([line for line in lines if line + step not in lines] for step in (-1, 1)))]
    said = ", ".join(str(low) if low == high else f"{low} to {high}" for low, high in spans)
    return f"{'line' if len(lines) == 1 else 'lines'} {said}" + (" (this one)" if lines == [spot.line] else "")


# How runs ended

def row_title(shown: Shown) -> str:
    """What is told of the first row, where there is the ranking alone."""
    return f"{'Perhaps by chance, ' if shown.weak() else ''}{shown.spot.file}:{shown.spot.line} in {shown.function}: {shown.fact.past()}"


def nothing_said(view: View) -> List[str]:
    """What is told where nothing can be told apart: what may help, and how runs ended."""
    advice = view.hunted.advice if view.hunted else ""
    return [*(advice.split("\n") if advice else [NO_ROWS]), *ended(view)]


def ended(view: View) -> List[str]:
    """How failing runs ended, as a sentence, where there are any."""
    endings, sample = view.seen.failing_endings() if view.seen else {}, view.sample()
    if not endings:
        return []
    runs = "ranked failing runs" if sample and sample.failing < sample.all_failing else "failing runs"
    if len(endings) == 1:
        (outcome, count), = endings.items()
        whose = {1: f"The one {runs[:-1]}", 2: f"Both {runs}"}.get(count, f"All {count} {runs}")
        return [f"{whose} ended by {ending_said(outcome)}{trap_of(outcome)}."]
    return [f"{runs.capitalize()} ended by {ended_by(endings)}."]


def short_name(name: str) -> str:
    """The name of an input where several stand together: of those of AFL++, which tell how they were made, what tells them apart."""
    return re.sub(r"(^|/)(id:\d+),[^/]*$", r"\1\2", name)


def trap_of(outcome: str) -> str:
    return f" (trap {outcome[8:]})" if outcome.startswith("trapped ") else ""


def ended_by(endings: Dict[str, int]) -> str:
    """`a null pointer dereference (trap 8, 161 runs) and by wrong output (3)`."""
    parts: List[str] = []
    for outcome, count in sorted(endings.items(), key=lambda item: (-item[1], item[0])):
        trap = f"trap {outcome[8:]}, " if outcome.startswith("trapped ") else ""
        parts.append(f"{ending_said(outcome)} ({trap}{count if parts else count_of(count, 'run')})")
    return parts[0] if len(parts) == 1 else ", by ".join(parts[:-1]) + " and by " + parts[-1]


# One failing run

def example_of(example: Example) -> Iterator[Tuple[str, str]]:
    """A failing run as pairs of what is told and what it is."""
    if example.made_from is not None:
        what = f"smallest failing input, made from {example.name} of {count_of(example.made_from, 'byte')} in {count_of(example.steps, 'run')}"
    else:
        what = f"smallest failing input, {example.name}"
    yield f"{what} ({count_of(example.size, 'byte')})", visible(example.input, 240) if example.input else "nothing"
    yield from wrote_of(example)
    yield "the run again", example.again


def wrote_of(example: Example) -> Iterator[Tuple[str, str]]:
    """What it wrote beside what was expected: the first line that differs, or without it the last line."""
    if example.line and example.due is not None:
        yield f"line {example.line} of its output", visible(example.wrote) if example.wrote else "none"
        yield f"line {example.line} that was expected", visible(example.due) if example.due else "none"
    elif example.wrote:
        yield "its output ended with", visible(example.wrote)
    else:
        yield "its output", "nothing"
    if example.status:
        yield "its exit status", str(example.status)
    if example.broke:
        yield from broke.lines_of(example.broke)


# Rows

def likely(shown: Shown, view: View) -> str:
    """How often runs fail, among all runs also where a sample is ranked that has other shares."""
    row, hunted = shown.row, view.hunted
    reached, true = (hunted.weighed(*counts) if hunted else counts for counts in ((row.fobs, row.sobs), (row.f, row.s)))
    return f"fails {share_of(reached[0], sum(reached)) if sum(reached) else '0 %'} of the time when reached, {share_of(true[0], sum(true))} when this is true"


def falling(shown: Shown) -> List[Near]:
    """What falls with a row, but for what is told already in the same words, as that a pointer is 0 beside that it is 0 or less."""
    told = {(shown.fact, shown.spot)}
    found = []
    for near in shown.near:
        if near.spot is None or (near.fact, near.spot) not in told:
            found.append(near)
        if near.spot is not None:
            told.add((near.fact, near.spot))
    return found


def counts(shown: Shown) -> str:
    """In words, in how many runs the predicate was true, and in how many it was looked at."""
    row = shown.row
    return (f"true in {count_of(row.f, 'failing run')} and {count_of(row.s, 'successful run')}; "
            f"looked at in {row.fobs} failing and {row.sobs} successful")


def among_all(shown: Shown) -> Optional[str]:
    """The counts over all runs, where they are others than those of the row."""
    truth, row = shown.truth, shown.row
    if truth is None or (truth.failing, truth.successful) == (row.f, row.s):
        return None
    return f"among all runs: {count_of(truth.failing, 'failing run')} and {count_of(truth.successful, 'successful run')}"


def ended_of_row(shown: Shown) -> Optional[str]:
    return f"its failing runs ended by {ended_by(shown.truth.endings)}" if shown.truth and shown.truth.endings else None


def inputs_of_row(shown: Shown, view: View) -> Optional[str]:
    names = list(map(short_name, view.hunted.names_of(shown.truth.runs))) if view.hunted and shown.truth else []
    if not names:
        return None
    rest = f" and {len(names) - MOST_NAMES} more" if len(names) > MOST_NAMES else ""
    return f"on {'the input' if len(names) == 1 else 'the inputs'} {', '.join(names[:MOST_NAMES])}{rest}"


# What stands beside the ranking

def totals_line(totals: Totals) -> str:
    neither = f", {totals.neither} neither" if totals.neither else ""
    return f"ranked: {count_of(totals.runs, 'run')}, of which {totals.failing} failed and {totals.successful} succeeded{neither}"


def pair_lines(shown: PairShown, view: View) -> Iterator[str]:
    pair = shown.pair
    for side, fact in ((pair.left, shown.left), (pair.right, shown.right)):
        yield f"{view.where.at(side.line, side.function)}: {fact.text()}"
    yield (f"both true in {count_of(pair.failing, 'failing run')} and {count_of(pair.successful, 'successful run')}; importance {pair.importance / 1000000:.3f}, "
           f"and so at least {PAIR_ABOVE / 1000000:.1f} above that of the first row")


def places_of(view: View) -> List[Place]:
    """The lines that failing runs go to: those beyond chance, or where no fact is either, the others too."""
    sure = [place for place in view.seen.places if place.sure()] if view.seen else []
    every = view.seen.places if view.seen and view.answer and not view.answer.strong() else []
    return (sure or every)[:MOST_PLACES]


def places_said(view: View) -> str:
    return PLACES_SAID if all(place.sure() for place in places_of(view)) else PLACES_WEAK


def place_line(place: Place, totals: Totals, where: Where) -> str:
    return (f"{where.named(place.spot)}, {place.function}: {share_of(place.failing, totals.failing)} of the failing runs, "
            f"{share_of(place.successful, totals.successful)} of the others")


def hanging_line(view: View) -> Optional[str]:
    """Where runs that were cut were seen last."""
    if not view.hunted or not view.hunted.hanging:
        return None
    looked = sum(one.times for one in view.hunted.hanging)
    where = ", ".join(f"{hanging_place(one, view)}{one.statement} ({one.times})" for one in view.hunted.hanging)
    return f"{count_of(looked, 'hanging run')} {'was' if looked == 1 else 'were'} made again, and last seen at {where}."


def hanging_place(one: Hanging, view: View) -> str:
    return f"{view.where.named(Spot(one.file, one.line))}, {one.function}: " if one.line else ""


def added_line(view: View) -> str:
    return f"{count_of(len(view.added), 'row')} of what the port added"


def added_said(view: View) -> str:
    """The same as a sentence, where these rows aren't shown."""
    return added_line(view) + (" isn't shown (--all shows it)." if len(view.added) == 1 else " aren't shown (--all shows them).")


def weak_line(view: View) -> str:
    """The rule by which rows are folded, told."""
    tried = view.seen.observed if view.seen else 0
    rows = "1 weak row" if len(view.weak) == 1 else f"{len(view.weak)} weak rows"
    return f"{rows}: of {tried:,} facts tested, one or more would look this strong by chance"
