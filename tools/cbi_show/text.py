"""The answer as text: the bugs first, then suspicious lines, then the rows of the ranking. Not proved."""
import textwrap
from typing import Iterable, Iterator, List, Tuple

from cbi_show import told
from cbi_show.answer import BugShown
from cbi_show.files import harmless
from cbi_show.rows import Bands, Shown, View

BAR = 32
SENTENCE = 110
UNRELATED = "Pairs of variables that no statement names together"
UNIMPORTANT = "Rows of importance 0"


def clip(line: str, width: int) -> str:
    """A line as a terminal of this width takes it."""
    line = harmless(line)
    return line if len(line) <= width else line[:max(0, width - 2)] + ".."


def wrapped(said: str, width: int, most: int = SENTENCE) -> List[str]:
    return textwrap.wrap(harmless(said), min(most, width), break_long_words=False, break_on_hyphens=False)


def prose(said: str, width: int) -> List[str]:
    """A line of words, in as many as it takes, since its end may say what to do."""
    line = harmless(said)
    behind = "  " if line.startswith("- ") else ""
    return [line] if len(line) <= width else textwrap.wrap(line, width, subsequent_indent=behind, break_long_words=False, break_on_hyphens=False)


def bar(bands: Bands) -> str:
    """A thermometer of letters. A band that is less than half a letter isn't seen."""
    length = max(1, round(BAR * bands.length))
    edges, reached = [], 0.0
    for part in bands[:4]:
        reached += part
        edges.append(round(length * reached))
    sizes = [end - start for start, end in zip([0] + edges, edges)]
    return "".join(mark * size for mark, size in zip("#=-.", sizes)).ljust(BAR)


def text_of_row(shown: Shown, view: View, indent: str = "") -> Iterator[str]:
    row = shown.row
    yield f"{indent}{row.rank:>3}. {view.where.named(shown.spot)}, {shown.function}: {shown.text}"
    yield f"{indent}     {told.likely(shown, view)}"
    yield f"{indent}     [{bar(shown.bands)}] importance {row.importance / 1000000:.3f}"
    yield f"{indent}     {told.counts(shown)}"
    first = f"first failing run: {shown.first}" if shown.first else None
    for said in (told.among_all(shown), told.ended_of_row(shown), told.inputs_of_row(shown, view), first):
        if said:
            yield f"{indent}     {said}"
    for near in told.falling(shown):
        place = f"{view.where.named(near.spot)}, {near.function}: " if near.spot else ""
        yield f"{indent}     falls with it: {place}{near.fact.text()} (by {near.fall / 1000000:.3f})"
    if shown.source is not None:
        yield f"{indent}     {shown.spot.line} | {shown.source.strip()}"
    yield ""


# Bugs

def bug_lines(bug: BugShown, view: View, width: int) -> Iterator[str]:
    """A bug: its place and its fact, its counts, its lines, and what else is told of it."""
    title, lines, letter = told.title_of(bug, view), told.excerpt(bug, view), told.letter(bug, view)
    if title.endless and title.endless != told.endless_first(view):
        yield from wrapped(letter + title.endless, width)
        letter = ""
    yield clip(letter + title.text(), width)
    yield from wrapped(" ".join(said for said in (told.counts_of_bug(bug, view), told.doubt(bug, view)) if said), width)
    yield ""
    longest = min(max((len(harmless(line.text)) for line in lines), default=0), width - 10 - len(told.ONLY_HERE) - 2)
    first_only = next((line.number for line in lines if line.only), None)
    for line in lines:
        mark = f"  {told.ONLY_HERE}" if line.number == first_only else "  <-" if line.only else ""
        text = harmless(line.text)
        yield f"{'>' if line.marked else ' '}{line.number:>6} | {clip(text, longest).ljust(longest) if mark else text}{mark}".rstrip()
    if lines:
        yield ""
    yield from listed(told.about(bug, view))
    yield ""


def listed(about: Iterable[Tuple[str, List[str]]]) -> Iterator[str]:
    for what, values in about:
        for place, value in enumerate(values):
            lead = f"{what}: " if place == 0 else " " * (len(what) + 2)
            yield lead + value


def places_lines(view: View, width: int) -> Iterator[str]:
    places = told.places_of(view)
    if places and view.totals:
        yield f"{told.PLACES}:"
        yield from (f"     {told.place_line(place, view.totals, view.where)}" for place in places)
        yield from wrapped(told.places_said(view), width)
        yield ""


def head_of(view: View, width: int) -> Iterator[str]:
    """How many bugs there are; or where no fact is beyond chance that this is so, and what may help. A loop that is never left is known of its run in any case."""
    answer = view.answer
    endless = [said for said in (told.endless_first(view), told.hanging_line(view)) if said]
    if answer and answer.told_apart() and answer.strong():
        yield from (line for said in (told.headline(view), *endless) for line in wrapped(said, width))
        return
    yield from (line for said in endless for line in wrapped(said, width))
    if answer and answer.told_apart():
        said = [told.headline(view), "What may help:", *(f"- {one}" for one in told.helps(view))]
    else:
        said = told.nothing_said(view)
    yield from (line for one in said for line in prose(one, width))


def bugs_of(view: View, width: int, every: bool) -> Iterator[str]:
    """The bugs; where no fact is beyond chance where failing runs go stands before them."""
    answer, first = view.answer, view.first()
    if answer is None:
        yield from [told.row_title(first), ""] if first else []
        return
    yield from head_of(view, width)
    example = list(listed(told.alone(view)))
    yield from [""] if answer.told_apart() or example else []
    if not answer.strong():
        yield from places_lines(view, width)
    for bug in answer.bugs if every and answer.told_apart() else answer.leading():
        yield from bug_lines(bug, view, width)
    yield from example + [""] if example and answer.told_apart() else example
    left = told.left_over(view)
    if left and not every:
        yield from wrapped(f"{left} (--all shows {'it' if len(answer.folded()) == 1 else 'them'}).", width)
        yield ""


def suspicious(view: View, width: int) -> Iterator[str]:
    if not view.answer or not view.answer.told_apart() or not view.answer.lines:
        return
    yield f"{told.LINES}:"
    for said in view.answer.lines:
        yield f"  {said.found.strength / 1000000:.3f}  {told.line_of(said, view)}"
    yield from wrapped(told.LINES_SAID, width)
    out = told.left_out(view)
    if out:
        yield out
    yield ""


# Rows of the ranking

def rows_of(view: View, every: bool) -> Iterator[str]:
    for group in view.together:
        yield from text_of_row(group[0], view)
        for shown in group[1:]:
            yield from text_of_row(shown, view, "     | ")
    for title, rows in ((UNRELATED, view.unrelated), (UNIMPORTANT, view.unimportant), (told.weak_line(view), view.weak if every else []),
                        (told.added_line(view), view.added if every else [])):
        if rows:
            yield title + ":"
            yield ""
            for shown in rows:
                yield from text_of_row(shown, view)


def text_of(view: View, width: int = 10000, every: bool = False) -> Iterator[str]:
    """The whole text, section by section. Only what is copied, the command of the run, is wider than the width."""
    for line in whole_text(view, width, every):
        yield line if line.startswith("the run again: ") else clip(line, width)


def first_of(view: View, width: int) -> Iterator[str]:
    """What is told before all else: a warning, and how two versions did."""
    first = [line for said in (view.hunted.warning if view.hunted else "", told.since_line(view)) if said for line in wrapped(said, width)]
    yield from [*first, ""] if first else []


def whole_text(view: View, width: int, every: bool) -> Iterator[str]:
    yield from first_of(view, width)
    totals = view.hunted.notes if view.hunted else [told.totals_line(view.totals)] if view.totals else []
    notes = [line for said in totals for line in prose(said, width)]
    if view.answer and not view.answer.told_apart():
        yield from notes
    yield from bugs_of(view, width, every)
    if not view.answer or view.answer.told_apart():
        yield from notes + [""] if notes else []
    yield from suspicious(view, width)
    if view.answer and view.answer.strong():
        yield from places_lines(view, width)
    yield from ranking(view, width, every)


def ranking(view: View, width: int, every: bool) -> Iterator[str]:
    """The rows of `cbi rank`: folded where the bugs are there."""
    rows = len(view.every())
    if view.answer and not every:
        if not rows and view.answer.told_apart():
            yield f"{told.RANKING} has no row."
        elif rows:
            beside = ", with what falls with each" + (" and the best pair" if view.pair else "")
            yield f"{told.RANKING} has {'1 row' if rows == 1 else f'{rows} rows'} (--all shows {'it' if rows == 1 else 'them'}{beside})."
        return
    if view.answer and rows:
        yield f"{told.RANKING}:"
        yield ""
    yield from rows_of(view, every)
    if view.weak and not every:
        yield from wrapped(told.weak_line(view) + " (--all shows them).", width, width)
        yield ""
    if view.added and not every:
        yield told.added_said(view)
        yield ""
    if view.pair:
        yield f"{told.PAIR}:"
        yield from (f"     {line}" for line in told.pair_lines(view.pair, view))
        yield ""
    yield from legend(view, width)


LEGEND = ("Each row is about the runs that no row above it explains. Bar length: number of runs. # failure rate when the line is reached; "
          "= extra failure rate when the predicate is true (95 % lower bound); - what it may add beyond that; . success rate when it is true.")


def legend(view: View, width: int) -> Iterator[str]:
    if view.every():
        yield from wrapped(LEGEND, width)
    elif not view.answer:
        yield told.NO_ROWS
    if view.carded and any(len(group) > 1 for group in view.together):
        yield "Rows behind a | are mostly about the same runs as the row above them."
