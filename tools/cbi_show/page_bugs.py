"""The bugs on the page of cbi-show: a card for each, with its lines, its inputs and where it broke; and the suspicious lines. Not proved."""
import itertools
import os
import re
from typing import Iterator, List, Set, Tuple

import cbi_show.told
from cbi_show.answer import BugShown, Stated
from cbi_show.highlight import escaped, highlighted
from cbi_show.reach import named_lines
from cbi_show.rows import View
from cbi_show.source import Fact
from cbi_show.told import capital
from cbi_show.where import Spot, Where

# What is told in the letters of a program, by how its name begins.
LITERAL = ("smallest", "line ", "its output", "the run")
MOST_TOGETHER = 40    # letters of a name with its members that isn't broken


def code(text: object) -> str:
    return f"<code>{escaped(text)}</code>"


def unbroken(text: str) -> str:
    """A piece of a program in its letters; a line isn't broken within `to->balance`."""
    return "<code>" + re.sub(r"\w+(?:-&gt;\w+)+", whole, escaped(text)) + "</code>"


def whole(found: "re.Match[str]") -> str:
    return f'<span class="whole">{found[0]}</span>' if len(found[0]) <= MOST_TOGETHER else found[0]


def marked(text: str) -> str:
    """A text with what stands between backquotes in the letters of a program."""
    return re.sub("`([^`]*)`", r"<code>\1</code>", escaped(text))


def fact(said: Fact, past: bool = False) -> str:
    """A fact with the pieces of the text in its letters: `c == 97 after c = getchar()` has two of them."""
    says = said.past()[len(said.code):].strip() if past else said.says
    when = said.when()
    return (unbroken(said.code) if said.code else "") + (f" {when}{unbroken(says[len(when):])}" if when else f" {escaped(says)}" if says else "")


def anchor(spot: Spot, where: Where) -> str:
    """The name of a line: `L41`, and in the second file `F2L41`."""
    number = list(where.files).index(spot.file) + 1
    return f"{f'F{number}' if number > 1 else ''}L{spot.line}"


def line_link(spot: Spot, where: Where, here: Set[Spot]) -> str:
    """A link to a line of the source, where the page has it."""
    named = escaped(where.named(spot))
    return f"<a href=#{anchor(spot, where)}>{named}</a>" if spot in here else named


def advised(said: List[str]) -> Iterator[str]:
    """What is told where there is no fact; what may help is a list."""
    for listed, lines in itertools.groupby(said, lambda line: line.startswith("- ")):
        if listed:
            yield "<ul>" + "".join(f"<li>{escaped(line[2:])}</li>" for line in lines) + "</ul>"
        else:
            yield from (f"<p>{escaped(line)}</p>" for line in lines)


def shared_blank(lines: List[str]) -> str:
    """The blanks that all of these lines begin with, so that the few lines of the card have room on a phone too."""
    full = [line for line in lines if line.strip()]
    return os.path.commonprefix([line[:len(line) - len(line.lstrip(" \t"))] for line in full])


def without_blank(coloured: str, before: str) -> str:
    """A line as HTML without the blanks that it begins with, be they within an element or before it."""
    tag = re.match(r"(?:<[biu]>)?", coloured)
    start = tag.end() if tag else 0
    return coloured[:start] + (coloured[start + len(before):] if coloured.startswith(before, start) else coloured[start:])


def shaded(strength: int) -> str:
    """The shade of a line, the darker the more it says, in millionths."""
    return f' style="background:rgb(var(--hot) / {0.12 + 0.23 * strength / 1000000:.2f})"'


# Cards

def titled(bug: BugShown, view: View, level: int) -> str:
    title, letter = cbi_show.told.title_of(bug, view), escaped(cbi_show.told.letter(bug, view))
    said = f"{title.doubt}{fact(title.said.told.fact, True).strip()} at {escaped(title.spot.file)}:{title.spot.line} in {code(title.function)}"
    if title.endless and title.endless != cbi_show.told.endless_first(view):
        return f"<h{level}>{letter}{marked(title.endless)}</h{level}><p>{said}</p>"
    return f"<h{level}>{letter}{said}</h{level}>"


def bug_body(bug: BugShown, view: View) -> Iterator[str]:
    """What stands below the title of a bug."""
    yield f"<p>{escaped(' '.join(said for said in (cbi_show.told.counts_of_bug(bug, view), cbi_show.told.doubt(bug, view)) if said))}</p>"
    yield from excerpt(bug, view)
    yield from listed(list(cbi_show.told.about(bug, view)))


def listed(about: List[Tuple[str, List[str]]]) -> Iterator[str]:
    if about:
        yield '<dl class="run">'
        for what, values in about:
            told = code if what.startswith(LITERAL) else escaped
            said = told(values[0]) if len(values) == 1 else "<ul>" + "".join(f"<li>{escaped(value)}</li>" for value in values) + "</ul>"
            yield f"<dt>{escaped(capital(what))}</dt><dd>{said}</dd>"
        yield "</dl>"


def excerpt(bug: BugShown, view: View) -> Iterator[str]:
    lines = cbi_show.told.excerpt(bug, view)
    if not lines:
        return
    coloured, before = highlighted(view.where.files[bug.lead.told.spot.file]), shared_blank([line.text for line in lines])
    first_only = next((line.number for line in lines if line.only), None)
    yield f'<div class="lines" style="counter-reset:line {lines[0].number - 1}">'
    for line in lines:
        mark = f' class="marked"{shaded(bug.lead.found.strength)}' if line.marked else ' class="only"' if line.only else ""
        end = "<span>runs only where this is true</span>" if line.number == first_only else ""
        yield f"<p{mark}><code>{without_blank(coloured[line.number - 1], before)}</code>{end}</p>"
    yield "</div>"


def answer(view: View) -> Iterator[str]:
    """The head of the page: the first bug; or where no fact is beyond chance that this is so, and what may help."""
    yield '<header class="card" id="answer">'
    yield from (f"<p>{escaped(said)}</p>" for said in (view.hunted.warning if view.hunted else "", cbi_show.told.since_line(view)) if said)
    told, first, endless = view.answer, view.first(), cbi_show.told.endless_first(view)
    if told is None:
        yield f"<h1>{escaped(cbi_show.told.row_title(first))}</h1>" if first else f"<h1>{code(view.where.main)}: no fact stands out</h1><p>{cbi_show.told.NO_ROWS}</p>"
    elif not told.told_apart():
        yield f"<h1>{marked(endless) if endless else code(view.where.main) + ': no fact stands out'}</h1>"
        yield from advised(cbi_show.told.nothing_said(view))
    elif told.strong():
        yield titled(told.strong()[0], view, 1)
        yield f"<p>{escaped(cbi_show.told.headline(view))}</p>"
        yield from hanging(view)
        yield from bug_body(told.strong()[0], view)
    else:
        places = cbi_show.told.places_of(view)
        if endless:
            yield f"<h1>{marked(endless)}</h1>"
        yield f"<p>{cbi_show.told.NO_FACT}</p>" if endless else f"<h1>{code(view.where.main)}: no fact is beyond chance" + (f"; failing runs go to {escaped(view.where.named(places[0].spot))} in {code(places[0].function)}" if places else "") + "</h1>"
        yield from advised(["What may help:", *(f"- {one}" for one in cbi_show.told.helps(view))])
        yield from hanging(view)
    yield from listed(list(cbi_show.told.alone(view)))
    yield "</header>"


def hanging(view: View) -> Iterator[str]:
    said = cbi_show.told.hanging_line(view)
    if said:
        yield f"<p>{escaped(said)}</p>"


def bugs(view: View) -> Iterator[str]:
    """The bugs behind the first one, and those folded that may be chance."""
    told = view.answer
    if told is None or not told.told_apart():
        return
    behind = told.leading()[1:] if told.strong() else told.leading()
    if behind:
        yield f'<section id="bugs"><h2>{"Bugs behind it" if told.strong() else "The best fact, perhaps by chance"}</h2>'
        for bug in behind:
            yield f'<article class="card" id="b{bug.number}">{titled(bug, view, 3)}'
            yield from bug_body(bug, view)
            yield "</article>"
        yield "</section>"
    left = cbi_show.told.left_over(view)
    if left:
        yield f'<section id="left"><h2>Left over</h2><details><summary>{escaped(capital(left))}.</summary>'
        for bug in told.folded():
            yield f'<article class="card" id="b{bug.number}">{titled(bug, view, 3)}'
            yield from bug_body(bug, view)
            yield "</article>"
        yield "</details></section>"


def suspicious(view: View, here: Set[Spot]) -> Iterator[str]:
    """The suspicious lines, as a list with their strengths."""
    told = view.answer
    if told is None or not told.told_apart() or not told.lines:
        return
    yield f'<section id="suspicious"><h2>{cbi_show.told.LINES}</h2><ul class="strong">'
    for said in told.lines:
        yield f"<li><span>{said.found.strength / 1000000:.3f}</span><span>{line_link(said.told.spot, view.where, here)} of {code(said.told.function)}</span><span>{suspicion(said, view)}</span></li>"
    yield "</ul>"
    yield f'<p class="quiet">{escaped(cbi_show.told.LINES_SAID)}</p>'
    out = cbi_show.told.left_out(view)
    if out:
        yield f'<p class="quiet">{escaped(out)}</p>'
    yield "</section>"


def suspicion(said: Stated, view: View) -> str:
    found, told = said.found, view.answer
    of = f" of {told.failing} failing, {found.b} of {told.successful} others" if told else ""
    of += f"; leads to {escaped(named_lines(said.leads, view.where))}" if said.leads else ""
    return f'{fact(said.told.fact, True)} <span class="quiet">{found.a}{of}</span>'
