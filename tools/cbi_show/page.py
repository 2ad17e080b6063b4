"""The page of cbi-show: one HTML file that stands alone, without a script. Not proved.

The bugs stand first, then suspicious lines, then the rows, and the source, whose lines are the darker the more their best fact says.
Bands of a bar differ in how light they are and in their pattern, so that they are told apart without colours, and
each has its share in words. All is reached by links and folds, so that a keyboard is enough: no part of the page
scrolls by itself, and long words are broken, so that the page scrolls up and down alone.
"""
import re
from typing import Dict, Iterable, Iterator, List, NamedTuple, Optional, Set, Tuple

import cbi_show.told
from cbi_show.files import ending_said, share
from cbi_show.highlight import escaped, highlighted
from cbi_show.page_bugs import anchor, answer, bugs, code, fact, line_link, marked, shaded, suspicious
from cbi_show.rows import Bands, Shown, View
from cbi_show.style import STYLE
from cbi_show.text import UNIMPORTANT, UNRELATED
from cbi_show.told import capital
from cbi_show.where import Spot

# As much is shown as a page of so many bytes has room for: all of the source, or the lines that stand near a row; and so many of what falls with a row.
MOST_BYTES = 60000
ROOM = ((None, 5), (12, 5), (5, 5), (2, 3), (1, 1), (0, 0))
BANDS = (("context", "failure rate when the line is reached"),
         ("sure", "extra failure rate when the fact is true (95 % lower bound)"),
         ("unsure", "what it may add beyond that"),
         ("successful", "success rate when it is true"))
# The words of docs/METHOD.md that the page has, as they stand there.
WORDS = (("site", "a place of a program at which runs are observed"),
         ("predicate", "a fact at a site that is true or not"),
         ("failure", "the share of failing runs among those in which a predicate was true"),
         ("context", "the share of failing runs among those that came to a predicate's place and looked"),
         ("increase", "failure less context: how much more likely a failure is where the predicate was true than where its place was merely reached"),
         ("importance", "how much a predicate says, and of how many failing runs, in one number from 0 to 1"),
         ("elimination", "the leader is listed, the runs that it explains are set aside, and the rest are counted again, until no predicate passes"),
         ("weak row", "a row as strong as chance alone would make at least one of so many predicates look"),
         ("trap", "the end of a run at what C leaves undefined, at a false `assert`, or at `abort`"),
         ("rate", "the mean distance of sampled visits: at rate 5 one visit in five is looked at"),
         ("turn", "a step back in a loop, or a call; a run may spend as many as `--turns` says"),
         ("policy", "which runs are set aside behind a leader: `all`, `failing` or `relabel`"))


def endings(view: View) -> Iterator[str]:
    """A histogram of how runs ended."""
    if not view.seen:
        return
    most = max(view.seen.endings.values(), default=0)
    yield f'<section id="endings"><h2>How {"ranked " if view.sample() else ""}runs ended</h2>'
    for note in view.hunted.notes if view.hunted else []:
        yield f"<p>{escaped(capital(note))}</p>"
    yield '<table class="ends"><tbody>'
    for (label, outcome), count in sorted(view.seen.endings.items(), key=lambda item: (item[0][0] != "fail", -item[1])):
        how = {"pass": "as it should", "fail": ending_said(outcome), "none": f"{ending_said(outcome)}, left out" if outcome != "ended" else "left out"}[label]
        trap = cbi_show.told.trap_of(outcome)
        yield (f'<tr{"" if label == "fail" else " class=well"}><td>{escaped(("" if label != "fail" else "failed: ") + how + trap)}</td><td>{count}</td>'
               f'<td aria-hidden="true"><span class="tall" style="width:{100 * count / most:.1f}%"></span></td></tr>')
    yield "</tbody></table></section>"


# Bars

def spoken(bands: Bands) -> str:
    """The bar in words: what only a pointer brings up, no keyboard does."""
    shares = [share(round(part * 1000000)) for part in bands[:4]]
    return f"context {shares[0]}, increase at least {shares[1]} and up to {shares[2]} more, successful runs {shares[3]}"


def bar(bands: Bands) -> str:
    parts = "".join(f"<span class={name} style=width:{100 * part:.1f}%></span>" for (name, _), part in zip(BANDS, bands) if part > 0)
    return f"<div class=bar aria-hidden=true style=width:{100 * bands.length:.1f}%>{parts}</div>"


# Rows

def keys() -> str:
    """What the bands of a bar are, in a line."""
    return '<p class="quiet">In the bars: ' + "; ".join(f'<span class="key {name}"></span>{escaped(meaning)}' for name, meaning in BANDS) + ". Bar length: number of runs.</p>"


def near_items(shown: Shown, view: View, rows: Iterable[int], here: Set[Spot]) -> Iterator[str]:
    """What falls with a row: a link to its own row, or else to its line."""
    for near in cbi_show.told.falling(shown):
        said = escaped(near.fact.text())
        if near.predicate in rows:
            said = f"<a href=#p{near.predicate}>{said}</a>"
        function = "" if near.function == shown.function else f" of {code(near.function)}"
        place = f", {line_link(near.spot, view.where, here)}{function}" if near.spot else ""
        yield f"<li>{said}{place}, by {near.fall / 1000000:.3f}</li>"


def row_lines(shown: Shown, view: View, rows: Iterable[int], here: Set[Spot]) -> Iterator[str]:
    row = shown.row
    yield f'<article class="row" id="p{row.predicate}" aria-label="Row {row.rank}"><div>{row.rank}</div>'
    yield f"<div><h4>{fact(shown.fact)}</h4><div>{line_link(shown.spot, view.where, here)} of {code(shown.function)}; {cbi_show.told.likely(shown, view)}</div>"
    said = [cbi_show.told.counts(shown), cbi_show.told.ended_of_row(shown), cbi_show.told.inputs_of_row(shown, view)]
    yield f'<div class="quiet">{escaped(" ".join(capital(text) + "." for text in said if text))}</div>'
    yield f"<details><summary>Numbers of row {row.rank}</summary>"
    yield f"<div>Importance {row.importance / 1000000:.3f}: {spoken(shown.bands)}.</div>"
    among, first = cbi_show.told.among_all(shown), f"The first failing run in which it was true is run {shown.first}." if shown.first else ""
    yield "".join(f"<div>{text}</div>" for text in (capital(among) + "." if among else "", first) if text)
    if cbi_show.told.falling(shown):
        yield "<div>These fall with it:</div><ul>" + "".join(near_items(shown, view, rows, here)) + "</ul>"
    yield f"</details></div><div>{bar(shown.bands)}</div></article>"


def groups_of(rows: List[List[Shown]], view: View, every: Iterable[int], here: Set[Spot]) -> Iterator[str]:
    for group in rows:
        if len(group) > 1:
            yield '<div class="together"><div class="quiet">These rows are mostly about the same runs:</div>'
        for shown in group:
            yield from row_lines(shown, view, every, here)
        if len(group) > 1:
            yield "</div>"


def sections(view: View, here: Set[Spot]) -> Iterator[str]:
    """The rows of the ranking, in their sections."""
    every = {shown.row.predicate for shown in view.every() if shown not in view.added}
    if view.together:
        yield '<section id="rows"><h3>Facts that go with failures</h3>'
        yield '<p class="quiet">Each is about the runs that no fact above it explains.</p>'
        yield from groups_of(view.together, view, every, here)
        yield keys()
        yield "</section>"
    for name, title, rows in (("unrelated", UNRELATED, view.unrelated), ("unimportant", UNIMPORTANT, view.unimportant), ("weak", capital(cbi_show.told.weak_line(view)), view.weak)):
        if rows:
            yield f'<section id="{name}"><h3>{escaped(title)}</h3>'
            yield from groups_of([[shown] for shown in rows], view, every, here)
            yield "</section>"
    if view.added:
        yield f'<section id="added"><p class="quiet">{escaped(cbi_show.told.added_said(view))}</p></section>'
    if view.pair:
        yield f'<section id="pair"><h3>{cbi_show.told.PAIR}</h3><ul>' + "".join(f"<li>{escaped(line)}</li>" for line in cbi_show.told.pair_lines(view.pair, view)) + "</ul></section>"


def ranking(view: View, here: Set[Spot]) -> Iterator[str]:
    """The ranking of the method: folded where the bugs are there."""
    rows = len(view.every())
    if not rows:
        return
    yield f'<section id="ranking"><h2>{cbi_show.told.RANKING}</h2>'
    if view.answer:
        yield f"<details><summary>{'1 row' if rows == 1 else f'{rows} rows'}, with what falls with each{' and the best pair' if view.pair else ''}</summary>"
    yield from sections(view, here)
    yield "</details></section>" if view.answer else "</section>"


def places(view: View, here: Set[Spot]) -> Iterator[str]:
    found = cbi_show.told.places_of(view)
    if found and view.totals:
        yield f'<section id="places"><h2>{cbi_show.told.PLACES}</h2><p class="quiet">{cbi_show.told.places_said(view)}</p><ul>'
        yield from (f"<li>{line_link(place.spot, view.where, here)}{escaped(cbi_show.told.place_line(place, view.totals, view.where)[len(view.where.named(place.spot)):])}</li>"
                    for place in found)
        yield "</ul></section>"


# The source

class Mark(NamedTuple):
    """What stands at the end of a line of the source: a link to what is told of it, the darker the more that says."""
    strength: int
    target: str
    said: str


def marks_of(view: View) -> Dict[Spot, List[Mark]]:
    """The marks of each line: its bugs and what makes it suspicious, or where there is the ranking alone its rows."""
    found: Dict[Spot, List[Mark]] = {}
    if view.answer is None:
        for shown in sorted(view.every(), key=lambda shown: shown.row.rank):
            found.setdefault(shown.spot, []).append(Mark(shown.row.importance, f"p{shown.row.predicate}", f"{shown.row.rank}. {shown.text}"))
        return found
    told = view.answer
    for bug in told.leading():
        target = "answer" if told.strong() and bug is told.first() else f"b{bug.number}"
        found.setdefault(bug.lead.told.spot, []).append(Mark(bug.lead.found.strength, target, f"{cbi_show.told.letter(bug, view)}{bug.lead.told.fact.text()}"))
    for said in told.lines if told.told_apart() else []:
        if said.told.spot not in found:
            found[said.told.spot] = [Mark(said.found.strength, "suspicious", said.told.fact.text())]
    return found


def source_line(name: str, coloured: str, marks: List[Mark]) -> str:
    """A line of the source. Its number is counted by the style."""
    shade = f' class="marked"{shaded(max(mark.strength for mark in marks))}' if marks else ""
    end = "<br>".join(f'<a href="#{mark.target}">{escaped(mark.said)}</a>' for mark in marks)
    return f'<p id="{name}"{shade}><code>{coloured}</code>{f"<span>{end}</span>" if end else ""}</p>'


def lines_here(view: View, near: Optional[int]) -> Set[Spot]:
    """The lines of the sources that the page has: all, or those near what is told."""
    last = {name: len(lines) - (1 if lines and lines[-1] == "" else 0) for name, lines in view.where.files.items()}
    if near is None:
        return {Spot(name, number) for name, count in last.items() for number in range(1, count + 1)}
    spots = [*marks_of(view), *(shown.spot for shown in view.every()), *(place.spot for place in cbi_show.told.places_of(view))]
    return {Spot(spot.file, number) for spot in spots if spot.file in last and not spot.added for number in range(max(1, spot.line - near), min(last[spot.file], spot.line + near) + 1)}


def source_of(name: str, view: View, here: Set[Spot]) -> Iterator[str]:
    """A source; a marked line has what is told of it at its end, as links."""
    marks, coloured, before = marks_of(view), highlighted(view.where.files[name]), 0
    yield '<div class="lines">'
    for spot in sorted(spot for spot in here if spot.file == name):
        if spot.line > before + 1:
            yield f'<div class="gap" style="counter-set:line {spot.line - 1}">lines {before + 1} to {spot.line - 1} are left out here</div>'
        before = spot.line
        yield source_line(anchor(spot, view.where), coloured[before - 1], marks.get(spot, []))
    yield "</div>"


def sources(view: View, here: Set[Spot]) -> Iterator[str]:
    files = [name for name in view.where.files if any(spot.file == name for spot in here)]
    yield '<section id="source"><h2>The source</h2>'
    for name in files:
        if len(view.where.files) > 1:
            yield f"<h3>{code(name)}</h3>"
        yield from source_of(name, view, here)
    yield "</section>"


# What made it, and how it is read

def made_by(view: View) -> Iterator[str]:
    hunted = view.hunted
    if not hunted:
        return
    yield '<section id="made"><h2>What made this page</h2><dl>'
    for what, value in (("Command", hunted.command), ("Version", hunted.version), ("Date", hunted.date), ("Runs", hunted.runs), ("Seed", hunted.seed), ("Rate", hunted.rate),
                        ("Turns", hunted.turns), ("Policy", hunted.policy), ("SHA-256 of the text", hunted.source_hash), ("SHA-256 of the program", hunted.program)):
        yield f"<dt>{what}</dt><dd>{code(value)}</dd>"
    yield "</dl></section>"


def reading() -> Iterator[str]:
    yield '<section id="reading"><h2>How to read this page</h2><details><summary>Bugs, rows, bars and words</summary>'
    yield "<p>A bug is the fact that goes best with the failing runs that no bug above it explains, by the chi-square of the table of both. The way there are branches that its runs"
    yield "took and few others did. A fact is told with a doubt where, of as many facts as were looked at, chance alone would make one as strong in one hunt of 20 (Fisher's exact test,"
    yield "over inputs).</p>"
    yield "<p>A row of the ranking names a fact, a predicate, that was seen at a line in some runs. It is listed because runs fail more often where it was true than where its line was merely"
    yield "reached, beyond chance. Each row is about the runs that no row above it explains, so the first row often is the bug, and a later one may be another bug."
    yield "A fact shows where a bug can be seen; why it is one, the line says.</p>"
    yield "<p>How long the bar of a row is goes by the logarithm of the runs in which the fact was true.</p>"
    yield "<dl>" + "".join(f"<dt>{word}</dt><dd>{marked(meaning)}</dd>" for word, meaning in WORDS) + "</dl></details>"
    yield '<p class="quiet">The ranking is that of <code>cbi rank</code>, which is proved to be the elimination of the collected runs; this page is not proved.</p></section>'


def links(view: View) -> str:
    told = view.answer if view.answer and view.answer.told_apart() else None
    behind = (told.leading()[1:] if told.strong() else told.leading()) if told else []
    parts: List[Tuple[str, str, object]] = [("bugs", "Bugs" if told and told.strong() else "The best fact", behind), ("suspicious", cbi_show.told.LINES, told and told.lines),
             ("places", cbi_show.told.PLACES, cbi_show.told.places_of(view) if view.totals else []), ("endings", "How runs ended", view.seen), ("ranking", "The ranking", view.every()),
             ("source", "Source", view.where.files), ("made", "What made it", view.hunted), ("reading", "How to read", True)]
    return "<nav>" + "".join(f'<a href="#{target}">{said}</a>' for target, said, there in parts if there) + "</nav>"


def page_of(view: View) -> Iterator[str]:
    """The lines of the page, with as much of the source as there is room for."""
    for near, falls in ROOM:
        lines = list(page_with(fewer_near(view, falls), lines_here(view, near)))
        if sum(len(line.encode("utf-8", "replace")) + 1 for line in lines) <= MOST_BYTES:
            break
    yield from lines


def fewer_near(view: View, most: int) -> View:
    """The same with at most so many of what falls with each row."""
    def cut(rows: List[Shown]) -> List[Shown]:
        return [shown._replace(near=shown.near[:most]) for shown in rows]
    return view._replace(together=[cut(group) for group in view.together], unrelated=cut(view.unrelated), unimportant=cut(view.unimportant), weak=cut(view.weak))


def title_of(view: View) -> str:
    told, first = view.answer, view.first()
    bug, endless = told.first() if told else None, cbi_show.told.endless_first(view)
    if endless:
        return endless
    if bug:
        return cbi_show.told.title_of(bug, view).text()
    return cbi_show.told.row_title(first) if first and not told else f"{view.where.main}: no fact stands out"


def page_with(view: View, here: Set[Spot]) -> Iterator[str]:
    strong = view.answer and view.answer.strong()
    yield '<!DOCTYPE html>\n<html lang="en">\n<head>\n<meta charset="utf-8">'
    yield '<meta name="viewport" content="width=device-width, initial-scale=1">'
    yield f"<title>{escaped(title_of(view))}</title>\n<style>{STYLE}</style>\n</head>\n<body>"
    yield '<a class="skip" href="#main">To what stands below the answer</a>'
    yield from answer(view)
    yield links(view)
    yield '<main id="main">'
    for part in (bugs(view), suspicious(view, here), places(view, here)) if strong else (places(view, here), bugs(view), suspicious(view, here)):
        yield from part
    yield from endings(view)
    yield from ranking(view, here)
    if view.where.files:
        yield from sources(view, here)
    yield from made_by(view)
    yield from reading()
    yield "</main>\n</body>\n</html>"
