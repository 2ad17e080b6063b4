"""Ranks what was collected, and shows it as text and as a page. Not proved."""
import datetime
import hashlib
import os
import sys
from typing import FrozenSet, List, Optional

import cbi_show.command
import cbi_show.files
import cbi_show.where
from cbi_show import bugs, rows, wording
from cbi_hunt.broke import broke_of
from cbi_hunt.looks import Hunt, examples_of, file_of, hanging_places
from cbi_hunt.since import since_of
from cbi_hunt.told import advice, helps
from cbi_show.calls import call_to
from cbi_show.files import Fault
from cbi_show.hunted import Hunted, write_hunted


def date_of() -> str:
    """The day of a page: that of SOURCE_DATE_EPOCH, or today."""
    given = os.environ.get("SOURCE_DATE_EPOCH", "")
    when = datetime.datetime.fromtimestamp(int(given), datetime.timezone.utc) if given.isdigit() else datetime.datetime.now(datetime.timezone.utc)
    return when.strftime("%Y-%m-%d")


def facts_of(hunt: Hunt, program: cbi_show.files.Program, notes: List[str], said: str, warning: Optional[str]) -> Hunted:
    """How the hunt was made."""
    chosen = hunt.chosen
    names = {place: hunt.inputs.names[place] for place in hunt.count.failing_own()}
    files = {place: file for place, file in ((place, file_of(hunt, place)) for place in names) if file}
    return Hunted(chosen.command, cbi_show.files.VERSION, date_of(), chosen.text, hashlib.sha256(cbi_show.files.read_bytes(hunt.kept.path("source.c"))).hexdigest(), program.identity,
                  chosen.seed, chosen.rate, hunt.count.runs(), chosen.turns, chosen.policy, chosen.hangs == "fail", len(hunt.inputs.names), names, notes, said, [],
                  sample=hunt.sample, folder=os.getcwd(), files=files, helps=helps(hunt), by_status=hunt.plan.status, warning=warning or "",
                  since=since_of(chosen, hunt.before, hunt.count, hunt.inputs.names) if hunt.before else None,
                  own=hunt.inputs.own if hunt.inputs.own < len(hunt.inputs.names) else 0)


def rank(hunt: Hunt) -> cbi_show.files.Ranking:
    """Has `cbi` rank the runs, and say what falls with each row and which pair is best."""
    kept, plan = hunt.kept, hunt.plan
    call_to(kept.path("ranking"), [plan.cbi, "rank", f"--policy={hunt.chosen.policy}", "--", plan.program, kept.path("runs")])
    ranking = cbi_show.files.read_ranking(kept.path("ranking"))
    for command in ("cards", "pairs"):
        if ranking.rows:
            call_to(kept.path(command), [plan.cbi, command, "--", plan.program, kept.path("runs")])
        elif os.path.exists(kept.path(command)):
            os.remove(kept.path(command))
    return ranking


def lister_of(hunt: Hunt) -> bugs.Lister:
    """Has `cbi` list the lines and the bugs, and keeps what it prints."""
    def listed(left_out: FrozenSet[int]) -> bugs.Listed:
        return bugs.list_runs(hunt.plan.cbi, hunt.plan.program, hunt.kept.path("runs"), left_out, hunt.kept.folder)

    return listed


def where_of(hunt: Hunt, source: List[str]) -> cbi_show.where.Where:
    """Whose the lines are: of the text, or of what it was ported from."""
    path = hunt.kept.path("source.c.lines")
    return cbi_show.where.ported(hunt.chosen.text, path) if os.path.exists(path) else cbi_show.where.one_file(hunt.chosen.text, source)


def pages_lost(view: rows.View, pages: List[str]) -> str:
    """Writes the pages; answers what can't be written, which doesn't keep the text from being shown."""
    for page in pages:
        try:
            cbi_show.command.write(cbi_show.command.formatted(view, "html"), page)
        except OSError as error:
            return f"{page}: {(error.strerror or '').lower()}; the page isn't written, and all of it stands in the text"
    return ""


def show(hunt: Hunt, notes: List[str], newline: Optional[str], warning: Optional[str] = None) -> bool:
    """Ranks and shows; answers whether something is shown that may be the bug."""
    kept = hunt.kept
    ranking = rank(hunt)
    program, source = cbi_show.files.read_program(hunt.plan.program), cbi_show.files.read_source(kept.path("source.c"))
    cards = cbi_show.files.read_cards(kept.path("cards")) if ranking.rows else {}
    pair = cbi_show.files.read_pairs(kept.path("pairs")) if ranking.rows else None
    where = where_of(hunt, source)
    hunted = facts_of(hunt, program, notes, "" if hunt.count.failed and hunt.count.succeeded else advice(hunt, newline), warning)
    view = rows.view_of(ranking, rows.Given(where, source, program, cards, kept.path("runs"), lister_of(hunt), pair, hunted))
    examples = examples_of(hunt, view.answer, program)
    shown = {bug.number for bug in view.answer.leading()} if view.answer else set()
    examples = [example._replace(broke=broke_of(hunt, example, where)) if number in shown or not shown else example for number, example in enumerate(examples, 1)]
    hunted = hunted._replace(examples=examples, hanging=hanging_places(hunt, program, wording.Wording(source, program, where)))
    write_hunted(kept.path("told.json"), hunted)
    view = view._replace(hunted=hunted)
    # The pages come first, since whoever reads the text may close the pipe behind its first lines.
    pages = [page for page in (hunt.chosen.html, os.path.join(hunt.chosen.keep, "page.html") if hunt.chosen.keep else None) if page]
    lost = pages_lost(view, pages)
    for line in cbi_show.command.formatted(view, "text", hunt.chosen.all):
        print(line)
    if pages and not lost:
        print(f"page: {pages[0]}")
    sys.stdout.flush()
    if lost:
        raise Fault(lost)
    return view.found()
