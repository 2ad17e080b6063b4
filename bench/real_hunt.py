"""Hunts a bug by cbi-hunt, and finds the places of its line and function among what came."""
import os
import re
import shutil
import sys
from typing import Callable, Dict, FrozenSet, List, NamedTuple, Optional, Sequence, Tuple

import corpus_scores
from real_bug import HERE, Bug, changed_lines
from real_inputs import Made
from real_native import Coverage, coverage
from real_source import Missing
from timing import Timed, timed

TOOLS = os.path.join(os.path.dirname(HERE), "tools")
sys.path.insert(0, TOOLS)
import cbi_show.rows  # noqa: E402
import cbi_show.where  # noqa: E402
from cbi_show import bugs, files  # noqa: E402
from cbi_show.hunted import read_hunted  # noqa: E402


MOST_FAILING, MOST_OTHERS = 100, 200   # runs that gcov reads

Place = Optional[float]


class Places(NamedTuple):
    """The place, from 1, of the first that is in the bug's function, at most five lines from its line, and at its line; none where none is; and how many places there are."""
    function: Place
    near: Place
    line: Place
    total: int


class Row(NamedTuple):
    """A place that is shown: its file, its line, its function, and what is said there."""
    file: str
    line: int
    function: str
    text: str


class Shown(NamedTuple):
    """What came of a hunt: runs, failing ones, sites, tokens, the rows of each list, which runs failed, by the inputs' names, and the version that hunted."""
    runs: int
    failing: int
    sites: int
    tokens: int
    lists: Dict[str, List[Row]]
    failed: FrozenSet[str]
    names: List[str]
    version: str


def hunted(bug: Bug, source: str, made: Made, keep: str, executable: str, jobs: int) -> Timed:
    """Calls cbi-hunt. What it shows stands in the folder that is kept, as screen."""
    program = bug.program
    shutil.rmtree(keep, ignore_errors=True)
    words = [sys.executable, os.path.join(TOOLS, "cbi-hunt"), *program.texts(), "--inputs", made.inputs, "--memory", program.memory, "--turns", str(program.turns),
             "--keep", keep, "--jobs", str(jobs), "--cbi", executable, "--no-check"]
    words += [] if bug.traps_alone else ["--expect", made.expected]
    words += ["--schemes", program.schemes] if program.schemes else []
    words += ["--hangs", "fail"] if bug.hangs else []
    words += ["--args", program.arguments] if program.arguments else []
    words += ["--", *program.options] if program.options else []
    here = os.getcwd()
    os.chdir(os.path.join(source, program.folder))
    try:
        done = timed(words, keep + ".screen")
    finally:
        os.chdir(here)
    if done.status not in (files.FOUND, files.NOTHING):
        raise Missing(f"cbi-hunt: {done.said.strip()[-300:]}")
    return done


def shown(bug: Bug, source: str, keep: str) -> Shown:
    """Reads what a hunt has kept."""
    folder = os.path.join(source, bug.program.folder)

    def kept(name: str) -> str:
        return os.path.join(keep, name)
    where = cbi_show.where.ported(bug.program.texts()[0], kept("source.c.lines"), folder) if os.path.exists(kept("source.c.lines")) else \
        cbi_show.where.one_file(bug.program.texts()[0], files.read_source(kept("source.c")))
    program, told, ranking = files.read_program(kept("program")), read_hunted(kept("told.json")), files.read_ranking(kept("ranking"))
    given = cbi_show.rows.Given(where, files.read_source(kept("source.c")), program, {}, kept("runs"), lambda _: bugs.read_listed(keep), None, told)
    view = cbi_show.rows.view_of(ranking, given)
    answer = view.answer
    if answer is None:
        raise Missing("the hunt has no answer")
    lists: Dict[str, List[Row]] = {"bugs": [Row(bug.lead.told.spot.file, bug.lead.told.spot.line, bug.lead.told.function, bug.lead.found.text) for bug in answer.bugs],
             "lines": [Row(one.told.spot.file, one.told.spot.line, one.told.function, one.found.text) for one in answer.lines], "rank": []}
    for row in ranking.rows:
        spot = where.spot(row.line, row.function)
        lists["rank"].append(Row("" if spot.added else spot.file, spot.line, row.function, row.text))
    failed = frozenset(told.names.values())
    return Shown(answer.failing + answer.successful, answer.failing, len(program.sites), tokens_of(kept("source.c")), lists, failed, sorted(os.listdir(os.path.join(keep, "..", "inputs"))),
                 told.version)


def report_of(runs: str) -> Tuple[int, int]:
    """The bytes and the site lines of a run's report in a collection, on average."""
    with open(runs, "rb") as file:
        lines = file.read().split(b"\n")
    count = sum(line.startswith(b"run ") for line in lines)
    return os.path.getsize(runs) // max(1, count), sum(line.startswith(b"site ") for line in lines) // max(1, count)


def tokens_of(path: str) -> int:
    """The tokens of a ported text, which has neither comments nor strings with blanks that matter."""
    text = files.decoded(files.read_bytes(path))
    return len(re.findall(r"\"(?:\\.|[^\"\\])*\"|'(?:\\.|[^'\\])+'|\w+|<<|>>|[<>=!]=|&&|\|\||\+\+|--|->|[-+*/%&|^]=|\S", text))


# Places

def is_function(named: str, function: str) -> bool:
    """Whether a name is that of a function; static ones of several files have a number behind theirs."""
    return re.sub(r"_\d+$", "", named) == re.sub(r"_\d+$", "", function)


def places_of(rows: Sequence[Row], bug: Bug) -> Places:
    """The places of a bug in a list of rows."""
    changed = [(os.path.relpath(file, bug.program.folder), line) for file, lines in changed_lines(bug).items() for line in lines]

    def same(row: Row, file: str) -> bool:
        return os.path.normpath(row.file) == file

    def first(wanted: Callable[[Row], bool]) -> Place:
        return next((float(number) for number, row in enumerate(rows, 1) if wanted(row)), None)
    return Places(first(lambda row: is_function(row.function, bug.function)),
                  first(lambda row: any(same(row, file) and abs(row.line - line) <= corpus_scores.NEAR for file, line in changed)),
                  first(lambda row: any(same(row, file) and row.line == line for file, line in changed)), len(rows))


def chosen_runs(came: Shown) -> List[Tuple[str, bool]]:
    """The inputs whose coverage is read, each with whether it fails: the first failing ones and the first others."""
    failing = [name for name in came.names if name in came.failed][:MOST_FAILING]
    others = [name for name in came.names if name not in came.failed][:MOST_OTHERS]
    return [(name, True) for name in failing] + [(name, False) for name in others]


def ochiai(bug: Bug, source: str, came: Shown, inputs: str) -> Tuple[Places, int, int]:
    """The places of a bug among all lines with code by Ochiai over gcov, equals in an order by chance; and of how many failing and other runs."""
    runs = chosen_runs(came)
    cover: Coverage = coverage(bug.program, source, [os.path.join(inputs, name) for name, _ in runs])
    target = corpus_scores.target_of(cover.numbered(changed_lines(bug)), cover.coded, cover.functions)
    failures = sum(fails for _, fails in runs)
    visits = corpus_scores.visits([(fails, lines) for (_, fails), lines in zip(runs, cover.runs)])
    scores = corpus_scores.suspicious(corpus_scores.ochiai, cover.coded, visits, failures, len(runs) - failures)
    function = {line for line in cover.coded if is_function(cover.functions[line], bug.function)}
    found = [corpus_scores.expected(scores, wanted) for wanted in (function, target.near, target.lines)]
    return Places(found[0], found[1], found[2], len(cover.coded)), failures, len(runs) - failures
