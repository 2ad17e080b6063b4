"""Shows bugs, suspicious lines and a ranking of cbi to people: as text, as a page, for code review and for editors. Not proved.

The numbers of rows are those of the ranking; those of bugs and lines are counted here, and what is added is how they are drawn, the lines of the source, and
the interval of the thermometers (docs/METHOD.md has the test that it goes by).
"""
import argparse
import os
import shutil
import sys
from typing import Dict, FrozenSet, Iterator, List, Tuple

import cbi_show.hunted
import cbi_show.text
import cbi_show.where
from cbi_show import bugs, files, page, rows, sarif
from cbi_show.calls import executable
from cbi_show.files import FOUND, NOTHING, Fault, Program, Site, count_of

EXAMPLES = """\
examples:
  cbi rank prog.cbi runs >ranking
  cbi-show ranking --source prog.c --program prog.cbi
  cbi cards prog.cbi runs >cards
  cbi-show ranking --source prog.c --program prog.cbi --cards cards --reports runs --format html --output page.html
  cbi-show --hunt kept --format sarif  what `cbi-hunt --keep kept` found
  cbi study --runs 1000 --seed 7 --rate 10 --turns 100000 prog.c | cbi-show - --source prog.c
  cbi-show --sites prog.cbi 6 8        what sites 6 and 8 are, as `cbi run` names them

It ends with 0, with 1 where the ranking has no row and no fact is beyond chance, and with 2 where what it was given is wrong.
"""
WIDEST = 200


def arguments() -> argparse.Namespace:
    parser = files.Words(
        prog="cbi-show", description="Shows what runs of cbi say: the bugs, suspicious lines, and a ranking with its predicates.",
        epilog=EXAMPLES + files.NOT_PROVED, formatter_class=argparse.RawDescriptionHelpFormatter)
    parser.add_argument("names", metavar="RANKING", nargs="*", help="what cbi rank or cbi study wrote; - is standard input")
    parser.add_argument("--hunt", metavar="DIR", help="the folder that cbi-hunt --keep left: its ranking, and all that belongs to it")
    parser.add_argument("--source", metavar="PROG.c", help="the C text: its lines are shown beside the rows")
    parser.add_argument("--lines", metavar="MAP", help="the map that cbi-port wrote beside the C text: files and lines are those it was ported from")
    parser.add_argument("--program", metavar="PROG.cbi", help="the program file: it is looked at whether the ranking is one of it")
    parser.add_argument("--cards", metavar="CARDS", help="what cbi cards wrote: which rows stand together, counts over all runs, and failing runs to look at")
    parser.add_argument("--pairs", metavar="PAIRS", help="what cbi pairs wrote: the best pair is shown where it says more than the first row")
    parser.add_argument("--reports", metavar="COLL", help="the collection: the bugs and suspicious lines, how runs ended, where failing runs go, and what may be chance (asks for --program)")
    parser.add_argument("--cbi", metavar="CBI", default="cbi", help="the executable that lists the bugs and lines of --reports (cbi on the path without this option, or else beside this script)")
    parser.add_argument("--format", choices=["text", "html", "sarif", "quickfix"], default="text",
                        help="text (without this option), a page that stands alone, SARIF 2.1.0 for code review, or file:line: text for editors")
    parser.add_argument("--all", action="store_true", help="shows weak facts too, and the rows of the ranking, which a text folds")
    parser.add_argument("--output", metavar="FILE", help="the file to write, in place of standard output")
    parser.add_argument("--sites", metavar="PROG.cbi", help="says what the sites of a program file are, all or those whose numbers are given; no ranking is shown")
    chosen = parser.parse_args()
    if not chosen.sites and len(chosen.names) != (0 if chosen.hunt else 1):
        parser.error("one ranking is asked for, or --hunt, or --sites")
    if chosen.reports and not chosen.program:
        parser.error("--reports asks for --program, which says what a collection's sites are")
    if chosen.lines and not chosen.source:
        parser.error("--lines asks for --source, the text that was ported")
    if chosen.format in ("sarif", "quickfix") and not (chosen.source or chosen.hunt):
        parser.error(f"--format {chosen.format} names lines of a file, and asks for --source")
    return chosen


# Sites

def sites_of(name: str, wanted: List[str]) -> Iterator[str]:
    """A line for each site: number, line, function, scheme, and what is looked at, with the numbers of its predicates."""
    program = files.read_program(name)
    numbers = [site_number(program, word) for word in wanted] or list(range(len(program.sites)))
    first: Dict[int, int] = {}
    for number, (site, _, _) in program.numbered().items():
        first.setdefault(site.number, number)
    for number in numbers:
        site = program.sites[number]
        predicates = site.predicates()
        last = first[number] + len(predicates) - 1
        yield (f"site {number}, line {site.line}, {site.function}: {looked_at(site)}; "
               f"predicates {first[number]} to {last}, `{predicates[0][0]}` to `{predicates[-1][0]}`")
    if not program.sites:
        yield "The program has no sites."


def site_number(program: Program, word: str) -> int:
    if not word.isdigit() or int(word) >= len(program.sites):
        raise Fault(f"{word} is no site: the program has {count_of(len(program.sites), 'site')}, numbered from 0")
    return int(word)


def looked_at(site: Site) -> str:
    if site.scheme == "branches":
        return f"whether the condition of `{site.names[0]}` is true"
    if site.scheme == "returns":
        return f"what `{site.names[0]}` returns, beside 0"
    return f"the new value of `{site.names[0]}` beside {'the constant ' if site.constant else ''}`{site.names[1]}`"


# Rankings

def lister_of(cbi: str, program: str, collection: str) -> bugs.Lister:
    """Has `cbi` list the lines and the bugs of a collection."""
    def listed(left_out: FrozenSet[int]) -> bugs.Listed:
        tool = executable(cbi)
        bugs.check_lists(tool)
        with files.folder_for_a_while("cbi-show-") as folder:
            return bugs.list_runs(tool, program, collection, left_out, folder)

    return listed


def view_of_hunt(folder: str, cbi: str) -> rows.View:
    """What a hunt left in its folder. The text of the program is read where it stood when the hunt was made, if it is there and still the same; what an older hunt has no lists of is listed anew."""
    def path(name: str) -> str:
        return os.path.join(folder, name)

    hunted = cbi_show.hunted.read_hunted(path("told.json"))
    source = files.read_source(path("source.c"))
    pair = files.read_pairs(path("pairs")) if os.path.exists(path("pairs")) else None
    cards = files.read_cards(path("cards")) if os.path.exists(path("cards")) else {}
    where = cbi_show.where.ported(path("source.c"), path("source.c.lines"), hunted.folder) if os.path.exists(path("source.c.lines")) else cbi_show.where.one_file(hunted.source, source)
    lists = all(os.path.exists(path(name)) for name in ("lines", "bugs"))
    lister = (lambda _: bugs.read_listed(folder)) if lists else lister_of(cbi, path("program"), path("runs"))
    given = rows.Given(where, source, files.read_program(path("program")), cards, path("runs"), lister, pair, hunted)
    return rows.view_of(files.read_ranking(path("ranking")), given)


def view_of_files(chosen: argparse.Namespace) -> rows.View:
    ranking = files.read_ranking(chosen.names[0])
    source = files.read_source(chosen.source) if chosen.source else None
    program = files.read_program(chosen.program) if chosen.program else None
    cards = files.read_cards(chosen.cards) if chosen.cards else {}
    pair = files.read_pairs(chosen.pairs) if chosen.pairs else None
    where = cbi_show.where.ported(chosen.source, chosen.lines) if chosen.lines else cbi_show.where.one_file(chosen.source or chosen.names[0], source)
    lister = lister_of(chosen.cbi, chosen.program, chosen.reports) if chosen.reports else None
    return rows.view_of(ranking, rows.Given(where, source, program, cards, chosen.reports, lister, pair, None))


def width_of(to_file: bool) -> int:
    """How wide lines may be: as the terminal is, and where there is none as wide as one line of a source may well be."""
    return WIDEST if to_file else shutil.get_terminal_size((WIDEST, 24)).columns if sys.stdout and sys.stdout.isatty() or "COLUMNS" in os.environ else WIDEST


def formatted(view: rows.View, form: str, every: bool = False, to_file: bool = False) -> Iterator[str]:
    if form == "text":
        return cbi_show.text.text_of(view, width_of(to_file), every)
    return {"html": page.page_of, "sarif": sarif.sarif_of, "quickfix": sarif.quickfix_of}[form](view)


def write(lines: Iterator[str], path: str) -> None:
    """Writes a file, which is there whole or not at all; what is no plain file, as a pipe, and what stands where no other may, takes it as it comes."""
    text = "".join(line + "\n" for line in lines)
    direct = os.path.islink(path) or os.path.exists(path) and not (os.path.isfile(path) and os.access(os.path.dirname(path) or ".", os.W_OK))
    target = path if direct else path + ".part"
    try:
        with open(target, "w", encoding="utf-8", errors="backslashreplace", newline="\n") as file:
            file.write(text)
        if target != path:
            os.replace(target, path)
    finally:
        if target != path and os.path.exists(target):
            os.remove(target)


def lines_of(chosen: argparse.Namespace) -> Tuple[Iterator[str], int]:
    """The lines that are asked for, and the status."""
    if chosen.sites:
        return sites_of(chosen.sites, chosen.names), FOUND
    view = view_of_hunt(chosen.hunt, chosen.cbi) if chosen.hunt else view_of_files(chosen)
    return formatted(view, chosen.format, chosen.all, bool(chosen.output)), FOUND if view.found() else NOTHING


def main() -> int:
    chosen = arguments()
    lines, status = lines_of(chosen)
    if chosen.output:
        write(lines, chosen.output)
        return status
    for line in lines:
        print(line)
    return status
