"""Where `cbi lines` and `cbi bugs` point: over all sites, as they print it, and without what a port added, as `cbi-hunt` asks for it."""
import os
from typing import Dict, List, NamedTuple, Tuple

from corpus_runs import call
from corpus_scores import Place
from corpus_subject import Built, Known, program_of

import cbi_show.bugs

MOST_LINES = 1000  # of which all are judged; how far apart they stand, how many bugs there are and how many places each has is as the commands have it by themselves


class Pointed(NamedTuple):
    """The lines in their order; and the bugs, each with its leader first and its further places behind it."""
    lines: List[Place]
    bugs: List[List[Place]]

    def lists(self) -> Dict[str, List[Place]]:
        """The lines; the leaders of the bugs; and `also`, all places of the bugs as they are printed."""
        return {"lines": self.lines, "bugs": [bug[0] for bug in self.bugs], "also": [place for bug in self.bugs for place in bug]}


def listed(cbi: str, built: Built, collection: str) -> Pointed:
    paths = {command: f"{collection}.{command}" for command in ("lines", "bugs")}
    call([cbi, "lines", f"--most={MOST_LINES}", "--", built.program, collection], paths["lines"])
    call([cbi, "bugs", "--", built.program, collection], paths["bugs"])
    lines, bugs = cbi_show.bugs.read_lines(paths["lines"]), cbi_show.bugs.read_bugs(paths["bugs"])
    for path in paths.values():
        os.remove(path)
    return Pointed([place_of(one, built) for one in lines.lines], [[place_of(bug.leader, built), *(also_of(one, built) for one in bug.also)] for bug in bugs.bugs])


def place_of(found: cbi_show.bugs.Found, built: Built) -> Place:
    return Place(built.line(found.line, found.function), found.function, found.text, found.a, found.b, found.predicate, found.strength)


def also_of(found: cbi_show.bugs.Also, built: Built) -> Place:
    """A further place, of whose predicate the number isn't printed."""
    return Place(built.line(found.line, found.function), found.function, found.text, found.a, found.b, -1, found.strength)


def pointed(cbi: str, known: Known, collection: str) -> Tuple[Pointed, Pointed]:
    """What the commands print; and what they print of the runs without what these saw at sites that the port added."""
    built = known.built
    printed = listed(cbi, built, collection)
    added = frozenset(site.number for site in program_of(built).sites if built.line(site.line, site.function) is None)
    if not added:
        return printed, printed
    rest = f"{collection}.own"
    cbi_show.bugs.without_sites(collection, added, rest)
    own = listed(cbi, built, rest)
    os.remove(rest)
    return printed, own


def lists(cbi: str, known: Known, collection: str) -> Dict[str, List[Place]]:
    """All lists of both, those without what the port added behind `own-`."""
    printed, own = pointed(cbi, known, collection)
    return {**printed.lists(), **{f"own-{name}": places for name, places in own.lists().items()}}
