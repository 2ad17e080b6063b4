"""The lines that a branch leads to, in the text of a person: those that run only where it was taken, and statements without a site, each by the one branch that it depends on. Not proved.

The graph is that of the text which was compiled, and its lines become those of the files that it was ported from; a line is told where all that was made of it agrees.
"""
from typing import Dict, List, NamedTuple, Optional, Sequence, Set, Tuple

from cbi_show.files import Program, Site
from cbi_show.flow import NEITHER, STATEMENT, Arm, Flow, flows_of
from cbi_show.source import Source
from cbi_show.where import Spot, Where

MOST_NAMED = 3     # of the lines that a branch leads to


class Led(NamedTuple):
    """A statement that has no site on its line. A call that isn't ended on the way comes to it exactly where this predicate of a branch is true in it."""
    predicate: int
    spot: Spot
    function: str


class Reach:
    """What the branches of a program lead to; nothing, where the text isn't the one that was compiled."""

    def __init__(self, source: Optional[Source], program: Optional[Program], where: Where):
        self.where = where
        self.sites: List[Site] = program.sites if program else []
        fits = source is not None and all(source.place_of(site) is not None for site in self.sites)
        self.flows: List[Flow] = flows_of(source) if source and fits else []
        self.predicates: Dict[Arm, int] = {}
        self.known: Optional[Dict[int, List[Led]]] = None
        for number, (site, text, _) in program.numbered().items() if program else ():
            if site.scheme == "branches":
                self.predicates[Arm(site.token, text.endswith("true"))] = number
        self.at: Dict[Spot, List[Tuple[Flow, int]]] = {}
        for flow in self.flows:
            for node, one in enumerate(flow.nodes):
                if one.kind != NEITHER:
                    self.at.setdefault(where.spot(one.line, flow.name), []).append((flow, node))

    def only(self, site: Site, truth: bool) -> List[int]:
        """The lines of the file of a branch that run only where it has this truth, and those between them that have no statement."""
        flow = next((flow for flow in self.flows if flow.name == site.function), None)
        here = self.where.spot(site.line, site.function)
        if flow is None or site.scheme != "branches" or here.added:
            return []
        alone = flow.only(Arm(site.token, truth))
        lines = sorted(spot.line for spot, nodes in self.at.items()
                       if spot.file == here.file and not spot.added and spot.line != here.line and all(other is flow and node in alone for other, node in nodes))
        empty: List[int] = []
        for line, after in zip(lines, lines[1:]):
            between = range(line + 1, after)
            empty += [] if any(Spot(here.file, other) in self.at for other in between) else between
        return sorted(lines + empty)

    def led(self) -> Dict[int, List[Led]]:
        """The statements without a site of each branch, by its predicate, in their order."""
        if self.known is None:
            self.known = self.led_now()
        return self.known

    def led_now(self) -> Dict[int, List[Led]]:
        with_site: Set[Spot] = {self.where.spot(site.line, site.function) for site in self.sites}
        leading = {id(flow): flow.leading() for flow in self.flows}
        found: Dict[int, List[Led]] = {}
        for spot, nodes in sorted(self.at.items()):
            arms = {(flow.name, leading[id(flow)].get(node)) for flow, node in nodes}
            function, arm = arms.pop()
            plain = not arms and all(flow.nodes[node].kind == STATEMENT for flow, node in nodes)
            if plain and arm is not None and arm in self.predicates and spot not in with_site and not spot.added:
                found.setdefault(self.predicates[arm], []).append(Led(self.predicates[arm], spot, function))
        return found


def named_lines(spots: Sequence[Spot], where: Where) -> str:
    """`line 18`, `lines 4, 5 and 7`, `lines 4, 5, 7 and 2 more`."""
    names = [where.named(spot) for spot in spots[:MOST_NAMED]]
    if all(name.startswith("line ") for name in names) and len(names) > 1:
        names = [f"lines {names[0][5:]}", *(name[5:] for name in names[1:])]
    rest = f"{len(spots) - MOST_NAMED} more" if len(spots) > MOST_NAMED else names.pop() if len(names) > 1 else ""
    return ", ".join(names) + (f" and {rest}" if rest else "")
