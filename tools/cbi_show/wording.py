"""Predicates in the words of the text that a person wrote, and where they stand in it. Not proved."""
import re
from typing import Dict, FrozenSet, List, NamedTuple, Optional, Tuple

from cbi_show.authors import Authors
from cbi_show.files import Program, Site
from cbi_show.reach import Reach
from cbi_show.source import CALL, Fact, Source, plain_fact
from cbi_show.where import Spot, Where


MOST_CALLEES = 3


class Told(NamedTuple):
    """A predicate in words, with its place in the text of a person. None is told of a predicate that stands in what a port added, but for calls by pointers."""
    fact: Fact
    spot: Spot
    function: str


class Wording:
    """Predicates in words: by the text, where the program and its text are there, and where that was ported by the files it comes from."""

    def __init__(self, source: Optional[List[str]], program: Optional[Program], where: Where):
        self.source = Source(source) if source else None
        self.where = where
        self.authors = Authors(self.source, where, {name: Source(lines) for name, lines in where.files.items()}) if self.source and where.lines else None
        self.numbered = program.numbered() if program else {}
        self.program = program
        self.calls: Dict[str, List[int]] = {}
        self.reached: Optional[Reach] = None

    def site(self, predicate: int) -> Optional[Site]:
        return self.numbered[predicate][0] if predicate in self.numbered else None

    def fact(self, predicate: int, scheme: str, text: str) -> Fact:
        site = self.site(predicate)
        return self.of_site(site, text) if site else plain_fact(scheme, text)

    def statement(self, site: Site) -> str:
        """The condition, call or assignment that a site stands at."""
        said = self.of_site(site, site.predicates()[0][0])
        return said.says[len(said.when()):] if said.when() else said.code

    def of_site(self, site: Site, text: str) -> Fact:
        place = self.source.place_of(site) if self.source else None
        if self.source is None or place is None:
            return plain_fact(site.scheme, text)
        spot = self.spot(site)
        if self.authors and not spot.added and self.where.text(spot) is not None:
            return self.authors.fact(place, site, text)
        return self.source.fact_at(place, site, text, self.source)

    def spot(self, site: Site) -> Spot:
        """The place of a site as a person knows it."""
        spot = self.where.spot(site.line, site.function)
        place = self.source.place_of(site) if self.source and self.authors and not spot.added else None
        own = self.authors and place is not None and self.where.text(spot) is not None and self.authors.own(place, site)
        return Spot(self.where.main, site.line, True) if own else spot

    def only_at(self, site: Site, text: str) -> List[int]:
        """The lines of the file of the site that run only where this is true."""
        return self.reach().only(site, text.endswith("true"))

    def reach(self) -> Reach:
        if self.reached is None:
            self.reached = Reach(self.source, self.program, self.where)
        return self.reached

    # What a port added

    def told(self, site: Site, text: str) -> Optional[Told]:
        """A predicate in words, with its place; none where only what a port added has it."""
        spot = self.spot(site)
        if not spot.added:
            return Told(self.of_site(site, text), spot, self.where.called(site.function))
        return self.call_told(site, text) if site.function.startswith(CALL) else None

    def left_out(self) -> FrozenSet[int]:
        """The sites of which nothing is told."""
        if not self.program or not self.where.lines:
            return frozenset()
        added = [site for site in self.program.sites if self.spot(site).added]
        return frozenset(site.number for site in added if not site.function.startswith(CALL) or self.call_told(site, site.predicates()[0][0]) is None)

    def call_told(self, site: Site, text: str) -> Optional[Told]:
        """A function of the port goes through those that a pointer may stand for: a branch of it says which one a call went to."""
        if site.function not in self.calls:
            self.calls[site.function] = [line for line in self.source.calls_of(site.function) if not self.where.spot(line, "").added] if self.source else []
        lines = self.calls[site.function]
        place = self.source.place_of(site) if self.source else None
        if self.source is None or place is None or not lines or site.scheme == "returns" and self.source.gives_object(site.names[0]):
            return None
        spots = list(dict.fromkeys(self.where.spot(line, "") for line in lines))
        where = " or ".join(self.where.named(spot) for spot in spots)
        if site.scheme == "branches":
            callees = self.callees_of(site, text.endswith("true"))
            went = f"went to {' or '.join(callees)}" if len(callees) <= MOST_CALLEES else f"did not go to {self.callees_of(site, True)[0]}"
        else:
            callees = [self.where.named_function(site.names[0])]
            went = f"went to {callees[0]}, which {self.source.fact_at(place, site, text, self.source).says}"
        known = all(re.fullmatch(r"[A-Za-z_]\w*", callee) for callee in callees)
        return Told(Fact("", f"the call at {where} {went}"), spots[0], self.function_at(lines[0])) if callees and known else None

    def callees_of(self, site: Site, true: bool) -> List[str]:
        """The function that a call went to where a branch is true, or those that are left where it is false."""
        branches = [one for one in self.program.sites if one.function == site.function and one.scheme == "branches"] if self.program else []
        behind = [site] if true else [one for one in branches if one.token > site.token]
        return [self.where.named_function(self.source.callee_of(one.token)) for one in behind] if self.source else []

    def function_at(self, line: int) -> str:
        """The function of the text that a line is in, by the sites around it."""
        sites: Dict[int, str] = {site.line: site.function for site in self.program.sites if site.function not in self.where.added} if self.program else {}
        before = [other for other in sites if other <= line]
        return self.where.called(sites[max(before)] if before else sites[min(sites)] if sites else "")
