"""The facts of a ported text in the words of the files that it was ported from: by the notes that the porter left, else by the same word of the line, else by the line itself. Not proved."""
from typing import Dict, List, NamedTuple, Optional

from cbi_show.files import Site
from cbi_show.source import AFTER, ASSIGNMENTS, BYTES_READ, NUMBERS, POINTERS, READ_IN, Fact, Source, clipped, with_character
from cbi_show.where import OF_PORT, Where

HEADS = ("if", "while", "for", "do")
LEFT = "if (cbi_jumps.to)"   # what the port asks behind a call that `longjmp` may have left
AROUND = 40             # lines that an expression may go on behind its first one
MOST_SWITCH = 1000      # lines that a `switch` may have
# What is known of a number of which the text has the bits alone: whether it is 0.
BITS = {"<=": "0", "==": "0", ">": "other than 0", "!=": "other than 0"}
VALUES: Dict[str, Dict[str, str]] = {"object": {}, "bits": BITS, "pointer": POINTERS}
TRUTHS = {"<=": "false", "==": "false", ">": "true", "!=": "true"}
DONE = {"call": "returned", "store": "is done", "value": "is evaluated"}
VERBS = {"call": "returned", "store": "stored", "value": "is"}


class Noted(NamedTuple):
    """What the porter says of a token of the text: of a statement's head the author's word, of a call the expression that it stands for."""
    kind: str
    text: str


class Authors:
    """The facts of sites that stand on lines of the files."""

    def __init__(self, compiled: Source, where: Where, files: Dict[str, Source]):
        self.compiled, self.where, self.files = compiled, where, files
        self.noted = {place: Noted(note.kind, note.text) for note, place in zip(where.notes, compiled.places_at(where.notes)) if place is not None}

    def own(self, place: int, site: Site) -> bool:
        """Whether a site on a line of the author's is the port's own: it looks at a name, a call or a condition that he didn't write, or at where a number of 64 bits lies."""
        spot, word = self.where.spot(site.line, site.function), site.names[0]
        if site.scheme == "pairs":
            return any(self.where.called(name).startswith(OF_PORT) for name in site.names)
        source, note = self.files[spot.file], self.noted.get(place)
        if note or self.same_word(place, source, spot.line, site) is not None:
            return note is not None and note.kind.endswith(" object")
        if site.scheme == "returns":
            return word.startswith(OF_PORT) or not source.words_on(spot.line, self.where.called(word))
        if word in HEADS:
            return self.compiled.head(place) != LEFT and (bool(self.where.notes) or source.labels_on(spot.line) is None)
        return not source.words_on(spot.line, self.compiled.word(place))

    def fact(self, place: int, site: Site, text: str) -> Fact:
        """A predicate of a site that isn't the port's own, at a place of the compiled text."""
        spot = self.where.spot(site.line, site.function)
        source, note = self.files[spot.file], self.noted.get(place)
        line = clipped((self.where.text(spot) or "").strip())
        if site.scheme == "returns":
            code = self.expression(note, source, spot.line) if note else None
            return returned_by(note, code or self.same_call(place, site, source) or "", site, text, line, self.compiled)
        if site.scheme == "pairs":
            return Fact(self.named(with_character("pairs", text)), self.when(place, note, source, site, line))
        return self.branch(place, site, text, source, line)

    def when(self, place: int, note: Optional[Noted], source: Source, site: Site, line: str) -> str:
        """When a variable has its value: after the assignment, or when what the porter has seen in its place is read. `line` is said where the assignment isn't known."""
        at = self.where.spot(site.line, site.function).line
        if note and note.kind == "read":
            return READ_IN + line
        code = source.stored(note.text, at, at + AROUND) if note and note.kind == "stored" else self.assignment(place, source, at, site)
        return AFTER + (clipped(code) or line)

    def branch(self, place: int, site: Site, text: str, source: Source, line: str) -> Fact:
        spot, word, truth = self.where.spot(site.line, site.function), site.names[0], text.split(" ")[-1]
        note = self.noted.get(place)
        if note and note.kind in ("head", "turned"):
            theirs = self.same_head(place, note, source, spot.line, site)
            truth = {"true": "false", "false": "true"}[truth] if note.kind == "turned" else truth
            return source.branch(theirs, "?:" if note.text == "?" else note.text, truth) if theirs is not None else Fact(line, f"(a condition there) is {truth}")
        if word in HEADS and self.compiled.head(place) == LEFT:
            return Fact(line, "is left by longjmp" if truth == "true" else "is not left by longjmp")
        labels = source.found(note.text, spot.line, spot.line + MOST_SWITCH, False) if note else None
        labels = labels or (source.labels_on(spot.line) if word == "if" else None)
        if labels:
            return Fact(clipped(labels), f"is {truth}")
        same = self.same_word(place, source, spot.line, site)
        return source.branch(same, word, truth) if same is not None else Fact(line, f"(a condition there) is {truth}")

    def expression(self, note: Noted, source: Source, line: int) -> Optional[str]:
        """The author's expression; of an assignment with a macro in its value what stands behind the same left side."""
        found = source.found(note.text, line, line + AROUND)
        return found or (source.found_assignment(note.text, line, line + AROUND) if note.kind.startswith("store") else None)

    # Places in the author's file

    def theirs(self, site: Site) -> List[int]:
        """The places on the line of a site: all that was made of the author's line, but for further copies of its function."""
        return self.compiled.by_line.get(site.line, [])

    def same_head(self, place: int, note: Noted, source: Source, line: int, site: Site) -> Optional[int]:
        ours = source.words_on(line, note.text) or (source.words_on(line, "while") if note.text == "do" else [])
        theirs = [at for at in self.theirs(site) if at in self.noted and self.noted[at].kind in ("head", "turned") and self.noted[at].text == note.text]
        return ours[theirs.index(place)] if len(ours) == len(theirs) else None

    def same_word(self, place: int, source: Source, line: int, site: Site) -> Optional[int]:
        """The place in the author's file of the word at a place, whose lines were made of this line; none where these have other words of it, or where the porter would have left a note."""
        word = self.compiled.word(place)
        if word in HEADS and self.where.notes:
            return None
        ours = source.words_on(line, self.where.called(word)) or (source.words_on(line, word[len(OF_PORT):]) if word.startswith(OF_PORT) else [])
        theirs = [at for at in self.theirs(site) if self.compiled.word(at) == word]
        if len(ours) != len(theirs) and word in ASSIGNMENTS:
            # A port may assign more on a line than the author did: only what is given to the same variable is compared.
            name = self.compiled.word(place - 1)
            ours = [at for at in ours if source.word(at - 1) == self.where.called(name)]
            theirs = [at for at in theirs if self.compiled.word(at - 1) == name]
        return ours[theirs.index(place)] if len(ours) == len(theirs) and place in theirs else None

    def same_call(self, place: int, site: Site, source: Source) -> str:
        same = self.same_word(place, source, self.where.spot(site.line, site.function).line, site)
        return source.call_at(same) if same is not None else ""

    def assignment(self, place: int, source: Source, line: int, site: Site) -> str:
        """The assignment as the author wrote it; nothing where it isn't known."""
        same = self.same_word(place, source, line, site)
        return source.assignment(same) if same is not None else source.found(self.compiled.assignment(place), line, line + AROUND) or ""

    def named(self, text: str) -> str:
        """A predicate of two names with the author's."""
        return " ".join(self.where.called(word) for word in text.split(" "))


def returned_by(note: Optional[Noted], code: str, site: Site, text: str, line: str, compiled: Source) -> Fact:
    """What a call of the text gave: what the author's call, expression or assignment did."""
    relation = text.split(" ")[-2]
    doing, _, what = (note.kind if note else "call " + ("pointer" if compiled.gives_pointer(site.names[0]) else "number")).partition(" ")
    code = clipped(code)
    place = "" if code else {"call": "(a call there) ", "store": "(an assignment there) "}.get(doing, "(a value there) ")
    code = code or line
    if doing == "truth":
        return Fact(code, place + (f"is {TRUTHS[relation]}" if relation in TRUTHS else "is evaluated"))
    values = VALUES.get(what, NUMBERS)
    if doing == "call" and code.split("(")[0].strip() in BYTES_READ and relation in ("<", ">="):
        return Fact(code, "returned EOF" if relation == "<" else "returned a byte, not EOF")
    return Fact(code, place + (f"{VERBS[doing]} {values[relation]}" if relation in values else DONE[doing]))
