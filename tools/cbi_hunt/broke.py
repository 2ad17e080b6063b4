"""Looks where a failing run broke: makes it again with marks, and where memory was misused as gcc's sanitizers see it. Not proved.

`broken_at` is for any failing input, `broke_of` for the one that a hunt tells.
"""
import itertools
import os
import re
import subprocess
from typing import List, NamedTuple, Optional, Tuple

from cbi_show import files
from cbi_hunt.again import Repeater, program_for
from cbi_hunt.looks import Hunt
from cbi_hunt.marks import TICK, Marked, State, state_at, ticks_before, without_marks
from cbi_hunt.sanitized import Files, access_of, call_at
from cbi_hunt.signals import heed_now
from cbi_show.broke import HANG, OUTPUT, STATUS, TRAP, Access, Broke, Call, Wrong
from cbi_show.calls import call_to
from cbi_show.files import Fault
from cbi_show.hunted import Example
from cbi_show.seen import ending_of
from cbi_show.source import Source
from cbi_show.where import Where

SECONDS = 60             # for a run with marks
MOST_TURNS = 100000000   # of `cbi run`; a mark is a call, and takes one
MARKS_A_TURN = 8         # so many more turns has a run that hangs
NEVER = 2147483647
# Traps of which sanitizers know more than a line, where the object is from, and how they name them.
OF_MEMORY = {"trapped 6": ("overflow", "underflow", "out of bounds"), "trapped 7": ("use-after", "null"), "trapped 10": ("free",)}
# Traps that they don't see. The others they see, and are asked where the marks say nothing.
UNSEEN = {"trapped 4", "trapped 5", "trapped 11", "trapped 99"}


class Ran(NamedTuple):
    """How the run ended as the hunt makes it, and what it wrote; `due` is what it should have written, where that is known."""
    path: str
    outcome: str
    wrote: bytes
    due: Optional[bytes]


class Traced(NamedTuple):
    """A run with marks: the names of its functions, and where it was."""
    functions: List[str]
    state: State


def escape_for(wrote: bytes) -> Optional[int]:
    """A byte that an output hasn't, best a control byte; a 0 would end the format that writes it, and a % begin a conversion."""
    order = [*range(1, 9), *range(14, 32), *range(127, 256), *range(58, 127), 11, 12]
    return next((byte for byte in order if bytes([byte]) not in wrote), None)


def first_wrong(wrote: bytes, due: bytes) -> Optional[Wrong]:
    """The first byte that two outputs differ in."""
    at = next((place for place, (one, other) in enumerate(zip(wrote, due)) if one != other), min(len(wrote), len(due)))
    if at == len(wrote) == len(due):
        return None
    line = wrote.count(b"\n", 0, at)
    return Wrong(at + 1, line + 1, at - (wrote.rfind(b"\n", 0, at) + 1) + 1, wrote[at] if at < len(wrote) else None, due[at] if at < len(due) else None)


def encoded(text: str, source: bytes) -> bytes:
    """A text that was made from a source, in the bytes that its strings have there."""
    try:
        source.decode("utf-8-sig")
        return text.encode("utf-8")
    except UnicodeDecodeError:
        return text.encode("latin-1")


class Tracer:
    """Makes a run again with marks, in files of its own."""

    def __init__(self, hunt: Hunt, ran: Ran):
        self.hunt, self.ran = hunt, ran
        self.source = hunt.kept.path("source.c")
        self.text, self.program = hunt.kept.path("marked.c"), hunt.kept.path("marked")
        self.report, self.output = hunt.kept.path("marked.report"), hunt.kept.path("marked.output")

    def traced(self, byte: Optional[int]) -> Traced:
        """Where the run was at its end, or when it wrote a byte of its output, counted from 0. A Fault says why it isn't known."""
        escape = escape_for(self.ran.wrote)
        if escape is None:
            raise Fault("its output has all bytes, so no mark can be told apart")
        try:
            marked = Marked(files.read_source(self.source))
        except (ValueError, KeyError, IndexError) as error:
            raise Fault(f"its text can't be marked: {error}")
        try:
            ticks = ticks_before(self.run(marked, escape, NEVER, 0), escape, byte)
            hangs = self.ran.outcome == "cut turns"
            start = max(1, (ticks - hangs) * TICK)
            state = state_at(self.run(marked, escape, start, start + (2 + hangs) * TICK), escape, start, byte)
        finally:
            self.close()
        if state is None or not state.frames:
            raise Fault("the run with marks didn't come there")
        return Traced(marked.functions, state)

    def run(self, marked: Marked, escape: int, start: int, end: int) -> bytes:
        """What the run with a window wrote; it has to end as the run without marks did, with the same output."""
        heed_now()
        with open(self.text, "wb") as file:
            file.write(encoded(marked.text(escape, start, end), files.read_bytes(self.source)))
        try:
            call_to(self.program, [self.hunt.plan.cbi, "transform", "--mode=plain", "--", self.text])
        except Fault as fault:
            raise Fault(marked.too_large(escape) or str(fault))
        hangs = self.ran.outcome == "cut turns"
        turns = min(MOST_TURNS, MARKS_A_TURN * self.hunt.plan.turns) if hangs else MOST_TURNS
        words = [self.hunt.plan.cbi, "run", f"--input={self.ran.path}", f"--turns={turns}", f"--report={self.report}", "--", self.program]
        try:
            with open(self.output, "wb") as out:
                done = subprocess.run(words, stdin=subprocess.DEVNULL, stdout=out, stderr=subprocess.PIPE, timeout=SECONDS, check=False)
        except subprocess.TimeoutExpired:
            raise Fault(f"the run with marks took more than {SECONDS} s")
        if done.returncode:
            raise Fault(f"cbi run: {done.stderr.decode(errors='replace').strip()}")
        outcome = files.parse_report(self.report, files.decoded(files.read_bytes(self.report))).run.outcome
        wrote = files.read_bytes(self.output)
        left = without_marks(wrote, escape)
        if outcome != self.ran.outcome or not (left[:len(self.ran.wrote)] == self.ran.wrote[:len(left)] if hangs else left == self.ran.wrote):
            raise Fault(f"the run with marks went another way ({outcome})")
        return wrote

    def close(self) -> None:
        for path in (self.text, self.program, f"{self.program}.part", self.report, self.output):
            if os.path.exists(path):
                os.remove(path)


class Places:
    """The places of a traced run as its author knows them."""

    def __init__(self, traced: Traced, where: Where):
        self.traced, self.where = traced, where

    def call(self, line: int, function: str) -> Optional[Call]:
        """A line of the user's own; none where the port added it."""
        spot = self.where.spot(line, function) if line else None
        return None if spot is None or spot.added else call_at(self.where, spot.file, spot.line, self.where.called(function))

    def calls(self) -> List[Call]:
        """The active calls, the innermost first."""
        found = [self.call(frame.line, self.traced.functions[frame.function]) for frame in reversed(self.traced.state.frames)]
        return [call for call in found if call]

    def inside(self) -> str:
        """The function of the port's own in which the run is, as the author calls it, where it is in one that he called by its name."""
        names = [self.traced.functions[frame.function] for frame in self.traced.state.frames]
        own = list(itertools.takewhile(self.where.added.__contains__, reversed(names)))
        called = self.where.named_function(own[-1]) if own else ""
        word = re.compile(rf"\b{called}\b")
        return called if called and any(word.search(line) for lines in self.where.files.values() for line in lines) else ""

    def before(self) -> Optional[Call]:
        """The last statement that was done where no active call is."""
        active = {(call.file, call.line) for call in self.calls()}
        for function, line in reversed(self.traced.state.recent):
            call = self.call(line, self.traced.functions[function])
            if call and (call.file, call.line) not in active:
                return call
        return None

    def loop(self) -> Optional[Call]:
        """The loop that is never left: the innermost one that goes on since the first half of the run."""
        state = self.traced.state
        for place in reversed(range(len(state.loops))):
            loop = state.loops[place]
            frame = next((frame for frame in reversed(state.frames) if frame.base <= place), None)
            call = self.call(loop.line, self.traced.functions[frame.function]) if frame and loop.since <= state.clock // 2 else None
            if call:
                return call._replace(text=head_at(Source(self.where.files[call.file]), call.line) or call.text)
        return None


def head_at(source: Source, line: int) -> str:
    """The head of the loop of a line, where it has one alone."""
    heads = [place for place, token in enumerate(source.tokens) if token.line == line and token.text in ("while", "for", "do")]
    return source.head(heads[0]) if len(heads) == 1 else ""


def last_site(hunt: Hunt, path: str, where: Where) -> List[Call]:
    """The site that a run with all sites in view was seen at last."""
    full, repeater = program_for(hunt.chosen, hunt.plan.cbi, hunt.kept, "full"), Repeater(hunt.plan, hunt.kept.folder, "last")
    last = repeater.run(full, path).last
    repeater.close()
    sites = files.read_program(full).sites
    if last is None or last >= len(sites):
        return []
    spot = where.spot(sites[last].line, sites[last].function)
    return [] if spot.added else [call_at(where, spot.file, spot.line, where.called(sites[last].function))]


def kind_of(ran: Ran) -> Optional[Tuple[str, Optional[Wrong]]]:
    """What there is to look for: a trap, a hang, a wrong byte, or an end with a status other than 0."""
    if ran.outcome.startswith("trapped "):
        return TRAP, None
    if ran.outcome == "cut turns":
        return HANG, None
    if not ran.outcome.startswith("ended "):
        return None
    wrong = first_wrong(ran.wrote, ran.due) if ran.due is not None else None
    if wrong:
        return OUTPUT, wrong
    return (STATUS, None) if files.status_of(ran.outcome) else None


def sanitized(hunt: Hunt, path: str, outcome: str, where: Where) -> Optional[Access]:
    """What the sanitizers say of the files of the hunt on an input, where a run of them ends as this one does."""
    from cbi_hunt.texts import words_of
    from cbi_port.check import words_of as arguments_of
    words, data = arguments_of(words_of(hunt.chosen), files.read_bytes(path))
    found = access_of(Files(hunt.chosen.texts, hunt.chosen.cpp, words), data, where)
    # A text of the dialect asks malloc for cells, which gcc takes for bytes: what it stops at there may be no fault of the text.
    same = found is not None and any(word in found.name for word in OF_MEMORY.get(outcome, ("",)))
    return found if same or where.lines is not None else None


def broken_at(hunt: Hunt, path: str, due: Optional[bytes], where: Where) -> Optional[Broke]:
    """Where the run on an input breaks; none where it doesn't, or where nothing says which of its bytes are wrong."""
    plain, repeater = program_for(hunt.chosen, hunt.plan.cbi, hunt.kept, "plain"), Repeater(hunt.plan, hunt.kept.folder, "broke")
    try:
        ran = Ran(path, repeater.run(plain, path).outcome, files.read_bytes(repeater.output), due)
    finally:
        repeater.close()
    found = kind_of(ran)
    return found and looked_at(hunt, ran, found[0], found[1], where)


def looked_at(hunt: Hunt, ran: Ran, kind: str, wrong: Optional[Wrong], where: Where) -> Broke:
    byte = wrong.byte - 1 if wrong and wrong.wrote is not None else None
    outcome = ending_of(ran.outcome, kind == STATUS)
    try:
        places = Places(Tracer(hunt, ran).traced(byte), where)
        broke = Broke(kind, outcome, True, places.calls(), places.inside(), places.before() if kind in (TRAP, OUTPUT) else None,
                      places.loop() if kind == HANG else None, wrong)
    except Fault as fault:
        at_end = byte is None
        broke = Broke(kind, outcome, False, last_site(hunt, ran.path, where) if at_end else [], wrong=wrong, why_not=f"the calls that were active: {fault}")
    if kind == TRAP and outcome not in UNSEEN and (outcome in OF_MEMORY or not broke.exact):
        broke = broke._replace(access=sanitized(hunt, ran.path, outcome, where))
    return broke


def broke_of(hunt: Hunt, example: Optional[Example], where: Where) -> Optional[Broke]:
    """Where the run of the example breaks."""
    if example is None:
        return None
    place = hunt.inputs.names.index(example.name)
    if example.made_from is not None:
        return broken_at(hunt, hunt.kept.path("smallest"), None, where)
    due = files.read_bytes(hunt.inputs.expected[place]) if hunt.inputs.expected else None
    return broken_at(hunt, hunt.inputs.paths[place], due, where)
