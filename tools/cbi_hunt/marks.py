"""A text of the dialect that says while it runs where it is: which statement, which calls are active, which loops go on. Not proved.

`cbi` keeps no trace, and a run that traps leaves nothing but its output. So each statement of the text gets a call before it that counts and remembers, and in
a window of its count writes what it does between the bytes of the output. A first run without a window tells how far the count comes, a second one has the window
where it is wanted. What is written is told apart by a byte that the output hasn't, and what is left without it is the output.
"""
import re
from typing import Iterator, List, NamedTuple, Optional, Tuple

from cbi_show.source import Source

NAME = "cbi_broke"
TYPES = ("void", "char", "int", "unsigned", "struct")
AT, IN, OUT, LOOP, UNLOOP = range(5)
TICK = 4096           # events between two ticks
MOST_LOOPS = 2000     # of all active calls
MOST_TOKENS = 100000  # of a text (docs/reference/LANGUAGE.md)
WIDTH = 600           # active calls; a machine has 512
RECENT = 256          # statements that are remembered, also those of the port's own functions
PRELUDE = """\
int NAME_clock; int NAME_depth; int NAME_loops;
int NAME_function[WIDTH]; int NAME_line[WIDTH]; int NAME_base[WIDTH];
int NAME_head[MOST]; int NAME_since[MOST];
void NAME(int what, int value)
{
    int i;
    NAME_clock++;
    if (what == 1) {
        NAME_function[NAME_depth] = value; NAME_line[NAME_depth] = 0; NAME_base[NAME_depth] = NAME_loops;
        NAME_depth++;
    } else if (what == 2) {
        NAME_depth--;
        NAME_loops = NAME_base[NAME_depth];
    } else if (what == 3) {
        if (NAME_loops < MOST) { NAME_head[NAME_loops] = value; NAME_since[NAME_loops] = NAME_clock; }
        NAME_loops++;
        NAME_line[NAME_depth - 1] = value;
    } else if (what == 4)
        NAME_loops--;
    else
        NAME_line[NAME_depth - 1] = value;
    if (NAME_clock % TICK == 0)
        printf("ESCAPEt;");
    if (NAME_clock == FROM) {
        for (i = 0; i < NAME_depth; i++)
            printf("ESCAPEf%d,%d,%d;", NAME_function[i], NAME_line[i], NAME_base[i]);
        for (i = 0; i < NAME_loops && i < MOST; i++)
            printf("ESCAPEl%d,%d;", NAME_head[i], NAME_since[i]);
        printf("ESCAPEs;");
    } else if (NAME_clock > FROM && NAME_clock < UNTIL)
        printf("ESCAPEe%d,%d;", what, value);
}
"""


class Marked:
    """Puts the marks into a text."""

    def __init__(self, lines: List[str]):
        self.source = Source(lines)
        self.pieces: List[Tuple[int, int, str]] = []
        self.functions: List[str] = []
        self.result = ""
        if any(token.text.startswith(NAME) for token in self.source.tokens):
            raise ValueError(f"the text has names that begin with {NAME}")
        self.items()

    # What is put where: pieces of the text from one place to another, in their order

    def put(self, start: int, text: str, end: Optional[int] = None) -> None:
        self.pieces.append((start, start if end is None else end, text))

    def before(self, place: int, text: str) -> None:
        self.put(self.source.tokens[place].start, text)

    def behind(self, place: int, text: str) -> None:
        self.put(self.source.tokens[place].end, text)

    def call(self, what: int, value: int) -> str:
        return f"{NAME}({what}, {value})"

    def at(self, place: int) -> str:
        return self.call(AT, self.source.tokens[place].line)

    def too_large(self, escape: int) -> str:
        """What is said where the text has no room for the marks; nothing where it has."""
        size, plain = (len(Source(text.split("\n")).tokens) for text in (self.text(escape, 0, 0), self.source.text))
        return f"the marks that tell them make the text {size:,} tokens of {plain:,}, and {MOST_TOKENS:,} is the most" if size > MOST_TOKENS else ""

    def text(self, escape: int, start: int, end: int) -> str:
        """The whole text, which writes between two counts, or nothing but ticks where there is no first one."""
        out, at = [], 0
        for begin, behind, text in sorted(self.pieces, key=lambda piece: piece[:2]):
            out += [self.source.text[at:begin], text]
            at = behind
        named = {"NAME": NAME, "WIDTH": str(WIDTH), "MOST": str(MOST_LOOPS), "TICK": str(TICK), "ESCAPE": f"\\{escape:03o}", "FROM": str(start), "UNTIL": str(end)}
        prelude = re.sub("|".join(named), lambda found: named[found[0]], PRELUDE)
        return prelude + "".join(out) + self.source.text[at:]

    # The text from its items down

    def items(self) -> None:
        source, place, begin = self.source, 0, 0
        while place < len(source.tokens):
            word = source.word(place)
            if word == "{" and source.word(place - 1) == ")":
                self.function(begin, place)
            place = source.partner.get(place, place) + 1 if word in ("{", "(", "[") else place + 1
            if word == ";" or word == "{" and source.word(source.partner.get(place - 1, place) - 1) == ")":
                begin = place

    def function(self, begin: int, opening: int) -> None:
        source = self.source
        name = source.partner[opening - 1] - 1
        self.result = source.between(begin, name - 1)
        self.functions.append(source.word(name))
        self.behind(opening, f" {self.call(IN, len(self.functions) - 1)};")
        self.block(opening)
        self.before(source.partner[opening], f"{self.call(OUT, 0)}; ")

    def block(self, opening: int) -> None:
        place, close = opening + 1, self.source.partner[opening]
        while place < close:
            place = self.entry(place, True)

    def entry(self, place: int, in_block: bool) -> int:
        """Marks a statement or a declaration; answers the place behind it."""
        word, after = self.source.word(place), self.source.end_of_statement(place)
        if word == "{":
            self.block(place)
        elif word == "if":
            self.branch(place)
        elif word in ("while", "do", "for"):
            self.loop(place, after)
        elif word == "return":
            self.leave(place, after - 1)
        elif word in TYPES:
            self.before(place, f"{self.at(place)}; ")
        elif word != ";":
            self.before(place, f"{'' if in_block else '{ '}{self.at(place)}; ")
            if not in_block:
                self.behind(after - 1, " }")
        return after

    def branch(self, place: int) -> None:
        self.behind(place + 1, f"{self.at(place)}, ")
        after = self.entry(self.source.partner[place + 1] + 1, False)
        if self.source.word(after) == "else":
            self.entry(after + 1, False)

    def loop(self, place: int, after: int) -> None:
        source, word = self.source, self.source.word(place)
        self.before(place, f"{{ {self.call(LOOP, source.tokens[place].line)}; ")
        if word == "do":
            condition = self.entry(place + 1, False)
            self.behind(condition + 1, f"{self.at(condition)}, ")
        elif word == "while":
            self.behind(place + 1, f"{self.at(place)}, ")
            self.entry(source.partner[place + 1] + 1, False)
        else:
            self.round(place)
            self.entry(source.partner[place + 1] + 1, False)
        self.behind(after - 1, f" {self.call(UNLOOP, 0)}; }}")

    def round(self, place: int) -> None:
        """The condition of a `for` and its third part."""
        source, close = self.source, self.source.partner[place + 1]
        first, second = list(self.semicolons(place + 2, close))[:2]
        self.behind(first, f" {self.at(place)}, {'1' if second == first + 1 else ''}")
        if close > second + 1:
            self.behind(second, f" {self.at(place)}, ")

    def semicolons(self, place: int, close: int) -> Iterator[int]:
        yield from self.commas(place, close, ";")

    def commas(self, place: int, close: int, sign: str = ",") -> Iterator[int]:
        """The places of a sign that stands in no brackets."""
        while place < close:
            if self.source.word(place) == sign:
                yield place
            place = self.source.partner.get(place, place) + 1 if self.source.word(place) in ("(", "[", "{") else place + 1

    def leave(self, place: int, end: int) -> None:
        """A `return`, whose value is there before the call is left."""
        token = self.source.tokens[place]
        if end == place + 1:
            self.put(token.start, f"{{ {self.at(place)}; {self.call(OUT, 0)}; return", token.end)
            self.behind(end, " }")
            return
        several = any(True for _ in self.commas(place + 1, end))
        self.put(token.start, f"{{ {self.at(place)}; {self.result} {NAME}_value = {'(' if several else ''}", token.end)
        self.before(end, ")" if several else "")
        self.behind(end, f" {self.call(OUT, 0)}; return {NAME}_value; }}")


# What a run of it wrote

class Frame(NamedTuple):
    """An active call: its function by number, the line that it is at, and how many loops are around it."""
    function: int
    line: int
    base: int


class Loop(NamedTuple):
    """A loop that goes on: the line of its head, and the count at which it was begun."""
    line: int
    since: int


class State(NamedTuple):
    """Where a run is: its active calls, the first one first, its loops, the count, and the statements that it did last, each by its function and its line."""
    frames: List[Frame]
    loops: List[Loop]
    clock: int
    recent: List[Tuple[int, int]]


def pieces_of(data: bytes, escape: int) -> Iterator[Tuple[bytes, str, List[int]]]:
    """What was written: bytes of the output, each time with the mark behind them, its letter and its numbers. The last one has no letter."""
    at = 0
    for found in re.finditer(re.escape(bytes([escape])) + rb"([tflse])([-0-9,]*);", data):
        yield data[at:found.start()], found[1].decode(), [int(word) for word in found[2].split(b",") if word]
        at = found.end()
    yield data[at:], "", []


def without_marks(data: bytes, escape: int) -> bytes:
    return b"".join(piece for piece, _, _ in pieces_of(data, escape))


def ticks_before(data: bytes, escape: int, byte: Optional[int]) -> int:
    """How many ticks there are before a byte of the output, counted from 0; all of them where none is named."""
    ticks = written = 0
    for piece, letter, _ in pieces_of(data, escape):
        written += len(piece)
        if byte is not None and written > byte:
            break
        ticks += letter == "t"
    return ticks


def after(state: State, what: int, value: int) -> State:
    """Where the run is after an event. That the first call of main is left is where the run ends, and isn't looked past."""
    frames, loops, clock, recent = state.frames, state.loops, state.clock + 1, state.recent
    if what == IN:
        frames = [*frames, Frame(value, 0, len(loops))]
    elif what == OUT and len(frames) > 1:
        loops, frames = loops[:frames[-1].base], frames[:-1]
    elif what == UNLOOP:
        loops = loops[:-1]
    elif what in (AT, LOOP) and frames:
        frames = [*frames[:-1], frames[-1]._replace(line=value)]
        recent = [*recent[-RECENT:], (frames[-1].function, value)]
        loops = [*loops, Loop(value, clock)] if what == LOOP else loops
    return State(frames, loops, clock, recent)


def state_at(data: bytes, escape: int, start: int, byte: Optional[int]) -> Optional[State]:
    """Where the run was when it wrote a byte of the output, counted from 0, or at its end; none where its window didn't come."""
    frames: List[Frame] = []
    loops: List[Loop] = []
    state: Optional[State] = None
    written = 0
    for piece, letter, numbers in pieces_of(data, escape):
        written += len(piece)
        if byte is not None and written > byte:
            break
        if letter == "f":
            frames.append(Frame(*numbers))
        elif letter == "l":
            loops.append(Loop(*numbers))
        elif letter == "s":
            state = State(frames, loops, start, [])
        elif letter == "e" and state is not None:
            state = after(state, *numbers)
    return state
