"""What cbi-hunt, cbi-show, cbi-explain and cbi-port share: the files of `cbi`, and how a script ends.

Not proved: no promise of `cbi` speaks of these scripts. They read the files that `cbi` writes by their
forms (docs/reference/FORMATS.md), and call `cbi` for everything that is promised.
"""
import argparse
import csv
import hashlib
import os
import re
import signal
import sys
import tempfile
from typing import Any, Callable, Dict, IO, Iterator, List, NamedTuple, NoReturn, Optional, Tuple

VERSION = "0.7.0"
NOT_PROVED = "This script is not proved; the executable cbi, which it stands beside, is."

# Statuses of the scripts, as `grep` has them: found, nothing found, trouble.
FOUND, NOTHING, TROUBLE = 0, 1, 2
# What a shell says of a process that ^C ended, and of one that a closed pipe did.
INTERRUPTED, CLOSED = 130, 141

RANKING_COLUMNS = "rank,predicate,scheme,function,line,text,f,s,fobs,sobs,failure,context,increase,importance".split(",")
STUDY_LINE = re.compile(r"study runs (\d+) failed (\d+) ended (\d+) cut (\d+) fast (\d+) slow (\d+) tests (\d+)")

TRAPS = {
    1: ("Overflow", "signed integer overflow"),
    2: ("Divide", "division by zero"),
    3: ("Shift", "undefined shift: the count is below 0 or above 31, or an int is shifted left that is negative or becomes too large"),
    4: ("Undefined", "use of an uninitialised value"),
    5: ("WrongKind", "read as the wrong type: a cell holds a value of another type"),
    6: ("Bounds", "out of bounds: an index or a pointer outside its object"),
    7: ("Dead", "use after free, or of a local variable after its function returned"),
    8: ("NullUse", "null pointer dereference"),
    9: ("ReadOnly", "write to a string constant"),
    10: ("BadFree", "invalid free: not the start of a live block of malloc, or freed twice"),
    11: ("Unrelated", "comparison or difference of pointers into two objects"),
    12: ("StackOverflow", "stack overflow: more than 512 active calls, or no room for a function's variables"),
    13: ("Assertion", "assertion failed"),
    14: ("Abort", "abort was called"),
    99: ("Internal", "the program file isn't one that cbi compiled"),
}

# How a run ended, as `ended by ..` goes on.
ENDINGS = {
    "trapped 1": "a signed integer overflow", "trapped 2": "a division by zero", "trapped 3": "an undefined shift",
    "trapped 4": "use of an uninitialised value", "trapped 5": "a read as the wrong type",
    "trapped 6": "an out-of-bounds access", "trapped 7": "use after free or return",
    "trapped 8": "a null pointer dereference", "trapped 9": "a write to a string constant", "trapped 10": "an invalid free",
    "trapped 11": "comparing pointers into two objects", "trapped 12": "a stack overflow", "trapped 13": "a failed assertion",
    "trapped 14": "a call of abort", "trapped 99": "a damaged program file", "ended": "wrong output", "cut turns": "a hang (cut at --turns)", "cut output": "too much output",
}


def ending_said(ending: str) -> str:
    """How a failing run ended, as `ended by ..` goes on; a run that failed by its status has it in its ending."""
    return ENDINGS[ending] if ending in ENDINGS else f"an exit status of {ending.partition(' ')[2]}"


# The six relations of a returned value or a pair, with the counters (less, equal, greater) that each sums up.
RELATIONS = (("<", (0,)), ("<=", (0, 1)), (">", (2,)), (">=", (1, 2)), ("==", (1,)), ("!=", (0, 2)))
BRANCH_TRUTHS = (("true", (0,)), ("false", (1,)))


class Fault(Exception):
    """Something that the user gave is wrong: it is told as one line, and the status is 2."""


class Refused(Fault):
    """A text that isn't taken: its line begins with its name and the number of the line, as a compiler's does."""


class Words(argparse.ArgumentParser):
    """The words of a script: a mistake in them is told in one line, and `--version` and `--help` are there."""

    def __init__(self, **more: Any):
        super().__init__(**more)
        self.add_argument("--version", action="version", version=f"{self.prog} {VERSION}", help="says which version this is")

    def error(self, message: str) -> NoReturn:
        self.exit(TROUBLE, f"{self.prog}: {message} ({self.prog} --help says how it is used)\n")


def call_main(name: str, main: Callable[[], int]) -> None:
    """Ends the process with the status of `main`; faults become a line, and a closed pipe ends quietly. A signal that ends it does so as ^C does, so that no file for a while stays."""
    for number in (signal.SIGTERM, getattr(signal, "SIGHUP", signal.SIGTERM)):
        if signal.getsignal(number) == signal.SIG_DFL:
            signal.signal(number, signal.default_int_handler)
    for stream in (sys.stdout, sys.stderr):
        if hasattr(stream, "reconfigure"):
            stream.reconfigure(errors="backslashreplace")
    if sys.stdout is None:
        print(f"{name}: standard output is closed", file=sys.stderr)
        sys.exit(TROUBLE)
    try:
        status = main()
        sys.stdout.flush()
    except Fault as fault:
        tell(str(fault) if isinstance(fault, Refused) else f"{name}: {fault}")
        status = TROUBLE
    except BrokenPipeError:
        os.dup2(os.open(os.devnull, os.O_WRONLY), sys.stdout.fileno())
        status = CLOSED
    except KeyboardInterrupt:
        print(f"{name}: interrupted", file=sys.stderr)
        status = INTERRUPTED
    except OSError as error:
        tell(f"{name}: {error.filename + ': ' if error.filename else ''}{error.strerror}")
        status = TROUBLE
    sys.exit(status)


def tell(said: str) -> None:
    """Tells something on err, which may be a terminal; what a name or a text has of control bytes is seen as such."""
    for line in said.split("\n"):
        print(harmless(line), file=sys.stderr)


def folder_for_a_while(prefix: str) -> "tempfile.TemporaryDirectory[str]":
    """A folder that goes with its object. A signal waits until there is one, or it would come between the folder and what removes it."""
    before = signal.pthread_sigmask(signal.SIG_BLOCK, {signal.SIGINT, signal.SIGTERM, signal.SIGHUP})
    try:
        return tempfile.TemporaryDirectory(prefix=prefix)
    finally:
        signal.pthread_sigmask(signal.SIG_SETMASK, before)


def read_bytes(name: str) -> bytes:
    """The bytes of a file; `-` is standard input."""
    try:
        if name == "-":
            return sys.stdin.buffer.read()
        with open(name, "rb") as file:
            return file.read()
    except OSError as error:
        raise Fault(f"{name}: {error.strerror}")


def decoded(data: bytes) -> str:
    """A text in UTF-8, or where it is none with a character for each byte, so that no byte is lost."""
    try:
        return data.decode("utf-8-sig")
    except UnicodeDecodeError:
        return data.decode("latin-1")


def read_source(name: str) -> List[str]:
    """The lines of a C text, as `cbi` counts them: by newline bytes alone."""
    return [line.rstrip("\r") for line in decoded(read_bytes(name)).split("\n")]


def count_of(number: int, what: str, many: Optional[str] = None) -> str:
    """`1 run`, `2 runs`, `no runs`."""
    word = what if number == 1 else many or what + "s"
    return f"{number if number else 'no'} {word}"


def printable_character(value: int) -> str:
    """A printable byte as C writes it: `'?'`."""
    character = chr(value)
    return "'" + ("\\" + character if character in "'\\" else character) + "'"


def visible(data: bytes, most: int = 200) -> str:
    """Bytes as C writes them in a string, clipped: what isn't printable ASCII is seen as an escape."""
    shown = "".join(ESCAPES.get(byte) or (chr(byte) if 32 <= byte <= 126 else f"\\{byte:03o}") for byte in data[:most])
    return shown + ("" if len(data) <= most else "..")


ESCAPES = {10: "\\n", 9: "\\t", 13: "\\r", 92: "\\\\"}
CONTROL = re.compile(r"[\x00-\x08\x0a-\x1f\x7f-\x9f]")


def harmless(text: str) -> str:
    """A line of a text for a terminal: tabs as blanks, other control bytes as escapes."""
    return CONTROL.sub(lambda found: f"\\{ord(found[0]):03o}", text.expandtabs(8))


def share(millionths: int) -> str:
    """A share in per cent, rounded, but never to 0 or to 100 where it is neither."""
    if 0 < millionths < 10000:
        return "under 1 %"
    if 990000 < millionths < 1000000:
        return "over 99 %"
    return f"{(millionths + 5000) // 10000} %"


# Rankings

class Row(NamedTuple):
    """A line of a ranking: a predicate, in how many runs it was true and its site observed, and four shares in millionths."""
    rank: int
    predicate: int
    scheme: str
    function: str
    line: int
    text: str
    f: int
    s: int
    fobs: int
    sobs: int
    failure: int
    context: int
    increase: int
    importance: int


class Study(NamedTuple):
    """The last line of a study."""
    runs: int
    failed: int
    ended: int
    cut: int
    fast: int
    slow: int
    tests: int


class Ranking(NamedTuple):
    rows: List[Row]
    study: Optional[Study]


def read_ranking(name: str) -> Ranking:
    """A ranking as `cbi rank` writes it, or as `cbi study` does, with its last line."""
    lines = [line.rstrip("\r") for line in decoded(read_bytes(name)).split("\n")]
    if lines[0].split(",") != RANKING_COLUMNS:
        raise Fault(f"{name}: no ranking: its first line isn't the header that cbi rank and cbi study write")
    rows, study = [], None
    for number, line in enumerate(lines[1:], 2):
        found = STUDY_LINE.fullmatch(line)
        if found:
            study = Study(*map(int, found.groups()))
        elif line:
            rows.append(ranking_row(name, number, line))
    return Ranking(rows, study)


def ranking_row(name: str, number: int, line: str) -> Row:
    fields = next(csv.reader([line]))
    try:
        kinds = Row.__annotations__.values()
        if len(fields) != len(RANKING_COLUMNS):
            raise ValueError
        return Row(*[kind(field) for kind, field in zip(kinds, fields)])
    except ValueError:
        raise Fault(f"{name}: no ranking: line {number} has not the form of a row")


# Programs

class Site(NamedTuple):
    """A line `site ..` of a program file, with what `cbi rank` says of it: `names` are what it speaks of."""
    number: int
    scheme: str
    function: str
    line: int
    token: int
    names: Tuple[str, ...]
    constant: bool

    def predicates(self) -> List[Tuple[str, Tuple[int, ...]]]:
        """The texts of its predicates in their order, each with the counters that it sums up."""
        if self.scheme == "branches":
            return [(f"{self.names[0]} is {truth}", counters) for truth, counters in BRANCH_TRUTHS]
        other = self.names[1] if self.scheme == "pairs" else "0"
        return [(f"{self.names[0]} {relation} {other}", counters) for relation, counters in RELATIONS]


class Program(NamedTuple):
    identity: str
    functions: List[str]
    sites: List[Site]

    def numbered(self) -> Dict[int, Tuple[Site, str, Tuple[int, ...]]]:
        """Each predicate by its number: its site, its text and the counters that it sums up."""
        every = [(site, *predicate) for site in self.sites for predicate in site.predicates()]
        return dict(enumerate(every))


def read_program(name: str) -> Program:
    """The functions and the sites of a program file; its nodes aren't looked at."""
    data = read_bytes(name)
    lines = iter(enumerate(data.decode("latin-1").split("\n"), 1))
    if next(lines)[1] != "cbi-program 1":
        raise Fault(f"{name}: no program file: it doesn't begin with cbi-program 1 (cbi transform makes one of a C text)")
    try:
        counted_lines(lines, "texts")
        counted_lines(lines, "globals")
        functions = [line.split(" ")[1] for line in counted_lines(lines, "functions")]
        next(lines)
        sites = [site_of(number, line.split(" "), functions) for number, line in enumerate(counted_lines(lines, "sites"))]
    except (StopIteration, ValueError, IndexError, KeyError):
        raise Fault(f"{name}: a damaged program file")
    return Program(hashlib.sha256(data).hexdigest(), functions, sites)


def counted_lines(lines: Iterator[Tuple[int, str]], word: str) -> List[str]:
    """The lines behind a line `WORD N`, of which there are N."""
    said, count = next(lines)[1].split(" ")
    if said != word:
        raise ValueError
    return [next(lines)[1] for _ in range(int(count))]


def site_of(number: int, words: List[str], functions: List[str]) -> Site:
    """The site of a line: `site pair F LINE TOKEN NAME SLOT PARTNER PSLOT`, or `return` or `branch` with a word."""
    kind, function, line, token, name = words[1:6]
    scheme = {"branch": "branches", "return": "returns", "pair": "pairs"}[kind]
    names = (name, words[7]) if kind == "pair" else (name,)
    constant = kind == "pair" and words[8] == "k"
    return Site(number, scheme, functions[int(function)], int(line), int(token), names, constant)


# Reports and collections

class Run(NamedTuple):
    """What a report says: `sites` are the numbers of its sites, each with its three counters."""
    number: int
    outcome: str
    label: str
    sites: Dict[int, Tuple[int, int, int]]


def label_by(outcome: str) -> str:
    """The label of a report of the first version, which has none."""
    return {"trapped": "fail", "ended": "pass"}.get(outcome.split(" ")[0], "none")


def status_of(outcome: str) -> int:
    """The status that a process of this end would have: the low byte of what main returned or exit was given; 0 where the run didn't end."""
    word, _, value = outcome.partition(" ")
    return int(value) & 255 if word == "ended" else 0


class Report(NamedTuple):
    program: str
    run: Run
    work: Tuple[int, ...]


def parse_report(name: str, text: str) -> Report:
    fields: Dict[str, str] = {}
    sites: Dict[int, Tuple[int, int, int]] = {}
    try:
        for line in text.split("\n")[1:]:
            word, _, rest = line.rstrip("\r").partition(" ")
            if word == "end":
                break
            if word == "site":
                number, less, equal, greater = map(int, rest.split(" "))
                sites[number] = (less, equal, greater)
            else:
                fields[word] = rest
        run = Run(int(fields["run"]), fields["outcome"], fields.get("label", label_by(fields["outcome"])), sites)
        return Report(fields["program"], run, tuple(map(int, fields["work"].split(" "))))
    except (KeyError, ValueError):
        raise Fault(f"{name}: a damaged report")


RUN_LINE = re.compile(r"run (\d+) (ended -?\d+|trapped \d+|cut turns|cut output)(?: label (fail|pass|none))? work \d+ \d+ \d+")


def read_collection(name: str) -> Iterator[Run]:
    """The runs of a collection, one after another, so that a large one needs no room."""
    try:
        with open(name, encoding="latin-1", newline="\n") as file:
            yield from runs_of(name, file)
    except OSError as error:
        raise Fault(f"{name}: {error.strerror}")


class Head(NamedTuple):
    """What a collection says of a run but for its sites: of these, how many it has."""
    number: int
    outcome: str
    label: str
    sites: int


def read_heads(name: str) -> Iterator[Head]:
    """The runs of a collection without their sites, which takes a third of the time."""
    run: Optional[Run] = None
    sites = 0
    with open(name, encoding="latin-1", newline="\n") as file:
        file.readline()
        for number, line in enumerate(file, 2):
            if line.startswith("site "):
                sites += 1
                continue
            if run is not None:
                yield Head(run.number, run.outcome, run.label, sites)
            run, sites = run_of(name, number, line), 0


def run_of(name: str, number: int, line: str) -> Optional[Run]:
    """The run that a line begins; none at the line of the program and at the end."""
    found = RUN_LINE.fullmatch(line.rstrip("\n"))
    if found:
        return Run(int(found[1]), found[2], found[3] or label_by(found[2]), {})
    if line != "end\n" and number > 2:
        raise Fault(f"{name}: a damaged collection: line {number} has not the form of a run")
    return None


def runs_of(name: str, file: IO[str]) -> Iterator[Run]:
    if not file.readline().startswith("cbi-collection "):
        raise Fault(f"{name}: no collection: it doesn't begin with cbi-collection (cbi collect makes one of reports)")
    run = None
    for number, line in enumerate(file, 2):
        if line.startswith("site ") and run is not None:
            _, site, first, second, third = line.split(" ")
            run.sites[int(site)] = (int(first), int(second), int(third))
            continue
        if run is not None:
            yield run
        run = run_of(name, number, line)
        if line == "end\n":
            return
    raise Fault(f"{name}: a damaged collection: it has no end")


# Pairs

class Side(NamedTuple):
    """One predicate of a pair."""
    predicate: int
    function: str
    line: int
    text: str


class Pair(NamedTuple):
    """The best of so many pairs: both are true in so many failing and successful runs, and of so many it is known whether they are."""
    tried: int
    left: Side
    right: Side
    failing: int
    successful: int
    known_failing: int
    known_successful: int
    importance: int


def read_pairs(name: str) -> Optional[Pair]:
    """The best pair as `cbi pairs` writes it, or none where there is none."""
    lines = decoded(read_bytes(name)).split("\n")
    try:
        if lines[1] == "best none":
            return None
        word, *numbers = lines[1].split(" ")
        left, right, failing, successful, known, others, importance = map(int, numbers)
        if word != "best":
            raise ValueError
        return Pair(int(lines[0].split(" ")[1]), side_of(left, "left", lines[2]), side_of(right, "right", lines[3]), failing, successful, known, others, importance)
    except (ValueError, IndexError):
        raise Fault(f"{name}: no pairs: it hasn't the form of what cbi pairs writes")


def side_of(predicate: int, word: str, line: str) -> Side:
    said, function, number, text = line.split(" ", 3)
    if said != word:
        raise ValueError
    return Side(predicate, function, int(number), text)


# Cards

class Card(NamedTuple):
    """What a card says of a predicate: in how many runs it was true, the first failing one, and what falls with it."""
    predicate: int
    failing: int
    successful: int
    first: int
    near: List[Tuple[int, int, str]]


def read_cards(name: str) -> Dict[int, Card]:
    """The cards by predicate: `card K P FUNCTION LINE TEXT`, `truth A B first R`, `near Q FALL TEXT`, and `end`."""
    cards: Dict[int, Card] = {}
    card = -1
    lines = [line.rstrip("\r") for line in decoded(read_bytes(name)).split("\n")]
    for number, line in enumerate(lines, 1):
        if line == "end":
            return cards
        word, *rest = line.split(" ")
        try:
            if word == "card":
                card = int(rest[1])
            elif word == "truth" and rest[2] == "first":
                cards[card] = Card(card, int(rest[0]), int(rest[1]), int(rest[3]), [])
            elif word == "near":
                cards[card].near.append((int(rest[0]), int(rest[1]), " ".join(rest[2:])))
            else:
                raise ValueError
        except (ValueError, IndexError, KeyError):
            raise Fault(f"{name}: no cards: line {number} has not the form of one")
    raise Fault(f"{name}: no cards: there is no line end")
