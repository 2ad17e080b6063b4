"""Suspicious lines, and bugs one after another, as `cbi lines` and `cbi bugs` print them: how the two are asked, and how their texts are read. Not proved.

`cbi` counts what stands in them and puts it in order (docs/METHOD.md, 'Suspicious lines and bugs'; docs/reference/FORMATS.md has both texts). Nothing of it is computed here.
"""
import contextlib
import os
import subprocess
from typing import Callable, FrozenSet, Iterator, List, NamedTuple

from cbi_show import files
from cbi_show.calls import call_to
from cbi_show.files import Fault

# As many lines and places are asked for as there may be, since of those that are near one another, or at the same line of a person's, one alone is shown.
MOST_LINES, MOST_BUGS, MOST_ALSO = 1000, 10, 40


class Found(NamedTuple):
    """A predicate with its counts: true in `a` failing and `b` other runs, its site observed in `c` and `d`. The strength is in millionths, rounded down."""
    predicate: int
    function: str
    line: int
    a: int
    b: int
    c: int
    d: int
    strength: int
    text: str


class Also(NamedTuple):
    """A further place of a round, by its best predicate."""
    function: str
    line: int
    a: int
    b: int
    strength: int
    text: str


class Lines(NamedTuple):
    """Places, the most suspicious first, each by its best predicate; `places` is how many there are."""
    failing: int
    successful: int
    places: int
    lines: List[Found]


class Bug(NamedTuple):
    """A round: the best predicate of the failing runs that no round before it took, the least number of those in which it is true, and the next places."""
    leader: Found
    first: int
    also: List[Also]


class Bugs(NamedTuple):
    """The rounds; `rest` is how many failing runs are left."""
    failing: int
    successful: int
    bugs: List[Bug]
    rest: int


class Listed(NamedTuple):
    """What both commands print of one collection."""
    lines: Lines
    bugs: Bugs


# What lists the runs of a collection, without what they saw at these sites.
Lister = Callable[[FrozenSet[int]], Listed]


# How they are asked

def has_lists(cbi: str) -> bool:
    """Whether the executable has the commands; older ones don't know them."""
    done = subprocess.run([cbi, "lines", "--most=0", "a", "b"], stdin=subprocess.DEVNULL, stdout=subprocess.DEVNULL, stderr=subprocess.PIPE, check=False)
    return done.stderr == b"cbi: bad value of --most\n"


def check_lists(cbi: str) -> None:
    if not has_lists(cbi):
        raise Fault(f"{cbi} has no commands lines and bugs, which list what is shown: it is older than this script (./build FOLDER makes one that has them)")


def without_sites(collection: str, left_out: FrozenSet[int], target: str) -> None:
    """Copies a collection without what its runs saw at these sites: as a collection, it is that of runs that didn't come there."""
    names = {b"%d" % site for site in left_out}
    with open(collection, "rb") as source, open(target, "wb") as file:
        file.writelines(line for line in source if not (line.startswith(b"site ") and line.split(b" ", 2)[1] in names))


def list_runs(cbi: str, program: str, collection: str, left_out: FrozenSet[int], folder: str) -> Listed:
    """Has `cbi` list the lines and the bugs of a collection, and leaves what it prints in a folder, as `lines` and `bugs`.

    Sites that are left out, as those of code that a port added, are taken from the runs before: so none of them leads a round or takes a run, and each number is of the other sites alone.
    """
    asked = {"lines": [f"--most={MOST_LINES}", "--apart=0"], "bugs": [f"--most={MOST_BUGS}", f"--also={MOST_ALSO}"]}
    rest = os.path.join(folder, "runs.left")
    try:
        if left_out:
            without_sites(collection, left_out, rest)
        for command, words in asked.items():
            call_to(os.path.join(folder, command), [cbi, command, *words, "--", program, rest if left_out else collection])
    finally:
        if os.path.exists(rest):
            os.remove(rest)
    return read_listed(folder)


def read_listed(folder: str) -> Listed:
    return Listed(read_lines(os.path.join(folder, "lines")), read_bugs(os.path.join(folder, "bugs")))


# How they are read

@contextlib.contextmanager
def form_of(name: str, command: str) -> Iterator[List[str]]:
    """The lines of a text up to its line `end`; one that hasn't its form is a fault."""
    try:
        *lines, end, behind = files.decoded(files.read_bytes(name)).split("\n")
        if end != "end" or behind:
            raise ValueError
        yield lines
    except (ValueError, IndexError):
        raise Fault(f"{name}: it hasn't the form of what {command} prints")


def read_lines(name: str) -> Lines:
    """`lines F S PLACES`, then `line K P FUNCTION LINE A B C D STRENGTH TEXT`, and `end`."""
    with form_of(name, "cbi lines") as lines:
        failing, successful, places = numbers_of("lines", lines[0], 3)
        return Lines(failing, successful, places, [line_of(number, line) for number, line in enumerate(lines[1:], 1)])


def read_bugs(name: str) -> Bugs:
    """`bugs F S`, then `bug K P FUNCTION LINE A B C D STRENGTH first R TEXT`, behind each `also FUNCTION LINE A B STRENGTH TEXT`, then `rest R`, and `end`."""
    with form_of(name, "cbi bugs") as lines:
        failing, successful = numbers_of("bugs", lines[0], 2)
        rest, = numbers_of("rest", lines[-1], 1)
        bugs: List[Bug] = []
        for line in lines[1:-1]:
            if line.startswith("also "):
                bugs[-1].also.append(also_of(line))
            else:
                bugs.append(bug_of(len(bugs) + 1, line))
        return Bugs(failing, successful, bugs, rest)


def numbers_of(word: str, line: str, count: int) -> List[int]:
    said, *numbers = line.split(" ")
    if said != word or len(numbers) != count:
        raise ValueError
    return list(map(int, numbers))


def line_of(number: int, line: str) -> Found:
    word, place, predicate, function, at, a, b, c, d, strength, text = line.split(" ", 10)
    if word != "line" or int(place) != number:
        raise ValueError
    return Found(int(predicate), function, int(at), int(a), int(b), int(c), int(d), int(strength), text)


def bug_of(number: int, line: str) -> Bug:
    word, place, predicate, function, at, a, b, c, d, strength, behind, first, text = line.split(" ", 12)
    if (word, behind) != ("bug", "first") or int(place) != number:
        raise ValueError
    return Bug(Found(int(predicate), function, int(at), int(a), int(b), int(c), int(d), int(strength), text), int(first), [])


def also_of(line: str) -> Also:
    _, function, at, a, b, strength, text = line.split(" ", 6)
    return Also(function, int(at), int(a), int(b), int(strength), text)
