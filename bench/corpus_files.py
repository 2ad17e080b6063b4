"""The corpus: programs, the faults that are put into them, and inputs made from a seed.

`corpus/NAME/` has the right version `NAME.c`, `inputs.py` with `make(chance)`, which makes one input, and `faults`, a list of patches:

    fault NAME
    kind KIND
    kept                    where the fault is one of those that are kept back for the last measurement
    new                     where it is one of the second set that is kept back, of which no ranking was looked at
    in FUNCTION, ..         of a new fault: the functions that its lines belong to
    alone                   where it isn't one of the three of its program that are put in at once
    says SENTENCE
    LINE- TEXT              the line as it stands, without the blanks before it
    LINE+ TEXT              and what stands there in its place, which may be nothing

A fault replaces one to three lines, a new one up to six, and never changes how many there are, so that a line has one number in all versions of
a program. Where code is missing its lines are empty, and a statement that is too much stands behind the one of its line.
"""
import importlib.util
import os
import random
import re
from typing import Callable, Dict, List, NamedTuple, Optional, Tuple

HERE = os.path.dirname(os.path.abspath(__file__))
CORPUS = os.path.join(HERE, "corpus")
KINDS = ("off by one", "missing check", "wrong operator", "wrong variable", "missing initialisation", "use after free", "wrong order", "missing case",
         "wrong constant", "integer overflow", "two facts at once", "rare")
NEW_KINDS = ("missing statement", "missing call", "missing block", "two places", "one in a thousand", "extraneous code")
WORDS = {"fault", "kind", "kept", "new", "in", "alone", "says"}
CHANGE = re.compile(r"(\d*)([-+]) ?(.*)")


class CorpusError(Exception):
    """Something in the corpus isn't as it should be."""


class Fault(NamedTuple):
    program: str
    name: str
    kind: str
    kept: bool
    alone: bool
    says: str
    changes: Dict[int, str]
    new: bool = False

    def group(self) -> str:
        """Which measurement it is of. A new fault counts as kept back everywhere else."""
        return "new" if self.new else "kept" if self.kept else "open"

    def lines(self) -> List[int]:
        return sorted(self.changes)

    def title(self) -> str:
        return f"{self.program}/{self.name}"


class Subject(NamedTuple):
    """A program of the corpus."""
    name: str
    lines: List[str]
    faults: List[Fault]
    make: Callable[[random.Random], bytes]

    def text(self, faults: Tuple[Fault, ...] = ()) -> str:
        """The program with some faults put in; the right version with none."""
        lines = list(self.lines)
        for fault in faults:
            for number, new in fault.changes.items():
                old = self.lines[number - 1]
                if lines[number - 1] != old:
                    raise CorpusError(f"{fault.title()}: another fault has line {number} already")
                lines[number - 1] = old[:len(old) - len(old.lstrip())] + new if new else ""
        return "\n".join(lines) + "\n"

    def three(self) -> Tuple[Fault, ...]:
        """The three faults that are put in at once, where the program has as many."""
        together = tuple(fault for fault in self.faults if not fault.kept and not fault.alone)
        return together if len(together) == 3 else ()

    def inputs(self, count: int, seed: int) -> List[bytes]:
        """So many inputs. One has the same bytes whatever their number is."""
        return [self.make(random.Random(f"{self.name} {seed} {place}")) for place in range(count)]


def located(lines: List[str], number: str, old: str, where: str) -> int:
    """The number of the line with this text."""
    found = [place for place, line in enumerate(lines, 1) if line.strip() == old.strip()]
    if number and int(number) in found:
        return int(number)
    if number or len(found) != 1:
        raise CorpusError(f"{where}: the line {number} `{old}` stands in the program {len(found)} times, at {found}")
    return found[0]


def read_faults(name: str, lines: List[str], text: str) -> List[Fault]:
    faults = []
    for block in re.split(r"\n\s*\n", text.strip()):
        words: Dict[str, str] = {}
        changes: Dict[int, str] = {}
        at: Optional[int] = None
        for line in block.split("\n"):
            change = CHANGE.fullmatch(line)
            if change and change[2] == "-":
                at = located(lines, change[1], change[3], f"{name}/{words.get('fault', '?')}")
            elif change and at is not None:
                changes[at] = change[3].strip()
            else:
                word, _, rest = line.partition(" ")
                words[word] = rest
        faults.append(made_fault(name, lines, words, changes))
    return faults


def made_fault(name: str, lines: List[str], words: Dict[str, str], changes: Dict[int, str]) -> Fault:
    """A fault by what stands in its file, which is looked at."""
    new = "new" in words
    fault = Fault(name, words.get("fault", "?"), words.get("kind", ""), new or "kept" in words, "alone" in words, words.get("says", ""), changes, new)
    if fault.kind not in (NEW_KINDS if new else KINDS) or not fault.says or not 1 <= len(changes) <= (6 if new else 3) or set(words) - WORDS:
        raise CorpusError(f"{fault.title()}: no fault")
    if words.get("in", "") != (within(fault, lines) if new else ""):
        raise CorpusError(f"{fault.title()}: its lines are in {within(fault, lines)}")
    return fault


def within(fault: Fault, lines: List[str]) -> str:
    """The functions of a fault's lines, in their order."""
    known = functions(lines)
    return ", ".join(dict.fromkeys(known[line] for line in fault.lines() if line in known))


def spelled(subject: Subject) -> str:
    """The faults of a program as a file, with the numbers of their lines."""
    blocks = []
    for fault in subject.faults:
        group = ["new", f"in {within(fault, subject.lines)}"] if fault.new else ["kept"] * fault.kept
        head = [f"fault {fault.name}", f"kind {fault.kind}", *group] + ["alone"] * fault.alone + [f"says {fault.says}"]
        for number in fault.lines():
            head += [f"{number}- {subject.lines[number - 1].strip()}", f"{number}+ {fault.changes[number]}".rstrip()]
        blocks.append("\n".join(head) + "\n")
    return "\n".join(blocks)


def read_subject(name: str) -> Subject:
    folder = os.path.join(CORPUS, name)
    with open(os.path.join(folder, name + ".c"), encoding="ascii") as file:
        lines = file.read().rstrip("\n").split("\n")
    with open(os.path.join(folder, "faults"), encoding="ascii") as file:
        faults = read_faults(name, lines, file.read())
    spec = importlib.util.spec_from_file_location(f"corpus_inputs_{name}", os.path.join(folder, "inputs.py"))
    if spec is None or spec.loader is None:
        raise CorpusError(f"{name}: no inputs.py")
    module = importlib.util.module_from_spec(spec)
    spec.loader.exec_module(module)
    return Subject(name, lines, faults, module.make)


def names() -> List[str]:
    return sorted(name for name in os.listdir(CORPUS) if os.path.isfile(os.path.join(CORPUS, name, "faults")))


def read_corpus(wanted: Optional[List[str]] = None) -> List[Subject]:
    return [read_subject(name) for name in names() if not wanted or name in wanted]


# Where functions stand

HEAD = re.compile(r"^[A-Za-z_][\w \t*]*?\**(\w+)\s*\([^;]*$")


def functions(lines: List[str]) -> Dict[int, str]:
    """The function to which each line of the text belongs, by the heads that begin in the first column."""
    found: Dict[int, str] = {}
    name = ""
    for number, line in enumerate(lines, 1):
        head = HEAD.match(line)
        if head:
            name = head[1]
        if name:
            found[number] = name
        if line.startswith("}"):
            name = ""
    return found
