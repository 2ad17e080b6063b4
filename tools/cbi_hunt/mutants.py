"""Makes more inputs from those given, by lines and bytes, and keeps those whose runs see something new. Not proved."""
import argparse
import concurrent.futures
import hashlib
import json
import os
import random
import shutil
from typing import Any, Dict, FrozenSet, List, Optional, Set, Tuple

from cbi_show import files
from cbi_hunt.again import Repeater, program_for
from cbi_hunt.counts import Told
from cbi_hunt.inputs import Inputs
from cbi_hunt.kept import Kept
from cbi_hunt.runs import Plan
from cbi_show.files import Fault, count_of

TRIES = 30     # for each input that is wanted, at most
ROUND = 64     # candidates that are made from the same inputs, whatever the number of processors
MOST_CHANGES = 4
MOST_BYTES = 65536
Sight = FrozenSet[Tuple[int, Tuple[bool, bool, bool]]]


def changed_lines(data: bytes, other: bytes, chance: random.Random) -> bytes:
    """A line left out, doubled, moved, or taken from another input."""
    lines, others = data.splitlines(keepends=True), other.splitlines(keepends=True)
    if not lines:
        return other
    at, to = chance.randrange(len(lines)), chance.randrange(len(lines) + 1)
    what = chance.randrange(4)
    if what == 0:
        del lines[at]
    elif what == 1:
        lines.insert(to, lines[at])
    elif what == 2:
        lines.insert(min(to, len(lines) - 1), lines.pop(at))
    elif others:
        lines.insert(to, chance.choice(others))
    return b"".join(lines)


def changed_bytes(data: bytes, other: bytes, chance: random.Random) -> bytes:
    """Bytes left out, doubled, put in or put in place of others; they are those of the inputs, and seldom others."""
    at = chance.randrange(len(data) + 1)
    size = chance.choice((1, 1, 1, 2, 4, 8))
    byte = bytes([chance.randrange(256)]) if not other or chance.random() < 0.1 else bytes([chance.choice(other)])
    what = chance.randrange(4)
    if what == 0:
        return data[:at] + data[at + size:]
    if what == 1:
        return data[:at] + data[at:at + size] + data[at:]
    if what == 2:
        return data[:at] + byte + data[at:]
    return data[:at] + byte + data[at + 1:]


def changed(data: bytes, other: bytes, chance: random.Random) -> bytes:
    for _ in range(chance.randrange(1, MOST_CHANGES + 1)):
        change = changed_lines if b"\n" in data[:-1] and chance.random() < 0.4 else changed_bytes
        data = change(data, other, chance)
    return data[:MOST_BYTES]


def sight_of(repeater: Repeater, program: str, path: str) -> Sight:
    """What a run sees: its sites, and which of the counters of each were moved."""
    run = repeater.run(program, path)
    return frozenset((site, (less > 0, equal > 0, greater > 0)) for site, (less, equal, greater) in run.sites.items())


class Made:
    """A folder of inputs that were made, with a note of what they were made from."""

    def __init__(self, kept: Kept, name: str, note: Dict[str, Any]):
        self.folder, self.note = kept.path(name), note

    def there(self) -> Tuple[List[str], Dict[str, Any]]:
        """The names of what an earlier call made, if it is what this one would make, and what was told of them."""
        path = os.path.join(self.folder, "made.json")
        if not os.path.exists(path):
            return [], {}
        with open(path, encoding="utf-8") as file:
            note = json.load(file)
        names, about = note.pop("names"), note.pop("about", {})
        return (names, about) if note == self.note else ([], {})

    def write(self, pieces: List[bytes], word: str, about: Optional[Dict[str, Any]] = None) -> List[str]:
        names = [f"{word}{number:0{len(str(len(pieces)))}}" for number in range(1, len(pieces) + 1)]
        shutil.rmtree(self.folder, ignore_errors=True)
        os.makedirs(self.folder)
        for name, data in zip(names, pieces):
            with open(os.path.join(self.folder, name), "wb") as file:
                file.write(data)
        with open(os.path.join(self.folder, "made.json"), "w", encoding="utf-8") as file:
            json.dump({**self.note, "names": names, "about": about or {}}, file)
        return names


class Maker:
    """Makes candidates, runs them, and keeps those that see what no input before them saw."""

    def __init__(self, plan: Plan, kept: Kept, program: str, jobs: int):
        self.program, self.folder, self.jobs = program, kept.path("worker-made"), jobs
        os.makedirs(self.folder, exist_ok=True)
        self.repeaters = [Repeater(plan, self.folder, str(number)) for number in range(ROUND)]
        self.sights: Set[Sight] = set()

    def seen(self, pieces: List[bytes]) -> List[bool]:
        """For each of at most a round of inputs whether it sees something new."""
        def look(number: int) -> Sight:
            path = os.path.join(self.folder, f"{number}.input")
            with open(path, "wb") as file:
                file.write(pieces[number])
            return sight_of(self.repeaters[number], self.program, path)

        with concurrent.futures.ThreadPoolExecutor(self.jobs) as pool:
            sights = list(pool.map(look, range(len(pieces))))
        new = []
        for sight in sights:
            new.append(sight not in self.sights)
            self.sights.add(sight)
        return new

    def make(self, given: List[bytes], wanted: int, chance: random.Random, told: Told) -> Tuple[List[bytes], int]:
        """So many new inputs, as far as they come, and how many were tried."""
        for start in range(0, len(given), ROUND):
            self.seen(given[start:start + ROUND])
        made: List[bytes] = []
        tries = 0
        while len(made) < wanted and tries < TRIES * wanted:
            pool = given + made
            pieces = [changed(chance.choice(pool), chance.choice(pool), chance) for _ in range(ROUND)]
            made += [piece for piece, new in zip(pieces, self.seen(pieces)) if new]
            tries += ROUND
            told.show(f"inputs: {min(len(made), wanted)} of {wanted} made in {tries} tries")
        told.clear()
        return made[:wanted], tries


def add_mutants(chosen: argparse.Namespace, plan: Plan, kept: Kept, inputs: Inputs, jobs: int) -> str:
    """Adds inputs that are made to those given; answers what is told of it."""
    if inputs.expected:
        raise Fault("--mutate asks for an oracle, or for runs that trap: nothing says what the program should write on an input that is made")
    program = program_for(chosen, plan.cbi, kept, "full")
    source = hashlib.sha256(files.read_bytes(program)).hexdigest()
    made = Made(kept, "made", {"given": inputs.digest(), "program": source, "seed": chosen.seed, "wanted": chosen.mutate, "turns": chosen.turns})
    names, how = made.there()[0], "as an earlier call made them"
    if not names:
        given = [files.read_bytes(path) for path in inputs.paths]
        maker = Maker(plan, kept, program, jobs)
        pieces, tries = maker.make(given, chosen.mutate, random.Random(f"{chosen.seed} {chosen.mutate}"), Told())
        shutil.rmtree(maker.folder)
        names, how = made.write(pieces, "made"), f"in {count_of(tries, 'try', 'tries')}"
    inputs.add(names, [os.path.join(made.folder, name) for name in names])
    return f"{count_of(len(names), 'input')} more made from {inputs.given}, {how}" + ("" if len(names) == chosen.mutate else f"; {chosen.mutate} were asked for, and no more saw anything new")
