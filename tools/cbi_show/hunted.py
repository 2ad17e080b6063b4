"""What a hunt hands to those who show it: how it was made, and one failing run to look at. Not proved.

It stands as told.json in the folder of the hunt, so that `cbi-show --hunt` can show the hunt again.
"""
import json
from typing import Any, Dict, List, NamedTuple, Optional, Tuple

import cbi_show.files
from cbi_show.broke import Broke, plain_of, read_broke
from cbi_show.files import Fault


class Example(NamedTuple):
    """A failing run to look at: its input, what it wrote beside what was expected, how it is made again, and where it broke; `status` is its exit status where that fails."""
    name: str
    run: int
    input: bytes
    size: int
    outcome: str
    wrote: bytes
    due: Optional[bytes]
    line: int
    again: str
    made_from: Optional[int] = None
    steps: int = 0
    status: int = 0
    broke: Optional[Broke] = None


class Hanging(NamedTuple):
    """Where some of the runs that were cut were seen last: at this statement, and how many of those that were looked at."""
    file: str
    line: int
    function: str
    statement: str
    times: int


class File(NamedTuple):
    """A failing input as it can be opened: its path, or the file and the number of its line; and its size."""
    path: str
    size: int


class Sample(NamedTuple):
    """Which runs are ranked where a collection doesn't hold all: how many of the failing ones and of the others. An even one was drawn without a look at how runs went."""
    failing: int
    all_failing: int
    others: int
    all_others: int
    even: bool


class Since(NamedTuple):
    """How two versions did on the same inputs: how many fail in the new one alone, in both, and in the old one alone, of how many; a few names of those that fail in both;
    and the lines that the new version has and the old one hasn't, file by file."""
    old: str
    alone: int
    both: int
    mended: int
    inputs: int
    names: List[str]
    changed: Dict[str, List[int]]


class Hunted(NamedTuple):
    """How a hunt was made. `names` are those of the failing inputs by their places, of which there are `inputs`, and `files` how these can be opened; `notes` sum the hunt up. `folder` is
    where it was made: paths are relative to it. `examples` has a failing run for each bug, or one alone where there is no bug, and `helps` what may help where facts are weak; a `warning` is told first.
    Behind the first `own` inputs stand neighbours of a failing one; it is 0 where there are none."""
    command: str
    version: str
    date: str
    source: str
    source_hash: str
    program: str
    seed: int
    rate: int
    runs: int
    turns: int
    policy: str
    hangs: bool
    inputs: int
    names: Dict[int, str]
    notes: List[str]
    advice: str
    hanging: List[Hanging]
    examples: List[Example] = []
    sample: Optional[Sample] = None
    folder: str = ""
    files: Dict[int, File] = {}
    helps: List[str] = []
    by_status: bool = False
    warning: str = ""
    since: Optional[Since] = None
    own: int = 0

    def example_of(self, bug: int) -> Optional[Example]:
        """The failing run of a bug, by its number."""
        return self.examples[bug - 1] if bug <= len(self.examples) else None

    def place_of(self, run: int) -> int:
        return (run - 1) % self.inputs

    def neighbours_of(self, runs: List[int]) -> int:
        """On how many neighbours these runs are."""
        return sum(place >= self.own for place in set(map(self.place_of, runs))) if self.own else 0

    def weighed(self, failing: int, successful: int) -> Tuple[int, int]:
        """As many ranked runs as numbers that stand to each other as these do among all runs. Under `relabel` failing runs come to count as successful ones, so
        there the numbers stay those of the ranked runs."""
        sample = self.sample
        if sample is None or sample.even or self.policy == "relabel":
            return failing, successful
        return failing * sample.all_failing * sample.others, successful * sample.all_others * sample.failing

    def names_of(self, runs: List[int]) -> List[str]:
        """The names of the inputs of these runs, each once."""
        return [self.names[place] for place in dict.fromkeys(map(self.place_of, runs)) if place in self.names]

    def files_of(self, runs: List[int]) -> List[File]:
        """The inputs of these runs as they can be opened, each once, the smallest first."""
        places = [place for place in dict.fromkeys(map(self.place_of, runs)) if place in self.files]
        return [self.files[place] for place in sorted(places, key=lambda place: (self.files[place].size, place))]


OF_BYTES = ("input", "wrote", "due")


def write_hunted(path: str, hunted: Hunted) -> None:
    plain: Dict[str, Any] = hunted._asdict()
    plain["names"], plain["files"] = sorted(hunted.names.items()), [(place, *file) for place, file in sorted(hunted.files.items())]
    plain["examples"] = [{**{key: value.decode("latin-1") if isinstance(value, bytes) else value for key, value in example._asdict().items()}, "broke": plain_of(example.broke)}
                         for example in hunted.examples]
    with open(path, "w", encoding="utf-8") as file:
        json.dump(plain, file, indent=1)


def example_in(plain: Dict[str, Any]) -> Example:
    plain.pop("of_row", None)
    broke = read_broke(plain.pop("broke", None))
    return Example(broke=broke, **{key: value.encode("latin-1") if key in OF_BYTES and value is not None else value for key, value in plain.items()})


def read_hunted(path: str) -> Hunted:
    """What a hunt left, also one of an earlier version, which had one example, and no places of what it says of runs without end."""
    try:
        plain = json.loads(cbi_show.files.read_bytes(path).decode("utf-8"))
        before = plain.pop("example", None)
        examples = [example_in(one) for one in plain.pop("examples", [before] if before else [])]
        names = {int(place): str(name) for place, name in plain.pop("names")}
        hanging = [Hanging(*one) if len(one) > 2 else Hanging("", 0, "", str(one[0]), int(one[1])) for one in plain.pop("hanging")]
        files = {int(place): File(str(name), int(size)) for place, name, size in plain.pop("files", [])}
        sample, since = plain.pop("sample", None), plain.pop("since", None)
        return Hunted(since=since and Since(*since), names=names, hanging=hanging, examples=examples, sample=sample and Sample(*sample), files=files, **plain)
    except (ValueError, KeyError, TypeError, UnicodeError):
        raise Fault(f"{path}: it hasn't what cbi-hunt leaves there")
