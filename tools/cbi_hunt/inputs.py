"""The inputs of a hunt, and what the program should write for each. Not proved."""
import argparse
import hashlib
import itertools
import os
from typing import Dict, List, Optional, Sequence, Tuple

import cbi_show.files
from cbi_show.files import Fault, count_of

# What AFL++ leaves in a folder of its own: of the first three the files are inputs, and the rest are no inputs of anyone.
OF_FUZZERS = ("queue", "crashes", "hangs", ".state", ".synced", ".cur_input")

MOST_BYTES = 16777216  # of an input


class Inputs:
    """The inputs of a hunt: their names, their files, and the files of what is expected, or none. `lines` names the file whose lines they are, or `folder` the folder that they are in."""
    folder: Optional[str] = None
    large: Sequence[str] = ()

    def __init__(self, names: List[str], paths: List[str], expected: Optional[List[str]], lines: Optional[str] = None, hidden: Sequence[str] = ()):
        self.names, self.paths, self.expected, self.lines, self.hidden = names, paths, expected, lines, list(hidden)
        self.given = self.own = len(names)
        self.places: List[int] = []

    def add(self, names: List[str], paths: List[str], own: bool = True) -> None:
        """Puts inputs that were made behind those that were given. Neighbours of a failing one are no inputs of the hunt's own, and come last."""
        self.names, self.paths = self.names + names, self.paths + paths
        self.own += len(names) if own else 0

    def leave_out_large(self) -> None:
        """Leaves out those that are larger than `cbi` takes; their names stay as `large`."""
        fits = [os.path.getsize(path) <= MOST_BYTES for path in self.paths]
        self.large = [name for name, fit in zip(self.names, fits) if not fit]
        if self.large and not any(fits):
            raise Fault(f"all inputs are larger than {MOST_BYTES:,} bytes, the most that cbi takes")
        self.names, self.paths = list(itertools.compress(self.names, fits)), list(itertools.compress(self.paths, fits))
        self.expected = self.expected and list(itertools.compress(self.expected, fits))
        self.places = list(itertools.compress(range(len(fits)), fits))
        self.given = self.own = len(self.names)

    def line_of(self, place: int) -> int:
        """The number of the line that an input is, where inputs are lines."""
        return (self.places[place] if self.places else place) + 1

    def digest(self) -> str:
        """What a kept hunt is compared by: names and bytes of all inputs, so that run numbers stay what they were."""
        whole = hashlib.sha256()
        for name, *paths in zip(self.names, self.paths, *([self.expected] if self.expected else [])):
            whole.update(os.fsencode(name) + b"\0")
            for path in paths:
                whole.update(hashlib.sha256(cbi_show.files.read_bytes(path)).digest())
        return whole.hexdigest()

    def has_carriage_returns(self) -> bool:
        """Whether the first expected output has lines that end as on Windows, which no program here writes."""
        return self.expected is not None and b"\r\n" in cbi_show.files.read_bytes(self.expected[0])


def files_of(folder: str) -> Tuple[Dict[str, str], List[str]]:
    """The plain files of a folder and of its subfolders by their names from there on, and what is hidden. Of what AFL++ leaves its inputs are taken."""
    files: Dict[str, str] = {}
    hidden: List[str] = []
    for here, folders, names in os.walk(folder):
        fuzzed = "fuzzer_stats" in names
        inside = os.path.relpath(here, folder)
        plain = frozenset(names)
        for name in sorted(names + folders):
            whole = name if inside == "." else os.path.join(inside, name)
            if name.startswith("."):
                hidden.append(whole)
            elif name in plain and not fuzzed and not (name == "README.txt" and any(other.startswith("id:") for other in names)) and os.path.isfile(os.path.join(here, name)):
                files[whole] = os.path.join(here, name)
        folders[:] = sorted(name for name in folders if not name.startswith(".") and (not fuzzed or name in OF_FUZZERS))
    return files, [name for name in hidden if os.path.basename(name) not in OF_FUZZERS]


def inputs_of_folder(folder: str, expect: Optional[str]) -> Inputs:
    files, hidden = files_of(folder)
    wanted = {} if expect else {name: path for name, path in files.items() if name.endswith(".expected") and name[:-9] in files}
    names = sorted(name for name in files if name not in wanted)
    if not names:
        raise Fault(f"{folder} has no files: each input is a file of its own, or --inputs names a file of lines")
    if not expect and not wanted:
        return Inputs(names, [files[name] for name in names], None, None, hidden)
    due = expected_of_folder(expect) if expect else {name[:-9]: path for name, path in wanted.items()}
    missing = [name for name in names if name not in due]
    if missing:
        rest = f", and {len(missing) - 1} more inputs have none" if len(missing) > 1 else ""
        raise Fault(f"nothing says what the input {missing[0]} should give: there is no "
                    + (f"{os.path.join(expect, missing[0])}" if expect else f"{os.path.join(folder, missing[0] + '.expected')}") + rest)
    return Inputs(names, [files[name] for name in names], [due[name] for name in names], None, hidden)


def expected_of_folder(folder: str) -> Dict[str, str]:
    if not os.path.isdir(folder):
        raise Fault(f"--expect {folder} is no folder, and --inputs is one")
    files, _ = files_of(folder)
    short = {name[:-9]: path for name, path in files.items() if name.endswith(".expected")}
    return {**short, **files}


def inputs_of_lines(path: str, expect: Optional[str], folder: str) -> Inputs:
    """Inputs that are lines: each becomes a file, with its newline."""
    lines = lines_of(path)
    names = [f"line{number:0{len(str(len(lines)))}}" for number in range(1, len(lines) + 1)]
    if not lines:
        raise Fault(f"{path} is empty: each of its lines is to be an input")
    paths = write_lines(os.path.join(folder, "inputs"), names, lines)
    if not expect:
        return Inputs(names, paths, None, path)
    due = lines_of(expect)
    if len(due) != len(lines):
        raise Fault(f"{path} has {count_of(len(lines), 'line')} and {expect} {count_of(len(due), 'line')}: a line each is expected")
    return Inputs(names, paths, write_lines(os.path.join(folder, "expected"), names, due), path)


def lines_of(path: str) -> List[bytes]:
    if os.path.isdir(path):
        raise Fault(f"--expect {path} is a folder, and --inputs a file of lines")
    lines = cbi_show.files.read_bytes(path).split(b"\n")
    return [line + b"\n" for line in (lines[:-1] if lines[-1] == b"" else lines)]


def write_lines(folder: str, names: List[str], lines: List[bytes]) -> List[str]:
    os.makedirs(folder, exist_ok=True)
    paths = [os.path.join(folder, name) for name in names]
    for path, line in zip(paths, lines):
        with open(path, "wb") as file:
            file.write(line)
    return paths


def inputs_of(chosen: argparse.Namespace, folder: str) -> Inputs:
    if os.path.isdir(chosen.inputs):
        inputs = inputs_of_folder(chosen.inputs, chosen.expect)
        inputs.folder = chosen.inputs
    else:
        inputs = inputs_of_lines(chosen.inputs, chosen.expect, folder)
    inputs.leave_out_large()
    return inputs
