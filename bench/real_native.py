"""What gcc makes of a program: outputs, what sanitizers say, and which lines each run came to."""
import glob
import json
import os
import re
import shutil
import subprocess
import sys
from collections import Counter
from typing import Counter as Counts
from typing import Dict, FrozenSet, List, NamedTuple, Optional, Sequence, Set, Tuple

from real_bug import HERE, Program
from real_source import Missing, need

sys.path.insert(0, os.path.join(os.path.dirname(HERE), "tools"))
from cbi_hunt.sanitized import CHECKS, ERROR, OPTIONS, stacks_of  # noqa: E402

SECONDS = 10
ADDRESSES = ["-O1", "-fsanitize=address", "-fno-sanitize-recover=all", "-fno-omit-frame-pointer"]
AT_ONCE = 40            # runs of which one call of gcov reads the counters
WIDTHS: List[List[str]] = [["-m32", "-msse2", "-mfpmath=sse"], []]
STOPPED = 99            # the status by which a sanitizer stops a run
FILE_LINES = 1000000    # a line of the third file is 2,000,000 and its number

Output = Tuple[Optional[int], bytes]


def built(program: Program, source: str, name: str, more: Sequence[str]) -> str:
    """The program as gcc builds it, of 32 bits where it can, in a folder of that name beside the source's."""
    need("gcc")
    home = os.path.join(f"{source}.{name}", "program")
    if os.path.exists(home):
        return home
    os.makedirs(os.path.dirname(home), exist_ok=True)
    said = ""
    for width in WIDTHS:
        words = ["gcc", *width, "-std=gnu99", "-w", "-g", *more, *program.options, "-o", home, *program.texts(), "-lm"]
        done = subprocess.run(words, cwd=os.path.join(source, program.folder), stdout=subprocess.PIPE, stderr=subprocess.STDOUT, check=False)
        if done.returncode == 0:
            return home
        said = said or done.stdout.decode("utf-8", "replace").strip().split("\n")[0]
    raise Missing(f"gcc doesn't build {program.name}: {said}")


def words_of(program: Program) -> List[str]:
    return program.arguments.split() if program.arguments else []


def ran(home: str, program: Program, path: str, more: Optional[Dict[str, str]] = None) -> "subprocess.CompletedProcess[bytes]":
    """A run on the input of a file. Where it has arguments or a driver, which may write files, it is in a folder that goes, with the input under its first argument. One that doesn't end is ended
    by SIGTERM."""
    folder, words = os.path.dirname(home), words_of(program)
    named = next((word for word in words if not word.startswith("-")), None)
    if named or program.driver:
        folder = emptied(home + ".run")
    if named:
        shutil.copyfile(path, os.path.join(folder, named))
    with open(path, "rb") as given, subprocess.Popen([home, *words], cwd=folder, stdin=given, stdout=subprocess.PIPE, stderr=subprocess.PIPE,
                                                     env={**os.environ, **OPTIONS, **(more or {})}) as child:
        try:
            out, err = child.communicate(timeout=SECONDS)
        except subprocess.TimeoutExpired:
            child.terminate()
            out, err = child.communicate()
    return subprocess.CompletedProcess(child.args, child.returncode, out, err)


def emptied(folder: str) -> str:
    """A folder with nothing in it."""
    if not os.path.isdir(folder) or os.listdir(folder):
        shutil.rmtree(folder, ignore_errors=True)
        os.makedirs(folder)
    return folder


def output_of(home: str, program: Program, path: str) -> Output:
    """The status and the output of a run; the status is none where a signal, a sanitizer or the time ended it."""
    done = ran(home, program, path)
    return (None if done.returncode < 0 or done.returncode == STOPPED else done.returncode), done.stdout


# Sanitizers

class Said(NamedTuple):
    """What a sanitizer says most often, at which line of which function, in how many of how many runs it stops, and in how many it says just that."""
    stops: int
    runs: int
    message: str
    place: str
    same: int


def error_in(said: str) -> Optional[Tuple[str, str]]:
    """What a sanitizer says, and at which line of which function of the program; none where it says nothing."""
    error = ERROR.search(said)
    if not error:
        return None
    own = [row for row in stacks_of(said).get("used", []) if not row[1].startswith("/usr/") and "libsanitizer" not in row[1] and "sysdeps" not in row[1]]
    at = re.search(r"^(\S+?):(\d+):\d+: runtime error", said, re.MULTILINE)
    place = f"{os.path.basename(own[0][1])}:{own[0][2]} in {own[0][0]}" if own else f"{os.path.basename(at[1])}:{at[2]}" if at else "nowhere"
    return (error[1] or error[2]).strip(), place


def sanitizers(program: Program, source: str, paths: Sequence[str]) -> Said:
    """What gcc's sanitizers say of runs on these inputs."""
    home = built(program, source, "checked", CHECKS)
    errors = [error_in(ran(home, program, path).stderr.decode("utf-8", "replace")) for path in paths]
    found: Counts[Tuple[str, str]] = Counter(error for error in errors if error)
    (message, place), same = found.most_common(1)[0] if found else (("", ""), 0)
    return Said(sum(found.values()), len(paths), re.sub(r"0x[0-9a-f]+", "..", message), place, same)


# Coverage

class Coverage(NamedTuple):
    """The files of a program, as seen from its source's folder, all lines with code, the function of each, and of each run the lines that it came to. A line is a number: see FILE_LINES."""
    files: List[str]
    coded: List[int]
    functions: Dict[int, str]
    runs: List[FrozenSet[int]]

    def numbered(self, changed: Dict[str, List[int]]) -> List[int]:
        """Lines by file as such numbers."""
        return [self.files.index(name) * FILE_LINES + line for name, lines in changed.items() if name in self.files for line in lines]


class Gcov:
    """Reads gcc's counters of many runs."""

    def __init__(self, program: Program, source: str):
        need("gcov")
        self.program, self.folder = program, os.path.join(source, program.folder)
        self.home = built(program, source, "covered", ["-O0", "--coverage", os.path.join(HERE, "real_cover.c")])
        self.notes = glob.glob(os.path.join(os.path.dirname(self.home), "*.gcno"))
        self.files: List[str] = []
        self.coded: Set[int] = set()
        self.functions: Dict[int, str] = {}

    def some(self, paths: Sequence[str]) -> List[FrozenSet[int]]:
        folders = [f"{self.home}.c{number}" for number, _ in enumerate(paths)]
        for folder, path in zip(folders, paths):
            os.makedirs(folder)
            for note in self.notes:
                os.symlink(note, os.path.join(folder, os.path.basename(note)))
            ran(self.home, self.program, path, {"GCOV_PREFIX": folder, "GCOV_PREFIX_STRIP": "99"})
        counters = [name for folder in folders for name in sorted(glob.glob(os.path.join(folder, "*.gcda")))]
        found: Dict[str, Set[int]] = {folder: set() for folder in folders}
        said = subprocess.run(["gcov", "-t", "-j", *counters], cwd=self.folder, stdout=subprocess.PIPE, stderr=subprocess.DEVNULL, check=False).stdout if counters else b""
        for text in filter(None, said.split(b"\n")):
            told = json.loads(text)
            found[os.path.dirname(told["data_file"])] |= self.lines_in(told)
        for folder in folders:
            shutil.rmtree(folder)
        return [frozenset(found[folder]) for folder in folders]

    def lines_in(self, told: Dict[str, List[Dict[str, object]]]) -> Set[int]:
        """The lines with a count of what gcov says of one object; all lines with code are kept, with their functions."""
        came: Set[int] = set()
        for file in told["files"]:
            name = os.path.normpath(os.path.join(self.program.folder, str(file["file"])))
            if name.startswith("/usr/") or name.endswith("real_cover.c"):
                continue
            if name not in self.files:
                self.files.append(name)
            first = self.files.index(name) * FILE_LINES
            for line in file["lines"]:  # type: ignore[attr-defined]
                self.coded.add(first + line["line_number"])
                self.functions[first + line["line_number"]] = line.get("function_name", "")
                if line["count"]:
                    came.add(first + line["line_number"])
        return came


def coverage(program: Program, source: str, paths: Sequence[str]) -> Coverage:
    """Runs the program on each of these inputs."""
    gcov = Gcov(program, source)
    runs: List[FrozenSet[int]] = []
    for start in range(0, len(paths), AT_ONCE):
        runs += gcov.some(paths[start:start + AT_ONCE])
    return Coverage(gcov.files, sorted(gcov.coded), gcov.functions, runs)
