"""Compares a ported text with gcc's build of the files on the inputs of a hunt: each is run once natively. Not proved.

Runs of the text come first. Where one is cut at its turns gcc's may hang as well, so it is given a time by how long the others took, and is ended then.
"""
import argparse
import subprocess
import tempfile
import time
from typing import List, Sequence, Tuple

from cbi_show import files
import cbi_port
from cbi_hunt.counts import Told
from cbi_hunt.inputs import Inputs
from cbi_show.files import count_of
from cbi_port import check
from cbi_port.builds import OWN, Builds, Files, Ran, build_flags

MOST_CHECKED = 300     # inputs that are compared
MOST_DIFFERENCES = 3
LEAST_PATIENCE, TIMES = 1.0, 20   # seconds, and times the longest run that ended
BOTH_HANG = "hang in both builds"

Chance = Tuple[str, bytes]


class Comparison:
    """The runs of both builds, input by input."""

    def __init__(self, chosen: argparse.Namespace, builds: Builds, program: str, cbi: str, folder: str):
        self.chosen, self.builds, self.program, self.cbi, self.folder = chosen, builds, program, cbi, folder
        self.longest = 0.0
        self.differences: List[check.Difference] = []
        self.wide: List[str] = []

    def arguments(self, data: bytes) -> Tuple[List[str], bytes]:
        from cbi_hunt.texts import words_of
        return check.words_of(words_of(self.chosen), data)

    def compare(self, chances: Sequence[Chance]) -> check.Checked:
        """Those that were cut come last, when it is known how long a run takes."""
        later = []
        for name, data in chances:
            got = check.run_ported(self.cbi, self.program, data, self.folder, self.chosen.turns)
            if got.stopped == "cut at its turns":
                later.append((name, data, got))
            else:
                self.one(name, data, got)
        for name, data, got in later:
            if self.hangs(data):
                self.differences.append(check.Difference(name, "", BOTH_HANG))
            else:
                self.one(name, data, got)
        return check.Checked(len(chances) - len(self.differences), len(chances), self.differences, self.wide, self.builds.has_narrow())

    def one(self, name: str, data: bytes, got: Ran) -> None:
        words, rest = self.arguments(data)
        begun = time.monotonic()
        run = self.builds.runs(words, rest)
        due = run(OWN)
        if due is not None and not due.stopped:
            self.longest = max(self.longest, time.monotonic() - begun)
        judged = check.beside(name, got, run)
        self.wide += [name] * judged.wide
        self.differences += [judged.difference] if judged.difference is not None else []

    def hangs(self, data: bytes) -> bool:
        """Whether gcc's build doesn't end either, in a time that is long beside that of the runs that ended."""
        words, rest = self.arguments(data)
        try:
            subprocess.run([str(self.builds.program(OWN)), *words], input=rest, stdout=subprocess.DEVNULL, stderr=subprocess.DEVNULL, check=False, timeout=max(LEAST_PATIENCE, TIMES * self.longest))
        except subprocess.TimeoutExpired:
            return True
        return False


def compare(chosen: argparse.Namespace, cbi: str, ported: cbi_port.Ported, chances: Sequence[Chance]) -> check.Checked:
    """Missing where gcc isn't there, or doesn't take the files."""
    with tempfile.TemporaryDirectory(prefix="cbi-hunt-") as folder:
        builds = check.builds_of(Files(chosen.texts, chosen.cpp, build_flags(chosen)), folder)
        program, refused = check.transformed(cbi, ported, folder)
        if program is None:
            raise cbi_port.Missing(f"the text isn't taken: {refused}")
        return Comparison(chosen, builds, program, cbi, folder).compare(chances)


def compared(chosen: argparse.Namespace, cbi: str, ported: cbi_port.Ported, inputs: Inputs) -> Tuple[str, List[str]]:
    """How the ported text does beside gcc's build of the files, on the inputs; and the differences that nothing explains."""
    chances = [(name, files.read_bytes(path)) for name, path in list(zip(inputs.names, inputs.paths))[:MOST_CHECKED]]
    told = Told()
    told.show(f"comparing {count_of(len(chances), 'output')} with gcc's")
    try:
        found = compare(chosen, cbi, ported, chances)
    except cbi_port.Missing as missing:
        return f"not compared with gcc's: {missing}", []
    finally:
        told.clear()
    odd = [difference for difference in found.differences if not difference.explained and not difference.kind]
    lines = [f"  {difference.name}: {difference.what}" for difference in odd[:MOST_DIFFERENCES]]
    if odd:
        lines.insert(0, f"{count_of(len(odd), 'output')} {'differs' if len(odd) == 1 else 'differ'} from gcc's and nothing says why: what is hunted may be of the port.")
    if len(inputs.names) > len(chances):
        return f"{found.summary()} (of {len(inputs.names)} inputs the first {len(chances)} were looked at)", found.notes() + lines
    return found.summary(), found.notes() + lines
