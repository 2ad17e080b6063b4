"""Compares a ported text with what gcc makes of the files: output and status on each input."""
import os
import shutil
import subprocess
import sys
import tempfile
from typing import Any, Callable, Dict, List, NamedTuple, Optional, Sequence, Tuple

from cbi_port import Missing, Ported
from cbi_port.builds import NARROW, NARROW_CHECKED, NO_END, OWN, OWN_CHECKED, Builds, Files, Ran
from cbi_port.system import Named

SHOWN = 3   # names of inputs in a line
WIDTH, LIMIT = "width", "limit"   # why a difference isn't explained


class Difference(NamedTuple):
    """An input on which the text does something else than gcc's build. Where nothing explains it, `kind` may say of what it comes."""
    name: str
    what: str
    explained: str
    kind: str = ""


class Checked(NamedTuple):
    """`wide` are the inputs on which the author's own build and one of 32 bits do different things; `narrow` is false where there is no such build."""
    equal: int
    total: int
    differences: List[Difference]
    wide: List[str] = []
    narrow: bool = True

    def summary(self) -> str:
        text = f"{self.equal} of {self.total} outputs as gcc's"
        kinds: Dict[str, int] = {}
        for difference in self.differences:
            if difference.explained:
                kinds[difference.explained] = kinds.get(difference.explained, 0) + 1
        return ", ".join([text] + [f"{count} run{'s' * (count > 1)} {why}" for why, count in kinds.items()])

    def notes(self) -> List[str]:
        """What is left out of what is explained, in a line each."""
        rows = []
        if self.wide:
            rows.append(f"{plural(len(self.wide), 'input')} of {self.total} {'does' if len(self.wide) == 1 else 'do'} something else in your own build than in one of 32 bits, "
                        f"which the text is: {several(self.wide)}. No difference there is called explained.")
        deep = [difference.name for difference in self.differences if difference.kind == LIMIT]
        if deep:
            needs, goes = ("needs", "goes") if len(deep) == 1 else ("need", "go")
            rows.append(f"{plural(len(deep), 'run')} {needs} more than 512 calls at once, this tool's limit (trap 12), and gcc's {goes} on: {several(deep)}.")
        if not self.narrow:
            rows.append("gcc builds nothing for 32 bits here (Debian's package gcc-multilib), so what comes of the text's 32 bits isn't known.")
        return rows


def plural(count: int, what: str) -> str:
    return f"{count} {what}{'s' * (count != 1)}"


def several(names: Sequence[str]) -> str:
    """The first names, and how many more there are."""
    more = len(names) - SHOWN
    return ", ".join(names[:SHOWN]) + (f" and {more} more" if more > 0 else "")


class Judged(NamedTuple):
    """How a run of the text is beside gcc's; `wide` where gcc's two builds differ. No difference where it does what the author's build does."""
    wide: bool
    difference: Optional[Difference]


def run_ported(tool: str, program: str, data: bytes, folder: str, turns: int) -> Ran:
    report, given = os.path.join(folder, "report"), os.path.join(folder, "given")
    with open(given, "wb") as file:
        file.write(data)
    done = subprocess.run([tool, "run", "--input", given, "--turns", str(turns), "--report", report, program], stdout=subprocess.PIPE, stderr=subprocess.PIPE)
    if done.returncode:
        return Ran(done.stdout, None, done.stderr.decode("utf-8", "replace").strip())
    with open(report) as text:
        outcome = next(row for row in text if row.startswith("outcome ")).split()
    if outcome[1] == "ended":
        return Ran(done.stdout, int(outcome[2]) & 255, "")
    if outcome[1] == "trapped":
        return Ran(done.stdout, None, f"trap {outcome[2]}")
    return Ran(done.stdout, None, f"cut at its {outcome[2]}")


def first_difference(left: bytes, right: bytes) -> str:
    at = next((index for index, (a, b) in enumerate(zip(left, right)) if a != b), min(len(left), len(right)))
    return f"byte {at + 1}, line {left[:at].count(10) + 1}"


def transformed(tool: str, ported: Ported, folder: str) -> Tuple[Optional[str], str]:
    """The program file of a text; or what `cbi` refuses."""
    text, program = os.path.join(folder, "ported.c"), os.path.join(folder, "ported.cbi")
    with open(text, "wb") as file:
        file.write(ported.text)
    with open(program, "wb") as out:
        done = subprocess.run([tool, "transform", "--mode", "plain", text], stdout=out, stderr=subprocess.PIPE)
    return (program, "") if done.returncode == 0 else (None, done.stderr.decode("utf-8", "replace").strip())


def inputs_below(folder: Optional[str]) -> List[Tuple[str, bytes]]:
    """All files below a folder; an empty input where there is none."""
    if folder is None:
        return [("no input", b"")]
    names = sorted(os.path.join(root, name) for root, _, found in os.walk(folder) for name in found)
    rows = []
    for name in names:
        with open(name, "rb") as file:
            rows.append((name, file.read()))
    return rows


def words_of(args: Any, data: bytes) -> Tuple[List[str], bytes]:
    """The arguments of the original, and what is left of its input."""
    if args == "first-line":
        line, _, rest = data.partition(b"\n")
        return [word.decode("latin-1") for word in line.split()], rest
    return list(args or []), data


def builds_of(files: Files, folder: str) -> Builds:
    """gcc's builds. Missing where it isn't there, or doesn't take the files."""
    if shutil.which("gcc") is None:
        raise Missing("no gcc: Debian's package gcc has it")
    builds = Builds(files, folder)
    if builds.program(OWN) is None:
        # What is written for 32 bits alone.
        builds.made[OWN], builds.made[OWN_CHECKED] = builds.program(NARROW), builds.program(NARROW_CHECKED)
    if builds.program(OWN) is None:
        raise Missing("gcc doesn't take the files")
    return builds


def compare(files: Files, ported: Ported, inputs: Sequence[Tuple[str, bytes]], tool: str, args: Any = None, turns: int = 100000000, named: Named = ()) -> Checked:
    """Runs the files and the text on all inputs. Missing where gcc or the tool isn't there."""
    with tempfile.TemporaryDirectory(prefix="cbi-port-") as folder:
        builds = builds_of(files, folder)
        program, refused = transformed(tool, ported, folder)
        if program is None:
            raise Missing(f"the text isn't taken: {refused}")
        differences, wide = [], []
        for name, data in inputs:
            words, rest = words_of(args, data)
            judged = beside(name, run_ported(tool, program, data, folder, turns), builds.runs(words, rest, named))
            wide += [name] * judged.wide
            differences += [judged.difference] if judged.difference is not None else []
        return Checked(len(inputs) - len(differences), len(inputs), differences, wide, builds.has_narrow())


def is_stopped(ran: Optional[Ran]) -> bool:
    """Whether a sanitizer stopped a run."""
    return ran is not None and (ran.stopped not in ("", NO_END) or ran.status == 99)


def beside(name: str, got: Ran, run: Callable[[str], Optional[Ran]]) -> Judged:
    """A run of the text beside gcc's, which `run` gives by the name of the build.

    What the two builds of gcc write may differ by chance where a sanitizer stops the author's own one, so there they aren't compared.
    """
    due = run(OWN)
    assert due is not None
    if due.stopped == NO_END and got.stopped == "cut at its turns":
        return Judged(False, Difference(name, how(due, got), "cut where gcc's doesn't end"))
    narrow = run(NARROW)
    wide = narrow is not None and narrow != due and not is_stopped(run(OWN_CHECKED))
    if due == got and not due.stopped:
        return Judged(wide, None)
    explained = "" if wide else explanation(due, got, run)
    if wide and narrow == got:
        return Judged(True, Difference(name, how(due, got) + "; gcc's of 32 bits does what the text does", "", WIDTH))
    if not explained and run(OWN_CHECKED) is not None and is_stopped(run(NARROW_CHECKED)):
        return Judged(True, Difference(name, how(due, got) + "; a sanitizer stops gcc's of 32 bits alone", "", WIDTH))
    if not explained and got.stopped == "trap 12":
        return Judged(wide, Difference(name, how(due, got) + ": more than 512 calls at once, the tool's limit", "", LIMIT))
    return Judged(wide, Difference(name, how(due, got), explained, WIDTH if wide else ""))


def how(due: Ran, got: Ran) -> str:
    """In what a run of the text differs from gcc's."""
    what = []
    if due.output != got.output:
        what.append(f"the output differs first at {first_difference(due.output, got.output)}")
    if due.stopped or got.stopped or due.status != got.status:
        what.append(f"gcc's ends with {due.stopped or due.status}, the text's with {got.stopped or got.status}")
    return "; ".join(what)


def explanation(due: Ran, got: Ran, run: Callable[[str], Optional[Ran]]) -> str:
    """Why a run of the text may differ from that of the author's build: this one aborts, ends by a signal, or is stopped by a sanitizer."""
    if due.stopped == "signal 6" and got.stopped in ("trap 13", "trap 14") and due.output == got.output[:len(due.output)]:
        return f"end in {got.stopped} where gcc's aborts"
    if is_stopped(run(OWN_CHECKED)):
        return f"{got.stopped or 'differ'} where a sanitizer stops"
    if due.stopped.startswith("signal") and got.stopped.startswith("trap"):
        return f"{got.stopped} where gcc's ends by {due.stopped}"
    return ""


def tool_at(said: Optional[str]) -> Optional[str]:
    """The executable `cbi`: the one that is said, the one of the repository, or the one on the path."""
    here = os.path.join(os.path.dirname(os.path.dirname(os.path.dirname(os.path.abspath(__file__)))), "crates", "cbi", "out", "cbi")
    for path in (said, os.environ.get("CBI"), here, shutil.which("cbi")):
        if path and os.access(path, os.X_OK):
            return path
    return None


def check(files: Files, ported: Ported, folder: Optional[str], said: Optional[str], args: Any, turns: int, named: Named = ()) -> int:
    """The command `--check`; 0 where each difference is explained."""
    tool = tool_at(said)
    if tool is None:
        print("cbi-port: no executable cbi: --tool names it", file=sys.stderr)
        return 2
    try:
        checked = compare(files, ported, inputs_below(folder), tool, args, turns, named)
    except Missing as missing:
        print(f"cbi-port: {missing}", file=sys.stderr)
        return 2
    for note in checked.notes():
        print(note)
    for difference in checked.differences:
        print(f"{difference.name}: {difference.what}{': ' + difference.explained if difference.explained else ''}")
    print(checked.summary())
    return 0 if all(difference.explained for difference in checked.differences) else 1
