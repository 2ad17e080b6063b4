"""What gcc makes of the files: as their author builds them, and of 32 bits as a ported text has it; each also with sanitizers."""
import argparse
import os
import re
import shlex
import subprocess
import tempfile
from typing import Callable, Dict, List, NamedTuple, Optional, Sequence

from cbi_port.system import Named, place_files

SECONDS = 20
NO_END = "no end"
OWN, NARROW, OWN_CHECKED, NARROW_CHECKED = "own", "narrow", "own, checked", "narrow, checked"
# Floats of 32 and 64 bits are computed in their own width.
NARROWED: List[List[str]] = [["-m32", "-msse2", "-mfpmath=sse"], ["-m32"]]
SANITIZED = ["-O0", "-fsanitize=address,undefined", "-fno-sanitize-recover=all"]
SANITIZER = re.compile(r"(AddressSanitizer: [\w-]+|runtime error: [^\n]*)")


class Ran(NamedTuple):
    """How a run ended: `status` from 0 to 255, or what stopped it."""
    output: bytes
    status: Optional[int]
    stopped: str


class Files(NamedTuple):
    """The files of a program, what the preprocessor is told, and the flags of its author's own build."""
    names: Sequence[str]
    options: Sequence[str] = ()
    flags: Sequence[str] = ()


def build_flags(chosen: argparse.Namespace) -> List[str]:
    """The flags of the author's build, by the options of a script."""
    return shlex.split(chosen.cflags) + ["-fwrapv"] * chosen.wrap


def built(files: Files, more: Sequence[str], out: str) -> Optional[str]:
    """The program, where gcc takes the files."""
    done = subprocess.run(["gcc", "-std=gnu99", "-w", "-g", *files.flags, *more, *files.options, "-o", out, *files.names, "-lm"],
                          stdout=subprocess.PIPE, stderr=subprocess.PIPE)
    return out if done.returncode == 0 else None


def compiled(files: Sequence[str], options: Sequence[str], folder: str, name: str, more: Sequence[str]) -> Optional[str]:
    """The files as gcc builds them, of 32 bits where it can."""
    widths: List[List[str]] = NARROWED + [[]]
    made = (built(Files(files, options), width + list(more), os.path.join(folder, name)) for width in widths)
    return next((out for out in made if out is not None), None)


class Builds:
    """The builds of a program, each made when it is first asked for. Where gcc builds nothing for 32 bits, there are none of these."""

    def __init__(self, files: Files, folder: str) -> None:
        self.files, self.folder = files, folder
        self.made: Dict[str, Optional[str]] = {}

    def program(self, name: str) -> Optional[str]:
        if name not in self.made:
            ways: List[List[str]] = [[]] if name in (OWN, OWN_CHECKED) else NARROWED
            more = SANITIZED if name in (OWN_CHECKED, NARROW_CHECKED) else [] if name == OWN else ["-O0"]
            out = os.path.join(self.folder, re.sub(r"\W+", "-", name))
            self.made[name] = next((it for it in (built(self.files, [*width, *more], out) for width in ways) if it is not None), None)
        return self.made[name]

    def has_narrow(self) -> bool:
        return self.program(NARROW) is not None

    def run(self, name: str, words: Sequence[str], data: bytes, named: Named = ()) -> Optional[Ran]:
        """A run of a build; none where there is no such build."""
        program = self.program(name)
        return run_native(program, words, data, named) if program is not None else None

    def runs(self, words: Sequence[str], data: bytes, named: Named = ()) -> "Callable[[str], Optional[Ran]]":
        """The runs of all builds on an input, by the build's name, each made once."""
        kept: Dict[str, Optional[Ran]] = {}

        def of(name: str) -> Optional[Ran]:
            if name not in kept:
                kept[name] = self.run(name, words, data, named)
            return kept[name]
        return of


def run_native(program: str, words: Sequence[str], data: bytes, named: Named = ()) -> Ran:
    """A run of what gcc made, in a folder that has the files that are named."""
    with tempfile.TemporaryDirectory(prefix="cbi-port-") as folder:
        place_files(folder, words, named, data)
        return run_in_folder(program, words, data, folder)


def run_in_folder(program: str, words: Sequence[str], data: bytes, folder: str) -> Ran:
    environment = dict(os.environ, ASAN_OPTIONS="detect_leaks=0:exitcode=99", UBSAN_OPTIONS="halt_on_error=1:exitcode=99")
    try:
        done = subprocess.run([program, *words], input=data, stdout=subprocess.PIPE, stderr=subprocess.PIPE, timeout=SECONDS, env=environment, cwd=folder)
    except subprocess.TimeoutExpired as late:
        return Ran(late.stdout or b"", None, NO_END)
    told = done.stderr.decode("utf-8", "replace")
    if done.returncode < 0:
        return Ran(done.stdout, None, f"signal {-done.returncode}")
    found = SANITIZER.search(told)
    return Ran(done.stdout, done.returncode & 255, found[1] if found else "")
