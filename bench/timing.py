"""Runs processes and measures them, for the scripts beside this file."""
import hashlib
import os
import re
import shutil
import subprocess
import tempfile
import time
from typing import Callable, List, NamedTuple, Optional, Sequence, Tuple


class Timed(NamedTuple):
    """The status, processor seconds, seconds and megabytes of a process, the hash of what it wrote, and what it said on standard error."""

    status: int
    seconds: float
    passed: float
    memory: int
    digest: str
    said: str


def exit_code(status: int) -> int:
    """The status that a process ended with; the negative number of the signal where one ended it."""
    return -os.WTERMSIG(status) if os.WIFSIGNALED(status) else os.WEXITSTATUS(status)


def timed(command: Sequence[str], out_path: str) -> Timed:
    """Runs a command whose out goes to a file."""
    began = time.time()
    with open(out_path, "wb") as out, subprocess.Popen(command, stdout=out, stderr=subprocess.PIPE) as child:
        assert child.stderr
        said = child.stderr.read()
        _, status, used = os.wait4(child.pid, 0)
        child.returncode = exit_code(status)
    with open(out_path, "rb") as text:
        digest = hashlib.sha256(text.read()).hexdigest()
    seconds = used.ru_utime + used.ru_stime
    return Timed(child.returncode, seconds, time.time() - began, used.ru_maxrss // 1024, digest, said.decode("ascii", "replace").strip())


def compared(commands: Sequence[Tuple[str, List[str]]], out_path: str, tell: Callable[[str], str]) -> None:
    """Prints what each command took, with what `tell` says of what it wrote to standard error, and whether all wrote the same bytes."""
    digests = []
    for who, command in commands:
        it = timed(command, out_path)
        print(f"  {who:5} status {it.status} {it.seconds:7.2f} s of processor, {it.passed:7.2f} s, {it.memory} MB, {tell(it.said)}", flush=True)
        if it.status == 0:
            digests.append(it.digest)
        else:
            print(it.said[-300:])
    print("  not compared" if len(digests) < len(commands) else "  the same bytes" if len(set(digests)) == 1 else "  OTHER BYTES")


def instructions(command: Sequence[str]) -> Optional[int]:
    """How many instructions a command takes, as callgrind counts them; None where there is no valgrind (Debian's `valgrind`)."""
    valgrind = shutil.which("valgrind")
    if not valgrind:
        return None
    with tempfile.TemporaryDirectory() as folder:
        words = [valgrind, "--tool=callgrind", f"--callgrind-out-file={os.path.join(folder, 'counts')}", *command]
        said = subprocess.run(words, stdin=subprocess.DEVNULL, stdout=subprocess.DEVNULL, stderr=subprocess.PIPE, check=False).stderr.decode("ascii", "replace")
    found = re.search(r"Collected : (\d+)", said)
    if not found:
        raise SystemExit(f"callgrind counted nothing of {' '.join(command[:2])} ..: {said.strip()[-300:]}")
    return int(found[1])
