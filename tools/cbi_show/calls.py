"""Calls of the executable `cbi`, and what they leave. Not proved."""
import errno
import os
import shutil
import subprocess
import tempfile
from typing import IO, List, Union

from cbi_show.files import Fault

# Where the scripts stand, beside their packages.
HERE = os.path.dirname(os.path.dirname(os.path.realpath(__file__)))
# How want of room is said, which errors of the system say it, and what is written to see it.
NO_SPACE, NO_ROOM, PROBE = "no space left in", (errno.ENOSPC, errno.EDQUOT), bytes(1 << 16)


def executable(name: str) -> str:
    """The executable: from the path, or the one that stands beside the scripts."""
    beside = os.path.join(HERE, "cbi")
    found = shutil.which(name) or (beside if name == "cbi" and os.access(beside, os.X_OK) else None)
    if found:
        return os.path.abspath(found)
    if os.path.dirname(name):
        raise Fault(f"--cbi {name}: " + ("it isn't executable" if os.path.exists(name) else "there is no such file"))
    raise Fault(f"{name} isn't on the path: ./build FOLDER leaves it there, or name it by --cbi")


def call(words: List[str], out: Union[IO[bytes], int]) -> None:
    """Calls `cbi`; what it refuses is a fault, in its own words."""
    done = subprocess.run(words, stdin=subprocess.DEVNULL, stdout=out, stderr=subprocess.PIPE, close_fds=False, check=False)
    if done.returncode:
        said = done.stderr.decode(errors="replace").strip() or f"status {done.returncode}"
        raise Fault(f"{os.path.basename(words[0])} {words[1]}: {said}")


def call_to(path: str, words: List[str]) -> None:
    """As `call`, with the output in a file that is there whole or not at all."""
    try:
        with open(path + ".part", "wb") as out:
            call(words, out)
    except Fault as fault:
        folder = os.path.dirname(os.path.abspath(path))
        raise Fault(f"{NO_SPACE} {folder}") if "write fault" in str(fault) and is_full(folder) else fault
    os.replace(path + ".part", path)


def is_full(folder: str) -> bool:
    """Whether a file of some size can't be written there for want of room."""
    try:
        with tempfile.TemporaryFile(dir=folder) as file:
            file.write(PROBE)
            file.flush()
    except OSError as error:
        return error.errno in NO_ROOM
    return False
