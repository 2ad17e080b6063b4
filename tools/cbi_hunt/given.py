"""What a hunt is given is looked at before anything is begun: names, texts and the page. Not proved."""
import argparse
import codecs
import os
import subprocess
from typing import Optional, Sequence

from cbi_show.files import Fault

LOOKED = 4096                       # bytes of a text
ELF = b"\x7fELF"
# Control bytes that a C text hardly has: all but tab, newline, vertical tab, form feed, carriage return, ^Z and escape. One in so many bytes, or a NUL, is no text.
CONTROL = bytes(byte for byte in range(32) if byte not in (9, 10, 11, 12, 13, 26, 27))
MOST_CONTROL = 10
WIDE = (codecs.BOM_UTF16_LE, codecs.BOM_UTF16_BE)
MOST_TOLD = 5                       # lines of gcc


def check_there(path: str) -> None:
    """A name that can't be reached is told with its reason."""
    try:
        os.stat(path)
    except FileNotFoundError:
        raise Fault(f"{path}: there is no such file or folder")
    except (OSError, ValueError) as error:
        raise Fault(f"{path}: {str(getattr(error, 'strerror', None) or error).lower()}")


def wide(data: bytes) -> bool:
    """Whether this is UTF-16, by its mark or by every second byte of it being 0."""
    return data.startswith(WIDE) or len(data) > 7 and any(data[start::2].count(0) * 10 > 9 * len(data[start::2]) for start in (0, 1))


def check_text(path: str) -> None:
    """A program that is no text of C is refused for what it is."""
    if os.path.isdir(path):
        raise Fault(f"{path} is a folder: name the C files in it")
    try:
        with open(path, "rb") as file:
            data = file.read(LOOKED)
    except OSError as error:
        raise Fault(f"{path}: {(error.strerror or '').lower()}")
    if data.startswith(ELF):
        raise Fault(f"{path} is an executable: name the C files that it was built from")
    if wide(data):
        raise Fault(f"{path} is UTF-16: convert it to UTF-8 (iconv -f UTF-16 -t UTF-8)")
    if b"\0" in data or MOST_CONTROL * sum(byte in CONTROL for byte in data) > len(data):
        raise Fault(f"{path} is a binary file: name a C text")


def check_page(path: Optional[str]) -> None:
    """A page that can't be written is told before the runs are made."""
    if path is None:
        return
    folder = os.path.dirname(path) or "."
    if os.path.isdir(path) or not os.path.isdir(folder) or not os.access(path if os.path.exists(path) else folder, os.W_OK):
        why = "it is a folder" if os.path.isdir(path) else "there is no such folder" if not os.path.isdir(folder) else "it can't be written there"
        raise Fault(f"--html {path}: {why}")


def check_given(chosen: argparse.Namespace) -> None:
    for path in (*chosen.texts, chosen.inputs, chosen.expect, chosen.since):
        if path:
            check_there(path)
    for path in chosen.texts:
        check_text(path)
    check_page(chosen.html)


def gcc_says(files: Sequence[str], options: Sequence[str]) -> Optional[str]:
    """The errors of gcc, where it doesn't take the files as C either; none where it does, or isn't there."""
    try:
        done = subprocess.run(["gcc", "-std=gnu99", "-w", "-fsyntax-only", "-fdiagnostics-color=never", "-fno-diagnostics-show-caret", *options, *files], stdin=subprocess.DEVNULL,
                              stdout=subprocess.DEVNULL, stderr=subprocess.PIPE, check=False, env={**os.environ, "LC_ALL": "C"})
    except OSError:
        return None
    errors = [line for line in done.stderr.decode(errors="replace").splitlines() if "error: " in line]
    if not done.returncode or not errors:
        return None
    rest = [f"and {len(errors) - MOST_TOLD} more errors of gcc"] if len(errors) > MOST_TOLD else []
    return "\n".join(errors[:MOST_TOLD] + rest)
