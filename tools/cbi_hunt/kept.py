"""The folder of a hunt: what is kept in it, and which runs are missing. Not proved."""
import argparse
import contextlib
import fcntl
import json
import os
import re
import shutil
import signal
from typing import Dict, Iterator, List, Optional

from cbi_hunt.runs import Batch
from cbi_hunt.signals import heed
from cbi_show.files import Fault, folder_for_a_while

# How it is told that what a hunt was begun with isn't what it is to go on with, where the values themselves say nothing.
OTHER = {"program": "another program, or with other schemes", "parts": "another number of parts", "inputs": "other inputs or expected outputs", "oracle": "another oracle, or none",
         "since": "another old version, or none"}


class Kept:
    """The folder of a hunt: the program, a collection for each batch that was made, and what was made of them."""

    def __init__(self, folder: str):
        self.folder = folder
        self.batches = self.path("batches")
        os.makedirs(self.batches, exist_ok=True)
        self.lock = open(self.path("hunt.lock"), "w", encoding="ascii")
        try:
            fcntl.flock(self.lock, fcntl.LOCK_EX | fcntl.LOCK_NB)
        except OSError:
            raise Fault(f"another hunt is at work in {folder}")
        self.clean()

    def clean(self) -> None:
        """Removes the scratch of workers, also of a hunt that was ended by force."""
        for name in os.listdir(self.folder):
            if name.startswith(("worker-", "merge-")):
                shutil.rmtree(self.path(name), ignore_errors=True)
        for name in os.listdir(self.batches):
            if name.endswith(".part"):
                os.remove(os.path.join(self.batches, name))

    def path(self, *parts: str) -> str:
        return os.path.join(self.folder, *parts)

    def batch_path(self, batch: Batch) -> str:
        return os.path.join(self.batches, batch.name())

    def made(self) -> List[Batch]:
        """The batches that are there, by their names; what an interrupted call left half is no batch."""
        found = [re.fullmatch(r"([1-9][0-9]*)-([1-9][0-9]*)", name) for name in os.listdir(self.batches)]
        return sorted(Batch(int(name[1]), int(name[2])) for name in found if name)

    def begun_rate(self) -> Optional[int]:
        """The rate of the hunt that is kept here, where there is one: a hunt that goes on without a word keeps it."""
        try:
            with open(self.path("hunt.json"), encoding="utf-8") as file:
                return int(json.load(file)["rate"])
        except FileNotFoundError:
            return None

    def settle(self, settings: Dict[str, object]) -> None:
        """A hunt goes on only with what it was begun with, since a run's number says how it was made."""
        path = self.path("hunt.json")
        if not os.path.exists(path):
            with open(path + ".part", "w", encoding="utf-8") as file:
                json.dump(settings, file, indent=2)
            os.replace(path + ".part", path)
            return
        with open(path, encoding="utf-8") as file:
            begun = {"parts": 1, "hangs": "neither", "status": "ignore", "since": None, **json.load(file)}
        for key, value in settings.items():
            if begun.get(key) != value:
                other = OTHER.get(key, f"another {key} ({begun.get(key)}, and not {value})")
                raise Fault(f"the hunt in {self.folder} was begun with {other}: take another folder, or go on with what it was")


@contextlib.contextmanager
def folder_of(chosen: argparse.Namespace) -> Iterator[str]:
    """The folder that is kept, or one that goes with the hunt."""
    if chosen.keep:
        try:
            os.makedirs(chosen.keep, exist_ok=True)
        except OSError as error:
            raise Fault(f"--keep {chosen.keep}: {error.strerror}")
        if os.listdir(chosen.keep) and not os.path.exists(os.path.join(chosen.keep, "hunt.lock")):
            raise Fault(f"--keep {chosen.keep} has other files: take a folder that is new, or that an earlier hunt kept")
        yield os.path.abspath(chosen.keep)
    else:
        with folder_for_a_while("cbi-hunt-") as folder:
            try:
                yield folder
            finally:
                heed(signal.SIG_IGN)


def missing_batches(made: List[Batch], runs: int, size: int) -> List[Batch]:
    """The runs up to a number that no batch has, in batches of at most a size."""
    batches: List[Batch] = []
    next_run = 1
    for first, last in [*made, (runs + 1, runs + 1)]:
        end = min(first, runs + 1)
        batches += [Batch(start, min(start + size, end) - 1) for start in range(next_run, end, size)]
        next_run = max(next_run, last + 1)
    return batches
