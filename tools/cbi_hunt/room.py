"""What is told where a hunt finds no room on a disk: what is kept, and what to do. Not proved."""
import argparse
import os
import shutil
from typing import Callable

from cbi_show.calls import NO_ROOM, NO_SPACE
from cbi_show.files import Fault, count_of


def with_room(chosen: argparse.Namespace, folder: str, hunt: Callable[[], int]) -> int:
    """What a hunt comes to. Where it fails for want of room this is told, with what is kept, and what workers left is removed."""
    try:
        return hunt()
    except (Fault, OSError) as trouble:
        if (NO_SPACE not in str(trouble)) if isinstance(trouble, Fault) else trouble.errno not in NO_ROOM:
            raise
    for name in os.listdir(folder):
        if name.startswith(("worker-", "merge-")):
            shutil.rmtree(os.path.join(folder, name), ignore_errors=True)
    raise Fault(told(chosen, folder))


def told(chosen: argparse.Namespace, folder: str) -> str:
    """One line: where there is no room, what is kept, and what to do."""
    if not chosen.keep:
        return f"{NO_SPACE} {os.path.dirname(folder)}: nothing is kept; make room, or take another folder by TMPDIR or --keep"
    batches = os.path.join(folder, "batches")
    spans = [name.split("-") for name in (os.listdir(batches) if os.path.isdir(batches) else []) if name.replace("-", "").isdigit()]
    runs = sum(int(last) - int(first) + 1 for first, last in spans)
    return f"{NO_SPACE} {chosen.keep}: {count_of(runs, 'run')} {'is' if runs == 1 else 'are'} kept there; make room and say the same again, which makes the rest alone"
