"""Where a proof's processor time goes, by the moments at which the files of its modules were written: an incremental folder has one for each."""
import os
import re
from typing import Callable, Dict, List, Tuple

PARTS = "Lts|Tie|Proof|Kinds|Code|Reads|Layout|Goals|Given|TheLinks?|Statement|Met|Symbol|Instances|Borrow|Answers|Invariants|Author|Mir|Moves|Key|Lends|Facts|Loans"

# a moment, and the processor seconds that were spent by then
Point = Tuple[float, float]


def made_in(kept: str, begun: float) -> List[Tuple[float, str]]:
    """The modules that were written since then, each with its moment, in their order."""
    found = []
    for at, _, files in os.walk(kept):
        if not at.endswith("/records") and "-offers" not in at:
            found += [(os.stat(f"{at}/{name}").st_mtime, name[:-6]) for name in files if name.endswith(".oantt")]
    return sorted(it for it in found if it[0] >= begun)


def spent_by(moment: float, points: List[Point]) -> float:
    """The seconds that were spent by this moment."""
    for (begin, before), (end, after) in zip(points, points[1:]):
        if begin <= moment <= end:
            return before + (after - before) * (moment - begin) / max(end - begin, 1e-9)
    return points[-1][1]


def added(crate: str, points: List[Point], made: List[Tuple[float, str]], named: Callable[[str], str]) -> Dict[str, float]:
    """Seconds by what a module is named as: each took what was spent since the one before."""
    found: Dict[str, float] = {}
    last = 0.0
    for moment, name in made:
        took, last = spent_by(moment, points) - last, spent_by(moment, points)
        key = named(re.sub(rf"^Rattle-{crate}(-proofs|-specs)?\.?", "", name)) or name
        found[key] = found.get(key, 0.0) + took
    return found


def by_kind(crate: str, points: List[Point], made: List[Tuple[float, str]]) -> Dict[str, float]:
    """Seconds by kind of module; Lts is the borrow checker's walk."""
    return added(crate, points, made, lambda path: re.sub(r"-.*", "", path.split(".")[-1]) or "root")


def by_function(crate: str, points: List[Point], made: List[Tuple[float, str]]) -> Dict[str, float]:
    """Seconds by function, and by file of lemmas or definitions."""
    return added(crate, points, made, lambda path: re.sub(rf"\.({PARTS})\b.*", "", path))
