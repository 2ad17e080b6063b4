"""Makes a failing input smaller as long as it fails alike: by lines first, and then by bytes (delta debugging). Not proved."""
import os
from typing import Callable, Dict, List, NamedTuple, Optional, Sequence, Tuple

from cbi_show import files
from cbi_hunt.again import Again, Repeater
from cbi_hunt.counts import Told
from cbi_hunt.runs import Plan, judged
from cbi_show.files import count_of, status_of
from cbi_show.seen import ending_of

MOST_STEPS = 3000


class Wanted(NamedTuple):
    """How a run is to fail: by which end, and with which counters of the one site of its program, if any; where its status is what fails, with that status. `old` is the program of
    the old version, which is not to fail, where there is one; `changed` where an output other than its own has failed."""
    program: str
    counters: Tuple[int, ...]
    outcome: str
    status: int = 0
    old: Optional[str] = None
    changed: bool = False


class Enough(Exception):
    """So many runs were made that it ends here."""


def without(pieces: Sequence[bytes], start: int, size: int) -> List[bytes]:
    return [*pieces[:start], *pieces[start + size:]]


def smallest(pieces: List[bytes], fails: Callable[[bytes], bool]) -> List[bytes]:
    """As few of the pieces as still fail: none of them can be left out by itself (Zeller and Hildebrandt's ddmin, by complements)."""
    parts = 2
    while pieces:
        size = -(-len(pieces) // parts)
        for start in range(0, len(pieces), size):
            fewer = without(pieces, start, size)
            if fails(b"".join(fewer)):
                pieces, parts = fewer, max(parts - 1, 2)
                break
        else:
            if size == 1:
                break
            parts = min(2 * parts, len(pieces))
    return pieces


class Smaller:
    """Makes an input smaller, a run a step."""

    def __init__(self, plan: Plan, folder: str, wanted: Wanted, told: Told):
        self.plan, self.wanted, self.told = plan, wanted, told
        self.repeater, self.before = Repeater(plan, folder, "smaller"), Repeater(plan, folder, "smaller.old")
        self.path = os.path.join(folder, "smaller.input")
        self.known: Dict[bytes, bool] = {}
        self.steps, self.best = 0, b""

    def fails(self, data: bytes) -> bool:
        """Whether a run on these bytes fails alike."""
        if data not in self.known:
            if self.steps == MOST_STEPS:
                raise Enough
            self.steps += 1
            self.known[data] = self.fails_now(data)
            if self.known[data]:
                self.best = data
            self.told.show(f"smaller: {count_of(len(self.best), 'byte')} after {count_of(self.steps, 'run')}")
        return self.known[data]

    def fails_now(self, data: bytes) -> bool:
        with open(self.path, "wb") as file:
            file.write(data)
        run = self.repeater.run(self.wanted.program, self.path)
        counters = run.sites.get(0, (0, 0, 0))
        if ending_of(run.outcome) != self.wanted.outcome or self.wanted.counters and not any(counters[which] for which in self.wanted.counters):
            return False
        if self.wanted.status:
            return status_of(run.outcome) == self.wanted.status and self.spared(run)
        judged_wrong = self.wanted.outcome != "ended" or self.wanted.changed or judged(self.plan, self.path, run.output, run.outcome) == "fail"
        return judged_wrong and self.spared(run)

    def spared(self, run: Again) -> bool:
        """Whether the old version, where there is one, doesn't fail on the same input."""
        if self.wanted.old is None:
            return True
        old = self.before.run(self.wanted.old, self.path)
        if old.outcome.startswith("trapped ") or self.plan.hangs and old.outcome == "cut turns" or self.plan.status and status_of(old.outcome):
            return False
        if self.wanted.changed and self.wanted.outcome == "ended":
            return old.outcome.startswith("ended") and files.read_bytes(old.output) != files.read_bytes(run.output)
        return not (self.plan.oracle and old.outcome.startswith("ended") and judged(self.plan, self.path, old.output, old.outcome) == "fail")

    def of(self, data: bytes) -> Optional[bytes]:
        """A smaller input; none where this one itself doesn't fail alike."""
        try:
            if not self.fails(data):
                return None
            fewer = b"".join(smallest(data.splitlines(keepends=True), self.fails))
            smallest([bytes([byte]) for byte in fewer], self.fails)
        except Enough:
            pass
        finally:
            self.told.clear()
            self.repeater.close()
            self.before.close()
            if os.path.exists(self.path):
                os.remove(self.path)
        return self.best
