"""Commands for the queue of patients: those that leave or change are there more often than not."""
from random import Random
from typing import List


def make(chance: Random) -> bytes:
    here: List[int] = []
    lines = []
    for _ in range(chance.randint(4, 60)):
        kind = chance.choice("aaaaaaaaaaccllllnnttppo" if chance.randrange(40) else "xq")
        who = chance.randrange(40) if chance.randrange(25) else chance.choice([39, 40, 77])
        if kind in "cl" and here and chance.randrange(12):
            who = chance.choice(here)
        if kind in "ac":
            lines.append(f"{kind} {who} {chance.choice([1, 2, 3, 3, 4, 5, 5, 8, 9, 10 if chance.randrange(5) == 0 else 2])}")
            here.append(who)
        elif kind == "l":
            lines.append(f"l {who}")
            here = [one for one in here if one != who]
        elif kind == "t":
            lines.append(f"t {chance.choice([1, 5, 10, 15, 30, 40])}")
        else:
            lines.append(kind)
    return ("\n".join(lines) + "\n").encode("ascii")
