"""Commands for the bank: accounts of each kind, amounts that fit and some that don't."""
from random import Random

NAMES = ["ann", "bob", "cy", "dora", "eva", "franz-josef", "gus", "hal", "ida", "jo", "kim", "lea", "max", "ned"]


def make(chance: Random) -> bytes:
    names = chance.sample(NAMES, chance.choice([2, 3, 4, 5, 14]))
    lines = []
    for name in names:
        lines.append(f"open {name} {chance.choice(['giro', 'giro', 'saving', 'young', 'young', 'gold' if chance.randrange(6) == 0 else 'giro'])}")
        if chance.randrange(2):
            lines.append(f"put {name} {chance.choice([5000, 7000, 30000])}")
    for _ in range(chance.randint(3, 24)):
        name = chance.choice(names if chance.randrange(15) else NAMES)
        amount = chance.choice([1, 50, 100, 999, 1000, 2500, 5000, 5001, 20000, 100000, chance.randrange(3000), 0, 999999 if chance.randrange(4) == 0 else 10])
        kind = chance.choice(["put", "put", "put", "take", "take", "take", "move", "move", "month", "limit", "show", "close", "all"])
        if kind == "move":
            lines.append(f"move {name} {chance.choice(names)} {amount}")
        elif kind in ("put", "take", "limit"):
            lines.append(f"{kind} {name} {amount}")
        else:
            lines.append(kind if kind in ("month", "all") else f"{kind} {name}")
    return ("\n".join(lines) + "\n").encode("ascii")
