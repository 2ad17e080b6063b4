"""Commands for the phone book: names come and go."""
from random import Random

NAMES = ["ada", "ann", "bob", "cy", "dan", "eve", "fay", "gus", "hal", "ida", "jo", "kim", "lea", "max", "ned", "ole", "pam", "ray", "sue", "tim"]


def make(chance: Random) -> bytes:
    names = chance.sample(NAMES, chance.choice([3, 6, 10, 20]))
    lines = []
    for _ in range(chance.randint(3, 30)):
        kind = chance.choice("++++++---??<#!@" if chance.randrange(40) else "x")
        name = chance.choice(names if chance.randrange(10) else NAMES)
        lines.append(f"{kind} {name} {chance.randrange(1000)}" if kind == "+" else kind if kind in "!@" else f"{kind} {name}")
    return ("\n".join(lines) + "\n").encode("ascii")
