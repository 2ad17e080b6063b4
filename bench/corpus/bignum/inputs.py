"""Lines that calculate with numbers of very different lengths."""
from random import Random


def number(chance: Random) -> str:
    kind = chance.randrange(8)
    if kind < 3:
        text = str(chance.randrange(100))
    elif kind < 6:
        text = str(chance.randrange(10 ** chance.choice([3, 6, 9, 12, 20])))
    elif kind == 6:
        text = chance.choice("19") + chance.choice("09") * chance.randrange(1, 24)
    else:
        text = chance.choice(["0", "00", "007", "9" * 47, "9" * 48, "1" + "0" * 48])
    return ("-" if chance.randrange(5) == 0 else "") + text


def make(chance: Random) -> bytes:
    lines = []
    for _ in range(chance.randint(1, 5)):
        op = chance.choice("++--*/%^<g!sq" if chance.randrange(5) == 0 else "++--*/%<g!s")
        if op in "!s":
            first = str(chance.randrange(45)) if op == "!" else number(chance)
            lines.append(f"{first} {op}")
        elif op == "^":
            lines.append(f"{chance.randrange(-12, 100)} ^ {chance.randrange(30)}")
        else:
            lines.append(f"{number(chance)} {op} {number(chance)}")
    return ("\n".join(lines) + "\n").encode("ascii")
