"""Lines for the calculator: mostly whole expressions, some of them wrong."""
from random import Random


def expression(chance: Random, deep: int) -> str:
    kind = chance.randrange(14)
    if deep == 0 or kind < 4:
        return str(chance.choice([0, 1, 2, 3, 7, 10, 25, 100, 999, chance.randrange(100), chance.randrange(2000)]))
    if kind == 4:
        return chance.choice("abcxyz")
    if kind == 5:
        return "-" + expression(chance, deep - 1)
    if kind == 6:
        return "(" + expression(chance, deep - 1) + ")"
    if kind == 7:
        return chance.choice([expression(chance, 0), "(-1)", "(-2)", "(-x)"]) + "^" + chance.choice(["0", "1", "2", "2", "3", "5", "-1", "12"])
    if kind == 8:
        several = [expression(chance, deep - 1) for _ in range(chance.randint(1, 3))]
        return chance.choice(["min", "max", "sum", "sum", "mix"]) + "(" + ", ".join(several) + ")"
    if kind == 9:
        return "abs(" + expression(chance, deep - 1) + ")"
    return expression(chance, deep - 1) + chance.choice(["+", "-", " - ", "*", "/", " % ", " + "]) + expression(chance, deep - 1)


def make(chance: Random) -> bytes:
    lines = []
    for _ in range(chance.randint(1, 6)):
        text = expression(chance, 3)
        if chance.randrange(3) == 0:
            text = f":{chance.choice('abcxyz')} = {text}"
        if chance.randrange(12) == 0:
            text += chance.choice([")", " 5", "?", "+"])
        lines.append(text)
    return ("\n".join(lines) + "\n").encode("ascii")
