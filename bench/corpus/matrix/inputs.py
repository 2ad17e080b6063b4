"""Matrices and commands on them; sizes fit more often than not."""
from random import Random


def matrix(chance: Random, name: str, rows: int, columns: int) -> str:
    few = chance.choice([[0, 1], [0, 1, 2, 3, -1], list(range(-9, 20)), [5]])
    return f"{name} {rows}x{columns} " + " ".join(str(chance.choice(few)) for _ in range(rows * columns))


def make(chance: Random) -> bytes:
    side = chance.choice([1, 2, 2, 3, 3, 4])
    names, lines = "ABCD", []
    for name in names[:chance.randint(2, 4)]:
        square = chance.randrange(3)
        lines.append(matrix(chance, name, side if square else chance.randint(1, 5), side if square else chance.randint(1, 5)))
    for _ in range(chance.randint(2, 8)):
        kind = chance.choice("++***tdpsseemm" if chance.randrange(30) else "xq")
        pick = lambda: chance.choice(names if chance.randrange(12) else "EFG")
        words = [kind, pick()] + ([pick()] if kind in "+*" else []) + ([pick()] if kind in "+*tem" else [])
        lines.append(" ".join(words))
        if kind in "+*tem":
            lines.append("p " + words[-1])
    return ("\n".join(lines) + "\n").encode("ascii")
