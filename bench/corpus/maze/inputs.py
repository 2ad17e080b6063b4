"""Small mazes, with keys, doors and costs."""
from random import Random


def maze(chance: Random) -> str:
    rows, columns = chance.randint(2, 5), chance.randint(3, 8)
    if chance.randrange(40) == 0:
        columns = chance.choice([20, 21])
    some = chance.choice(["....#", "....#1", "...##~", "...#aAb3", "....#aABb2~"])
    cells = [[chance.choice(some) for _ in range(columns)] for _ in range(rows)]
    for letter in "ST" if chance.randrange(15) else "S":
        cells[chance.randrange(rows)][chance.randrange(columns)] = letter
    return "\n".join("".join(row) for row in cells) + "\n"


def make(chance: Random) -> bytes:
    return "\n".join(maze(chance) for _ in range(chance.randint(1, 2))).encode("ascii")
