"""Two texts, the second made of the first by changes of lines, of blanks and of letters."""
from random import Random
from typing import List

LINES = ["one", "two", "three", "four words in it", "a", "b", "c", "{", "}", "", "return x;", "int x;", "the end", "x = x + 1;", "a line that is too long"]


def changed(chance: Random, line: str) -> str:
    kind = chance.randrange(8)
    if kind == 0:
        return line + " " * chance.randint(1, 2)
    if kind == 1:
        return line.replace(" ", "  ", 1)
    if kind == 2:
        return line.upper()
    return chance.choice(LINES) if kind < 6 else line + chance.choice(["!", ";", "2"])


def make(chance: Random) -> bytes:
    some = chance.sample(LINES, chance.choice([3, 5, 8, 15]))
    old = [chance.choice(some) for _ in range(chance.choice([0, 1, 3, 5, 8, 12, 16, 19]))]
    new: List[str] = []
    often = chance.choice([3, 6, 12, 40])
    for line in old:
        kind = chance.randrange(3) if chance.randrange(often) == 0 else 3
        if kind == 0:
            new.append(changed(chance, line))
        elif kind == 1:
            new += [line, chance.choice(some)]
        elif kind == 3:
            new.append(line)
    if chance.randrange(6) == 0:
        new += [chance.choice(some) for _ in range(chance.randint(1, 3))]
    if chance.randrange(10) == 0 and new:
        at = chance.randrange(len(new))
        new = new[at:] + new[:at]
    options = "".join(letter for letter in "biu" if chance.randrange(3) == 0) + ("e" if chance.randrange(5) == 0 else "")
    if chance.randrange(30) == 0:
        options += chance.choice(["x", " ", "?"])
    return "".join(line + "\n" for line in [options] + old + ["="] + new).encode("ascii")
