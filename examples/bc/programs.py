"""Writes random programs for bc: declarations of scalars and arrays in a random order, and random statements behind them.

    python3 programs.py COUNT FOLDER [SEED]
"""
import random
import sys
from pathlib import Path
from typing import List

SCALARS = (3, 20, 50, 70, 90, 110)
ARRAYS = (0, 3, 12, 28, 34, 40)
LETTERS = "abcdefghijklmnopqrstuvwxyz"


def names(first: str, count: int) -> List[str]:
    """So many names, none of which is a word of bc."""
    return [f"{first}{LETTERS[place % 26]}{place // 26}" for place in range(count)]


class Writer:
    """A program as it grows."""

    def __init__(self, chance: random.Random) -> None:
        self.chance = chance
        self.scalars = names("v", chance.choice(SCALARS))
        self.arrays = names("t", chance.choice(ARRAYS))
        self.functions = names("f", chance.choice((0, 0, 1, 3)))

    def number(self) -> str:
        return self.chance.choice(("0", "1", "2", "7", "12", "100", "3.5", ".25"))

    def element(self) -> str:
        return f"{self.chance.choice(self.arrays)}[{self.chance.randrange(30)}]"

    def value(self, depth: int = 0) -> str:
        """An expression of at most three levels."""
        pick = self.chance.randrange(8)
        if depth > 2 or pick < 2:
            return self.number()
        if pick < 4:
            return self.chance.choice(self.scalars)
        if pick == 4 and self.arrays:
            return self.element()
        if pick == 5 and self.functions:
            return f"{self.chance.choice(self.functions)}({self.value(depth + 1)})"
        if pick == 6:
            return f"({self.value(depth + 1)})"
        return f"{self.value(depth + 1)} {self.chance.choice('+-*')} {self.value(depth + 1)}"

    def statement(self) -> str:
        pick = self.chance.randrange(7)
        if pick < 2:
            return f"{self.chance.choice(self.scalars)} = {self.value()}"
        if pick < 4 and self.arrays:
            return f"{self.element()} = {self.value()}"
        if pick == 4:
            return f"if ({self.value(2)} < {self.value(2)}) {self.chance.choice(self.scalars)} = {self.value(2)}"
        if pick == 5:
            return self.chance.choice((f"scale = {self.chance.randrange(6)}", f"for (i = 0; i < {self.chance.randrange(6)}; i++) j = j + i"))
        return self.value()

    def program(self) -> str:
        rows = [f"define {name}(x) {{\n auto y\n y = x + {self.chance.randrange(9)}\n return (y * 2)\n}}" for name in self.functions]
        first = [f"{name} = {self.chance.randrange(50)}" for name in self.scalars]
        first += [f"{name}[{self.chance.randrange(9)}] = {self.chance.randrange(50)}" for name in self.arrays]
        self.chance.shuffle(first)
        rows += first + [self.statement() for _ in range(self.chance.choice((2, 8, 20)))]
        return "\n".join(rows) + "\n"


def main(words: List[str]) -> int:
    if len(words) not in (2, 3) or not all(word.isdigit() for word in words[:1] + words[2:]):
        print("use: programs.py COUNT FOLDER [SEED]", file=sys.stderr)
        return 2
    folder = Path(words[1])
    folder.mkdir(parents=True, exist_ok=True)
    chance = random.Random(int(words[2]) if len(words) == 3 else 1)
    for place in range(int(words[0])):
        (folder / f"p{place:04}").write_text(Writer(chance).program(), encoding="ascii")
    return 0


if __name__ == "__main__":
    sys.exit(main(sys.argv[1:]))
