"""Writes random programs for dc: numbers, operators, registers, arrays, macros, and lines that are read and done by `?`.

    python3 dc_programs.py COUNT FOLDER SEED
"""
import random
import sys
from pathlib import Path
from typing import List

REGISTERS = "abcde"
UNARY = ("d", "v", "Z", "X", "r", "p", "n", "a", "P")
BINARY = ("+", "-", "*", "/", "%", "~", "^")


class Writer:
    """Makes programs by chance. The macro `m` calls no other, so that each program ends."""

    def __init__(self, chance: random.Random) -> None:
        self.chance = chance

    def number(self) -> str:
        text = str(self.chance.choice((0, 1, 2, 3, 7, 10, 16, 99, 12345, 31415926535)))
        return self.chance.choice(("", "", "_")) + text + self.chance.choice(("", "", "", ".5", ".125"))

    def register(self) -> str:
        name = self.chance.choice(REGISTERS)
        return self.chance.choice((f"s{name}", f"S{name}", f"l{name}", f"l{name}", f"L{name}", f"{self.chance.randrange(4)}:{name}", f"{self.chance.randrange(4)};{name}"))

    def power(self) -> str:
        return f"{self.number()} {self.chance.randrange(5)}^"

    def step(self) -> str:
        pick = self.chance.randrange(12)
        if pick < 4:
            return self.number()
        if pick < 6:
            return self.chance.choice(BINARY[:-1]) if self.chance.random() < 0.9 else self.power()
        if pick < 8:
            return self.chance.choice(UNARY)
        if pick < 10:
            return f"{self.number()} {self.register()}"
        return self.chance.choice(("z", "f", "c", "K", "I", "O", f"{self.chance.randrange(6)}k", "16o", "10o", "3k"))

    def body(self, most: int) -> str:
        return " ".join(self.step() for _ in range(self.chance.randrange(1, most)))

    def compared(self) -> str:
        return f"{self.number()} {self.number()} {self.chance.choice(('<', '>', '=', '!<'))}m"

    def asked(self) -> str:
        """A line that `?` reads; in some a string isn't closed."""
        line = self.body(5)
        if self.chance.random() < 0.3:
            line += f" [{self.chance.choice(('text', '1 2+', ''))}" + self.chance.choice(("]", "]", "] p", "", " p"))
        return "?" + line + "\np"

    def program(self) -> str:
        rows = [f"[{self.body(6)}]sm"]
        for _ in range(self.chance.randrange(2, 9)):
            pick = self.chance.randrange(8)
            rows.append(f"[{self.body(5)}]{self.chance.choice(('x', 'p', 'P', 'Z p'))}" if pick == 0 else "lmx" if pick == 1 else self.asked() if pick == 2 else self.compared() if pick == 3 else self.body(8))
        return "\n".join(rows + ["f"]) + "\n"


def main(words: List[str]) -> int:
    count, folder, seed = words
    writer = Writer(random.Random(int(seed)))
    for place in range(int(count)):
        (Path(folder) / f"d{place:05}").write_text(writer.program(), encoding="ascii")
    return 0


if __name__ == "__main__":
    sys.exit(main(sys.argv[1:]))
