"""Writes JSON texts whose strings have escapes: control characters, pairs of surrogates, and some that stand alone.

    python3 escaped_texts.py COUNT FOLDER SEED
"""
import random
import sys
from pathlib import Path
from typing import List

PLAIN = ("\\n", "\\t", "\\\"", "\\\\", "\\/", "\\b", "\\f", "\\r", "\\u0041", "\\u00e9", "\\u20ac")
LONE, NUL = 0.004, 0.00004   # how often a character is half of a pair, and U+0000


class Writer:
    """Makes texts by chance."""

    def __init__(self, chance: random.Random) -> None:
        self.chance = chance

    def character(self) -> str:
        pick = self.chance.random()
        if pick < NUL:
            return "\\u0000"
        if pick < NUL + LONE:
            return f"\\ud8{self.chance.randrange(256):02x}"
        if pick < 0.03:
            return f"\\ud8{self.chance.randrange(256):02x}\\udc{self.chance.randrange(256):02x}"
        return self.chance.choice(PLAIN) if pick < 0.25 else self.chance.choice("abcdefgh XYZ.,:")

    def string(self) -> str:
        return '"' + "".join(self.character() for _ in range(self.chance.randrange(9))) + '"'

    def value(self, depth: int = 0) -> str:
        pick = self.chance.randrange(8)
        if pick < 3 or depth > 2:
            return self.string()
        if pick == 3:
            return self.chance.choice(("true", "false", "null", "0", "-12", "3.5e2", "1234567890123"))
        parts = range(self.chance.randrange(5))
        if pick < 6:
            return "[" + ", ".join(self.value(depth + 1) for _ in parts) + "]"
        return "{" + ", ".join(f"{self.string()}: {self.value(depth + 1)}" for _ in parts) + "}"


def main(words: List[str]) -> int:
    count, folder, seed = words
    writer = Writer(random.Random(int(seed)))
    for place in range(int(count)):
        text = "[" + ", ".join(writer.value() for _ in range(writer.chance.randrange(1, 5))) + "]\n"
        (Path(folder) / f"j{place:05}").write_text(text, encoding="ascii")
    return 0


if __name__ == "__main__":
    sys.exit(main(sys.argv[1:]))
