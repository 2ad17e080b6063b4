"""Writes runs of unifdef for files_driver.c: a file that defines and undefines symbols, and a text whose conditions ask for them.

    python3 conditions.py COUNT FOLDER SEED
"""
import random
import sys
from pathlib import Path
from typing import List

NAMES = ("ALPHA", "BETA", "GAMMA", "DELTA", "SIZE", "DEBUG")


class Writer:
    """Makes texts by chance."""

    def __init__(self, chance: random.Random) -> None:
        self.chance = chance
        self.rows: List[str] = []

    def name(self) -> str:
        return self.chance.choice(NAMES)

    def condition(self) -> str:
        pick = self.chance.randrange(6)
        if pick < 2:
            return f"defined({self.name()})"
        if pick == 2:
            return f"{self.name()} {self.chance.choice(('==', '<', '>=', '!='))} {self.chance.randrange(4)}"
        if pick == 3:
            return f"!defined {self.name()}"
        if pick == 4:
            return f"{self.condition()} {self.chance.choice(('&&', '||'))} {self.condition()}"
        return self.name()

    def plain(self) -> str:
        return self.chance.choice(("int a;", "char *s = \"x\";", "/* a comment */", "f(1); // call", "", "g('\\'');", "/* two\n   lines */"))

    def defines(self) -> None:
        """Symbols of a configuration; one line in nine undefines one."""
        for _ in range(self.chance.randrange(1, 7)):
            if self.chance.random() < 1 / 9:
                self.rows.append(f"#undef {self.name()}")
            else:
                self.rows.append(f"#define {self.name()} {self.chance.choice(('0', '1', '2', '3'))}")
            if self.chance.random() < 0.3:
                self.rows.append(self.chance.choice(("", "/* next */")))

    def block(self, depth: int) -> None:
        for _ in range(self.chance.randrange(1, 4)):
            pick = self.chance.randrange(5)
            if pick < 3 or depth > 3:
                self.rows.append(self.plain())
            else:
                self.conditional(depth)

    def conditional(self, depth: int) -> None:
        self.rows.append(self.chance.choice((f"#if {self.condition()}", f"#ifdef {self.name()}", f"#ifndef {self.name()}")))
        self.block(depth + 1)
        while self.chance.random() < 0.25:
            self.rows.append(f"#elif {self.condition()}")
            self.block(depth + 1)
        if self.chance.random() < 0.4:
            self.rows.append("#else")
            self.block(depth + 1)
        self.rows.append("#endif")

    def text(self) -> str:
        self.rows = []
        self.defines()
        given = ["-f defs", f"defs {len(self.rows)}"] + self.rows + [""]
        self.rows = []
        for _ in range(self.chance.randrange(1, 4)):
            self.conditional(0)
            self.block(2)
        return "\n".join(given + self.rows) + "\n"


def main(words: List[str]) -> int:
    count, folder, seed = words
    writer = Writer(random.Random(int(seed)))
    for place in range(int(count)):
        (Path(folder) / f"c{place:05}").write_text(writer.text(), encoding="ascii")
    return 0


if __name__ == "__main__":
    sys.exit(main(sys.argv[1:]))
