"""Writes random grammars for lemon, with comments of all kinds between their rules.

    python3 lemon_grammars.py COUNT FOLDER SEED
"""
import random
import sys
from pathlib import Path
from typing import List

TERMINALS = ("PLUS", "TIMES", "ID", "NUM", "LP", "RP", "COMMA", "SEMI")
WORDS = ("an expression", "a list of names", "see below", "left to right", "token", "rule ::= of")
BANNER = "*/-= "


class Writer:
    """Makes grammars by chance."""

    def __init__(self, chance: random.Random) -> None:
        self.chance = chance

    def comment(self) -> str:
        """A comment: a line, a block, or a banner of signs."""
        pick = self.chance.randrange(4)
        words = self.chance.choice(WORDS)
        if pick == 0:
            return f"// {words}"
        if pick < 3:
            return f"/* {words} */"
        signs = "".join(self.chance.choice(BANNER) for _ in range(self.chance.randrange(1, 12)))
        return f"/*{signs.replace('*/', '--')} {words} {signs[::-1].replace('*/', '--')}*/"

    def rule(self, name: str, names: List[str]) -> str:
        right = [self.chance.choice(names if self.chance.random() < 0.35 else TERMINALS) for _ in range(self.chance.randrange(4))]
        right = [one + (f"(X{place})" if self.chance.random() < 0.2 else "") for place, one in enumerate(right)]
        action = " { A = 1; /* done */ }" if self.chance.random() < 0.3 else ""
        return f"{name}{'(A)' if action else ''} ::= {' '.join(right)}.{action}"

    def grammar(self) -> str:
        names = ["top", "expr", "list", "item", "name"][:self.chance.randrange(2, 6)]
        rows = [f"%left {' '.join(self.chance.sample(TERMINALS, 2))}." for _ in range(self.chance.randrange(2))]
        rows += ["%token_type {int}"] if self.chance.random() < 0.4 else []
        rows += ["%ifdef MORE", "%include { int more; }", "%endif"] if self.chance.random() < 0.2 else []
        for name in names:
            rows += [self.rule(name, names) for _ in range(self.chance.randrange(1, 4))] + [f"{name} ::= {self.chance.choice(TERMINALS)}."]
        for _ in range(self.chance.randrange(4)):
            rows.insert(self.chance.randrange(len(rows) + 1), self.comment())
        return "\n".join(rows) + "\n"


def main(words: List[str]) -> int:
    count, folder, seed = words
    writer = Writer(random.Random(int(seed)))
    for place in range(int(count)):
        (Path(folder) / f"g{place:05}").write_text(writer.grammar(), encoding="ascii")
    return 0


if __name__ == "__main__":
    sys.exit(main(sys.argv[1:]))
