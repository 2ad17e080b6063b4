"""Writes texts of mail: paragraphs, some of them quoted to several depths, lists, and rules of repeated characters.

    python3 quoted_mails.py COUNT FOLDER SEED
"""
import random
import sys
from pathlib import Path
from typing import List

WORDS = "the a of letters which were written, that it may be: paragraphs (some longer) went on. Then again and no more words".split()


class Writer:
    """Makes texts by chance."""

    def __init__(self, chance: random.Random) -> None:
        self.chance = chance

    def words(self, most: int) -> str:
        return " ".join(self.chance.choice(WORDS) for _ in range(self.chance.randrange(1, most)))

    def paragraph(self, quote: str) -> List[str]:
        return [quote + self.words(12) for _ in range(self.chance.randrange(1, 4))]

    def thread(self) -> List[str]:
        """Answers to answers: quotes whose depth grows and shrinks."""
        rows, depth, mark = [], self.chance.randrange(1, 4), self.chance.choice((">", ">", "> ", "| "))
        for _ in range(self.chance.randrange(1, 5)):
            rows += self.paragraph(mark * depth + ("" if mark.endswith(" ") or not depth else " "))
            depth = max(0, depth + self.chance.choice((-2, -1, 0, 1, 2, 3)))
        return rows

    def block(self) -> List[str]:
        """A block of lines, behind which some are empty."""
        pick = self.chance.randrange(8)
        if pick < 3:
            rows = self.paragraph("")
        elif pick < 5:
            rows = self.thread()
        elif pick == 5:
            rows = [f"{self.chance.choice('-*')} {self.words(6)}" for _ in range(self.chance.randrange(1, 4))]
        elif pick == 6:
            rows = [self.chance.choice("-=*#") * self.chance.randrange(1, 30)]
        else:
            rows = ["/* " + self.words(7) + " */", " * " + self.words(5)]
        return rows + [""] * self.chance.choice((0, 1, 1, 2))


def main(words: List[str]) -> int:
    count, folder, seed = words
    writer = Writer(random.Random(int(seed)))
    for place in range(int(count)):
        rows = [row for _ in range(writer.chance.randrange(1, 5)) for row in writer.block()]
        (Path(folder) / f"m{place:05}").write_text("\n".join(rows) + "\n", encoding="ascii")
    return 0


if __name__ == "__main__":
    sys.exit(main(sys.argv[1:]))
