"""Writes streams of events for libyaml's tests/run-emitter-test-suite.c, as the test suite of YAML has them.

    python3 yaml_events.py COUNT FOLDER SEED
"""
import random
import sys
from pathlib import Path
from typing import List

WORDS = ("a", "b", "one two", "x: y", "- z", "# no", "'", "true", "12", "long words of a longer text that has to be folded at a column", "c\\nd", "e\\n\\nf\\n", " g", "h ", "\\ti")


class Writer:
    """Makes the events of a stream by chance."""

    def __init__(self, chance: random.Random) -> None:
        self.chance = chance
        self.rows: List[str] = []
        self.anchors: List[str] = []

    def anchor(self) -> str:
        """An anchor that a later alias may name, before one node in six."""
        if self.chance.random() > 1 / 6:
            return ""
        self.anchors.append(f"n{len(self.anchors)}")
        return f" &{self.anchors[-1]}"

    def scalar(self) -> None:
        style = self.chance.choice(":::::'\"|>")
        text = self.chance.choice(WORDS) if self.chance.random() < 0.95 else ""
        self.rows.append(f"=VAL{self.anchor()} {style}{text}")

    def key(self) -> None:
        """A key: one in twelve is an alias, where there is something to name."""
        if self.anchors and self.chance.random() < 1 / 12:
            self.rows.append(f"=ALI *{self.chance.choice(self.anchors)}")
        else:
            self.rows.append(f"=VAL{self.anchor()} :{self.chance.choice('klmnopqrst')}")

    def node(self, depth: int) -> None:
        pick = self.chance.randrange(8)
        if pick == 0 and self.anchors:
            self.rows.append(f"=ALI *{self.chance.choice(self.anchors)}")
        elif pick < 4 or depth > 3:
            self.scalar()
        else:
            self.collection(depth, pick > 5)

    def collection(self, depth: int, mapping: bool) -> None:
        name, flow = ("MAP", " {}") if mapping else ("SEQ", " []")
        self.rows.append(f"+{name}{flow if self.chance.random() < 0.3 else ''}{self.anchor()}")
        for _ in range(self.chance.randrange(4)):
            if mapping:
                self.key()
            self.node(depth + 1)
        self.rows.append(f"-{name}")

    def stream(self) -> str:
        self.rows = ["+STR"]
        for _ in range(self.chance.choice((1, 1, 1, 2, 3))):
            self.anchors = []
            self.rows.append("+DOC" + self.chance.choice(("", " ---")))
            self.node(0) if self.chance.random() < 0.2 else self.collection(0, self.chance.random() < 0.7)
            self.rows.append("-DOC" + self.chance.choice(("", "", " ...")))
        return "\n".join(self.rows + ["-STR"]) + "\n"


def main(words: List[str]) -> int:
    count, folder, seed = words
    writer = Writer(random.Random(int(seed)))
    for place in range(int(count)):
        (Path(folder) / f"e{place:05}").write_text(writer.stream(), encoding="ascii")
    return 0


if __name__ == "__main__":
    sys.exit(main(sys.argv[1:]))
