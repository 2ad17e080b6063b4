"""Writes runs of ccrypt for files_driver.c: files, some of which are in its way, and answers to its questions, of which there may be too few.

    python3 prompts.py COUNT FOLDER SEED
"""
import random
import sys
from pathlib import Path
from typing import List


def text(chance: random.Random) -> str:
    names = chance.sample(("f", "g", "h"), chance.randrange(1, 4))
    options = ["-e", "-Kkey"] + ["-f"] * (chance.random() < 0.15) + ["-T"] * (chance.random() < 0.15)
    there = [name for name in names if chance.random() < 0.9]
    there += [f"{name}.cpt" for name in names if chance.random() < 0.35]
    asked = sum(name.endswith(".cpt") for name in there)
    answers = [chance.choice(("y", "yes", "n", "no", "", "y ", "maybe")) for _ in range(asked - (chance.random() < 0.3))]
    rows = [" ".join(options + names)]
    for name in there:
        lines = chance.randrange(1, 3)
        rows += [f"{name} {lines}"] + [f"text of {name} {chance.randrange(100)}" for _ in range(lines)]
    return "\n".join(rows + [""] + answers) + "\n"


def main(words: List[str]) -> int:
    count, folder, seed = words
    chance = random.Random(int(seed))
    for place in range(int(count)):
        (Path(folder) / f"p{place:05}").write_text(text(chance), encoding="ascii")
    return 0


if __name__ == "__main__":
    sys.exit(main(sys.argv[1:]))
