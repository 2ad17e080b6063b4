"""Paragraphs with commands between them."""
from random import Random

WORDS = ["a", "to", "the", "of", "word", "line", "paragraph", "straight", "edges", "between", "incomprehensibilities", "antidisestablishmentarianism",
         "is", "and", "it"]


def make(chance: Random) -> bytes:
    lines = []
    for _ in range(chance.randint(1, 8)):
        if chance.randrange(2):
            kind = chance.choice("wipjlcrbtnx" if chance.randrange(8) == 0 else "wipjjlcrbtn")
            if kind in "wip":
                kind += f" {chance.choice([0, 2, 4, 6, 10, 14, 20, 30, 50, -2])}"
            elif kind == "t":
                kind += " " + " ".join(chance.choice(WORDS) for _ in range(chance.randint(1, 6)))
            lines.append("." + kind)
        if chance.randrange(5) == 0:
            lines.append("")
        lines.append(" ".join(chance.choice(WORDS) for _ in range(chance.randint(1, 14))))
    return ("\n".join(lines) + "\n").encode("ascii")
