"""Texts of few and of many letters, even and uneven."""
from random import Random


def make(chance: Random) -> bytes:
    lines = []
    for _ in range(chance.randint(1, 2)):
        kind = chance.randrange(5)
        some = chance.choice(["a", "ab", "abc", "abcdefgh", "the cat sat on a mat", "aaaaaaaabbbbccd"])
        text = "".join(chance.choice(some) for _ in range(chance.choice([0, 1, 2, 5, 10, 20, 40])))
        if kind == 0:
            text += "".join(letter * 2 ** place for place, letter in enumerate("zyxwvu"[:chance.randint(1, 6)]))
        lines.append(text)
    return ("\n".join(lines) + "\n").encode("ascii")
