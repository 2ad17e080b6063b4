"""Patterns, some of them bad, and lines to look at."""
from random import Random


def pattern(chance: Random, deep: int) -> str:
    parts = []
    for _ in range(chance.randint(1, 4)):
        kind = chance.randrange(12)
        if kind < 6 or deep == 0:
            part = chance.choice(["a", "b", "c", "ab", ".", "x"])
        elif kind < 8:
            part = chance.choice(["[abc]", "[^a]", "[a-c]", "[^b-x]", "[]a]", "[-a]", "[0-9]"])
        elif kind < 10:
            part = "(" + "|".join(pattern(chance, deep - 1) for _ in range(chance.randint(1, 3))) + ")"
        elif kind == 10:
            part = chance.choice(["^", "$", "\\.", "\\*", "\\^"])
        else:
            part = "b"
        parts.append(part + chance.choice(["", "", "", "*", "+", "?", "{2}", "{1,3}", "{0,2}"]))
    return "".join(parts)


def make(chance: Random) -> bytes:
    first = pattern(chance, 2)[:39]
    if chance.randrange(10) == 0:
        first += "|" + pattern(chance, 0)[:6]
    if chance.randrange(30) == 0:
        first = first[:5] + chance.choice(["(", ")", "[", "{", "{3,1}"]) + first[5:]
    lines = [first]
    for _ in range(chance.randint(1, 5)):
        lines.append("".join(chance.choice("aaabbbccxx0.*^") for _ in range(chance.randrange(14))))
    return ("\n".join(lines) + "\n").encode("ascii")
