"""Lines with repetitions, near and far, and runs."""
from random import Random


def make(chance: Random) -> bytes:
    lines = []
    for _ in range(chance.randint(1, 4)):
        line = ""
        for _ in range(chance.randint(1, 9)):
            kind = chance.randrange(6)
            if kind < 2 or not line:
                line += "".join(chance.choice("abcde") for _ in range(chance.randint(1, 8)))
            elif kind < 4:
                start = chance.randrange(len(line))
                line += line[start:start + chance.randint(2, 22)]
            elif kind == 4:
                line += chance.choice("xyz") * chance.choice([1, 2, 3, 4, 5, 9, 20, 40, 130])
            else:
                line += "".join(chance.choice("fghijklmnop") for _ in range(chance.randint(4, 20)))
        lines.append(line[:380])
    return ("\n".join(lines) + "\n").encode("ascii")
