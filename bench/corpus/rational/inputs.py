"""Lines of fractions and operators, with enough on the stack most of the time."""
from random import Random


def number(chance: Random) -> str:
    top = chance.choice([0, 1, 2, 3, 5, -1, -2, -7, 10, 12, 100, 999, 123456 if chance.randrange(6) == 0 else 4])
    return str(top) if chance.randrange(2) else f"{top}/{chance.choice([1, 2, 3, 4, 5, 6, 7, 10, 12, 100, -3, 0 if chance.randrange(8) == 0 else 8])}"


def make(chance: Random) -> bytes:
    lines = []
    for _ in range(chance.randint(1, 6)):
        words, depth = [], 0
        for _ in range(chance.randint(2, 14)):
            if depth < 2 and chance.randrange(12) or chance.randrange(3) == 0:
                words.append(number(chance) if chance.randrange(6) else f"R{chance.randrange(4)}")
                depth += 1
            else:
                power = f"p{chance.choice([0, 1, 2, 3, 7, -1, -2])}"
                word = chance.choice(["+", "+", "-", "*", "*", "/", "n", "r", "d", "x", "f", power, "<", "m", f"s{chance.randrange(4)}"])
                words.append(word)
                depth += {"d": 1, "x": 0, "n": 0, "r": 0, "f": 0}.get(word, 0 if word[0] == "p" else -1)
        lines.append(" ".join(words))
    return ("\n".join(lines) + "\n").encode("ascii")
