"""Tables with numbers, words, quotes, and rows that are too short or too long."""
from random import Random


def field(chance: Random, numeric: bool) -> str:
    if numeric and chance.randrange(10):
        return str(chance.choice([0, 1, 5, 12, -3, 250, -1000, chance.randrange(100000)]))
    text = "".join(chance.choice("abcdef  xyz") for _ in range(chance.choice([0, 1, 3, 5, 8, 14, 20]))).strip()
    kind = chance.randrange(8)
    if kind == 0:
        return '"' + text + ", " + text[:2] + '"'
    if kind == 1:
        return '"' + text[:3] + '""' + text[3:5] + '"'
    if kind == 2 and chance.randrange(3) == 0:
        return '"' + text[:3] + "\n" + text[3:5] + '"'
    return text


def make(chance: Random) -> bytes:
    columns = chance.choice([1, 2, 3, 3, 4, 5, 8, 9])
    numeric = [chance.randrange(2) == 0 for _ in range(columns)]
    lines = [chance.choice(["0", "1", "2", "-1", "-2", "3", "9"]), ",".join(f"c{place}" for place in range(columns))]
    for _ in range(chance.choice([0, 1, 2, 3, 4, 6, 9, 20, 21])):
        many = max(1, columns + chance.choice([0, 0, 0, 0, 0, -1, -2, 1]))
        lines.append(",".join(field(chance, numeric[place] if place < columns else False) for place in range(many)))
    text = "\n".join(lines) + "\n"
    return (text + '"open' if chance.randrange(25) == 0 else text).encode("ascii")
