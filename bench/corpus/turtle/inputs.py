"""Words for the turtle, with repetitions and meanings."""
from random import Random


def words(chance: Random, deep: int, names: str) -> str:
    out = []
    for _ in range(chance.randint(1, 7)):
        kind = chance.randrange(16)
        if kind < 5:
            out.append(f"f{chance.choice([1, 2, 3, 5, 8, 11])}")
        elif kind < 6:
            out.append(f"b{chance.choice(['', 1, 2, 4, 7])}")
        elif kind < 9:
            out.append(chance.choice("rrl"))
        elif kind < 10:
            out.append(chance.choice("udd"))
        elif kind < 11:
            out.append("c" + chance.choice("xo+"))
        elif kind < 13 and deep:
            out.append(f"{chance.choice([0, 1, 2, 3, 4])}[{words(chance, deep - 1, names)}]")
        elif kind < 15 and names:
            out.append(chance.choice(names))
        elif chance.randrange(4) == 0:
            out.append("h")
        elif chance.randrange(12) == 0:
            out.append(chance.choice("]q[7"))
    return " ".join(out)


def make(chance: Random) -> bytes:
    text, names = "", ""
    for name in "ABC"[:chance.randrange(4)]:
        text += f"={name} {words(chance, 1, names if chance.randrange(10) else 'ABC')};\n"
        names += name
    return (text + words(chance, 3, names if chance.randrange(20) else "ABCDE") + "\n").encode("ascii")
