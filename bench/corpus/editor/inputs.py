"""Commands for the line editor; after some lines are there they are changed, moved and undone."""
from random import Random

WORDS = ["one", "two", "three", "a long line of words", "some nineteen letters", "x", "more and more", "ab", "twice", ""]


def make(chance: Random) -> bytes:
    lines = [f"a {chance.choice(WORDS)} {chance.choice(WORDS)}" for _ in range(chance.randrange(6))]
    for _ in range(chance.randint(2, 18)):
        kind = chance.choice("aaidddsssgmmjjjuuupn7l")
        if kind in "ai":
            lines.append(f"{kind} {chance.choice(WORDS)} {chance.choice(WORDS)}")
        elif kind == "s":
            lines.append(f"s/{chance.choice(['o', 'e', 'one', 'and', 'x', ' ', 'w', ''])}/{chance.choice(['', 'y', 'oo', 'some other words', 'e'])}/")
        elif kind == "g":
            lines.append(f"g/{chance.choice(['o', 'two', 'x', 'long', 'zz'])}")
        elif kind == "m":
            lines.append(f"m {chance.randrange(7)}")
        elif kind == "n":
            lines.append(str(chance.randint(1, 6)))
        elif kind == "7":
            lines.append(chance.choice(["q", "99", "s", "s/", "1", "2"]))
        else:
            lines.append(kind)
    return ("\n".join(lines) + "\n").encode("ascii")
